//! Sleep entry in words: its moves, and why it is refused.

use reference::{Obstacle, SleepMove, State, Table};
use sailgarnet::{Answer, Request, Verdict, Version};

use crate::commands::disagreement;
use crate::trace::{Part, Purpose};
use crate::words::device_state;
use crate::{backend, Failure};

/// The planner's list for a sleep entry for Sx, cut into the calls of each move.
pub fn parts(table: &[u8], state: &[u8], x: u32, list: &[u8]) -> Result<Vec<Part>, Failure> {
    let moves = reference::sleep_moves(table, state, x).map_err(disagreement)?;
    if moves.is_empty() {
        let purpose = no_move(table, state).map_err(disagreement)?;
        let label = "no device moves".into();
        return Ok(vec![Part::labelled(label, 0..list.len() / 4, purpose)]);
    }
    let (mut parts, mut first, mut state) = (Vec::new(), 0, state.to_vec());
    for step in moves {
        let request = Request::move_to(step.device as u32, step.to.into());
        let effect = reference::effect(table, &state, backend::reference_request(request));
        let purpose = Purpose::of_request(&effect.map_err(disagreement)?);
        // Enough for both versions.
        let mut plan = [0; Version::Two.plan_bytes()];
        let answer = backend::plan(table, &mut state, request, &mut plan);
        let calls = &plan[..answer.plan_length()];
        if !list[4 * first..].starts_with(calls) {
            return Err(other_calls());
        }
        let end = first + calls.len() / 4;
        parts.push(Part::labelled(label(step), first..end, purpose));
        first = end;
    }
    if 4 * first == list.len() {
        Ok(parts)
    } else {
        Err(other_calls())
    }
}

fn label(step: SleepMove) -> String {
    let (from, to) = (device_state(step.from), device_state(step.to));
    format!("device {}: {from} to {to}", step.device)
}

/// The purpose of the calls where every device stays.
fn no_move(table: &[u8], state: &[u8]) -> Result<Purpose, reference::Answer> {
    let table = Table::read(table)?;
    let state = State::read(&table, state)?;
    Ok(Purpose::of_switching(state.on(), state.needed(&table)))
}

/// The list does not have the calls of the moves, which must not happen.
fn other_calls() -> Failure {
    Failure::new("the sleep entry does not have the calls of its moves; please report this".into())
}

/// The sentence of a refusal of sleep entry for Sx, if there is more to say than the
/// answer itself does, and the lines after it.
pub fn refusal(answer: Answer, table: &[u8], state: &[u8], x: u32) -> Option<(String, String)> {
    match answer.verdict()? {
        Verdict::BadRequest => Some(bad_request(x)),
        Verdict::ArmedForOther => armed_for_other(table, state, answer.place as usize, x),
        Verdict::NoChoice => no_choice(table, state, x),
        _ => None,
    }
}

/// Answer 10. The planner gives it for S0, the checker always.
fn bad_request(x: u32) -> (String, String) {
    match x {
        0 => (
            "sleep entry is for S1 to S4, and S0 is asked for.".into(),
            String::new(),
        ),
        _ => (
            "a list is not checked for a whole sleep entry, but for each of its moves.".into(),
            "For the calls of a move, and the state that the moves before it leave:\n  \
             sailgarnet check TABLE STATE move DEVICE STATE LIST\n"
                .into(),
        ),
    }
}

/// Answer 20: what device `d` is armed for.
fn armed_for_other(table: &[u8], state: &[u8], d: usize, x: u32) -> Option<(String, String)> {
    let table = Table::read(table).ok()?;
    let entry = State::read(&table, state).ok()?.entry(d);
    let (s, wake) = (entry.wake_s, device_state(entry.wake_d));
    let sentence =
        format!("this device is armed for S{s} and {wake}, and sleep entry is asked for S{x}.");
    Some((sentence, String::new()))
}

/// Answer 21: the lowest device without a state to take, with a line for each state.
fn no_choice(table: &[u8], state: &[u8], x: u32) -> Option<(String, String)> {
    let (d, obstacles) = reference::sleep_obstacles(table, state, x)?;
    let table = Table::read(table).ok()?;
    let present = State::read(&table, state).ok()?.entry(d).state;
    let sentence = format!(
        "there are no states that all devices may take together for S{x}: none is left for \
         device {d}."
    );
    let lines = (0..).zip(obstacles).map(|(target, obstacle)| {
        let reason = reason(obstacle, x, present);
        format!("  {:<6}  {reason}\n", device_state(target))
    });
    Some((sentence, lines.collect()))
}

/// What is against a state of a device that is in `present`.
fn reason(obstacle: Obstacle, x: u32, present: u8) -> String {
    match obstacle {
        Obstacle::NotSupported => "not supported".into(),
        Obstacle::ShallowerThanPresent => {
            format!("shallower than the present {}", device_state(present))
        }
        Obstacle::ShallowerThanSxd(sxd) => {
            format!("shallower than _S{x}D, {}", device_state(sxd))
        }
        Obstacle::Unpowered { resource, level } => {
            format!("needs r{resource}, which has systemlevel {level}, below S{x}")
        }
        Obstacle::NotWakeState(wake) => format!("not its wake state {}", device_state(wake)),
        Obstacle::ShallowerThanParent { parent, state } => {
            let state = device_state(state);
            format!("shallower than its parent, device {parent}, which takes {state}")
        }
    }
}
