//! The planner, the checker and the fresh state.

use crate::answer::Answer;
use crate::call::Call;
use crate::request::{verdict, Request, SLEEP};
use crate::sleep::{least_choice, write_moves};
use crate::state::{write_fresh, Entry};
use crate::switching::{words, Switching};
use crate::table::{for_either, Records, Table};
use crate::version::Version;
use crate::work::Work;

/// Writes the fresh state of a table into `state`.
pub fn fresh(table: &[u8], state: &mut [u8]) -> Answer {
    let table = match Table::read(table) {
        Ok(table) => table,
        Err(refusal) => return refusal,
    };
    if state.len() != table.version().state_bytes() {
        return Answer::refused(7, 0);
    }
    write_fresh(&table, state);
    Answer::done(0)
}

/// Plans a request: writes the calls to `plan`, four bytes each, and the new
/// state to `state`. It refuses with 1 to 18, sleep entry with 1 to 10, 20 or 21.
pub fn plan(table: &[u8], state: &mut [u8], request: Request, plan: &mut [u8]) -> Answer {
    let words = plan.as_chunks_mut::<4>().0;
    plan_calls(table, state, request, words.len(), |i, word| {
        words[i] = word.to_le_bytes();
    })
}

/// As [`plan`], with the calls as 32-bit words.
pub fn plan_words(table: &[u8], state: &mut [u8], request: Request, plan: &mut [u32]) -> Answer {
    plan_calls(table, state, request, plan.len(), |i, word| plan[i] = word)
}

/// Says whether `list`, four bytes a call, conforms to the request. Sleep entry
/// is 10 here: a list conforms to one of its moves.
pub fn check(table: &[u8], state: &[u8], request: Request, list: &[u8]) -> Answer {
    check_calls(table, state, request, words(list))
}

/// As [`check`], with the calls as 32-bit words.
pub fn check_words(table: &[u8], state: &[u8], request: Request, list: &[u32]) -> Answer {
    check_calls(table, state, request, Some(list.iter().copied()))
}

fn plan_calls(
    table: &[u8],
    state: &mut [u8],
    request: Request,
    room: usize,
    write: impl FnMut(usize, u32),
) -> Answer {
    let count = Table::read(table).and_then(
        |table| for_either!(table, records => count_of_plan(&records, state, request, room, write)),
    );
    match count {
        Ok(count) => Answer::done(count),
        Err(refusal) => refusal,
    }
}

fn count_of_plan<const N: usize, const W: usize>(
    records: &Records<N, W>,
    lent: &mut [u8],
    request: Request,
    room: usize,
    write: impl FnMut(usize, u32),
) -> Result<u16, Answer> {
    let state = records.state(lent)?;
    if room < words_due(Records::<N, W>::VERSION, request.kind) {
        return Err(Answer::refused(9, 0));
    }
    if request.kind == SLEEP {
        let choice = least_choice(records, &state, request)?;
        return Ok(write_moves(records, lent, &choice, write));
    }
    let work = Work::of(records, &state, verdict(records, &state, request)?);
    Ok(work.write(records, lent, write))
}

/// The room for a plan, in words. Of the request only the kind counts, since the
/// room is looked at before the other numbers.
const fn words_due(version: Version, kind: u32) -> usize {
    match kind {
        SLEEP => version.sleep_plan_words(),
        _ => version.plan_words(),
    }
}

fn check_calls(
    table: &[u8],
    state: &[u8],
    request: Request,
    list: Option<impl Iterator<Item = u32>>,
) -> Answer {
    let answer = Table::read(table).and_then(|table| {
        let switching = for_either!(table, records => switching_due(&records, state, request))?;
        Ok(switching.check(table.resources(), list))
    });
    match answer {
        Ok(answer) => answer,
        Err(refusal) => refusal,
    }
}

fn switching_due<const N: usize, const W: usize>(
    records: &Records<N, W>,
    state: &[u8],
    request: Request,
) -> Result<Switching, Answer> {
    let state = records.state(state)?;
    let change = verdict(records, &state, request)?;
    Ok(Work::of(records, &state, change).switching)
}

/// What a permitted request about one device does, apart from its list.
#[derive(Clone, Copy, Debug, PartialEq, Eq)]
pub struct Effect {
    /// The device number.
    pub device: usize,
    /// The entry of the device before the request.
    pub entry_before: Entry,
    /// The entry of the device after the request.
    pub entry_after: Entry,
    /// The resources on before the request.
    pub on_before: u64,
    /// The resources that some device needs before the request.
    pub needed_before: u64,
    /// The resources that some device needs after the request.
    pub needed_after: u64,
    /// The device's own needs before the request.
    pub device_needs_before: u64,
    /// The device's own needs after the request.
    pub device_needs_after: u64,
    /// The device's own call.
    pub own_call: Option<Call>,
    /// The needs that must be met when the own call is made: those after for a
    /// move to D0 and for arming, those before for a deeper move and for disarming.
    pub own_call_needs: u64,
}

/// What a request does, or its refusal (1 to 8, 10 to 18). Sleep entry is 10.
pub fn effect(table: &[u8], state: &[u8], request: Request) -> Result<Effect, Answer> {
    for_either!(Table::read(table)?, records => effect_in(&records, state, request))
}

fn effect_in<const N: usize, const W: usize>(
    records: &Records<N, W>,
    state: &[u8],
    request: Request,
) -> Result<Effect, Answer> {
    let state = records.state(state)?;
    let change = verdict(records, &state, request)?;
    let device = records.device(change.device);
    let entry_before = state.entry(change.device);
    let device_needs_before = device.needs(entry_before);
    let device_needs_after = device.needs(change.entry);
    Ok(Effect {
        device: change.device,
        entry_before,
        entry_after: change.entry,
        on_before: state.on(),
        needed_before: records.needed(&state),
        needed_after: records.needed_with(&state, change.device, change.entry),
        device_needs_before,
        device_needs_after,
        own_call: change.own_call.and_then(Call::from_word),
        own_call_needs: if change.own_call_first {
            device_needs_before
        } else {
            device_needs_after
        },
    })
}
