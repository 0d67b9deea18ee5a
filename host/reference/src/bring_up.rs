//! Bring-up: the switching at power-on, where any resources may be on.

use crate::answer::Answer;
use crate::state::write_on_set;
use crate::switching::{words, Switching};
use crate::table::{for_either, Records, Table};

/// Writes the calls that turn on what the state's devices need and turn off the
/// rest to `plan`, four bytes each, and the needed set to `state`, whose entries
/// stay. It refuses with 1 to 9; a resource that is off is no reason for 8.
pub fn bring_up(table: &[u8], state: &mut [u8], plan: &mut [u8]) -> Answer {
    let count = Table::read(table)
        .and_then(|table| for_either!(table, records => count_of_bring_up(&records, state, plan)));
    match count {
        Ok(count) => Answer::done(count),
        Err(refusal) => refusal,
    }
}

/// Says whether `list`, four bytes a call, conforms to the bring-up of a state.
/// It refuses with 1 to 8 as [`bring_up`] does, then with 19.
pub fn check_bring_up(table: &[u8], state: &[u8], list: &[u8]) -> Answer {
    let answer = Table::read(table).and_then(|table| {
        let switching = for_either!(table, records => switching_due(&records, state))?;
        Ok(switching.check(table.resources(), words(list)))
    });
    match answer {
        Ok(answer) => answer,
        Err(refusal) => refusal,
    }
}

fn count_of_bring_up<const N: usize, const W: usize>(
    records: &Records<N, W>,
    state: &mut [u8],
    plan: &mut [u8],
) -> Result<u16, Answer> {
    let switching = switching_due(records, state)?;
    let version = Records::<N, W>::VERSION;
    let words = plan.as_chunks_mut::<4>().0;
    if words.len() < version.plan_words() {
        return Err(Answer::refused(9, 0));
    }
    let write = |i: usize, word: u32| words[i] = word.to_le_bytes();
    let count = switching.write_calls(records.resources, write);
    write_on_set(version, state, switching.target);
    Ok(count)
}

fn switching_due<const N: usize, const W: usize>(
    records: &Records<N, W>,
    state: &[u8],
) -> Result<Switching, Answer> {
    let state = records.state_for_bring_up(state)?;
    Ok(Switching::new(state.on(), records.needed(&state)))
}
