//! The choices of states for a sleep entry: all of them, found by trying, and the least
//! one. Which states a device supports and what it needs in them come from the
//! reference.

use reference::{numbers, Entry, State, Table};

/// Of so many devices all states can be tried, in 625 ways.
pub const FEW_DEVICES: usize = 4;

/// Every choice for Sx: a state for each of at most [`FEW_DEVICES`] devices, which
/// together meet the rules.
pub fn choices(table: &Table, state: &State, x: u8) -> Vec<Vec<u8>> {
    let device_count = table.device_count() as u32;
    let digits = |number: usize| (0..device_count).map(move |d| (number / 5usize.pow(d) % 5) as u8);
    (0..5usize.pow(device_count))
        .map(|number| digits(number).collect())
        .filter(|states: &Vec<u8>| is_choice(table, state, x, states))
        .collect()
}

/// The choice in which no device is deeper than in any other, if there is one.
pub fn least(choices: &[Vec<u8>]) -> Option<&Vec<u8>> {
    let no_deeper = |one: &[u8], other: &[u8]| one.iter().zip(other).all(|(a, b)| a <= b);
    // The least sum finds it, as any other choice has a device that is deeper.
    let found = choices.iter().min_by_key(|choice| depth(choice))?;
    let is_least = choices.iter().all(|other| no_deeper(found, other));
    is_least.then_some(found)
}

/// The least choice for Sx of any number of devices, if there is a choice. As long
/// as a device may not take its state, it goes one deeper. What is against a state
/// stays so when others go deeper, so no choice has a device shallower than here.
pub fn deepened(table: &Table, state: &State, x: u8) -> Option<Vec<u8>> {
    let mut states = vec![0; table.device_count()];
    while let Some(d) = (0..states.len()).rfind(|&d| !may_take(table, state, x, &states, d)) {
        if states[d] == 4 {
            return None;
        }
        states[d] += 1;
    }
    Some(states)
}

fn depth(states: &[u8]) -> u32 {
    states.iter().map(|&state| u32::from(state)).sum()
}

/// Whether these states, one for each device, meet the rules for Sx.
fn is_choice(table: &Table, state: &State, x: u8, states: &[u8]) -> bool {
    (0..states.len()).all(|d| may_take(table, state, x, states, d))
}

/// Whether device `d` may take its state among these.
pub fn may_take(table: &Table, state: &State, x: u8, states: &[u8], d: usize) -> bool {
    let (device, entry, taken) = (table.device(d), state.entry(d), states[d]);
    let needs = device.needs(Entry {
        state: taken,
        ..entry
    });
    device.supports(taken)
        && taken >= entry.state
        && device.sxd(x).is_none_or(|shallowest| taken >= shallowest)
        && numbers(needs).all(|r| table.system_level(r) >= x)
        && (!entry.armed || taken == entry.wake_d)
        && device.parent().is_none_or(|parent| taken >= states[parent])
}
