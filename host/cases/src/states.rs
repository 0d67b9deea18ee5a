//! Random consistent states, random sets of resources that are on, and random
//! arming.

use reference::{wake_range, Device, Entry, State, Table};

use crate::image::{image, on_set, set_on};
use crate::rng::Rng;

/// Draws a consistent state of a good table, or `None` if the draw failed.
pub fn draw_state(rng: &mut Rng, table: &[u8]) -> Option<Vec<u8>> {
    let table = Table::read(table).ok()?;
    let mut entries: Vec<[u8; 4]> = Vec::new();
    let mut needed = 0;
    for d in 0..table.device_count() {
        let device = table.device(d);
        let shallowest = device.parent().map_or(0, |parent| entries[parent][0]);
        let entry = draw_entry(rng, device, shallowest);
        needed |= device.needs(entry);
        entries.push([entry.state, entry.armed.into(), entry.wake_s, entry.wake_d]);
    }
    let state = image(table.version(), &entries, needed);
    State::read(&table, &state).is_ok().then_some(state)
}

fn draw_entry(rng: &mut Rng, device: Device, shallowest: u8) -> Entry {
    let state = (0..4)
        .map(|_| rng.byte_within(shallowest, 4))
        .find(|&state| device.supports(state))
        .unwrap_or(shallowest.max(3));
    let entry = Entry {
        state,
        armed: false,
        wake_s: 0,
        wake_d: 0,
    };
    match draw_wake_pair(rng, device, state) {
        Some((wake_s, wake_d)) if rng.one_in(2) => Entry {
            armed: true,
            wake_s,
            wake_d,
            ..entry
        },
        _ => entry,
    }
}

/// A wake pair within the device's own limits. The levels of its resources may
/// still forbid it.
fn draw_wake_pair(rng: &mut Rng, device: Device, state: u8) -> Option<(u8, u8)> {
    let s = rng.byte_within(0, device.deepest_sleep());
    let (first, last) = wake_range(device.sxd(s), device.sxw(s))?;
    let first = first.max(state);
    let d = (first <= last).then(|| rng.byte_within(first, last))?;
    (device.has_prw() && device.supports(d)).then_some((s, d))
}

/// Changes which resources of a table are on in a state.
fn change_on(table: &Table, state: &mut [u8], change: impl FnOnce(u64) -> u64) {
    let on = change(on_set(table.version(), state)) & table.all_resources();
    set_on(table.version(), state, on);
}

/// Switches resources on that nothing needs.
pub(crate) fn switch_more_on(rng: &mut Rng, table: &Table, state: &mut [u8]) {
    let more = rng.next() & rng.next();
    change_on(table, state, |on| on | more);
}

/// Arms devices of a consistent state for Sx: those that are armed for another
/// sleep state, which are disarmed where Sx is not legal, and some others.
pub fn arm_for(rng: &mut Rng, table: &[u8], state: &mut [u8], x: u8) {
    let Ok(table) = Table::read(table) else {
        return;
    };
    for d in 0..table.device_count() {
        let [_, armed, wake_s, _] = state.as_chunks().0[d];
        if armed == 1 && wake_s == x || armed == 0 && !rng.one_in(4) {
            continue;
        }
        state[4 * d + 1..4 * d + 4].fill(0);
        arm(rng, &table, state, d, |s| s == x);
    }
}

/// Arms some device of a consistent state for a sleep state other than Sx, if it
/// has one.
pub fn arm_one_for_another(rng: &mut Rng, table: &[u8], state: &mut [u8], x: u8) {
    let Ok(table) = Table::read(table) else {
        return;
    };
    if table.device_count() > 0 {
        let d = rng.below(table.device_count());
        arm(rng, &table, state, d, |s| s != x);
    }
}

/// Arms device `d` for some legal pair with such a sleep state, if there is one,
/// and switches on what it then needs.
fn arm(rng: &mut Rng, table: &Table, state: &mut [u8], d: usize, is_wanted: impl Fn(u8) -> bool) {
    let device = table.device(d);
    let present = state[4 * d];
    let is_legal = |&(s, wake_d): &(u8, u8)| {
        is_wanted(s) && wake_d >= present && table.wake_pair(device, s, wake_d).is_ok()
    };
    let pairs = (0..25).map(|pair| (pair / 5, pair % 5));
    let legal: Vec<(u8, u8)> = pairs.filter(is_legal).collect();
    if !legal.is_empty() {
        let (s, wake_d) = rng.pick(&legal);
        state[4 * d + 1..4 * d + 4].copy_from_slice(&[1, s, wake_d]);
        change_on(table, state, |on| on | device.prw_set());
    }
}

/// Gives a state of a good table any set of resources that are on: as it was,
/// none, all, the others, one more or less, or any.
pub fn report_any_on(rng: &mut Rng, table: &[u8], state: &mut [u8]) {
    let Ok(table) = Table::read(table) else {
        return;
    };
    let (any, few) = (rng.next(), rng.next());
    let one = 1 << rng.below(table.version().limit());
    let which = rng.below(16);
    change_on(&table, state, |on| match which {
        0 => on,
        1 => 0,
        2 => u64::MAX,
        3 => !on,
        4..=6 => on ^ one,
        7 | 8 => any & few,
        9 | 10 => any | few,
        _ => any,
    });
}
