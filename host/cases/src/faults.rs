//! Entries with which a device is not consistent, whatever is on.

use reference::{numbers, wake_range, Device, Table};

use crate::rng::Rng;

/// Why a device is not consistent, apart from a resource that is off.
pub const FAULTS: [&str; 4] = [
    "a state that it does not have",
    "shallower than its parent",
    "a wake pair that is not legal",
    "deeper than its wake state",
];

/// Which of [`FAULTS`] device `d` has with this entry, the others' being those
/// of the state.
pub fn faults(table: &Table, state: &[u8], d: usize, entry: [u8; 4]) -> [bool; 4] {
    let device = table.device(d);
    let [depth, armed, wake_s, wake_d] = entry;
    let parent = device.parent().map(|parent| state[4 * parent]);
    [
        !device.supports(depth),
        parent.is_some_and(|parent| depth < parent),
        armed == 1 && !pair_is_legal(table, device, wake_s, wake_d),
        armed == 1 && depth > wake_d,
    ]
}

fn pair_is_legal(table: &Table, device: Device, s: u8, d: u8) -> bool {
    let range = wake_range(device.sxd(s), device.sxw(s));
    device.has_prw()
        && s <= device.deepest_sleep()
        && numbers(device.prw_set()).all(|r| table.system_level(r) >= s)
        && device.supports(d)
        && range.is_some_and(|(first, last)| (first..=last).contains(&d))
}

/// Every entry that has good values.
pub fn good_entries() -> impl Iterator<Item = [u8; 4]> {
    let pairs = (0..25).map(|pair| [1, pair / 5, pair % 5]);
    let wakes = std::iter::once([0, 0, 0]).chain(pairs);
    wakes.flat_map(|[armed, s, d]| (0..5).map(move |state| [state, armed, s, d]))
}

/// The entries with which device `d` has this one of [`FAULTS`] and no other.
pub fn entries_with_fault(table: &Table, state: &[u8], d: usize, fault: usize) -> Vec<[u8; 4]> {
    let mut wanted = [false; 4];
    wanted[fault] = true;
    good_entries()
        .filter(|&entry| faults(table, state, d, entry) == wanted)
        .collect()
}

/// Gives some device an entry with one fault alone, if one is possible there.
pub fn put_fault(rng: &mut Rng, table: &[u8], state: &mut [u8]) {
    let Ok(table) = Table::read(table) else {
        return;
    };
    if table.device_count() > 0 {
        let d = rng.below(table.device_count());
        let fault = rng.below(FAULTS.len());
        let entries = entries_with_fault(&table, state, d, fault);
        if !entries.is_empty() {
            state[4 * d..4 * d + 4].copy_from_slice(&rng.pick(&entries));
        }
    }
}
