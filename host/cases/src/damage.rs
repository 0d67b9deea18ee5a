//! Damage to tables, states and descriptions. It may by chance leave them good.

use reference::{Version, DESCRIBED_DEVICE_BYTES};

use crate::description::{Description, VERSIONS};
use crate::image::{on_set, set_on};
use crate::rng::Rng;

const HEADER: usize = 8;
const RESOURCE: usize = 4;

/// Where the fields of a device stand.
#[derive(Clone, Copy)]
struct Layout {
    /// The length of a device's record.
    record: usize,
    /// The length of each of its five sets.
    set: usize,
}

/// In a description.
const DESCRIBED: Layout = Layout {
    record: DESCRIBED_DEVICE_BYTES,
    set: 8,
};

impl Layout {
    /// In a table. Reserved bytes follow the fields.
    const fn of_table(version: Version) -> Self {
        Self {
            record: version.record_bytes(),
            set: version.set_bytes(),
        }
    }

    /// Where a set begins.
    const fn set(self, index: usize) -> usize {
        4 + self.set * index
    }

    /// Where `_S1D` is; the others and `_S0W` to `_S4W` follow.
    const fn sleep(self) -> usize {
        self.set(5)
    }

    /// Where the deepest sleep state is.
    const fn deepest(self) -> usize {
        self.sleep() + 9
    }
}

/// Damages a table that was good: its length, its header, a field or any byte.
pub fn damage_table(rng: &mut Rng, table: &mut Vec<u8>) {
    let version = version_of(table);
    let layout = Layout::of_table(version);
    match rng.below(18) {
        0 => change_length(rng, table, HEADER),
        1 => table[rng.below(HEADER)] = rng.edge_byte(),
        2 => count_above(rng, version.limit(), table),
        3..=6 => resource_field(rng, records(table).0),
        7..=10 => device_field(rng, records(table).1, layout),
        11..=14 => device_masks(rng, records(table).1, layout),
        15 => {
            for _ in 0..2 + rng.below(4) {
                any_byte(rng, table);
            }
        }
        16 => another_version(rng, table),
        _ => any_byte(rng, table),
    }
}

/// The version of a table that was good.
fn version_of(table: &[u8]) -> Version {
    Version::of_table(table).expect("a version")
}

/// Damages a state of a table that is good: its length, an entry, the set of
/// resources that are on, or any byte.
pub fn damage_state(rng: &mut Rng, table: &[u8], state: &mut Vec<u8>) {
    let version = version_of(table);
    let device_count = usize::from(table[6]);
    match rng.below(17) {
        0 => change_length(rng, state, version.state_bytes()),
        1 | 2 => any_byte(rng, state),
        3..=8 => entry_field(rng, device_count.max(1), state),
        9 => entry_field(rng, version.limit(), state),
        10 | 11 => wake_pair(rng, device_count.max(1), state),
        12 | 13 => {
            let on = on_set(version, state);
            set_on(version, state, on ^ 1 << rng.below(version.limit()));
        }
        14 => set_on(version, state, rng.next()),
        15 => state_of_another_version(rng, version, state),
        _ => all_entries(rng, device_count, state),
    }
}

/// Damages a description: the length of a list, a field or any byte.
pub fn damage_description(rng: &mut Rng, description: &mut Description) {
    let Description { resources, devices } = description;
    match rng.below(16) {
        0 => change_length(rng, resources, RESOURCE),
        1 => change_length(rng, devices, DESCRIBED.record),
        2 if rng.one_in(2) => records_above_a_limit(rng, resources, RESOURCE),
        2 => records_above_a_limit(rng, devices, DESCRIBED.record),
        3..=5 => resource_field(rng, resources),
        6..=9 => device_field(rng, devices, DESCRIBED),
        10..=13 => device_masks(rng, devices, DESCRIBED),
        14 => {
            any_byte(rng, resources);
            any_byte(rng, devices);
            any_byte(rng, devices);
        }
        _ => any_byte(rng, devices),
    }
}

/// A shorter or longer length, near one of the record boundaries or anywhere.
fn change_length(rng: &mut Rng, bytes: &mut Vec<u8>, edge: usize) {
    let length = match rng.below(5) {
        0 => rng.below(bytes.len() + 1),
        1 => edge - 1 + rng.below(3),
        2 => bytes.len().saturating_sub(1 + rng.below(64)),
        3 => bytes.len() + 1 + rng.below(64),
        _ => bytes.len() ^ 1,
    };
    bytes.resize(length, 0);
}

fn any_byte(rng: &mut Rng, bytes: &mut [u8]) {
    if !bytes.is_empty() {
        let index = rng.below(bytes.len());
        bytes[index] = rng.edge_byte();
    }
}

/// Makes R or D larger than a limit, in some cases with the length that fits.
fn count_above(rng: &mut Rng, limit: usize, table: &mut Vec<u8>) {
    let index = rng.pick(&[3, 6]);
    let next = limit as u8 + 1;
    table[index] = match rng.below(4) {
        0 => next,
        1 => next + 1,
        2 => 255,
        _ => rng.byte_within(next, 255),
    };
    if rng.one_in(2) {
        set_length(table);
    }
}

/// Gives a table the length that its counts have in its version.
fn set_length(table: &mut Vec<u8>) {
    let (r, d) = (usize::from(table[3]), usize::from(table[6]));
    table.resize(version_of(table).table_bytes(r, d), 0);
}

/// Gives a table another version: the other one, in some cases with the length
/// that fits, or an unknown one.
fn another_version(rng: &mut Rng, table: &mut Vec<u8>) {
    let number = match rng.below(2) {
        0 => 3 - version_of(table).number(),
        _ => rng.pick(&VERSIONS) as u16,
    };
    table[4..6].copy_from_slice(&number.to_le_bytes());
    if Version::of_table(table).is_some() && rng.one_in(2) {
        set_length(table);
    }
}

/// Gives a state the length of another version, in some cases with its on-set
/// where that version has it.
fn state_of_another_version(rng: &mut Rng, version: Version, state: &mut Vec<u8>) {
    let other = rng.pick(&Version::ALL);
    let on = on_set(version, state);
    if rng.one_in(2) {
        state.truncate(version.entry_bytes());
    }
    state.resize(other.state_bytes(), 0);
    if rng.one_in(2) {
        set_on(other, state, on);
    }
}

/// Makes a list of records longer than 32 or 64; the last one may be cut short.
fn records_above_a_limit(rng: &mut Rng, records: &mut Vec<u8>, length: usize) {
    let count = match rng.below(4) {
        0 => rng.pick(&[34, 63, 64, 255, 256, 257, 288, 320, 321]),
        1 | 2 => 65,
        _ => 33,
    };
    records.resize(count * length - rng.below(length), 0);
}

/// The resource records and the device records of a table that was good.
fn records(table: &mut [u8]) -> (&mut [u8], &mut [u8]) {
    let resources = RESOURCE * usize::from(table[3]);
    table[HEADER..].split_at_mut(resources)
}

/// A number below `count`, which is not 0. The last ones are more likely: fewer
/// lists have them.
fn number(rng: &mut Rng, count: usize) -> usize {
    rng.below(count).max(rng.below(count))
}

/// Some record of a list, if it has any.
fn some_record<'a>(rng: &mut Rng, records: &'a mut [u8], length: usize) -> Option<&'a mut [u8]> {
    let count = records.len() / length;
    (count > 0).then(|| {
        let start = length * number(rng, count);
        &mut records[start..start + length]
    })
}

fn resource_field(rng: &mut Rng, resources: &mut [u8]) {
    if let Some(record) = some_record(rng, resources, RESOURCE) {
        // Any order is good, so its two bytes are changed less often.
        record[rng.pick(&[0, 0, 1, 1, 2, 3])] = rng.edge_byte();
    }
}

/// Changes a field of a device. The fields are equally likely, whatever their length.
fn device_field(rng: &mut Rng, devices: &mut [u8], layout: Layout) {
    let Some(record) = some_record(rng, devices, layout.record) else {
        return;
    };
    let fields_end = layout.deepest() + 1;
    match rng.below(8) {
        field @ 0..=3 => record[field] = rng.edge_byte(),
        4 => set_bits(rng, &mut record[4..layout.sleep()], layout.set),
        5 => record[layout.sleep() + rng.below(9)] = rng.edge_byte(),
        6 => record[layout.deepest()] = rng.edge_byte(),
        _ => any_byte(rng, &mut record[fields_end..]),
    }
}

/// Gives one of the sets no bit, one bit or all bits.
fn set_bits(rng: &mut Rng, sets: &mut [u8], length: usize) {
    let start = length * rng.below(5);
    let any_bit = 1 << rng.below(8 * length);
    let highest_bit = 1 << (8 * length - 1);
    let bits: u64 = rng.pick(&[0, 1, highest_bit, u64::MAX, any_bit]);
    sets[start..start + length].copy_from_slice(&bits.to_le_bytes()[..length]);
}

/// Gives a device any masks and flags, and empties the sets of objects that
/// are then absent, so that only the object rules can be broken.
fn device_masks(rng: &mut Rng, devices: &mut [u8], layout: Layout) {
    let Some(record) = some_record(rng, devices, layout.record) else {
        return;
    };
    record[1] = rng.byte_below(16);
    record[2] = rng.byte_below(16);
    record[3] = rng.byte_below(4);
    let listed = record[2] | (record[3] & 1) << 4;
    for set in 0..5 {
        if listed >> set & 1 == 0 {
            record[layout.set(set)..layout.set(set + 1)].fill(0);
        }
    }
    if record[3] & 1 == 0 {
        record[layout.deepest()] = 0;
    }
}

fn entry_field(rng: &mut Rng, entries: usize, state: &mut [u8]) {
    let index = 4 * number(rng, entries) + rng.below(4);
    state[index] = match rng.below(8) {
        0 => rng.edge_byte(),
        1 => 5,
        _ => rng.byte_below(5),
    };
}

/// Arms some device with any pair.
fn wake_pair(rng: &mut Rng, entries: usize, state: &mut [u8]) {
    let entry = 4 * number(rng, entries);
    state[entry + 1] = 1;
    // One value more than there are states.
    state[entry + 2] = rng.byte_below(6);
    state[entry + 3] = rng.byte_below(6);
}

/// Gives every device any entry whose values are in range.
fn all_entries(rng: &mut Rng, device_count: usize, state: &mut [u8]) {
    for entry in state.chunks_mut(4).take(device_count) {
        let armed = rng.byte_below(2);
        entry[0] = rng.byte_below(5);
        entry[1] = armed;
        entry[2] = armed * rng.byte_below(5);
        entry[3] = armed * rng.byte_below(5);
    }
}
