//! States to bring up, and lists for them.

use reference::{Table, Version};

use super::{bench_station, family};
use crate::faults::{entries_with_fault, good_entries, FAULTS};
use crate::image::{at, image, set_on};
use crate::station::{listed_sets, mixed_orders, Record, Resource, Station, SHAPES};

/// Small stations with every set of resources on: one device with each entry,
/// also below another one; a family of three in each state; and the bench station.
pub fn each_reported(version: Version, mut each: impl FnMut(&[u8], &[u8])) {
    for shape in SHAPES {
        for (level, deepest) in [(4, None), (2, Some(3)), (4, Some(4))] {
            let table = station(level, 4, vec![waker(shape, deepest)]).table(version);
            good_entries().for_each(|entry| each_on(&table, &[entry], &mut each));
        }
        let child = Record {
            parent: 0,
            ..waker(shape, Some(3))
        };
        let table = station(2, 4, vec![waker((15, 15), None), child]).table(version);
        for parent in [0, 2, 4].map(at) {
            good_entries().for_each(|entry| each_on(&table, &[parent, entry], &mut each));
        }
        let table = family(shape).table(version);
        each_three_states(|states| each_on(&table, &states.map(at), &mut each));
    }
    each_reported_on_the_bench(version, each);
}

/// Each state of the three devices; bus and camera are armed in some ways.
pub fn each_reported_on_the_bench(version: Version, mut each: impl FnMut(&[u8], &[u8])) {
    let table = bench_station().table(version);
    let not_armed = [0, 0, 0];
    let s3 = |d| [1, 3, d];
    each_three_states(|[bus, camera, lamp]| {
        for (bus_wake, camera_wake) in [
            (not_armed, not_armed),
            (not_armed, s3(2)),
            (not_armed, s3(3)),
            (not_armed, s3(4)),
            (not_armed, [1, 4, 3]),
            (s3(3), s3(3)),
        ] {
            let entry = |state, [armed, s, d]: [u8; 3]| [state, armed, s, d];
            let entries = [entry(bus, bus_wake), entry(camera, camera_wake), at(lamp)];
            each_on(&table, &entries, &mut each);
        }
    });
}

/// Each state of three devices.
pub(super) fn each_three_states(mut each: impl FnMut([u8; 3])) {
    for states in 0..5 * 5 * 5 {
        each([states / 25, states / 5 % 5, states % 5]);
    }
}

/// These entries with each set of the table's resources on.
fn each_on(table: &[u8], entries: &[[u8; 4]], each: &mut impl FnMut(&[u8], &[u8])) {
    let version = Version::of_table(table).expect("a good table");
    for on in 0..1 << table[3] {
        each(table, &image(version, entries, on));
    }
}

/// So many resources, of which r0 has this level.
fn station(level: u8, resource_count: u16, devices: Vec<Record>) -> Station {
    let resource = |r| Resource {
        level: if r == 0 { level } else { 4 },
        order: r % 2,
    };
    let resources = (0..resource_count).map(resource).collect();
    Station { resources, devices }
}

/// A device that needs another resource in each state, with each kind of wake
/// range. With a deepest sleep state it can wake the system, with r0.
fn waker((ps, pr): (u8, u8), deepest: Option<u8>) -> Record {
    Record {
        parent: 255,
        ps,
        pr,
        flags: deepest.is_some().into(),
        sets: listed_sets(pr, [1, 2, 4, 8], deepest.is_some().into()),
        sxd: [1, 255, 2, 3],
        sxw: [2, 3, 255, 4, 255],
        deepest: deepest.unwrap_or(0),
    }
}

/// Each set of resources on with each needed set: a device for each resource,
/// whose orders these are.
pub fn each_on_and_needed(version: Version, orders: &[u16], mut each: impl FnMut(&[u8], &[u8])) {
    let table = one_device_each(orders).table(version);
    for needed in 0..1 << orders.len() {
        each_on(&table, &needing(needed, orders.len()), &mut each);
    }
}

/// A station with a device for each resource, which needs it in D0 and nothing
/// in D3hot.
pub fn one_device_each(orders: &[u16]) -> Station {
    let device = |r: usize| Record {
        ps: 9,
        pr: 9,
        sets: [1 << r, 0, 0, 0, 0],
        ..Record::default()
    };
    Station {
        resources: orders
            .iter()
            .map(|&order| Resource { level: 4, order })
            .collect(),
        devices: (0..orders.len()).map(device).collect(),
    }
}

/// Entries with which so many devices need these resources, each its own.
pub fn needing(needed: u64, count: usize) -> Vec<[u8; 4]> {
    let state = |r| if needed >> r & 1 != 0 { 0 } else { 3 };
    (0..count).map(|r| at(state(r))).collect()
}

/// Each list of at most four words out of eight: `_ON` and `_OFF` of three
/// resources, a method, and a word that is no call.
pub fn each_short_list(mut each: impl FnMut(&[u8])) {
    const WORDS: [[u8; 4]; 8] = [
        [1, 0, 0, 0],
        [1, 1, 0, 0],
        [1, 2, 0, 0],
        [2, 0, 0, 0],
        [2, 1, 0, 0],
        [2, 2, 0, 0],
        [3, 0, 0, 0],
        [0, 0, 0, 0],
    ];
    for length in 0..=4 {
        for number in 0..1usize << (3 * length) {
            let list: Vec<_> = (0..length)
                .map(|place| WORDS[number >> (3 * place) & 7])
                .collect();
            each(list.as_flattened());
        }
    }
}

/// Each sequence of the words of a list.
pub fn each_sequence(list: &[u8], mut each: impl FnMut(&[u8])) {
    fn arrange(fixed: usize, words: &mut [[u8; 4]], each: &mut impl FnMut(&[u8])) {
        if fixed == words.len() {
            return each(words.as_flattened());
        }
        for next in fixed..words.len() {
            words.swap(fixed, next);
            arrange(fixed + 1, words, each);
            words.swap(fixed, next);
        }
    }
    arrange(0, &mut list.as_chunks().0.to_vec(), &mut each);
}

/// All devices of a [`chain`] in D3hot, of which each has each of [`FAULTS`] in
/// turn, but the first has no parent; with all on, none, and some. The last operand
/// is the number of the device.
pub fn each_fault(version: Version, mut each: impl FnMut(&[u8], &[u8], usize)) {
    let bytes = chain(version).table(version);
    let table = Table::read(&bytes).expect("a good table");
    for d in 0..version.limit() {
        for fault in 0..FAULTS.len() {
            let mut state = image(version, &vec![at(3); version.limit()], 0);
            let entries = entries_with_fault(&table, &state, d, fault);
            assert_eq!(entries.is_empty(), d == 0 && fault == 1);
            for entry in entries {
                state[4 * d..4 * d + 4].copy_from_slice(&entry);
                for on in [0, u64::MAX, 0x6655_330f_0f33_5566] {
                    set_on(version, &mut state, on);
                    each(&bytes, &state, d);
                }
            }
        }
    }
}

/// As many devices as a version has, each below the one before, without D1, D2
/// and D3cold.
pub fn chain(version: Version) -> Station {
    let limit = version.limit();
    let device = |d: usize| Record {
        parent: if d == 0 { 255 } else { d as u8 - 1 },
        ps: 9,
        pr: 1,
        flags: 3,
        sets: [1 << d, 0, 0, 0, 1 << (limit - 1 - d)],
        sxw: [3; 5],
        deepest: 3,
        ..Record::default()
    };
    Station {
        resources: mixed_orders(limit),
        devices: (0..limit).map(device).collect(),
    }
}
