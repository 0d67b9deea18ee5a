//! Small sets of inputs, gone through completely.

pub mod bring_up;
pub mod sleep;

use reference::{Request, Version};

use crate::image::{at, image};
use crate::station::{listed_sets, Record, Resource, Station, SHAPES};

/// Every length from 0 to `extra` bytes more than `bytes` has. Bytes past the
/// end are zero.
pub fn each_length(bytes: &[u8], extra: usize, mut each: impl FnMut(&[u8])) {
    let mut longer = bytes.to_vec();
    longer.resize(bytes.len() + extra, 0);
    for length in 0..=longer.len() {
        each(&longer[..length]);
    }
}

/// Longer by 256 and by 65,536 bytes, so that the length is the same in its
/// lowest byte or its lowest two. Bytes past the end are zero.
pub fn each_wide_length(bytes: &[u8], mut each: impl FnMut(&[u8])) {
    for extra in [1 << 8, 1 << 16] {
        let mut longer = bytes.to_vec();
        longer.resize(bytes.len() + extra, 0);
        each(&longer);
    }
}

/// Each byte in turn with each of its 255 other values.
pub fn each_byte(bytes: &[u8], mut each: impl FnMut(&[u8])) {
    let mut changed = bytes.to_vec();
    for index in 0..bytes.len() {
        for change in 1..=255 {
            changed[index] = bytes[index] ^ change;
            each(&changed);
        }
        changed[index] = bytes[index];
    }
}

/// Each byte in turn with several other values, at edges of the rules and beyond.
pub fn each_wild_byte(bytes: &[u8], mut each: impl FnMut(&[u8])) {
    let values = [
        0, 1, 2, 3, 4, 5, 8, 9, 15, 16, 31, 32, 63, 64, 127, 128, 254, 255,
    ];
    let mut changed = bytes.to_vec();
    for index in 0..bytes.len() {
        for value in values {
            if value != bytes[index] {
                changed[index] = value;
                each(&changed);
            }
        }
        changed[index] = bytes[index];
    }
}

/// Each length within a byte of a whole number of records of `record` bytes, up
/// to two more than there are. Bytes past the end are zero.
pub fn each_record_limit(bytes: &[u8], record: usize, mut each: impl FnMut(&[u8])) {
    let last = bytes.len() / record + 2;
    let mut longer = bytes.to_vec();
    longer.resize(last * record + 1, 0);
    for limit in (0..=last).map(|count| count * record) {
        for length in limit.saturating_sub(1)..=limit + 1 {
            each(&longer[..length]);
        }
    }
}

/// Each bit in turn the other way.
pub fn each_bit(bytes: &[u8], mut each: impl FnMut(&[u8])) {
    let mut changed = bytes.to_vec();
    for bit in 0..8 * bytes.len() {
        changed[bit / 8] ^= 1 << (bit % 8);
        each(&changed);
        changed[bit / 8] ^= 1 << (bit % 8);
    }
}

/// Each request whose four numbers are at an edge of some range, or equal to a
/// small number in their lowest bytes only.
pub fn each_request(mut each: impl FnMut(Request)) {
    let numbers = [
        0,
        1,
        2,
        3,
        4,
        5,
        31,
        32,
        63,
        64,
        255,
        256,
        257,
        0x1_0001,
        0x8000_0000,
        u32::MAX,
    ];
    for kind in numbers {
        for device in numbers {
            for a in numbers {
                for b in numbers {
                    each(Request { kind, device, a, b });
                }
            }
        }
    }
}

/// Each way to exchange two calls of a list, to leave one out, to make one
/// twice, beside itself or at the end, to rotate the list, or to put in `_ON` or
/// `_OFF` of any resource of a version or a method of some devices.
pub fn each_list(version: Version, list: &[u8], mut each: impl FnMut(&[u8])) {
    let words = list.as_chunks::<4>().0;
    for first in 0..words.len() {
        for second in first + 1..words.len() {
            let mut changed = words.to_vec();
            changed.swap(first, second);
            each(changed.as_flattened());
        }
        let (before, word, after) = (&words[..first], words[first], &words[first + 1..]);
        each([before, after].concat().as_flattened());
        each([before, &[word, word], after].concat().as_flattened());
        each([words, &[word]].concat().as_flattened());
        if first > 0 {
            each([&[word], after, before].concat().as_flattened());
        }
    }
    let limit = version.limit() as u8;
    let switches = (0..=limit).flat_map(|r| [[1, r, 0, 0], [2, r, 0, 0]]);
    let methods =
        [0, 1, limit - 1].map(|d| [[3, d, 0, 0], [3, d, 3, 0], [4, d, 3, 0x82], [4, d, 0, 0]]);
    for word in switches.chain(methods.into_iter().flatten()) {
        for place in 0..=words.len() {
            let (before, after) = words.split_at(place);
            each([before, &[word], after].concat().as_flattened());
        }
    }
}

/// The number of the bench station's bus.
pub const BUS: u32 = 0;
/// The number of its camera.
pub const CAMERA: u32 = 1;
/// The number of its lamp.
pub const LAMP: u32 = 2;

/// The bench station (RULES.md 10.1): a bus with a camera and a lamp.
pub fn bench_station() -> Station {
    let resource = |level, order| Resource { level, order };
    let bus = Record {
        ps: 9,
        pr: 9,
        sets: [1, 0, 0, 1, 0],
        ..Record::default()
    };
    let camera = Record {
        parent: 0,
        ps: 0x0d,
        pr: 0x0d,
        flags: 3,
        sets: [7, 0, 5, 1, 4],
        sxd: [255, 255, 2, 255],
        sxw: [255, 255, 255, 3, 255],
        deepest: 3,
    };
    let lamp = Record {
        parent: 0,
        pr: 9,
        sets: [2, 0, 0, 0, 0],
        ..Record::default()
    };
    Station {
        resources: vec![resource(3, 1), resource(0, 2), resource(3, 1)],
        devices: vec![bus, camera, lamp],
    }
}

/// Every move of the middle one of three devices, parent, device and child:
/// each shape of masks, and each state of the three.
pub fn each_move(version: Version, mut each: impl FnMut(&[u8], &[u8], Request)) {
    for shape in SHAPES {
        let table = family(shape).table(version);
        bring_up::each_three_states(|states| {
            let state = image(version, &states.map(at), 0x1f);
            for target in 0..5 {
                each(&table, &state, Request::move_to(1, target));
            }
        });
    }
}

/// A parent, a device of the given shape and a child, with different needs in
/// different states.
fn family((ps, pr): (u8, u8)) -> Station {
    let related = |parent| Record {
        parent,
        ps: 15,
        pr: 15,
        sets: [0x01, 0x01, 0x01, 0x01, 0],
        ..Record::default()
    };
    let device = Record {
        parent: 0,
        ps,
        pr,
        sets: listed_sets(pr, [0x03, 0x05, 0x09, 0x11], 0),
        ..Record::default()
    };
    Station {
        resources: (0..5)
            .map(|r| Resource {
                level: 4,
                order: r / 2,
            })
            .collect(),
        devices: vec![related(255), device, related(1)],
    }
}

/// Moves in a [`bring_up::chain`] whose first devices are in D0 and the others in
/// D3hot, each split between them: to D0 below a parent in D3hot, and to D3hot above
/// a child in D0.
pub fn each_relative(version: Version, mut each: impl FnMut(&[u8], &[u8], Request)) {
    let table = bring_up::chain(version).table(version);
    let limit = version.limit();
    for split in 0..=limit {
        let entry = |d| at(if d < split { 0 } else { 3 });
        let entries: Vec<[u8; 4]> = (0..limit).map(entry).collect();
        let state = image(version, &entries, u64::MAX);
        for d in split + 1..limit {
            each(&table, &state, Request::move_to(d as u32, 0));
        }
        for d in 0..split.saturating_sub(1) {
            each(&table, &state, Request::move_to(d as u32, 3));
        }
    }
}

/// Every arming of one device: each pair of `_SxD` and `_SxW` for the sleep
/// state, each deepest sleep state, resource level, shape of masks, present
/// state, and each wake pair.
pub fn each_arming(version: Version, mut each: impl FnMut(&[u8], &[u8], Request)) {
    let shapes = [(0, 0), (9, 0), (15, 15), (0, 9), (13, 5)];
    for s in 0..5u8 {
        for sxd in [0, 1, 2, 3, 255] {
            for sxw in [0, 1, 2, 3, 4, 255] {
                for (ps, pr) in shapes {
                    for level_and_deepest in [(s, s), (s.saturating_sub(1), s), (4, 4), (4, 0)] {
                        let record = waker(s, (sxd, sxw), (ps, pr), level_and_deepest.1);
                        let resources = [4, level_and_deepest.0];
                        let station = Station {
                            resources: resources.map(of_level).to_vec(),
                            devices: vec![record],
                        };
                        each_pair(version, &station, s, &mut each);
                    }
                }
            }
        }
    }
}

fn waker(s: u8, (sxd, sxw): (u8, u8), (ps, pr): (u8, u8), deepest: u8) -> Record {
    let mut record = Record {
        ps,
        pr,
        flags: 3,
        sets: [u64::from(pr & 1), 0, 0, 0, 2],
        deepest,
        ..Record::default()
    };
    record.sxw[usize::from(s)] = sxw;
    if s > 0 {
        record.sxd[usize::from(s) - 1] = sxd;
    }
    record
}

const fn of_level(level: u8) -> Resource {
    Resource { level, order: 0 }
}

fn each_pair(
    version: Version,
    station: &Station,
    s: u8,
    each: &mut impl FnMut(&[u8], &[u8], Request),
) {
    let table = station.table(version);
    for present in 0..5 {
        let state = image(version, &[at(present)], 0b01);
        for d in 0..5 {
            each(&table, &state, Request::arm(0, s.into(), d));
        }
    }
}
