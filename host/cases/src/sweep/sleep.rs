//! Sleep entries of small stations, and devices armed for another sleep state.

use reference::Version;

use super::bring_up::{chain, each_reported_on_the_bench};
use crate::image::{at, image};
use crate::station::{listed_sets, Record, Resource, Station, SHAPES};

/// One device, all of whose resources are on: each shape of masks, each `_SxD`,
/// each state, armed or not, and each set of its needs that cannot be on in Sx.
/// The last operand is x.
pub fn each_device(version: Version, mut each: impl FnMut(&[u8], &[u8], u32)) {
    for x in 1..=4 {
        for (shape, sxd) in SHAPES.into_iter().flat_map(|shape| {
            let each_sxd = [0, 1, 2, 3, 255].into_iter();
            each_sxd.map(move |sxd| (shape, sxd))
        }) {
            for lost in 0..1 << 4 {
                let table = station(x, lost, 5, vec![waker(shape, x, sxd)]).table(version);
                for entry in entries(x) {
                    each(&table, &image(version, &[entry], 0x1f), x.into());
                }
            }
        }
    }
}

/// Each state of a device, not armed, armed for Sx and each state, and armed for
/// another sleep state.
fn entries(x: u8) -> impl Iterator<Item = [u8; 4]> {
    let for_x = (0..5).map(move |wake_d| [1, x, wake_d]);
    let wakes = for_x.chain([[0, 0, 0], [1, x - 1, 4]]);
    wakes.flat_map(|[armed, s, d]| (0..5).map(move |state| [state, armed, s, d]))
}

/// A device that needs another resource in each state, and r4 to wake the system.
fn waker((ps, pr): (u8, u8), x: u8, sxd: u8) -> Record {
    let mut record = Record {
        ps,
        pr,
        flags: 3,
        sets: listed_sets(pr, [1, 2, 4, 8], 1 << 4),
        sxw: [4; 5],
        deepest: 4,
        ..Record::default()
    };
    record.sxd[usize::from(x) - 1] = sxd;
    record
}

/// So many resources, of which these cannot be on in Sx.
fn station(x: u8, lost: u64, resource_count: u16, devices: Vec<Record>) -> Station {
    let resource = |r: u16| Resource {
        level: if lost >> r & 1 != 0 { x - 1 } else { x },
        order: r % 2,
    };
    let resources = (0..resource_count).map(resource).collect();
    Station { resources, devices }
}

/// Three devices in D0, each below any of those before it or none, each with and
/// without D3cold: every set of states that the needs of each of them leave to it
/// in S2. The last operand is x.
pub fn each_three_devices(version: Version, mut each: impl FnMut(&[u8], &[u8], u32)) {
    let state = image(version, &[], 0xfff);
    for parents in [[255, 255], [255, 0], [255, 1], [0, 255], [0, 0], [0, 1]] {
        for cold in 0..1 << 3 {
            let device = |d: u8| Record {
                parent: if d == 0 {
                    255
                } else {
                    parents[usize::from(d) - 1]
                },
                ..with_own_resources(d, cold >> d & 1 != 0)
            };
            let devices: Vec<Record> = (0..3).map(device).collect();
            let needs = devices.iter().flat_map(|device| device.sets);
            let used = needs.fold(0, |all, set| all | set);
            for lost in (0..1 << 12).filter(|lost| lost & !used == 0) {
                let table = station(2, lost, 12, devices.clone()).table(version);
                each(&table, &state, 2);
            }
        }
    }
}

/// A device with a resource of its own for each state that has a set. D3cold
/// comes with a set for D3hot, which otherwise needs what D2 does.
fn with_own_resources(d: u8, has_d3cold: bool) -> Record {
    let own = |x: u8| 1 << (4 * d + x);
    let (pr, in_d3hot) = if has_d3cold { (15, own(3)) } else { (7, 0) };
    Record {
        ps: 15,
        pr,
        sets: [own(0), own(1), own(2), in_d3hot, 0],
        ..Record::default()
    }
}

/// The bench station in each state, also in those that are not consistent, with
/// each set of resources on. The last operand is x, also one below and above 1 to 4.
pub fn each_on_the_bench(version: Version, mut each: impl FnMut(&[u8], &[u8], u32)) {
    each_reported_on_the_bench(version, |table, state| {
        (0..=5).for_each(|x| each(table, state, x));
    });
}

/// The devices of a [`chain`], of which each in turn is armed for a sleep state
/// other than x, and the others for x or not at all. The last operands are x and
/// the number of the device.
pub fn each_armed_for_another(version: Version, mut each: impl FnMut(&[u8], &[u8], u32, usize)) {
    let table = chain(version).table(version);
    for (x, s) in (1..=3).flat_map(|x| (0..=3).map(move |s| (x, s))) {
        for d in (0..version.limit()).filter(|_| s != x) {
            for others in [at(0), [0, 1, x, 3]] {
                let mut entries = vec![others; version.limit()];
                entries[d] = [0, 1, s, 3];
                each(&table, &image(version, &entries, u64::MAX), x.into(), d);
            }
        }
    }
}
