//! Descriptions gone through completely: versions, numbers of records, lengths,
//! rooms and fields, on the bench station and on the largest one.

use cases::{
    filled_station, first_resources, sweep, Case, Description, Record, Station, RECORDS, VERSIONS,
};
use reference::Version;

use super::{Comparison, Part};

/// Numbers of records around the limits of 32 and 64 and around the range of a byte.
const COUNTS: [usize; 13] = [0, 1, 31, 32, 33, 34, 63, 64, 65, 66, 255, 256, 300];

/// So many records, those of the largest station over and over. Every set has
/// every resource.
fn station(resource_count: usize, device_count: usize) -> Station {
    let Station { resources, devices } = filled_station(Version::Two);
    let all = first_resources(resource_count.min(64));
    let device = |device| Record {
        sets: [all; 5],
        ..device
    };
    Station {
        resources: resources.into_iter().cycle().take(resource_count).collect(),
        devices: devices
            .into_iter()
            .cycle()
            .take(device_count)
            .map(device)
            .collect(),
    }
}

/// Runs a description with each room around what it needs.
fn each_room(comparison: &mut Comparison, version: Version, description: Description) {
    let needed = description.table_length(version);
    let mut case = Case {
        version: version.number().into(),
        description,
        ..Case::default()
    };
    for room in [0, needed - 1, needed, needed + 1, needed + 64] {
        case.written = vec![0x5a; room];
        comparison.run(&case, |_| format!("room of {room} bytes"));
    }
}

#[test]
fn each_number_of_records_and_each_room_agree() {
    let mut comparison = Comparison::new();
    for resource_count in COUNTS {
        for device_count in COUNTS {
            let whole = station(resource_count, device_count).description();
            let (resources, devices) = (whole.resources.len(), whole.devices.len());
            for (resources_cut, devices_cut) in [(0, 0), (1, 0), (3, 0), (0, 1), (0, 53), (2, 27)] {
                let mut cut = whole.clone();
                cut.resources
                    .truncate(resources.saturating_sub(resources_cut));
                cut.devices.truncate(devices.saturating_sub(devices_cut));
                for version in Version::ALL {
                    each_room(&mut comparison, version, cut.clone());
                }
            }
        }
    }
    comparison.must_answer_writer(&[0, 2, 4, 5, 9]);
    comparison.report("each number of records, whole and cut short, with each room");
}

/// Every fault that the writer can refuse, with every other, so that the order
/// of the answers shows.
#[test]
fn each_version_with_each_other_fault_agrees() {
    type Fault = fn(&mut Case);
    let faults: [Fault; 9] = [
        |case| case.description.resources.resize(129, 0),
        |case| case.description.resources.resize(257, 0),
        |case| case.description.devices.resize(54 * 64 + 1, 0),
        |case| case.written.truncate(139),
        |case| case.description.resources[4] = 5,
        |case| case.description.resources.truncate(11),
        |case| case.description.devices[0] = 0,
        |case| case.description.devices[54 + 1] = 1,
        |case| case.description.devices.truncate(161),
    ];
    let mut comparison = Comparison::new();
    for version in VERSIONS {
        for chosen in 0..1 << faults.len() {
            let mut case = Case::of_station(Version::One, &sweep::bench_station());
            case.version = version;
            case.written.resize(5000, 0x5a);
            for (i, fault) in faults.iter().enumerate() {
                if chosen >> i & 1 != 0 {
                    fault(&mut case);
                }
            }
            comparison.run(&case, |_| "several faults".into());
        }
    }
    comparison.must_answer_writer(&[0, 2, 4, 5, 6, 9]);
    let others = &comparison.coverage.of_no_version().writer;
    others.must_be("writer", &[1], 1);
    comparison.report("each version with each other fault of the writer");
}

/// The lists that are lent to the writer, with the length of a record.
const LENT_TO_WRITER: [(Part, usize); 2] = [
    (|case| &mut case.description.resources, 4),
    (|case| &mut case.description.devices, 54),
];

/// The lists that are lent to the describer.
const LENT_TO_DESCRIBER: [(Part, usize); 2] = [
    (|case| &mut case.described.resources, 4),
    (|case| &mut case.described.devices, 54),
];

#[test]
fn each_field_of_the_largest_description_agrees() {
    let mut comparison = Comparison::new();
    let lists = |version| LENT_TO_WRITER.map(|(list, _)| (version, list));
    for (version, list) in Version::ALL.into_iter().flat_map(lists) {
        let mut case = Case::of_station(version, &filled_station(version));
        let good = list(&mut case).clone();
        let mut run = |bytes: &[u8]| {
            list(&mut case).copy_from_slice(bytes);
            comparison.run(&case, |_| "damaged largest description".into());
        };
        sweep::each_wild_byte(&good, &mut run);
        sweep::each_bit(&good, &mut run);
    }
    for version in Version::ALL {
        let writer = &comparison.coverage.of(version).writer;
        writer.must_reach("writer", RECORDS, 0..version.limit());
    }
    comparison.report("each byte with several values, each bit, largest description");
}

/// Each two records bad, each device by a field or by an object rule: the lowest
/// is named.
#[test]
fn each_two_bad_records_agree() {
    let mut comparison = Comparison::new();
    // A level above 4, and of a device a deepest sleep state above 4, or _PS0 without _PS3.
    let resource: &[(usize, u8)] = &[(0, 5)];
    let device: &[(usize, u8)] = &[(53, 5), (1, 1)];
    for version in Version::ALL {
        let good = Case::of_station(version, &filled_station(version));
        for ((list, record), faults) in LENT_TO_WRITER.into_iter().zip([resource, device]) {
            for (first, second) in (0..version.limit()).flat_map(|b| (0..b).map(move |a| (a, b))) {
                for (one, other) in faults
                    .iter()
                    .flat_map(|a| faults.iter().map(move |b| (a, b)))
                {
                    let mut case = good.clone();
                    list(&mut case)[record * first + one.0] = one.1;
                    list(&mut case)[record * second + other.0] = other.1;
                    comparison.run(&case, |_| format!("bad records {first} and {second}"));
                }
            }
        }
    }
    comparison.must_answer_writer(&[4, 5, 6]);
    comparison.report("each two records bad, largest description");
}

#[test]
fn each_record_limit_of_the_largest_station_agrees() {
    let mut comparison = Comparison::new();
    for version in Version::ALL {
        for (list, record) in LENT_TO_WRITER.into_iter().chain(LENT_TO_DESCRIBER) {
            let mut case = Case::of_station(version, &filled_station(version));
            case.written.resize(5000, 0x5a);
            let good = list(&mut case).clone();
            sweep::each_record_limit(&good, record, |bytes| {
                *list(&mut case) = bytes.to_vec();
                comparison.run(&case, |_| "largest station, a list cut".into());
            });
        }
    }
    comparison.report("lengths at each record's limit, lists of the largest station");
}

/// Each bit in each set, alone and beside those that are there, for each number
/// of resources.
#[test]
fn each_set_bit_agrees() {
    let mut comparison = Comparison::new();
    let counts = |version: Version| (0..=version.limit()).map(move |r| (version, r));
    for (version, resource_count) in Version::ALL.into_iter().flat_map(counts) {
        let station = station(resource_count, 3);
        let all = station.devices[0].sets[0];
        for start in (0..3).flat_map(|d| (0..5).map(move |i| 54 * d + 4 + 8 * i)) {
            let mut case = Case::of_station(version, &station);
            for bit in (0..64).map(|bit| 1 << bit) {
                for bits in [bit, all | bit] {
                    let set = &mut case.description.devices[start..start + 8];
                    set.copy_from_slice(&u64::to_le_bytes(bits));
                    comparison.run(&case, |_| format!("set with bits {bits:x}"));
                }
            }
        }
    }
    comparison.must_answer_writer(&[0, 5]);
    comparison.report("each bit of each set, for each number of resources");
}

impl Comparison {
    /// Fails unless the writer gave exactly these answers, in each version.
    fn must_answer_writer(&self, answers: &[u8]) {
        for version in Version::ALL {
            let writer = &self.coverage.of(version).writer;
            writer.must_be("writer", answers, 1);
        }
    }
}
