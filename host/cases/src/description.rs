//! Descriptions of stations: the two lists of records that a table is written
//! from and described as.

use reference::{describe, Version, DESCRIBED_DEVICE_BYTES, DESCRIBED_RESOURCE_BYTES};

use crate::station::header;

/// Versions that may be asked of the writer: 1 and 2, and numbers beside them or
/// equal to them in some of their bytes.
pub const VERSIONS: [u32; 13] = [
    0,
    1,
    2,
    3,
    0x0101,
    0x0102,
    0x0200,
    0xffff,
    0x0001_0001,
    0x0001_0002,
    0x0001_0100,
    0x0200_0000,
    u32::MAX,
];

/// A station as two lists of records (RULES.md 11.1), which may be bad or cut short.
#[derive(Clone, Debug, Default, PartialEq, Eq)]
pub struct Description {
    /// The described resources.
    pub resources: Vec<u8>,
    /// The described devices.
    pub devices: Vec<u8>,
}

impl Description {
    /// The lists of a table that is good.
    pub fn of_table(table: &[u8]) -> Self {
        let mut description = Self {
            resources: vec![0; DESCRIBED_RESOURCE_BYTES * usize::from(table[3])],
            devices: vec![0; DESCRIBED_DEVICE_BYTES * usize::from(table[6])],
        };
        let answer = describe(table, &mut description.resources, &mut description.devices);
        assert!(answer.is_done(), "only a good table describes lists");
        description
    }

    /// How many resources and devices there are. A record that is cut short counts.
    pub fn counts(&self) -> (usize, usize) {
        let resources = self.resources.len().div_ceil(DESCRIBED_RESOURCE_BYTES);
        let devices = self.devices.len().div_ceil(DESCRIBED_DEVICE_BYTES);
        (resources, devices)
    }

    /// The length of the table of so many records.
    pub fn table_length(&self, version: Version) -> usize {
        let (resources, devices) = self.counts();
        version.table_bytes(resources, devices)
    }

    /// Whether a version has so many records of each kind.
    pub fn fits(&self, version: Version) -> bool {
        let (resources, devices) = self.counts();
        resources.max(devices) <= version.limit()
    }

    /// The bytes of the table that the records would make in a version, good or
    /// not. There are none if a record is cut short, if there are more of a kind
    /// than the version has, or if a set has a bit that it cannot hold.
    pub fn assembled(&self, version: Version) -> Option<Vec<u8>> {
        let (resource_count, device_count) = self.counts();
        let (resources, cut_resource) = self.resources.as_chunks::<DESCRIBED_RESOURCE_BYTES>();
        let (devices, cut_device) = self.devices.as_chunks::<DESCRIBED_DEVICE_BYTES>();
        let whole = cut_resource.is_empty() && cut_device.is_empty();
        if !whole || !self.fits(version) {
            return None;
        }
        let mut table = header(version, resource_count, device_count);
        table.extend(resources.as_flattened());
        for device in devices {
            let end = table.len() + version.record_bytes();
            table.extend(&device[..4]);
            for set in device[4..44].as_chunks::<8>().0 {
                let (held, lost) = set.split_at(version.set_bytes());
                if lost.iter().any(|&byte| byte != 0) {
                    return None;
                }
                table.extend(held);
            }
            table.extend(&device[44..]);
            table.resize(end, 0);
        }
        Some(table)
    }
}

#[cfg(test)]
mod tests {
    use super::Description;
    use crate::sweep::bench_station;
    use reference::Version::{self, One, Two};

    #[test]
    fn the_bench_station_is_assembled() {
        let station = bench_station();
        let description = station.description();
        assert_eq!(description.counts(), (3, 3));
        for (version, length) in [(One, 140), (Two, 212)] {
            let table = station.table(version);
            assert_eq!(description, Description::of_table(&table));
            assert_eq!(description.table_length(version), length);
            assert_eq!(description.assembled(version), Some(table));
        }
    }

    /// In which versions a changed description of the bench station has a table.
    fn held(change: fn(&mut Description)) -> [bool; 2] {
        let mut description = bench_station().description();
        change(&mut description);
        Version::ALL.map(|version| description.assembled(version).is_some())
    }

    #[test]
    fn what_no_table_can_hold_is_not_assembled() {
        let (neither, second) = ([false, false], [false, true]);
        assert_eq!(held(|lists| lists.devices[4 + 4] = 1), second);
        assert_eq!(held(|lists| lists.devices[54 + 36 + 7] = 128), second);
        assert_eq!(held(|lists| lists.resources.resize(132, 0)), second);
        assert_eq!(held(|lists| lists.devices.resize(33 * 54, 0)), second);
        assert_eq!(held(|lists| lists.resources.resize(260, 0)), neither);
        assert_eq!(held(|lists| lists.devices.resize(65 * 54, 0)), neither);
        assert_eq!(held(|lists| lists.devices.truncate(161)), neither);
        assert_eq!(held(|lists| lists.resources.push(0)), neither);
    }

    #[test]
    fn bad_values_stand_in_a_table() {
        let mut description = bench_station().description();
        description.devices[53] = 255;
        for (version, deepest) in [(One, 33), (Two, 53)] {
            let table = description.assembled(version).expect("a table");
            assert_eq!(table[20 + deepest], 255);
        }
    }
}
