//! The two versions of table, and the sizes that depend on them.

/// A version of table. It says how many resources and devices a table may have,
/// and so how long its records, its states and its plans are.
///
/// A caller that knows its table has the sizes as constants. One that takes any
/// table asks the table:
///
/// ```
/// use sailgarnet::Version;
///
/// const ROOM: usize = Version::Two.plan_bytes();
///
/// let table = [b'P', b'W', b'T', 0, 2, 0, 0, 0];
/// let version = Version::of_table(&table).expect("a header");
/// assert_eq!(version, Version::Two);
/// assert_eq!((version.state_bytes(), version.plan_bytes()), (264, ROOM));
/// ```
#[derive(Clone, Copy, Debug, PartialEq, Eq, PartialOrd, Ord, Hash)]
pub enum Version {
    /// At most 32 resources and 32 devices.
    One,
    /// At most 64 resources and 64 devices.
    Two,
}

impl Version {
    /// Every version.
    pub const ALL: [Version; 2] = [Version::One, Version::Two];

    /// The version with this number.
    pub const fn from_number(number: u32) -> Option<Self> {
        match number {
            1 => Some(Version::One),
            2 => Some(Version::Two),
            _ => None,
        }
    }

    /// Its number, as the header of a table has it and `write` takes it.
    pub const fn number(self) -> u32 {
        match self {
            Version::One => 1,
            Version::Two => 2,
        }
    }

    /// The version of a table, `None` exactly if the table is refused with 1. No
    /// byte after its header is looked at.
    ///
    /// ```
    /// use sailgarnet::Version;
    ///
    /// let version = |bytes: &[u8]| Version::of_table(bytes);
    /// assert_eq!(version(b"PWT\x2f\x02\0\x30\0"), Some(Version::Two));
    /// assert_eq!(version(b"PWT\x2f\x03\0\x30\0"), None);
    /// assert_eq!(version(b"PWT\x2f\x02\0\x30"), None);
    /// ```
    pub const fn of_table(table: &[u8]) -> Option<Self> {
        match table {
            [b'P', b'W', b'T', _, low, high, _, 0, ..] => {
                Self::from_number(u16::from_le_bytes([*low, *high]) as u32)
            }
            _ => None,
        }
    }

    /// The version of the tables that have states of this length.
    pub const fn of_state(state: &[u8]) -> Option<Self> {
        match state.len() {
            STATE_ONE => Some(Version::One),
            STATE_TWO => Some(Version::Two),
            _ => None,
        }
    }

    /// The bytes of a set of resources in a table or a state, a bit a resource.
    pub const fn set_bytes(self) -> usize {
        match self {
            Version::One => 4,
            Version::Two => 8,
        }
    }

    /// The most resources a table can have.
    pub const fn max_resources(self) -> usize {
        8 * self.set_bytes()
    }

    /// The most devices a table can have.
    pub const fn max_devices(self) -> usize {
        8 * self.set_bytes()
    }

    /// The length of the record of a device in a table.
    pub const fn record_bytes(self) -> usize {
        16 + 6 * self.set_bytes()
    }

    /// The length of a table with so many resources and devices.
    pub const fn table_bytes(self, resources: usize, devices: usize) -> usize {
        8 + 4 * resources + self.record_bytes() * devices
    }

    /// The most bytes a table can have.
    pub const fn max_table_bytes(self) -> usize {
        self.table_bytes(self.max_resources(), self.max_devices())
    }

    /// The length of the entries of a state, four bytes for each of the most
    /// devices. The set of the resources that are on stands after them.
    pub const fn entries_bytes(self) -> usize {
        4 * self.max_devices()
    }

    /// The length of a state.
    pub const fn state_bytes(self) -> usize {
        self.entries_bytes() + self.set_bytes()
    }

    /// The most calls a plan can have, but for sleep entry: each resource once,
    /// and the own call of the device.
    pub const fn plan_calls(self) -> usize {
        self.max_resources() + 1
    }

    /// The room the planner asks for in bytes, four a call, but for sleep entry.
    pub const fn plan_bytes(self) -> usize {
        4 * self.plan_calls()
    }

    /// The calls the planner asks room for at sleep entry: each device may move.
    pub const fn sleep_plan_calls(self) -> usize {
        self.plan_calls() * self.max_devices()
    }

    /// The room the planner asks for at sleep entry in bytes, four a call.
    pub const fn sleep_plan_bytes(self) -> usize {
        4 * self.sleep_plan_calls()
    }
}

const STATE_ONE: usize = Version::One.state_bytes();
const STATE_TWO: usize = Version::Two.state_bytes();

#[cfg(test)]
mod tests {
    use super::Version;

    /// What the rules say of each version, in their numbers.
    #[test]
    fn each_version_has_its_sizes() {
        let sizes = |v: Version| {
            let most = [v.max_resources(), v.max_devices(), v.max_table_bytes()];
            let records = [v.set_bytes(), v.record_bytes(), v.table_bytes(3, 5)];
            let state = [v.entries_bytes(), v.state_bytes()];
            let plan = [v.plan_calls(), v.plan_bytes()];
            let sleep = [v.sleep_plan_calls(), v.sleep_plan_bytes()];
            (most, records, state, plan, sleep)
        };
        assert_eq!(
            sizes(Version::One),
            (
                [32, 32, 1416],
                [4, 40, 220],
                [128, 132],
                [33, 132],
                [1056, 4224]
            )
        );
        assert_eq!(
            sizes(Version::Two),
            (
                [64, 64, 4360],
                [8, 64, 340],
                [256, 264],
                [65, 260],
                [4160, 16_640]
            )
        );
    }

    #[test]
    fn the_constants_are_those_of_version_1() {
        let one = Version::One;
        assert_eq!(crate::STATE_BYTES, one.state_bytes());
        assert_eq!(crate::PLAN_CALLS, one.plan_calls());
        assert_eq!(crate::PLAN_BYTES, one.plan_bytes());
        assert_eq!(crate::SLEEP_PLAN_CALLS, one.sleep_plan_calls());
        assert_eq!(crate::SLEEP_PLAN_BYTES, one.sleep_plan_bytes());
        assert_eq!(crate::MAX_RESOURCES, one.max_resources());
        assert_eq!(crate::MAX_DEVICES, one.max_devices());
        assert_eq!(crate::MAX_TABLE_BYTES, one.max_table_bytes());
    }

    #[test]
    fn numbers_and_versions_go_both_ways() {
        for version in Version::ALL {
            assert_eq!(Version::from_number(version.number()), Some(version));
        }
        for number in [0, 3, 256, 257, 258, u32::MAX] {
            assert_eq!(Version::from_number(number), None);
        }
    }

    #[test]
    fn a_header_has_a_version() {
        for number in 0..=u16::MAX {
            let [low, high] = number.to_le_bytes();
            let header = [b'P', b'W', b'T', 255, low, high, 255, 0];
            let version = Version::from_number(number.into());
            assert_eq!(Version::of_table(&header), version);
            for byte in [0, 1, 2, 7] {
                let mut damaged = header;
                damaged[byte] ^= 1;
                assert_eq!(Version::of_table(&damaged), None);
            }
        }
        let longer = *b"PWT\0\x01\0\0\0\xff";
        assert_eq!(Version::of_table(&longer), Some(Version::One));
        for length in 0..8 {
            assert_eq!(Version::of_table(&longer[..length]), None);
        }
    }

    #[test]
    fn a_state_is_known_by_its_length() {
        for length in 0..300 {
            let expected = match length {
                132 => Some(Version::One),
                264 => Some(Version::Two),
                _ => None,
            };
            assert_eq!(Version::of_state(&vec![0; length]), expected);
        }
    }
}
