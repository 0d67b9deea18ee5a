//! The versions of the table, and the sizes that each of them fixes.

/// A version of the table. It says how many bytes a set has, and all sizes
/// follow from that.
#[derive(Clone, Copy, Debug, PartialEq, Eq)]
pub enum Version {
    /// Sets of 4 bytes: at most 32 resources and 32 devices.
    One,
    /// Sets of 8 bytes: at most 64 resources and 64 devices.
    Two,
}

impl Version {
    /// All versions, rising.
    pub const ALL: [Self; 2] = [Self::One, Self::Two];

    /// The version with this number, of which there are two.
    pub const fn from_number(number: u32) -> Option<Self> {
        match number {
            1 => Some(Self::One),
            2 => Some(Self::Two),
            _ => None,
        }
    }

    /// The version that the bytes of a table name, whatever else they hold.
    pub fn of_table(table: &[u8]) -> Option<Self> {
        let number = table.get(4..6)?.as_array()?;
        Self::from_number(u16::from_le_bytes(*number).into())
    }

    /// The number in a table.
    pub const fn number(self) -> u16 {
        match self {
            Self::One => 1,
            Self::Two => 2,
        }
    }

    /// The length of a set.
    pub const fn set_bytes(self) -> usize {
        match self {
            Self::One => 4,
            Self::Two => 8,
        }
    }

    /// The most resources, and the most devices: one for each bit of a set.
    pub const fn limit(self) -> usize {
        8 * self.set_bytes()
    }

    /// The length of a device's record.
    pub const fn record_bytes(self) -> usize {
        16 + 6 * self.set_bytes()
    }

    /// The length of a table with so many resources and devices.
    pub const fn table_bytes(self, resource_count: usize, device_count: usize) -> usize {
        8 + 4 * resource_count + self.record_bytes() * device_count
    }

    /// The length of the largest table.
    pub const fn max_table_bytes(self) -> usize {
        self.table_bytes(self.limit(), self.limit())
    }

    /// The length of the entries of a state image, which come before its on-set.
    pub const fn entry_bytes(self) -> usize {
        4 * self.limit()
    }

    /// The length of a state image.
    pub const fn state_bytes(self) -> usize {
        self.entry_bytes() + self.set_bytes()
    }

    /// The room a plan needs, in words: every resource once and the own call.
    pub const fn plan_words(self) -> usize {
        self.limit() + 1
    }

    /// The room a plan needs, in bytes.
    pub const fn plan_bytes(self) -> usize {
        4 * self.plan_words()
    }

    /// The room a plan of sleep entry needs, in words: every device may move.
    pub const fn sleep_plan_words(self) -> usize {
        self.limit() * self.plan_words()
    }

    /// The room a plan of sleep entry needs, in bytes.
    pub const fn sleep_plan_bytes(self) -> usize {
        4 * self.sleep_plan_words()
    }
}

#[cfg(test)]
mod tests {
    use super::Version;

    #[test]
    fn each_version_has_its_sizes() {
        let sizes = |version: Version| {
            [
                version.limit(),
                version.record_bytes(),
                version.table_bytes(3, 3),
                version.max_table_bytes(),
                version.entry_bytes(),
                version.state_bytes(),
                version.plan_words(),
                version.plan_bytes(),
                version.sleep_plan_words(),
                version.sleep_plan_bytes(),
            ]
        };
        let one = [32, 40, 140, 1416, 128, 132, 33, 132, 1056, 4224];
        let two = [64, 64, 212, 4360, 256, 264, 65, 260, 4160, 16_640];
        assert_eq!(Version::ALL.map(sizes), [one, two]);
    }

    #[test]
    fn a_number_is_taken_whole() {
        for version in Version::ALL {
            let number = version.number();
            assert_eq!(Version::from_number(number.into()), Some(version));
            let [low, high] = number.to_le_bytes();
            let header = [0, 0, 0, 255, low, high, 255, 255];
            assert_eq!(Version::of_table(&header), Some(version));
            assert_eq!(Version::of_table(&header[..6]), Some(version));
            assert_eq!(Version::of_table(&header[..5]), None);
        }
        for number in [0, 3, 256, 257, 258, 0xffff, 0x1_0001, 0x1_0002, u32::MAX] {
            assert_eq!(Version::from_number(number), None);
        }
        for bytes in [[0, 0], [3, 0], [1, 1], [2, 1], [0, 1], [0, 2], [255, 255]] {
            assert_eq!(Version::of_table(&[&[0; 4][..], &bytes].concat()), None);
        }
    }
}
