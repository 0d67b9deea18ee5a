//! The power table, read in place (answers 1 to 6).

use crate::answer::Answer;
use crate::device::{check_devices, Device, Record};
use crate::resources::Resources;
use crate::version::Version;

/// The most resources a table of any version may have.
pub const MAX_RESOURCES: usize = Version::Two.limit();
/// The most devices a table of any version may have.
pub const MAX_DEVICES: usize = Version::Two.limit();

/// The first bytes of every table.
pub(crate) const MARK: &[u8; 3] = b"PWT";

/// Answers for the table alone: 0, or 1 to 6.
pub fn check_table(table: &[u8]) -> Answer {
    match Table::read(table) {
        Ok(_) => Answer::done(0),
        Err(refusal) => refusal,
    }
}

/// The record of device `d` as its own bytes of the table, 40 or 64. It is empty
/// if the table is refused or has no such device.
pub fn record(table: &[u8], d: usize) -> &[u8] {
    match Table::read(table) {
        Ok(table) => for_either!(table, records => records.bytes(d)),
        Err(_) => &[],
    }
}

/// The records of a table that was found good. Those of devices have `N` bytes, and
/// the sets in them `W`.
#[derive(Clone, Copy)]
pub struct Records<'a, const N: usize, const W: usize> {
    pub(crate) resources: Resources<'a>,
    devices: &'a [[u8; N]],
}

impl<'a, const N: usize, const W: usize> Records<'a, N, W> {
    /// The version, which the length of its sets tells.
    pub(crate) const VERSION: Version = match W {
        4 => Version::One,
        _ => Version::Two,
    };

    /// Reads a table of this version, or refuses it with 1 to 6.
    fn read(bytes: &'a [u8]) -> Result<Self, Answer> {
        let Some((header, records)) = bytes.split_first_chunk::<8>() else {
            return Err(Answer::refused(1, 0));
        };
        if header[..3] != *MARK || header[7] != 0 {
            return Err(Answer::refused(1, 0));
        }
        let (r, d) = (header[3] as usize, header[6] as usize);
        if r > Self::VERSION.limit() || d > Self::VERSION.limit() {
            return Err(Answer::refused(2, 0));
        }
        if bytes.len() != Self::VERSION.table_bytes(r, d) {
            return Err(Answer::refused(3, 0));
        }
        let (resources, devices) = records.split_at(4 * r);
        let resources = Resources::read(resources.as_chunks().0)?;
        let devices = devices.as_chunks().0;
        check_devices::<N, W>(devices, resources)?;
        Ok(Self { resources, devices })
    }

    pub(crate) fn device_count(&self) -> usize {
        self.devices.len()
    }

    pub(crate) fn device(&self, d: usize) -> Record<'a, N, W> {
        Record(&self.devices[d])
    }

    /// The bytes of a device's record, none if there is no such device.
    fn bytes(&self, d: usize) -> &'a [u8] {
        self.devices.get(d).map_or(&[], |record| record)
    }
}

/// A table of either version that was found good.
#[derive(Clone, Copy)]
pub enum Table<'a> {
    /// Of version 1.
    One(Records<'a, 40, 4>),
    /// Of version 2.
    Two(Records<'a, 64, 8>),
}

/// The same for the records of a table, whichever version it has.
macro_rules! for_either {
    ($table:expr, $records:ident => $result:expr) => {
        match $table {
            $crate::table::Table::One($records) => $result,
            $crate::table::Table::Two($records) => $result,
        }
    };
}
pub(crate) use for_either;

impl<'a> Table<'a> {
    /// Reads a table, or refuses it with 1 to 6.
    pub fn read(bytes: &'a [u8]) -> Result<Self, Answer> {
        match Version::of_table(bytes) {
            Some(Version::One) => Records::read(bytes).map(Self::One),
            Some(Version::Two) => Records::read(bytes).map(Self::Two),
            None => Err(Answer::refused(1, 0)),
        }
    }

    /// The version.
    pub fn version(&self) -> Version {
        match self {
            Self::One(_) => Version::One,
            Self::Two(_) => Version::Two,
        }
    }

    /// The resources.
    pub fn resources(&self) -> Resources<'a> {
        for_either!(self, records => records.resources)
    }

    /// The number of resources, R.
    pub fn resource_count(&self) -> usize {
        self.resources().count()
    }

    /// The number of devices, D.
    pub fn device_count(&self) -> usize {
        for_either!(self, records => records.device_count())
    }

    /// The set of all R resources.
    pub fn all_resources(&self) -> u64 {
        self.resources().all()
    }

    /// The deepest sleep state in which resource `r` can be on.
    pub fn system_level(&self, r: usize) -> u8 {
        self.resources().system_level(r)
    }

    /// The order of resource `r`: lower is switched on earlier and off later.
    pub fn resource_order(&self, r: usize) -> u16 {
        self.resources().order(r)
    }

    /// Device `d`.
    pub fn device(&self, d: usize) -> Device<'a> {
        match self {
            Self::One(records) => Device::one(&records.devices[d]),
            Self::Two(records) => Device::two(&records.devices[d]),
        }
    }

    /// Whether (S, D) is a legal wake pair of `device`; if not, 16, 17 or 18.
    pub fn wake_pair(&self, device: Device, s: u8, d: u8) -> Result<(), Answer> {
        device.wake_pair(self.resources(), s, d)
    }
}
