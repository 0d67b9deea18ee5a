//! Descriptions of stations: two lists of records, which a table is written
//! from and read into.

use crate::answer::Answer;
use crate::device::{check_devices, Record};
use crate::resources::Resources;
use crate::table::{for_either, Records, Table, MARK};
use crate::version::Version;

/// The length of a described resource: its record in a table.
pub const DESCRIBED_RESOURCE_BYTES: usize = 4;
/// The length of a described device: the fields of its record, the sets with 8
/// bytes each.
pub const DESCRIBED_DEVICE_BYTES: usize = 54;
/// The length of a set of a described device.
const DESCRIBED_SET_BYTES: usize = 8;

/// Writes the table of a described station to the front of `table`, or refuses
/// with 1, 2, 9, 4, 5 or 6. The count is the table's bytes.
pub fn write(version: u32, resources: &[u8], devices: &[u8], table: &mut [u8]) -> Answer {
    match Description::read(version, resources, devices, table.len()) {
        Ok(description) => description.write(table),
        Err(refusal) => refusal,
    }
}

/// Writes the resources and the devices of a table to the fronts of the two
/// buffers, or refuses with 1 to 6 or 9. The count is the bytes of both.
pub fn describe(table: &[u8], resources: &mut [u8], devices: &mut [u8]) -> Answer {
    match Table::read(table) {
        Ok(table) => for_either!(table, records => describe_records(&records, resources, devices)),
        Err(refusal) => refusal,
    }
}

fn describe_records<const N: usize, const W: usize>(
    records: &Records<N, W>,
    resources: &mut [u8],
    devices: &mut [u8],
) -> Answer {
    let resources_length = DESCRIBED_RESOURCE_BYTES * records.resources.count();
    let devices_length = DESCRIBED_DEVICE_BYTES * records.device_count();
    let (Some(resources), Some(devices)) = (
        resources.get_mut(..resources_length),
        devices.get_mut(..devices_length),
    ) else {
        return Answer::refused(9, 0);
    };
    resources.copy_from_slice(records.resources.bytes());
    for (d, device) in devices.as_chunks_mut().0.iter_mut().enumerate() {
        *device = records
            .device(d)
            .converted::<DESCRIBED_DEVICE_BYTES, DESCRIBED_SET_BYTES>();
    }
    Answer::done((resources_length + devices_length) as u16)
}

/// A description that was found good for a version.
struct Description<'a> {
    version: Version,
    resources: Resources<'a>,
    devices: &'a [[u8; DESCRIBED_DEVICE_BYTES]],
}

impl<'a> Description<'a> {
    /// Reads a description for a table with so much room. A record that is cut
    /// short is the last of its list, so it is looked at after the others.
    fn read(
        version: u32,
        resources: &'a [u8],
        devices: &'a [u8],
        room: usize,
    ) -> Result<Self, Answer> {
        let version = Version::from_number(version).ok_or(Answer::refused(1, 0))?;
        let r = resources.len().div_ceil(DESCRIBED_RESOURCE_BYTES);
        let d = devices.len().div_ceil(DESCRIBED_DEVICE_BYTES);
        if r > version.limit() || d > version.limit() {
            return Err(Answer::refused(2, 0));
        }
        if room < version.table_bytes(r, d) {
            return Err(Answer::refused(9, 0));
        }
        let (resources, cut_resource) = resources.as_chunks();
        let resources = Resources::read(resources)?;
        if !cut_resource.is_empty() {
            return Err(Answer::refused(4, resources.count() as u64));
        }
        let (devices, cut_device) = devices.as_chunks();
        check_devices::<DESCRIBED_DEVICE_BYTES, DESCRIBED_SET_BYTES>(devices, resources)?;
        if !cut_device.is_empty() {
            return Err(Answer::refused(5, devices.len() as u64));
        }
        Ok(Self {
            version,
            resources,
            devices,
        })
    }

    /// Writes the table to the front of a buffer that has room for it.
    fn write(&self, table: &mut [u8]) -> Answer {
        let (r, d) = (self.resources.count(), self.devices.len());
        let length = self.version.table_bytes(r, d);
        let (header, records) = table[..length].split_at_mut(8);
        header[..3].copy_from_slice(MARK);
        header[3] = r as u8;
        header[4..6].copy_from_slice(&self.version.number().to_le_bytes());
        header[6] = d as u8;
        header[7] = 0;
        let (resources, devices) = records.split_at_mut(4 * r);
        resources.copy_from_slice(self.resources.bytes());
        match self.version {
            Version::One => write_records::<40, 4>(self.devices, devices),
            Version::Two => write_records::<64, 8>(self.devices, devices),
        }
        Answer::done(length as u16)
    }
}

/// Writes the records of described devices, each of `N` bytes with `W` for a set.
fn write_records<const N: usize, const W: usize>(
    devices: &[[u8; DESCRIBED_DEVICE_BYTES]],
    records: &mut [u8],
) {
    for (record, device) in records.as_chunks_mut().0.iter_mut().zip(devices) {
        *record = Record::<_, DESCRIBED_SET_BYTES>(device).converted::<N, W>();
    }
}
