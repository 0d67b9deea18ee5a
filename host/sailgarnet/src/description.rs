//! Described resources and devices: the records of a station as an editor works
//! on them, the same for every version of table.

/// Stands for no parent, or for an `_SxD` or `_SxW` that is absent.
pub const NONE: u8 = 255;

/// A described resource, four bytes in a list.
#[derive(Clone, Copy, Debug, Default, PartialEq, Eq, Hash)]
pub struct Resource {
    /// The deepest sleep state in which the resource can be on, 0 to 4.
    pub system_level: u8,
    /// A lower order is turned on earlier and turned off later.
    pub order: u16,
}

impl Resource {
    /// The length of a described resource.
    pub const BYTES: usize = 4;

    /// The four bytes of the resource.
    pub const fn to_bytes(self) -> [u8; Self::BYTES] {
        let [low, high] = self.order.to_le_bytes();
        [self.system_level, 0, low, high]
    }

    /// The resource that four bytes describe, or `None` if the reserved one is
    /// not zero.
    pub const fn from_bytes(bytes: [u8; Self::BYTES]) -> Option<Self> {
        match bytes {
            [system_level, 0, low, high] => Some(Self {
                system_level,
                order: u16::from_le_bytes([low, high]),
            }),
            _ => None,
        }
    }
}

/// A described device, 54 bytes in a list. Every value can be described; `write`
/// refuses those that are not legal.
#[derive(Clone, Copy, Debug, PartialEq, Eq, Hash)]
pub struct Device {
    /// The number of the device that this one is attached to, or [`NONE`].
    pub parent: u8,
    /// Bit x is 1 if the method `_PSx` exists.
    pub ps_mask: u8,
    /// Bit x is 1 if the list `_PRx` exists.
    pub pr_mask: u8,
    /// [`Device::PRW`] and [`Device::DSW`].
    pub flags: u8,
    /// The sets of `_PR0` to `_PR3` and of `_PRW`; bit r is resource r.
    pub sets: [u64; 5],
    /// `_S1D` to `_S4D`, each 0 to 3 or [`NONE`].
    pub sxd: [u8; 4],
    /// `_S0W` to `_S4W`, each 0 to 4 or [`NONE`].
    pub sxw: [u8; 5],
    /// The deepest sleep state from which the device can wake the system.
    pub deepest: u8,
}

impl Device {
    /// The length of a described device.
    pub const BYTES: usize = 54;
    /// The flag of `_PRW`.
    pub const PRW: u8 = 1;
    /// The flag of `_DSW`.
    pub const DSW: u8 = 2;

    /// The 54 bytes of the device.
    pub fn to_bytes(self) -> [u8; Self::BYTES] {
        let mut bytes = [0; Self::BYTES];
        bytes[..4].copy_from_slice(&[self.parent, self.ps_mask, self.pr_mask, self.flags]);
        bytes[4..44].copy_from_slice(self.sets.map(u64::to_le_bytes).as_flattened());
        bytes[44..48].copy_from_slice(&self.sxd);
        bytes[48..53].copy_from_slice(&self.sxw);
        bytes[53] = self.deepest;
        bytes
    }

    /// The device that 54 bytes describe.
    pub fn from_bytes(bytes: [u8; Self::BYTES]) -> Self {
        let set = |i: usize| u64::from_le_bytes(part(&bytes, 4 + 8 * i));
        let [parent, ps_mask, pr_mask, flags] = part(&bytes, 0);
        Self {
            parent,
            ps_mask,
            pr_mask,
            flags,
            sets: [set(0), set(1), set(2), set(3), set(4)],
            sxd: part(&bytes, 44),
            sxw: part(&bytes, 48),
            deepest: bytes[53],
        }
    }
}

impl Default for Device {
    /// A device without any object and without a parent.
    fn default() -> Self {
        Self {
            parent: NONE,
            ps_mask: 0,
            pr_mask: 0,
            flags: 0,
            sets: [0; 5],
            sxd: [NONE; 4],
            sxw: [NONE; 5],
            deepest: 0,
        }
    }
}

/// `N` bytes from `start` on, which must be there.
fn part<const N: usize>(bytes: &[u8; Device::BYTES], start: usize) -> [u8; N] {
    let mut part = [0; N];
    part.copy_from_slice(&bytes[start..start + N]);
    part
}

/// The resources of a list, `None` for one whose reserved byte is not zero. A
/// record that is cut short is left out.
pub fn resources(list: &[u8]) -> impl Iterator<Item = Option<Resource>> + '_ {
    list.as_chunks().0.iter().copied().map(Resource::from_bytes)
}

/// The devices of a list. A record that is cut short is left out.
pub fn devices(list: &[u8]) -> impl Iterator<Item = Device> + '_ {
    list.as_chunks().0.iter().copied().map(Device::from_bytes)
}

#[cfg(test)]
mod tests {
    use super::{devices, resources, Device, Resource, NONE};

    #[test]
    fn a_resource_has_its_bytes() {
        let resource = Resource {
            system_level: 3,
            order: 0x1234,
        };
        assert_eq!(resource.to_bytes(), [3, 0, 0x34, 0x12]);
        assert_eq!(Resource::from_bytes([3, 0, 0x34, 0x12]), Some(resource));
        for reserved in 1..=255 {
            assert_eq!(Resource::from_bytes([3, reserved, 0x34, 0x12]), None);
        }
        let list = [3, 0, 0x34, 0x12, 9, 1, 0, 0, 0, 0, 0];
        assert!(resources(&list).eq([Some(resource), None]));
    }

    #[test]
    fn a_device_has_its_bytes() {
        // Byte i has the value i, so each field is known by its place.
        let bytes: [u8; 54] = std::array::from_fn(|i| i as u8);
        let device = Device {
            parent: 0,
            ps_mask: 1,
            pr_mask: 2,
            flags: 3,
            sets: [
                0x0b0a_0908_0706_0504,
                0x1312_1110_0f0e_0d0c,
                0x1b1a_1918_1716_1514,
                0x2322_2120_1f1e_1d1c,
                0x2b2a_2928_2726_2524,
            ],
            sxd: [44, 45, 46, 47],
            sxw: [48, 49, 50, 51, 52],
            deepest: 53,
        };
        assert_eq!(Device::from_bytes(bytes), device);
        assert_eq!(device.to_bytes(), bytes);
        let list = [&bytes[..], &bytes, &bytes[..53]].concat();
        assert!(devices(&list).eq([device, device]));
    }

    #[test]
    fn a_device_without_objects_names_nothing() {
        let bytes = Device::default().to_bytes();
        let named: Vec<usize> = (0..54).filter(|&i| bytes[i] != 0).collect();
        let expected: Vec<usize> = [0].into_iter().chain(44..53).collect();
        assert_eq!(named, expected);
        assert!(named.iter().all(|&i| bytes[i] == NONE));
    }
}
