//! The objects of a described device, by the words that the text of a station
//! has for them.

use sailgarnet::Device;

/// The methods.
pub const METHODS: [&str; 5] = ["_PS0", "_PS1", "_PS2", "_PS3", "_DSW"];
/// The place of `_DSW` among the methods.
const DSW: usize = 4;

/// The lists of resources, in the order of [`Device::sets`].
pub const LISTS: [&str; 5] = ["_PR0", "_PR1", "_PR2", "_PR3", "_PRW"];
/// The place of `_PRW` among the lists.
pub const PRW: usize = 4;

/// The objects with a device state: those of [`Device::sxd`], then of
/// [`Device::sxw`].
pub const SLEEP: [&str; 9] = [
    "_S1D", "_S2D", "_S3D", "_S4D", "_S0W", "_S1W", "_S2W", "_S3W", "_S4W",
];

/// Whether a device has the method at this place of [`METHODS`].
pub fn has_method(device: &Device, place: usize) -> bool {
    match place {
        DSW => device.flags & Device::DSW != 0,
        x => device.ps_mask >> x & 1 != 0,
    }
}

/// Gives a device the method at this place of [`METHODS`].
pub fn add_method(device: &mut Device, place: usize) {
    match place {
        DSW => device.flags |= Device::DSW,
        x => device.ps_mask |= 1 << x,
    }
}

/// Whether a device has the list at this place of [`LISTS`].
pub fn has_list(device: &Device, place: usize) -> bool {
    match place {
        PRW => device.flags & Device::PRW != 0,
        x => device.pr_mask >> x & 1 != 0,
    }
}

/// Gives a device the list at this place of [`LISTS`].
pub fn add_list(device: &mut Device, place: usize, set: u64) {
    match place {
        PRW => device.flags |= Device::PRW,
        x => device.pr_mask |= 1 << x,
    }
    device.sets[place] = set;
}

/// The byte for the object at this place of [`SLEEP`].
pub fn sleep(device: &mut Device, place: usize) -> &mut u8 {
    match place.checked_sub(device.sxd.len()) {
        None => &mut device.sxd[place],
        Some(x) => &mut device.sxw[x],
    }
}
