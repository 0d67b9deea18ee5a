//! State images of both versions.

use reference::Version;

/// An entry that is not armed.
pub const fn at(state: u8) -> [u8; 4] {
    [state, 0, 0, 0]
}

/// A state image from its entries and the set of resources that are on.
pub fn image(version: Version, entries: &[[u8; 4]], on: u64) -> Vec<u8> {
    let mut bytes = entries.concat();
    bytes.resize(version.state_bytes(), 0);
    set_on(version, &mut bytes, on);
    bytes
}

/// The resources that are on in a state image.
pub fn on_set(version: Version, image: &[u8]) -> u64 {
    let mut set = [0; 8];
    set[..version.set_bytes()].copy_from_slice(&image[version.entry_bytes()..]);
    u64::from_le_bytes(set)
}

/// Makes these the resources that are on in a state image. Bits that its version
/// cannot hold are lost.
pub fn set_on(version: Version, image: &mut [u8], on: u64) {
    let set = &on.to_le_bytes()[..version.set_bytes()];
    image[version.entry_bytes()..].copy_from_slice(set);
}

/// The image of one version as that of another one, with the same entries and the
/// same resources on; `None` if its length is wrong, or the other cannot hold it.
pub fn converted(from: Version, to: Version, bytes: &[u8]) -> Option<Vec<u8>> {
    if bytes.len() != from.state_bytes() {
        return None;
    }
    let entries = bytes[..from.entry_bytes()].as_chunks().0;
    let (held, others) = entries.split_at(entries.len().min(to.limit()));
    let on = on_set(from, bytes);
    let converted = image(to, held, on);
    let is_whole = others.iter().all(|&entry| entry == [0; 4]) && on_set(to, &converted) == on;
    is_whole.then_some(converted)
}

#[cfg(test)]
mod tests {
    use super::{converted, image, on_set};
    use reference::Version::{One, Two};

    #[test]
    fn an_image_has_its_parts() {
        let narrow = image(One, &[[1, 2, 3, 4]; 32], 0x8070_6050);
        assert_eq!((narrow.len(), on_set(One, &narrow)), (132, 0x8070_6050));
        assert_eq!(narrow[124..], [1, 2, 3, 4, 0x50, 0x60, 0x70, 0x80]);
        let wide = image(Two, &[[1, 2, 3, 4]; 64], 0x8070_6050_4030_2010);
        assert_eq!(on_set(Two, &wide), 0x8070_6050_4030_2010);
        assert_eq!((wide.len(), &wide[252..256]), (264, &[1, 2, 3, 4][..]));
        assert_eq!(wide[256], 0x10);
    }

    #[test]
    fn what_both_can_hold_is_converted_both_ways() {
        let narrow = image(One, &[[4, 1, 3, 4]; 32], 0xffff_fffe);
        let wide = image(Two, &[[4, 1, 3, 4]; 32], 0xffff_fffe);
        assert_eq!(converted(One, Two, &narrow), Some(wide.clone()));
        assert_eq!(converted(Two, One, &wide), Some(narrow.clone()));
        assert_eq!(converted(Two, Two, &wide), Some(wide.clone()));
        assert_eq!(converted(Two, One, &image(Two, &[], 1 << 32)), None);
        assert_eq!(converted(Two, One, &image(Two, &[[1; 4]; 33], 0)), None);
        assert_eq!(converted(Two, One, &narrow), None);
        assert_eq!(converted(One, Two, &wide), None);
    }
}
