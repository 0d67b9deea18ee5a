//! The resources that are on in a state.

use crate::Version;

/// The resources that are on in a state of either version; bit r is resource r.
/// `None` if the length is that of no state.
///
/// ```
/// let mut state = [0; sailgarnet::Version::Two.state_bytes()];
/// state[256 + 5] = 0b100;
/// assert_eq!(sailgarnet::on_set(&state), Some(1 << 42));
/// assert_eq!(sailgarnet::on_set(&state[..263]), None);
/// ```
pub fn on_set(state: &[u8]) -> Option<u64> {
    let version = Version::of_state(state)?;
    let mut bytes = [0; 8];
    bytes[..version.set_bytes()].copy_from_slice(&state[version.entries_bytes()..]);
    Some(u64::from_le_bytes(bytes))
}

/// Puts the resources that are on, as `_STA` reports them, into a state of either
/// version. Gives whether it could: the length must be that of a state, and the
/// state must have a bit for each of the resources. Else nothing is written.
///
/// ```
/// let mut state = [0; sailgarnet::STATE_BYTES];
/// assert!(sailgarnet::set_on(&mut state, 1 << 31));
/// assert_eq!(state[128..], [0, 0, 0, 128]);
/// assert!(!sailgarnet::set_on(&mut state, 1 << 32));
/// ```
#[must_use]
pub fn set_on(state: &mut [u8], on: u64) -> bool {
    let Some(version) = Version::of_state(state) else {
        return false;
    };
    let set = on.to_le_bytes();
    let (bytes, beyond) = set.split_at(version.set_bytes());
    let fits = beyond.iter().all(|&byte| byte == 0);
    if fits {
        state[version.entries_bytes()..].copy_from_slice(bytes);
    }
    fits
}

#[cfg(test)]
mod tests {
    use super::{on_set, set_on};

    #[test]
    fn each_resource_has_its_bit() {
        for (length, entries, most) in [(132, 128, 32), (264, 256, 64)] {
            for r in 0..most {
                let mut state = vec![0xaa; length];
                assert!(set_on(&mut state, 1 << r));
                assert_eq!(on_set(&state), Some(1 << r));
                assert_eq!(state[..entries], vec![0xaa; entries]);
                assert_eq!(state[entries + r / 8], 1 << (r % 8));
            }
        }
    }

    #[test]
    fn what_has_no_room_is_not_written() {
        for (length, on) in [(132, 1 << 32), (132, u64::MAX), (0, 0), (131, 0), (265, 1)] {
            let mut state = vec![0xaa; length];
            assert!(!set_on(&mut state, on));
            assert_eq!(state, vec![0xaa; length]);
        }
    }
}
