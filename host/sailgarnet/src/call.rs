//! Method calls.

use std::fmt;

/// A method call of a plan, four bytes in a list.
#[derive(Clone, Copy, Debug, PartialEq, Eq, Hash)]
pub enum Call {
    /// `_ON` of a resource.
    On {
        /// The resource number.
        resource: u8,
    },
    /// `_OFF` of a resource.
    Off {
        /// The resource number.
        resource: u8,
    },
    /// `_PSx` of a device.
    SetState {
        /// The device number.
        device: u8,
        /// The x of `_PSx`, 0 to 3. D3hot and D3cold both use `_PS3`.
        method: u8,
    },
    /// `_DSW` of a device.
    SetWake {
        /// The device number.
        device: u8,
        /// The sleep state S and device state D to wake from; `None` ends wake.
        wake: Option<(u8, u8)>,
    },
}

/// Marks `_DSW` on in the last byte.
const WAKE_ON: u8 = 128;

impl Call {
    /// The four bytes of the call.
    pub const fn bytes(self) -> [u8; 4] {
        match self {
            Call::On { resource } => [1, resource, 0, 0],
            Call::Off { resource } => [2, resource, 0, 0],
            Call::SetState { device, method } => [3, device, method, 0],
            Call::SetWake {
                device,
                wake: Some((s, d)),
            } => [4, device, s, WAKE_ON + d],
            Call::SetWake { device, wake: None } => [4, device, 0, 0],
        }
    }

    /// The call that four bytes stand for, or `None` if they stand for none.
    pub const fn from_bytes(bytes: [u8; 4]) -> Option<Self> {
        Some(match bytes {
            [1, resource, 0, 0] => Call::On { resource },
            [2, resource, 0, 0] => Call::Off { resource },
            [3, device, method @ 0..=3, 0] => Call::SetState { device, method },
            [4, device, 0, 0] => Call::SetWake { device, wake: None },
            [4, device, s @ 0..=4, d @ 128..=132] => Call::SetWake {
                device,
                wake: Some((s, d - WAKE_ON)),
            },
            _ => return None,
        })
    }
}

impl fmt::Display for Call {
    fn fmt(&self, f: &mut fmt::Formatter) -> fmt::Result {
        match *self {
            Call::On { resource } => write!(f, "switch resource {resource} on (_ON)"),
            Call::Off { resource } => write!(f, "switch resource {resource} off (_OFF)"),
            Call::SetState { device, method } => {
                let state = if method == 3 {
                    "D3"
                } else {
                    &format!("D{method}")
                };
                write!(f, "set device {device} to {state} (_PS{method})")
            }
            Call::SetWake {
                device,
                wake: Some((s, d)),
            } => {
                let state = crate::request::state_name(d.into());
                write!(f, "arm device {device} for S{s} and {state} (_DSW on)")
            }
            Call::SetWake { device, wake: None } => {
                write!(f, "disarm device {device} (_DSW off)")
            }
        }
    }
}

/// The calls of a list, `None` for four bytes that stand for none. Bytes at the
/// end that are fewer than four are left out.
pub fn calls(list: &[u8]) -> impl Iterator<Item = Option<Call>> + '_ {
    list.as_chunks().0.iter().copied().map(Call::from_bytes)
}

#[cfg(test)]
mod tests {
    use super::{calls, Call};

    #[test]
    fn bytes_and_calls_go_both_ways() {
        for first in 0..6 {
            for second in [0, 31, 255] {
                for rest in 0..=u16::MAX {
                    let [third, fourth] = rest.to_le_bytes();
                    let bytes = [first, second, third, fourth];
                    if let Some(call) = Call::from_bytes(bytes) {
                        assert_eq!(call.bytes(), bytes);
                    }
                }
            }
        }
    }

    #[test]
    fn a_list_is_read_call_by_call() {
        let list = [1, 2, 0, 0, 9, 9, 9, 9, 4, 1, 3, 0x82, 4, 1, 0, 0, 3, 1];
        let found: Vec<Option<Call>> = calls(&list).collect();
        let wake = |wake| Some(Call::SetWake { device: 1, wake });
        let on = Some(Call::On { resource: 2 });
        assert_eq!(found, [on, None, wake(Some((3, 2))), wake(None)]);
    }

    #[test]
    fn calls_read_as_sentences() {
        let text = |bytes| Call::from_bytes(bytes).expect("a call").to_string();
        assert_eq!(text([1, 2, 0, 0]), "switch resource 2 on (_ON)");
        assert_eq!(text([2, 2, 0, 0]), "switch resource 2 off (_OFF)");
        assert_eq!(text([3, 1, 2, 0]), "set device 1 to D2 (_PS2)");
        assert_eq!(text([3, 1, 3, 0]), "set device 1 to D3 (_PS3)");
        let arm = "arm device 1 for S3 and D3hot (_DSW on)";
        assert_eq!(text([4, 1, 3, 0x83]), arm);
        assert_eq!(text([4, 1, 0, 0]), "disarm device 1 (_DSW off)");
    }
}
