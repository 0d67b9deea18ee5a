//! Method calls and their words.

/// A method call of a plan.
#[derive(Clone, Copy, Debug, PartialEq, Eq)]
pub enum Call {
    /// `_ON` of a resource.
    On {
        /// The resource number.
        resource: u8,
    },
    /// `_OFF` of a resource.
    Off {
        /// The resource number.
        resource: u8,
    },
    /// `_PSx` of a device.
    SetState {
        /// The device number.
        device: u8,
        /// The x of `_PSx`, 0 to 3. D3hot and D3cold both use `_PS3`.
        method: u8,
    },
    /// `_DSW` of a device.
    SetWake {
        /// The device number.
        device: u8,
        /// The sleep state S and the device state D to wake from; `None` ends wake.
        wake: Option<(u8, u8)>,
    },
}

/// Marks `_DSW` on in the last byte of a word.
const WAKE_ON: u8 = 128;

impl Call {
    /// The call as a word of a plan.
    pub const fn word(self) -> u32 {
        u32::from_le_bytes(match self {
            Call::On { resource } => [1, resource, 0, 0],
            Call::Off { resource } => [2, resource, 0, 0],
            Call::SetState { device, method } => [3, device, method, 0],
            Call::SetWake {
                device,
                wake: Some((s, d)),
            } => [4, device, s, WAKE_ON + d],
            Call::SetWake { device, wake: None } => [4, device, 0, 0],
        })
    }

    /// The call a word stands for by its bytes alone, whatever the table.
    pub const fn from_word(word: u32) -> Option<Self> {
        Some(match word.to_le_bytes() {
            [1, resource, 0, 0] => Call::On { resource },
            [2, resource, 0, 0] => Call::Off { resource },
            [3, device, method @ 0..=3, 0] => Call::SetState { device, method },
            [4, device, 0, 0] => Call::SetWake { device, wake: None },
            [4, device, s @ 0..=4, d @ 128..=132] => Call::SetWake {
                device,
                wake: Some((s, d - WAKE_ON)),
            },
            _ => return None,
        })
    }
}

#[cfg(test)]
mod tests {
    use super::Call;

    #[test]
    fn each_kind_has_its_bytes() {
        let wake = |wake| Call::SetWake { device: 7, wake };
        let rows = [
            (Call::On { resource: 31 }, [1, 31, 0, 0]),
            (Call::Off { resource: 0 }, [2, 0, 0, 0]),
            (
                Call::SetState {
                    device: 5,
                    method: 3,
                },
                [3, 5, 3, 0],
            ),
            (wake(Some((3, 2))), [4, 7, 3, 0x82]),
            (wake(Some((0, 0))), [4, 7, 0, 0x80]),
            (wake(None), [4, 7, 0, 0]),
        ];
        for (call, bytes) in rows {
            assert_eq!(call.word().to_le_bytes(), bytes);
            assert_eq!(Call::from_word(u32::from_le_bytes(bytes)), Some(call));
        }
    }

    #[test]
    fn other_words_are_no_calls() {
        for bytes in [
            [0, 0, 0, 0],
            [5, 0, 0, 0],
            [1, 0, 1, 0],
            [1, 0, 0, 1],
            [2, 0, 1, 0],
            [3, 0, 4, 0],
            [3, 0, 3, 1],
            [4, 0, 1, 0],
            [4, 0, 0, 127],
            [4, 0, 0, 133],
            [4, 0, 5, 128],
        ] {
            assert_eq!(
                Call::from_word(u32::from_le_bytes(bytes)),
                None,
                "{bytes:?}"
            );
        }
    }

    #[test]
    fn words_and_calls_go_both_ways() {
        for first in 0..6 {
            for second in [0, 31, 255] {
                for rest in 0..=u16::MAX {
                    let [third, fourth] = rest.to_le_bytes();
                    let word = u32::from_le_bytes([first, second, third, fourth]);
                    if let Some(call) = Call::from_word(word) {
                        assert_eq!(call.word(), word);
                    }
                }
            }
        }
    }
}
