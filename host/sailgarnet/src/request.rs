//! Requests.

use std::fmt;

/// A request to the planner: four numbers, of which the planner refuses those
/// out of range with 10.
#[derive(Clone, Copy, Debug, Default, PartialEq, Eq, Hash)]
pub struct Request {
    /// 1 moves, 2 arms, 3 disarms, 4 is sleep entry.
    pub kind: u32,
    /// The device number, 0 for sleep entry.
    pub device: u32,
    /// The target state of a move, or the sleep state of arming and of sleep entry.
    pub a: u32,
    /// The device state D of arming.
    pub b: u32,
}

impl Request {
    /// Moves a device to a state: 0 to 4 for D0, D1, D2, D3hot and D3cold.
    pub const fn move_to(device: u32, state: u32) -> Self {
        Self {
            kind: 1,
            device,
            a: state,
            b: 0,
        }
    }

    /// Arms a device to wake the system from sleep state `s`, with the device
    /// in state `d` or shallower.
    pub const fn arm(device: u32, s: u32, d: u32) -> Self {
        Self {
            kind: 2,
            device,
            a: s,
            b: d,
        }
    }

    /// Disarms a device.
    pub const fn disarm(device: u32) -> Self {
        Self {
            kind: 3,
            device,
            a: 0,
            b: 0,
        }
    }

    /// Sleep entry: prepares all devices for sleep state `x` of the system, 1 to 4.
    pub const fn sleep(x: u32) -> Self {
        Self {
            kind: 4,
            device: 0,
            a: x,
            b: 0,
        }
    }
}

impl fmt::Display for Request {
    fn fmt(&self, f: &mut fmt::Formatter) -> fmt::Result {
        let Self { kind, device, a, b } = self;
        match (kind, b) {
            (1, 0) => write!(f, "move device {device} to {}", state_name(*a)),
            (2, _) => write!(f, "arm device {device} for S{a} and {}", state_name(*b)),
            (3, 0) if *a == 0 => write!(f, "disarm device {device}"),
            (4, 0) if *device == 0 => write!(f, "prepare all devices for S{a}"),
            _ => write!(f, "request {kind}, {device}, {a}, {b}"),
        }
    }
}

/// The name of a device state.
pub(crate) fn state_name(state: u32) -> String {
    match state {
        3 => "D3hot".into(),
        4 => "D3cold".into(),
        other => format!("D{other}"),
    }
}

#[cfg(test)]
mod tests {
    use super::Request;

    #[test]
    fn requests_read_as_sentences() {
        let text = |request: Request| request.to_string();
        assert_eq!(text(Request::move_to(1, 2)), "move device 1 to D2");
        assert_eq!(text(Request::move_to(1, 3)), "move device 1 to D3hot");
        assert_eq!(text(Request::move_to(1, 4)), "move device 1 to D3cold");
        assert_eq!(text(Request::arm(1, 3, 2)), "arm device 1 for S3 and D2");
        assert_eq!(text(Request::disarm(7)), "disarm device 7");
        assert_eq!(text(Request::sleep(3)), "prepare all devices for S3");
        let odd = Request {
            kind: 3,
            device: 1,
            a: 2,
            b: 0,
        };
        assert_eq!(text(odd), "request 3, 1, 2, 0");
        let odd = Request { kind: 4, ..odd };
        assert_eq!(text(odd), "request 4, 1, 2, 0");
    }
}
