//! Requests, and the verdict on those about one device (answers 10 to 18).

use crate::answer::Answer;
use crate::call::Call;
use crate::device::Record;
use crate::state::{Entry, State, D0, D3COLD, D3HOT};
use crate::table::Records;

/// A request: four unsigned numbers, as the board passes them.
#[derive(Clone, Copy, Debug, Default, PartialEq, Eq)]
pub struct Request {
    /// 1 moves, 2 arms, 3 disarms, 4 is sleep entry.
    pub kind: u32,
    /// The device number.
    pub device: u32,
    /// The target state of a move, the sleep state S of arming, or the x of sleep
    /// entry.
    pub a: u32,
    /// The device state D of arming.
    pub b: u32,
}

/// The kind of a move.
const MOVE: u32 = 1;
/// The kind of arming.
const ARM: u32 = 2;
/// The kind of disarming.
const DISARM: u32 = 3;
/// The kind of sleep entry.
pub(crate) const SLEEP: u32 = 4;

impl Request {
    /// Moves `device` to `state`.
    pub const fn move_to(device: u32, state: u32) -> Self {
        Self {
            kind: MOVE,
            device,
            a: state,
            b: 0,
        }
    }

    /// Arms `device` to wake the system from sleep state `s` out of device state `d`.
    pub const fn arm(device: u32, s: u32, d: u32) -> Self {
        Self {
            kind: ARM,
            device,
            a: s,
            b: d,
        }
    }

    /// Disarms `device`.
    pub const fn disarm(device: u32) -> Self {
        Self {
            kind: DISARM,
            device,
            a: 0,
            b: 0,
        }
    }

    /// Sleep entry: prepares all devices for the sleep state Sx of the system.
    pub const fn sleep(x: u32) -> Self {
        Self {
            kind: SLEEP,
            device: 0,
            a: x,
            b: 0,
        }
    }
}

/// What a permitted request does to its device.
pub(crate) struct Change {
    /// The device number.
    pub device: usize,
    /// The entry of the device after the request.
    pub entry: Entry,
    /// The word of the device's own call.
    pub own_call: Option<u32>,
    /// Whether the own call comes before the resource calls.
    pub own_call_first: bool,
}

/// The change a request about one device makes, or its refusal.
pub(crate) fn verdict<const N: usize, const W: usize>(
    records: &Records<N, W>,
    state: &State,
    request: Request,
) -> Result<Change, Answer> {
    let Request { kind, device, a, b } = request;
    let in_range = match kind {
        MOVE => a <= 4 && b == 0,
        ARM => a <= 4 && b <= 4,
        DISARM => a == 0 && b == 0,
        _ => false,
    };
    if !in_range || device >= records.device_count() as u32 {
        return Err(Answer::refused(10, 0));
    }
    let d = device as usize;
    match kind {
        MOVE => verdict_on_move(records, state, d, a as u8),
        ARM => verdict_on_arming(records, state, d, a as u8, b as u8),
        _ => Ok(disarming(records.device(d), state.entry(d), d)),
    }
}

fn verdict_on_move<const N: usize, const W: usize>(
    records: &Records<N, W>,
    state: &State,
    d: usize,
    target: u8,
) -> Result<Change, Answer> {
    let device = records.device(d);
    let entry = state.entry(d);
    if !device.supports(target) {
        return Err(Answer::refused(11, 0));
    }
    if target < entry.state && target != D0 {
        return Err(Answer::refused(12, 0));
    }
    if let Some(parent) = device.parent() {
        if state.entry(parent).state > target {
            return Err(Answer::refused(13, parent as u64));
        }
    }
    if let Some(child) = shallower_child(records, state, d, target) {
        return Err(Answer::refused(14, child as u64));
    }
    if entry.armed && target > entry.wake_d {
        return Err(Answer::refused(15, 0));
    }
    Ok(moving(device, entry, d, target))
}

/// The change that a permitted move makes.
pub(crate) fn moving<const N: usize, const W: usize>(
    device: Record<N, W>,
    entry: Entry,
    d: usize,
    target: u8,
) -> Change {
    Change {
        device: d,
        entry: Entry {
            state: target,
            ..entry
        },
        own_call: own_call_of_move(device, d, entry.state, target),
        own_call_first: target > entry.state,
    }
}

/// The lowest direct child of `d` in a state shallower than `target`.
fn shallower_child<const N: usize, const W: usize>(
    records: &Records<N, W>,
    state: &State,
    d: usize,
    target: u8,
) -> Option<usize> {
    // A parent's number is lower than its own, so children come after `d`.
    (d + 1..records.device_count())
        .find(|&c| records.device(c).parent() == Some(d) && state.entry(c).state < target)
}

fn own_call_of_move<const N: usize, const W: usize>(
    device: Record<N, W>,
    d: usize,
    present: u8,
    target: u8,
) -> Option<u32> {
    let method = target.min(D3HOT);
    let due = target != present
        && !(present == D3HOT && target == D3COLD)
        && device.has_set_state_method(method);
    due.then(|| {
        Call::SetState {
            device: d as u8,
            method,
        }
        .word()
    })
}

fn verdict_on_arming<const N: usize, const W: usize>(
    records: &Records<N, W>,
    state: &State,
    d: usize,
    wake_s: u8,
    wake_d: u8,
) -> Result<Change, Answer> {
    let device = records.device(d);
    let entry = state.entry(d);
    device.wake_pair(records.resources, wake_s, wake_d)?;
    if wake_d < entry.state {
        return Err(Answer::refused(18, 0));
    }
    let call = Call::SetWake {
        device: d as u8,
        wake: Some((wake_s, wake_d)),
    };
    Ok(Change {
        device: d,
        entry: Entry {
            state: entry.state,
            armed: true,
            wake_s,
            wake_d,
        },
        own_call: device.has_dsw().then(|| call.word()),
        own_call_first: false,
    })
}

fn disarming<const N: usize, const W: usize>(
    device: Record<N, W>,
    entry: Entry,
    d: usize,
) -> Change {
    let call = Call::SetWake {
        device: d as u8,
        wake: None,
    };
    Change {
        device: d,
        entry: Entry {
            state: entry.state,
            armed: false,
            wake_s: 0,
            wake_d: 0,
        },
        own_call: (device.has_dsw() && entry.armed).then(|| call.word()),
        own_call_first: true,
    }
}
