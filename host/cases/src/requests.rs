//! Random requests.

use reference::{effect, wake_range, Request, Table};

use crate::rng::Rng;
use crate::sleep::SLEEP;

/// A request of any four numbers, some of them at the edge of their range.
pub fn any_request(rng: &mut Rng, device_count: usize) -> Request {
    let mut number = |end: u32| {
        let low = rng.below(end as usize) as u32;
        match rng.below(16) {
            0 => rng.next() as u32,
            1 => end,
            2 => u32::MAX,
            // The same in the lowest byte, or in the lower half.
            3 => low + 256 * (1 + rng.below(0xff_ffff) as u32),
            4 => low + 0x0001_0000,
            _ => low,
        }
    };
    Request {
        kind: number(6),
        device: number(device_count as u32 + 1),
        a: number(6),
        b: number(6),
    }
}

/// A request of sleep entry, in most cases one with good numbers.
pub fn any_sleep(rng: &mut Rng) -> Request {
    match rng.below(16) {
        0 => Request {
            kind: SLEEP,
            ..any_request(rng, 1)
        },
        1 => Request::sleep(rng.pick(&[0, 5])),
        _ => Request::sleep(1 + rng.below(4) as u32),
    }
}

/// A request in range, often one that is permitted and changes something.
/// `table` must be good, and `state` consistent for it.
pub fn likely_request(rng: &mut Rng, table: &[u8], state: &[u8]) -> Request {
    let Ok(view) = Table::read(table) else {
        return any_request(rng, 64);
    };
    if view.device_count() == 0 {
        return any_request(rng, 0);
    }
    let mut request = Request::default();
    for _ in 0..1 + rng.below(4) {
        request = request_in_range(rng, &view, state);
        match effect(table, state, request) {
            Ok(effect) if effect.entry_before != effect.entry_after => break,
            _ => {}
        }
    }
    request
}

fn request_in_range(rng: &mut Rng, table: &Table, state: &[u8]) -> Request {
    let d = rng.below(table.device_count());
    match rng.below(16) {
        0..=9 => Request::move_to(d as u32, likely_target(rng, state[4 * d].into())),
        10..=14 => likely_arming(rng, table, d),
        _ => Request::disarm(d as u32),
    }
}

/// A target state, in most cases not the present one.
fn likely_target(rng: &mut Rng, present: u32) -> u32 {
    match rng.below(8) {
        0 => present,
        1 | 2 if present > 0 => 0,
        1..=5 => (present + 1 + rng.below(4) as u32).min(4),
        _ => rng.below(5) as u32,
    }
}

fn likely_arming(rng: &mut Rng, table: &Table, d: usize) -> Request {
    let device = table.device(d);
    let any_pair = Request::arm(d as u32, rng.below(5) as u32, rng.below(5) as u32);
    if !device.has_prw() || rng.one_in(3) {
        return any_pair;
    }
    let s = rng.byte_within(0, device.deepest_sleep());
    match wake_range(device.sxd(s), device.sxw(s)) {
        Some((first, last)) => {
            Request::arm(d as u32, s.into(), rng.byte_within(first, last).into())
        }
        None => Request::arm(d as u32, s.into(), any_pair.b),
    }
}
