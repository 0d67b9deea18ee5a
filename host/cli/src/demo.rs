//! A small station and some requests to it.

use std::fmt::Write;

use reference::execution;
use sailgarnet::{Request, PLAN_BYTES, STATE_BYTES};

use crate::{backend, words};

/// A bus with a camera and a lamp, and three resources.
const TABLE: &[u8; 140] = include_bytes!("../../../examples/station.pwt");

const BUS: u32 = 0;
const CAMERA: u32 = 1;
const LAMP: u32 = 2;

/// The requests, with what each one shows.
const REQUESTS: [(Request, &str); 12] = [
    (
        Request::move_to(CAMERA, 2),
        "The lamp still needs r1, so it stays on.",
    ),
    (
        Request::move_to(LAMP, 4),
        "Nothing needs r1 any longer, so it goes off.",
    ),
    (
        Request::move_to(BUS, 3),
        "The bus waits until its devices are as deep.",
    ),
    (
        Request::move_to(CAMERA, 0),
        "The resource comes on before the camera is set to D0.",
    ),
    (
        Request::move_to(CAMERA, 3),
        "The camera is set to D3 before its resources go off, by falling order.",
    ),
    (
        Request::move_to(CAMERA, 2),
        "From D3hot the camera goes back to D0 first.",
    ),
    (
        Request::move_to(CAMERA, 0),
        "The resources come on by rising order: r2 has order 1, r1 has order 2.",
    ),
    (
        Request::arm(CAMERA, 4, 2),
        "The camera can wake the system from S3 at the deepest.",
    ),
    (
        Request::arm(CAMERA, 3, 2),
        "Armed, the camera also needs r2, which is on.",
    ),
    (
        Request::move_to(CAMERA, 3),
        "Armed for D2, the camera goes no deeper.",
    ),
    (Request::move_to(CAMERA, 2), "D2 itself is allowed."),
    (
        Request::disarm(CAMERA),
        "Disarmed, the camera still needs r2 in D2.",
    ),
];

/// The plan of each request, and what is on after each call.
pub fn text() -> String {
    let mut state = [0; STATE_BYTES];
    let answer = backend::fresh(TABLE, &mut state);
    let mut text = format!(
        "Device 0 is a bus, device 1 a camera, device 2 a lamp.\n\
         Fresh state: {}\
         Every device is in D0. On: {}\n",
        words::answer_line(answer),
        words::resources(words::on_set(&state))
    );
    for (request, remark) in REQUESTS {
        let _ = write!(text, "\nRequest: {request}\n{remark}\n");
        text += &plan(request, &mut state);
    }
    text
}

fn plan(request: Request, state: &mut [u8]) -> String {
    let before = words::on_set(state);
    let mut list = [0; PLAN_BYTES];
    let answer = backend::plan(TABLE, state, request, &mut list);
    let mut text = format!("  {}", words::answer_line(answer));
    if !answer.is_done() {
        return text;
    }
    let calls = list[..answer.plan_length()].as_chunks().0;
    let on_sets = execution(before, calls.iter().map(|&call| u32::from_le_bytes(call)));
    for ((number, &bytes), on) in (1..).zip(calls).zip(on_sets) {
        let call = words::call(sailgarnet::Call::from_bytes(bytes));
        let on = words::resources(on);
        let _ = writeln!(text, "  {number}. {call:<42} on: {on}");
    }
    if calls.is_empty() {
        let on = words::resources(before);
        let _ = writeln!(text, "  no calls; on: {on}");
    }
    text
}
