//! The planner behind the command: the proved library, or, without the feature
//! `library`, the reference.

#[cfg(feature = "library")]
pub use sailgarnet::{bring_up, check, check_bring_up, describe, fresh, plan, write};

#[cfg(not(feature = "library"))]
pub use stand_in::{bring_up, check, check_bring_up, describe, fresh, plan, write};

/// Which planner this is.
pub const NAME: &str = if cfg!(feature = "library") {
    "the proved library"
} else {
    "the reference in Rust, which is not proved"
};

#[cfg(not(feature = "library"))]
mod stand_in {
    use sailgarnet::{Answer, Request};

    use super::reference_request;

    pub fn fresh(table: &[u8], state: &mut [u8]) -> Answer {
        answer(reference::fresh(table, state))
    }

    pub fn plan(table: &[u8], state: &mut [u8], request: Request, plan: &mut [u8]) -> Answer {
        let request = reference_request(request);
        answer(reference::plan(table, state, request, plan))
    }

    pub fn check(table: &[u8], state: &[u8], request: Request, list: &[u8]) -> Answer {
        let request = reference_request(request);
        answer(reference::check(table, state, request, list))
    }

    pub fn bring_up(table: &[u8], state: &mut [u8], plan: &mut [u8]) -> Answer {
        answer(reference::bring_up(table, state, plan))
    }

    pub fn check_bring_up(table: &[u8], state: &[u8], list: &[u8]) -> Answer {
        answer(reference::check_bring_up(table, state, list))
    }

    pub fn write(version: u32, resources: &[u8], devices: &[u8], table: &mut [u8]) -> Answer {
        answer(reference::write(version, resources, devices, table))
    }

    pub fn describe(table: &[u8], resources: &mut [u8], devices: &mut [u8]) -> Answer {
        answer(reference::describe(table, resources, devices))
    }

    fn answer(answer: reference::Answer) -> Answer {
        Answer::unpack(answer.pack())
    }
}

/// A request as the reference takes it, which gives the needed sets.
pub fn reference_request(request: sailgarnet::Request) -> reference::Request {
    let sailgarnet::Request { kind, device, a, b } = request;
    reference::Request { kind, device, a, b }
}
