//! The proved planner for ACPI power resources, called from Rust.
//!
//! The planner is a static library with seven C functions. This crate declares
//! them and offers each as a safe function: `fresh`, `plan`, `check`, `bring_up`,
//! `check_bring_up`, `write` and `describe`. They take the same byte buffers as
//! the C functions and refuse a buffer of the wrong length by their answer, so no
//! call can go wrong in another way.
//!
//! A table says which resources and devices there are. A state says what is on and
//! in which state each device is. A [`Request`] moves, arms or disarms one device,
//! or is a sleep entry, which brings the devices to where they may be while the
//! system sleeps. The planner gives the method calls that carry it out, a [`Call`]
//! for each four bytes, and the new state; or it refuses. The [`Answer`] says which,
//! and its [`Verdict`] has a sentence for each number.
//!
//! A table has one of two versions: version 1 for at most 32 resources and 32
//! devices, version 2 for 64 of each. The functions take both and see from the
//! table which it is. [`Version`] has the lengths of records, states and plans; the
//! constants of this crate are those of version 1.
//!
//! At power-on a state has the entries that the board kept and the resources that
//! are on by then. `bring_up` gives the calls that make it consistent, as a request
//! needs it.
//!
//! An editor of tables has them described, works on each [`Resource`] and
//! [`Device`] and writes the table again.
//!
//! The feature `link`, on by default, links the library. Without it only the
//! types are there.

mod answer;
mod call;
mod description;
#[cfg(feature = "link")]
mod library;
mod request;
mod state;
mod version;

pub use answer::{Answer, Place, Verdict};
pub use call::{calls, Call};
pub use description::{devices, resources, Device, Resource, NONE};
#[cfg(feature = "link")]
pub use library::{bring_up, check, check_bring_up, describe, fresh, plan, write};
pub use request::Request;
pub use state::{on_set, set_on};
pub use version::Version;

/// The length of a state, with a table of version 1.
pub const STATE_BYTES: usize = Version::One.state_bytes();

/// The most calls a plan can have, but for sleep entry, with a table of version 1.
pub const PLAN_CALLS: usize = Version::One.plan_calls();

/// The room the planner asks for in bytes, but for sleep entry, with a table of
/// version 1.
pub const PLAN_BYTES: usize = Version::One.plan_bytes();

/// The calls the planner asks room for at sleep entry, with a table of version 1.
pub const SLEEP_PLAN_CALLS: usize = Version::One.sleep_plan_calls();

/// The room the planner asks for at sleep entry in bytes, with a table of version 1.
pub const SLEEP_PLAN_BYTES: usize = Version::One.sleep_plan_bytes();

/// The most resources a table of version 1 can have.
pub const MAX_RESOURCES: usize = Version::One.max_resources();

/// The most devices a table of version 1 can have.
pub const MAX_DEVICES: usize = Version::One.max_devices();

/// The most bytes a table of version 1 can have.
pub const MAX_TABLE_BYTES: usize = Version::One.max_table_bytes();
