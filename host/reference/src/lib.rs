//! A planner for ACPI power resources: the rules of docs/RULES.md as ordinary
//! Rust.
//!
//! It shares no code with the proved planner. The two are compared input by
//! input, and the time of this one is the measure for the time of the other.
//!
//! [`check_table`], [`fresh`], [`plan`], [`check`], [`bring_up`],
//! [`check_bring_up`], [`write()`] and [`describe`] take byte buffers as the C
//! functions do, and tables of both versions; [`Version`] has the sizes that a
//! version fixes. [`plan_words`] and [`check_words`] take 32-bit words.
//! [`effect`] gives what a permitted request does, and [`demand3`] carries out
//! a list that the checker passed. [`sleep_moves`] gives the moves of a sleep
//! entry, and [`sleep_obstacles`] says why there is none;
//! [`State::inconsistencies`] says why a device is not consistent.

#![forbid(unsafe_code)]

mod answer;
mod bring_up;
mod call;
mod consistency;
mod describe;
mod device;
mod execution;
mod planner;
mod request;
mod resources;
mod sleep;
mod state;
mod switching;
mod table;
mod version;
mod work;

pub use answer::Answer;
pub use bring_up::{bring_up, check_bring_up};
pub use call::Call;
pub use consistency::Inconsistency;
pub use describe::{describe, write, DESCRIBED_DEVICE_BYTES, DESCRIBED_RESOURCE_BYTES};
pub use device::{wake_range, Device};
pub use execution::{demand3, demand3_words, execution, Execution};
pub use planner::{check, check_words, effect, fresh, plan, plan_words, Effect};
pub use request::Request;
pub use resources::{numbers, Resources};
pub use sleep::{sleep_moves, sleep_obstacles, Obstacle, SleepMove};
pub use state::{Entry, State};
pub use table::{check_table, record, Records, Table, MAX_DEVICES, MAX_RESOURCES};
pub use version::Version;
