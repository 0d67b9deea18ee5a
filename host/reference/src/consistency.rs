//! The rules that every device of a consistent state keeps (answer 8).

use std::ops::ControlFlow::{self, Break, Continue};

use crate::state::State;
use crate::table::{for_either, Records, Table};

/// Why a device is not consistent: a rule that it breaks.
#[derive(Clone, Copy, Debug, PartialEq, Eq)]
pub enum Inconsistency {
    /// It does not support the state it is in.
    NotSupported,
    /// It is shallower than its parent.
    ShallowerThanParent {
        /// The number of the parent.
        parent: usize,
        /// The state of the parent.
        state: u8,
    },
    /// It is armed for a wake pair that is not legal.
    NotWakePair,
    /// It is armed, and deeper than its wake D.
    DeeperThanWakeState,
    /// It needs resources that are off, which are given.
    Unpowered(u64),
}

/// At bring-up all resources are taken as on.
pub(crate) const ALL_ON: u64 = u64::MAX;

impl State<'_> {
    /// Why device `d` is not consistent. If it is, there is no reason.
    pub fn inconsistencies(&self, table: &Table, d: usize) -> Vec<Inconsistency> {
        self.broken_rules(table, d, self.on())
    }

    /// Why bring-up finds device `d` not consistent.
    pub fn inconsistencies_for_bring_up(&self, table: &Table, d: usize) -> Vec<Inconsistency> {
        self.broken_rules(table, d, ALL_ON)
    }

    fn broken_rules(&self, table: &Table, d: usize, on: u64) -> Vec<Inconsistency> {
        let mut broken = Vec::new();
        let keep = |inconsistency| {
            broken.push(inconsistency);
            Continue(())
        };
        let _ = for_either!(table, records => records.try_rules(self, d, on, keep));
        broken
    }
}

impl<const N: usize, const W: usize> Records<'_, N, W> {
    /// Whether device `d` is consistent with these resources on.
    #[inline(always)] // as below
    pub(crate) fn is_consistent(&self, state: &State, d: usize, on: u64) -> bool {
        self.try_rules(state, d, on, |_| Break(())).is_continue()
    }

    /// Calls `broken` for each rule that device `d` breaks with these resources on,
    /// until it breaks off.
    #[inline(always)] // Else bring-up and others take up to a sixth more instructions.
    fn try_rules(
        &self,
        state: &State,
        d: usize,
        on: u64,
        mut broken: impl FnMut(Inconsistency) -> ControlFlow<()>,
    ) -> ControlFlow<()> {
        let (device, entry) = (self.device(d), state.entry(d));
        if !device.supports(entry.state) {
            broken(Inconsistency::NotSupported)?;
        }
        if let Some(parent) = device.parent() {
            let state = state.entry(parent).state;
            if entry.state < state {
                broken(Inconsistency::ShallowerThanParent { parent, state })?;
            }
        }
        if entry.armed {
            let pair = device.wake_pair(self.resources, entry.wake_s, entry.wake_d);
            if pair.is_err() {
                broken(Inconsistency::NotWakePair)?;
            }
            if entry.state > entry.wake_d {
                broken(Inconsistency::DeeperThanWakeState)?;
            }
        }
        match device.needs(entry) & !on {
            0 => Continue(()),
            off => broken(Inconsistency::Unpowered(off)),
        }
    }
}
