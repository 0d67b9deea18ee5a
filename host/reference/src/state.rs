//! The state image, read in place (answers 7 and 8).

use crate::answer::Answer;
use crate::consistency::ALL_ON;
use crate::table::{for_either, Records, Table};
use crate::version::Version;

/// Fully on.
pub(crate) const D0: u8 = 0;
/// Off, with power.
pub(crate) const D3HOT: u8 = 3;
/// Off, without power.
pub(crate) const D3COLD: u8 = 4;

/// The entry of a device.
#[derive(Clone, Copy, Debug, PartialEq, Eq)]
pub struct Entry {
    /// The device state, 0 to 4.
    pub state: u8,
    /// Whether the device is armed for wake.
    pub armed: bool,
    /// The sleep state S it is armed for.
    pub wake_s: u8,
    /// The device state D it is armed for.
    pub wake_d: u8,
}

impl Entry {
    fn from_bytes([state, armed, wake_s, wake_d]: [u8; 4]) -> Self {
        Self {
            state,
            armed: armed != 0,
            wake_s,
            wake_d,
        }
    }

    fn to_bytes(self) -> [u8; 4] {
        [self.state, self.armed.into(), self.wake_s, self.wake_d]
    }
}

/// A state that was found good for its table.
#[derive(Clone, Copy)]
pub struct State<'a> {
    /// One entry for each device of the table.
    entries: &'a [[u8; 4]],
    on: u64,
}

impl<'a> State<'a> {
    /// Reads a consistent state, or refuses it with 7 or 8.
    pub fn read(table: &Table, bytes: &'a [u8]) -> Result<Self, Answer> {
        for_either!(table, records => records.state(bytes))
    }

    /// Reads a state for bring-up, where needed resources may be off, or refuses
    /// it with 7 or 8.
    pub fn read_for_bring_up(table: &Table, bytes: &'a [u8]) -> Result<Self, Answer> {
        for_either!(table, records => records.state_for_bring_up(bytes))
    }

    /// Reads a state whose values are good, or gives `None`. Its devices need not be
    /// consistent.
    pub fn read_values(table: &Table, bytes: &'a [u8]) -> Option<Self> {
        for_either!(table, records => records.state_values(bytes))
    }

    /// The entry of device `d`.
    pub fn entry(&self, d: usize) -> Entry {
        Entry::from_bytes(self.entries[d])
    }

    /// The resources that are on.
    pub fn on(&self) -> u64 {
        self.on
    }

    /// The resources that some device needs.
    pub fn needed(&self, table: &Table) -> u64 {
        for_either!(table, records => records.needed(self))
    }
}

/// States of a table.
impl<const N: usize, const W: usize> Records<'_, N, W> {
    /// Reads a consistent state, or refuses it with 7 or 8.
    pub(crate) fn state<'a>(&self, bytes: &'a [u8]) -> Result<State<'a>, Answer> {
        self.state_with(bytes, |state| state.on)
    }

    /// Reads a state for bring-up, or refuses it with 7 or 8.
    pub(crate) fn state_for_bring_up<'a>(&self, bytes: &'a [u8]) -> Result<State<'a>, Answer> {
        self.state_with(bytes, |_| ALL_ON)
    }

    /// Reads a state whose devices are consistent with these resources on, or refuses
    /// it with 7 or 8.
    fn state_with<'a>(
        &self,
        bytes: &'a [u8],
        on: impl Fn(&State) -> u64,
    ) -> Result<State<'a>, Answer> {
        let state = self.state_values(bytes).ok_or(Answer::refused(7, 0))?;
        let is_bad = |&d: &usize| !self.is_consistent(&state, d, on(&state));
        match (0..self.device_count()).find(is_bad) {
            Some(d) => Err(Answer::refused(8, d as u64)),
            None => Ok(state),
        }
    }

    /// Reads a state whose values are good, or gives `None`.
    fn state_values<'a>(&self, bytes: &'a [u8]) -> Option<State<'a>> {
        if bytes.len() != Self::VERSION.state_bytes() {
            return None;
        }
        let (entries, on) = parts(Self::VERSION, bytes);
        let (entries, unused) = entries.split_at(self.device_count());
        let good = entries.iter().all(|&entry| values_are_good(entry))
            && unused.iter().all(|&entry| entry == [0; 4])
            && on & !self.resources.all() == 0;
        good.then_some(State { entries, on })
    }

    /// The state in bytes that are known to be good.
    pub(crate) fn good_state<'a>(&self, bytes: &'a [u8]) -> State<'a> {
        let (entries, on) = parts(Self::VERSION, bytes);
        State {
            entries: &entries[..self.device_count()],
            on,
        }
    }

    /// The resources that some device needs.
    pub(crate) fn needed(&self, state: &State) -> u64 {
        (0..self.device_count()).fold(0, |set, d| set | self.device(d).needs(state.entry(d)))
    }

    /// The resources that some device needs once device `changed` has `entry`.
    pub(crate) fn needed_with(&self, state: &State, changed: usize, entry: Entry) -> u64 {
        (0..self.device_count())
            .filter(|&d| d != changed)
            .fold(self.device(changed).needs(entry), |set, d| {
                set | self.device(d).needs(state.entry(d))
            })
    }
}

/// The entries of a state image, one for every device that a table may have, and
/// the resources that are on.
fn parts(version: Version, bytes: &[u8]) -> (&[[u8; 4]], u64) {
    let (entries, on) = bytes.split_at(version.entry_bytes());
    let mut set = [0; 8];
    let length = version.set_bytes();
    set[..length].copy_from_slice(&on[..length]);
    (entries.as_chunks().0, u64::from_le_bytes(set))
}

fn values_are_good([state, armed, wake_s, wake_d]: [u8; 4]) -> bool {
    state <= 4
        && match armed {
            0 => wake_s == 0 && wake_d == 0,
            1 => wake_s <= 4 && wake_d <= 4,
            _ => false,
        }
}

/// Writes the fresh state: every device in D0 and not armed, all resources on.
pub(crate) fn write_fresh(table: &Table, state: &mut [u8]) {
    let version = table.version();
    state[..version.entry_bytes()].fill(0);
    write_on_set(version, state, table.all_resources());
}

/// Writes the new entry of device `d` and the set of resources that are on.
pub(crate) fn write_change(version: Version, state: &mut [u8], d: usize, entry: Entry, on: u64) {
    state[4 * d..4 * d + 4].copy_from_slice(&entry.to_bytes());
    write_on_set(version, state, on);
}

/// Writes the set of resources that are on, which has no bit that the version
/// cannot hold.
pub(crate) fn write_on_set(version: Version, state: &mut [u8], on: u64) {
    let bytes = &mut state[version.entry_bytes()..version.state_bytes()];
    bytes.copy_from_slice(&on.to_le_bytes()[..version.set_bytes()]);
}
