//! The calls and the new state of one change.

use crate::request::Change;
use crate::state::{write_change, Entry, State};
use crate::switching::Switching;
use crate::table::Records;

/// What is to be done for a permitted change of one device.
pub(crate) struct Work {
    device: usize,
    /// The new entry of the device.
    entry: Entry,
    pub switching: Switching,
}

impl Work {
    pub fn of<const N: usize, const W: usize>(
        records: &Records<N, W>,
        state: &State,
        change: Change,
    ) -> Self {
        let Change {
            device,
            entry,
            own_call,
            own_call_first,
        } = change;
        let needed = records.needed_with(state, device, entry);
        let switching = Switching::new(state.on(), needed);
        Self {
            device,
            entry,
            switching: switching.with_own_call(own_call, own_call_first),
        }
    }

    /// Writes the calls by index and word, and the new state, and gives the
    /// number of calls.
    pub fn write<const N: usize, const W: usize>(
        &self,
        records: &Records<N, W>,
        state: &mut [u8],
        write: impl FnMut(usize, u32),
    ) -> u16 {
        let count = self.switching.write_calls(records.resources, write);
        let version = Records::<N, W>::VERSION;
        write_change(
            version,
            state,
            self.device,
            self.entry,
            self.switching.target,
        );
        count
    }
}
