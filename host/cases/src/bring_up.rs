//! What must hold of bring-up and its checker on every case, checked with the
//! reference's readers of tables and states, and without its bring-up.

use reference::{Answer, Call, Execution, Request, State, Table};

use crate::image::on_set;
use crate::{equal, Case};

/// Functions of one planner, which give their answers as one number.
pub struct BringUp {
    /// Bring-up: table, state and plan.
    pub bring_up: fn(&[u8], &mut [u8], &mut [u8]) -> u64,
    /// Its checker: table, state and list.
    pub check_bring_up: fn(&[u8], &[u8], &[u8]) -> u64,
    /// The checker of requests: table, state, request and list.
    pub check: fn(&[u8], &[u8], Request, &[u8]) -> u64,
}

impl BringUp {
    /// Says what does not hold. A refusal writes nothing. Otherwise the state
    /// keeps its entries and has exactly the needed set on, so that a request
    /// finds it consistent, as it did not where a needed resource was off. The
    /// list passes, switches resources and calls no method, ends with the needed
    /// set, and has no `_ON` where the state was consistent. A second bring-up
    /// finds nothing to do.
    pub fn holds(&self, case: &Case) -> Result<(), String> {
        let (mut state, mut plan) = (case.reported.clone(), case.plan.clone());
        let answer = Answer::unpack((self.bring_up)(&case.table, &mut state, &mut plan));
        let (list, rest) = plan.split_at(4 * usize::from(answer.count));
        equal("what is past the calls", rest, &case.plan[list.len()..])?;
        if !answer.is_done() {
            equal("the count of a refusal", &answer.count, &0)?;
            return equal("the state after a refusal", &state, &case.reported);
        }
        let table = Table::read(&case.table).map_err(refused)?;
        let needed = self.state_holds(case, &table, &state)?;
        self.list_holds(case, &table, list, needed)?;
        self.second_holds(case, &state)?;
        self.ends_with_needed(case, &table, &case.bring_up_list, needed)
    }

    /// The needed set, if the state afterwards is as it must be.
    fn state_holds(&self, case: &Case, table: &Table, state: &[u8]) -> Result<u64, String> {
        let entries = ..table.version().entry_bytes();
        equal("the entries", &state[entries], &case.reported[entries])?;
        let read = State::read(table, state).map_err(refused)?;
        let needed = read.needed(table);
        equal("what is on", &read.on(), &needed)?;
        self.request_finds(case, table, state)?;
        Ok(needed)
    }

    /// Says whether a state is consistent, which a request must find as well. Any
    /// request that is then refused with 10 will do.
    fn request_finds(&self, case: &Case, table: &Table, state: &[u8]) -> Result<bool, String> {
        let answer = (self.check)(&case.table, state, Request::default(), &[]);
        let read = State::read(table, state);
        let expected = read.err().unwrap_or(Answer::refused(10, 0));
        equal(
            "the answer to a request",
            &Answer::unpack(answer),
            &expected,
        )?;
        Ok(read.is_ok())
    }

    fn list_holds(
        &self,
        case: &Case,
        table: &Table,
        list: &[u8],
        needed: u64,
    ) -> Result<(), String> {
        equal(
            "whether the own list passes",
            &self.passes(case, list),
            &true,
        )?;
        self.ends_with_needed(case, table, list, needed)?;
        let was_consistent = self.request_finds(case, table, &case.reported)?;
        for &bytes in list.as_chunks().0 {
            match Call::from_word(u32::from_le_bytes(bytes)) {
                Some(Call::On { .. }) if !was_consistent => {}
                Some(Call::Off { .. }) => {}
                _ => return Err(format!("the list has {bytes:02x?}")),
            }
        }
        Ok(())
    }

    fn passes(&self, case: &Case, list: &[u8]) -> bool {
        (self.check_bring_up)(&case.table, &case.reported, list) == 0
    }

    /// A list that passes ends with exactly the needed set.
    fn ends_with_needed(
        &self,
        case: &Case,
        table: &Table,
        list: &[u8],
        needed: u64,
    ) -> Result<(), String> {
        if !self.passes(case, list) {
            return Ok(());
        }
        let mut execution = Execution::new(on_set(table.version(), &case.reported));
        for &bytes in list.as_chunks().0 {
            execution.carry_out(u32::from_le_bytes(bytes));
        }
        equal("what is on at the end", &execution, &Execution::new(needed))
    }

    fn second_holds(&self, case: &Case, state: &[u8]) -> Result<(), String> {
        let (mut again, mut plan) = (state.to_vec(), case.plan.clone());
        let answer = Answer::unpack((self.bring_up)(&case.table, &mut again, &mut plan));
        equal("the second answer", &answer, &Answer::done(0))?;
        equal("the second state", &again[..], state)?;
        equal("the second plan", &plan, &case.plan)
    }
}

fn refused(answer: Answer) -> String {
    format!("the reference refuses with {}", answer.number)
}
