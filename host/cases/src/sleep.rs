//! What must hold of sleep entry on every case, checked with the reference's
//! readers of tables and states, and without its sleep entry.

use reference::{demand3, numbers, Answer, Request, State, Table};

use crate::choices::{choices, deepened, least, FEW_DEVICES};
use crate::{equal, Case};

/// The kind of sleep entry.
pub const SLEEP: u32 = 4;

/// Functions of one planner, which give their answers as one number.
pub struct Sleep {
    /// The planner: table, state, request and plan.
    pub plan: fn(&[u8], &mut [u8], Request, &mut [u8]) -> u64,
    /// The checker: table, state, request and list.
    pub check: fn(&[u8], &[u8], Request, &[u8]) -> u64,
}

/// A sleep entry that is refused with 20 or 21 or done.
struct Start<'a> {
    case: &'a Case,
    table: Table<'a>,
    state: State<'a>,
    x: u8,
}

impl<'a> Start<'a> {
    /// The start of a case, or its refusal with 1 to 10.
    fn of(case: &'a Case) -> Result<Self, Answer> {
        let Request { device, a, b, .. } = case.request;
        let table = Table::read(&case.table)?;
        let state = State::read(&table, &case.state)?;
        if case.plan.len() < table.version().sleep_plan_bytes() {
            return Err(Answer::refused(9, 0));
        }
        match (device, a, b) {
            (0, 1..=4, 0) => Ok(Self {
                case,
                table,
                state,
                x: a as u8,
            }),
            _ => Err(Answer::refused(10, 0)),
        }
    }

    /// The lowest device that is armed for another sleep state.
    fn armed_for_another(&self) -> Option<usize> {
        (0..self.table.device_count()).find(|&d| {
            let entry = self.state.entry(d);
            entry.armed && entry.wake_s != self.x
        })
    }

    /// Says whether these states are those of the least choice, `None` being answer
    /// 21. On a station with few devices all choices are tried too.
    fn states_hold(&self, states: Option<&[u8]>) -> Result<(), String> {
        let Self {
            table, state, x, ..
        } = self;
        let reached = deepened(table, state, *x);
        equal("the states", &states, &reached.as_deref())?;
        if table.device_count() > FEW_DEVICES {
            return Ok(());
        }
        let choices = choices(table, state, *x);
        let least = least(&choices).map(Vec::as_slice);
        equal(
            "whether there is a least choice",
            &least.is_none(),
            &choices.is_empty(),
        )?;
        equal("the states, of all choices", &states, &least)
    }
}

impl Sleep {
    /// Says what does not hold. The answer is the one due, and a refusal writes
    /// nothing. Otherwise the states are those of the least choice, the entries are
    /// as before apart from them, and exactly the needed set is on, which can be on
    /// in Sx; a request finds the state consistent. The plan is the plans of the
    /// moves, one after another, each of which passes; or the turn-off calls
    /// alone. A second sleep entry finds nothing to do. The checker answers 10.
    pub fn holds(&self, case: &Case) -> Result<(), String> {
        let (mut state, mut plan) = (case.state.clone(), case.plan.clone());
        let answer = self.planned(case, &mut state, case.request, &mut plan);
        let Some((list, rest)) = plan.split_at_checked(4 * usize::from(answer.count)) else {
            return Err(format!("a count of {} is above the plan", answer.count));
        };
        equal("what is past the calls", rest, &case.plan[list.len()..])?;
        if !answer.is_done() {
            equal("the count of a refusal", &answer.count, &0)?;
            equal("the state after a refusal", &state, &case.state)?;
        }
        let start = match Start::of(case) {
            Ok(start) => start,
            Err(refusal) => return equal("the answer", &answer, &refusal),
        };
        let refusal = self.checked(case, &case.state, case.request, list);
        equal("the checker's answer", &refusal, &Answer::refused(10, 0))?;
        if let Some(d) = start.armed_for_another() {
            return equal("the answer", &answer, &Answer::refused(20, d as u64));
        }
        if answer == Answer::refused(21, 0) {
            return start.states_hold(None);
        }
        equal("the answer", &answer, &Answer::done(answer.count))?;
        self.state_holds(&start, &state)?;
        self.list_holds(&start, &state, list)?;
        self.second_holds(case, &state)
    }

    fn planned(&self, case: &Case, state: &mut [u8], request: Request, plan: &mut [u8]) -> Answer {
        Answer::unpack((self.plan)(&case.table, state, request, plan))
    }

    fn checked(&self, case: &Case, state: &[u8], request: Request, list: &[u8]) -> Answer {
        Answer::unpack((self.check)(&case.table, state, request, list))
    }

    fn state_holds(&self, start: &Start, state: &[u8]) -> Result<(), String> {
        let Start { case, table, x, .. } = start;
        let device_count = table.device_count();
        let states: Vec<u8> = (0..device_count).map(|d| state[4 * d]).collect();
        start.states_hold(Some(&states))?;
        let entry_bytes = table.version().entry_bytes();
        let mut entries = case.state[..entry_bytes].to_vec();
        for (d, &taken) in states.iter().enumerate() {
            entries[4 * d] = taken;
        }
        equal("the entries", &state[..entry_bytes], &entries[..])?;

        let read = State::read(table, state).map_err(|answer| answer.number.to_string())?;
        equal("what is on", &read.on(), &read.needed(table))?;
        let lost: Vec<usize> = numbers(read.on())
            .filter(|&r| table.system_level(r) < *x)
            .collect();
        equal("what is on and cannot be in Sx", &lost, &vec![])?;
        // Any request that is refused with 10 finds the state consistent.
        let answer = self.checked(case, state, Request::default(), &[]);
        equal("the answer to a request", &answer, &Answer::refused(10, 0))
    }

    /// The list is that of each move, a request from the state that those before
    /// it leave. Where none moves, it turns off what is not needed.
    fn list_holds(&self, start: &Start, end: &[u8], list: &[u8]) -> Result<(), String> {
        let Start { case, table, .. } = start;
        let mut state = case.state.clone();
        let mut rest = list;
        for d in (0..table.device_count()).rev() {
            if state[4 * d] != end[4 * d] {
                let request = Request::move_to(d as u32, end[4 * d].into());
                let length = self.move_holds(start, &mut state, request, rest)?;
                rest = &rest[length..];
            }
        }
        if state == case.state {
            let set = start.state.on() & !start.state.needed(table);
            let calls = turn_off_calls(table, set);
            return equal("the list where none moves", list, &calls[..]);
        }
        equal("what is past the moves", rest, &[])?;
        equal("the state after the moves", &state[..], end)
    }

    /// The length of the list of a move, with which `list` begins.
    fn move_holds(
        &self,
        start: &Start,
        state: &mut [u8],
        request: Request,
        list: &[u8],
    ) -> Result<usize, String> {
        let Start { case, table, .. } = start;
        let before = state.to_vec();
        let mut plan = vec![0; table.version().plan_bytes()];
        let answer = self.planned(case, state, request, &mut plan);
        equal("the answer to a move", &answer, &Answer::done(answer.count))?;
        let own = &plan[..4 * usize::from(answer.count)];
        let part = &list[..own.len().min(list.len())];
        equal("the list of a move", part, own)?;
        let passed = self.checked(case, &before, request, part);
        equal("the checker's answer to a move", &passed, &Answer::done(0))?;
        demand3(&case.table, &before, request, part)?;
        Ok(part.len())
    }

    fn second_holds(&self, case: &Case, state: &[u8]) -> Result<(), String> {
        let (mut again, mut plan) = (state.to_vec(), case.plan.clone());
        let answer = self.planned(case, &mut again, case.request, &mut plan);
        equal("the second answer", &answer, &Answer::done(0))?;
        equal("the second state", &again[..], state)?;
        equal("the second plan", &plan, &case.plan)
    }
}

/// `_OFF` of each resource of a set, by falling order and number.
fn turn_off_calls(table: &Table, set: u64) -> Vec<u8> {
    let mut resources: Vec<usize> = numbers(set).collect();
    resources.sort_by_key(|&r| (table.resource_order(r), r));
    let falling = resources.into_iter().rev();
    falling.flat_map(|r| [2, r as u8, 0, 0]).collect()
}
