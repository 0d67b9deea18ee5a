//! What plans, checks and traces are made for: a request, or the bring-up.

use std::ffi::{OsStr, OsString};
use std::fmt;
use std::path::Path;

use reference::{State, Table};
use sailgarnet::{Answer, Request, Verdict, Version};

use crate::args::{Args, ON};
use crate::commands::{disagreement, usage};
use crate::help::Help;
use crate::trace::{Part, Purpose, Trace};
use crate::{
    backend, consistency, files, refusals, request, resources, sleep, words, Failure, Report,
};

/// What a list of calls is for.
#[derive(Clone, Copy)]
pub enum Task {
    /// A request.
    Request(Request),
    /// The bring-up of a state.
    BringUp,
}

impl Task {
    /// Reads the request if the subcommand has one, and gives the operands after it.
    fn parse<'a>(help: &Help, operands: &'a [OsString]) -> Result<(Self, &'a [OsString]), String> {
        if !help.takes_request() {
            return Ok((Task::BringUp, operands));
        }
        let (request, rest) = request::parse(operands)?;
        Ok((Task::Request(request), rest))
    }

    /// The line above a plan or a trace.
    pub fn heading(self) -> String {
        match self {
            Task::Request(request) => format!("Request: {request}"),
            Task::BringUp => "Bring-up".into(),
        }
    }

    /// The x of a sleep entry for Sx.
    fn sleep_entry(self) -> Option<u32> {
        match self {
            Task::Request(request) if request == Request::sleep(request.a) => Some(request.a),
            _ => None,
        }
    }

    /// What it is, in a word.
    pub fn noun(self) -> &'static str {
        match self {
            Task::Request(_) => "request",
            Task::BringUp => "bring-up",
        }
    }
}

impl fmt::Display for Task {
    fn fmt(&self, f: &mut fmt::Formatter) -> fmt::Result {
        match self {
            Task::Request(request) => request.fmt(f),
            Task::BringUp => f.write_str(self.noun()),
        }
    }
}

/// A task, and the table and state that it is for.
pub struct Subject<'a> {
    /// The file of the table.
    pub table_path: &'a Path,
    /// The file of the state.
    pub state_path: &'a Path,
    /// The task.
    pub task: Task,
    table: Vec<u8>,
    state: Vec<u8>,
}

impl<'a> Subject<'a> {
    /// Reads the table, the state and the task, and gives the operands after them.
    pub fn read(help: &Help, args: &'a Args) -> Result<(Self, &'a [OsString]), Failure> {
        let [table, state, rest @ ..] = args.operands.as_slice() else {
            let expected = match help.takes_request() {
                true => "TABLE, STATE and REQUEST are expected",
                false => "TABLE and STATE are expected",
            };
            return Err(usage(help, expected));
        };
        let wrong = |message: String| usage(help, &message);
        let (task, rest) = Task::parse(help, rest).map_err(wrong)?;
        let (table_path, state_path) = (Path::new(table), Path::new(state));
        let mut subject = Self {
            table_path,
            state_path,
            task,
            table: files::read(table_path)?,
            state: files::read(state_path)?,
        };
        if let Some(on) = args.value(ON) {
            subject.set_on(on).map_err(wrong)?;
        }
        Ok((subject, rest))
    }

    /// Replaces the on-set of the state by the resources that are named.
    fn set_on(&mut self, names: &OsStr) -> Result<(), String> {
        let on = resources::parse(&names.to_string_lossy())?;
        // A table or a state that cannot be read is left to the planner's answer.
        if let Ok(table) = Table::read(&self.table) {
            resources::must_be_in(&table, on).map_err(|fault| format!("{ON} {fault}"))?;
            let _ = sailgarnet::set_on(&mut self.state, on);
        }
        Ok(())
    }

    /// What is on as it was reported, as a line of a bring-up.
    pub fn on_at_the_start(&self) -> String {
        match self.task {
            Task::Request(_) => String::new(),
            Task::BringUp => {
                let on = words::resources(words::on_set(&self.state));
                format!("On at the start: {on}\n")
            }
        }
    }

    /// Plans the task: the answer, the list and the new state.
    pub fn plan(&self) -> (Answer, Vec<u8>, Vec<u8>) {
        self.plan_task(self.task)
    }

    fn plan_task(&self, task: Task) -> (Answer, Vec<u8>, Vec<u8>) {
        let (table, mut state) = (&self.table, self.state.clone());
        // Enough for every task and both versions.
        let mut list = vec![0; Version::Two.sleep_plan_bytes()];
        let answer = match task {
            Task::Request(request) => backend::plan(table, &mut state, request, &mut list),
            Task::BringUp => backend::bring_up(table, &mut state, &mut list),
        };
        list.truncate(answer.plan_length());
        (answer, list, state)
    }

    /// The checker's answer to a list.
    pub fn check(&self, list: &[u8]) -> Answer {
        let Self { table, state, .. } = self;
        match self.task {
            Task::Request(request) => backend::check(table, state, request, list),
            Task::BringUp => backend::check_bring_up(table, state, list),
        }
    }

    /// The list of a file with the checker's answer, or the planner's own.
    pub fn answered_list(&self, path: Option<&Path>) -> Result<(Answer, Vec<u8>), Failure> {
        let Some(path) = path else {
            let (answer, list, _) = self.plan();
            return Ok((answer, list));
        };
        let list = files::read(path)?;
        Ok((self.check(&list), list))
    }

    /// The execution of a list for the task, which the planner permits.
    pub fn trace(&self, list: &[u8]) -> Result<Trace, Failure> {
        let table = Table::read(&self.table).map_err(disagreement)?;
        Ok(Trace::new(&table, self.parts(list)?, list))
    }

    /// The parts of a list. For sleep entry it must be the planner's.
    fn parts(&self, list: &[u8]) -> Result<Vec<Part>, Failure> {
        match self.task.sleep_entry() {
            Some(x) => sleep::parts(&self.table, &self.state, x, list),
            None => {
                let purpose = self.purpose().map_err(disagreement)?;
                Ok(vec![Part::whole(list, purpose)])
            }
        }
    }

    /// What a list is measured by, or the reference's refusal of the task.
    fn purpose(&self) -> Result<Purpose, reference::Answer> {
        match self.task {
            Task::Request(request) => {
                let request = backend::reference_request(request);
                let effect = reference::effect(&self.table, &self.state, request)?;
                Ok(Purpose::of_request(&effect))
            }
            Task::BringUp => {
                let table = Table::read(&self.table)?;
                let state = State::read_for_bring_up(&table, &self.state)?;
                Ok(Purpose::of_switching(state.on(), state.needed(&table)))
            }
        }
    }

    /// The calls of the planner's list, a line each; of a sleep entry, move by move.
    pub fn call_lines(&self, list: &[u8]) -> Result<String, Failure> {
        if self.task.sleep_entry().is_none() {
            return Ok(words::call_lines(list));
        }
        let parts = self.parts(list)?;
        let lines = |part: &Part| part.title() + &words::calls_at(part.calls.clone(), list);
        Ok(parts.iter().map(lines).collect())
    }

    /// The planner's list, if another one was found not to conform.
    pub fn planned_instead(&self, answer: Answer) -> String {
        if answer.verdict() != Some(Verdict::NotConforming) {
            return String::new();
        }
        let (_, list, _) = self.plan();
        format!("The planner's list has {}", words::call_lines(&list))
    }

    /// The refusal of the task. For a table or a state as a whole, for a device that
    /// is not consistent or not there and for sleep entry it says why.
    pub fn refusal(&self, answer: Answer) -> Report {
        let (why, more) = match (answer.verdict(), self.task.sleep_entry()) {
            (Some(Verdict::NotATable | Verdict::TooMany | Verdict::WrongLength), _) => {
                (refusals::of_table(answer, &self.table), None)
            }
            (Some(Verdict::BadState), _) => refusals::of_state(&self.table, &self.state).unzip(),
            (Some(Verdict::Inconsistent), _) => {
                let device = answer.place as usize;
                (self.inconsistency(device), Some(self.remedy().into()))
            }
            (_, Some(x)) => sleep::refusal(answer, &self.table, &self.state, x).unzip(),
            (Some(Verdict::BadRequest), None) => (self.no_such_device(), None),
            _ => (None, None),
        };
        let line = words::answer_line_with(answer, why.as_deref());
        Report::refused(line + &more.unwrap_or_default())
    }

    /// That the table does not have the device of the request.
    fn no_such_device(&self) -> Option<String> {
        match self.task {
            Task::Request(request) => refusals::of_request(&self.table, request),
            Task::BringUp => None,
        }
    }

    /// Why this device is not consistent.
    fn inconsistency(&self, device: usize) -> Option<String> {
        let table = Table::read(&self.table).ok()?;
        let state = State::read_values(&table, &self.state)?;
        let found = match self.task {
            Task::Request(_) => state.inconsistencies(&table, device),
            Task::BringUp => state.inconsistencies_for_bring_up(&table, device),
        };
        consistency::sentence(state.entry(device), &found)
    }

    /// What makes the state consistent, if only resources are off in it.
    fn remedy(&self) -> &'static str {
        let (answer, ..) = self.plan_task(Task::BringUp);
        match answer.is_done() {
            true => "sailgarnet bring-up would make this state consistent.\n",
            false => "",
        }
    }
}
