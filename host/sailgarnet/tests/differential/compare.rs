//! One case on the library and on the reference.

use cases::{
    inverse_holds, BringUp, Case, Compared, Coverage, Description, Guarded, Sleep, Versions, SLEEP,
};
use reference::{demand3, Answer};
use sailgarnet::Request;

/// The library's functions that bring-up is checked with.
const BRING_UP: BringUp = BringUp {
    bring_up: |table, state, plan| sailgarnet::bring_up(table, state, plan).pack(),
    check_bring_up: |table, state, list| sailgarnet::check_bring_up(table, state, list).pack(),
    check: |table, state, request, list| {
        sailgarnet::check(table, state, library_request(request), list).pack()
    },
};

/// The library's functions that sleep entry is checked with.
const SLEEP_ENTRY: Sleep = Sleep {
    plan: |table, state, request, plan| {
        sailgarnet::plan(table, state, library_request(request), plan).pack()
    },
    check: BRING_UP.check,
};

/// The library's functions that are compared in both versions.
pub const VERSIONS: Versions = Versions {
    write: library_write,
    fresh: |table, state| sailgarnet::fresh(table, state).pack(),
    plan: SLEEP_ENTRY.plan,
    check: BRING_UP.check,
    bring_up: BRING_UP.bring_up,
    check_bring_up: BRING_UP.check_bring_up,
};

/// The buffers of one case, between guard bytes.
pub struct Lent {
    table: Guarded,
    state: Guarded,
    plan: Guarded,
    list: Guarded,
    fresh: Guarded,
    /// What bring-up and its checker are lent.
    reported: Guarded,
    bring_up_plan: Guarded,
    bring_up_list: Guarded,
    /// What the writer reads.
    resources: Guarded,
    devices: Guarded,
    /// What the writer writes.
    written: Guarded,
    /// What the describer writes.
    described_resources: Guarded,
    described_devices: Guarded,
}

impl Lent {
    pub fn new() -> Self {
        let empty = || Guarded::new(&[]);
        Self {
            table: empty(),
            state: empty(),
            plan: empty(),
            list: empty(),
            fresh: empty(),
            reported: empty(),
            bring_up_plan: empty(),
            bring_up_list: empty(),
            resources: empty(),
            devices: empty(),
            written: empty(),
            described_resources: empty(),
            described_devices: empty(),
        }
    }

    fn set(&mut self, case: &Case) {
        self.set_for_request(case);
        self.set_for_bring_up(case);
        self.fresh.set(&case.fresh);
        self.resources.set(&case.description.resources);
        self.devices.set(&case.description.devices);
        self.written.set(&case.written);
        self.described_resources.set(&case.described.resources);
        self.described_devices.set(&case.described.devices);
    }

    fn set_for_request(&mut self, case: &Case) {
        self.table.set(&case.table);
        self.state.set(&case.state);
        self.plan.set(&case.plan);
        self.list.set(&case.list);
    }

    fn set_for_bring_up(&mut self, case: &Case) {
        self.table.set(&case.table);
        self.reported.set(&case.reported);
        self.bring_up_plan.set(&case.plan);
        self.bring_up_list.set(&case.bring_up_list);
    }

    /// Runs both on a case, counts the answers, and says what differs or what
    /// does not hold; otherwise, what of it was run in both versions.
    pub fn compare(&mut self, case: &Case, coverage: &mut Coverage) -> Result<Compared, String> {
        self.set(case);
        let fresh = self.compare_fresh(case)?;
        let write = self.compare_write(case)?;
        let describe = self.compare_describe(case)?;
        self.compare_both_of_request(case, coverage)?;
        self.compare_both_of_bring_up(case, coverage)?;
        self.unwritten(case)?;
        let counts = coverage.of_table(&case.table);
        counts.fresh.add(fresh);
        counts.describer.add(describe);
        coverage.of_number(case.version).writer.add(write);
        inverse_holds(case, library_write, library_describe)?;
        VERSIONS.agree(case)
    }

    /// As [`Self::compare`], for planner and checker alone.
    pub fn compare_request_alone(
        &mut self,
        case: &Case,
        coverage: &mut Coverage,
    ) -> Result<(), String> {
        self.set_for_request(case);
        self.compare_both_of_request(case, coverage)
    }

    fn compare_both_of_request(
        &mut self,
        case: &Case,
        coverage: &mut Coverage,
    ) -> Result<(), String> {
        let check = self.compare_check(case)?;
        let plan = self.compare_plan(case)?;
        self.unwritten_by_request(case)?;
        let counts = coverage.of_table(&case.table);
        counts.checker.add(check);
        counts.add_planned(case.request, plan);
        if case.request.kind == SLEEP {
            return SLEEP_ENTRY.holds(case);
        }
        match plan.is_done() {
            true => self.check_own_list(case, 4 * usize::from(plan.count)),
            false => Ok(()),
        }
    }

    /// As [`Self::compare`], for bring-up and its checker alone.
    pub fn compare_bring_up_alone(
        &mut self,
        case: &Case,
        coverage: &mut Coverage,
    ) -> Result<(), String> {
        self.set_for_bring_up(case);
        self.compare_both_of_bring_up(case, coverage)?;
        self.unwritten_by_bring_up(case)
    }

    fn compare_both_of_bring_up(
        &mut self,
        case: &Case,
        coverage: &mut Coverage,
    ) -> Result<(), String> {
        let check = self.compare_check_bring_up(case)?;
        let bring_up = self.compare_bring_up(case)?;
        let counts = coverage.of_table(&case.table);
        counts.bring_up_checker.add(check);
        counts.bring_up.add(bring_up);
        BRING_UP.holds(case)
    }

    fn compare_fresh(&mut self, case: &Case) -> Result<Answer, String> {
        let answer = sailgarnet::fresh(self.table.lent(), self.fresh.lent_mut());
        let mut fresh = case.fresh.clone();
        let expected = reference::fresh(&case.table, &mut fresh);
        equal_answers("fresh", answer, expected)?;
        equal_bytes("the fresh state", self.fresh.lent(), &fresh)?;
        Ok(expected)
    }

    /// A list that passes is carried out as well.
    fn compare_check(&mut self, case: &Case) -> Result<Answer, String> {
        let (table, state, list) = (self.table.lent(), self.state.lent(), self.list.lent());
        let answer = sailgarnet::check(table, state, library_request(case.request), list);
        let expected = reference::check(&case.table, &case.state, case.request, &case.list);
        equal_answers("check", answer, expected)?;
        equal_bytes("the state after check", state, &case.state)?;
        if expected.is_done() {
            demand3(&case.table, &case.state, case.request, &case.list)?;
        }
        Ok(expected)
    }

    fn compare_plan(&mut self, case: &Case) -> Result<Answer, String> {
        let (state, plan) = (self.state.lent_mut(), self.plan.lent_mut());
        let request = library_request(case.request);
        let answer = sailgarnet::plan(self.table.lent(), state, request, plan);
        let (mut state, mut plan) = (case.state.clone(), case.plan.clone());
        let expected = reference::plan(&case.table, &mut state, case.request, &mut plan);
        equal_answers("plan", answer, expected)?;
        equal_bytes("the state after plan", self.state.lent(), &state)?;
        equal_bytes("the plan", self.plan.lent(), &plan)?;
        Ok(expected)
    }

    fn compare_check_bring_up(&mut self, case: &Case) -> Result<Answer, String> {
        let (table, state) = (self.table.lent(), self.reported.lent());
        let answer = sailgarnet::check_bring_up(table, state, self.bring_up_list.lent());
        let expected = reference::check_bring_up(&case.table, &case.reported, &case.bring_up_list);
        equal_answers("check_bring_up", answer, expected)?;
        equal_bytes("the state after check_bring_up", state, &case.reported)?;
        Ok(expected)
    }

    fn compare_bring_up(&mut self, case: &Case) -> Result<Answer, String> {
        let (state, plan) = (self.reported.lent_mut(), self.bring_up_plan.lent_mut());
        let answer = sailgarnet::bring_up(self.table.lent(), state, plan);
        let (mut state, mut plan) = (case.reported.clone(), case.plan.clone());
        let expected = reference::bring_up(&case.table, &mut state, &mut plan);
        equal_answers("bring_up", answer, expected)?;
        equal_bytes("the state after bring_up", self.reported.lent(), &state)?;
        equal_bytes("the plan of bring_up", self.bring_up_plan.lent(), &plan)?;
        Ok(expected)
    }

    fn compare_write(&mut self, case: &Case) -> Result<Answer, String> {
        let (resources, devices) = (self.resources.lent(), self.devices.lent());
        let answer = sailgarnet::write(case.version, resources, devices, self.written.lent_mut());
        let mut table = case.written.clone();
        let Description { resources, devices } = &case.description;
        let expected = reference::write(case.version, resources, devices, &mut table);
        equal_answers("write", answer, expected)?;
        equal_bytes("the table written", self.written.lent(), &table)?;
        Ok(expected)
    }

    fn compare_describe(&mut self, case: &Case) -> Result<Answer, String> {
        let resources = self.described_resources.lent_mut();
        let devices = self.described_devices.lent_mut();
        let answer = sailgarnet::describe(self.table.lent(), resources, devices);
        let mut lists = case.described.clone();
        let expected = reference::describe(&case.table, &mut lists.resources, &mut lists.devices);
        equal_answers("describe", answer, expected)?;
        let resources = self.described_resources.lent();
        equal_bytes("the resources described", resources, &lists.resources)?;
        let devices = self.described_devices.lent();
        equal_bytes("the devices described", devices, &lists.devices)?;
        Ok(expected)
    }

    /// The planner's own list passes from the state that was lent to the planner.
    fn check_own_list(&self, case: &Case, length: usize) -> Result<(), String> {
        let list = &self.plan.lent()[..length];
        let request = library_request(case.request);
        let answer = sailgarnet::check(&case.table, &case.state, request, list);
        equal_answers("check of the own list", answer, Answer::done(0))?;
        demand3(&case.table, &case.state, case.request, list)
    }

    /// What no function may write is as it was, but for what planner and checker
    /// are lent.
    fn unwritten(&self, case: &Case) -> Result<(), String> {
        self.unwritten_by_bring_up(case)?;
        let Description { resources, devices } = &case.description;
        equal_bytes("the list of resources", self.resources.lent(), resources)?;
        equal_bytes("the list of devices", self.devices.lent(), devices)?;
        all_intact(&[
            ("the fresh state", &self.fresh),
            ("the list of resources", &self.resources),
            ("the list of devices", &self.devices),
            ("the table written", &self.written),
            ("the resources described", &self.described_resources),
            ("the devices described", &self.described_devices),
        ])
    }

    fn unwritten_by_request(&self, case: &Case) -> Result<(), String> {
        equal_bytes("the table", self.table.lent(), &case.table)?;
        equal_bytes("the list", self.list.lent(), &case.list)?;
        all_intact(&[
            ("the table", &self.table),
            ("the state", &self.state),
            ("the plan", &self.plan),
            ("the list", &self.list),
        ])
    }

    fn unwritten_by_bring_up(&self, case: &Case) -> Result<(), String> {
        equal_bytes("the table", self.table.lent(), &case.table)?;
        let list = self.bring_up_list.lent();
        equal_bytes("the list of bring-up", list, &case.bring_up_list)?;
        all_intact(&[
            ("the table", &self.table),
            ("the reported state", &self.reported),
            ("the plan of bring_up", &self.bring_up_plan),
            ("the list of bring-up", &self.bring_up_list),
        ])
    }
}

/// No byte was written beside these buffers.
fn all_intact(buffers: &[(&str, &Guarded)]) -> Result<(), String> {
    match buffers.iter().find(|(_, guarded)| !guarded.is_intact()) {
        Some((name, _)) => Err(format!("a byte beside {name} was written")),
        None => Ok(()),
    }
}

/// Number, place and count are equal.
fn equal_answers(what: &str, answer: sailgarnet::Answer, expected: Answer) -> Result<(), String> {
    match answer.pack() == expected.pack() {
        true => Ok(()),
        false => Err(format!("{what} answers {answer:?}, not {expected:?}")),
    }
}

fn equal_bytes(what: &str, bytes: &[u8], expected: &[u8]) -> Result<(), String> {
    match bytes == expected {
        true => Ok(()),
        false => Err(format!("{what} is\n{bytes:02x?}, not\n{expected:02x?}")),
    }
}

fn library_write(version: u32, lists: &Description, table: &mut [u8]) -> u64 {
    sailgarnet::write(version, &lists.resources, &lists.devices, table).pack()
}

fn library_describe(table: &[u8], lists: &mut Description) -> u64 {
    sailgarnet::describe(table, &mut lists.resources, &mut lists.devices).pack()
}

fn library_request(request: reference::Request) -> Request {
    let reference::Request { kind, device, a, b } = request;
    Request { kind, device, a, b }
}
