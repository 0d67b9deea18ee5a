//! The execution of a list, for the grid and the drawing.

use std::ops::Range;

use reference::{numbers, Effect, Execution, Table};
use sailgarnet::Call;

use crate::words::{self, numbered_beyond};

/// What a part of a list is measured by: what is on at its start, what is needed,
/// and the own call.
pub struct Purpose {
    on_before: u64,
    needed_before: u64,
    needed_after: u64,
    /// The bytes of the device's own call.
    own_call: Option<[u8; 4]>,
    own_call_needs: u64,
}

impl Purpose {
    /// That of a permitted request.
    pub fn of_request(effect: &Effect) -> Self {
        Self {
            on_before: effect.on_before,
            needed_before: effect.needed_before,
            needed_after: effect.needed_after,
            own_call: effect.own_call.map(|call| call.word().to_le_bytes()),
            own_call_needs: effect.own_call_needs,
        }
    }

    /// That of switching alone. It keeps the entries, so what is needed stays.
    pub fn of_switching(on: u64, needed: u64) -> Self {
        Self {
            on_before: on,
            needed_before: needed,
            needed_after: needed,
            own_call: None,
            own_call_needs: 0,
        }
    }
}

/// A part of a list: the calls of a move of sleep entry, or all calls.
pub struct Part {
    /// What it does, in a list that may have several parts.
    pub label: Option<String>,
    /// The places of its calls in the list.
    pub calls: Range<usize>,
    purpose: Purpose,
}

impl Part {
    /// A list as a whole.
    pub fn whole(list: &[u8], purpose: Purpose) -> Self {
        Self {
            label: None,
            calls: 0..list.len() / 4,
            purpose,
        }
    }

    /// Some calls of a list that have a purpose of their own.
    pub fn labelled(label: String, calls: Range<usize>, purpose: Purpose) -> Self {
        Self {
            label: Some(label),
            calls,
            purpose,
        }
    }

    /// The line before its calls.
    pub fn title(&self) -> String {
        let calls = words::calls_title(self.calls.len());
        match &self.label {
            Some(label) => format!("{label}, {calls}"),
            None => calls,
        }
    }
}

/// The execution of a list.
pub struct Trace {
    /// The parts of the list, in order. There is at least one.
    pub parts: Vec<Part>,
    /// The calls, in order.
    pub steps: Vec<Step>,
    /// The resources, by number.
    pub rows: Vec<Row>,
    /// What went wrong, in sentences.
    pub faults: Vec<String>,
}

/// A call of a list.
pub struct Step {
    /// The four bytes.
    pub bytes: [u8; 4],
    /// The call they stand for.
    pub call: Option<Call>,
    /// Whether it is the own call of the device.
    pub own: bool,
}

/// A resource during the list.
pub struct Row {
    /// The resource number.
    pub resource: usize,
    /// The resource order.
    pub order: u16,
    /// Whether some device needs it before and after each part.
    pub needed: Vec<Needed>,
    /// Whether it is on at the start and after each call.
    pub on: Vec<bool>,
    /// Whether it must be on there, being needed before and after the part.
    must_be_on: Vec<bool>,
}

/// Whether some device needs a resource around a part.
#[derive(Clone, Copy)]
pub struct Needed {
    /// Before it.
    pub before: bool,
    /// After it.
    pub after: bool,
}

impl Needed {
    /// Whether the resource must be on all the time.
    pub fn throughout(self) -> bool {
        self.before && self.after
    }
}

impl Row {
    /// Whether it is off at this point though needed before and after.
    pub fn fails_at(&self, point: usize) -> bool {
        self.must_be_on[point] && !self.on[point]
    }

    /// Whether some device needs it before and after the whole list.
    pub fn needed_overall(&self) -> Needed {
        Needed {
            before: self.needed[0].before,
            after: self.needed[self.needed.len() - 1].after,
        }
    }
}

impl Trace {
    /// Carries out a list that has these parts.
    pub fn new(table: &Table, parts: Vec<Part>, list: &[u8]) -> Self {
        let steps = steps(&parts, list);
        let points = points(parts[0].purpose.on_before, list);
        let rows: Vec<Row> = (0..table.resource_count())
            .map(|r| row(table, &parts, &points, r))
            .collect();
        let (needed, end) = (
            parts[parts.len() - 1].purpose.needed_after,
            points[points.len() - 1],
        );
        let mut faults = faults_of_words(table, &steps);
        faults.extend(faults_on_the_way(&rows, points.len()));
        for part in &parts {
            faults.extend(faults_of_own_calls(part, &steps, &points));
        }
        faults.extend(faults_at_the_end(needed, end, list.len() % 4));
        Self {
            parts,
            steps,
            rows,
            faults,
        }
    }
}

fn steps(parts: &[Part], list: &[u8]) -> Vec<Step> {
    let calls = list.as_chunks().0;
    let steps = parts.iter().flat_map(|part| {
        calls[part.calls.clone()].iter().map(|&bytes| Step {
            bytes,
            call: Call::from_bytes(bytes),
            own: part.purpose.own_call == Some(bytes),
        })
    });
    steps.collect()
}

/// What is on at the start and after each call.
fn points(on_before: u64, list: &[u8]) -> Vec<Execution> {
    let mut execution = Execution::new(on_before);
    let mut points = vec![execution];
    for &bytes in list.as_chunks().0 {
        execution.carry_out(u32::from_le_bytes(bytes));
        points.push(execution);
    }
    points
}

fn row(table: &Table, parts: &[Part], points: &[Execution], r: usize) -> Row {
    let holds = |set: u64| set >> r & 1 != 0;
    let needed = parts.iter().map(|part| Needed {
        before: holds(part.purpose.needed_before),
        after: holds(part.purpose.needed_after),
    });
    let needed: Vec<Needed> = needed.collect();
    let mut must_be_on = vec![false; points.len()];
    for (part, needed) in parts.iter().zip(&needed) {
        if needed.throughout() {
            must_be_on[part.calls.start..=part.calls.end].fill(true);
        }
    }
    Row {
        resource: r,
        order: table.resource_order(r),
        needed,
        on: points.iter().map(|point| holds(point.on())).collect(),
        must_be_on,
    }
}

/// Words that are no call, and calls of what the table does not have.
fn faults_of_words(table: &Table, steps: &[Step]) -> Vec<String> {
    let faults = (1..).zip(steps).filter_map(|(number, step)| {
        let fault = match step.call {
            None => return Some(format!("Word {number} is no call.")),
            Some(call) => fault_of_call(table, call)?,
        };
        Some(format!("Call {number} {fault}."))
    });
    faults.collect()
}

fn fault_of_call(table: &Table, call: Call) -> Option<String> {
    let fault_of_device =
        |device: u8| numbered_beyond("device", device.into(), table.device_count());
    match call {
        Call::On { resource } | Call::Off { resource } => {
            numbered_beyond("resource", resource.into(), table.resource_count())
        }
        Call::SetState { device, method } => fault_of_device(device).or_else(|| {
            let exists = table.device(device.into()).has_set_state_method(method);
            fault_of_method(device, &format!("_PS{method}"), exists)
        }),
        Call::SetWake { device, .. } => fault_of_device(device).or_else(|| {
            let exists = table.device(device.into()).has_dsw();
            fault_of_method(device, "_DSW", exists)
        }),
    }
}

fn fault_of_method(device: u8, method: &str, exists: bool) -> Option<String> {
    (!exists).then(|| format!("is {method} of device {device}, which has no {method}"))
}

/// Resources that go off too early.
fn faults_on_the_way(rows: &[Row], points: usize) -> Vec<String> {
    let mut faults = Vec::new();
    for row in rows {
        // In a bring-up it may be off at the start.
        let goes_off = |&point: &usize| row.on[point - 1] && row.fails_at(point);
        if let Some(point) = (1..points).find(goes_off) {
            let r = row.resource;
            faults.push(format!(
                "r{r} is off after call {point}, though it is needed before and after."
            ));
        }
    }
    faults
}

/// Own calls that find their needs off.
fn faults_of_own_calls(part: &Part, steps: &[Step], points: &[Execution]) -> Vec<String> {
    let mut faults = Vec::new();
    for i in part.calls.clone() {
        let missing = part.purpose.own_call_needs & !points[i].on();
        if steps[i].own && missing != 0 {
            faults.push(format!(
                "Call {} is the device's own and finds off what it needs: {}.",
                i + 1,
                words::resources(missing)
            ));
        }
    }
    faults
}

/// Resources that are not as needed, and bytes that are no word.
fn faults_at_the_end(needed: u64, end: Execution, odd_bytes: usize) -> Vec<String> {
    let off = words::names(numbers(needed & !end.on()));
    let on = words::names(end.on_but_not_in(needed));
    let mut faults = Vec::new();
    for (names, what) in [(off, "off, though needed"), (on, "on, though not needed")] {
        if !names.is_empty() {
            faults.push(format!("At the end {what}: {names}."));
        }
    }
    if odd_bytes > 0 {
        let bytes = words::count(odd_bytes, "odd byte");
        faults.push(format!("The list ends with {bytes}; a call has four."));
    }
    faults
}
