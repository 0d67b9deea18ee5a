//! Measures the library against the reference on the inputs of `cases::workloads`.
//!
//! With `times` it times both and prints a line a row, for a program that makes
//! a table of them (`make bench`). With `instructions` it makes each call twice
//! and prints what it called, for a program that counts instructions
//! (`make instructions`).

use std::arch::global_asm;
use std::hint::black_box;
use std::time::Instant;

use cases::{workloads, Case, Description, Workload};

// Moves the code after it by so many bytes. Where code lies changes the time of
// a short call, on either side, so it is timed at several places.
global_asm!(concat!(
    ".text\n.p2align 6\n.globl shift\nshift: .space ",
    env!("SAILGARNET_SHIFT"),
    "\n"
));

extern "C" {
    fn shift();
}

/// So many calls are timed at once, each with buffers of its own. All of them
/// stay in the cache, and they are reset between two rounds, outside the time.
const BUFFERS: usize = 64;
const ROUNDS: usize = 400;

/// What a function writes to.
#[derive(Clone, PartialEq)]
struct Buffers {
    state: Vec<u8>,
    reported: Vec<u8>,
    plan: Vec<u8>,
    written: Vec<u8>,
    described: Description,
}

/// Calls one function of one planner.
type Run = fn(&Case, &mut Buffers) -> u64;

/// A function that is measured: its name, its answer number in a workload, and
/// the library's and the reference's.
type Function = (&'static str, fn(&Workload) -> Option<u8>, [Run; 2]);

const FUNCTIONS: [Function; 6] = [
    ("plan", |w| w.planner, [library_plan, reference_plan]),
    ("check", |w| w.checker, [library_check, reference_check]),
    (
        "bring_up",
        |w| w.bring_up,
        [library_bring_up, reference_bring_up],
    ),
    (
        "check_bring_up",
        |w| w.bring_up_checker,
        [library_check_bring_up, reference_check_bring_up],
    ),
    ("write", |w| w.writer, [library_write, reference_write]),
    (
        "describe",
        |w| w.describer,
        [library_describe, reference_describe],
    ),
];

/// One line of the table.
struct Row<'a> {
    function: &'static str,
    workload: &'a Workload,
    number: u8,
    /// The library's function and the reference's.
    runs: [Run; 2],
}

fn main() {
    // else the linker leaves it out
    black_box(shift as unsafe extern "C" fn());
    let workloads = workloads();
    let rows = rows(&workloads);
    rows.iter().for_each(must_agree);
    match std::env::args().nth(1).as_deref() {
        Some("times") => print_times(&rows),
        Some("instructions") => call_each_twice(&rows),
        other => panic!("times or instructions, not {other:?}"),
    }
}

fn rows(workloads: &[Workload]) -> Vec<Row<'_>> {
    let mut rows = Vec::new();
    for (function, number, runs) in FUNCTIONS {
        for workload in workloads {
            rows.extend(number(workload).map(|number| Row {
                function,
                workload,
                number,
                runs,
            }));
        }
    }
    rows
}

impl Row<'_> {
    fn buffers(&self) -> Buffers {
        let case = &self.workload.case;
        Buffers {
            state: case.state.clone(),
            reported: case.reported.clone(),
            plan: case.plan.clone(),
            written: case.written.clone(),
            described: case.described.clone(),
        }
    }

    fn run(&self, run: Run, buffers: &mut Buffers) -> u64 {
        black_box(run(black_box(&self.workload.case), buffers))
    }
}

/// A row is worth measuring only if both do what its name says.
fn must_agree(row: &Row) {
    let [library, reference] = row.runs.map(|run| {
        let mut buffers = row.buffers();
        (row.run(run, &mut buffers), buffers)
    });
    assert!(library == reference, "{} differs", row.workload.name);
    assert_eq!(library.0 as u8, row.number, "{}", row.workload.name);
}

fn print_times(rows: &[Row]) {
    for row in rows {
        let [library, reference] = times(row);
        let Row {
            function,
            workload,
            number,
            ..
        } = row;
        println!(
            "{function}|{}|{number}|{library:.3}|{reference:.3}",
            workload.name
        );
    }
}

/// Nanoseconds a call, of the fastest round: other programs only add time. The
/// two take turns, so that both meet the same conditions.
fn times(row: &Row) -> [f64; 2] {
    let mut buffers = vec![row.buffers(); BUFFERS];
    let mut best = [f64::INFINITY; 2];
    for _ in 0..ROUNDS {
        for (best, &run) in best.iter_mut().zip(&row.runs) {
            *best = best.min(round(row, run, &mut buffers));
        }
    }
    best
}

fn round(row: &Row, run: Run, buffers: &mut [Buffers]) -> f64 {
    for buffers in &mut *buffers {
        buffers.clone_from(&row.buffers());
    }
    let start = Instant::now();
    for buffers in &mut *buffers {
        row.run(run, buffers);
    }
    start.elapsed().as_nanos() as f64 / BUFFERS as f64
}

/// The second call of each counts: nothing is done for the first time in it.
fn call_each_twice(rows: &[Row]) {
    for row in rows {
        println!("{}|{}|{}", row.function, row.workload.name, row.number);
        for run in row.runs {
            for _ in 0..2 {
                counted(row, run, &mut row.buffers());
            }
        }
    }
}

/// Counting begins and ends with this function, so it must not be inlined.
#[inline(never)]
fn counted(row: &Row, run: Run, buffers: &mut Buffers) -> u64 {
    row.run(run, buffers)
}

fn library_plan(case: &Case, buffers: &mut Buffers) -> u64 {
    let request = library_request(case);
    let Buffers { state, plan, .. } = buffers;
    sailgarnet::plan(&case.table, state, request, plan).pack()
}

fn reference_plan(case: &Case, buffers: &mut Buffers) -> u64 {
    let Buffers { state, plan, .. } = buffers;
    reference::plan(&case.table, state, case.request, plan).pack()
}

fn library_check(case: &Case, buffers: &mut Buffers) -> u64 {
    let request = library_request(case);
    sailgarnet::check(&case.table, &buffers.state, request, &case.list).pack()
}

fn reference_check(case: &Case, buffers: &mut Buffers) -> u64 {
    reference::check(&case.table, &buffers.state, case.request, &case.list).pack()
}

fn library_bring_up(case: &Case, buffers: &mut Buffers) -> u64 {
    let Buffers { reported, plan, .. } = buffers;
    sailgarnet::bring_up(&case.table, reported, plan).pack()
}

fn reference_bring_up(case: &Case, buffers: &mut Buffers) -> u64 {
    let Buffers { reported, plan, .. } = buffers;
    reference::bring_up(&case.table, reported, plan).pack()
}

fn library_check_bring_up(case: &Case, buffers: &mut Buffers) -> u64 {
    sailgarnet::check_bring_up(&case.table, &buffers.reported, &case.bring_up_list).pack()
}

fn reference_check_bring_up(case: &Case, buffers: &mut Buffers) -> u64 {
    reference::check_bring_up(&case.table, &buffers.reported, &case.bring_up_list).pack()
}

fn library_write(case: &Case, buffers: &mut Buffers) -> u64 {
    let Description { resources, devices } = &case.description;
    sailgarnet::write(case.version, resources, devices, &mut buffers.written).pack()
}

fn reference_write(case: &Case, buffers: &mut Buffers) -> u64 {
    let Description { resources, devices } = &case.description;
    reference::write(case.version, resources, devices, &mut buffers.written).pack()
}

fn library_describe(case: &Case, buffers: &mut Buffers) -> u64 {
    let Description { resources, devices } = &mut buffers.described;
    sailgarnet::describe(&case.table, resources, devices).pack()
}

fn reference_describe(case: &Case, buffers: &mut Buffers) -> u64 {
    let Description { resources, devices } = &mut buffers.described;
    reference::describe(&case.table, resources, devices).pack()
}

fn library_request(case: &Case) -> sailgarnet::Request {
    let reference::Request { kind, device, a, b } = case.request;
    sailgarnet::Request { kind, device, a, b }
}
