//! The library against the reference: the same answer and the same bytes on
//! every input, no byte changed outside the lent buffers, every list that passes
//! carried out, every sleep entry cut into its moves and on small stations compared
//! with all choices of states, every state that is brought up accepted by a request,
//! and every table that is written described back. All of it is for tables of both
//! versions, and a station that fits both gets the same in both.
//!
//! `SAILGARNET_SECONDS` sets how long the random cases run, else
//! `SAILGARNET_CASES` how many there are. `SAILGARNET_SEED` sets their seed.

mod bring_up;
mod compare;
mod descriptions;
mod sleep;
mod versions;

use std::env;
use std::time::{Duration, Instant};

use cases::{image, sweep, workloads, Case, Cases, Compared, Coverage, Description};
use compare::Lent;
use reference::{Request, Version};

const CASES: u64 = 600_000;
const SEED: u64 = 1;
/// From so many cases on, every answer must have been given in each version, some
/// at every place.
const ENOUGH: u64 = 500_000;

fn number_from(variable: &str) -> Option<u64> {
    let text = env::var(variable).ok()?;
    Some(text.parse().expect("a number"))
}

/// Compares cases and counts them.
struct Comparison {
    lent: Lent,
    coverage: Coverage,
    cases: u64,
    /// Of how many cases the request, and of how many the bring-up, was run in both
    /// versions.
    in_both: [u64; 2],
}

impl Comparison {
    fn new() -> Self {
        Self {
            lent: Lent::new(),
            coverage: Coverage::default(),
            cases: 0,
            in_both: [0; 2],
        }
    }

    fn run(&mut self, case: &Case, input: impl FnOnce(u64) -> String) {
        let result = self.lent.compare(case, &mut self.coverage);
        let result = result.map(|compared| self.count_in_both(compared));
        self.count(case, input, result);
    }

    fn count_in_both(&mut self, compared: Compared) {
        self.in_both[0] += u64::from(compared.request);
        self.in_both[1] += u64::from(compared.bring_up);
    }

    /// Runs planner and checker alone.
    fn run_request(&mut self, case: &Case, input: impl FnOnce(u64) -> String) {
        let result = self.lent.compare_request_alone(case, &mut self.coverage);
        self.count(case, input, result);
    }

    /// Runs bring-up and its checker alone.
    fn run_bring_up(&mut self, case: &Case, input: impl FnOnce(u64) -> String) {
        let result = self.lent.compare_bring_up_alone(case, &mut self.coverage);
        self.count(case, input, result);
    }

    fn count(
        &mut self,
        case: &Case,
        input: impl FnOnce(u64) -> String,
        result: Result<(), String>,
    ) {
        if let Err(what) = result {
            panic!("{}: {what}\n{case:?}", input(self.cases));
        }
        self.cases += 1;
    }

    /// Says how much was compared. A comparison of nothing is a fault.
    fn report(&self, what: &str) {
        assert!(self.cases > 0);
        println!("{} cases: {what}", self.cases);
    }
}

/// Whether to go on, by time if one is set. The clock is read once in a while.
fn goes_on() -> impl FnMut(u64) -> bool {
    let seconds = number_from("SAILGARNET_SECONDS");
    let end = seconds.map(|seconds| Instant::now() + Duration::from_secs(seconds));
    let limit = number_from("SAILGARNET_CASES").unwrap_or(CASES);
    move |cases| match end {
        Some(end) => !cases.is_multiple_of(1024) || Instant::now() < end,
        None => cases < limit,
    }
}

#[test]
fn random_cases_agree() {
    let seed = number_from("SAILGARNET_SEED").unwrap_or(SEED);
    println!("seed {seed}");
    let mut cases = Cases::new(seed);
    let mut comparison = Comparison::new();
    let mut goes_on = goes_on();
    while goes_on(comparison.cases) {
        let input = |index| format!("case {index} of seed {seed}");
        comparison.run(cases.next_case(), input);
    }
    comparison.report("random, of this seed; answers given ('-': cannot occur)");
    println!("{}", comparison.coverage);
    let [requests, bring_ups] = comparison.in_both;
    println!("{requests} requests and {bring_ups} bring-ups in both versions");
    if comparison.cases >= ENOUGH {
        comparison.coverage.must_be_whole(1);
        assert!(comparison.in_both.iter().all(|&count| count > ENOUGH / 2));
    }
}

/// The bench station with the camera in D3hot and armed, about to go to D0; or
/// to be brought up with r1 alone on.
fn bench_case(version: Version) -> Case {
    let entries = [[0; 4], [3, 1, 3, 3], [4, 0, 0, 0]];
    Case {
        state: image(version, &entries, 0b101),
        request: Request::move_to(1, 0),
        plan: vec![0x5a; version.plan_bytes()],
        list: vec![1, 1, 0, 0, 3, 1, 0, 0],
        reported: image(version, &entries, 0b010),
        bring_up_list: vec![1, 2, 0, 0, 1, 0, 0, 0, 2, 1, 0, 0],
        fresh: vec![0x5a; version.state_bytes()],
        ..Case::of_station(version, &sweep::bench_station())
    }
}

#[test]
fn the_bench_case_is_accepted() {
    for version in Version::ALL {
        let mut case = bench_case(version);
        let answer = reference::check(&case.table, &case.state, case.request, &case.list);
        assert!(answer.is_done());
        let answer = reference::check_bring_up(&case.table, &case.reported, &case.bring_up_list);
        assert!(answer.is_done());
        let Description { resources, devices } = &case.description;
        let answer = reference::write(case.version, resources, devices, &mut case.written);
        assert!(answer.is_done());
        let Description { resources, devices } = &mut case.described;
        assert!(reference::describe(&case.table, resources, devices).is_done());
    }
}

/// A buffer of a case.
type Part = fn(&mut Case) -> &mut Vec<u8>;

/// The buffers that some function reads.
const READ: [Part; 7] = [
    |case| &mut case.table,
    |case| &mut case.state,
    |case| &mut case.list,
    |case| &mut case.reported,
    |case| &mut case.bring_up_list,
    |case| &mut case.description.resources,
    |case| &mut case.description.devices,
];

/// The buffers that are filled, and that no function reads.
const FILLED: [Part; 5] = [
    |case| &mut case.plan,
    |case| &mut case.fresh,
    |case| &mut case.written,
    |case| &mut case.described.resources,
    |case| &mut case.described.devices,
];

/// Each byte of each buffer with each value in it, and each length of each buffer.
#[test]
fn each_byte_and_each_length_agree() {
    let mut comparison = Comparison::new();
    let parts = |version| READ.into_iter().chain(FILLED).map(move |p| (version, p));
    for (version, part) in Version::ALL.into_iter().flat_map(parts) {
        let mut case = bench_case(version);
        let good = part(&mut case).clone();
        let mut run = |bytes: &[u8]| {
            *part(&mut case) = bytes.to_vec();
            comparison.run(&case, |_| "damaged bench case".into());
        };
        sweep::each_byte(&good, &mut run);
        sweep::each_length(&good, 80, &mut run);
        sweep::each_wide_length(&good, &mut run);
    }
    comparison.report("each byte and each length of each buffer, bench station");
}

/// The inputs that are measured, as they are, each bit of what is read turned over,
/// all bits of what is filled, and each length.
#[test]
fn each_bit_and_each_length_of_a_workload_agree() {
    let mut comparison = Comparison::new();
    for (name, mut case) in different_workloads() {
        case.list.truncate(Version::Two.plan_bytes());
        for (i, part) in READ.into_iter().chain(FILLED).enumerate() {
            let good = part(&mut case).clone();
            let mut run = |bytes: &[u8]| {
                *part(&mut case) = bytes.to_vec();
                comparison.run(&case, |_| format!("damaged {name}"));
            };
            if i < READ.len() {
                sweep::each_bit(&good, &mut run);
            } else {
                let turned: Vec<u8> = good.iter().map(|byte| !byte).collect();
                run(&turned);
            }
            sweep::each_length(&good, 8, &mut run);
            sweep::each_wide_length(&good, &mut run);
            run(&good);
        }
    }
    comparison.report("each bit and each length of each buffer, inputs of the benchmark");
}

/// The inputs of the benchmark with their names. One on which several functions are
/// measured, each for itself, is here once.
fn different_workloads() -> Vec<(&'static str, Case)> {
    let mut different: Vec<(&str, Case)> = Vec::new();
    for workload in workloads() {
        if different.iter().all(|(_, case)| *case != workload.case) {
            different.push((workload.name, workload.case));
        }
    }
    different
}

/// Requests with wild numbers, and the planner's list changed in each simple way.
#[test]
fn each_request_and_each_list_agree() {
    let mut comparison = Comparison::new();
    for workload in workloads().into_iter().filter(|w| w.planner == Some(0)) {
        let mut case = workload.case;
        let version = Version::of_table(&case.table).expect("accepted");
        let list = case.list.clone();
        sweep::each_list(version, &list, |list| {
            case.list = list.to_vec();
            comparison.run(&case, |_| format!("list of {} changed", workload.name));
        });
        case.list = list;
        sweep::each_request(|request| {
            case.request = request;
            comparison.run(&case, |_| format!("{} with another request", workload.name));
        });
    }
    comparison.report("wild requests, and the planner's list changed");
}

#[test]
fn each_move_and_each_arming_agree() {
    let mut comparison = Comparison::new();
    for version in Version::ALL {
        let mut case = bench_case(version);
        case.list.clear();
        let mut run = |table: &[u8], state: &[u8], request: Request| {
            case.table = table.to_vec();
            case.state = state.to_vec();
            case.request = request;
            comparison.run(&case, |_| "sweep".into());
        };
        sweep::each_move(version, &mut run);
        sweep::each_arming(version, &mut run);
        sweep::each_relative(version, &mut run);
        let counts = comparison.coverage.of(version);
        for (name, counts) in [("planner", &counts.planner), ("checker", &counts.checker)] {
            counts.must_reach(name, &[13], 0..version.limit() - 1);
            counts.must_reach(name, &[14], 1..version.limit());
        }
    }
    comparison.report("each move in a family of three, each arming, each parent and child");
}
