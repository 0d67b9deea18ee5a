//! One station as a table of each version: the same answers, calls, entries and
//! on-sets, on small stations gone through completely and on drawn ones. And
//! buffers of one version lent with a table of the other.

use cases::sweep::{self, bring_up, sleep};
use cases::{
    arm_for, draw_state, report_any_on, vary_bring_up_list, vary_list, Case, Rng, Station,
};
use reference::{Request, Version};

use super::{bench_case, compare, Comparison};

#[test]
fn small_stations_get_the_same_in_both_versions() {
    let mut comparison = Comparison::new();
    let mut run = |case: Case| comparison.run_in_both(&case, |_| "small station".into());
    for version in Version::ALL {
        let mut request = |table: &[u8], state: &[u8], request| {
            run(Case {
                table: table.to_vec(),
                state: state.to_vec(),
                request,
                ..Case::default()
            });
        };
        sweep::each_move(version, &mut request);
        sweep::each_arming(version, &mut request);
        let mut sleep = |table: &[u8], state: &[u8], x| run(Case::of_sleep(table, state, x));
        sleep::each_device(version, &mut sleep);
        sleep::each_on_the_bench(version, &mut sleep);
        bring_up::each_reported(version, |table, state| {
            run(Case::of_bring_up(table, state));
        });
    }
    comparison.must_have_run_in_both(100_000);
    comparison.report("small stations in both versions");
}

/// Stations with as many of each as version 1 can have, in drawn states, and lists
/// changed in many ways.
#[test]
fn drawn_stations_get_the_same_in_both_versions() {
    let mut comparison = Comparison::new();
    let mut rng = Rng::new(5);
    while comparison.cases < 50_000 {
        let station = Station::random(&mut rng, Version::One);
        let table = station.table(rng.pick(&Version::ALL));
        let Some(state) = draw_state(&mut rng, &table) else {
            continue;
        };
        let case = drawn_case(&mut rng, &table, state);
        comparison.run_in_both(&case, |index| format!("drawn station {index}"));
    }
    comparison.must_have_run_in_both(40_000);
    comparison.report("drawn stations in both versions");
}

/// A request, in some cases a sleep entry, and a bring-up of a drawn state.
fn drawn_case(rng: &mut Rng, table: &[u8], mut state: Vec<u8>) -> Case {
    let mut reported = state.clone();
    report_any_on(rng, table, &mut reported);
    let mut case = Case::of_bring_up(table, &reported);
    case.request = cases::likely_request(rng, table, &state);
    if rng.one_in(3) {
        let x = 1 + rng.byte_below(4);
        arm_for(rng, table, &mut state, x);
        case.request = Request::sleep(x.into());
    }
    case.state = state;
    let mut planned = case.state.clone();
    let mut buffer = vec![0; Version::Two.sleep_plan_bytes()];
    let answer = reference::plan(table, &mut planned, case.request, &mut buffer);
    case.list = buffer[..4 * usize::from(answer.count)].to_vec();
    vary_list(rng, table, &[], &mut case.list);
    vary_bring_up_list(rng, table, &reported, &[], &mut case.bring_up_list);
    case
}

/// States and plans of every size of the other version, and one byte more or less.
#[test]
fn buffers_of_the_other_version_agree() {
    let mut comparison = Comparison::new();
    for version in Version::ALL {
        for other in Version::ALL {
            let sizes = [
                other.state_bytes(),
                other.plan_bytes(),
                other.sleep_plan_bytes(),
            ];
            let near = sizes
                .into_iter()
                .flat_map(|size| [size - 4, size - 1, size, size + 1]);
            for size in near {
                let mut case = bench_case(version);
                case.plan.resize(size, 0x5a);
                let requests = [case.request, Request::sleep(3), Request::sleep(0)];
                for request in requests {
                    case.request = request;
                    comparison.run(&case, |_| format!("{size} bytes for a plan"));
                }
                let mut case = bench_case(version);
                case.state.resize(size, 0);
                case.reported.resize(size, 0);
                case.fresh.resize(size, 0x5a);
                comparison.run(&case, |_| format!("{size} bytes for a state"));
            }
        }
        let counts = comparison.coverage.of(version);
        counts.planner.must_be("planner", &[0, 7, 9], 1);
        counts.sleep_entry.must_be("sleep entry", &[0, 9, 10], 1);
        counts.fresh.must_be("fresh", &[0, 7], 1);
        counts.bring_up.must_be("bring-up", &[0, 7, 9], 1);
    }
    comparison.report("buffers with the sizes of the other version");
}

/// A table with each number as its version, of the length that it has as version 1
/// and as version 2.
#[test]
fn each_version_number_agrees() {
    let mut comparison = Comparison::new();
    for version in Version::ALL {
        let mut case = bench_case(version);
        for number in 0..=u16::MAX {
            case.table[4..6].copy_from_slice(&number.to_le_bytes());
            case.version = u32::from(number);
            comparison.run(&case, |_| format!("version {number}"));
            case.version = u32::from(number) << 16 | u32::from(version.number());
            comparison.run(&case, |_| format!("version {}", case.version));
        }
    }
    let others = comparison.coverage.of_no_version();
    others.planner.must_be("planner", &[1], 1);
    others.writer.must_be("writer", &[1], 1);
    // The room for version 1 is too short for version 2.
    for (version, written) in [(Version::One, &[0][..]), (Version::Two, &[0, 9])] {
        let counts = comparison.coverage.of(version);
        counts.planner.must_be("planner", &[0, 3], 1);
        counts.writer.must_be("writer", written, 1);
    }
    comparison.report("each number of a version");
}

/// Each two counts around the limits of both versions, with the length that they
/// have, and a byte more.
#[test]
fn each_count_of_records_agrees() {
    const COUNTS: [u8; 10] = [0, 1, 31, 32, 33, 34, 63, 64, 65, 255];
    let mut comparison = Comparison::new();
    for version in Version::ALL {
        for (r, d) in COUNTS.into_iter().flat_map(|r| COUNTS.map(|d| (r, d))) {
            let mut case = bench_case(version);
            case.table.truncate(8);
            (case.table[3], case.table[6]) = (r, d);
            case.table.resize(8 + 4 * usize::from(r), 0);
            let mut device = vec![0; version.record_bytes()];
            device[0] = 255;
            case.table.extend(device.repeat(d.into()));
            case.state = vec![0; version.state_bytes()];
            comparison.run(&case, |_| format!("{r} resources, {d} devices"));
            case.table.push(0);
            comparison.run(&case, |_| {
                format!("{r} resources, {d} devices, a byte more")
            });
        }
        let counts = comparison.coverage.of(version);
        counts.fresh.must_be("fresh", &[0, 2, 3], 1);
    }
    comparison.report("each number of resources and devices around the limits");
}

impl Comparison {
    /// Compares the library with itself, in both versions.
    fn run_in_both(&mut self, case: &Case, input: impl FnOnce(u64) -> String) {
        let result = compare::VERSIONS.agree(case);
        let result = result.map(|compared| self.count_in_both(compared));
        self.count(case, input, result);
    }

    /// Fails unless so many requests and so many bring-ups were run in both versions.
    fn must_have_run_in_both(&self, least: u64) {
        assert!(self.in_both.iter().all(|&count| count >= least));
    }
}
