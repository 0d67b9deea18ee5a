//! Sleep entry gone through completely: every rule on a device and every choice
//! on small stations, every arming for another sleep state, every room and damage
//! to what is lent, and any state of large stations.

use cases::sweep::{self, sleep};
use cases::{
    arm_for, arm_one_for_another, draw_state, filled_station, image, workloads, Case, Rng, Station,
    FEW_DEVICES, RECORDS,
};
use reference::{Request, Version};

use super::{Comparison, Part};

#[test]
fn each_device_and_each_three_devices_agree() {
    let mut comparison = Comparison::new();
    let mut run = |table: &[u8], state: &[u8], x: u32| {
        let case = Case::of_sleep(table, state, x);
        comparison.run_request(&case, |_| format!("small station to S{x}"));
    };
    for version in Version::ALL {
        sleep::each_device(version, &mut run);
        sleep::each_three_devices(version, &mut run);
        sleep::each_on_the_bench(version, &mut run);
    }
    comparison.must_answer_sleep(&[0, 8, 10, 20, 21]);
    comparison.report("sleep entry, each device, each three devices, the bench station");
}

/// The lowest device is named.
#[test]
fn each_device_armed_for_another_sleep_state_agrees() {
    let mut comparison = Comparison::new();
    let mut rng = Rng::new(1);
    for version in Version::ALL {
        sleep::each_armed_for_another(version, |table, state, x, d| {
            let mut case = Case::of_sleep(table, state, x);
            comparison.run_request(&case, |_| format!("device {d} armed for another"));
            arm_one_for_another(&mut rng, table, &mut case.state, x as u8);
            comparison.run_request(&case, |_| format!("device {d} and one more"));
        });
    }
    comparison.must_answer_sleep(&[20]);
    comparison.must_reach_sleep_places(&[20]);
    comparison.report("sleep entry, each device armed for another sleep state, and two");
}

/// Stations of so few devices that all choices are tried.
#[test]
fn random_states_of_small_stations_agree() {
    let mut comparison = Comparison::new();
    let mut rng = Rng::new(2);
    while comparison.cases < 100_000 {
        let version = rng.pick(&Version::ALL);
        let station = Station::random(&mut rng, version);
        if station.devices.len() <= FEW_DEVICES {
            comparison.run_drawn(&mut rng, &station.table(version), "small station");
        }
    }
    comparison.must_answer_sleep(&[0, 21]);
    comparison.report("sleep entry of random states, small stations");
}

#[test]
fn random_states_of_large_stations_agree() {
    let mut comparison = Comparison::new();
    let mut rng = Rng::new(3);
    let tables: Vec<Vec<u8>> = sleep_cases().map(|case| case.table).collect();
    while comparison.cases < 20_000 {
        let version = rng.pick(&Version::ALL);
        let station = Station::random(&mut rng, version);
        if station.devices.len() > FEW_DEVICES {
            comparison.run_drawn(&mut rng, &station.table(version), "large station");
        }
        let table = &tables[rng.below(tables.len())];
        comparison.run_drawn(&mut rng, table, "measured station");
    }
    comparison.must_answer_sleep(&[0, 21]);
    comparison.report("sleep entry of random states, large stations");
}

/// The inputs of the benchmark that are sleep entries.
fn sleep_cases() -> impl Iterator<Item = Case> {
    let measured = workloads().into_iter().map(|workload| workload.case);
    measured.filter(|case| case.request == Request::sleep(case.request.a))
}

/// Each byte of the table and the state with each value in it, and each length of
/// these and of the plan.
#[test]
fn each_byte_and_each_length_agree() {
    let parts: [Part; 2] = [|case| &mut case.table, |case| &mut case.state];
    let mut comparison = Comparison::new();
    for (version, part) in Version::ALL.into_iter().flat_map(|v| parts.map(|p| (v, p))) {
        // The camera is armed for S3 and D2.
        let state = image(version, &[[0; 4], [0, 1, 3, 2]], 0b111);
        let table = sweep::bench_station().table(version);
        let mut case = Case::of_sleep(&table, &state, 3);
        let good = part(&mut case).clone();
        let mut run = |bytes: &[u8]| {
            *part(&mut case) = bytes.to_vec();
            comparison.run_request(&case, |_| "damaged bench station".into());
        };
        sweep::each_byte(&good, &mut run);
        sweep::each_length(&good, 80, &mut run);
        sweep::each_wide_length(&good, &mut run);
    }
    for mut case in sleep_cases() {
        let plan = case.plan.clone();
        let mut run = |bytes: &[u8]| {
            case.plan = bytes.to_vec();
            comparison.run_request(&case, |_| format!("room of {} bytes", bytes.len()));
        };
        sweep::each_length(&plan, 8, &mut run);
        sweep::each_wide_length(&plan, &mut run);
    }
    let counts = |version| &comparison.coverage.of(version).sleep_entry;
    let answers = [0, 1, 2, 3, 4, 5, 6, 7, 8, 9, 21];
    counts(Version::One).must_be("sleep entry", &[&answers[..], &[20]].concat(), 1);
    counts(Version::Two).must_be("sleep entry", &answers, 1);
    comparison.report("sleep entry, each byte and each length");
}

/// Short room comes before the numbers of the request, and these before 20 and 21.
#[test]
fn each_wild_request_with_each_room_agrees() {
    let mut comparison = Comparison::new();
    for mut case in sleep_cases() {
        let version = Version::of_table(&case.table).expect("measured");
        let needed = version.sleep_plan_bytes();
        let one = Version::One.sleep_plan_bytes();
        for room in [version.plan_bytes(), one, needed - 1, needed] {
            case.plan.resize(room, 0x5a);
            sweep::each_request(|request| {
                let is_near = request.kind == 4 || request.device == 0 && request.b == 0;
                if is_near {
                    case.request = request;
                    comparison.run_request(&case, |_| format!("{request:?}, {room} bytes"));
                }
            });
        }
    }
    let counts = |version| &comparison.coverage.of(version).sleep_entry;
    counts(Version::One).must_be("sleep entry", &[0, 9, 10, 20, 21], 1);
    counts(Version::Two).must_be("sleep entry", &[0, 9, 10, 20], 1);
    comparison.report("sleep entry, wild requests with each room");
}

#[test]
fn each_field_of_the_largest_table_agrees() {
    let mut comparison = Comparison::new();
    for version in Version::ALL {
        let table = filled_station(version).table(version);
        let mut case = Case::of_sleep(&table, &image(version, &[], u64::MAX), 1);
        sweep::each_wild_byte(&table, |bytes| {
            case.table.copy_from_slice(bytes);
            comparison.run_request(&case, |_| "damaged largest table".into());
        });
    }
    comparison.must_reach_sleep_places(RECORDS);
    comparison.report("sleep entry, each byte of the largest table with several values");
}

impl Comparison {
    /// Runs a sleep entry from a drawn state, if the draw finds one, with all armed
    /// devices armed for its sleep state.
    fn run_drawn(&mut self, rng: &mut Rng, table: &[u8], what: &str) {
        if let Some(mut state) = draw_state(rng, table) {
            let x = 1 + rng.byte_below(4);
            arm_for(rng, table, &mut state, x);
            let case = Case::of_sleep(table, &state, x.into());
            self.run_request(&case, |index| format!("{what} {index}"));
        }
    }

    /// Fails unless the planner gave exactly these answers to sleep entry, in each
    /// version.
    fn must_answer_sleep(&self, answers: &[u8]) {
        for version in Version::ALL {
            let counts = &self.coverage.of(version).sleep_entry;
            counts.must_be("sleep entry", answers, 1);
        }
    }

    /// Fails unless it gave each of these at every place of each version.
    fn must_reach_sleep_places(&self, answers: &[u8]) {
        for version in Version::ALL {
            let counts = &self.coverage.of(version).sleep_entry;
            counts.must_reach("sleep entry", answers, 0..version.limit());
        }
    }
}
