//! Bring-up gone through completely: every set of resources on, every list of
//! few words, every fault of an entry, on small stations and on the largest.

use cases::sweep::{self, bring_up};
use cases::{
    draw_state, filled_station, image, put_fault, report_any_on, turn_on_all_needed,
    vary_bring_up_list, workloads, Case, Rng, RECORDS,
};
use reference::Version;

use super::Comparison;

#[test]
fn each_reported_state_agrees() {
    let mut comparison = Comparison::new();
    for version in Version::ALL {
        bring_up::each_reported(version, |table, state| {
            let case = Case::of_bring_up(table, state);
            comparison.run_bring_up(&case, |_| "reported state".into());
        });
    }
    comparison.must_give(&[0, 8], &[0, 8]);
    comparison.report("bring-up with each set on, small stations");
}

/// Each set on with each needed set: every list of at most four words, the own
/// list in every sequence, and `_ON` of all that is needed.
#[test]
fn each_list_of_a_small_station_agrees() {
    let mut comparison = Comparison::new();
    let mut run = |case: &mut Case, list: &[u8]| {
        case.bring_up_list = list.to_vec();
        comparison.run_bring_up(case, |_| "list for a small station".into());
    };
    for version in Version::ALL {
        bring_up::each_on_and_needed(version, &[1, 2, 1], |table, state| {
            let mut case = Case::of_bring_up(table, state);
            bring_up::each_short_list(|list| run(&mut case, list));
        });
        bring_up::each_on_and_needed(version, &[1, 2, 1, 2, 1], |table, state| {
            let mut case = Case::of_bring_up(table, state);
            let mut list = case.bring_up_list.clone();
            bring_up::each_sequence(&list, |list| run(&mut case, list));
            turn_on_all_needed(table, state, &mut list);
            run(&mut case, &list);
        });
    }
    comparison.must_give(&[0], &[0, 19]);
    comparison.report("bring-up with each set on and each needed set, each list");
}

/// The lists of the benchmark and one with as many `_ON` as `_OFF`, changed in
/// each simple way.
#[test]
fn each_changed_list_agrees() {
    let mut comparison = Comparison::new();
    let needed = 0x6666_cccc_3333_5555;
    let with_both = Version::ALL.map(|version| {
        let entries = bring_up::needing(needed, version.limit());
        let state = image(version, &entries, !needed);
        Case::of_bring_up(&one_device_for_each_resource(version), &state)
    });
    let measured = workloads().into_iter().filter(|w| w.bring_up == Some(0));
    let cases = measured.map(|workload| workload.case);
    for mut case in cases.chain(with_both) {
        let version = Version::of_table(&case.table).expect("accepted");
        sweep::each_list(version, &case.bring_up_list.clone(), |list| {
            case.bring_up_list = list.to_vec();
            comparison.run_bring_up(&case, |_| "changed list".into());
        });
    }
    comparison.must_give(&[0], &[0, 19]);
    comparison.report("bring-up, the own list changed");
}

/// The lowest device is named, whatever is on.
#[test]
fn each_fault_and_each_two_faults_agree() {
    let mut comparison = Comparison::new();
    let mut rng = Rng::new(1);
    for version in Version::ALL {
        bring_up::each_fault(version, |table, state, d| {
            let mut case = Case::of_bring_up(table, state);
            comparison.run_bring_up(&case, |_| format!("a fault of device {d}"));
            put_fault(&mut rng, table, &mut case.reported);
            comparison.run_bring_up(&case, |_| format!("a fault of device {d} and another"));
        });
    }
    comparison.must_give(&[8], &[8]);
    comparison.must_reach_places(&[8]);
    comparison.report("bring-up with each fault of each device, and with two");
}

#[test]
fn each_field_of_the_largest_table_agrees() {
    let mut comparison = Comparison::new();
    for version in Version::ALL {
        let table = filled_station(version).table(version);
        let mut case = Case::of_bring_up(&table, &image(version, &[], 0));
        sweep::each_wild_byte(&table, |bytes| {
            case.table.copy_from_slice(bytes);
            comparison.run_bring_up(&case, |_| "damaged largest table".into());
        });
    }
    comparison.must_reach_places(RECORDS);
    comparison.report("bring-up, each byte of the largest table with several values");
}

/// Any resources on, any consistent entries, any list.
#[test]
fn random_states_of_large_stations_agree() {
    let mut comparison = Comparison::new();
    let mut rng = Rng::new(2);
    // The drawn states of the measured tables and of the chains need few different
    // sets, those of the others any.
    let is_full = |name: &str| name.ends_with("ONs") && name.contains("full");
    let measured = workloads().into_iter().filter(|w| is_full(w.name));
    let mut tables: Vec<Vec<u8>> = measured.map(|workload| workload.case.table).collect();
    for version in Version::ALL {
        tables.push(bring_up::chain(version).table(version));
        tables.push(one_device_for_each_resource(version));
    }
    assert_eq!(tables.len(), 6);
    for _ in 0..40_000 {
        let table = &tables[rng.below(tables.len())];
        let Some(mut state) = draw_state(&mut rng, table) else {
            continue;
        };
        report_any_on(&mut rng, table, &mut state);
        let mut case = Case::of_bring_up(table, &state);
        let list = &mut case.bring_up_list;
        vary_bring_up_list(&mut rng, table, &state, &[], list);
        comparison.run_bring_up(&case, |index| format!("large station {index}"));
    }
    comparison.must_give(&[0], &[0, 19]);
    comparison.report("bring-up of random states, large stations");
}

/// As many devices as a version has, each with a resource of its own.
fn one_device_for_each_resource(version: Version) -> Vec<u8> {
    let orders: Vec<u16> = (0..version.limit()).map(|r| 7 * r as u16 % 16).collect();
    bring_up::one_device_each(&orders).table(version)
}

impl Comparison {
    /// Fails unless bring-up and its checker gave exactly these answers, in each
    /// version.
    fn must_give(&self, bring_up: &[u8], checker: &[u8]) {
        for version in Version::ALL {
            let counts = self.coverage.of(version);
            counts.bring_up.must_be("bring-up", bring_up, 1);
            let counts = &counts.bring_up_checker;
            counts.must_be("bring-up checker", checker, 1);
        }
    }

    /// Fails unless both gave each of these answers at every place of each version.
    fn must_reach_places(&self, answers: &[u8]) {
        for version in Version::ALL {
            let (counts, places) = (self.coverage.of(version), 0..version.limit());
            counts
                .bring_up
                .must_reach("bring-up", answers, places.clone());
            let counts = &counts.bring_up_checker;
            counts.must_reach("bring-up checker", answers, places);
        }
    }
}
