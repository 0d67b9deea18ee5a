//! What must hold of the reference on every case, checked without its own code
//! where that is possible.

use cases::{
    faults, inverse_holds, permute_equal_orders, set_on, sweep, BringUp, Case, Cases, Rng, Sleep,
    Station, Versions, FAULTS, SLEEP,
};
use reference::{
    bring_up, check, check_bring_up, check_table, check_words, demand3, demand3_words, describe,
    effect, execution, fresh, plan, plan_words, record, write, Answer, Call, Effect, State, Table,
    Version,
};

const CASES: usize = 100_000;

fn for_each_case(seed: u64, mut each: impl FnMut(&Case)) {
    let mut cases = Cases::new(seed);
    for _ in 0..CASES {
        each(cases.next_case());
    }
}

/// The cases whose request is about one device.
fn for_each_request(seed: u64, mut each: impl FnMut(&Case)) {
    for_each_case(seed, |case| {
        if case.request.kind != SLEEP {
            each(case);
        }
    });
}

/// The words of a byte list, without a rest that is no word.
fn words(list: &[u8]) -> Vec<u32> {
    let words = list.as_chunks().0.iter();
    words.map(|&word| u32::from_le_bytes(word)).collect()
}

/// What the planner answered and wrote.
struct Planned {
    answer: Answer,
    state: Vec<u8>,
    plan: Vec<u8>,
}

fn planned(case: &Case) -> Planned {
    let (mut state, mut buffer) = (case.state.clone(), case.plan.clone());
    let answer = plan(&case.table, &mut state, case.request, &mut buffer);
    Planned {
        answer,
        state,
        plan: buffer,
    }
}

#[test]
fn a_refusal_writes_nothing_and_has_no_count() {
    for_each_case(11, |case| {
        let planned = planned(case);
        if !planned.answer.is_done() {
            assert_eq!(planned.state, case.state);
            assert_eq!(planned.plan, case.plan);
            assert_eq!(planned.answer.count, 0);
        }
        let mut buffer = case.fresh.clone();
        if !fresh(&case.table, &mut buffer).is_done() {
            assert_eq!(buffer, case.fresh);
        }
    });
}

#[test]
fn places_are_zero_but_where_the_paper_names_one() {
    for_each_case(12, |case| {
        let checked = check(&case.table, &case.state, case.request, &case.list);
        for answer in [planned(case).answer, checked] {
            let limit = match answer.number {
                4 => u64::from(case.table[3]),
                5 | 6 | 8 | 14 | 20 => u64::from(case.table[6]),
                13 => u64::from(case.request.device),
                _ => 1,
            };
            assert!(answer.place < limit, "{answer:?} {case:?}");
            assert_eq!(Answer::unpack(answer.pack()), answer);
        }
    });
}

#[test]
fn an_accepted_request_leaves_the_new_entry_and_the_needed_set() {
    for_each_request(13, |case| {
        let planned = planned(case);
        if !planned.answer.is_done() {
            return;
        }
        let effect = effect(&case.table, &case.state, case.request).expect("accepted");
        let entry = 4 * case.request.device as usize;
        let mut expected = case.state.clone();
        let after = effect.entry_after;
        expected[entry..entry + 4].copy_from_slice(&[
            after.state,
            after.armed.into(),
            after.wake_s,
            after.wake_d,
        ]);
        let version = Version::of_table(&case.table).expect("accepted");
        set_on(version, &mut expected, effect.needed_after);
        assert_eq!(planned.state, expected);
        // The new state is consistent: the next request is looked at.
        let next = check(&case.table, &planned.state, Default::default(), &[]);
        assert_eq!(next, Answer::refused(10, 0));
    });
}

#[test]
fn the_planners_list_passes_and_its_rest_is_kept() {
    let mut rng = Rng::new(14);
    for_each_request(14, |case| {
        let planned = planned(case);
        if !planned.answer.is_done() {
            return;
        }
        let length = 4 * usize::from(planned.answer.count);
        assert_eq!(planned.plan[length..], case.plan[length..]);
        let mut list = planned.plan[..length].to_vec();
        let passes = |list: &[u8]| {
            let answer = check(&case.table, &case.state, case.request, list);
            assert_eq!(answer, Answer::done(0), "{case:?}");
            demand3(&case.table, &case.state, case.request, list).expect("demand 3");
        };
        passes(&list);
        permute_equal_orders(&mut rng, &case.table, &mut list);
        passes(&list);
    });
}

#[test]
fn the_checker_answers_as_the_planner_but_for_9_and_19() {
    for_each_request(15, |case| {
        let checked = check(&case.table, &case.state, case.request, &case.list).number;
        match planned(case).answer.number {
            0 => assert!(checked == 0 || checked == 19),
            9 => assert!(checked == 0 || checked >= 10),
            number => assert_eq!(checked, number),
        }
    });
}

#[test]
fn bytes_and_words_agree() {
    for_each_case(16, |case| {
        let planned = planned(case);
        let mut state = case.state.clone();
        let mut buffer = words(&case.plan);
        let answer = plan_words(&case.table, &mut state, case.request, &mut buffer);
        assert_eq!(answer, planned.answer);
        assert_eq!(state, planned.state);
        assert_eq!(buffer, words(&planned.plan));
        if case.list.len().is_multiple_of(4) {
            let list = words(&case.list);
            let on_words = check_words(&case.table, &case.state, case.request, &list);
            let on_bytes = check(&case.table, &case.state, case.request, &case.list);
            assert_eq!(on_words, on_bytes);
            if on_words.is_done() {
                demand3_words(&case.table, &case.state, case.request, &list).expect("demand 3");
            }
        }
    });
}

/// What a list must do.
struct Due {
    on: u64,
    target: u64,
    own_call: Option<Call>,
    own_call_last: bool,
}

impl Due {
    fn of_request(effect: &Effect) -> Self {
        let (before, after) = (effect.entry_before, effect.entry_after);
        let armed_now = after.armed && before.state == after.state;
        Self {
            on: effect.on_before,
            target: effect.needed_after,
            own_call: effect.own_call,
            own_call_last: (after.state == 0 && before.state != 0) || armed_now,
        }
    }

    /// Whether a list conforms, by the words of RULES.md 7: as a set it has exactly
    /// the calls, each once, and no call comes before one that must precede it.
    fn list_conforms(&self, table: &Table, list: &[u8]) -> bool {
        let list_words = words(list);
        let mut found = list_words.clone();
        let mut due: Vec<u32> = self.own_call.map(Call::word).into_iter().collect();
        for resource in 0..64u8 {
            let needed = self.target >> resource & 1 != 0;
            let on = self.on >> resource & 1 != 0;
            match (needed, on) {
                (true, false) => due.push(Call::On { resource }.word()),
                (false, true) => due.push(Call::Off { resource }.word()),
                _ => {}
            }
        }
        found.sort_unstable();
        due.sort_unstable();
        let ranks: Vec<(u8, i32)> = list_words.iter().map(|w| self.rank(table, *w)).collect();
        list.len().is_multiple_of(4) && found == due && ranks.is_sorted()
    }

    /// Where a call that is due belongs: own call first or last, turn-on calls, then
    /// turn-off calls.
    fn rank(&self, table: &Table, word: u32) -> (u8, i32) {
        let order = |r: u8| match usize::from(r) < table.resource_count() {
            true => i32::from(table.resource_order(r.into())),
            false => 0,
        };
        match Call::from_word(word) {
            Some(Call::On { resource }) => (1, order(resource)),
            Some(Call::Off { resource }) => (2, -order(resource)),
            _ => (if self.own_call_last { 3 } else { 0 }, 0),
        }
    }
}

#[test]
fn the_checker_passes_exactly_the_lists_that_conform() {
    let mut passed = 0;
    for_each_case(17, |case| {
        let Ok(effect) = effect(&case.table, &case.state, case.request) else {
            return;
        };
        let table = Table::read(&case.table).expect("accepted");
        let answer = check(&case.table, &case.state, case.request, &case.list);
        let conforms = Due::of_request(&effect).list_conforms(&table, &case.list);
        let expected = if conforms { 0 } else { 19 };
        assert_eq!(answer.number, expected, "{case:?}");
        passed += usize::from(conforms);
    });
    assert!(passed > CASES / 10);
}

#[test]
fn what_passes_keeps_demand_3_and_ends_with_the_needed_set() {
    for_each_case(18, |case| {
        let answer = check(&case.table, &case.state, case.request, &case.list);
        if answer.is_done() {
            demand3(&case.table, &case.state, case.request, &case.list).expect("demand 3");
            let effect = effect(&case.table, &case.state, case.request).expect("passed");
            let end = execution(effect.on_before, words(&case.list)).last();
            assert_eq!(end.unwrap_or(effect.on_before), effect.needed_after);
        }
    });
}

#[test]
fn a_record_is_handed_out_exactly_for_a_device_of_a_good_table() {
    for_each_case(19, |case| {
        let part = record(&case.table, case.device);
        let good = check_table(&case.table).is_done();
        if good && case.device < usize::from(case.table[6]) {
            let length = if case.table[4] == 1 { 40 } else { 64 };
            let start = 8 + 4 * usize::from(case.table[3]) + length * case.device;
            assert!(std::ptr::eq(part, &case.table[start..start + length]));
        } else {
            assert!(part.is_empty());
        }
    });
}

/// The reference's functions that bring-up is checked with.
const REFERENCE: BringUp = BringUp {
    bring_up: |table, state, plan| bring_up(table, state, plan).pack(),
    check_bring_up: |table, state, list| check_bring_up(table, state, list).pack(),
    check: |table, state, request, list| check(table, state, request, list).pack(),
};

#[test]
fn bring_up_leaves_what_is_needed_on_and_its_list_passes() {
    for_each_case(23, |case| {
        assert_eq!(REFERENCE.holds(case), Ok(()), "{case:?}");
    });
    for version in Version::ALL {
        sweep::bring_up::each_reported(version, |table, state| {
            let case = Case::of_bring_up(table, state);
            assert_eq!(REFERENCE.holds(&case), Ok(()), "{case:?}");
        });
    }
}

/// The reference's functions that sleep entry is checked with.
const REFERENCE_SLEEP: Sleep = Sleep {
    plan: |table, state, request, plan_buffer| plan(table, state, request, plan_buffer).pack(),
    check: REFERENCE.check,
};

#[test]
fn sleep_entry_takes_the_least_choice_move_by_move() {
    let run = |case: &Case| assert_eq!(REFERENCE_SLEEP.holds(case), Ok(()), "{case:?}");
    let mut count = 0;
    for_each_case(27, |case| {
        if case.request.kind == SLEEP {
            run(case);
            count += 1;
        }
    });
    assert!(count > CASES / 4);
    let each = |table: &[u8], state: &[u8], x| run(&Case::of_sleep(table, state, x));
    for version in Version::ALL {
        sweep::sleep::each_device(version, each);
        sweep::sleep::each_three_devices(version, each);
        sweep::sleep::each_on_the_bench(version, each);
        sweep::sleep::each_armed_for_another(version, |table, state, x, _| each(table, state, x));
    }
}

/// The reference's functions that are compared in both versions.
const REFERENCE_VERSIONS: Versions = Versions {
    write: |version, lists, table| write(version, &lists.resources, &lists.devices, table).pack(),
    fresh: |table, state| fresh(table, state).pack(),
    plan: REFERENCE_SLEEP.plan,
    check: REFERENCE.check,
    bring_up: REFERENCE.bring_up,
    check_bring_up: REFERENCE.check_bring_up,
};

#[test]
fn a_station_gets_the_same_in_both_versions() {
    let (mut requests, mut bring_ups) = (0, 0);
    let mut run = |case: &Case| match REFERENCE_VERSIONS.agree(case) {
        Ok(compared) => {
            requests += usize::from(compared.request);
            bring_ups += usize::from(compared.bring_up);
        }
        Err(what) => panic!("{what}\n{case:?}"),
    };
    for_each_case(28, &mut run);
    for version in Version::ALL {
        let mut run = |case: Case| run(&case);
        sweep::bring_up::each_reported(version, |table, state| {
            run(Case::of_bring_up(table, state));
        });
        sweep::sleep::each_on_the_bench(version, |table, state, x| {
            run(Case::of_sleep(table, state, x));
        });
    }
    assert!(requests > CASES / 2 && bring_ups > CASES / 2);
}

/// The lowest device that has a fault, whatever is on.
fn lowest_fault(table: &Table, state: &[u8]) -> Option<usize> {
    let entries = state.as_chunks().0;
    let has_fault = |&d: &usize| faults(table, state, d, entries[d]).contains(&true);
    (0..table.device_count()).find(has_fault)
}

#[test]
fn bring_up_refuses_with_8_exactly_the_lowest_fault() {
    let mut found = [0; FAULTS.len()];
    for_each_case(24, |case| {
        let answer = check_bring_up(&case.table, &case.reported, &case.bring_up_list);
        let Ok(table) = Table::read(&case.table) else {
            assert_eq!(answer, check_table(&case.table));
            return;
        };
        if answer.number != 7 {
            let fault = lowest_fault(&table, &case.reported);
            let place = (answer.number == 8).then_some(answer.place as usize);
            assert_eq!(place, fault, "{case:?}");
            if let Some(d) = fault {
                let entry = case.reported.as_chunks().0[d];
                let faults = faults(&table, &case.reported, d, entry);
                for (count, fault) in found.iter_mut().zip(faults) {
                    *count += usize::from(fault);
                }
            }
        }
    });
    for (fault, count) in FAULTS.iter().zip(found) {
        assert!(count > CASES / 100, "{fault}: {count}");
    }
}

#[test]
fn the_checker_of_bring_up_passes_exactly_the_lists_that_conform() {
    let mut passed = 0;
    for_each_case(25, |case| {
        let answer = check_bring_up(&case.table, &case.reported, &case.bring_up_list);
        let (0 | 19) = answer.number else {
            return;
        };
        let table = Table::read(&case.table).expect("accepted");
        let state = State::read_for_bring_up(&table, &case.reported).expect("accepted");
        let due = Due {
            on: state.on(),
            target: state.needed(&table),
            own_call: None,
            own_call_last: false,
        };
        let conforms = due.list_conforms(&table, &case.bring_up_list);
        assert_eq!(answer.is_done(), conforms, "{case:?}");
        passed += usize::from(conforms);
    });
    assert!(passed > CASES / 10);
}

#[test]
fn bring_up_and_its_checker_answer_alike_but_for_9_and_19() {
    for_each_case(26, |case| {
        let checked = check_bring_up(&case.table, &case.reported, &case.bring_up_list);
        let (mut state, mut buffer) = (case.reported.clone(), case.plan.clone());
        let answer = bring_up(&case.table, &mut state, &mut buffer);
        match answer.number {
            0 | 9 => assert!(checked.number == 0 || checked.number == 19),
            _ => assert_eq!(checked, answer),
        }
    });
}

#[test]
fn writer_and_describer_are_inverse() {
    for_each_case(20, |case| {
        let result = inverse_holds(
            case,
            |version, lists, table| write(version, &lists.resources, &lists.devices, table).pack(),
            |table, lists| describe(table, &mut lists.resources, &mut lists.devices).pack(),
        );
        assert_eq!(result, Ok(()), "{case:?}");
    });
}

#[test]
fn a_drawn_station_is_written_as_its_table() {
    let mut rng = Rng::new(21);
    for _ in 0..CASES / 10 {
        let version = rng.pick(&Version::ALL);
        let station = Station::random(&mut rng, version);
        let lists = station.description();
        let mut table = vec![0; lists.table_length(version)];
        let number = version.number().into();
        let answer = write(number, &lists.resources, &lists.devices, &mut table);
        assert_eq!(answer, Answer::done(table.len() as u16));
        assert_eq!(table, station.table(version));
    }
}

#[test]
fn a_writers_place_is_a_record_of_its_list() {
    for_each_case(22, |case| {
        let (resources, devices) = case.description.counts();
        let mut table = case.written.clone();
        let answer = write(
            case.version,
            &case.description.resources,
            &case.description.devices,
            &mut table,
        );
        let limit = match answer.number {
            4 => resources,
            5 | 6 => devices,
            _ => 1,
        };
        assert!(answer.place < limit as u64, "{answer:?} {case:?}");
    });
}

#[test]
fn a_damaged_bench_table_never_makes_a_function_fail() {
    for version in Version::ALL {
        let bench = sweep::bench_station().table(version);
        let run = |table: &[u8]| {
            let lent = Version::of_table(table).unwrap_or(version);
            let answer = fresh(table, &mut vec![0; lent.state_bytes()]);
            assert_eq!(answer, check_table(table));
        };
        sweep::each_byte(&bench, run);
        sweep::each_length(&bench, 80, run);
    }
}
