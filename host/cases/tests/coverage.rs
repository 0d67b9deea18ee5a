//! The cases reach every answer and every rule. The reference alone is run.

use cases::{
    faults, may_take, on_set, sweep, workloads, Case, Cases, Counts, Coverage, Description, Rng,
    Station, Workload, FAULTS, SHAPES, SLEEP,
};
use reference::{
    bring_up, check, check_bring_up, describe, effect, fresh, numbers, plan, sleep_obstacles,
    wake_range, write, Answer, Call, Effect, Entry, Obstacle, Request, State, Table, Version,
};

const CASES: usize = 200_000;

/// Room for the plan of any version.
const PLAN_BYTES: usize = Version::Two.plan_bytes();
/// Room for the plan of a sleep entry of any version.
const SLEEP_PLAN_BYTES: usize = Version::Two.sleep_plan_bytes();

/// What each function answers to a case.
struct Answers {
    planner: Answer,
    checker: Answer,
    fresh: Answer,
    writer: Answer,
    describer: Answer,
    bring_up: Answer,
    bring_up_checker: Answer,
}

impl Answers {
    fn of(case: &Case) -> Self {
        let mut lent = case.clone();
        let (table, request) = (&case.table, case.request);
        let Description { resources, devices } = &case.description;
        let described = &mut lent.described;
        Self {
            planner: plan(table, &mut lent.state, request, &mut lent.plan),
            bring_up: bring_up(table, &mut lent.reported, &mut lent.plan),
            bring_up_checker: check_bring_up(table, &case.reported, &case.bring_up_list),
            checker: check(table, &case.state, request, &case.list),
            fresh: fresh(table, &mut lent.fresh),
            writer: write(case.version, resources, devices, &mut lent.written),
            describer: describe(table, &mut described.resources, &mut described.devices),
        }
    }
}

#[test]
fn every_answer_is_given() {
    let mut coverage = Coverage::default();
    let mut cases = Cases::new(1);
    for _ in 0..2 * CASES {
        let case = cases.next_case();
        let answers = Answers::of(case);
        let counts = coverage.of_table(&case.table);
        counts.add_planned(case.request, answers.planner);
        counts.checker.add(answers.checker);
        counts.fresh.add(answers.fresh);
        counts.describer.add(answers.describer);
        counts.bring_up.add(answers.bring_up);
        counts.bring_up_checker.add(answers.bring_up_checker);
        let counts = coverage.of_number(case.version);
        counts.writer.add(answers.writer);
    }
    println!("{coverage}");
    coverage.must_be_whole(100);
}

#[test]
fn every_size_and_every_shape_is_drawn() {
    let mut rng = Rng::new(3);
    for version in Version::ALL {
        let mut resources = vec![0; version.limit() + 1];
        let mut devices = resources.clone();
        let mut shapes = [0; SHAPES.len()];
        for _ in 0..20_000 {
            let station = Station::random(&mut rng, version);
            resources[station.resources.len()] += 1;
            devices[station.devices.len()] += 1;
            for device in &station.devices {
                let shape = SHAPES.iter().position(|&s| s == (device.ps, device.pr));
                shapes[shape.expect("a shape that keeps the object rules")] += 1;
            }
        }
        let all = resources.iter().chain(&devices).chain(&shapes);
        assert!(all.into_iter().all(|&count| count >= 20));
    }
}

/// The rules that an accepted request can meet.
const RULES: [&str; 24] = [
    "move to D0",
    "move deeper",
    "move to the present state",
    "arming",
    "disarming an armed device",
    "disarming a device that is not armed",
    "own call before resource calls",
    "own call after resource calls",
    "turn-on and turn-off calls in one list",
    "as many calls as there can be",
    "no calls",
    "equal orders in one list",
    "D3hot needs _PR3",
    "D3hot needs _PR2",
    "D3hot needs _PR1",
    "D3hot needs _PR0",
    "D3cold while armed",
    "D3hot to D3cold",
    "wake range from both values",
    "wake range from _SxD alone",
    "wake range from _SxW alone",
    "armed again with another pair",
    "more was on than needed",
    "a shared resource stays on",
];

fn rules_met(table: &Table, effect: &Effect, kind: u32, list: &[[u8; 4]]) -> [bool; 24] {
    let device = table.device(effect.device);
    let (before, after) = (effect.entry_before, effect.entry_after);
    let moved = kind == 1;
    let own_call = effect.own_call.map(|call| call.word().to_le_bytes());
    let others = list.len() - usize::from(own_call.is_some());
    let orders = resource_orders(table, list);
    let has_kind = |kind| list.iter().any(|word| word[0] == kind);
    let d3hot = |mask: u8, bits: u8| after.state == 3 && device.pr_mask() & mask == bits;
    let armed_range = |sxd: bool, sxw: bool| {
        let (d, w) = (device.sxd(after.wake_s), device.sxw(after.wake_s));
        after.armed && wake_range(d, w).is_some() && d.is_some() == sxd && w.is_some() == sxw
    };
    [
        moved && after.state == 0 && before.state > 0,
        moved && after.state > before.state,
        moved && after.state == before.state,
        kind == 2,
        kind == 3 && before.armed,
        kind == 3 && !before.armed,
        others > 0 && own_call.as_ref() == list.first(),
        others > 0 && own_call.as_ref() == list.last(),
        has_kind(1) && has_kind(2),
        list.len() == table.version().plan_words(),
        list.is_empty(),
        orders.windows(2).any(|pair| pair[0] == pair[1]),
        d3hot(0b1000, 0b1000),
        d3hot(0b1100, 0b0100),
        d3hot(0b1110, 0b0010),
        d3hot(0b1111, 0b0001),
        after.armed && after.state == 4,
        before.state == 3 && after.state == 4,
        armed_range(true, true),
        armed_range(true, false),
        armed_range(false, true),
        before.armed && after.armed && before != after && before.state == after.state,
        effect.on_before & !effect.needed_before != 0,
        effect.device_needs_before & !effect.device_needs_after & effect.needed_after != 0,
    ]
}

/// Kind and order of each resource call.
fn resource_orders(table: &Table, list: &[[u8; 4]]) -> Vec<(u8, u16)> {
    let order = |word: &[u8; 4]| match Call::from_word(u32::from_le_bytes(*word)) {
        Some(Call::On { resource } | Call::Off { resource }) => {
            Some((word[0], table.resource_order(resource.into())))
        }
        _ => None,
    };
    list.iter().filter_map(order).collect()
}

#[test]
fn every_rule_is_met() {
    let mut counts = [[0; RULES.len()]; 2];
    let mut cases = Cases::new(2);
    for _ in 0..CASES {
        let case = cases.next_case();
        let Ok(effect) = effect(&case.table, &case.state, case.request) else {
            continue;
        };
        let (mut state, mut buffer) = (case.state.clone(), [0; PLAN_BYTES]);
        let answer = plan(&case.table, &mut state, case.request, &mut buffer);
        let list = &buffer.as_chunks().0[..answer.count.into()];
        let table = Table::read(&case.table).expect("accepted");
        let met = rules_met(&table, &effect, case.request.kind, list);
        add(&mut counts[index(&table)], &met);
    }
    must_be_met(&RULES, &counts);
}

/// Where the counts of a table's version stand.
fn index(table: &Table) -> usize {
    usize::from(table.version() == Version::Two)
}

/// Counts what was met.
fn add(counts: &mut [usize], met: &[bool]) {
    for (count, &met) in counts.iter_mut().zip(met) {
        *count += usize::from(met);
    }
}

/// Fails unless each rule was met in each version.
fn must_be_met<const N: usize>(rules: &[&str; N], counts: &[[usize; N]; 2]) {
    for (i, rule) in rules.iter().enumerate() {
        let [one, two] = counts.map(|counts| counts[i]);
        println!("{one:6} {two:6} {rule}");
        assert!(one >= 10 && two >= 10, "{rule}: {one} and {two}");
    }
}

/// What the list of a bring-up can have.
const BRING_UP_LISTS: [&str; 8] = [
    "turn-on calls alone",
    "turn-off calls alone",
    "both",
    "no calls",
    "_ON or _OFF of as many resources as there can be",
    "equal orders among turn-on calls",
    "equal orders among turn-off calls",
    "a device in use without its supply that has methods",
];

fn bring_up_list_has(table: &Table, reported: &[u8], list: &[[u8; 4]]) -> [bool; 8] {
    let orders = resource_orders(table, list);
    let has_kind = |kind| list.iter().any(|word| word[0] == kind);
    let has_equal = |kind| {
        let mut pairs = orders.windows(2);
        pairs.any(|pair| pair[0] == pair[1] && pair[0].0 == kind)
    };
    let state = State::read_for_bring_up(table, reported).expect("accepted");
    let in_use = |d: &usize| {
        let (device, entry) = (table.device(*d), state.entry(*d));
        entry.state == 0 && device.ps_mask() != 0 && device.needs(entry) & !state.on() != 0
    };
    [
        has_kind(1) && !has_kind(2),
        has_kind(2) && !has_kind(1),
        has_kind(1) && has_kind(2),
        list.is_empty(),
        list.len() == table.version().limit(),
        has_equal(1),
        has_equal(2),
        (0..table.device_count()).any(|d| in_use(&d)),
    ]
}

#[test]
fn every_kind_of_bring_up_is_met() {
    let mut lists = [[0; BRING_UP_LISTS.len()]; 2];
    // Each fault of one device alone, with all that is needed on, and without.
    let mut alone = [[[0; FAULTS.len()]; 2]; 2];
    let mut cases = Cases::new(3);
    for _ in 0..CASES {
        let case = cases.next_case();
        let mut buffer = [0; PLAN_BYTES];
        let answer = bring_up(&case.table, &mut case.reported.clone(), &mut buffer);
        let Ok(table) = Table::read(&case.table) else {
            continue;
        };
        if answer.is_done() {
            let list = &buffer.as_chunks().0[..answer.count.into()];
            let has = bring_up_list_has(&table, &case.reported, list);
            add(&mut lists[index(&table)], &has);
        } else if answer.number == 8 {
            if let Some((fault, supplied)) = fault_alone(&table, &case.reported) {
                alone[usize::from(supplied)][index(&table)][fault] += 1;
            }
        }
    }
    must_be_met(&BRING_UP_LISTS, &lists);
    for counts in &alone {
        must_be_met(&FAULTS, counts);
    }
}

/// The fault of a state with good values that has but one, and whether all that
/// it needs is on.
fn fault_alone(table: &Table, reported: &[u8]) -> Option<(usize, bool)> {
    let entries = reported.as_chunks().0;
    let on = on_set(table.version(), reported);
    let mut found = Vec::new();
    let mut needed = 0;
    for (d, &entry) in entries[..table.device_count()].iter().enumerate() {
        let faults = faults(table, reported, d, entry);
        found.extend((0..FAULTS.len()).filter(|&fault| faults[fault]));
        let [state, armed, wake_s, wake_d] = entry;
        needed |= table.device(d).needs(Entry {
            state,
            armed: armed == 1,
            wake_s,
            wake_d,
        });
    }
    (found.len() == 1).then(|| (found[0], needed & !on == 0))
}

/// What a sleep entry that is done can have.
const SLEEP_ENTRIES: [&str; 16] = [
    "all of some devices move",
    "some move and some stay",
    "none of some moves",
    "as many moves as there can be",
    "none moves, with turn-off calls",
    "none moves, without calls",
    "moves without calls",
    "turn-on calls",
    "more calls than a request can have",
    "more was on than needed",
    "a state because of the parent's alone",
    "a state because of _SxD",
    "a state because of a resource that cannot be on",
    "a state because of wake D",
    "an armed device that stays",
    "an armed device in D3cold",
];

fn sleep_entry_has(
    table: &Table,
    before: &State,
    after: &State,
    x: u8,
    calls: &[[u8; 4]],
) -> [bool; 16] {
    let states: Vec<u8> = devices(table).map(|d| after.entry(d).state).collect();
    let some = |is: &dyn Fn(usize) -> bool| devices(table).any(is);
    let moves = |d: usize| before.entry(d).state != states[d];
    let move_count = devices(table).filter(|&d| moves(d)).count();
    let is_lost = |r: usize| table.system_level(r) < x;
    let (has_some, none_moves) = (states.len() > 1, move_count == 0);
    [
        has_some && move_count == states.len(),
        move_count > 0 && move_count < states.len(),
        has_some && none_moves,
        move_count == table.version().limit(),
        none_moves && !calls.is_empty(),
        none_moves && calls.is_empty(),
        move_count > 0 && calls.is_empty(),
        calls.iter().any(|word| word[0] == 1),
        calls.len() > table.version().plan_words(),
        before.on() & !before.needed(table) != 0,
        some(&|d| moves(d) && only_parent_forbids(table, before, x, &states, d)),
        some(&|d| moves(d) && table.device(d).sxd(x) == Some(states[d])),
        some(&|d| numbers(table.device(d).needs(before.entry(d))).any(is_lost)),
        some(&|d| moves(d) && after.entry(d).armed),
        some(&|d| !moves(d) && after.entry(d).armed),
        some(&|d| states[d] == 4 && after.entry(d).armed),
    ]
}

fn devices(table: &Table) -> std::ops::Range<usize> {
    0..table.device_count()
}

/// Whether a device could take a shallower state if its parent were in D0.
fn only_parent_forbids(table: &Table, before: &State, x: u8, states: &[u8], d: usize) -> bool {
    (0..states[d]).any(|shallower| {
        let mut others = vec![0; states.len()];
        others[d] = shallower;
        may_take(table, before, x, &others, d)
    })
}

/// Why a sleep entry can have no state for a device.
const OBSTACLES: [&str; 6] = [
    "not supported",
    "shallower than the present state",
    "shallower than _SxD",
    "needs what cannot be on",
    "not wake D",
    "shallower than the parent",
];

fn obstacle_index(obstacle: Obstacle) -> usize {
    match obstacle {
        Obstacle::NotSupported => 0,
        Obstacle::ShallowerThanPresent => 1,
        Obstacle::ShallowerThanSxd(_) => 2,
        Obstacle::Unpowered { .. } => 3,
        Obstacle::NotWakeState(_) => 4,
        Obstacle::ShallowerThanParent { .. } => 5,
    }
}

#[test]
fn every_kind_of_sleep_entry_is_met() {
    let mut entries = [[0; SLEEP_ENTRIES.len()]; 2];
    let mut obstacles = [[0; OBSTACLES.len()]; 2];
    let mut cases = Cases::new(4);
    for _ in 0..CASES {
        let case = cases.next_case();
        if case.request.kind != SLEEP {
            continue;
        }
        let Ok(table) = Table::read(&case.table) else {
            continue;
        };
        let (mut end, mut buffer) = (case.state.clone(), [0; SLEEP_PLAN_BYTES]);
        let answer = plan(&case.table, &mut end, case.request, &mut buffer);
        if answer.is_done() {
            let before = State::read(&table, &case.state).expect("accepted");
            let after = State::read(&table, &end).expect("consistent");
            let calls = &buffer.as_chunks().0[..answer.count.into()];
            let has = sleep_entry_has(&table, &before, &after, case.request.a as u8, calls);
            add(&mut entries[index(&table)], &has);
        } else if answer.number == 21 {
            let found = sleep_obstacles(&case.table, &case.state, case.request.a);
            for obstacle in found.expect("refused with 21").1 {
                obstacles[index(&table)][obstacle_index(obstacle)] += 1;
            }
        }
    }
    must_be_met(&SLEEP_ENTRIES, &entries);
    must_be_met(&OBSTACLES, &obstacles);
}

#[test]
fn a_seed_gives_the_same_cases_again() {
    let (mut first, mut second) = (Cases::new(7), Cases::new(7));
    let mut other = Cases::new(8);
    let mut different = 0;
    for _ in 0..1000 {
        let case = first.next_case();
        assert_eq!(case, second.next_case());
        different += usize::from(case != other.next_case());
    }
    assert!(different > 990);
}

#[test]
fn sweeps_have_their_sizes() {
    let bench = sweep::bench_station().table(Version::One);
    assert_eq!(bench, include_bytes!("../../../examples/station.pwt"));
    assert!(fresh(&bench, &mut [0; 132]).is_done());
    let mut count = 0;
    sweep::each_length(&bench, 8, |_| count += 1);
    assert_eq!(count, 149);
    count = 0;
    sweep::each_byte(&bench, |changed| {
        let different = changed.iter().zip(&bench).filter(|(a, b)| a != b);
        assert_eq!(different.count(), 1);
        count += 1;
    });
    assert_eq!(count, 140 * 255);
    count = 0;
    sweep::each_bit(&bench, |_| count += 1);
    assert_eq!(count, 140 * 8);
    count = 0;
    // Of 18 values a byte, all but its own.
    sweep::each_wild_byte(&[0, 7, 255], |_| count += 1);
    assert_eq!(count, 17 + 18 + 17);
    let mut lengths = Vec::new();
    sweep::each_wide_length(&[1, 2], |bytes| lengths.push(bytes.len()));
    assert_eq!(lengths, [258, 65_538]);
    lengths.clear();
    sweep::each_record_limit(&[0; 8], 4, |bytes| lengths.push(bytes.len()));
    assert_eq!(lengths, [0, 1, 3, 4, 5, 7, 8, 9, 11, 12, 13, 15, 16, 17]);
    count = 0;
    sweep::each_request(|_| count += 1);
    assert_eq!(count, 16 * 16 * 16 * 16);
}

#[test]
fn sweeps_of_bring_up_have_their_sizes() {
    let mut count = 0;
    sweep::bring_up::each_reported(Version::Two, |_, _| count += 1);
    // Per shape of masks, with 130 entries; then the bench station.
    let per_shape = 3 * 130 * 16 + 3 * 130 * 16 + 125 * 32;
    assert_eq!(count, 21 * per_shape + 125 * 6 * 8);
    count = 0;
    sweep::bring_up::each_on_and_needed(Version::Two, &[1, 2, 1], |_, _| count += 1);
    assert_eq!(count, 8 * 8);
    count = 0;
    sweep::bring_up::each_short_list(|_| count += 1);
    assert_eq!(count, 1 + 8 + 64 + 512 + 4096);
    let mut sequences = Vec::new();
    let list: Vec<u8> = (0..4).flat_map(|r| [1, r, 0, 0]).collect();
    sweep::bring_up::each_sequence(&list, |list| sequences.push(list.to_vec()));
    sequences.sort_unstable();
    sequences.dedup();
    assert_eq!(sequences.len(), 24);
}

/// The answers of a sweep.
fn counts_of(sweep: impl FnOnce(&mut dyn FnMut(Answer))) -> Counts {
    let mut counts = Counts::default();
    sweep(&mut |answer| counts.add(answer));
    counts
}

#[test]
fn sweeps_of_bring_up_reach_their_answers() {
    let answer = |table: &[u8], state: &[u8]| {
        let buffer = &mut [0; PLAN_BYTES];
        bring_up(table, &mut state.to_vec(), buffer)
    };
    for version in Version::ALL {
        let counts = counts_of(|add| {
            sweep::bring_up::each_reported(version, |table, state| add(answer(table, state)));
        });
        counts.must_be("bring-up", &[0, 8], 10_000);
        let counts = counts_of(|add| {
            sweep::bring_up::each_fault(version, |table, state, d| {
                let answer = answer(table, state);
                assert_eq!(answer, Answer::refused(8, d as u64));
                add(answer);
            });
        });
        counts.must_reach("bring-up", &[8], 0..version.limit());
    }
}

#[test]
fn sweeps_of_sleep_entry_have_their_sizes() {
    let mut count = 0;
    // Sleep state, shape of masks, `_SxD`, what cannot be on, state, and arming.
    sweep::sleep::each_device(Version::Two, |_, _, _| count += 1);
    assert_eq!(count, 4 * 21 * 5 * 16 * 5 * 7);
    count = 0;
    // Of each device 16 sets of states with D3cold, and 8 without.
    sweep::sleep::each_three_devices(Version::Two, |_, _, _| count += 1);
    assert_eq!(count, 6 * 24 * 24 * 24);
    count = 0;
    sweep::sleep::each_on_the_bench(Version::Two, |_, _, _| count += 1);
    assert_eq!(count, 125 * 6 * 8 * 6);
    count = 0;
    sweep::sleep::each_armed_for_another(Version::Two, |_, _, _, _| count += 1);
    assert_eq!(count, 3 * 3 * 64 * 2);
}

#[test]
fn sweeps_of_sleep_entry_reach_their_answers() {
    let answer = |table: &[u8], state: &[u8], x| {
        let buffer = &mut [0; SLEEP_PLAN_BYTES];
        plan(table, &mut state.to_vec(), Request::sleep(x), buffer)
    };
    for version in Version::ALL {
        let counts = counts_of(|add| {
            sweep::sleep::each_device(version, |table, state, x| add(answer(table, state, x)));
        });
        counts.must_be("one device", &[0, 8, 20, 21], 1000);
        let counts = counts_of(|add| {
            sweep::sleep::each_three_devices(version, |table, state, x| {
                add(answer(table, state, x));
            });
        });
        counts.must_be("three devices", &[0, 21], 1000);
        let counts = counts_of(|add| {
            sweep::sleep::each_on_the_bench(version, |table, state, x| {
                add(answer(table, state, x));
            });
        });
        counts.must_be("the bench station", &[0, 8, 10, 20], 50);
        let counts = counts_of(|add| {
            sweep::sleep::each_armed_for_another(version, |table, state, x, d| {
                let answer = answer(table, state, x);
                assert_eq!(answer, Answer::refused(20, d as u64));
                add(answer);
            });
        });
        counts.must_reach("sleep entry", &[20], 0..version.limit());
    }
}

#[test]
fn sweeps_reach_their_answers() {
    let answer = |table: &[u8], state: &[u8], request| {
        let buffer = &mut [0; PLAN_BYTES];
        plan(table, &mut state.to_vec(), request, buffer)
    };
    for version in Version::ALL {
        let counts = counts_of(|add| {
            sweep::each_move(version, |table, state, request| {
                add(answer(table, state, request));
            });
        });
        counts.must_be("moves", &[0, 8, 11, 12, 13, 14], 100);
        let counts = counts_of(|add| {
            sweep::each_arming(version, |table, state, request| {
                add(answer(table, state, request));
            });
        });
        counts.must_be("armings", &[0, 5, 8, 16, 17, 18], 100);
        let counts = counts_of(|add| {
            sweep::each_relative(version, |table, state, request| {
                add(answer(table, state, request));
            });
        });
        counts.must_be("relatives", &[13, 14], 10);
        counts.must_reach("relatives", &[13], 0..version.limit() - 1);
        counts.must_reach("relatives", &[14], 1..version.limit());
    }
}

#[test]
fn changed_lists_conform_only_within_equal_orders() {
    // Of 24 resources to switch off, eight pairs have equal orders; of 56, eight times
    // three and eight times four, which make three and six pairs.
    for (version, calls, pairs, words) in [
        (Version::One, 25, 8, 66 + 12),
        (Version::Two, 57, 8 * 3 + 8 * 6, 130 + 12),
    ] {
        let is_full = |w: &Workload| w.name.ends_with(&format!("full, {calls} calls to D3cold"));
        let full = workloads()
            .into_iter()
            .find(is_full)
            .expect("measured")
            .case;
        let (mut passed, mut refused) = (0, 0);
        sweep::each_list(version, &full.list, |list| {
            match check(&full.table, &full.state, full.request, list).number {
                0 => passed += 1,
                number => {
                    assert_eq!(number, 19);
                    refused += 1;
                }
            }
        });
        assert_eq!(full.list.len(), 4 * calls);
        let exchanges = calls * (calls - 1) / 2;
        let all = exchanges + 3 * calls + calls - 1 + (calls + 1) * words;
        assert_eq!((passed, refused), (pairs, all - pairs));
    }
}

#[test]
fn workloads_get_their_answers() {
    let mut numbers: [Vec<u8>; 6] = Default::default();
    for workload in workloads() {
        let answers = Answers::of(&workload.case);
        let pairs = [
            (workload.planner, answers.planner),
            (workload.checker, answers.checker),
            (workload.writer, answers.writer),
            (workload.describer, answers.describer),
            (workload.bring_up, answers.bring_up),
            (workload.bring_up_checker, answers.bring_up_checker),
        ];
        for ((expected, answer), numbers) in pairs.into_iter().zip(&mut numbers) {
            let same = expected.is_none_or(|number| number == answer.number);
            assert!(same, "{}", workload.name);
            numbers.extend(expected);
        }
    }
    // Accepted, and refused at each stage: table, state, consistency, room, request, list;
    // and sleep entry by a wake pair and by its choice.
    let [planner, checker, writer, describer, bring_up, bring_up_checker] = numbers;
    assert!([0, 1, 5, 7, 8, 9, 10, 20, 21]
        .iter()
        .all(|n| planner.contains(n)));
    assert!([0, 1, 5, 7, 8, 10, 19].iter().all(|n| checker.contains(n)));
    assert_eq!(writer, [0, 0, 5, 0]);
    assert_eq!(describer, [0, 0, 9, 0]);
    assert_eq!(bring_up, [0, 0, 0, 8, 9, 0, 0, 0]);
    assert_eq!(bring_up_checker, [0, 0, 0, 8, 19, 0, 0, 0]);
}

/// The counts of calls in the inputs that are measured with some function.
fn measured_counts(count: impl Fn(&Workload) -> Option<u16>) -> Vec<u16> {
    workloads().iter().filter_map(count).collect()
}

#[test]
fn measured_plans_have_their_calls() {
    let is_sleep = |workload: &Workload| workload.case.request.kind == SLEEP;
    let planned = |workload: &Workload| Answers::of(&workload.case).planner.count;
    let accepted = |workload: &Workload| workload.planner == Some(0) && !is_sleep(workload);
    let calls = measured_counts(|workload| accepted(workload).then(|| planned(workload)));
    assert_eq!(calls, [3, 3, 25, 25, 1, 57, 57, 5]);
    // All of 32 moves have an own call, 31 an _ON and 31 an _OFF; and of 64, 63.
    let calls = measured_counts(|workload| is_sleep(workload).then(|| planned(workload)));
    assert_eq!(calls, [2, 94, 0, 0, 0, 190, 0, 51]);
    let brought_up = |workload: &Workload| Answers::of(&workload.case).bring_up.count;
    let calls = measured_counts(|w| (w.bring_up == Some(0)).then(|| brought_up(w)));
    assert_eq!(calls, [3, 32, 32, 64, 64, 44]);
}
