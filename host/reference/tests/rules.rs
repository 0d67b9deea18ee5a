//! Rules that the bench station does not reach.

mod common;

use common::{state, table, Desk, Record, D0, D2, D3COLD, D3HOT, PLAN_WORDS};
use reference::{check, demand3, effect, wake_range, Answer, Execution, Request, State, Table};

/// A device that wakes from S1 with these values, and has all five states.
fn waker(s1d: u8, s1w: u8) -> Desk {
    let device = Record {
        ps: 0x0f,
        pr: 0x0f,
        flags: 1,
        sxd: [s1d, 255, 255, 255],
        sxw: [255, s1w, 255, 255, 255],
        deepest: 1,
        ..Record::default()
    };
    Desk::fresh(table(&[], &[device]))
}

/// The device states that may be armed for S1.
fn armed_states(s1d: u8, s1w: u8) -> Vec<u32> {
    let desk = waker(s1d, s1w);
    let good = |d: &u32| {
        let answer = desk.check(Request::arm(0, 1, *d), &[]);
        assert!(answer == Answer::done(0) || answer == Answer::refused(18, 0));
        answer == Answer::done(0)
    };
    (0..5).filter(good).collect()
}

#[test]
fn the_wake_range_has_four_cases() {
    assert_eq!(armed_states(1, 3), [1, 2, 3]);
    assert_eq!(armed_states(2, 255), [2]);
    assert_eq!(armed_states(255, 2), [0, 1, 2]);
    assert_eq!(armed_states(255, 255), [0; 0]);
    assert_eq!(armed_states(0, 4), [0, 1, 2, 3, 4]);
    assert_eq!(armed_states(3, 3), [3]);
    assert_eq!(wake_range(Some(1), Some(3)), Some((1, 3)));
    assert_eq!(wake_range(Some(2), None), Some((2, 2)));
    assert_eq!(wake_range(None, Some(2)), Some((0, 2)));
    assert_eq!(wake_range(None, None), None);
}

#[test]
fn s0_has_only_s0w() {
    let device = Record {
        pr: 9,
        flags: 1,
        sxd: [3; 4],
        sxw: [3, 255, 255, 255, 255],
        ..Record::default()
    };
    let desk = Desk::fresh(table(&[], &[device]));
    for (d, number) in [(0, 0), (1, 18), (2, 18), (3, 0), (4, 18)] {
        assert_eq!(desk.check(Request::arm(0, 0, d), &[]).number, number);
    }
}

#[test]
fn masks_say_which_states_are_supported() {
    let supported = |ps, pr| {
        let device = Record {
            ps,
            pr,
            ..Record::default()
        };
        let desk = Desk::fresh(table(&[], &[device]));
        // The list is that of no call, so only 11 tells of the state.
        let has = |state: &u32| desk.check(Request::move_to(0, *state), &[]).number != 11;
        (0..5).filter(has).collect::<Vec<u32>>()
    };
    assert_eq!(supported(0b0000, 0b0000), [0, 3]);
    assert_eq!(supported(0b1001, 0b0000), [0, 3]);
    assert_eq!(supported(0b1011, 0b0000), [0, 1, 3]);
    assert_eq!(supported(0b1101, 0b0000), [0, 2, 3]);
    assert_eq!(supported(0b0000, 0b0001), [0, 3]);
    assert_eq!(supported(0b0000, 0b0011), [0, 1, 3]);
    assert_eq!(supported(0b0000, 0b0101), [0, 2, 3]);
    assert_eq!(supported(0b0000, 0b1001), [0, 3, 4]);
    assert_eq!(supported(0b1111, 0b0111), [0, 1, 2, 3]);
    assert_eq!(supported(0b1111, 0b1111), [0, 1, 2, 3, 4]);
}

#[test]
fn d3hot_without_pr3_falls_back_on_the_next_shallower_set() {
    let needs = |pr, sets| {
        let device = Record {
            pr,
            sets,
            ..Record::default()
        };
        let bytes = table(&[(4, 0); 8], &[device]);
        let bytes_of_state = state(&[[3, 0, 0, 0]], 0xff);
        let table = Table::read(&bytes).unwrap();
        let state = State::read(&table, &bytes_of_state).unwrap();
        state.needed(&table)
    };
    assert_eq!(needs(0b1111, [0x01, 0x02, 0x04, 0x08, 0]), 0x08);
    assert_eq!(needs(0b0111, [0x01, 0x02, 0x04, 0, 0]), 0x04);
    assert_eq!(needs(0b0011, [0x01, 0x02, 0, 0, 0]), 0x02);
    assert_eq!(needs(0b0101, [0x01, 0, 0x04, 0, 0]), 0x04);
    assert_eq!(needs(0b0001, [0x01, 0, 0, 0, 0]), 0x01);
    assert_eq!(needs(0b0000, [0; 5]), 0);
    // An empty set that is present counts.
    assert_eq!(needs(0b1001, [0x01, 0, 0, 0, 0]), 0);
    assert_eq!(needs(0b0111, [0x01, 0x02, 0, 0, 0]), 0);
}

#[test]
fn an_armed_device_needs_its_prw_set_in_d3cold_too() {
    let device = Record {
        ps: 9,
        pr: 9,
        flags: 3,
        sets: [0b001, 0, 0, 0b010, 0b100],
        sxw: [255, 255, 255, 4, 255],
        deepest: 3,
        ..Record::default()
    };
    let mut desk = Desk::fresh(table(&[(4, 0); 3], &[device]));
    // Not armed, the _PRW set is not counted.
    desk.accepts(
        Request::move_to(0, D0),
        &[[2, 2, 0, 0], [2, 1, 0, 0]],
        &[],
        0b001,
    );
    desk.accepts(
        Request::arm(0, 3, D3COLD),
        &[[1, 2, 0, 0], [4, 0, 3, 0x84]],
        &[[0, 1, 3, 4]],
        0b101,
    );
    desk.accepts(
        Request::move_to(0, D3COLD),
        &[[3, 0, 3, 0], [2, 0, 0, 0]],
        &[[4, 1, 3, 4]],
        0b100,
    );
    desk.accepts(
        Request::disarm(0),
        &[[4, 0, 0, 0], [2, 2, 0, 0]],
        &[[4, 0, 0, 0]],
        0,
    );
}

#[test]
fn arming_again_overwrites_the_pair_and_gives_dsw_again() {
    let device = Record {
        flags: 3,
        sxw: [3, 3, 3, 255, 255],
        deepest: 2,
        ..Record::default()
    };
    let mut desk = Desk::fresh(table(&[], &[device]));
    desk.accepts(
        Request::arm(0, 2, D3HOT),
        &[[4, 0, 2, 0x83]],
        &[[0, 1, 2, 3]],
        0,
    );
    desk.accepts(
        Request::arm(0, 2, D3HOT),
        &[[4, 0, 2, 0x83]],
        &[[0, 1, 2, 3]],
        0,
    );
    desk.accepts(
        Request::arm(0, 0, D0),
        &[[4, 0, 0, 0x80]],
        &[[0, 1, 0, 0]],
        0,
    );
}

#[test]
fn without_dsw_arming_and_disarming_have_no_own_call() {
    let device = Record {
        flags: 1,
        sets: [0, 0, 0, 0, 1],
        sxw: [3, 255, 255, 255, 255],
        ..Record::default()
    };
    let mut desk = Desk::fresh(table(&[(0, 0)], &[device]));
    desk.accepts(Request::disarm(0), &[[2, 0, 0, 0]], &[], 0);
    desk.accepts(
        Request::arm(0, 0, D3HOT),
        &[[1, 0, 0, 0]],
        &[[0, 1, 0, 3]],
        1,
    );
    desk.accepts(Request::disarm(0), &[[2, 0, 0, 0]], &[], 0);
}

#[test]
fn ps3_serves_d3cold_but_not_from_d3hot() {
    let device = Record {
        ps: 9,
        pr: 9,
        sets: [1, 0, 0, 1, 0],
        ..Record::default()
    };
    let desk = Desk::fresh(table(&[(4, 0)], &[device]));
    desk.clone().accepts(
        Request::move_to(0, D3COLD),
        &[[3, 0, 3, 0], [2, 0, 0, 0]],
        &[[4, 0, 0, 0]],
        0,
    );
    let mut desk = desk;
    desk.accepts(
        Request::move_to(0, D3HOT),
        &[[3, 0, 3, 0]],
        &[[3, 0, 0, 0]],
        1,
    );
    desk.accepts(
        Request::move_to(0, D3COLD),
        &[[2, 0, 0, 0]],
        &[[4, 0, 0, 0]],
        0,
    );
    desk.accepts(
        Request::move_to(0, D0),
        &[[1, 0, 0, 0], [3, 0, 0, 0]],
        &[],
        1,
    );
}

#[test]
fn a_move_to_the_present_state_only_switches_resources_off() {
    let device = Record {
        ps: 9,
        pr: 9,
        sets: [1, 0, 0, 0, 0],
        ..Record::default()
    };
    let mut desk = Desk::fresh(table(&[(4, 0); 2], &[device]));
    desk.accepts(Request::move_to(0, D0), &[[2, 1, 0, 0]], &[], 1);
    desk.accepts(Request::move_to(0, D0), &[], &[], 1);
    desk.state = state(&[[3, 0, 0, 0]], 0b11);
    desk.accepts(
        Request::move_to(0, D3HOT),
        &[[2, 1, 0, 0], [2, 0, 0, 0]],
        &[[3, 0, 0, 0]],
        0,
    );
}

/// A device that needs 32 resources in D0 and none in D3cold, all of one order.
fn wide() -> Desk {
    let device = Record {
        ps: 9,
        pr: 9,
        sets: [0xffff_ffff, 0, 0, 0, 0],
        ..Record::default()
    };
    Desk::fresh(table(&[(4, 7); 32], &[device]))
}

#[test]
fn equal_orders_rise_by_number_for_turn_on_calls_and_fall_for_turn_off_calls() {
    let mut desk = wide();
    let turn_off: Vec<[u8; 4]> = (0..32).rev().map(|r| [2, r, 0, 0]).collect();
    let turn_on: Vec<[u8; 4]> = (0..32).map(|r| [1, r, 0, 0]).collect();
    let deeper = [vec![[3, 0, 3, 0]], turn_off].concat();
    assert_eq!(deeper.len(), PLAN_WORDS);
    desk.accepts(Request::move_to(0, D3COLD), &deeper, &[[4, 0, 0, 0]], 0);
    let shallower = [turn_on, vec![[3, 0, 0, 0]]].concat();
    desk.accepts(Request::move_to(0, D0), &shallower, &[], 0xffff_ffff);
}

#[test]
fn equal_orders_may_come_in_any_sequence() {
    let desk = wide();
    let request = Request::move_to(0, D3COLD);
    let mut words: Vec<[u8; 4]> = (0..32).map(|r| [2, (r * 7 + 3) % 32, 0, 0]).collect();
    words.insert(0, [3, 0, 3, 0]);
    let answer = desk.check(request, words.as_flattened());
    assert_eq!(answer, Answer::done(0));
    words.swap(0, 1);
    let answer = desk.check(request, words.as_flattened());
    assert_eq!(answer, Answer::refused(19, 0));
}

#[test]
fn orders_are_16_bit_numbers() {
    let device = Record {
        pr: 9,
        sets: [0b1111, 0, 0, 0, 0],
        ..Record::default()
    };
    let orders = [(4, 0x0100), (4, 0x00ff), (4, 0xffff), (4, 0x0000)];
    let mut desk = Desk::fresh(table(&orders, &[device]));
    desk.accepts(
        Request::move_to(0, D3COLD),
        &[[2, 2, 0, 0], [2, 0, 0, 0], [2, 1, 0, 0], [2, 3, 0, 0]],
        &[[4, 0, 0, 0]],
        0,
    );
    desk.accepts(
        Request::move_to(0, D0),
        &[[1, 3, 0, 0], [1, 1, 0, 0], [1, 0, 0, 0], [1, 2, 0, 0]],
        &[],
        0b1111,
    );
}

#[test]
fn turn_on_calls_come_before_turn_off_calls() {
    let device = Record {
        ps: 0x0d,
        pr: 0x0d,
        sets: [0b0011, 0, 0b0110, 0b1000, 0],
        ..Record::default()
    };
    let mut desk = Desk::fresh(table(&[(4, 9), (4, 8), (4, 7), (4, 6)], &[device]));
    desk.accepts(
        Request::move_to(0, D0),
        &[[2, 2, 0, 0], [2, 3, 0, 0]],
        &[],
        0b0011,
    );
    desk.accepts(
        Request::move_to(0, D2),
        &[[3, 0, 2, 0], [1, 2, 0, 0], [2, 0, 0, 0]],
        &[[2, 0, 0, 0]],
        0b0110,
    );
    desk.accepts(
        Request::move_to(0, D0),
        &[[1, 0, 0, 0], [2, 2, 0, 0], [3, 0, 0, 0]],
        &[],
        0b0011,
    );
}

#[test]
fn own_call_needs_are_those_before_or_after() {
    let device = Record {
        ps: 9,
        pr: 9,
        flags: 3,
        sets: [0b001, 0, 0, 0b010, 0b100],
        sxw: [3, 255, 255, 255, 255],
        ..Record::default()
    };
    let bytes = table(&[(4, 0); 3], &[device]);
    let needs = |entry, request| {
        effect(&bytes, &state(&[entry], 7), request)
            .unwrap()
            .own_call_needs
    };
    assert_eq!(needs([0, 0, 0, 0], Request::move_to(0, D3HOT)), 0b001);
    assert_eq!(needs([3, 0, 0, 0], Request::move_to(0, D0)), 0b001);
    assert_eq!(needs([3, 0, 0, 0], Request::arm(0, 0, D3HOT)), 0b110);
    assert_eq!(needs([3, 1, 0, 3], Request::disarm(0)), 0b110);
}

#[test]
fn the_execution_keeps_a_set_and_nothing_else() {
    let mut execution = Execution::new(0b10);
    for (bytes, on) in [
        ([1, 0, 0, 0], &[0, 1][..]),
        ([1, 0, 0, 0], &[0, 1]),
        ([2, 1, 0, 0], &[0]),
        ([2, 1, 0, 0], &[0]),
        ([3, 0, 3, 0], &[0]),
        ([4, 0, 3, 0x82], &[0]),
        ([4, 0, 0, 0], &[0]),
        ([1, 1, 1, 0], &[0]),
        ([0, 0, 0, 0], &[0]),
        ([1, 31, 0, 0], &[0, 31]),
        ([1, 63, 0, 0], &[0, 31, 63]),
        ([1, 64, 0, 0], &[0, 31, 63, 64]),
        ([2, 0, 0, 0], &[31, 63, 64]),
        ([1, 255, 0, 0], &[31, 63, 64, 255]),
        ([2, 64, 0, 0], &[31, 63, 255]),
        ([2, 63, 0, 0], &[31, 255]),
        ([2, 255, 0, 0], &[31]),
    ] {
        execution.carry_out(u32::from_le_bytes(bytes));
        let found: Vec<u8> = (0..=255).filter(|&r| execution.is_on(r)).collect();
        assert_eq!(found, on, "{bytes:?}");
        let of_a_table = on.iter().filter(|&&r| r < 64).map(|r| 1 << r).sum::<u64>();
        assert_eq!(execution.on(), of_a_table, "{bytes:?}");
    }
}

#[test]
fn any_byte_is_a_resource_of_the_execution() {
    for r in 0..=255 {
        let mut execution = Execution::new(0);
        execution.carry_out(u32::from_le_bytes([1, r, 0, 0]));
        assert!((0..=255).all(|other| execution.is_on(other) == (other == r)));
        execution.carry_out(u32::from_le_bytes([2, r, 0, 0]));
        assert_eq!(execution, Execution::new(0));
    }
}

#[test]
fn demand3_names_the_point_that_fails() {
    // One device needs resource 0, the other moves from resource 1 to resource 2.
    let holder = Record {
        pr: 1,
        sets: [0b001, 0, 0, 0, 0],
        ..Record::default()
    };
    let mover = Record {
        ps: 9,
        pr: 9,
        sets: [0b010, 0, 0, 0b100, 0],
        ..Record::default()
    };
    let bytes = table(&[(4, 0); 3], &[holder, mover]);
    let state = state(&[], 0b011);
    let request = Request::move_to(1, D3HOT);
    let (own, on2, off0) = ([3, 1, 3, 0], [1, 2, 0, 0], [2, 0, 0, 0]);
    let off1 = [2, 1, 0, 0];
    let run = |calls: &[[u8; 4]]| demand3(&bytes, &state, request, calls.as_flattened());
    let fails = |calls: &[[u8; 4]], text: &str| {
        let found = run(calls).unwrap_err();
        assert!(found.contains(text), "{found}");
        assert_eq!(
            check(&bytes, &state, request, calls.as_flattened()).number,
            19
        );
    };
    assert_eq!(run(&[own, on2, off1]), Ok(()));
    fails(&[own, off0, on2, off1], "after 2 calls 0x1 is off");
    fails(&[off1, own, on2], "call 2 is the device's own");
    fails(&[own, on2], "at the end 0x7 is on");
    fails(&[on2, off1], "made 0 times");
    fails(&[own, own, on2, off1], "made 2 times");
    for r in [5, 32, 64, 255] {
        let text = format!("after 2 calls r{r} is on, neither on at the start nor needed");
        fails(&[own, [1, r, 0, 0], on2, off1], &text);
    }
    fails(
        &[own, on2, off1, [1, 200, 0, 0]],
        "after 4 calls r200 is on",
    );
    let odd = demand3(&bytes, &state, request, &[3]).unwrap_err();
    assert!(odd.contains("ends within a call"));
    let refused = demand3(&bytes, &state, Request::move_to(9, D0), &[]).unwrap_err();
    assert!(refused.contains("refused with 10"));
}
