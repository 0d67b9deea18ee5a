//! The bench station: W1 to W12 with every step and end state (RULES.md 10.3),
//! and the other cases that are run (RULES.md 10.4).

mod common;

use common::{bench, state, table, Desk, Record, D0, D1, D2, D3COLD, D3HOT, PLAN_BYTES};
use reference::{check, check_table, effect, execution, fresh, plan, plan_words, Answer, Request};

const BUS: u32 = 0;
const CAMERA: u32 = 1;
const LAMP: u32 = 2;

/// An entry that is not armed.
const fn at(state: u8) -> [u8; 4] {
    [state, 0, 0, 0]
}

fn w1() -> Desk {
    let mut desk = Desk::bench();
    desk.accepts(
        Request::move_to(CAMERA, D2),
        &[[3, 1, 2, 0]],
        &[at(0), at(2), at(0)],
        0b111,
    );
    desk
}

fn w2() -> Desk {
    let mut desk = w1();
    desk.accepts(
        Request::move_to(LAMP, D3COLD),
        &[[2, 1, 0, 0]],
        &[at(0), at(2), at(4)],
        0b101,
    );
    desk
}

fn w4() -> Desk {
    let mut desk = Desk::bench();
    desk.accepts(
        Request::move_to(LAMP, D3COLD),
        &[],
        &[at(0), at(0), at(4)],
        0b111,
    );
    desk.accepts(
        Request::move_to(CAMERA, D3HOT),
        &[[3, 1, 3, 0], [2, 1, 0, 0], [2, 2, 0, 0]],
        &[at(0), at(3), at(4)],
        0b001,
    );
    desk
}

fn w9() -> Desk {
    let mut desk = Desk::bench();
    desk.accepts(
        Request::arm(CAMERA, 3, D2),
        &[[4, 1, 3, 0x82]],
        &[at(0), [0, 1, 3, 2], at(0)],
        0b111,
    );
    desk
}

#[test]
fn the_bench_station_has_140_bytes() {
    assert_eq!(bench().len(), 140);
    assert_eq!(check_table(&bench()), Answer::done(0));
    assert_eq!(check_table(&bench()[..139]), Answer::refused(3, 0));
    let longer = [bench(), vec![0]].concat();
    assert_eq!(check_table(&longer), Answer::refused(3, 0));
}

#[test]
fn fresh_is_all_in_d0_and_all_on() {
    assert_eq!(Desk::bench().state, state(&[], 0b111));
}

#[test]
fn w1_camera_to_d2_keeps_the_lamps_supply() {
    w1();
}

#[test]
fn w2_then_lamp_to_d3cold() {
    w2();
}

#[test]
fn w3_then_camera_to_d0() {
    w2().accepts(
        Request::move_to(CAMERA, D0),
        &[[1, 1, 0, 0], [3, 1, 0, 0]],
        &[at(0), at(0), at(4)],
        0b111,
    );
}

#[test]
fn w4_lamp_to_d3cold_then_camera_to_d3hot() {
    w4();
}

#[test]
fn w5_then_camera_to_d0_by_order_and_not_by_number() {
    w4().accepts(
        Request::move_to(CAMERA, D0),
        &[[1, 2, 0, 0], [1, 1, 0, 0], [3, 1, 0, 0]],
        &[at(0), at(0), at(4)],
        0b111,
    );
}

#[test]
fn w6_bus_waits_for_its_children() {
    w2().refuses(Request::move_to(BUS, D3HOT), 14, 1);
}

#[test]
fn w7_camera_gets_shallower_only_to_d0() {
    w4().refuses(Request::move_to(CAMERA, D2), 12, 0);
}

#[test]
fn w8_camera_has_no_d1() {
    Desk::bench().refuses(Request::move_to(CAMERA, D1), 11, 0);
}

#[test]
fn w9_arm_camera() {
    w9();
}

#[test]
fn w10_armed_camera_stays_at_its_wake_state() {
    w9().refuses(Request::move_to(CAMERA, D3HOT), 15, 0);
}

#[test]
fn w11_s4_is_deeper_than_prw_allows() {
    Desk::bench().refuses(Request::arm(CAMERA, 4, D2), 16, 0);
}

#[test]
fn w12_s2_has_an_empty_range() {
    Desk::bench().refuses(Request::arm(CAMERA, 2, D2), 18, 0);
}

#[test]
fn the_execution_follows_w4() {
    let mut desk = Desk::bench();
    desk.accepts(
        Request::move_to(LAMP, D3COLD),
        &[],
        &[at(0), at(0), at(4)],
        0b111,
    );
    let request = Request::move_to(CAMERA, D3HOT);
    let words = [0x0003_0103, 0x0000_0102, 0x0000_0202];
    let sets: Vec<u64> = execution(0b111, words).collect();
    assert_eq!(sets, [0b111, 0b101, 0b001]);
    let effect = effect(&desk.table, &desk.state, request).unwrap();
    assert_eq!((effect.needed_before, effect.needed_after), (0b111, 0b001));
    assert_eq!(effect.device_needs_before, 0b111);
    assert_eq!(effect.device_needs_after, 0b001);
    assert_eq!(effect.own_call_needs, 0b111);
}

#[test]
fn w4_with_the_two_turn_off_calls_exchanged_does_not_conform() {
    let mut desk = Desk::bench();
    desk.accepts(
        Request::move_to(LAMP, D3COLD),
        &[],
        &[at(0), at(0), at(4)],
        0b111,
    );
    let request = Request::move_to(CAMERA, D3HOT);
    let good = [[3, 1, 3, 0], [2, 1, 0, 0], [2, 2, 0, 0]];
    let exchanged = [[3, 1, 3, 0], [2, 2, 0, 0], [2, 1, 0, 0]];
    assert_eq!(desk.check(request, good.as_flattened()), Answer::done(0));
    assert_eq!(
        desk.check(request, exchanged.as_flattened()),
        Answer::refused(19, 0)
    );
}

#[test]
fn thirty_two_devices_are_good_and_thirty_three_are_not() {
    assert_eq!(
        check_table(&table(&[], &[Record::default(); 32])),
        Answer::done(0)
    );
    assert_eq!(
        check_table(&table(&[], &[Record::default(); 33])),
        Answer::refused(2, 0)
    );
    assert_eq!(check_table(&table(&[(4, 0); 32], &[])), Answer::done(0));
    assert_eq!(
        check_table(&table(&[(4, 0); 33], &[])),
        Answer::refused(2, 0)
    );
}

#[test]
fn an_8_byte_table_is_good() {
    let empty = table(&[], &[]);
    assert_eq!(empty.len(), 8);
    let mut desk = Desk::fresh(empty);
    assert_eq!(desk.state, [0; 132]);
    desk.refuses(Request::disarm(0), 10, 0);
}

#[test]
fn a_plan_has_room_from_33_words() {
    let request = Request::move_to(CAMERA, D2);
    let desk = Desk::bench();
    for room in 0..=34 {
        let mut state = desk.state.clone();
        let answer = plan_words(&desk.table, &mut state, request, &mut vec![0; room]);
        let expected = if room < 33 {
            Answer::refused(9, 0)
        } else {
            Answer::done(1)
        };
        assert_eq!(answer, expected);
        assert_eq!(state == desk.state, room < 33);
    }
    for room in 0..=PLAN_BYTES + 4 {
        let mut state = desk.state.clone();
        let answer = plan(&desk.table, &mut state, request, &mut vec![0; room]);
        assert_eq!(answer.number, if room < PLAN_BYTES { 9 } else { 0 });
    }
}

#[test]
fn disarming_when_not_armed_has_no_calls() {
    Desk::bench().accepts(Request::disarm(CAMERA), &[], &[], 0b111);
}

#[test]
fn disarming_after_w9_gives_dsw_off() {
    w9().accepts(Request::disarm(CAMERA), &[[4, 1, 0, 0]], &[], 0b111);
}

#[test]
fn fresh_looks_at_the_table_first_and_then_at_the_buffer() {
    for room in [0, 131, 133] {
        let mut buffer = vec![0x5a; room];
        assert_eq!(fresh(&bench(), &mut buffer), Answer::refused(7, 0));
        assert_eq!(fresh(&bench()[..139], &mut buffer), Answer::refused(3, 0));
        assert_eq!(buffer, vec![0x5a; room]);
    }
}

#[test]
fn the_checker_reads_lists_of_any_length() {
    let desk = Desk::bench();
    let request = Request::move_to(CAMERA, D2);
    let own_call = [3, 1, 2, 0];
    for calls in 0..100 {
        let list = own_call.repeat(calls);
        let expected = if calls == 1 { 0 } else { 19 };
        assert_eq!(
            check(&desk.table, &desk.state, request, &list).number,
            expected
        );
    }
}
