//! One test for each answer number, with its place.

mod common;

use common::{bench, state, table, Desk, Record, D0, D1, D2, D3COLD, D3HOT, PLAN_BYTES};
use reference::{
    bring_up, check, check_bring_up, check_table, describe, fresh, plan, record, Answer, Request,
};

const CAMERA: u32 = 1;
const LAMP: u32 = 2;

/// Where the record of a bench device begins.
const fn device(d: usize) -> usize {
    20 + 40 * d
}

/// The bench table with one byte changed.
fn changed(index: usize, byte: u8) -> Vec<u8> {
    let mut table = bench();
    assert_ne!(table[index], byte);
    table[index] = byte;
    table
}

/// Every function gives this refusal for the table.
fn refuses_table(table: &[u8], number: u8, place: u64) {
    let refusal = Answer::refused(number, place);
    assert_eq!(check_table(table), refusal);
    assert_eq!(fresh(table, &mut []), refusal);
    assert_eq!(plan(table, &mut [], Request::default(), &mut []), refusal);
    assert_eq!(check(table, &[], Request::default(), &[1]), refusal);
    assert_eq!(bring_up(table, &mut [], &mut []), refusal);
    assert_eq!(check_bring_up(table, &[], &[1]), refusal);
    assert_eq!(describe(table, &mut [], &mut []), refusal);
    assert!(record(table, 0).is_empty());
}

/// Planner and checker give this refusal for the state of the bench station.
fn refuses_state(state: &[u8], number: u8, place: u64) {
    let refusal = Answer::refused(number, place);
    let mut lent = state.to_vec();
    assert_eq!(
        plan(&bench(), &mut lent, Request::default(), &mut []),
        refusal
    );
    assert_eq!(lent, state);
    assert_eq!(check(&bench(), state, Request::default(), &[1]), refusal);
}

#[test]
fn answer_0_has_place_0_and_the_count() {
    let mut desk = Desk::bench();
    let mut buffer = [0; PLAN_BYTES];
    let request = Request::move_to(CAMERA, D2);
    let answer = plan(&desk.table, &mut desk.state, request, &mut buffer);
    assert_eq!((answer.number, answer.place, answer.count), (0, 0, 1));
    let list = [3, 1, 2, 0];
    assert_eq!(
        Desk::bench().check(request, &list),
        Answer {
            number: 0,
            place: 0,
            count: 0
        }
    );
}

#[test]
fn answer_1_is_the_header() {
    for length in 0..8 {
        refuses_table(&bench()[..length], 1, 0);
    }
    for (index, byte) in [(0, b'p'), (1, 0), (2, b'S'), (4, 0), (4, 3), (5, 1), (7, 1)] {
        refuses_table(&changed(index, byte), 1, 0);
    }
    // It comes before 2.
    let mut table = changed(3, 33);
    table[7] = 1;
    refuses_table(&table, 1, 0);
}

#[test]
fn answer_2_is_a_count_above_32() {
    for (index, byte) in [(3, 33), (3, 255), (6, 33), (6, 255)] {
        refuses_table(&changed(index, byte), 2, 0);
    }
}

#[test]
fn answer_3_is_the_length() {
    for length in (8..140).chain([141, 180]) {
        let mut table = bench();
        table.resize(length, 0);
        refuses_table(&table, 3, 0);
    }
    for (index, byte) in [(3, 2), (3, 32), (6, 2), (6, 4), (6, 32)] {
        refuses_table(&changed(index, byte), 3, 0);
    }
}

#[test]
fn answer_4_is_a_resource_record() {
    for r in 0..3 {
        refuses_table(&changed(8 + 4 * r, 5), 4, r as u64);
        refuses_table(&changed(8 + 4 * r + 1, 1), 4, r as u64);
    }
    // A later resource comes before an earlier device.
    let mut table = changed(8 + 4 * 2, 255);
    table[device(0)] = 0;
    refuses_table(&table, 4, 2);
}

#[test]
fn answer_5_is_a_device_field() {
    let camera = device(1);
    for (offset, byte) in [
        (0, 1),
        (0, 2),
        (0, 254),
        (1, 0x1d),
        (2, 0x8d),
        (3, 0x07),
        (3, 0x83),
        (4, 0x0f),  // a bit at R in _PR0
        (7, 0x80),  // bit 31 in _PR0
        (8, 0x01),  // _PR1 is absent
        (12, 0x08), // bits at R
        (16, 0x08),
        (20, 0x08),
        (24, 4),
        (25, 254),
        (26, 4),
        (28, 5),
        (32, 254),
        (31, 1), // _S3W is below _S3D
        (33, 5),
        (34, 1),
        (39, 255),
    ] {
        refuses_table(&changed(camera + offset, byte), 5, 1);
    }
    // A set, and a deepest sleep state, without _PRW.
    refuses_table(&changed(device(2) + 20, 1), 5, 2);
    refuses_table(&changed(device(2) + 33, 1), 5, 2);
    // The first device has no lower number to name.
    refuses_table(&changed(device(0), 0), 5, 0);
    // 5 comes before 6 in one record.
    let mut table = changed(camera + 1, 0x01);
    table[camera + 39] = 1;
    refuses_table(&table, 5, 1);
}

#[test]
fn answer_5_leaves_good_values() {
    let camera = device(1);
    for (offset, byte) in [
        (0, 255),
        (24, 0),
        (24, 3),
        (28, 0),
        (28, 4),
        (29, 0),
        (31, 2),
        (31, 255),
        (33, 0),
        (33, 4),
        (4, 0),
    ] {
        let answer = check_table(&changed(camera + offset, byte));
        assert_eq!(answer, Answer::done(0), "byte {offset} as {byte}");
    }
}

#[test]
fn answer_6_is_an_object_rule() {
    let one = |ps, pr, flags| {
        table(
            &[],
            &[
                Record::default(),
                Record {
                    ps,
                    pr,
                    flags,
                    ..Record::default()
                },
            ],
        )
    };
    for ps in 0..16u8 {
        for pr in 0..16u8 {
            for flags in 0..4u8 {
                let ps_rule = ps == 0 || ps & 9 == 9;
                let pr_rule = pr == 0 || pr & 1 == 1;
                let both_rule = ps == 0 || pr == 0 || ps & 7 == pr & 7;
                let wake_rule = flags != 2;
                let expected = if ps_rule && pr_rule && both_rule && wake_rule {
                    Answer::done(0)
                } else {
                    Answer::refused(6, 1)
                };
                assert_eq!(check_table(&one(ps, pr, flags)), expected);
            }
        }
    }
    // The lowest record decides: 6 of device 1 before 5 of device 2.
    let mut table = changed(device(1) + 1, 0x01);
    table[device(2) + 39] = 1;
    refuses_table(&table, 6, 1);
}

#[test]
fn answer_7_is_a_value_of_the_state() {
    let good = Desk::bench().state;
    for length in (0..132).chain(133..140) {
        let mut state = good.clone();
        state.resize(length, 0);
        refuses_state(&state, 7, 0);
    }
    for entry in [
        [5, 0, 0, 0],
        [255, 0, 0, 0],
        [0, 2, 0, 0],
        [0, 1, 5, 0],
        [0, 1, 0, 5],
        [0, 0, 1, 0],
        [0, 0, 0, 1],
    ] {
        refuses_state(&state(&[[0; 4], entry], 7), 7, 0);
    }
    // Each byte of the entries from D on, and resources at or above R.
    for index in 12..128 {
        let mut state = good.clone();
        state[index] = 1;
        refuses_state(&state, 7, 0);
    }
    refuses_state(&state(&[], 0b1111), 7, 0);
    refuses_state(&state(&[], 0x8000_0007), 7, 0);
    // 7 of a later device comes before 8 of an earlier one.
    refuses_state(&state(&[[1, 0, 0, 0], [5, 0, 0, 0]], 7), 7, 0);
}

#[test]
fn answer_8_is_a_state_that_is_not_consistent() {
    // D1 is not supported.
    refuses_state(&state(&[[1, 0, 0, 0]], 7), 8, 0);
    // The camera is shallower than the bus, and is the one that is not consistent.
    refuses_state(&state(&[[3, 0, 0, 0], [0; 4], [4, 0, 0, 0]], 7), 8, 1);
    // Needs that are off.
    refuses_state(&state(&[], 0b101), 8, 1);
    refuses_state(&state(&[[0; 4], [2, 0, 0, 0]], 0b101), 8, 2);
    // Wake pairs that are not legal: no _PRW, S too deep, an empty range, D not supported.
    refuses_state(&state(&[[0, 1, 0, 0]], 7), 8, 0);
    refuses_state(&state(&[[0; 4], [0, 1, 4, 2]], 7), 8, 1);
    refuses_state(&state(&[[0; 4], [0, 1, 2, 2]], 7), 8, 1);
    refuses_state(&state(&[[0; 4], [0, 1, 3, 1]], 7), 8, 1);
    // Deeper than wake D.
    refuses_state(&state(&[[0; 4], [3, 1, 3, 2]], 7), 8, 1);
    // Armed, and the _PRW resource is off.
    refuses_state(&state(&[[0; 4], [3, 1, 3, 3]], 0b011), 8, 1);
    // More may be on than is needed.
    let more = state(&[[4, 0, 0, 0], [4, 0, 0, 0], [4, 0, 0, 0]], 7);
    let answer = check(&bench(), &more, Request::default(), &[]);
    assert_eq!(answer, Answer::refused(10, 0));
}

#[test]
fn answer_8_for_a_prw_resource_below_its_sleep_state() {
    let device = Record {
        flags: 1,
        sets: [0, 0, 0, 0, 1],
        sxw: [255, 255, 3, 3, 255],
        deepest: 3,
        ..Record::default()
    };
    let table = table(&[(2, 0)], &[device]);
    let answer = |s| check(&table, &state(&[[0, 1, s, 3]], 1), Request::default(), &[]);
    assert_eq!(answer(2), Answer::refused(10, 0));
    assert_eq!(answer(3), Answer::refused(8, 0));
}

#[test]
fn answer_9_is_the_room_for_the_plan() {
    let Desk { table, mut state } = Desk::bench();
    let refusal = Answer::refused(9, 0);
    for room in [0, 1, 128, 131] {
        let mut buffer = vec![0; room];
        // It comes before 10.
        for request in [Request::default(), Request::move_to(CAMERA, D2)] {
            assert_eq!(plan(&table, &mut state, request, &mut buffer), refusal);
        }
    }
    assert_eq!(state, Desk::bench().state);
}

#[test]
fn answer_10_is_a_number_out_of_range() {
    let mut desk = Desk::bench();
    let numbers = |kind, device, a, b| Request { kind, device, a, b };
    for request in [
        numbers(0, 0, 0, 0),
        numbers(5, 0, 0, 0),
        numbers(257, 1, 2, 0),
        numbers(0x0001_0001, 1, 2, 0),
        numbers(u32::MAX, 0, 0, 0),
        numbers(1, 3, 0, 0),
        numbers(1, 257, 2, 0),
        numbers(1, 0x0001_0001, 2, 0),
        numbers(1, u32::MAX, 2, 0),
        numbers(1, 1, 5, 0),
        numbers(1, 1, 258, 0),
        numbers(1, 1, 2, 1),
        numbers(1, 1, 2, 256),
        numbers(2, 1, 5, 2),
        numbers(2, 1, 3, 5),
        numbers(2, 1, 259, 2),
        numbers(2, 1, 3, 258),
        numbers(2, 3, 3, 2),
        numbers(3, 1, 1, 0),
        numbers(3, 1, 0, 1),
        numbers(3, 3, 0, 0),
        numbers(3, 1, 1 << 31, 0),
    ] {
        desk.refuses(request, 10, 0);
    }
}

#[test]
fn answer_11_is_a_state_not_supported() {
    let mut desk = Desk::bench();
    desk.refuses(Request::move_to(0, D1), 11, 0);
    desk.refuses(Request::move_to(0, D2), 11, 0);
    desk.refuses(Request::move_to(LAMP, D2), 11, 0);
    // D3cold exists only with _PR3.
    let mut plain = Desk::fresh(table(&[], &[Record::default()]));
    plain.refuses(Request::move_to(0, D3COLD), 11, 0);
    plain.accepts(Request::move_to(0, D3HOT), &[], &[[3, 0, 0, 0]], 0);
}

#[test]
fn answer_12_is_a_shallower_target_other_than_d0() {
    let mut desk = Desk::bench();
    desk.state = state(&[[0; 4], [4, 0, 0, 0], [4, 0, 0, 0]], 7);
    desk.refuses(Request::move_to(CAMERA, D2), 12, 0);
    desk.refuses(Request::move_to(CAMERA, D3HOT), 12, 0);
    // 11 comes before 12.
    desk.refuses(Request::move_to(CAMERA, D1), 11, 0);
}

#[test]
fn answer_13_names_a_deeper_parent() {
    let mut desk = Desk::bench();
    desk.state = state(&[[3, 0, 0, 0], [4, 0, 0, 0], [4, 0, 0, 0]], 7);
    desk.refuses(Request::move_to(CAMERA, D0), 13, 0);
    // 12 comes before 13.
    desk.refuses(Request::move_to(CAMERA, D2), 12, 0);

    let link = |parent| Record {
        parent,
        ..Record::default()
    };
    let mut chain = Desk::fresh(table(&[], &[link(255), link(0), link(1)]));
    chain.state = state(&[[0; 4], [3, 0, 0, 0], [3, 0, 0, 0]], 0);
    chain.refuses(Request::move_to(2, D0), 13, 1);
}

#[test]
fn answer_14_names_the_lowest_shallower_child() {
    let mut desk = Desk::bench();
    desk.refuses(Request::move_to(0, D3HOT), 14, 1);
    desk.state = state(&[[0; 4], [3, 0, 0, 0], [0; 4]], 7);
    desk.refuses(Request::move_to(0, D3HOT), 14, 2);
    desk.state = state(&[[0; 4], [3, 0, 0, 0], [4, 0, 0, 0]], 1);
    desk.refuses(Request::move_to(0, D3COLD), 14, 1);
    desk.accepts(
        Request::move_to(0, D3HOT),
        &[[3, 0, 3, 0]],
        &[[3, 0, 0, 0], [3, 0, 0, 0], [4, 0, 0, 0]],
        1,
    );
}

#[test]
fn answer_15_is_deeper_than_the_wake_state() {
    let mut desk = Desk::bench();
    desk.state = state(&[[0; 4], [0, 1, 3, 2], [4, 0, 0, 0]], 7);
    desk.refuses(Request::move_to(CAMERA, D3HOT), 15, 0);
    desk.refuses(Request::move_to(CAMERA, D3COLD), 15, 0);
    // The wake state itself is good, and the wake pair stays.
    desk.accepts(
        Request::move_to(CAMERA, D2),
        &[[3, 1, 2, 0], [2, 1, 0, 0]],
        &[[0; 4], [2, 1, 3, 2], [4, 0, 0, 0]],
        0b101,
    );
}

#[test]
fn answer_14_comes_before_15() {
    let parent = Record {
        flags: 1,
        sxw: [0, 255, 255, 255, 255],
        ..Record::default()
    };
    let child = Record {
        parent: 0,
        ..Record::default()
    };
    let mut desk = Desk::fresh(table(&[], &[parent, child]));
    desk.accepts(Request::arm(0, 0, D0), &[], &[[0, 1, 0, 0]], 0);
    desk.refuses(Request::move_to(0, D3HOT), 14, 1);
    desk.state = state(&[[0, 1, 0, 0], [3, 0, 0, 0]], 0);
    desk.refuses(Request::move_to(0, D3HOT), 15, 0);
}

#[test]
fn answer_16_is_no_prw_or_too_deep_a_sleep_state() {
    let mut desk = Desk::bench();
    desk.refuses(Request::arm(CAMERA, 4, D2), 16, 0);
    for s in 0..5 {
        desk.refuses(Request::arm(LAMP, s, D0), 16, 0);
    }
}

#[test]
fn answer_17_is_a_prw_resource_below_the_sleep_state() {
    let mut table = bench();
    table[8 + 4 * 2] = 2;
    Desk::fresh(table.clone()).refuses(Request::arm(CAMERA, 3, D2), 17, 0);
    // It comes before 18.
    Desk::fresh(table.clone()).refuses(Request::arm(CAMERA, 3, D1), 17, 0);
    Desk::fresh(table).refuses(Request::arm(CAMERA, 2, D2), 18, 0);
}

#[test]
fn answer_18_is_a_wake_state_not_allowed() {
    let mut desk = Desk::bench();
    // Outside the range, and not supported within it.
    desk.refuses(Request::arm(CAMERA, 3, D0), 18, 0);
    desk.refuses(Request::arm(CAMERA, 3, D1), 18, 0);
    desk.refuses(Request::arm(CAMERA, 3, D3COLD), 18, 0);
    // Shallower than the present state; the present state itself is good.
    desk.state = state(&[[0; 4], [3, 0, 0, 0], [0; 4]], 7);
    desk.refuses(Request::arm(CAMERA, 3, D2), 18, 0);
    desk.accepts(
        Request::arm(CAMERA, 3, D3HOT),
        &[[4, 1, 3, 0x83]],
        &[[0; 4], [3, 1, 3, 3], [0; 4]],
        7,
    );
}

#[test]
fn answer_19_is_a_list_that_does_not_conform() {
    let mut desk = Desk::bench();
    desk.state = state(&[[0; 4], [3, 0, 0, 0], [4, 0, 0, 0]], 1);
    let request = Request::move_to(CAMERA, D0);
    let good = desk.list(request);
    assert_eq!(desk.check(request, &good), Answer::done(0));
    let refusal = Answer::refused(19, 0);
    for length in 0..good.len() {
        assert_eq!(desk.check(request, &good[..length]), refusal);
    }
    for byte in [0, 1, 255] {
        let longer = [good.as_slice(), &[byte]].concat();
        assert_eq!(desk.check(request, &longer), refusal);
    }
    for index in 0..good.len() {
        for byte in 0..=255 {
            let mut list = good.clone();
            list[index] = byte;
            let expected = if list == good {
                Answer::done(0)
            } else {
                refusal
            };
            assert_eq!(desk.check(request, &list), expected);
        }
    }
    let doubled = [&good[..4], &good].concat();
    assert_eq!(desk.check(request, &doubled), refusal);
    // A refused request is refused before its list is read.
    desk.refuses(Request::move_to(CAMERA, D1), 11, 0);
}

#[test]
fn a_record_is_the_40_bytes_of_the_table() {
    let table = bench();
    for d in 0..3 {
        let start = device(d);
        assert_eq!(record(&table, d), &table[start..start + 40]);
        assert_eq!(record(&table, d).as_ptr(), table[start..].as_ptr());
    }
    for d in [3, 32, usize::MAX, usize::MAX / 40 + 1] {
        assert!(record(&table, d).is_empty());
    }
}
