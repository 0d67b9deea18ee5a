//! Bring-up and its checker: the bench station by hand, each answer, and each way
//! in which a list does not conform.

mod common;

use cases::Case;
use common::{agrees_with_version_2, bench, state, table, Desk, Record, PLAN_BYTES, PLAN_WORDS};
use reference::{bring_up, check, check_bring_up, execution, plan, Answer, Request};

const ON0: [u8; 4] = [1, 0, 0, 0];
const ON1: [u8; 4] = [1, 1, 0, 0];
const ON2: [u8; 4] = [1, 2, 0, 0];
const OFF0: [u8; 4] = [2, 0, 0, 0];
const OFF1: [u8; 4] = [2, 1, 0, 0];
const OFF2: [u8; 4] = [2, 2, 0, 0];

/// All of 32 resources.
const ALL: u64 = 0xffff_ffff;

/// An entry that is not armed.
const fn at(state: u8) -> [u8; 4] {
    [state, 0, 0, 0]
}

/// Brings up a table with these entries and these resources on. It must give
/// exactly these calls and leave the entries with `needed` on.
fn brings_up(table: &[u8], entries: &[[u8; 4]], on: u64, calls: &[[u8; 4]], needed: u64) {
    let reported = state(entries, on);
    let (mut lent, mut buffer) = (reported.clone(), [0x5a; PLAN_BYTES + 5]);
    let answer = bring_up(table, &mut lent, &mut buffer);
    assert_eq!(answer, Answer::done(calls.len() as u16), "{entries:?}");
    let list = calls.as_flattened();
    assert_eq!(buffer[..list.len()], *list, "{entries:?} {on:#b}");
    assert!(buffer[list.len()..].iter().all(|&byte| byte == 0x5a));
    assert_eq!(lent, state(entries, needed), "{entries:?} {on:#b}");

    assert_eq!(check_bring_up(table, &reported, list), Answer::done(0));
    let words = calls.iter().map(|&call| u32::from_le_bytes(call));
    assert_eq!(execution(on, words).last().unwrap_or(on), needed);
    is_up(table, &lent);
    agrees_with_version_2(&Case::of_bring_up(table, &reported));
}

/// A second bring-up finds nothing to do, and a request finds a consistent state.
fn is_up(table: &[u8], up: &[u8]) {
    let mut again = up.to_vec();
    let answer = bring_up(table, &mut again, &mut [0; PLAN_BYTES]);
    assert_eq!((answer, &again[..]), (Answer::done(0), up));
    assert_eq!(check_bring_up(table, up, &[]), Answer::done(0));
    let mut buffer = [0; PLAN_BYTES];
    let looked_at = plan(table, &mut again, Request::default(), &mut buffer);
    assert_eq!(looked_at, Answer::refused(10, 0));
    let looked_at = check(table, up, Request::default(), &[]);
    assert_eq!(looked_at, Answer::refused(10, 0));
}

/// Both refuse, and nothing is written.
fn refuses(table: &[u8], reported: &[u8], number: u8, place: u64) {
    let refusal = Answer::refused(number, place);
    let mut lent = reported.to_vec();
    let mut buffer = [0x5a; PLAN_BYTES];
    assert_eq!(bring_up(table, &mut lent, &mut buffer), refusal);
    assert_eq!((&lent[..], buffer), (reported, [0x5a; PLAN_BYTES]));
    // It comes before the room and before the list.
    assert_eq!(bring_up(table, &mut lent, &mut []), refusal);
    for list in [&[][..], &[1], &ON0] {
        assert_eq!(check_bring_up(table, reported, list), refusal);
    }
    agrees_with_version_2(&Case::of_bring_up(table, reported));
}

/// On the bench station the bus needs {0}, also in D3hot; the camera {0, 1, 2} in
/// D0, {0, 2} in D2, {0} in D3hot, and {2} as well while armed; the lamp {1} in D0.
/// r0 and r2 have order 1, r1 has order 2.
#[test]
fn the_bench_station_is_brought_up() {
    let up = |entries: &[[u8; 4]], on, calls: &[[u8; 4]], needed| {
        brings_up(&bench(), entries, on, calls, needed);
    };
    // As fresh: with all on, with none, and with some.
    up(&[], 0b111, &[], 0b111);
    up(&[], 0b000, &[ON0, ON2, ON1], 0b111);
    up(&[], 0b010, &[ON0, ON2], 0b111);
    up(&[], 0b101, &[ON1], 0b111);
    // After W2: the camera in D2, the lamp in D3cold.
    up(&[at(0), at(2), at(4)], 0b010, &[ON0, ON2, OFF1], 0b101);
    up(&[at(0), at(2), at(4)], 0b111, &[OFF1], 0b101);
    // After W4: the camera in D3hot.
    up(&[at(0), at(3), at(4)], 0b110, &[ON0, OFF1, OFF2], 0b001);
    // There with the lamp in D0.
    up(&[at(0), at(3), at(0)], 0b100, &[ON0, ON1, OFF2], 0b011);
    // The camera armed for S3 and D3hot, or D2.
    let armed = [3, 1, 3, 3];
    up(&[at(0), armed, at(4)], 0b010, &[ON0, ON2, OFF1], 0b101);
    up(&[at(0), [0, 1, 3, 2], at(4)], 0b001, &[ON2, ON1], 0b111);
    // All in D3cold: with all on, and with none.
    up(&[at(4), at(4), at(4)], 0b111, &[OFF1, OFF2, OFF0], 0b000);
    up(&[at(4), at(4), at(4)], 0b000, &[], 0b000);
}

#[test]
fn the_entries_of_32_devices_are_kept() {
    let bare = table(&[(4, 0)], &[Record::default(); 32]);
    brings_up(&bare, &[at(3); 32], 1, &[OFF0], 0);
}

#[test]
fn a_table_without_resources_and_devices_is_brought_up() {
    brings_up(&table(&[], &[]), &[], 0, &[], 0);
    // Nothing needs the resources.
    brings_up(&table(&[(4, 1), (4, 2)], &[]), &[], 0b11, &[OFF1, OFF0], 0);
}

/// A device that needs 32 resources in D0 and none in D3cold, all of one order,
/// and has every method.
fn wide() -> Vec<u8> {
    let device = Record {
        ps: 9,
        pr: 9,
        flags: 3,
        sets: [ALL, 0, 0, 0, 0],
        sxw: [4; 5],
        deepest: 4,
        ..Record::default()
    };
    table(&[(4, 7); 32], &[device])
}

#[test]
fn equal_orders_rise_by_number_for_turn_on_calls_and_fall_for_turn_off_calls() {
    let turn_on: Vec<[u8; 4]> = (0..32).map(|r| [1, r, 0, 0]).collect();
    let turn_off: Vec<[u8; 4]> = (0..32).rev().map(|r| [2, r, 0, 0]).collect();
    brings_up(&wide(), &[at(0)], 0, &turn_on, ALL);
    brings_up(&wide(), &[at(4)], ALL, &turn_off, 0);
    // No own call: a device that is armed and in use gets no method.
    brings_up(&wide(), &[[0, 1, 3, 4]], 1, &turn_on[1..], ALL);
}

#[test]
fn orders_are_16_bit_numbers() {
    let device = Record {
        pr: 9,
        sets: [0b1111, 0, 0, 0, 0],
        ..Record::default()
    };
    let orders = [(4, 0x0100), (4, 0x00ff), (4, 0xffff), (4, 0x0000)];
    let bytes = table(&orders, &[device]);
    let rising = [3, 1, 0, 2];
    let turn_on = rising.map(|r| [1, r, 0, 0]);
    let mut turn_off = rising.map(|r| [2, r, 0, 0]);
    turn_off.reverse();
    brings_up(&bytes, &[at(0)], 0, &turn_on, 0b1111);
    brings_up(&bytes, &[at(3)], 0b1111, &turn_off, 0);
}

/// Each reason with each set of resources on: a resource that is off neither makes a
/// refusal nor hides one.
#[test]
fn answer_8_is_a_device_that_is_not_consistent_whatever_is_on() {
    for on in 0..8 {
        let refuses = |entries: &[[u8; 4]], place| {
            refuses(&bench(), &state(entries, on), 8, place);
        };
        // A state that the device does not have.
        refuses(&[at(1)], 0);
        refuses(&[at(2)], 0);
        refuses(&[at(0), at(1)], 1);
        refuses(&[at(0), at(0), at(2)], 2);
        // Shallower than the parent, and so the child's fault.
        refuses(&[at(3), at(0), at(4)], 1);
        refuses(&[at(3), at(2), at(4)], 1);
        refuses(&[at(4), at(4), at(3)], 2);
        // Pairs that are not legal: no _PRW, S too deep, an empty range, D not
        // supported, D outside the range.
        refuses(&[[0, 1, 0, 0]], 0);
        refuses(&[at(0), at(0), [0, 1, 3, 2]], 2);
        refuses(&[at(0), [0, 1, 4, 2]], 1);
        refuses(&[at(0), [0, 1, 2, 2]], 1);
        refuses(&[at(0), [0, 1, 3, 1]], 1);
        refuses(&[at(0), [0, 1, 3, 0]], 1);
        refuses(&[at(0), [0, 1, 3, 4]], 1);
        // Deeper than wake D.
        refuses(&[at(0), [3, 1, 3, 2]], 1);
        refuses(&[at(0), [4, 1, 3, 3]], 1);
    }
}

#[test]
fn answer_8_for_a_prw_resource_below_its_sleep_state() {
    let device = Record {
        flags: 1,
        sets: [0, 0, 0, 0, 1],
        sxw: [255, 255, 3, 3, 255],
        deepest: 3,
        ..Record::default()
    };
    let bytes = table(&[(2, 0)], &[device]);
    brings_up(&bytes, &[[0, 1, 2, 3]], 0, &[ON0], 1);
    refuses(&bytes, &state(&[[0, 1, 3, 3]], 0), 8, 0);
    refuses(&bytes, &state(&[[0, 1, 3, 3]], 1), 8, 0);
}

#[test]
fn answer_8_names_the_lowest_device() {
    let bare = table(&[], &[Record::default(); 32]);
    for lowest in 0..32 {
        let mut entries = [at(3); 32];
        entries[lowest..].fill(at(4));
        refuses(&bare, &state(&entries, 0), 8, lowest as u64);
        entries[lowest + 1..].fill(at(0));
        refuses(&bare, &state(&entries, 0), 8, lowest as u64);
    }
    // A lower device that only lacks its supply is not named.
    refuses(&bench(), &state(&[at(0), at(0), at(1)], 0b000), 8, 2);
    refuses(&bench(), &state(&[at(0), at(1), at(1)], 0b000), 8, 1);
}

#[test]
fn answer_7_comes_before_8() {
    let good = state(&[], 0);
    for length in (0..132).chain(133..140).chain([132 + 256, 132 + 65_536]) {
        let mut reported = good.clone();
        reported.resize(length, 0);
        refuses(&bench(), &reported, 7, 0);
    }
    for entry in [at(5), [0, 2, 0, 0], [0, 1, 5, 0], [0, 0, 0, 1]] {
        refuses(&bench(), &state(&[at(1), entry], 0), 7, 0);
    }
    refuses(&bench(), &state(&[at(1), at(0), at(0), at(1)], 0), 7, 0);
    refuses(&bench(), &state(&[at(1)], 0b1000), 7, 0);
    refuses(&bench(), &state(&[at(1)], 0x8000_0000), 7, 0);
}

#[test]
fn answer_9_is_the_room_for_33_words_and_comes_last() {
    let reported = state(&[], 0);
    for room in (0..=PLAN_BYTES + 4).chain([1 << 8, 1 << 16]) {
        let (mut lent, mut buffer) = (reported.clone(), vec![0x5a; room]);
        let answer = bring_up(&bench(), &mut lent, &mut buffer);
        if room < 4 * PLAN_WORDS {
            assert_eq!(answer, Answer::refused(9, 0));
            assert_eq!((lent, buffer), (reported.clone(), vec![0x5a; room]));
        } else {
            assert_eq!(answer, Answer::done(3));
            assert_eq!(lent, state(&[], 0b111));
        }
    }
}

fn check_list(calls: &[[u8; 4]]) -> u8 {
    check_bytes(calls.as_flattened())
}

/// The camera in D3hot and the lamp in D0, as reported with r2 alone on.
fn check_bytes(list: &[u8]) -> u8 {
    let reported = state(&[at(0), at(3), at(0)], 0b100);
    let answer = check_bring_up(&bench(), &reported, list);
    assert_eq!((answer.place, answer.count), (0, 0));
    answer.number
}

#[test]
fn answer_19_is_a_list_that_does_not_conform() {
    let good = [ON0, ON1, OFF2];
    assert_eq!(check_list(&good), 0);
    // The empty list, a call left out, a call twice.
    assert_eq!(check_list(&[]), 19);
    for i in 0..3 {
        let (before, after) = (&good[..i], &good[i + 1..]);
        assert_eq!(check_list(&[before, after].concat()), 19);
        let twice = [before, &[good[i], good[i]], after].concat();
        assert_eq!(check_list(&twice), 19);
        assert_eq!(check_list(&[&good[..], &[good[i]]].concat()), 19);
    }
    // By falling order, and turn-off calls first.
    assert_eq!(check_list(&[ON1, ON0, OFF2]), 19);
    assert_eq!(check_list(&[OFF2, ON0, ON1]), 19);
    assert_eq!(check_list(&[ON0, OFF2, ON1]), 19);
    // What is off already, what is needed, and what the table does not have.
    for word in [OFF0, OFF1, ON2, [1, 3, 0, 0], [2, 3, 0, 0], [1, 255, 0, 0]] {
        for place in 0..=3 {
            let mut list = good.to_vec();
            list.insert(place, word);
            assert_eq!(check_list(&list), 19, "{word:?} at {place}");
        }
    }
}

#[test]
fn answer_19_for_methods_and_for_words_that_are_no_call() {
    let good = [ON0, ON1, OFF2];
    for word in [
        [3, 1, 3, 0],
        [3, 1, 0, 0],
        [3, 0, 0, 0],
        [4, 1, 3, 0x83],
        [4, 1, 0, 0],
        [0, 0, 0, 0],
        [1, 0, 0, 1],
    ] {
        for place in 0..=3 {
            let mut list = good.to_vec();
            list.insert(place, word);
            assert_eq!(check_list(&list), 19, "{word:?} at {place}");
        }
    }
    // Each of the 32 bits of a word counts.
    for bit in 0..8 * 12 {
        let mut list = good.concat();
        list[bit / 8] ^= 1 << (bit % 8);
        assert_eq!(check_bytes(&list), 19, "bit {bit}");
    }
}

#[test]
fn answer_19_for_a_list_that_ends_within_a_call() {
    let good = [ON0, ON1, OFF2].concat();
    for length in 0..good.len() {
        assert_eq!(check_bytes(&good[..length]), 19);
    }
    for more in 1..9 {
        assert_eq!(check_bytes(&[&good[..], &vec![0; more]].concat()), 19);
    }
    for more in [1 << 8, 1 << 16] {
        assert_eq!(check_bytes(&[&good[..], &vec![0; more]].concat()), 19);
    }
    // Where there is nothing to do, the empty list conforms and a byte does not.
    let up = state(&[], 0b111);
    assert_eq!(check_bring_up(&bench(), &up, &[]), Answer::done(0));
    for length in 1..9 {
        let answer = check_bring_up(&bench(), &up, &vec![0; length]);
        assert_eq!(answer, Answer::refused(19, 0));
    }
}

#[test]
fn equal_orders_may_come_in_any_sequence() {
    // r0 and r2 have order 1.
    let reported = state(&[], 0);
    for (calls, number) in [
        ([ON0, ON2, ON1], 0),
        ([ON2, ON0, ON1], 0),
        ([ON0, ON1, ON2], 19),
        ([ON1, ON0, ON2], 19),
    ] {
        let answer = check_bring_up(&bench(), &reported, calls.as_flattened());
        assert_eq!(answer.number, number, "{calls:?}");
    }
    let reported = state(&[at(4); 3], 0b111);
    for (calls, number) in [
        ([OFF1, OFF2, OFF0], 0),
        ([OFF1, OFF0, OFF2], 0),
        ([OFF2, OFF0, OFF1], 19),
        ([OFF0, OFF1, OFF2], 19),
    ] {
        let answer = check_bring_up(&bench(), &reported, calls.as_flattened());
        assert_eq!(answer.number, number, "{calls:?}");
    }
}

#[test]
fn thirty_two_calls_of_equal_order_pass_in_any_sequence_and_no_more() {
    let reported = state(&[at(4)], ALL);
    let number = |calls: &[[u8; 4]]| {
        let answer = check_bring_up(&wide(), &reported, calls.as_flattened());
        answer.number
    };
    let mut calls: Vec<[u8; 4]> = (0..32).map(|r| [2, (r * 7 + 3) % 32, 0, 0]).collect();
    assert_eq!(number(&calls), 0);
    for more in [1, 2, 3, 100] {
        let longer = [calls.clone(), calls[..1].repeat(more)].concat();
        assert_eq!(number(&longer), 19, "{more} more");
    }
    assert_eq!(number(&calls[..31]), 19);
    calls[31] = calls[0];
    assert_eq!(number(&calls), 19);
}

/// The checker wants no call for what is on and needed.
#[test]
fn what_is_on_and_needed_is_not_turned_on_again() {
    let reported = state(&[], 0b010);
    for (calls, number) in [
        (&[ON0, ON2][..], 0),
        (&[ON2, ON0], 0),
        (&[ON0, ON2, ON1], 19),
        (&[ON2, ON0, ON1], 19),
    ] {
        let answer = check_bring_up(&bench(), &reported, calls.as_flattened());
        assert_eq!(answer.number, number, "{calls:?}");
    }
}

#[test]
fn a_consistent_state_has_nothing_turned_on() {
    let entries = [at(0), at(2), at(4)];
    brings_up(&bench(), &entries, 0b101, &[], 0b101);
    brings_up(&bench(), &entries, 0b111, &[OFF1], 0b101);
    let mut desk = Desk::bench();
    desk.accepts(Request::move_to(1, 2), &[[3, 1, 2, 0]], &[at(0), at(2)], 7);
    brings_up(&desk.table, &[at(0), at(2)], 0b111, &[], 0b111);
}

/// A request still asks for all that is needed to be on.
#[test]
fn a_request_is_refused_before_bring_up_and_accepted_after_it() {
    let mut desk = Desk::bench();
    desk.state = state(&[], 0b101);
    let request = Request::move_to(1, 2);
    desk.refuses(request, 8, 1);
    let answer = bring_up(&desk.table, &mut desk.state, &mut [0; PLAN_BYTES]);
    assert_eq!(answer, Answer::done(1));
    desk.accepts(request, &[[3, 1, 2, 0]], &[at(0), at(2)], 0b111);
}
