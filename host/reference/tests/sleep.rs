//! Sleep entry: the bench station by hand, each answer, what stands against a
//! state, and the least choice among all on small stations.

mod common;

use cases::{arm_for, choices, draw_state, least, Case, Rng, Station, FEW_DEVICES};
use common::{
    agrees_with_version_2, bench, state, table, Desk, Record, PLAN_BYTES, PLAN_WORDS,
    SLEEP_PLAN_BYTES, SLEEP_PLAN_WORDS,
};
use reference::{
    check, effect, plan, plan_words, sleep_moves, sleep_obstacles, Answer, Obstacle, Request,
    SleepMove, State, Table, Version,
};

const OFF0: [u8; 4] = [2, 0, 0, 0];
const OFF1: [u8; 4] = [2, 1, 0, 0];
const OFF2: [u8; 4] = [2, 2, 0, 0];
const CAMERA_PS2: [u8; 4] = [3, 1, 2, 0];
const CAMERA_PS3: [u8; 4] = [3, 1, 3, 0];

/// What stands against a state that a device does not have.
const NO_STATE: Obstacle = Obstacle::NotSupported;

/// An entry that is not armed.
const fn at(state: u8) -> [u8; 4] {
    [state, 0, 0, 0]
}

fn desk(table: &[u8], entries: &[[u8; 4]], on: u64) -> Desk {
    Desk {
        table: table.to_vec(),
        state: state(entries, on),
    }
}

/// The bench station with its bus in D0, everything on, and these entries of
/// camera and lamp.
fn bench_with(camera: [u8; 4], lamp: [u8; 4]) -> Desk {
    desk(&bench(), &[at(0), camera, lamp], 0b111)
}

/// A sleep entry for Sx must give exactly these calls, and leave these entries and
/// this on. The functions on words do what those on bytes do.
fn sleeps(desk: &Desk, x: u32, calls: &[[u8; 4]], entries: &[[u8; 4]], on: u64) {
    let Desk {
        table,
        state: start,
    } = desk;
    let (mut lent, mut buffer) = (start.clone(), [0x5a; SLEEP_PLAN_BYTES + 5]);
    let answer = plan(table, &mut lent, Request::sleep(x), &mut buffer);
    assert_eq!(answer, Answer::done(calls.len() as u16), "S{x}");
    let list = calls.as_flattened();
    assert_eq!(buffer[..list.len()], *list, "S{x}");
    assert!(buffer[list.len()..].iter().all(|&byte| byte == 0x5a));
    assert_eq!(lent, state(entries, on), "S{x}");

    let (mut lent, mut buffer) = (start.clone(), [0x5a5a_5a5a; SLEEP_PLAN_WORDS]);
    let answer = plan_words(table, &mut lent, Request::sleep(x), &mut buffer);
    let words = calls.iter().map(|&call| u32::from_le_bytes(call));
    assert!(words.eq(buffer[..answer.count.into()].iter().copied()));
    assert!(buffer[calls.len()..]
        .iter()
        .all(|&word| word == 0x5a5a_5a5a));
    assert_eq!(lent, state(entries, on), "S{x}");
    assert_eq!(sleep_obstacles(table, start, x), None);
    moves_give(desk, x, calls);
    agrees_with_version_2(&Case::of_sleep(table, start, x));
}

/// Each move alone is accepted from the state that those before it leave, and
/// their lists make the plan, unless none moves.
fn moves_give(desk: &Desk, x: u32, calls: &[[u8; 4]]) {
    let moves = sleep_moves(&desk.table, &desk.state, x).expect("done");
    let mut moved = desk.clone();
    let mut lists = Vec::new();
    for &SleepMove { device, from, to } in &moves {
        assert_eq!(moved.state[4 * device], from);
        let request = Request::move_to(device as u32, to.into());
        let list = moved.list(request);
        assert!(moved.check(request, &list).is_done());
        lists.extend_from_slice(&list);
        plan(
            &moved.table,
            &mut moved.state,
            request,
            &mut [0; PLAN_BYTES],
        );
    }
    if !moves.is_empty() {
        assert_eq!(lists, calls.as_flattened());
    }
}

/// A sleep entry for Sx is refused, and nothing is written.
fn refuses(desk: &Desk, x: u32, number: u8, place: u64) {
    let Desk { table, state } = desk;
    let refusal = Answer::refused(number, place);
    let (mut lent, mut buffer) = (state.clone(), [0x5a; SLEEP_PLAN_BYTES]);
    let answer = plan(table, &mut lent, Request::sleep(x), &mut buffer);
    assert_eq!(answer, refusal, "S{x}");
    assert_eq!((&lent, buffer), (state, [0x5a; SLEEP_PLAN_BYTES]));
    assert_eq!(sleep_moves(table, state, x), Err(refusal));
    agrees_with_version_2(&Case::of_sleep(table, state, x));
    if number != 21 {
        assert_eq!(sleep_obstacles(table, state, x), None);
    }
}

/// A sleep entry for Sx is refused with 21, since this stands against each state
/// of a device.
fn has_no_choice(desk: &Desk, x: u32, device: usize, against: [Obstacle; 5]) {
    refuses(desk, x, 21, 0);
    let found = sleep_obstacles(&desk.table, &desk.state, x);
    assert_eq!(found, Some((device, against)));
}

// In S1 to S3, r1 cannot be on: the lamp goes to D3hot, without a method. The
// camera still needs r1 then, so its own move turns it off.

#[test]
fn the_camera_goes_to_the_state_it_is_armed_for() {
    let entries = [at(0), [2, 1, 3, 2], at(3)];
    let armed = bench_with([0, 1, 3, 2], at(0));
    sleeps(&armed, 3, &[CAMERA_PS2, OFF1], &entries, 0b101);
    // D3hot needs r0, and `_PRW` r2.
    let entries = [at(0), [3, 1, 3, 3], at(3)];
    let armed = bench_with([0, 1, 3, 3], at(0));
    sleeps(&armed, 3, &[CAMERA_PS3, OFF1], &entries, 0b101);
    // It leaves D2, though `_S3D` and the levels allow it.
    let entries = [at(0), [3, 1, 3, 3], at(4)];
    let armed = bench_with([2, 1, 3, 3], at(4));
    sleeps(&armed, 3, &[CAMERA_PS3, OFF1], &entries, 0b101);
}

#[test]
fn without_arming_the_camera_goes_no_deeper_than_it_must() {
    for x in 1..=3 {
        let entries = [at(0), at(2), at(3)];
        let fresh = bench_with(at(0), at(0));
        sleeps(&fresh, x, &[CAMERA_PS2, OFF1], &entries, 0b101);
    }
    // From D3hot it does not come back, and the lamp's move alone turns off.
    let entries = [at(0), at(3), at(3)];
    sleeps(&bench_with(at(3), at(0)), 3, &[OFF1, OFF2], &entries, 0b001);
}

/// In S4 no resource can be on. The lamp moves without calls, then the camera
/// gives up r1 and r2, then the bus r0.
#[test]
fn all_go_to_d3cold_where_nothing_can_be_on() {
    let bus_ps3 = [3, 0, 3, 0];
    let calls = [CAMERA_PS3, OFF1, OFF2, bus_ps3, OFF0];
    sleeps(&bench_with(at(0), at(0)), 4, &calls, &[at(4); 3], 0);
    // From D3hot there is no own call.
    let calls = [OFF1, OFF2, bus_ps3, OFF0];
    sleeps(&bench_with(at(3), at(3)), 4, &calls, &[at(4); 3], 0);
}

#[test]
fn moves_go_by_falling_number() {
    let moves = |camera, x| sleep_moves(&bench(), &state(&[at(0), camera], 0b111), x);
    let step = |device, to| SleepMove {
        device,
        from: 0,
        to,
    };
    assert_eq!(
        moves(at(0), 4),
        Ok(vec![step(2, 4), step(1, 4), step(0, 4)])
    );
    assert_eq!(moves([0, 1, 3, 2], 3), Ok(vec![step(2, 3), step(1, 2)]));
}

#[test]
fn where_none_moves_the_plan_is_the_turn_off_calls() {
    let entries = [at(0), [2, 1, 3, 2], at(3)];
    let asleep = |on| desk(&bench(), &entries, on);
    sleeps(&asleep(0b101), 3, &[], &entries, 0b101);
    sleeps(&asleep(0b111), 3, &[OFF1], &entries, 0b101);
    // r2 and r0 have equal orders, so the higher number goes off first.
    let cold = [at(4); 3];
    let calls = [OFF1, OFF2, OFF0];
    sleeps(&desk(&bench(), &cold, 0b111), 1, &calls, &cold, 0);
}

#[test]
fn without_devices_all_goes_off() {
    let two_resources = table(&[(4, 0), (4, 0)], &[]);
    sleeps(&desk(&two_resources, &[], 0b10), 2, &[OFF1], &[], 0);
    sleeps(&desk(&table(&[], &[]), &[], 0), 2, &[], &[], 0);
}

/// A device that needs r0 in D0 and r1 in D3hot. It has D3cold.
fn changing() -> Record {
    Record {
        ps: 9,
        pr: 9,
        sets: [1, 0, 0, 2, 0],
        ..Record::default()
    }
}

#[test]
fn a_move_turns_on_what_the_deeper_state_needs() {
    let table = table(&[(2, 0), (3, 0), (4, 0)], &[changing()]);
    // r2, which nobody needs, goes off with the move.
    let awake = desk(&table, &[at(0)], 0b101);
    let calls = [[3, 0, 3, 0], [1, 1, 0, 0], OFF2, OFF0];
    sleeps(&awake, 3, &calls, &[at(3)], 0b010);
    sleeps(&awake, 4, &[[3, 0, 3, 0], OFF2, OFF0], &[at(4)], 0);
    // A systemlevel of x is enough.
    sleeps(&awake, 2, &[OFF2], &[at(0)], 0b001);
}

#[test]
fn a_child_is_not_shallower_than_its_parent() {
    let child = Record {
        parent: 0,
        pr: 9,
        ..Record::default()
    };
    let grandchild = Record {
        parent: 1,
        ..Record::default()
    };
    let table = table(&[(2, 0), (3, 0)], &[changing(), child, grandchild]);
    let awake = desk(&table, &[at(0); 3], 0b01);
    let calls = [[3, 0, 3, 0], [1, 1, 0, 0], OFF0];
    sleeps(&awake, 3, &calls, &[at(3); 3], 0b10);
    sleeps(&awake, 2, &[], &[at(0); 3], 0b01);
    // The grandchild has no D3cold.
    let parent = Obstacle::ShallowerThanParent {
        parent: 1,
        state: 4,
    };
    has_no_choice(&awake, 4, 2, [parent, NO_STATE, NO_STATE, parent, NO_STATE]);
}

/// A device with D0, D2 and D3hot that needs r0 in D2 and D3hot and nothing in D0.
fn needs_r0_when_deep() -> Record {
    Record {
        ps: 13,
        pr: 5,
        sets: [0, 0, 1, 0, 0],
        ..Record::default()
    }
}

#[test]
fn answer_21_by_sxd_and_by_a_level() {
    let with_s1d = Record {
        sxd: [1, 255, 255, 255],
        ..needs_r0_when_deep()
    };
    let table = table(&[(0, 0)], &[needs_r0_when_deep(), with_s1d]);
    let awake = desk(&table, &[at(0); 2], 1);
    sleeps(&awake, 2, &[OFF0], &[at(0); 2], 0);
    let s1d = Obstacle::ShallowerThanSxd(1);
    let unpowered = Obstacle::Unpowered {
        resource: 0,
        level: 0,
    };
    has_no_choice(
        &awake,
        1,
        1,
        [s1d, NO_STATE, unpowered, unpowered, NO_STATE],
    );
    let present = Obstacle::ShallowerThanPresent;
    let deep = desk(&table, &[at(2), at(0)], 1);
    has_no_choice(
        &deep,
        2,
        0,
        [present, NO_STATE, unpowered, unpowered, NO_STATE],
    );
}

/// The device, able to wake the system from any sleep state and device state.
fn waker(device: Record) -> Record {
    Record {
        flags: 3,
        sxw: [4; 5],
        deepest: 4,
        ..device
    }
}

#[test]
fn answer_21_by_wake_d() {
    let child = Record {
        parent: 0,
        ..waker(changing())
    };
    let table = table(&[(2, 0), (3, 0)], &[waker(changing()), child]);
    let armed = |entries: [[u8; 4]; 2]| desk(&table, &entries, 0b11);
    // In S3 device 1 would go to D3hot, but is armed for D0.
    let unpowered = Obstacle::Unpowered {
        resource: 0,
        level: 2,
    };
    let wake = Obstacle::NotWakeState(0);
    let for_d0 = armed([at(0), [0, 1, 3, 0]]);
    has_no_choice(&for_d0, 3, 1, [unpowered, NO_STATE, NO_STATE, wake, wake]);
    // It is armed for D3hot, and its parent for D3cold.
    let parent = Obstacle::ShallowerThanParent {
        parent: 0,
        state: 4,
    };
    let wake = Obstacle::NotWakeState(3);
    let apart = armed([[0, 1, 2, 4], [0, 1, 2, 3]]);
    has_no_choice(&apart, 2, 1, [wake, NO_STATE, NO_STATE, parent, wake]);
    // r1 is not needed, so it goes off with the first move.
    let calls = [[3, 1, 3, 0], OFF1, [3, 0, 3, 0], OFF0];
    sleeps(&armed([[0, 1, 2, 4]; 2]), 2, &calls, &[[4, 1, 2, 4]; 2], 0);
}

#[test]
fn answer_20_is_the_lowest_device_that_is_armed_for_another_sleep_state() {
    for x in [1, 2, 4] {
        refuses(&bench_with([0, 1, 3, 2], at(0)), x, 20, 1);
    }
    let table = table(&[(4, 0), (4, 0)], &[waker(changing()); 4]);
    let armed = desk(
        &table,
        &[at(0), [0, 1, 2, 3], [0, 1, 1, 3], [0, 1, 4, 3]],
        0b11,
    );
    refuses(&armed, 1, 20, 1);
    refuses(&armed, 2, 20, 2);
    // S0 is another one as well.
    let for_s0 = desk(&table, &[at(0), at(0), at(0), [0, 1, 0, 3]], 0b11);
    refuses(&for_s0, 1, 20, 3);
}

#[test]
fn answer_10_is_a_number_out_of_range() {
    let fresh = state(&[], 0b111);
    let refused = |request| {
        let (mut lent, mut buffer) = (fresh.clone(), [0x5a; SLEEP_PLAN_BYTES]);
        let answer = plan(&bench(), &mut lent, request, &mut buffer);
        assert_eq!(answer, Answer::refused(10, 0), "{request:?}");
        assert_eq!((lent, buffer), (fresh.clone(), [0x5a; SLEEP_PLAN_BYTES]));
    };
    for x in [0, 5, 255, 256, 257, 0x1_0001, 0x8000_0001, u32::MAX] {
        refuses(&bench_with(at(0), at(0)), x, 10, 0);
    }
    for number in [1, 3, 256, u32::MAX] {
        refused(Request {
            device: number,
            ..Request::sleep(1)
        });
        refused(Request {
            b: number,
            ..Request::sleep(1)
        });
    }
}

/// Other kinds keep their room.
#[test]
fn answer_9_goes_by_the_kind_alone() {
    let planned = |request, bytes: usize| {
        let mut lent = state(&[], 0b111);
        plan(&bench(), &mut lent, request, &mut vec![0; bytes]).number
    };
    let bad_x = Request::sleep(9);
    for request in [Request::sleep(1), bad_x, Request { device: 7, ..bad_x }] {
        for bytes in [0, PLAN_BYTES, SLEEP_PLAN_BYTES - 4, SLEEP_PLAN_BYTES - 1] {
            assert_eq!(planned(request, bytes), 9, "{request:?} {bytes}");
        }
    }
    assert_eq!(planned(Request::sleep(1), SLEEP_PLAN_BYTES), 0);
    assert_eq!(planned(bad_x, SLEEP_PLAN_BYTES), 10);
    for kind in [0, 5, 260, 0x1_0004] {
        let request = Request {
            kind,
            ..Request::sleep(1)
        };
        assert_eq!(planned(request, PLAN_BYTES - 1), 9, "{kind}");
        assert_eq!(planned(request, PLAN_BYTES), 10, "{kind}");
    }
    assert_eq!((SLEEP_PLAN_WORDS, SLEEP_PLAN_BYTES), (1_056, 4_224));
}

#[test]
fn words_need_the_same_room() {
    let planned = |words: usize| {
        let mut lent = state(&[], 0b111);
        plan_words(&bench(), &mut lent, Request::sleep(1), &mut vec![0; words]).number
    };
    assert_eq!([PLAN_WORDS, 1_055, 1_056, 1_057].map(planned), [9, 9, 0, 0]);
}

/// One input with all faults, which are mended one after the other.
#[test]
fn answers_come_in_their_order() {
    let mut table = table(&[(0, 0)], &[needs_r0_when_deep(), waker(Record::default())]);
    let mut lent = state(&[[2, 0, 0, 0], [4, 1, 1, 3]], 0b11);
    let mut room = SLEEP_PLAN_BYTES - 4;
    let mut request = Request::sleep(5);
    // The mark of the table, and the systemlevel of r0.
    (table[0], table[8]) = (b'Q', 5);
    let mut answers = Vec::new();
    for step in 0..9 {
        match step {
            1 => table[0] = b'P',
            2 => table[8] = 0,
            3 => lent[128] = 0b01,
            4 => lent[4] = 3,
            5 => room += 4,
            6 => request = Request::sleep(2),
            7 => lent[5..8].fill(0),
            8 => lent[0] = 0,
            _ => {}
        }
        let answer = plan(&table, &mut lent.clone(), request, &mut vec![0; room]);
        answers.push((answer.number, answer.place));
    }
    let expected = [1, 4, 7, 8, 9, 10, 20, 21, 0].map(|number| match number {
        8 | 20 => (number, 1),
        _ => (number, 0),
    });
    assert_eq!(answers, expected);
}

#[test]
fn the_checker_and_the_effect_have_10_for_sleep_entry() {
    let fresh = state(&[], 0b111);
    for x in 0..=5 {
        let request = Request::sleep(x);
        let refusal = Answer::refused(10, 0);
        assert_eq!(check(&bench(), &fresh, request, &[]), refusal);
        assert_eq!(
            check(&bench(), &fresh, request, &[3, 1, 2, 0, 2, 1, 0, 0]),
            refusal
        );
        assert_eq!(effect(&bench(), &fresh, request), Err(refusal));
    }
    // Table and state come before.
    let inconsistent = state(&[at(3)], 0b111);
    let answer = check(&bench(), &inconsistent, Request::sleep(1), &[]);
    assert_eq!(answer, Answer::refused(8, 1));
}

/// Every state of every device is tried, on drawn stations in drawn states.
#[test]
fn the_least_of_all_choices_is_taken() {
    let mut rng = Rng::new(1);
    let (mut with_choice, mut without, mut with_several) = (0, 0, 0);
    while with_choice + without < 40_000 {
        let version = rng.pick(&Version::ALL);
        let station = Station::random(&mut rng, version);
        if station.devices.len() > FEW_DEVICES {
            continue;
        }
        let bytes = station.table(version);
        let Some(mut drawn) = draw_state(&mut rng, &bytes) else {
            continue;
        };
        let x = 1 + rng.byte_below(4);
        arm_for(&mut rng, &bytes, &mut drawn, x);
        let table = Table::read(&bytes).expect("drawn");
        let state = State::read(&table, &drawn).expect("drawn");
        let all = choices(&table, &state, x);
        let mut taken: Vec<u8> = (0..station.devices.len()).map(|d| drawn[4 * d]).collect();
        match sleep_moves(&bytes, &drawn, x.into()) {
            Ok(moves) => {
                moves.iter().for_each(|step| taken[step.device] = step.to);
                assert_eq!(least(&all), Some(&taken), "S{x} {station:?} {drawn:?}");
                with_choice += 1;
                with_several += usize::from(all.len() > 1);
            }
            Err(answer) => {
                assert_eq!(answer, Answer::refused(21, 0));
                assert!(all.is_empty(), "S{x} {station:?} {drawn:?}");
                without += 1;
            }
        }
    }
    assert!(
        with_several > 5_000 && without > 5_000,
        "{with_several} {without}"
    );
}
