//! The safe functions on the bench station, and on a line with 47 resources.

use cases::sweep::bench_station;
use sailgarnet::{
    bring_up, calls, check, check_bring_up, describe, devices, fresh, on_set, plan, resources,
    set_on, write, Answer, Call, Device, Request, Resource, Verdict, Version, MAX_TABLE_BYTES,
    NONE, PLAN_BYTES, SLEEP_PLAN_BYTES, STATE_BYTES,
};

const CAMERA: u32 = 1;
const LAMP: u32 = 2;
const D2: u32 = 2;
const D3HOT: u32 = 3;
const D3COLD: u32 = 4;

/// The bench station in version 1.
fn bench_table() -> Vec<u8> {
    bench_station().table(reference::Version::One)
}

fn fresh_bench() -> (Vec<u8>, [u8; STATE_BYTES]) {
    let table = bench_table();
    let mut state = [0xaa; STATE_BYTES];
    assert_eq!(fresh(&table, &mut state).verdict(), Some(Verdict::Done));
    (table, state)
}

#[test]
fn a_plan_is_read_as_calls_and_passes_the_checker() {
    let (table, mut state) = fresh_bench();
    let mut buffer = [0; PLAN_BYTES];
    let answer = plan(
        &table,
        &mut state,
        Request::move_to(LAMP, D3COLD),
        &mut buffer,
    );
    assert_eq!((answer.number, answer.count), (0, 0));
    let before = state;
    let request = Request::move_to(CAMERA, D3HOT);
    let answer = plan(&table, &mut state, request, &mut buffer);
    let list = &buffer[..answer.plan_length()];
    let found: Vec<Call> = calls(list).map(|call| call.expect("a call")).collect();
    assert_eq!(
        found,
        [
            Call::SetState {
                device: 1,
                method: 3
            },
            Call::Off { resource: 1 },
            Call::Off { resource: 2 },
        ]
    );
    assert!(check(&table, &before, request, list).is_done());
    let shorter = check(&table, &before, request, &list[..8]);
    assert_eq!(shorter.verdict(), Some(Verdict::NotConforming));
}

#[test]
fn a_refusal_has_its_place() {
    let (table, mut state) = fresh_bench();
    let request = Request::move_to(0, D3HOT);
    let answer = plan(&table, &mut state, request, &mut [0; PLAN_BYTES]);
    let expected = Answer {
        number: 14,
        place: 1,
        count: 0,
    };
    assert_eq!(answer, expected);
    assert_eq!(answer.verdict(), Some(Verdict::ChildShallower));
}

#[test]
fn lengths_are_refused_by_the_answer() {
    let (table, mut state) = fresh_bench();
    let request = Request::move_to(CAMERA, D2);
    assert_eq!(fresh(&[], &mut []).verdict(), Some(Verdict::NotATable));
    assert_eq!(fresh(&table, &mut []).verdict(), Some(Verdict::BadState));
    let no_state = plan(&table, &mut [], request, &mut []);
    assert_eq!(no_state.verdict(), Some(Verdict::BadState));
    let no_room = plan(&table, &mut state, request, &mut [0; PLAN_BYTES - 1]);
    assert_eq!(no_room.verdict(), Some(Verdict::NoRoom));
    let short = &mut [0; SLEEP_PLAN_BYTES - 1];
    let no_room = plan(&table, &mut state, Request::sleep(3), short);
    assert_eq!(no_room.verdict(), Some(Verdict::NoRoom));
    let odd_list = check(&table, &state, request, &[3, 1, 2]);
    assert_eq!(odd_list.verdict(), Some(Verdict::NotConforming));
    let no_state = bring_up(&table, &mut [], &mut []);
    assert_eq!(no_state.verdict(), Some(Verdict::BadState));
    let no_room = bring_up(&table, &mut state, &mut [0; PLAN_BYTES - 1]);
    assert_eq!(no_room.verdict(), Some(Verdict::NoRoom));
    let odd_list = check_bring_up(&table, &state, &[3]);
    assert_eq!(odd_list.verdict(), Some(Verdict::NotConforming));
}

/// The camera goes to the state it is armed for, and the lamp to D3hot, since its
/// supply is off in S3.
#[test]
fn all_devices_are_prepared_for_sleep() {
    let (table, mut state) = fresh_bench();
    let arming = Request::arm(CAMERA, 3, D2);
    assert!(plan(&table, &mut state, arming, &mut [0; PLAN_BYTES]).is_done());
    let mut buffer = [0; SLEEP_PLAN_BYTES];
    let answer = plan(&table, &mut state, Request::sleep(3), &mut buffer);
    assert_eq!(answer.verdict(), Some(Verdict::Done));
    let found: Vec<Call> = calls(&buffer[..answer.plan_length()])
        .map(|call| call.expect("a call"))
        .collect();
    let to_d2 = Call::SetState {
        device: 1,
        method: 2,
    };
    assert_eq!(found, [to_d2, Call::Off { resource: 1 }]);
    assert_eq!(state[..12], [0, 0, 0, 0, 2, 1, 3, 2, 3, 0, 0, 0]);
    assert_eq!(state[128], 0b101);

    let again = plan(&table, &mut state, Request::sleep(3), &mut buffer);
    assert_eq!((again.number, again.count), (0, 0));
    let judged = check(&table, &state, Request::sleep(3), &[]);
    assert_eq!(judged.verdict(), Some(Verdict::BadRequest));
}

#[test]
fn a_sleep_entry_is_refused() {
    let (mut table, mut state) = fresh_bench();
    let arming = Request::arm(CAMERA, 3, D2);
    assert!(plan(&table, &mut state, arming, &mut [0; PLAN_BYTES]).is_done());
    let before = state;
    let mut buffer = [0xaa; SLEEP_PLAN_BYTES];
    let mut refused = |table: &[u8], x| {
        let answer = plan(table, &mut state, Request::sleep(x), &mut buffer);
        assert_eq!((state, buffer), (before, [0xaa; SLEEP_PLAN_BYTES]));
        (answer.verdict().expect("a verdict"), answer.place)
    };
    assert_eq!(refused(&table, 0), (Verdict::BadRequest, 0));
    assert_eq!(refused(&table, 4), (Verdict::ArmedForOther, 1));
    // With r0 off in S3 the bus goes to D3cold, and the camera has to wait in D2.
    table[8] = 2;
    assert_eq!(refused(&table, 3), (Verdict::NoChoice, 0));
}

/// The camera in D3hot and the lamp in D0 at power-on, with r2 alone on.
#[test]
fn a_reported_state_is_brought_up() {
    let (table, mut state) = fresh_bench();
    state[4] = 3;
    state[128] = 0b100;
    let reported = state;
    let request = Request::move_to(LAMP, D3HOT);
    let too_early = plan(&table, &mut state, request, &mut [0; PLAN_BYTES]);
    assert_eq!((too_early.number, too_early.place), (8, 0));

    let mut buffer = [0; PLAN_BYTES];
    let answer = bring_up(&table, &mut state, &mut buffer);
    assert_eq!(answer.verdict(), Some(Verdict::Done));
    let list = &buffer[..answer.plan_length()];
    let found: Vec<Call> = calls(list).map(|call| call.expect("a call")).collect();
    assert_eq!(
        found,
        [
            Call::On { resource: 0 },
            Call::On { resource: 1 },
            Call::Off { resource: 2 },
        ]
    );
    assert!(check_bring_up(&table, &reported, list).is_done());
    let shorter = check_bring_up(&table, &reported, &list[..8]);
    assert_eq!(shorter.verdict(), Some(Verdict::NotConforming));
    assert_eq!((&state[..128], state[128]), (&reported[..128], 0b011));
    assert!(plan(&table, &mut state, request, &mut [0; PLAN_BYTES]).is_done());
}

#[test]
fn a_state_that_cannot_be_brought_up_is_refused_at_its_place() {
    let (table, mut state) = fresh_bench();
    // The camera has no D1.
    state[4] = 1;
    let before = state;
    let answer = bring_up(&table, &mut state, &mut [0; PLAN_BYTES]);
    assert_eq!((answer.number, answer.place, answer.count), (8, 1, 0));
    assert_eq!(state, before);
    let answer = check_bring_up(&table, &state, &[]);
    assert_eq!((answer.number, answer.place, answer.count), (8, 1, 0));
}

/// The lists of the bench station: three resources and three devices.
type Lists = ([u8; 3 * Resource::BYTES], [u8; 3 * Device::BYTES]);

fn described_bench() -> Lists {
    let table = bench_table();
    let mut lists = ([0xaa; 12], [0xaa; 162]);
    let answer = describe(&table, &mut lists.0, &mut lists.1);
    assert_eq!(answer.verdict(), Some(Verdict::Done));
    assert_eq!(answer.bytes_written(), 12 + 162);
    lists
}

#[test]
fn the_bench_station_is_described() {
    let lists = described_bench();
    let resource = |system_level, order| {
        Some(Resource {
            system_level,
            order,
        })
    };
    let expected = [resource(3, 1), resource(0, 2), resource(3, 1)];
    assert!(resources(&lists.0).eq(expected));
    let bus = Device {
        ps_mask: 0b1001,
        pr_mask: 0b1001,
        sets: [0b001, 0, 0, 0b001, 0],
        ..Device::default()
    };
    let camera = Device {
        parent: 0,
        ps_mask: 0b1101,
        pr_mask: 0b1101,
        flags: Device::PRW | Device::DSW,
        sets: [0b111, 0, 0b101, 0b001, 0b100],
        sxd: [NONE, NONE, 2, NONE],
        sxw: [NONE, NONE, NONE, 3, NONE],
        deepest: 3,
    };
    let lamp = Device {
        parent: 0,
        pr_mask: 0b1001,
        sets: [0b010, 0, 0, 0, 0],
        ..Device::default()
    };
    assert!(devices(&lists.1).eq([bus, camera, lamp]));
}

#[test]
fn an_edited_station_is_written() {
    let lists = described_bench();
    let mut edited: Vec<Device> = devices(&lists.1).collect();
    edited[LAMP as usize].sets[0] = 0b100;
    let edited: Vec<u8> = edited.iter().flat_map(|device| device.to_bytes()).collect();
    let mut buffer = [0xaa; MAX_TABLE_BYTES];
    let answer = write(1, &lists.0, &edited, &mut buffer);
    assert_eq!(answer.verdict(), Some(Verdict::Done));
    // Byte 104 is the lowest of the lamp's _PR0 (RULES.md 10.1).
    let mut expected = bench_table();
    expected[104] = 0b100;
    let (table, rest) = buffer.split_at(answer.bytes_written());
    assert_eq!(table, expected);
    assert!(rest.iter().all(|&byte| byte == 0xaa));
}

#[test]
fn a_bad_description_is_refused_at_its_place() {
    let (list, mut edited) = described_bench();
    edited[CAMERA as usize * Device::BYTES + 4] = 0b1000;
    let mut buffer = [0xaa; MAX_TABLE_BYTES];
    let answer = write(1, &list, &edited, &mut buffer);
    assert_eq!((answer.number, answer.place, answer.count), (5, 1, 0));
    assert_eq!(buffer, [0xaa; MAX_TABLE_BYTES]);
    let answer = write(1, &list[..11], &edited, &mut buffer);
    assert_eq!((answer.number, answer.place, answer.count), (4, 2, 0));
}

#[test]
fn versions_numbers_and_rooms_are_refused() {
    let (list, edited) = described_bench();
    let table = bench_table();
    let mut buffer = [0; MAX_TABLE_BYTES];
    let refused = |answer: Answer| answer.verdict().expect("a verdict");
    for version in [0, 3, 257, 258] {
        let version = write(version, &list, &edited, &mut buffer);
        assert_eq!(refused(version), Verdict::NotATable);
    }
    let many = write(1, &[0; 129], &edited, &mut buffer);
    assert_eq!(refused(many), Verdict::TooMany);
    let many = write(2, &[0; 257], &edited, &mut buffer);
    assert_eq!(refused(many), Verdict::TooMany);
    let short = write(1, &list, &edited, &mut buffer[..139]);
    assert_eq!(refused(short), Verdict::NoRoom);
    assert_eq!(refused(write(1, &[], &[], &mut [])), Verdict::NoRoom);
    assert_eq!(refused(describe(&[], &mut [], &mut [])), Verdict::NotATable);
    assert_eq!(refused(describe(&table, &mut [], &mut [])), Verdict::NoRoom);
    let short = describe(&table, &mut [0; 12], &mut [0; 161]);
    assert_eq!(refused(short), Verdict::NoRoom);
}

const LINE: &[u8] = include_bytes!("../../../examples/double-camera.pwt");
const FRONT_CAMERA: u32 = 6;
const LENS_HEATER: u32 = 7;
const REAR_CAMERA: u32 = 12;

/// A buffer for a state, with a table of version 2.
const WIDE_STATE: [u8; Version::Two.state_bytes()] = [0xaa; Version::Two.state_bytes()];

/// A buffer for a plan of any kind, with a table of version 2.
fn wide_plan() -> Vec<u8> {
    vec![0xaa; Version::Two.sleep_plan_bytes()]
}

/// The fresh state of the line.
fn fresh_line() -> [u8; Version::Two.state_bytes()] {
    let mut state = WIDE_STATE;
    assert!(fresh(LINE, &mut state).is_done());
    assert_eq!(state[..256], [0; 256]);
    assert_eq!(on_set(&state), Some((1 << 47) - 1));
    state
}

#[test]
fn buffers_of_version_1_are_refused_with_a_table_of_version_2() {
    let narrow = fresh(LINE, &mut [0; STATE_BYTES]);
    assert_eq!(narrow.verdict(), Some(Verdict::BadState));
    let wide = fresh(&bench_table(), &mut WIDE_STATE.clone());
    assert_eq!(wide.verdict(), Some(Verdict::BadState));
    let mut state = fresh_line();
    for (request, room) in [
        (Request::move_to(LENS_HEATER, D3HOT), 260),
        (Request::sleep(3), 16_640),
    ] {
        let mut buffer = wide_plan();
        let short = plan(LINE, &mut state, request, &mut buffer[..room - 1]);
        assert_eq!(short.verdict(), Some(Verdict::NoRoom));
        assert!(plan(LINE, &mut state, request, &mut buffer[..room]).is_done());
    }
    let short = bring_up(LINE, &mut state, &mut [0; 259]);
    assert_eq!(short.verdict(), Some(Verdict::NoRoom));
}

/// With both cameras armed the line goes to S3. At power-on it is brought up from
/// a resource beyond the 32nd that nothing needs.
#[test]
fn a_line_of_version_2_sleeps_and_is_brought_up() {
    let (mut state, mut buffer) = (fresh_line(), wide_plan());
    for camera in [FRONT_CAMERA, REAR_CAMERA] {
        let arming = Request::arm(camera, 3, D2);
        assert!(plan(LINE, &mut state, arming, &mut buffer).is_done());
    }
    let answer = plan(LINE, &mut state, Request::sleep(3), &mut buffer);
    assert_eq!((answer.number, answer.count), (0, 48));
    let found: Vec<Call> = calls(&buffer[..answer.plan_length()])
        .map(|call| call.expect("a call"))
        .collect();
    assert!(found.contains(&Call::Off { resource: 46 }));
    assert_eq!(state[24..28], [2, 1, 3, 2]);

    let asleep = state;
    assert!(set_on(&mut state, 1 << 46));
    let reported = state;
    let answer = bring_up(LINE, &mut state, &mut buffer);
    assert_eq!((answer.number, answer.count, state), (0, 13, asleep));
    let list = &buffer[..answer.plan_length()];
    assert_eq!(list[48..], [2, 46, 0, 0]);
    assert!(check_bring_up(LINE, &reported, list).is_done());
}

#[test]
fn a_station_is_written_in_both_versions() {
    let (list, devices) = described_bench();
    let mut buffer = [0xaa; Version::Two.max_table_bytes()];
    let answer = write(2, &list, &devices, &mut buffer);
    assert_eq!(answer.bytes_written(), Version::Two.table_bytes(3, 3));
    let (table, rest) = buffer.split_at(answer.bytes_written());
    assert_eq!(Version::of_table(table), Some(Version::Two));
    assert!(rest.iter().all(|&byte| byte == 0xaa));
    let mut lists = ([0; 12], [0; 162]);
    assert!(describe(table, &mut lists.0, &mut lists.1).is_done());
    assert_eq!(lists, (list, devices));

    // The same request gives the same calls.
    let (narrow, mut state) = fresh_bench();
    let mut wide_state = WIDE_STATE;
    assert!(fresh(table, &mut wide_state).is_done());
    let (mut plans, request) = ((wide_plan(), wide_plan()), Request::move_to(CAMERA, D2));
    let answer = plan(&narrow, &mut state, request, &mut plans.0);
    assert_eq!(plan(table, &mut wide_state, request, &mut plans.1), answer);
    assert_eq!((answer.number, answer.count), (0, 1));
    assert_eq!(plans.0, plans.1);
    assert_eq!(on_set(&wide_state), on_set(&state));
    let judged = check(table, &wide_state, request, &[]);
    assert_eq!(judged.verdict(), Some(Verdict::Done));
}

/// The line of 47 resources does not fit into version 1.
#[test]
fn a_line_of_version_2_is_described_and_written() {
    let (mut list, mut edited) = ([0; 47 * 4], [0; 41 * 54]);
    let answer = describe(LINE, &mut list, &mut edited);
    assert_eq!(answer.bytes_written(), 47 * 4 + 41 * 54);
    let camera = devices(&edited).nth(REAR_CAMERA as usize);
    assert_eq!(camera.expect("the camera").sets[4], 1 << 20);
    let mut buffer = [0; Version::Two.max_table_bytes()];
    let narrow = write(1, &list, &edited, &mut buffer);
    assert_eq!(narrow.verdict(), Some(Verdict::TooMany));
    let answer = write(2, &list, &edited, &mut buffer);
    assert_eq!(buffer[..answer.bytes_written()], *LINE);
}
