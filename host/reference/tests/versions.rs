//! Tables of version 2: where each field stands, and each limit and length.

mod common;

use cases::{image, sweep, Case};
use common::{agrees_with_version_2, bench, station, Record, D0, D3COLD, D3HOT};
use reference::{
    bring_up, check, check_bring_up, check_table, demand3, describe, fresh, plan, plan_words,
    record, write, Answer, Request, Version,
};

/// The resources 32 and 63, which only version 2 has.
const HIGH: u64 = 1 << 63 | 1 << 32;

/// The bench station as version 2.
fn wide_bench() -> Vec<u8> {
    sweep::bench_station().table(Version::Two)
}

/// A table of version 2.
fn table(resources: &[(u8, u16)], devices: &[Record]) -> Vec<u8> {
    station(resources, devices).table(Version::Two)
}

/// A state image of version 2.
fn state(entries: &[[u8; 4]], on: u64) -> Vec<u8> {
    image(Version::Two, entries, on)
}

/// A table of version 2 with one byte changed.
fn changed(table: &[u8], index: usize, byte: u8) -> Vec<u8> {
    let mut table = table.to_vec();
    assert_ne!(table[index], byte);
    table[index] = byte;
    table
}

/// A header alone, with this version and these counts.
fn header(version: u16, r: u8, d: u8) -> Vec<u8> {
    let [low, high] = version.to_le_bytes();
    [b"PWT", &[r, low, high, d, 0][..]].concat()
}

#[test]
fn the_bench_station_has_212_bytes_as_version_2() {
    #[rustfmt::skip]
    let camera = [
        0x00, 0x0d, 0x0d, 0x03,
        0x07, 0, 0, 0, 0, 0, 0, 0, // _PR0
        0x00, 0, 0, 0, 0, 0, 0, 0,
        0x05, 0, 0, 0, 0, 0, 0, 0, // _PR2
        0x01, 0, 0, 0, 0, 0, 0, 0, // _PR3
        0x04, 0, 0, 0, 0, 0, 0, 0, // _PRW
        0xff, 0xff, 0x02, 0xff,
        0xff, 0xff, 0xff, 0x03, 0xff,
        0x03,
        0, 0, 0, 0, 0, 0, 0, 0, 0, 0,
    ];
    let table = wide_bench();
    assert_eq!(table.len(), 212);
    assert_eq!(table[..8], [0x50, 0x57, 0x54, 3, 2, 0, 3, 0]);
    assert_eq!(table[8..20], bench()[8..20]);
    assert_eq!(table[84..148], camera);
    assert_eq!(record(&table, 1), camera);
    assert!(std::ptr::eq(record(&table, 2), &table[148..]));
    for d in [3, 64, usize::MAX, usize::MAX / 64 + 1] {
        assert!(record(&table, d).is_empty());
    }
    assert_eq!(check_table(&table), Answer::done(0));
    for length in (8..212).chain([213, 276]) {
        let mut table = table.clone();
        table.resize(length, 0);
        assert_eq!(check_table(&table), Answer::refused(3, 0), "{length}");
    }
}

#[test]
fn answer_1_is_for_all_versions_but_two() {
    for version in 0..=u16::MAX {
        let expected = match version {
            1 | 2 => Answer::done(0),
            _ => Answer::refused(1, 0),
        };
        assert_eq!(check_table(&header(version, 0, 0)), expected, "{version}");
    }
    // It comes before 2.
    assert_eq!(check_table(&header(3, 255, 255)), Answer::refused(1, 0));
}

#[test]
fn each_version_has_its_limits_and_lengths() {
    for (version, limit, record_bytes) in [(1, 32, 40), (2, 64, 64)] {
        for r in [0, 1, 31, 32, 33, 34, 63, 64, 65, 255] {
            for d in [0, 1, 31, 32, 33, 34, 63, 64, 65, 255] {
                let mut table = header(version, r, d);
                table.resize(8 + 4 * usize::from(r), 0);
                let mut device = [0; 64];
                device[0] = 255;
                for _ in 0..d {
                    table.extend(&device[..record_bytes]);
                }
                let (whole, cut) = match r > limit || d > limit {
                    true => (2, 2),
                    false => (0, 3),
                };
                assert_eq!(check_table(&table).number, whole, "{version} {r} {d}");
                table.push(0);
                assert_eq!(check_table(&table).number, cut, "{version} {r} {d}");
            }
        }
    }
}

#[test]
fn answer_5_is_a_field_of_a_record_of_64_bytes() {
    let camera = 84;
    for (offset, byte) in [
        (0, 1),
        (1, 0x1d),
        (3, 0x07),
        (4, 0x0f),  // a bit at R in _PR0
        (8, 0x01),  // bit 32
        (11, 0x80), // bit 63
        (12, 0x01), // _PR1 is absent
        (19, 0x80),
        (23, 0x01),
        (35, 0x40),
        (36, 0x0c),
        (43, 0x80),
        (44, 4),
        (46, 4),
        (48, 5),
        (51, 1), // _S3W is below _S3D
        (52, 254),
        (53, 5),
    ] {
        let answer = check_table(&changed(&wide_bench(), camera + offset, byte));
        assert_eq!(answer, Answer::refused(5, 1), "byte {offset} as {byte}");
    }
    for offset in 54..64 {
        for byte in [1, 255] {
            let answer = check_table(&changed(&wide_bench(), camera + offset, byte));
            assert_eq!(answer, Answer::refused(5, 1), "byte {offset} as {byte}");
        }
    }
    for (offset, byte) in [(0, 255), (44, 3), (48, 4), (51, 255), (53, 4)] {
        let answer = check_table(&changed(&wide_bench(), camera + offset, byte));
        assert_eq!(answer, Answer::done(0), "byte {offset} as {byte}");
    }
}

#[test]
fn a_set_has_the_bits_below_r() {
    for r in [0, 1, 31, 32, 33, 47, 63, 64] {
        for bit in 0..64 {
            let device = Record {
                pr: 1,
                sets: [1 << bit, 0, 0, 0, 0],
                ..Record::default()
            };
            let answer = check_table(&table(&vec![(4, 0); r], &[device]));
            let expected = match bit < r {
                true => Answer::done(0),
                false => Answer::refused(5, 0),
            };
            assert_eq!(answer, expected, "bit {bit} of {r}");
        }
    }
}

#[test]
fn records_and_devices_above_31_are_named() {
    let good = table(&[(4, 0); 64], &[Record::default(); 64]);
    assert_eq!(good.len(), 4_360);
    assert_eq!(check_table(&good), Answer::done(0));
    for place in [0, 31, 32, 63] {
        let bad = |index, byte| check_table(&changed(&good, index, byte));
        let refused = |number| Answer::refused(number, place as u64);
        assert_eq!(bad(8 + 4 * place, 5), refused(4));
        let device = 8 + 4 * 64 + 64 * place;
        assert_eq!(bad(device + 63, 1), refused(5));
        assert_eq!(bad(device + 1, 1), refused(6));
        let mut entries = [[0; 4]; 64];
        entries[place] = [1, 0, 0, 0];
        let answer = check(&good, &state(&entries, 0), Request::default(), &[]);
        assert_eq!(answer, refused(8));
    }
}

#[test]
fn a_fresh_state_has_264_bytes() {
    for (r, on) in [(0, 0), (3, 7), (32, 0xffff_ffff), (33, 0x1_ffff_ffff)] {
        let mut lent = [0xaa; 264];
        let table = table(&vec![(0, 0); r], &[Record::default()]);
        assert_eq!(fresh(&table, &mut lent), Answer::done(0));
        assert_eq!(lent[..], state(&[], on));
    }
    let mut lent = [0xaa; 264];
    assert_eq!(
        fresh(&table(&[(0, 0); 64], &[]), &mut lent),
        Answer::done(0)
    );
    assert_eq!((&lent[..256], &lent[256..]), (&[0; 256][..], &[255; 8][..]));
    for length in [0, 132, 263, 265, 520] {
        let mut lent = vec![0xaa; length];
        assert_eq!(fresh(&wide_bench(), &mut lent), Answer::refused(7, 0));
        assert_eq!(lent, vec![0xaa; length]);
    }
    assert_eq!(fresh(&bench(), &mut [0; 264]), Answer::refused(7, 0));
}

#[test]
fn answer_7_is_the_image_of_the_other_version() {
    let refusal = Answer::refused(7, 0);
    let good = state(&[], 0b111);
    let answer = |table: &[u8], state: &[u8]| {
        let request = Request::default();
        let planned = plan(table, &mut state.to_vec(), request, &mut [0; 260]);
        assert_eq!(check(table, state, request, &[]), planned);
        planned
    };
    assert_eq!(answer(&wide_bench(), &good), Answer::refused(10, 0));
    assert_eq!(answer(&wide_bench(), &common::state(&[], 0b111)), refusal);
    assert_eq!(answer(&bench(), &good), refusal);
    for length in (0..264).chain(265..280) {
        let mut state = good.clone();
        state.resize(length, 0);
        assert_eq!(answer(&wide_bench(), &state), refusal);
    }
    // Each byte of the entries from D on, and each resource at or above R.
    for index in 12..256 {
        assert_eq!(answer(&wide_bench(), &changed(&good, index, 1)), refusal);
    }
    for bit in 3..64 {
        let state = state(&[], 0b111 | 1 << bit);
        assert_eq!(answer(&wide_bench(), &state), refusal);
    }
}

/// A device that needs these resources in D0, others in D3hot, and others to wake
/// the system from S3.
fn switching(in_d0: u64, in_d3hot: u64, to_wake: u64) -> Record {
    Record {
        ps: 9,
        pr: 9,
        flags: 3,
        sets: [in_d0, 0, 0, in_d3hot, to_wake],
        sxw: [4; 5],
        deepest: 3,
        ..Record::default()
    }
}

/// A request with its calls, and the entry and the on-set that it leaves.
type Step = (Request, &'static [[u8; 4]], [u8; 4], u64);

/// What the device of these steps needs in D0.
const IN_D0: u64 = HIGH | 1;

fn steps() -> [Step; 4] {
    [
        (
            Request::move_to(0, D3COLD),
            &[[3, 0, 3, 0], [2, 63, 0, 0], [2, 0, 0, 0], [2, 32, 0, 0]],
            [4, 0, 0, 0],
            0,
        ),
        (
            Request::move_to(0, D0),
            &[[1, 32, 0, 0], [1, 0, 0, 0], [1, 63, 0, 0], [3, 0, 0, 0]],
            [0; 4],
            IN_D0,
        ),
        (
            Request::arm(0, 3, D3COLD),
            &[[1, 47, 0, 0], [4, 0, 3, 0x84]],
            [0, 1, 3, 4],
            IN_D0 | 1 << 47,
        ),
        (
            Request::move_to(0, D3HOT),
            &[
                [3, 0, 3, 0],
                [1, 40, 0, 0],
                [2, 63, 0, 0],
                [2, 0, 0, 0],
                [2, 32, 0, 0],
            ],
            [3, 1, 3, 4],
            1 << 40 | 1 << 47,
        ),
    ]
}

#[test]
fn resources_above_31_are_switched_by_their_order() {
    let mut resources = [(3, 5); 64];
    resources[32].1 = 2;
    resources[63].1 = 9;
    let table = table(&resources, &[switching(IN_D0, 1 << 40, 1 << 47)]);
    let mut present = state(&[], IN_D0);
    for (request, calls, entry, on) in steps() {
        let before = present.clone();
        let mut buffer = [0x5a; 260];
        let answer = plan(&table, &mut present, request, &mut buffer);
        assert_eq!(answer, Answer::done(calls.len() as u16), "{request:?}");
        let list = calls.as_flattened();
        assert_eq!(buffer[..list.len()], *list, "{request:?}");
        assert_eq!(present, state(&[entry], on), "{request:?}");
        assert_eq!(check(&table, &before, request, list), Answer::done(0));
        assert_eq!(demand3(&table, &before, request, list), Ok(()));
    }
}

#[test]
fn a_need_above_31_that_is_off_is_8() {
    let table = table(&[(3, 0); 64], &[switching(HIGH, 0, 0)]);
    let answer = |on| check(&table, &state(&[], on), Request::default(), &[]).number;
    assert_eq!(
        [HIGH, u64::MAX, 1 << 63, 1 << 32].map(answer),
        [10, 10, 8, 8]
    );
}

/// A station of 64 resources and 64 devices of which the first needs all in D0.
fn full() -> Vec<u8> {
    let needs_all = Record {
        ps: 9,
        pr: 9,
        sets: [u64::MAX, 0, 0, 0, 0],
        ..Record::default()
    };
    let mut devices = [Record::default(); 64];
    devices[0] = needs_all;
    table(&[(4, 7); 64], &devices)
}

#[test]
fn a_plan_has_65_calls_at_most_and_needs_room_for_them() {
    let start = state(&[[4, 0, 0, 0]], 0);
    let request = Request::move_to(0, D0);
    for room in [0, 33, 64] {
        let (mut lent, mut words) = (start.clone(), vec![0x5a; room]);
        let answer = plan_words(&full(), &mut lent, request, &mut words);
        assert_eq!(answer, Answer::refused(9, 0), "{room}");
        assert_eq!((lent, words), (start.clone(), vec![0x5a; room]));
    }
    for bytes in [132, 256, 259] {
        let answer = plan(&full(), &mut start.clone(), request, &mut vec![0; bytes]);
        assert_eq!(answer, Answer::refused(9, 0), "{bytes}");
        let answer = bring_up(&full(), &mut start.clone(), &mut vec![0; bytes]);
        assert_eq!(answer, Answer::refused(9, 0), "{bytes}");
    }
    let mut lent = start.clone();
    let mut buffer = [0; 260];
    let answer = plan(&full(), &mut lent, request, &mut buffer);
    assert_eq!(answer, Answer::done(65));
    assert_eq!(lent, state(&[], u64::MAX));
    let turn_on: Vec<[u8; 4]> = (0..64).map(|r| [1, r, 0, 0]).collect();
    assert_eq!(buffer, *[turn_on.as_flattened(), &[3, 0, 0, 0]].concat());
    assert_eq!(check(&full(), &start, request, &buffer), Answer::done(0));
}

#[test]
fn bring_up_switches_64_resources() {
    let turn_on: Vec<u8> = (0..64).flat_map(|r| [1, r, 0, 0]).collect();
    let turn_off: Vec<u8> = (0..64).rev().flat_map(|r| [2, r, 0, 0]).collect();
    for (entry, on, list) in [([0; 4], 0, &turn_on), ([4, 0, 0, 0], u64::MAX, &turn_off)] {
        let reported = state(&[entry], on);
        let (mut lent, mut buffer) = (reported.clone(), [0x5a; 260]);
        assert_eq!(bring_up(&full(), &mut lent, &mut buffer), Answer::done(64));
        assert_eq!(buffer[..256], **list);
        assert_eq!(buffer[256..], [0x5a; 4]);
        assert_eq!(lent, state(&[entry], !on));
        assert_eq!(check_bring_up(&full(), &reported, list), Answer::done(0));
        let cut = check_bring_up(&full(), &reported, &list[4..]);
        assert_eq!(cut, Answer::refused(19, 0));
    }
}

/// 64 devices, each with a resource of its own that cannot be on in S1.
fn asleep_without_power() -> Vec<u8> {
    let device = |d: u64| Record {
        ps: 9,
        pr: 9,
        sets: [1 << d, 0, 0, 0, 0],
        ..Record::default()
    };
    let devices: Vec<Record> = (0..64).map(device).collect();
    table(&[(0, 0); 64], &devices)
}

#[test]
fn sleep_entry_needs_4160_words() {
    let table = asleep_without_power();
    let start = state(&[], u64::MAX);
    for room in [0, 65, 1_056, 4_159] {
        let (mut lent, mut words) = (start.clone(), vec![0; room]);
        let answer = plan_words(&table, &mut lent, Request::sleep(1), &mut words);
        assert_eq!(answer, Answer::refused(9, 0), "{room}");
        let (mut lent, mut bytes) = (start.clone(), vec![0; 4 * room + 3]);
        let answer = plan(&table, &mut lent, Request::sleep(1), &mut bytes);
        assert_eq!(answer, Answer::refused(9, 0), "{room}");
    }
    let (mut lent, mut buffer) = (start, [0x5a; 16_640]);
    let answer = plan(&table, &mut lent, Request::sleep(1), &mut buffer);
    assert_eq!(answer, Answer::done(128));
    let move_of = |d: u8| [[3, d, 3, 0], [2, d, 0, 0]];
    let calls: Vec<[u8; 4]> = (0..64).rev().flat_map(move_of).collect();
    assert_eq!(buffer[..512], *calls.as_flattened());
    assert!(buffer[512..].iter().all(|&byte| byte == 0x5a));
    assert_eq!(lent, state(&[[3, 0, 0, 0]; 64], 0));
}

#[test]
fn the_last_of_64_devices_can_be_asked_for() {
    let request = |device| Request::move_to(device, D3HOT);
    let answer = |device| check(&full(), &state(&[], u64::MAX), request(device), &[]);
    assert_eq!(answer(63), Answer::done(0));
    assert_eq!(answer(64), Answer::refused(10, 0));
    let link = |d: u8| Record {
        parent: d.checked_sub(1).unwrap_or(255),
        ..Record::default()
    };
    let links: Vec<Record> = (0..64).map(link).collect();
    let chain = table(&[], &links);
    let answer = |entries: &[[u8; 4]], request| check(&chain, &state(entries, 0), request, &[]);
    let down = [[3, 0, 0, 0]; 64];
    assert_eq!(
        answer(&down, Request::move_to(63, D0)),
        Answer::refused(13, 62)
    );
    assert_eq!(answer(&[], request(62)), Answer::refused(14, 63));
}

/// Two lists of records written in some version.
fn written(version: u32, r: usize, d: usize, room: usize) -> Answer {
    let mut device = [0; 54];
    device[0] = 255;
    let resources = vec![0; 4 * r];
    write(version, &resources, &device.repeat(d), &mut vec![0; room])
}

#[test]
fn the_writer_has_the_limits_and_the_room_of_its_version() {
    for (version, limit, record_bytes) in [(1, 32, 40), (2, 64, 64)] {
        for r in [0, 31, 32, 33, 34, 63, 64, 65, 255, 256] {
            for d in [0, 31, 32, 33, 34, 63, 64, 65, 255, 256] {
                let length = 8 + 4 * r + record_bytes * d;
                let (done, short) = match r > limit || d > limit {
                    true => (Answer::refused(2, 0), 2),
                    false => (Answer::done(length as u16), 9),
                };
                assert_eq!(written(version, r, d, length), done);
                assert_eq!(written(version, r, d, length - 1).number, short);
            }
        }
    }
    for version in [0, 3, 256, 257, 258, 0xffff, 0x1_0001, 0x1_0002, u32::MAX] {
        for count in [0, 33, 65] {
            let answer = written(version, count, count, 0);
            assert_eq!(answer, Answer::refused(1, 0), "{version}");
        }
    }
}

#[test]
fn one_description_is_written_as_either_version() {
    let lists = sweep::bench_station().description();
    for (version, table) in [(1, bench()), (2, wide_bench())] {
        let mut lent = vec![0x5a; table.len() + 5];
        let answer = write(version, &lists.resources, &lists.devices, &mut lent);
        assert_eq!(answer, Answer::done(table.len() as u16));
        assert_eq!(lent, [&table[..], &[0x5a; 5]].concat());
        let (mut resources, mut devices) = ([0x5a; 12], [0x5a; 162]);
        let answer = describe(&table, &mut resources, &mut devices);
        assert_eq!(answer, Answer::done(174));
        assert_eq!(resources, *lists.resources);
        assert_eq!(devices, *lists.devices);
    }
    agrees_with_version_2(&Case::of_station(Version::One, &sweep::bench_station()));
}

#[test]
fn what_version_1_cannot_hold_is_described_and_written_as_version_2() {
    let station = station(&[(3, 513); 64], &[switching(HIGH, 1 << 31, 1 << 33)]);
    let table = station.table(Version::Two);
    let (mut resources, mut devices) = ([0; 256], [0; 54]);
    let answer = describe(&table, &mut resources, &mut devices);
    assert_eq!(answer, Answer::done(310));
    assert_eq!(devices[4..12], [0, 0, 0, 0, 1, 0, 0, 0x80]);
    assert_eq!(devices[..54], table[8 + 256..][..54]);
    let mut lent = vec![0; table.len()];
    let answer = write(2, &resources, &devices, &mut lent);
    assert_eq!((answer, &lent), (Answer::done(328), &table));
    let as_version_1 = write(1, &resources, &devices, &mut lent);
    assert_eq!(as_version_1, Answer::refused(2, 0));
    // With 32 resources left, the bits above are 5 in both.
    for version in [1, 2] {
        let answer = write(version, &resources[..128], &devices, &mut lent);
        assert_eq!(answer, Answer::refused(5, 0));
    }
}
