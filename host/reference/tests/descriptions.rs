//! The writer and its inverse: the bench station byte by byte, and each answer
//! with its place.

mod common;

use common::{bench, Record};
use reference::{describe, write, Answer, DESCRIBED_DEVICE_BYTES, DESCRIBED_RESOURCE_BYTES};

/// What a lent buffer holds before a call.
const LENT: u8 = 0x5a;
/// How many bytes past the result are lent as well.
const MORE: usize = 7;

/// The resources of the bench station as they are described.
const RESOURCES: [[u8; 4]; 3] = [[3, 0, 1, 0], [0, 0, 2, 0], [3, 0, 1, 0]];

#[rustfmt::skip]
const BUS: [u8; 54] = [
    0xff, 0x09, 0x09, 0x00,
    0x01, 0, 0, 0, 0, 0, 0, 0, // _PR0
    0x00, 0, 0, 0, 0, 0, 0, 0,
    0x00, 0, 0, 0, 0, 0, 0, 0,
    0x01, 0, 0, 0, 0, 0, 0, 0, // _PR3
    0x00, 0, 0, 0, 0, 0, 0, 0,
    0xff, 0xff, 0xff, 0xff,
    0xff, 0xff, 0xff, 0xff, 0xff,
    0x00,
];

#[rustfmt::skip]
const CAMERA: [u8; 54] = [
    0x00, 0x0d, 0x0d, 0x03,
    0x07, 0, 0, 0, 0, 0, 0, 0, // _PR0
    0x00, 0, 0, 0, 0, 0, 0, 0,
    0x05, 0, 0, 0, 0, 0, 0, 0, // _PR2
    0x01, 0, 0, 0, 0, 0, 0, 0, // _PR3
    0x04, 0, 0, 0, 0, 0, 0, 0, // _PRW
    0xff, 0xff, 0x02, 0xff,
    0xff, 0xff, 0xff, 0x03, 0xff,
    0x03,
];

#[rustfmt::skip]
const LAMP: [u8; 54] = [
    0x00, 0x00, 0x09, 0x00,
    0x02, 0, 0, 0, 0, 0, 0, 0, // _PR0
    0x00, 0, 0, 0, 0, 0, 0, 0,
    0x00, 0, 0, 0, 0, 0, 0, 0,
    0x00, 0, 0, 0, 0, 0, 0, 0, // _PR3, there and empty
    0x00, 0, 0, 0, 0, 0, 0, 0,
    0xff, 0xff, 0xff, 0xff,
    0xff, 0xff, 0xff, 0xff, 0xff,
    0x00,
];

const DEVICES: [[u8; 54]; 3] = [BUS, CAMERA, LAMP];

/// A device without any object and without a parent.
const PLAIN: [u8; 54] = {
    let mut device = [0; 54];
    device[0] = 255;
    let mut index = 44;
    while index < 53 {
        device[index] = 255;
        index += 1;
    }
    device
};

/// Two lists of records, which may be cut short.
#[derive(Clone)]
struct Lists {
    resources: Vec<u8>,
    devices: Vec<u8>,
}

impl Lists {
    fn new(resources: &[[u8; 4]], devices: &[[u8; 54]]) -> Self {
        Self {
            resources: resources.concat(),
            devices: devices.concat(),
        }
    }

    fn bench() -> Self {
        Self::new(&RESOURCES, &DEVICES)
    }

    /// 32 resources and 32 plain devices.
    fn full() -> Self {
        Self::new(&[[4, 0, 0, 0]; 32], &[PLAIN; 32])
    }

    /// One byte of resource `r` changed.
    fn resource(mut self, r: usize, offset: usize, byte: u8) -> Self {
        self.resources[4 * r + offset] = byte;
        self
    }

    /// One byte of device `d` changed.
    fn device(mut self, d: usize, offset: usize, byte: u8) -> Self {
        self.devices[54 * d + offset] = byte;
        self
    }

    fn lengths(mut self, resources: usize, devices: usize) -> Self {
        self.resources.resize(resources, 0);
        self.devices.resize(devices, 0);
        self
    }

    /// The answer for version 1 and so much room. A refusal writes nothing.
    fn answer(&self, room: usize) -> Answer {
        self.answer_for(1, room)
    }

    fn answer_for(&self, version: u32, room: usize) -> Answer {
        let mut table = vec![LENT; room];
        let answer = write(version, &self.resources, &self.devices, &mut table);
        assert!(answer.is_done() || table == vec![LENT; room]);
        answer
    }

    /// This refusal for any room that the records need or more.
    fn refuses(&self, number: u8, place: u64) {
        let (r, d) = (
            self.resources.len().div_ceil(4),
            self.devices.len().div_ceil(54),
        );
        let room = 8 + 4 * r + 40 * d;
        for room in [room, room + 1, room + 400] {
            assert_eq!(self.answer(room), Answer::refused(number, place));
        }
    }

    /// The lists make exactly this table, and it describes exactly these lists.
    fn stand_for(&self, table: &[u8]) {
        for more in [0, MORE] {
            let mut lent = vec![LENT; table.len() + more];
            let answer = write(1, &self.resources, &self.devices, &mut lent);
            assert_eq!(answer, Answer::done(table.len() as u16));
            assert_eq!(lent, [table, &[LENT; MORE][..more]].concat());

            let mut resources = vec![LENT; self.resources.len() + more];
            let mut devices = vec![LENT; self.devices.len() + 2 * more];
            let answer = describe(table, &mut resources, &mut devices);
            let count = self.resources.len() + self.devices.len();
            assert_eq!(answer, Answer::done(count as u16));
            let rest = [LENT; 2 * MORE];
            assert_eq!(resources, [&self.resources[..], &rest[..more]].concat());
            assert_eq!(devices, [&self.devices[..], &rest[..2 * more]].concat());
        }
    }
}

#[test]
fn records_have_their_lengths() {
    assert_eq!(DESCRIBED_RESOURCE_BYTES, 4);
    assert_eq!(DESCRIBED_DEVICE_BYTES, 54);
}

#[test]
fn the_bench_station_is_written_and_described() {
    // 12 and 162 bytes describe the 140 of the table.
    let lists = Lists::bench();
    assert_eq!((lists.resources.len(), lists.devices.len()), (12, 162));
    lists.stand_for(&bench());
}

#[test]
fn a_station_of_nothing_has_a_header_only() {
    Lists::new(&[], &[]).stand_for(&[0x50, 0x57, 0x54, 0, 1, 0, 0, 0]);
    let resource = [[4, 0, 0x34, 0x12]];
    let table = [0x50, 0x57, 0x54, 1, 1, 0, 0, 0, 4, 0, 0x34, 0x12];
    Lists::new(&resource, &[]).stand_for(&table);
}

#[test]
fn a_device_has_its_fields_in_this_order() {
    // Every field has a value of its own, every set other bits.
    #[rustfmt::skip]
    let described = [
        255, 0x0f, 0x0f, 0x03,
        0x01, 0x02, 0x03, 0x84, 0, 0, 0, 0,
        0x11, 0x12, 0x13, 0x94, 0, 0, 0, 0,
        0x21, 0x22, 0x23, 0xa4, 0, 0, 0, 0,
        0x31, 0x32, 0x33, 0xb4, 0, 0, 0, 0,
        0x41, 0x42, 0x43, 0xc4, 0, 0, 0, 0,
        0, 1, 2, 3,
        255, 0, 1, 2, 4,
        3,
    ];
    #[rustfmt::skip]
    let record = [
        255, 0x0f, 0x0f, 0x03,
        0x01, 0x02, 0x03, 0x84,
        0x11, 0x12, 0x13, 0x94,
        0x21, 0x22, 0x23, 0xa4,
        0x31, 0x32, 0x33, 0xb4,
        0x41, 0x42, 0x43, 0xc4,
        0, 1, 2, 3,
        255, 0, 1, 2, 4,
        3,
        0, 0, 0, 0, 0, 0,
    ];
    let header = [0x50, 0x57, 0x54, 32, 1, 0, 1, 0];
    let resources = [[2, 0, 0xfe, 0xff]; 32];
    let table = [&header[..], &resources.concat(), &record].concat();
    Lists::new(&resources, &[described]).stand_for(&table);
}

#[test]
fn a_full_station_has_1416_bytes() {
    let table = common::table(&[(4, 0); 32], &[Record::default(); 32]);
    assert_eq!(table.len(), 1416);
    Lists::full().stand_for(&table);
    assert_eq!(Lists::full().answer(1416), Answer::done(1416));
}

#[test]
fn answer_1_is_the_whole_number_of_the_version() {
    let refusal = Answer::refused(1, 0);
    for version in [0, 3, 257, 258, 65_537, 65_538, 0x0100_0001, u32::MAX] {
        assert_eq!(Lists::bench().answer_for(version, 140), refusal);
        // It comes before 2, 9, 4 and 5.
        let many = Lists::bench().lengths(133, 1729);
        assert_eq!(many.answer_for(version, 4000), refusal);
        assert_eq!(Lists::bench().answer_for(version, 0), refusal);
        let bad = Lists::bench().resource(0, 0, 5).device(0, 1, 255);
        assert_eq!(bad.answer_for(version, 140), refusal);
    }
}

#[test]
fn answer_2_is_a_33rd_record_even_if_it_is_cut_short() {
    let refusal = Answer::refused(2, 0);
    for (resources, devices) in [
        (129, 0),
        (130, 0),
        (132, 0),
        (4 * 256, 0),
        (4 * 256 + 12, 162),
        (0, 1729),
        (0, 54 * 33),
        (0, 54 * 256),
        (12, 54 * 256 + 162),
        (1 << 20, 1 << 20),
    ] {
        let lists = Lists::bench().lengths(resources, devices);
        assert_eq!(lists.answer(1 << 22), refusal);
        // It comes before 9, and before 4 and 5.
        assert_eq!(lists.answer(0), refusal);
        if resources > 0 && devices > 0 {
            let bad = lists.resource(0, 0, 5).device(0, 1, 255);
            assert_eq!(bad.answer(1 << 22), refusal);
        }
    }
    assert_eq!(Lists::full().answer(1416).number, 0);
}

#[test]
fn answer_9_is_the_room_for_the_table() {
    let refusal = Answer::refused(9, 0);
    for room in 0..140 {
        assert_eq!(Lists::bench().answer(room), refusal);
        // It comes before 4 and 5.
        let bad = Lists::bench().resource(0, 0, 5).device(0, 1, 255);
        assert_eq!(bad.answer(room), refusal);
    }
    assert_eq!(Lists::full().answer(1415), refusal);
    assert_eq!(Lists::new(&[], &[]).answer(7), refusal);
    // A record that is cut short needs room as well.
    for (resources, devices, room, number) in [(13, 162, 144, 4), (12, 163, 180, 5)] {
        let lists = Lists::bench().lengths(resources, devices);
        assert_eq!(lists.answer(room - 1), refusal);
        assert_eq!(lists.answer(room), Answer::refused(number, 3));
    }
}

#[test]
fn answer_4_is_a_resource() {
    for r in 0..3 {
        for (offset, byte) in [(0, 5), (0, 255), (1, 1), (1, 128)] {
            Lists::bench()
                .resource(r, offset, byte)
                .refuses(4, r as u64);
        }
        for (offset, byte) in [(0, 4), (2, 255), (3, 255)] {
            let answer = Lists::bench().resource(r, offset, byte).answer(140);
            assert_eq!(answer, Answer::done(140));
        }
    }
    for r in 0..32 {
        Lists::full().resource(r, 0, 5).refuses(4, r as u64);
        Lists::full().resource(r, 1, 1).refuses(4, r as u64);
    }
    // The lowest decides, and a later resource comes before an earlier device.
    let bad = Lists::bench().resource(2, 1, 1).device(0, 1, 255);
    bad.refuses(4, 2);
    bad.resource(1, 0, 5).refuses(4, 1);
}

#[test]
fn answer_4_is_a_resource_that_is_cut_short() {
    for length in 1..128 {
        let lists = Lists::full().lengths(length, 54);
        match length % 4 {
            0 => assert_eq!(lists.answer(200).number, 0),
            _ => lists.refuses(4, length as u64 / 4),
        }
    }
    // A lower bad resource comes first; a cut one comes before every device.
    let cut = Lists::bench().lengths(11, 161).device(0, 1, 255);
    cut.refuses(4, 2);
    cut.resource(1, 0, 5).refuses(4, 1);
}

#[test]
fn answer_5_is_a_device_field() {
    for (offset, byte) in [
        (0, 1),
        (0, 2),
        (0, 254),
        (1, 0x1d),
        (2, 0x8d),
        (3, 0x07),
        (3, 0x83),
        (12, 0x01), // _PR1 is absent
        (19, 0x80),
        (44, 4),
        (45, 254),
        (46, 4),
        (48, 5),
        (52, 254),
        (51, 1), // _S3W is below _S3D
        (53, 5),
        (53, 255),
    ] {
        Lists::bench().device(1, offset, byte).refuses(5, 1);
    }
    // A set, and a deepest sleep state, without _PRW.
    Lists::bench().device(2, 36, 1).refuses(5, 2);
    Lists::bench().device(2, 53, 1).refuses(5, 2);
    // The first device has no lower number to name.
    Lists::bench().device(0, 0, 0).refuses(5, 0);
    for d in 0..32 {
        Lists::full().device(d, 53, 1).refuses(5, d as u64);
    }
}

#[test]
fn answer_5_leaves_good_values() {
    for (offset, byte) in [
        (0, 255),
        (4, 0),
        (44, 0),
        (44, 3),
        (48, 0),
        (48, 4),
        (49, 0),
        (51, 2),
        (51, 255),
        (53, 0),
        (53, 4),
    ] {
        let answer = Lists::bench().device(1, offset, byte).answer(140);
        assert_eq!(answer, Answer::done(140), "byte {offset} as {byte}");
    }
}

#[test]
fn answer_5_is_a_set_bit_at_or_above_r() {
    // Each of the five sets begins at byte 4 + 8 i; the camera has no _PR1.
    for set in [0, 2, 3, 4] {
        for bit in 0..64 {
            let offset = 4 + 8 * set + bit / 8;
            let byte = CAMERA[offset] | 1 << (bit % 8);
            let lists = Lists::bench().device(1, offset, byte);
            match bit < 3 {
                true => assert_eq!(lists.answer(140), Answer::done(140)),
                false => lists.refuses(5, 1),
            }
        }
    }
    // With 32 resources a table has every bit of its sets, and a description more.
    for bit in 0..64 {
        let mut device = PLAIN;
        device[2] = 1;
        device[4 + bit / 8] = 1 << (bit % 8);
        let lists = Lists::new(&[[0; 4]; 32], &[PLAIN, device]);
        match bit < 32 {
            true => assert_eq!(lists.answer(216), Answer::done(216)),
            false => lists.refuses(5, 1),
        }
    }
}

#[test]
fn answer_5_is_a_device_that_is_cut_short() {
    for length in 1..54 * 32 {
        let lists = Lists::full().lengths(128, length);
        match length % 54 {
            0 => assert_eq!(lists.answer(1416).number, 0),
            _ => lists.refuses(5, length as u64 / 54),
        }
    }
    // A lower device comes first, whether it has a 5 or a 6.
    let cut = Lists::bench().lengths(12, 161);
    cut.refuses(5, 2);
    cut.clone().device(1, 53, 5).refuses(5, 1);
    cut.device(1, 1, 0x01).refuses(6, 1);
}

#[test]
fn answer_6_is_an_object_rule() {
    for ps in 0..16u8 {
        for pr in 0..16u8 {
            for flags in 0..4u8 {
                let mut device = PLAIN;
                device[1..4].copy_from_slice(&[ps, pr, flags]);
                let lists = Lists::new(&[], &[PLAIN, device]);
                let ps_rule = ps == 0 || ps & 9 == 9;
                let pr_rule = pr == 0 || pr & 1 == 1;
                let both_rule = ps == 0 || pr == 0 || ps & 7 == pr & 7;
                let wake_rule = flags != 2;
                match ps_rule && pr_rule && both_rule && wake_rule {
                    true => assert_eq!(lists.answer(88), Answer::done(88)),
                    false => lists.refuses(6, 1),
                }
            }
        }
    }
    for d in 0..32 {
        Lists::full().device(d, 1, 0x01).refuses(6, d as u64);
    }
    // 5 comes before 6 in one device, and 6 of device 1 before 5 of device 2.
    let broken = Lists::bench().device(1, 1, 0x01);
    broken.clone().device(1, 53, 5).refuses(5, 1);
    broken.device(2, 53, 5).refuses(6, 1);
}

/// A table that is refused so whatever is lent beside it, and nothing is written.
fn refuses_to_describe(table: &[u8], resources: usize, devices: usize, number: u8, place: u64) {
    let mut lent = (vec![LENT; resources], vec![LENT; devices]);
    let before = lent.clone();
    let answer = describe(table, &mut lent.0, &mut lent.1);
    assert_eq!(answer, Answer::refused(number, place));
    assert_eq!(lent, before);
}

#[test]
fn describe_refuses_a_table_before_a_buffer() {
    let changed = |index: usize, byte| {
        let mut table = bench();
        table[index] = byte;
        table
    };
    for (table, number, place) in [
        (vec![], 1, 0),
        (changed(0, b'p'), 1, 0),
        (changed(4, 3), 1, 0),
        (changed(4, 2), 3, 0),
        (changed(3, 33), 2, 0),
        (changed(6, 33), 2, 0),
        (bench()[..139].to_vec(), 3, 0),
        (changed(12, 5), 4, 1),
        (changed(60 + 39, 1), 5, 1), // a reserved byte of the camera
        (changed(101, 0x01), 6, 2),
    ] {
        for (resources, devices) in [(0, 0), (12, 162), (12, 161), (200, 2000)] {
            refuses_to_describe(&table, resources, devices, number, place);
        }
    }
}

#[test]
fn answer_9_is_the_room_for_the_two_lists() {
    for resources in 0..12 {
        refuses_to_describe(&bench(), resources, 162, 9, 0);
        refuses_to_describe(&bench(), resources, 4000, 9, 0);
    }
    for devices in 0..162 {
        refuses_to_describe(&bench(), 12, devices, 9, 0);
        refuses_to_describe(&bench(), 4000, devices, 9, 0);
    }
    // A list of nothing needs no room.
    let header = [0x50, 0x57, 0x54, 0, 1, 0, 0, 0];
    assert_eq!(describe(&header, &mut [], &mut []), Answer::done(0));
}
