//! Tables of version 2, beside the same stations in version 1.

use cases::{Rng, Station};
use reference::Version;

use crate::desk::Desk;
use crate::write::many;

const EXAMPLE: &str = include_str!("../../../../examples/station.txt");

/// A desk with the bench station in version 1, `table`, and in version 2, `wide`,
/// and the fresh state of each, `state` and `wide-state`.
fn desk(name: &str) -> Desk {
    let desk = Desk::new(name);
    desk.run("convert table --version 2 -o wide").done();
    desk.run("fresh wide -o wide-state").done();
    desk
}

#[test]
fn the_bench_station_is_written_in_version_2() {
    let desk = Desk::new("versions_bench");
    desk.write("text", EXAMPLE.as_bytes());
    let text = desk.run("write text --version 2 -o wide").done();
    let size = "Table of version 2, 212 bytes: 3 resources, 3 devices\n";
    assert_eq!(text, format!("Answer 0, place 0: done.\n{size}"));
    let table = desk.read("wide");
    assert_eq!(table[..8], *b"PWT\x03\x02\0\x03\0");
    // The camera: its sets have 8 bytes each, and ten zeros end its record.
    let camera = &table[20 + 64..20 + 128];
    assert_eq!(camera[..4], [0, 0x0d, 0x0d, 3]);
    let sets: Vec<u8> = [7, 0, 5, 1, 4]
        .iter()
        .flat_map(|&set: &u64| set.to_le_bytes())
        .collect();
    assert_eq!(camera[4..44], sets);
    assert_eq!(camera[44..54], [255, 255, 2, 255, 255, 255, 255, 3, 255, 3]);
    assert_eq!(camera[54..], [0; 10]);
    assert!(desk.run("show wide").done().starts_with(size));

    let named = EXAMPLE.replace("version 1", "version 2");
    desk.write("named", named.as_bytes());
    desk.run("write named -o new").done();
    assert_eq!(desk.read("new"), table);
    desk.run("write named --version 1 -o new").done();
    assert_eq!(desk.read("new"), desk.read("table"));
}

#[test]
fn what_is_shown_and_described_differs_in_the_version_alone() {
    let desk = desk("versions_described");
    let lines = |line: &str| desk.run(line).done();
    let (one, two) = (lines("describe table"), lines("describe wide"));
    assert!(two.contains("\nversion 2\n"));
    assert_eq!(two, one.replace("\nversion 1\n", "\nversion 2\n"));
    let (one, two) = (lines("show table"), lines("show wide"));
    assert_eq!(
        two,
        one.replace("version 1, 140 bytes", "version 2, 212 bytes")
    );
}

#[test]
fn a_fresh_state_has_the_length_of_its_version() {
    let desk = desk("versions_fresh");
    let mut expected = [0; 264];
    expected[256] = 7;
    assert_eq!(desk.read("wide-state"), expected);
}

#[test]
fn as_many_records_are_written_as_the_version_allows() {
    let desk = Desk::new("versions_many");
    for (resources, devices) in [(33, 2), (2, 33), (47, 41), (64, 64)] {
        desk.write("text", many(resources, devices).as_bytes());
        let text = desk.run("write text -o new").refused(2);
        assert!(text.contains(": there are more than 32 resources or more than 32 devices.\n"));
        assert!(text.ends_with("; with --version 2 there is room for 64 of each\n"));
        assert!(!desk.has("new"));
        let text = desk.run("write text --version 2 -o new").done();
        let bytes = 8 + 4 * resources + 64 * devices;
        assert!(text.ends_with(&format!(
            "Table of version 2, {bytes} bytes: {resources} resources, {devices} devices\n"
        )));
        let described = desk.run("describe new").done();
        assert_eq!(described.matches("\nresource ").count(), resources);
        assert_eq!(described.matches("\ndevice ").count(), devices);
        assert!(described.ends_with(&format!(" r{}\n", resources - 1)));
        desk.run("fresh new -o state").done();
        let last = devices - 1;
        desk.run(&format!("plan new state move {last} D0")).done();
        desk.remove("new");
    }
}

#[test]
fn more_records_are_refused_in_both_versions() {
    let desk = Desk::new("versions_too_many");
    for (resources, devices, position) in [(65, 2, "66:10"), (64, 65, "130:8"), (300, 2, "66:10")] {
        desk.write("text", many(resources, devices).as_bytes());
        let text = desk.run("write text --version 2 -o new").refused(2);
        assert_eq!(
            text,
            format!(
                "Answer 2, place 0: there are more than 64 resources or more than 64 devices.\n\
                 text:{position}: the text has {resources} resources and {devices} devices\n"
            )
        );
        let text = desk.run("write text -o new").refused(2);
        assert!(!text.contains("--version 2"), "{text}");
        assert!(!desk.has("new"));
    }
}

/// An unknown version stays unknown, whatever is asked for.
#[test]
fn a_text_of_another_version_is_refused() {
    let desk = Desk::new("versions_unknown");
    desk.write("text", b"version 3\n");
    for line in ["write text -o new", "write text --version 2 -o new"] {
        let text = desk.run(line).refused(1);
        assert!(text.ends_with("\ntext:1:9: the version is 3\n"), "{text}");
        assert!(!desk.has("new"));
    }
}

#[test]
fn a_table_is_converted_there_and_back() {
    let desk = Desk::new("versions_convert");
    let text = desk.run("convert table --version 2 -o wide").done();
    assert_eq!(
        text,
        "Answer 0, place 0: done.\nTable of version 2, 212 bytes: 3 resources, 3 devices\n"
    );
    desk.run("convert wide --version 1 -o back").done();
    assert_eq!(desk.read("back"), desk.read("table"));
    desk.run("convert wide --version 2 -o copy").done();
    assert_eq!(desk.read("copy"), desk.read("wide"));
    for (resources, devices) in [(0, 0), (32, 2), (32, 32)] {
        let text = match devices {
            0 => "version 1\n".into(),
            _ => many(resources, devices),
        };
        desk.write("text", text.as_bytes());
        desk.run("write text -o table").done();
        desk.run("convert table --version 2 -o wide").done();
        assert_eq!(desk.read("wide").len(), 8 + 4 * resources + 64 * devices);
        desk.run("convert wide --version 1 -o back").done();
        assert_eq!(desk.read("back"), desk.read("table"));
    }
}

#[test]
fn random_tables_are_converted_there_and_back() {
    let desk = Desk::new("versions_random");
    let mut rng = Rng::new(51);
    for _ in 0..40 {
        let station = Station::random(&mut rng, Version::One);
        desk.write("table", &station.table(Version::One));
        desk.run("convert table --version 2 -o wide").done();
        assert_eq!(desk.read("wide"), station.table(Version::Two));
        desk.run("convert wide --version 1 -o back").done();
        assert_eq!(desk.read("back"), desk.read("table"));
    }
}

#[test]
fn a_table_that_does_not_fit_is_not_converted() {
    let desk = Desk::new("versions_convert_refused");
    for (resources, devices) in [(33, 2), (2, 33), (64, 64)] {
        desk.write("text", many(resources, devices).as_bytes());
        desk.run("write text --version 2 -o wide").done();
        let text = desk.run("convert wide --version 1 -o new").refused(2);
        assert_eq!(
            text,
            format!(
                "Answer 2, place 0: the table has {resources} resources and {devices} devices, \
                 and version 1 allows 32 of each.\n"
            )
        );
        assert!(!desk.has("new"));
    }
    desk.write("table", b"PWT\0\x03\0\0\0");
    desk.run("convert table --version 2 -o new").refused(1);
    assert!(!desk.has("new"));
}

#[test]
fn wrong_usage_of_convert_is_explained() {
    let desk = Desk::new("versions_usage");
    let table = desk.read("table");
    desk.each_fails([
        ("convert", "TABLE is missing"),
        ("convert table", "--version N is missing"),
        ("convert table --version 2", "-o TABLE is missing"),
        ("convert table -o new", "--version N is missing"),
        ("convert table --version 0 -o new", "--version is 1 or 2"),
        ("convert table --version 2 -o table", "two purposes"),
        (
            "convert table more --version 2 -o new",
            "unexpected operand",
        ),
        (
            "convert nothing --version 2 -o new",
            "cannot read nothing: ",
        ),
        ("describe table --version 2", "unknown option --version"),
    ]);
    assert_eq!(desk.read("table"), table);
    assert_eq!(desk.files(), ["state", "table"]);
}

#[test]
fn a_state_of_the_other_version_is_refused_with_advice() {
    let desk = desk("versions_states");
    for (table, state, bytes, version, due, other) in [
        ("wide", "state", 132, 2, 264, 1),
        ("table", "wide-state", 264, 1, 132, 2),
    ] {
        let expected = format!(
            "Answer 7, place 0: the state is {bytes} bytes long, and for a table of version \
             {version} it has {due} bytes.\n\
             It has the length of a state for a table of version {other}; sailgarnet fresh writes \
             a state for this table.\n"
        );
        for line in [
            format!("plan {table} {state} move 1 D2"),
            format!("plan {table} {state} sleep S3"),
            format!("check {table} {state} move 1 D2 state"),
            format!("trace {table} {state} move 1 D2"),
            format!("bring-up {table} {state} --on r0"),
            format!("check-bring-up {table} {state} state"),
        ] {
            assert_eq!(desk.run(&line).refused(7), expected, "{line}");
        }
    }
}

#[test]
fn other_states_are_refused_without_advice() {
    let desk = desk("versions_bad_states");
    desk.write("bad", &[0; 131]);
    assert_eq!(
        desk.run("plan wide bad move 1 D2").refused(7),
        "Answer 7, place 0: the state is 131 bytes long, and for a table of version 2 it has 264 \
         bytes.\n"
    );
    let mut state = desk.read("wide-state");
    state[263] = 1;
    desk.write("bad", &state);
    assert_eq!(
        desk.run("plan wide bad move 1 D2").refused(7),
        "Answer 7, place 0: the state has a value that is not allowed.\n"
    );
}

/// Changes of bytes that make the bench station in version 2 a refused table, with
/// the number of the answer and its sentence.
const REFUSED: [(usize, u8, u8, &str); 6] = [
    (
        0,
        b'Q',
        1,
        "the table is none, since it does not begin with the letters PWT.",
    ),
    (
        3,
        65,
        2,
        "the table has 65 resources and 3 devices, and version 2 allows 64 of each.",
    ),
    (
        4,
        1,
        3,
        "the table is 212 bytes long, and version 1 has 140 bytes for 3 resources and 3 devices.",
    ),
    (
        4,
        3,
        1,
        "the table is of version 3, and there are versions 1 and 2 alone.",
    ),
    (
        5,
        1,
        1,
        "the table is of version 258, and there are versions 1 and 2 alone.",
    ),
    (7, 1, 1, "the table is not zero in its byte 7."),
];

/// The answer to this table, whatever is done with it.
fn is_refused(desk: &Desk, table: &[u8], number: u8, sentence: &str) {
    desk.write("bad", table);
    let expected = format!("Answer {number}, place 0: {sentence}\n");
    for line in [
        "show bad",
        "describe bad",
        "fresh bad -o new",
        "convert bad --version 1 -o new",
        "plan bad wide-state move 1 D2",
        "trace bad wide-state sleep S3",
        "bring-up bad wide-state --on r40",
    ] {
        assert_eq!(desk.run(line).refused(number), expected, "{line}");
    }
    assert!(!desk.has("new"));
}

#[test]
fn refused_tables_are_explained_by_their_version() {
    let desk = desk("versions_refused");
    let wide = desk.read("wide");
    let with = |byte: usize, value: u8| {
        let mut table = wide.clone();
        table[byte] = value;
        table
    };
    for (byte, value, number, sentence) in REFUSED {
        is_refused(&desk, &with(byte, value), number, sentence);
    }
    let sentence = "the table is 7 bytes long, and its header alone has 8.";
    is_refused(&desk, &wide[..7], 1, sentence);
    let sentence =
        "the table is 211 bytes long, and version 2 has 212 bytes for 3 resources and 3 devices.";
    is_refused(&desk, &wide[..211], 3, sentence);
    // Byte 54 of a record is the first of its ten zeros.
    desk.write("bad", &with(20 + 64 + 54, 1));
    let text = desk.run("show bad").refused(5);
    assert!(text.starts_with("Answer 5, device 1: "), "{text}");
}

/// What the command prints for a request, and the state and list that it writes,
/// with the table and state of each version.
#[test]
fn the_same_request_gives_the_same_calls() {
    let desk = desk("versions_calls");
    for request in [
        "move 1 D2",
        "move 2 D3cold",
        "move 0 D3hot",
        "move 1 D0",
        "arm 1 S3 D2",
        "arm 1 S4 D2",
        "move 1 D3hot",
        "sleep S2",
        "sleep S3",
        "disarm 1",
        "move 3 D0",
        "sleep S4",
    ] {
        let run = |table: &str, state: &str, list: &str| {
            let traced = desk.run(&format!("trace {table} {state} {request}"));
            let line = format!("plan {table} {state} {request} -o {state} --list {list}");
            let planned = desk.run(&line);
            (planned.status, planned.output, traced.status, traced.output)
        };
        let one = run("table", "state", "calls");
        assert_eq!(run("wide", "wide-state", "wide-calls"), one, "{request}");
        assert_eq!(desk.read("wide-calls"), desk.read("calls"));
        let (state, wide) = (desk.read("state"), desk.read("wide-state"));
        assert_eq!((&wide[..128], &wide[256..260]), state.split_at(128));
        assert_eq!(
            (&wide[128..256], &wide[260..]),
            (&[0; 128][..], &[0; 4][..])
        );
    }
}

#[test]
fn the_same_bring_up_gives_the_same_calls() {
    let desk = desk("versions_bring_up");
    let one = desk.run("bring-up table state --on r1 --list calls").done();
    let line = "bring-up wide wide-state --on r1 -o after --list wide-calls";
    assert_eq!(desk.run(line).done(), one);
    assert_eq!(desk.read("wide-calls"), desk.read("calls"));
    assert_eq!(desk.read("after"), desk.read("wide-state"));
    let line = "check-bring-up wide wide-state wide-calls --on r1";
    desk.run(line).done();
    desk.run("bring-up wide wide-state --on r40")
        .failed("--on names resource 40, and the table has 3, numbered from 0");
}
