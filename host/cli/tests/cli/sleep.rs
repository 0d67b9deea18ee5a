//! The bench station and others before the system enters a sleep state.

use cases::{arm_for, draw_state, image, Rng, Station};
use reference::Version;

use crate::desk::{is_well_formed, Desk};

const EXAMPLE: &str = include_str!("../../../../examples/station.txt");

/// The camera armed for S3 and D2, and every device in D0.
const ARMED: [[u8; 4]; 3] = [[0; 4], [0, 1, 3, 2], [0; 4]];
/// As they are prepared for S3.
const PREPARED: [[u8; 4]; 3] = [[0; 4], [2, 1, 3, 2], [3, 0, 0, 0]];

/// A desk whose state has these entries and these resources on.
fn desk(name: &str, entries: [[u8; 4]; 3], on: u64) -> Desk {
    let desk = Desk::new(name);
    desk.write("state", &image(Version::One, &entries, on));
    desk
}

/// As `desk`, with everything on and parts of the station's text exchanged.
fn changed(name: &str, entries: [[u8; 4]; 3], changes: &[(&str, &str)]) -> Desk {
    let desk = desk(name, entries, 0b111);
    let mut text = EXAMPLE.to_string();
    for (from, to) in changes {
        assert!(text.contains(from), "{from}");
        text = text.replace(from, to);
    }
    desk.write("text", text.as_bytes());
    desk.run("write text -o table").done();
    desk
}

#[test]
fn a_sleep_entry_is_shown_move_by_move() {
    let desk = desk("sleep_words", ARMED, 0b111);
    let expected = "Request: prepare all devices for S3\n\
         Answer 0, place 0: done.\n\
         device 2: D0 to D3hot, no calls\n\
         device 1: D0 to D2, 2 calls:\n   \
         1  03 01 02 00  set device 1 to D2 (_PS2)\n   \
         2  02 01 00 00  switch resource 1 off (_OFF)\n\
         On afterwards: r0 r2\n";
    assert_eq!(desk.run("plan table state sleep S3").done(), expected);
    let words = ["plan", "table", "state", "sleep s3"];
    assert_eq!(desk.run_words(words).done(), expected);
    assert_eq!(desk.files(), ["state", "table"]);
}

#[test]
fn calls_are_numbered_through() {
    let desk = Desk::new("sleep_numbers");
    let text = desk.run("plan table state sleep S4").done();
    for lines in [
        "\ndevice 2: D0 to D3cold, no calls\ndevice 1: D0 to D3cold, 3 calls:\n",
        "   3  02 02 00 00  switch resource 2 off (_OFF)\ndevice 0: D0 to D3cold, 2 calls:\n",
        "   5  02 00 00 00  switch resource 0 off (_OFF)\nOn afterwards: none\n",
    ] {
        assert!(text.contains(lines), "{text}");
    }
}

#[test]
fn state_and_list_are_written() {
    let desk = desk("sleep_files", ARMED, 0b111);
    desk.run("plan table state sleep S3 -o after --list calls")
        .done();
    assert_eq!(desk.read("calls"), [3, 1, 2, 0, 2, 1, 0, 0]);
    assert_eq!(desk.read("after"), image(Version::One, &PREPARED, 0b101));
    assert_eq!(desk.read("state"), image(Version::One, &ARMED, 0b111));
    desk.run("plan table state sleep S3 -o state").done();
    assert_eq!(desk.read("state"), image(Version::One, &PREPARED, 0b101));
}

#[test]
fn where_no_device_moves_what_is_not_needed_goes_off() {
    let desk = desk("sleep_no_move", PREPARED, 0b111);
    let line = "plan table state sleep S3 -o state --list calls";
    let text = desk.run(line).done();
    assert!(text.contains(
        "\nno device moves, 1 call:\n   \
         1  02 01 00 00  switch resource 1 off (_OFF)\n\
         On afterwards: r0 r2\n"
    ));
    assert_eq!(desk.read("calls"), [2, 1, 0, 0]);
    assert_eq!(desk.read("state"), image(Version::One, &PREPARED, 0b101));
    let text = desk.run(line).done();
    assert!(text.ends_with("\nno device moves, no calls\nOn afterwards: r0 r2\n"));
    assert_eq!(desk.read("calls"), []);
}

/// The moves of a plan as they are shown: the device, the state that it goes to,
/// and the number of calls.
fn moves(text: &str) -> Vec<(&str, &str, usize)> {
    let lines = text.lines().filter_map(|line| line.strip_prefix("device "));
    let moves = lines.map(|line| {
        let (device, line) = line.split_once(": ").expect("a device");
        let (_, line) = line.split_once(" to ").expect("two states");
        let (state, calls) = line.split_once(", ").expect("calls");
        let count = match calls.split_once(' ').expect("a count") {
            ("no", _) => 0,
            (count, _) => count.parse().expect("a number"),
        };
        (device, state, count)
    });
    moves.collect()
}

/// Writes a drawn table and a state of it, whose armed devices are armed for the
/// sleep state that is given.
fn draw_armed(desk: &Desk, rng: &mut Rng) -> u8 {
    loop {
        let version = rng.pick(&Version::ALL);
        let table = Station::random(rng, version).table(version);
        if let Some(mut state) = draw_state(rng, &table) {
            let x = rng.byte_within(1, 4);
            arm_for(rng, &table, &mut state, x);
            desk.write("table", &table);
            desk.write("state", &state);
            return x;
        }
    }
}

/// The facts that make a sleep entry useful: the calls of each move pass as a
/// request from the state before it, and the moves lead to the state that is
/// written; there every armed device is in its wake state, and a second sleep entry
/// has nothing to do. Each move has its band, and none has a fault.
#[test]
fn stations_are_prepared() {
    let desk = Desk::new("sleep_stations");
    let mut rng = Rng::new(31);
    let mut moved = 0;
    while moved < 60 {
        let x = draw_armed(&desk, &mut rng);
        let run = desk.run(&format!(
            "plan table state sleep S{x} -o after --list calls"
        ));
        if run.status == 1 {
            continue;
        }
        let text = run.done();
        let bands = bands(&drawing(&desk, &format!("S{x}")));
        assert_eq!(bands, moves(&text).len().max(1), "{text}");
        moved += follow(&desk, &text);
        let after = desk.read("after");
        assert_eq!(desk.read("state")[..128], after[..128]);
        for entry in after[..128].as_chunks::<4>().0 {
            assert!(entry[1] == 0 || entry[0] == entry[3], "{entry:?}");
        }
        let text = desk.run(&format!("plan table after sleep S{x}")).done();
        assert!(text.contains("\nno device moves, no calls\n"), "{text}");
    }
}

/// Checks each move of a plan and makes it, and gives how many there are.
fn follow(desk: &Desk, text: &str) -> usize {
    let list = desk.read("calls");
    let (mut rest, moves) = (&list[..], moves(text));
    for (device, state, calls) in &moves {
        let part;
        (part, rest) = rest.split_at(4 * calls);
        desk.write("part", part);
        let request = format!("move {device} {state}");
        desk.run(&format!("check table state {request} part"))
            .done();
        desk.run(&format!("plan table state {request} -o state"))
            .done();
    }
    if !moves.is_empty() {
        assert_eq!(rest, []);
        assert_eq!(desk.read("state"), desk.read("after"));
    }
    moves.len()
}

#[test]
fn a_sleep_entry_is_traced_move_by_move() {
    let desk = desk("sleep_trace", ARMED, 0b111);
    assert_eq!(
        desk.run("trace table state sleep S3").done(),
        "Request: prepare all devices for S3\n\
         Answer 0, place 0: done.\n\
         device 2: D0 to D3hot, no calls\n\
         \n\
         resource  order  needed       start\n\
         r0            1  before+after    on\n\
         r1            2  before+after    on\n\
         r2            1  before+after    on\n\
         \n\
         device 1: D0 to D2, 2 calls:\n   \
         1  03 01 02 00  set device 1 to D2 (_PS2), own call\n   \
         2  02 01 00 00  switch resource 1 off (_OFF)\n\
         \n\
         resource  order  needed       start     1     2\n\
         r0            1  before+after    on    on    on\n\
         r1            2  before          on    on   off\n\
         r2            1  before+after    on    on    on\n"
    );
    assert_eq!(desk.files(), ["state", "table"]);
}

#[test]
fn the_grid_of_a_move_begins_where_the_one_before_ends() {
    let desk = Desk::new("sleep_grids");
    let text = desk.run("trace table state sleep S4").done();
    let (_, last) = text.split_once("\ndevice 0: ").expect("the last move");
    assert!(last.ends_with(
        "resource  order  needed       start     4     5\n\
         r0            1  before          on    on   off\n\
         r1            2  -              off   off   off\n\
         r2            1  -              off   off   off\n"
    ));
}

/// The drawing of a sleep entry.
fn drawing(desk: &Desk, sleep: &str) -> String {
    desk.run(&format!("trace table state sleep {sleep} --svg drawing"))
        .done();
    let drawing = String::from_utf8(desk.read("drawing")).expect("text");
    is_well_formed(&drawing);
    assert!(!drawing.contains("class=\"fault"));
    drawing
}

/// The number of bands of a drawing.
fn bands(drawing: &str) -> usize {
    drawing.matches("<rect class=\"band\"").count()
}

#[test]
fn a_drawing_has_a_band_for_each_move() {
    let desk = Desk::new("sleep_drawn");
    let drawing = drawing(&desk, "S4");
    for label in [
        "<title>prepare all devices for S4<",
        ">Request: prepare all devices for S4<",
        ">device 2: D0 to D3cold<",
        ">device 1: D0 to D3cold<",
        ">device 0: D0 to D3cold<",
        ">no calls<",
        ">Band: a move and its calls.",
    ] {
        assert!(drawing.contains(label), "{label}");
    }
    assert_eq!(bands(&drawing), 3);
    let count = |part| drawing.matches(part).count();
    assert_eq!(count("<line class=\"own\""), 2);
    assert_eq!(count("<line class=\"call\""), 3);
    // All three resources stay on for the lamp, r0 for the camera.
    assert_eq!(count("<line class=\"kept\""), 4);
    assert_eq!(count("<circle class=\"needed\""), 3);
    assert_eq!(count("<circle class=\"free\""), 3);
}

/// The numbers that an attribute has in all elements of a class.
fn numbers(drawing: &str, class: &str, attribute: &str) -> Vec<usize> {
    let [class, attribute] = [format!("class=\"{class}\""), format!(" {attribute}=\"")];
    let elements = drawing.split(&class).skip(1);
    let numbers = elements.map(|element| {
        let (_, value) = element.split_once(&attribute).expect("the attribute");
        let (value, _) = value.split_once('"').expect("its end");
        value.parse().expect("a number")
    });
    numbers.collect()
}

/// Bands stand beside each other in the order of the moves, and each call is in the
/// band of its move.
#[test]
fn the_calls_of_a_move_are_in_its_band() {
    let desk = Desk::new("sleep_bands");
    let drawing = drawing(&desk, "S4");
    let left = numbers(&drawing, "band", "x");
    let width = numbers(&drawing, "band", "width");
    let right: Vec<usize> = left
        .iter()
        .zip(&width)
        .map(|(x, width)| x + width)
        .collect();
    assert!(left[1..].iter().zip(&right).all(|(next, end)| next > end));
    let calls = |class, band: usize| {
        let lines = numbers(&drawing, class, "x1").into_iter();
        lines
            .filter(|x| (left[band]..right[band]).contains(x))
            .count()
    };
    assert_eq!([0, 1, 2].map(|band| calls("own", band)), [0, 1, 1]);
    assert_eq!([0, 1, 2].map(|band| calls("call", band)), [0, 2, 1]);
}

#[test]
fn where_no_device_moves_there_is_one_band() {
    for (on, calls) in [(0b101, 0), (0b111, 1)] {
        let desk = desk("sleep_one_band", PREPARED, on);
        let drawing = drawing(&desk, "S3");
        assert_eq!(bands(&drawing), 1);
        assert_eq!(drawing.matches(">no device moves<").count(), 1);
        assert_eq!(drawing.matches("<line class=\"call\"").count(), calls);
    }
}

#[test]
fn a_table_without_devices_or_resources_is_prepared() {
    let desk = Desk::new("sleep_empty");
    desk.write("table", b"PWT\0\x01\0\0\0");
    desk.write("state", &[0; 132]);
    let text = desk.run("plan table state sleep S1 -o after").done();
    assert!(text.ends_with("\nno device moves, no calls\nOn afterwards: none\n"));
    assert_eq!(desk.read("after"), [0; 132]);
    assert!(drawing(&desk, "S1").contains("The table has no resources."));
}

#[test]
fn a_device_that_is_armed_for_another_sleep_state_is_named() {
    let desk = desk("sleep_armed", ARMED, 0b111);
    for (x, name) in [(1, "plan"), (2, "trace"), (4, "plan")] {
        let run = desk.run(&format!("{name} table state sleep S{x}"));
        assert_eq!(
            run.refused(20),
            format!(
                "Answer 20, device 1: this device is armed for S3 and D2, \
                 and sleep entry is asked for S{x}.\n"
            )
        );
    }
}

const STATES: [&str; 5] = ["D0", "D1", "D2", "D3hot", "D3cold"];

const LAMP: &str = "  _PR3              # there and empty: it needs nothing in D3hot\n";

/// The lamp always needs r1.
const POWERED_LAMP: (&str, &str) = (LAMP, "");
/// The bus must be in D3hot or deeper in S3.
const DEEP_BUS: (&str, &str) = (
    "  _PR3 r0           # so it has D3cold\n",
    "  _PR3 r0\n  _S3D D3hot\n",
);

/// Changes of the station after which a device has no state to take for S3, the
/// entries, and the device with what is against each of its states.
type Refused = (
    &'static [(&'static str, &'static str)],
    [[u8; 4]; 3],
    usize,
    [&'static str; 5],
);

const REFUSED: [Refused; 5] = [
    // By its parent, and its wake state.
    (
        &[DEEP_BUS],
        ARMED,
        1,
        [
            "shallower than _S3D, D2",
            "not supported",
            "shallower than its parent, device 0, which takes D3hot",
            "not its wake state D2",
            "not its wake state D2",
        ],
    ),
    // By a level.
    (
        &[POWERED_LAMP],
        ARMED,
        2,
        [
            "needs r1, which has systemlevel 0, below S3",
            "not supported",
            "not supported",
            "needs r1, which has systemlevel 0, below S3",
            "not supported",
        ],
    ),
    // By _SxD.
    (
        &[(LAMP, "  _S3D D2\n")],
        [[0; 4]; 3],
        2,
        [
            "shallower than _S3D, D2",
            "not supported",
            "not supported",
            "needs r1, which has systemlevel 0, below S3",
            "not supported",
        ],
    ),
    // By its present state.
    (
        &[POWERED_LAMP],
        [[0; 4], [2, 0, 0, 0], [3, 0, 0, 0]],
        2,
        [
            "shallower than the present D3hot",
            "not supported",
            "not supported",
            "needs r1, which has systemlevel 0, below S3",
            "not supported",
        ],
    ),
    // Of two devices the lower one is named.
    (
        &[DEEP_BUS, POWERED_LAMP],
        ARMED,
        1,
        [
            "shallower than _S3D, D2",
            "not supported",
            "shallower than its parent, device 0, which takes D3hot",
            "not its wake state D2",
            "not its wake state D2",
        ],
    ),
];

#[test]
fn where_no_choice_is_left_each_state_has_its_reason() {
    for (changes, entries, device, reasons) in REFUSED {
        let desk = changed("sleep_refused", entries, changes);
        let mut expected = format!(
            "Answer 21, place 0: there are no states that all devices may take together for S3: \
             none is left for device {device}.\n"
        );
        for (state, reason) in STATES.iter().zip(reasons) {
            expected += &format!("  {state:<6}  {reason}\n");
        }
        let line = "plan table state sleep S3 -o after --list calls";
        assert_eq!(desk.run(line).refused(21), expected);
        let line = "trace table state sleep S3 --svg drawing";
        assert_eq!(desk.run(line).refused(21), expected);
        assert_eq!(desk.files(), ["state", "table", "text"]);
    }
}

/// How the reasons against a state begin.
const REASONS: [&str; 6] = [
    "not supported",
    "shallower than the present D",
    "shallower than _S",
    "needs r",
    "not its wake state D",
    "shallower than its parent, device ",
];

/// Whatever the station, a refusal with 21 has a reason against each state.
#[test]
fn each_refusal_has_its_reasons() {
    let desk = Desk::new("sleep_reasons");
    let mut rng = Rng::new(32);
    let mut counts = [0; REASONS.len()];
    let mut refused = 0;
    while refused < 100 {
        let x = draw_armed(&desk, &mut rng);
        let run = desk.run(&format!("plan table state sleep S{x}"));
        if run.status == 0 {
            continue;
        }
        refused += 1;
        let text = run.refused(21);
        assert_eq!(text.lines().count(), 6);
        for (state, line) in STATES.iter().zip(text.lines().skip(1)) {
            let reason = line.strip_prefix(&format!("  {state:<6}  "));
            let reason = reason.expect("the state");
            let known = REASONS.iter().position(|start| reason.starts_with(start));
            counts[known.expect("a reason")] += 1;
        }
    }
    assert!(counts.iter().all(|&count| count > 0), "{counts:?}");
}

#[test]
fn a_list_is_checked_move_by_move() {
    let desk = desk("sleep_check", ARMED, 0b111);
    desk.run("plan table state sleep S3 --list calls").done();
    let refusal = "Answer 10, place 0: a list is not checked for a whole sleep entry, \
         but for each of its moves.\n\
         For the calls of a move, and the state that the moves before it leave:\n  \
         sailgarnet check TABLE STATE move DEVICE STATE LIST\n";
    for line in [
        "check table state sleep S3 calls",
        "trace table state sleep S3 calls --svg drawing",
        // The checker has no 20.
        "check table state sleep S4 calls",
    ] {
        assert_eq!(desk.run(line).refused(10), refusal);
    }
    assert_eq!(desk.files(), ["calls", "state", "table"]);
    desk.write("no-calls", &[]);
    desk.run("check table state move 2 D3hot no-calls").done();
    desk.run("plan table state move 2 D3hot -o state").done();
    desk.run("check table state move 1 D2 calls").done();
}

#[test]
fn sleep_entry_is_not_for_s0() {
    let desk = desk("sleep_s0", ARMED, 0b111);
    for line in [
        "plan table state sleep S0 -o after --list calls",
        "trace table state sleep S0 --svg drawing",
        "trace table state sleep S0 table",
        "check table state sleep S0 table",
    ] {
        assert_eq!(
            desk.run(line).refused(10),
            "Answer 10, place 0: sleep entry is for S1 to S4, and S0 is asked for.\n"
        );
    }
    assert_eq!(desk.files(), ["state", "table"]);
}

#[test]
fn help_has_the_request() {
    let desk = Desk::new("sleep_help");
    for line in ["--help", "plan --help", "check --help", "trace --help"] {
        let text = desk.run(line).done();
        assert!(text.contains("\n  sleep SLEEP  "), "{line}");
    }
}

#[test]
fn wrong_usage_is_explained() {
    let desk = Desk::new("sleep_usage");
    desk.each_fails([
        (
            "plan table state sleep",
            "sleep entry is written like: sleep S3",
        ),
        ("plan table state sleep S5", "\"S5\" is no sleep state"),
        ("plan table state sleep 3", "\"3\" is no sleep state"),
        (
            "plan table state sleep D3hot",
            "\"D3hot\" is no sleep state",
        ),
        ("plan table state sleep S3 S3", "unexpected operand S3"),
        ("plan table state sleep 0 S3", "\"0\" is no sleep state"),
        ("plan table state sleep S3 --svg x", "unknown option --svg"),
        ("plan table state sleep S3 -o table", "two purposes"),
        ("plan table state sleep S3 --list state", "two purposes"),
        ("check table state sleep S3", "LIST is missing"),
        ("trace table state sleep S3 calls", "cannot read calls: "),
        ("trace table state sleep S3 --svg state", "two purposes"),
        (
            "trace table state sleep S3 table more",
            "unexpected operand more",
        ),
    ]);
    assert_eq!(desk.files(), ["state", "table"]);
}
