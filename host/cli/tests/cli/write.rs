use std::collections::BTreeSet;

use cases::{Record, Resource, Station};
use reference::Version;

use crate::desk::Desk;

const EXAMPLE: &str = include_str!("../../../../examples/station.txt");
const BENCH: &[u8] = include_bytes!("../../../../examples/station.pwt");
const PAGE: &str = include_str!("../../../../docs/STATION-TEXT.md");

#[test]
fn the_example_is_the_bench_station() {
    let desk = Desk::new("write_example");
    desk.write("text", EXAMPLE.as_bytes());
    let text = desk.run("write text -o new").done();
    assert_eq!(
        text,
        "Answer 0, place 0: done.\nTable of version 1, 140 bytes: 3 resources, 3 devices\n"
    );
    assert_eq!(desk.read("new"), BENCH);
}

#[test]
fn the_page_shows_the_example() {
    let indented = |line: &str| match line {
        "" => String::from("\n"),
        _ => format!("    {line}\n"),
    };
    let example: String = EXAMPLE.lines().map(indented).collect();
    assert!(PAGE.contains(&format!("\n\n{example}\n")));
}

/// What is written for a text.
fn written(desk: &Desk, text: &str) -> Vec<u8> {
    desk.write("text", text.as_bytes());
    desk.run("write text -o new").done();
    desk.read("new")
}

#[test]
fn the_least_station_is_a_header() {
    let desk = Desk::new("write_least");
    for text in [
        "version 1",
        "version 1\n",
        "\n\n  # none\n\tVersion  1 # one\n\n",
    ] {
        assert_eq!(written(&desk, text), b"PWT\0\x01\0\0\0");
    }
}

#[test]
fn spelling_does_not_matter() {
    let desk = Desk::new("write_spelling");
    let marked = format!("\u{feff}{EXAMPLE}");
    let small_letters = EXAMPLE.to_lowercase();
    let capitals = EXAMPLE.to_uppercase();
    let returns = EXAMPLE.replace('\n', "\r\n");
    let tabs = EXAMPLE.replace("  ", "\t").replace(' ', " \t ");
    let names = EXAMPLE.replace("r0", "_PR0").replace("bus", "Süd-1.a_b");
    for text in [marked, small_letters, capitals, returns, tabs, names] {
        assert_eq!(written(&desk, &text), BENCH, "{text}");
    }
}

/// A station whose fields differ from each other, so that each is known by its
/// place.
fn distinct_station() -> Station {
    let resource = |level: u8| Resource {
        level,
        order: 256 * u16::from(level) + 7,
    };
    Station {
        resources: (0..5).map(resource).collect(),
        devices: vec![
            Record {
                ps: 0b1011,
                pr: 0b1011,
                sets: [1, 2, 0, 4, 0],
                ..Record::default()
            },
            Record {
                parent: 0,
                ps: 0b1101,
                flags: 1,
                sets: [0, 0, 0, 0, 0b11000],
                sxd: [0, 1, 2, 3],
                sxw: [0, 1, 2, 3, 4],
                deepest: 4,
                ..Record::default()
            },
            Record {
                parent: 1,
                pr: 0b1101,
                flags: 3,
                sets: [1, 0, 2, 4, 8],
                deepest: 1,
                ..Record::default()
            },
        ],
    }
}

const DISTINCT: &str = "\
version 1
resource a level S0 order 7
resource b level S1 order 263
resource c level S2 order 519
resource d level S3 order 775
resource e level S4 order 1031
device a
  _PS0 _PS1 _PS3
  _PR0 a
  _PR1 b
  _PR3 c
device b
  parent a
  _PS0 _PS2 _PS3
  _PRW S4 e d
  _S1D D0
  _S2D D1
  _S3D D2
  _S4D D3hot
  _S0W D0
  _S1W D1
  _S2W D2
  _S3W D3hot
  _S4W D3cold
device c
  parent b
  _DSW
  _PR0 a
  _PR2 b
  _PR3 c
  _PRW S1 d";

#[test]
fn each_word_has_its_field() {
    let desk = Desk::new("write_fields");
    assert_eq!(
        written(&desk, DISTINCT),
        distinct_station().table(Version::One)
    );
}

/// The lines of a device, and resources and devices, may stand in any order.
#[test]
fn order_gives_numbers_alone() {
    let desk = Desk::new("write_order");
    let text = "version 1
        device bus
          _PR3 r0
          _PS3
          _PR0 r0
          _PS0
        resource r0 level s3 order 1
        device camera
          _S3W d3HOT
          _DSW _PS0
          _PRW s3 r2
          _PR2 r2 r0
          parent bus
          _PR0 r2 r1 r0
          _S3D d2
          _PS3 _PS2
          _PR3 r0
        resource r1 level S0 order 2
        resource r2 level S3 order 1
        device lamp
          _PR3
          _PR0 r1
          parent bus";
    assert_eq!(written(&desk, text), BENCH);
}

/// Four lines that every text with a mistake begins with.
const START: &str = "\
version 1
resource r0 level S3 order 1
resource r1 level S0 order 2
device bus
";

/// Lines after `START`, where the mistake is, and what is said of it.
const MISTAKES: [(&str, &str, &str); 47] = [
    ("version 1", "5:1", "the version is given twice"),
    (
        "_PR4 r0",
        "5:1",
        "\"_PR4\" begins no line; lines begin with resource, device, parent, _PS0 to _PS3, \
         _DSW, _PR0 to _PR3, _PRW, _S1D to _S4D or _S0W to _S4W",
    ),
    (
        "Größe\\\u{301}\x1b",
        "5:1",
        "\"Größe\\\u{301}\\u{1b}\" begins no line; lines begin with resource, device, parent, _PS0 to _PS3, \
         _DSW, _PR0 to _PR3, _PRW, _S1D to _S4D or _S0W to _S4W",
    ),
    (
        "0123456789012345678901234567890123456789x r0",
        "5:1",
        "\"0123456789012345678901234567890123456789..\" begins no line; lines begin with resource, device, parent, _PS0 to _PS3, \
         _DSW, _PR0 to _PR3, _PRW, _S1D to _S4D or _S0W to _S4W",
    ),
    (
        "resource",
        "5:9",
        "the name of the resource is missing here",
    ),
    (
        "resource r2,",
        "5:10",
        "\"r2,\" is no name; a name has only letters, digits, _ - and .",
    ),
    (
        "resource r1 level S0 order 1",
        "5:10",
        "\"r1\" is the name of a resource already, in line 3",
    ),
    ("resource r2", "5:12", "the word level is missing here"),
    (
        "resource r2 S0 0",
        "5:13",
        "the word level is expected here, not \"S0\"",
    ),
    (
        "resource r2 level",
        "5:18",
        "the sleep state is missing here",
    ),
    (
        "resource r2 level S5 order 1",
        "5:19",
        "\"S5\" is no sleep state; write S0 to S4",
    ),
    (
        "resource r2 level S0  # 1",
        "5:21",
        "the word order is missing here",
    ),
    (
        "resource r2 level S0 1",
        "5:22",
        "the word order is expected here, not \"1\"",
    ),
    (
        "resource r2 level S0 order",
        "5:27",
        "the order is missing here",
    ),
    (
        "resource r2 level S0 order 65536",
        "5:28",
        "\"65536\" is no order; write 0 to 65535",
    ),
    (
        "resource r2 level S0 order -1",
        "5:28",
        "\"-1\" is no order; write 0 to 65535",
    ),
    (
        "resource r2 level S0 order +5",
        "5:28",
        "\"+5\" is no order; write 0 to 65535",
    ),
    (
        "resource r2 level S0 order 007",
        "5:28",
        "\"007\" is no order; write 0 to 65535",
    ),
    (
        "resource r2 level S0 order 00",
        "5:28",
        "\"00\" is no order; write 0 to 65535",
    ),
    (
        "resource r2 level S0 order \u{661}",
        "5:28",
        "\"\u{661}\" is no order; write 0 to 65535",
    ),
    (
        "resource r2 level S0 order 1 2",
        "5:30",
        "unexpected word \"2\"",
    ),
    (
        "resource r2 level S0 order 1\n_PR0 r0",
        "6:1",
        "\"_PR0\" belongs to a device, and the resource in line 5 ended device bus",
    ),
    (
        "device a\nresource r2 level S0 order 1\nresource r3 level S0 order 1\nparent bus",
        "8:1",
        "\"parent\" belongs to a device, and the resource in line 6 ended device a",
    ),
    ("device", "5:7", "the name of the device is missing here"),
    (
        "device a:",
        "5:8",
        "\"a:\" is no name; a name has only letters, digits, _ - and .",
    ),
    (
        "device a\n device bus",
        "6:9",
        "\"bus\" is the name of a device already, in line 4",
    ),
    ("device a parent bus", "5:10", "unexpected word \"parent\""),
    ("device Süd x", "5:12", "unexpected word \"x\""),
    (
        "device a\u{a0}x",
        "5:8",
        "\"a\u{a0}x\" is no name; a name has only letters, digits, _ - and .",
    ),
    (
        "device a\x0c",
        "5:8",
        "\"a\\u{c}\" is no name; a name has only letters, digits, _ - and .",
    ),
    ("parent", "5:7", "the name of the parent is missing here"),
    (
        "device a\nparent b",
        "6:8",
        "there is no device \"b\"; the text has bus, a",
    ),
    (
        "device a\nparent bus\nparent a",
        "7:1",
        "\"parent\" is given twice for this device",
    ),
    (
        "_PS0 _PR0",
        "5:6",
        "\"_PR0\" is no method; the methods are _PS0 _PS1 _PS2 _PS3 _DSW",
    ),
    (
        "_PS0 _PS3\n_DSW _ps0",
        "6:6",
        "\"_ps0\" is given twice for this device",
    ),
    (
        "_PR0 r0 r7",
        "5:9",
        "there is no resource \"r7\"; the text has r0, r1",
    ),
    (
        "_PR0 R0",
        "5:6",
        "there is no resource \"R0\"; the text has r0, r1",
    ),
    (
        "_PR0 r0, r1",
        "5:6",
        "\"r0,\" is no name; a name has only letters, digits, _ - and .",
    ),
    ("_PR0 r0 r1 r0", "5:12", "\"r0\" is listed twice"),
    (
        "_PR0 r0\n_PR0",
        "6:1",
        "\"_PR0\" is given twice for this device",
    ),
    (
        "_PRW r0 S3",
        "5:6",
        "\"r0\" is no sleep state; write S0 to S4",
    ),
    ("_PRW  ", "5:5", "the sleep state is missing here"),
    ("\t _S3D", "5:7", "the device state is missing here"),
    (
        "_S3W D4",
        "5:6",
        "\"D4\" is no device state; write D0, D1, D2, D3hot or D3cold",
    ),
    (
        "_S3D D3",
        "5:6",
        "D3 can be two states; write D3hot or D3cold",
    ),
    ("_S3D D2 D3hot", "5:9", "unexpected word \"D3hot\""),
    (
        "_S0W D2\n_S0W D2",
        "6:1",
        "\"_S0W\" is given twice for this device",
    ),
];

/// Whole texts with a mistake, where it is, and what is said of it.
const BAD_TEXTS: [(&[u8], &str, &str); 15] = [
    (
        b"",
        "1:1",
        "a station begins with the line version 1 or version 2; only comments may stand before it",
    ),
    (
        b"# nothing\n",
        "1:1",
        "a station begins with the line version 1 or version 2; only comments may stand before it",
    ),
    (
        b"\n resource r0 level S0 order 0\nversion 1",
        "2:2",
        "a station begins with the line version 1 or version 2; only comments may stand before it",
    ),
    (b"version", "1:8", "the version is missing here"),
    (b"version 1.0", "1:9", "\"1.0\" is no version; write 1 or 2"),
    (
        b"version 4294967296",
        "1:9",
        "\"4294967296\" is no version; write 1 or 2",
    ),
    (b"version 01", "1:9", "\"01\" is no version; write 1 or 2"),
    (b"version +1", "1:9", "\"+1\" is no version; write 1 or 2"),
    (
        b"version 1\r",
        "1:9",
        "\"1\\r\" is no version; write 1 or 2",
    ),
    (b"version 1 2", "1:11", "unexpected word \"2\""),
    (
        b"version 1\nparent d0",
        "2:1",
        "\"parent\" belongs to a device, and no device is begun here",
    ),
    (
        b"version 1\nresource r0 level S0 order 0\nparent d0\ndevice a",
        "3:1",
        "\"parent\" belongs to a device, and no device is begun here",
    ),
    (
        b"version 1\ndevice a\n_PR0 r0",
        "3:6",
        "there is no resource \"r0\"; the text has none",
    ),
    (
        b"version 1\n# S\xc3\xbcd \xfc",
        "2:7",
        "the file is not text in UTF-8",
    ),
    (BENCH, "1:21", "the file is not text in UTF-8"),
];

/// All texts with a mistake: the text, the position and the message.
fn mistakes() -> impl Iterator<Item = (Vec<u8>, &'static str, &'static str)> {
    let after_start = |(lines, position, message)| {
        let text = format!("{START}{lines}\n").into_bytes();
        (text, position, message)
    };
    let whole = |(text, position, message): (&[u8], _, _)| (text.to_vec(), position, message);
    let texts = MISTAKES.into_iter().map(after_start);
    texts.chain(BAD_TEXTS.into_iter().map(whole))
}

#[test]
fn each_mistake_has_its_position_and_message() {
    let desk = Desk::new("write_mistakes");
    for (text, position, message) in mistakes() {
        desk.write("text", &text);
        let run = desk.run("write text -o new");
        run.mistaken(&format!("text:{position}: {message}"));
        assert_eq!(desk.files(), ["state", "table", "text"]);
        assert_eq!(desk.read("text"), text);
    }
}

/// A message without the words that differ from text to text.
fn kind(message: &str) -> String {
    if message.ends_with(" is missing here") {
        return "is missing here".into();
    }
    let fixed: Vec<&str> = message.split('"').step_by(2).collect();
    let mut fixed = fixed.join("\"WORD\"");
    for varied in ["; the text has ", " in line "] {
        fixed.truncate(fixed.find(varied).unwrap_or(fixed.len()));
    }
    fixed
}

#[test]
fn the_page_has_each_message() {
    let (_, rest) = PAGE.split_once("\n## Mistakes\n").expect("the section");
    let (section, _) = rest.split_once("\n## ").expect("the next section");
    let shown = section.lines().filter_map(|line| line.strip_prefix("    "));
    let shown: BTreeSet<String> = shown.map(kind).collect();
    let said: BTreeSet<String> = mistakes().map(|(_, _, message)| kind(message)).collect();
    assert_eq!(shown, said);
}

#[test]
fn the_page_shows_a_mistake_of_the_example() {
    let desk = Desk::new("write_page");
    let text = EXAMPLE.replace("_PR0 r0 r1 r2", "_PR0 r0 r7 r2");
    desk.write("station.txt", text.as_bytes());
    let run = desk.run("write station.txt -o new");
    let message = run.error.trim_end().to_string();
    assert!(PAGE.contains(&format!("`{message}`")), "{message}");
    run.mistaken(&message);
}

#[test]
fn the_page_shows_a_refusal_of_the_example() {
    let desk = Desk::new("write_page_refused");
    let text = EXAMPLE.replace("_S3W D3hot", "_S3W D1");
    desk.write("station.txt", text.as_bytes());
    let lines = desk.run("write station.txt -o new").refused(5);
    let shown: String = lines.lines().map(|line| format!("    {line}\n")).collect();
    assert!(PAGE.contains(&format!("\n\n{shown}\n")), "{lines}");
}

/// Texts of refused stations, the answer, and the part that it is about.
const REFUSED: [(&str, u8, &str, &str); 15] = [
    ("version 0", 1, "place 0", "1:9: the version is 0"),
    ("version 3", 1, "place 0", "1:9: the version is 3"),
    (
        "# a\n version 65537",
        1,
        "place 0",
        "2:10: the version is 65537",
    ),
    (
        "version 1\ndevice a\nparent a",
        5,
        "device 0",
        "2:8: device 0 is a; its parent must stand before it",
    ),
    (
        "version 1\ndevice a\ndevice b\nparent c\ndevice c",
        5,
        "device 1",
        "3:8: device 1 is b; its parent must stand before it",
    ),
    (
        "version 1\ndevice a\n_S3D D3hot\n_S3W D2\n_S2D D1\n_S0W D0\n_S4W D0",
        5,
        "device 0",
        "2:8: device 0 is a; its _S3D must not be deeper than its _S3W",
    ),
    (
        "version 1\ndevice a\n_S1D D3cold\n_S1W D0",
        5,
        "device 0",
        "2:8: device 0 is a; its _S1D is at most D3hot",
    ),
    (
        "version 1\ndevice a\ndevice b\nparent a\n_S4D D3cold",
        5,
        "device 1",
        "3:8: device 1 is b; its _S4D is at most D3hot",
    ),
    (
        "version 1\ndevice a\n_PS0",
        6,
        "device 0",
        "2:8: device 0 is a",
    ),
    (
        "version 1\ndevice bus\ndevice a\n_PS3",
        6,
        "device 1",
        "3:8: device 1 is a",
    ),
    (
        "version 1\ndevice a\n_PR1",
        6,
        "device 0",
        "2:8: device 0 is a",
    ),
    (
        "version 1\ndevice a\n_PS0 _PS3 _PS1\n_PR0",
        6,
        "device 0",
        "2:8: device 0 is a",
    ),
    (
        "version 1\ndevice a\n_DSW",
        6,
        "device 0",
        "2:8: device 0 is a",
    ),
    // A 6 of an earlier device comes before a 5 of a later one, and a 5 before
    // a 6 of the same device.
    (
        "version 1\ndevice a\n_DSW\ndevice b\n_S1D D3cold",
        6,
        "device 0",
        "2:8: device 0 is a",
    ),
    (
        "version 1\ndevice a\n_DSW\n_S1D D3cold",
        5,
        "device 0",
        "2:8: device 0 is a; its _S1D is at most D3hot",
    ),
];

/// What is said of a text with this answer.
fn sentence(number: u8) -> &'static str {
    match number {
        1 => "the version of the table is neither 1 nor 2.",
        2 => "there are more than 32 resources or more than 32 devices.",
        5 => "a line of this device has a value that is not allowed.",
        6 => {
            "the objects of this device break a rule: any _PS needs _PS0 and _PS3, any _PR needs \
             _PR0, with both kinds _PS1 is there exactly if _PR1 is and _PS2 exactly if _PR2 is, \
             and _DSW needs _PRW."
        }
        _ => panic!("a text is not answered {number}"),
    }
}

/// The answer of a refused text. It has two lines, and nothing is written.
fn refused(desk: &Desk, text: &str, number: u8, place: &str, part: &str) {
    desk.write("text", text.as_bytes());
    let lines = desk.run("write text -o new").refused(number);
    let sentence = sentence(number);
    let expected = format!("Answer {number}, {place}: {sentence}\ntext:{part}\n");
    assert_eq!(lines, expected, "{text}");
    assert_eq!(desk.files(), ["state", "table", "text"]);
}

#[test]
fn refused_stations_are_named_with_their_lines() {
    let desk = Desk::new("write_refused");
    for (text, number, place, part) in REFUSED {
        refused(&desk, text, number, place, part);
    }
}

/// A text with so many resources and devices. The last device lists all
/// resources, and its parent is the device before it.
pub fn many(resources: usize, devices: usize) -> String {
    let mut text = String::from("version 1\n");
    for r in 0..resources {
        text += &format!("resource r{r} level S0 order {r}\n");
    }
    for d in 0..devices {
        text += &format!("device d{d}\n");
    }
    let names: Vec<String> = (0..resources).map(|r| format!("r{r}")).collect();
    format!("{text}parent d{}\n_PR0 {}\n", devices - 2, names.join(" "))
}

#[test]
fn too_many_records_are_counted() {
    let desk = Desk::new("write_many");
    for (resources, devices, position) in [
        (33, 2, "34:10"),
        (2, 33, "36:8"),
        (64, 64, "34:10"),
        (65, 2, "34:10"),
        (300, 300, "34:10"),
    ] {
        let hint = match resources.max(devices) {
            ..=64 => "; with --version 2 there is room for 64 of each",
            _ => "",
        };
        let part =
            format!("{position}: the text has {resources} resources and {devices} devices{hint}");
        refused(&desk, &many(resources, devices), 2, "place 0", &part);
    }
    let table = written(&desk, &many(32, 32));
    assert_eq!(table.len(), 8 + 4 * 32 + 40 * 32);
    let last = &table[table.len() - 40..];
    assert_eq!(last[..8], [30, 0, 1, 0, 255, 255, 255, 255]);
}

/// What the page says of an old state: with the lamp left out it is refused, and
/// with the lamp before the camera it is good and says that the camera is off.
#[test]
fn a_state_belongs_to_its_table() {
    let desk = Desk::with_dark_lamp("write_state");
    let (rest, lamp) = EXAMPLE.split_once("device lamp").expect("the lamp");
    written(&desk, rest);
    desk.run("plan new state disarm 0").refused(7);
    let (start, camera) = rest.split_once("device camera").expect("the camera");
    written(
        &desk,
        &format!("{start}device lamp{lamp}device camera{camera}"),
    );
    let text = desk.run("plan new state move 2 D0").done();
    assert!(text.contains("set device 2 to D0 (_PS0)"), "{text}");
    let text = desk.run("plan table state move 2 D0").done();
    assert!(!text.contains("_PS0"), "{text}");
}

#[test]
fn a_refusal_keeps_the_file_to_write() {
    let desk = Desk::new("write_kept");
    let table = desk.read("table");
    for (text, status) in [("version 1\ndevice a\n_DSW", 1), ("version 1\nlamp", 2)] {
        desk.write("text", text.as_bytes());
        assert_eq!(desk.run("write text -o table").status, status);
        assert_eq!(desk.read("table"), table);
    }
}

#[test]
fn wrong_usage_and_files_are_explained() {
    let desk = Desk::new("write_usage");
    desk.write("text", EXAMPLE.as_bytes());
    desk.each_fails([
        ("write", "FILE is missing"),
        ("write text", "-o TABLE is missing"),
        ("write text -o", "-o needs a file"),
        ("write text -o new --version", "--version needs 1 or 2"),
        (
            "write text --version 3 -o new",
            "--version is 1 or 2, not \"3\"",
        ),
        (
            "write text --version two -o new",
            "--version is 1 or 2, not \"two\"",
        ),
        (
            "write text --version 1 --version 2 -o new",
            "--version is given twice",
        ),
        ("write text more -o new", "unexpected operand more"),
        ("write text -o text", "two purposes"),
        ("write text -o ./text", "two purposes"),
        ("write text -o missing/new", "cannot write missing/new: "),
        ("write nothing -o new", "cannot read nothing: "),
        ("write . -o new", "cannot read .: "),
    ]);
    assert_eq!(desk.read("text"), EXAMPLE.as_bytes());
    assert_eq!(desk.files(), ["state", "table", "text"]);
}
