//! The double-camera line, which has more resources than version 1 allows.

use crate::desk::{is_well_formed, texts_are_apart, Desk};
use crate::write::many;

const TEXT: &str = include_str!("../../../../examples/double-camera.txt");
const TABLE: &[u8] = include_bytes!("../../../../examples/double-camera.pwt");

const FRONT_CAMERA: usize = 6;
const REAR_CAMERA: usize = 12;

/// A desk with the text, the table and its fresh state.
fn desk(name: &str) -> Desk {
    let desk = Desk::new(name);
    desk.write("text", TEXT.as_bytes());
    desk.write("table", TABLE);
    desk.run("fresh table -o state").done();
    desk
}

/// As `desk`, with both cameras armed for S3 and D2.
fn armed(name: &str) -> Desk {
    let desk = desk(name);
    for camera in [FRONT_CAMERA, REAR_CAMERA] {
        desk.run(&format!("plan table state arm {camera} S3 D2 -o state"))
            .done();
    }
    desk
}

/// The number of the resource or device with this name.
fn number(kind: &str, name: &str) -> usize {
    let lines = TEXT.lines().map(|line| line.split_whitespace());
    let mut names = lines.filter_map(|mut words| {
        let is_kind = words.next() == Some(kind);
        words.next().filter(|_| is_kind)
    });
    names.position(|found| found == name).expect("the name")
}

#[test]
fn the_text_is_the_table() {
    let desk = desk("double_text");
    let text = desk.run("write text -o new").done();
    assert_eq!(
        text,
        "Answer 0, place 0: done.\nTable of version 2, 2820 bytes: 47 resources, 41 devices\n"
    );
    assert_eq!(desk.read("new"), TABLE);
    let described = desk.run("describe table").done();
    desk.write("described", described.as_bytes());
    desk.run("write described -o new").done();
    assert_eq!(desk.read("new"), TABLE);
    assert_eq!(number("device", "front-camera"), FRONT_CAMERA);
    assert_eq!(number("device", "rear-camera"), REAR_CAMERA);
}

#[test]
fn version_1_has_no_room_for_it() {
    let desk = desk("double_version_1");
    let text = desk.run("write text --version 1 -o new").refused(2);
    let part = "the text has 47 resources and 41 devices; with --version 2";
    assert!(text.contains(part), "{text}");
    desk.run("convert table --version 1 -o new").refused(2);
    assert!(!desk.has("new"));
}

/// Each resource is named by some device, and each level and several orders occur.
#[test]
fn every_resource_is_used() {
    let words = |line: &str| -> Vec<String> {
        let line = line.split('#').next().unwrap_or(line);
        line.split_whitespace().map(String::from).collect()
    };
    let lines: Vec<Vec<String>> = TEXT.lines().map(words).collect();
    let lists = lines.iter().filter(|words| {
        let first = words.first().map_or("", String::as_str);
        first.starts_with("_PR")
    });
    let listed: Vec<&String> = lists.flatten().collect();
    let resources = lines
        .iter()
        .filter(|words| words.first().is_some_and(|word| word == "resource"));
    let mut levels = [0; 5];
    for resource in resources {
        assert!(listed.contains(&&resource[1]), "{}", resource[1]);
        let level: usize = resource[3][1..].parse().expect("a level");
        levels[level] += 1;
    }
    assert!(levels.iter().all(|&count| count > 0), "{levels:?}");
    assert_eq!(levels.iter().sum::<usize>(), 47);
}

#[test]
fn requests_switch_resources_beyond_the_32nd() {
    let desk = desk("double_plan");
    let (device, resource) = (
        number("device", "turntable"),
        number("resource", "turntable"),
    );
    assert!(resource > 31);
    let line = format!("plan table state move {device} D3cold -o state --list calls");
    let text = desk.run(&line).done();
    assert!(text.contains(&format!("switch resource {resource} off (_OFF)\n")));
    let line = format!("plan table state move {device} D0 --list calls");
    let text = desk.run(&line).done();
    assert!(text.contains(&format!(
        "2 calls:\n   1  01 {resource:02x} 00 00  switch resource {resource} on (_ON)\n   \
         2  03 {device:02x} 00 00  set device {device} to D0 (_PS0)\n"
    )));
    let line = format!("check table state move {device} D0 calls");
    desk.run(&line).done();
    desk.run(&format!("trace table state move {device} D0 calls"))
        .done();
}

/// With both cameras armed the line goes to S3: the cameras wait in D2, and what
/// cannot be on there is off.
#[test]
fn the_line_sleeps_with_its_cameras_armed() {
    let desk = armed("double_sleep");
    let line = "plan table state sleep S3 -o asleep --list calls";
    let text = desk.run(line).done();
    for camera in [FRONT_CAMERA, REAR_CAMERA] {
        let moved = format!("\ndevice {camera}: D0 to D2, 2 calls:\n");
        assert!(text.contains(&moved), "{text}");
        let asleep = &desk.read("asleep")[4 * camera..4 * camera + 4];
        assert_eq!(asleep, [2, 1, 3, 2]);
    }
    assert_eq!(desk.read("calls").len(), 4 * 48);
    let on: Vec<String> = [
        "mains24",
        "control24",
        "logic3v3",
        "front-link",
        "front-link-clock",
        "front-core",
        "front-wake",
        "rear-link",
        "rear-link-clock",
        "rear-core",
        "rear-wake",
        "sensor-hub",
    ]
    .iter()
    .map(|name| format!("r{}", number("resource", name)))
    .collect();
    assert!(text.ends_with(&format!("\nOn afterwards: {}\n", on.join(" "))));
    let again = desk.run("plan table asleep sleep S3").done();
    assert!(again.contains("\nno device moves, no calls\n"));
    desk.run("plan table state sleep S2").refused(20);
}

/// At power-on after that sleep, with some of what is needed off and two resources
/// beyond the 32nd on.
#[test]
fn the_line_is_brought_up() {
    let desk = armed("double_bring_up");
    desk.run("plan table state sleep S3 -o asleep").done();
    let line = "bring-up table asleep --on r0,r40,r46 -o up --list calls --svg drawing";
    let text = desk.run(line).done();
    assert!(text.contains("\nOn at the start: r0 r40 r46\n13 calls:\n"));
    assert!(text.contains("  13  02 2e 00 00  switch resource 46 off (_OFF)\n"));
    assert_eq!(desk.read("up"), desk.read("asleep"));
    desk.run("check-bring-up table asleep calls --on r0,r40,r46")
        .done();
    desk.run("check-bring-up table asleep calls").refused(19);
    let drawing = String::from_utf8(desk.read("drawing")).expect("text");
    is_well_formed(&drawing);
    texts_are_apart(&drawing);
    desk.run("bring-up table asleep --on r47")
        .failed("--on names resource 47, and the table has 47, numbered from 0");
}

/// In the grid of a move what stays as it is has no row.
#[test]
fn long_traces_are_short_to_read() {
    let desk = armed("double_trace");
    let text = desk.run("trace table state sleep S3").done();
    assert!(text.lines().all(|line| line.len() <= 120));
    assert!(text.lines().count() < 400, "{}", text.lines().count());
    let moves: Vec<&str> = text.split("\ndevice ").skip(1).collect();
    assert_eq!(moves.len(), 37);
    for part in &moves {
        let rows = part.lines().filter(|line| line.starts_with('r'));
        let rows: Vec<&str> = rows.filter(|line| !line.starts_with("resource")).collect();
        let offs = part.matches("(_OFF)").count();
        assert_eq!(rows.len(), offs, "{part}");
        let names = part.split_whitespace().filter(|word| is_resource(word));
        assert_eq!(names.count(), 47, "{part}");
    }
    let part = moves[6];
    assert!(part.contains("\nr4            4  before          on    on   off\n"));
    assert!(
        part.contains("\noff throughout: r1 r43 r44 r45\n"),
        "{part}"
    );

    // What is off though needed has its row.
    desk.write("calls", &[2, 0, 0, 0]);
    let text = desk.run("trace table state disarm 6 calls").refused(19);
    let row = "\nr0            0  before+after    on  !off\n";
    assert!(text.contains(row), "{text}");
}

/// Whether a word is the name of a resource.
fn is_resource(word: &str) -> bool {
    word.strip_prefix('r')
        .is_some_and(|number| number.parse::<u8>().is_ok())
}

/// A tall drawing has its calls above and below the rows, and a wide one names each
/// resource along its row and at the right edge.
#[test]
fn large_drawings_stay_readable() {
    let desk = armed("double_drawn");
    desk.run("trace table state sleep S3 --svg drawing").done();
    let drawing = String::from_utf8(desk.read("drawing")).expect("text");
    is_well_formed(&drawing);
    texts_are_apart(&drawing);
    let count = |part: &str| drawing.matches(part).count();
    assert_eq!(count(">r46<"), 2 + 2);
    assert!(count(">r46 off<") > 3 && count(">r42 on<") > 5);
    assert_eq!((count(">_PS2<"), count(">48<")), (2 * 3, 2));

    desk.write("text", many(64, 64).as_bytes());
    desk.run("write text --version 2 -o table").done();
    desk.run("fresh table -o state").done();
    let line = "bring-up table state --on none --svg drawing";
    let text = desk.run(line).done();
    assert!(text.contains("\n64 calls:\n"), "{text}");
    let drawing = String::from_utf8(desk.read("drawing")).expect("text");
    is_well_formed(&drawing);
    texts_are_apart(&drawing);
    assert_eq!(drawing.matches("<path class=\"level\"").count(), 64);
    assert_eq!(drawing.matches(">r63 on<").count(), 1);
}
