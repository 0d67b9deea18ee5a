use crate::desk::{is_well_formed, Desk};

/// The rows of the first grid in a text.
fn grid(text: &str) -> Vec<Vec<&str>> {
    text.lines()
        .skip_while(|line| !line.starts_with("resource"))
        .take_while(|line| line.starts_with('r'))
        .map(|line| line.split_whitespace().collect())
        .collect()
}

#[test]
fn the_planners_list_is_traced() {
    let desk = Desk::with_dark_lamp("trace_planned");
    let text = desk.run("trace table state move 1 D3hot").done();
    assert_eq!(
        grid(&text),
        [
            ["resource", "order", "needed", "start", "1", "2", "3"],
            ["r0", "1", "before+after", "on", "on", "on", "on"],
            ["r1", "2", "before", "on", "on", "off", "off"],
            ["r2", "1", "before", "on", "on", "on", "off"],
        ]
    );
    assert!(text.contains("1  03 01 03 00  set device 1 to D3 (_PS3), own call\n"));
    assert!(!text.contains("Fault"));
    assert_eq!(desk.files(), ["state", "table"]);
}

#[test]
fn a_list_from_a_file_is_traced() {
    let desk = Desk::with_dark_lamp("trace_list");
    desk.write("calls", &[3, 1, 3, 0, 2, 1, 0, 0, 2, 2, 0, 0]);
    let from_file = desk.run("trace table state move 1 D3hot calls").done();
    let planned = desk.run("trace table state move 1 D3hot").done();
    assert_eq!(from_file, planned);
}

#[test]
fn a_list_that_does_not_conform_is_traced_and_refused() {
    let desk = Desk::with_dark_lamp("trace_not_conforming");
    desk.write(
        "calls",
        &[2, 0, 0, 0, 2, 2, 0, 0, 3, 1, 3, 0, 7, 7, 7, 7, 1],
    );
    let text = desk.run("trace table state move 1 D3hot calls").refused(19);
    assert_eq!(
        grid(&text)[1..],
        [
            [
                "r0",
                "1",
                "before+after",
                "on",
                "!off",
                "!off",
                "!off",
                "!off"
            ],
            ["r1", "2", "before", "on", "on", "on", "on", "on"],
            ["r2", "1", "before", "on", "on", "off", "off", "off"],
        ]
    );
    for line in [
        "   4  07 07 07 07  no call",
        "Fault: Word 4 is no call.",
        "Fault: r0 is off after call 1, though it is needed before and after.",
        "Fault: Call 3 is the device's own and finds off what it needs: r0 r2.",
        "Fault: At the end off, though needed: r0.",
        "Fault: At the end on, though not needed: r1.",
        "Fault: The list ends with 1 odd byte; a call has four.",
        "The planner's list has 3 calls:",
    ] {
        assert!(text.lines().any(|found| found == line), "{line}\n{text}");
    }
}

/// The faults of a list for W4 on the bench station.
fn faults(name: &str, list: &[[u8; 4]]) -> Vec<String> {
    let desk = Desk::with_dark_lamp(name);
    desk.write("calls", list.as_flattened());
    let text = desk.run("trace table state move 1 D3hot calls").refused(19);
    let faults = text.lines().filter_map(|line| line.strip_prefix("Fault: "));
    faults.map(String::from).collect()
}

const W4: [[u8; 4]; 3] = [[3, 1, 3, 0], [2, 1, 0, 0], [2, 2, 0, 0]];

#[test]
fn a_call_of_what_the_table_does_not_have_is_a_fault() {
    let with = |call| [&W4[..2], &[call], &W4[2..]].concat();
    for (call, sentence) in [
        (
            [1, 3, 0, 0],
            "names resource 3, and the table has 3, numbered from 0",
        ),
        (
            [1, 40, 0, 0],
            "names resource 40, and the table has 3, numbered from 0",
        ),
        (
            [2, 31, 0, 0],
            "names resource 31, and the table has 3, numbered from 0",
        ),
        (
            [2, 255, 0, 0],
            "names resource 255, and the table has 3, numbered from 0",
        ),
        (
            [3, 3, 0, 0],
            "names device 3, and the table has 3, numbered from 0",
        ),
        (
            [4, 200, 0, 0],
            "names device 200, and the table has 3, numbered from 0",
        ),
        ([3, 1, 1, 0], "is _PS1 of device 1, which has no _PS1"),
        ([3, 2, 2, 0], "is _PS2 of device 2, which has no _PS2"),
        ([4, 0, 3, 0x82], "is _DSW of device 0, which has no _DSW"),
    ] {
        let mut expected = vec![format!("Call 3 {sentence}.")];
        if let [1, r, ..] = call {
            expected.push(format!("At the end on, though not needed: r{r}."));
        }
        assert_eq!(faults("trace_foreign_call", &with(call)), expected);
    }
    // Calls of the table have no such fault, and neither has another order.
    for call in [[1, 2, 0, 0], [2, 0, 0, 0], [3, 1, 2, 0], [4, 1, 0, 0]] {
        let faults = faults("trace_own_call", &with(call));
        assert!(faults.iter().all(|fault| !fault.starts_with("Call 3 ")));
    }
    let exchanged = [W4[0], W4[2], W4[1]];
    assert_eq!(faults("trace_exchanged", &exchanged), [""; 0]);
}

#[test]
fn resources_beyond_those_of_a_table_are_followed_to_the_end() {
    let on_and_off = [[1, 40, 0, 0], [1, 7, 0, 0], [1, 255, 0, 0], [2, 40, 0, 0]];
    let list = [&W4[..], &on_and_off].concat();
    let faults = faults("trace_beyond", &list);
    assert_eq!(faults.len(), 5);
    assert_eq!(faults[4], "At the end on, though not needed: r7 r255.");
}

#[test]
fn a_refused_request_is_not_traced() {
    let desk = Desk::new("trace_refused");
    let text = desk
        .run("trace table state move 1 D1 --svg drawing")
        .refused(11);
    assert_eq!(text.lines().count(), 1);
    assert!(!desk.has("drawing"));
}

#[test]
fn a_long_list_is_traced_in_parts() {
    let desk = Desk::new("trace_long");
    desk.write("calls", &[3, 1, 2, 0].repeat(30));
    let text = desk.run("trace table state move 1 D2 calls").refused(19);
    let titles = text.lines().filter(|line| line.starts_with("resource"));
    assert_eq!(titles.count(), 3);
    assert!(text.lines().all(|line| line.len() <= 120));
}

#[test]
fn a_trace_is_drawn() {
    let desk = Desk::with_dark_lamp("trace_drawn");
    desk.run("trace table state move 1 D3hot --svg drawing")
        .done();
    let drawing = String::from_utf8(desk.read("drawing")).expect("text");
    is_well_formed(&drawing);
    assert!(drawing.starts_with("<svg xmlns=\"http://www.w3.org/2000/svg\""));
    for label in [
        "Request: move device 1 to D3hot",
        ">r0<",
        ">r2<",
        ">order 2<",
        ">_PS3<",
        ">_OFF<",
        ">device 1<",
        ">start<",
        ">needed<",
    ] {
        assert!(drawing.contains(label), "{label}");
    }
    let count = |part| drawing.matches(part).count();
    assert_eq!(count("<path class=\"level\""), 3);
    assert_eq!(count("<circle class=\"needed\""), 4);
    assert_eq!(count("<circle class=\"free\""), 2);
    assert_eq!(count("<line class=\"own\""), 1);
    assert_eq!(count("<line class=\"call\""), 2);
    assert_eq!(count("class=\"fault"), 0);
}

#[test]
fn a_faulty_trace_is_drawn_with_its_faults() {
    let desk = Desk::with_dark_lamp("trace_faulty");
    desk.write("calls", &[2, 0, 0, 0]);
    let line = "trace table state move 1 D3hot calls --svg drawing";
    desk.run(line).refused(19);
    let drawing = String::from_utf8(desk.read("drawing")).expect("text");
    is_well_formed(&drawing);
    assert_eq!(drawing.matches("<rect class=\"fault\"").count(), 1);
    assert!(drawing.contains("Fault: r0 is off after call 1"));
    // The fault is marked with a sign, not by colour alone.
    assert_eq!(drawing.matches(">! off<").count(), 1);
}

#[test]
fn a_table_without_resources_is_traced_and_drawn() {
    let desk = Desk::new("trace_no_resources");
    let mut table = b"PWT\0\x01\0\x01\0".to_vec();
    table.extend([255, 0, 0, 0]);
    table.extend([0; 20]);
    table.extend([255; 9]);
    table.extend([0; 7]);
    desk.write("table", &table);
    desk.write("state", &[0; 132]);
    let text = desk
        .run("trace table state move 0 D3hot --svg drawing")
        .done();
    assert!(text.contains("no calls") && text.contains("no resources"));
    let drawing = String::from_utf8(desk.read("drawing")).expect("text");
    is_well_formed(&drawing);
    assert!(drawing.contains("The table has no resources."));
    desk.write("calls", &[1, 0, 0, 0]);
    let text = desk.run("trace table state move 0 D3hot calls").refused(19);
    assert!(text.contains("Fault: Call 1 names resource 0, and the table has none.\n"));
}

#[test]
fn wrong_usage_and_files_are_explained() {
    let desk = Desk::new("trace_usage");
    desk.each_fails([
        ("trace table state", "the request is missing"),
        ("trace table state disarm 1 calls", "cannot read calls: "),
        (
            "trace table state disarm 1 table more",
            "unexpected operand more",
        ),
        ("trace table state disarm 1 --svg table", "two purposes"),
        (
            "trace table state disarm 1 --svg missing/drawing",
            "cannot write missing/drawing: ",
        ),
        ("trace table state disarm 1 --svg", "--svg needs a file"),
    ]);
}
