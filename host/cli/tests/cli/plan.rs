use crate::desk::Desk;

#[test]
fn a_plan_is_shown_in_words() {
    let desk = Desk::with_dark_lamp("plan_words");
    let text = desk.run("plan table state move 1 D3hot").done();
    assert_eq!(
        text,
        "Request: move device 1 to D3hot\n\
         Answer 0, place 0: done.\n\
         3 calls:\n   \
         1  03 01 03 00  set device 1 to D3 (_PS3)\n   \
         2  02 01 00 00  switch resource 1 off (_OFF)\n   \
         3  02 02 00 00  switch resource 2 off (_OFF)\n\
         On afterwards: r0\n"
    );
    assert_eq!(desk.files(), ["state", "table"]);
}

#[test]
fn state_and_list_are_written() {
    let desk = Desk::with_dark_lamp("plan_files");
    let line = "plan table state move 1 D3hot -o after --list calls";
    desk.run(line).done();
    let calls = [3, 1, 3, 0, 2, 1, 0, 0, 2, 2, 0, 0];
    assert_eq!(desk.read("calls"), calls);
    let after = desk.read("after");
    assert_eq!(
        (after.len(), after[4], after[8], after[128]),
        (132, 3, 4, 1)
    );
}

#[test]
fn the_state_may_be_written_in_place() {
    let desk = Desk::new("plan_in_place");
    desk.run("plan table state move 1 D2 -o state").done();
    assert_eq!(desk.read("state")[4], 2);
    let text = desk.run("plan table state move 2 D3cold -o state").done();
    assert!(text.contains("02 01 00 00"));
    let text = desk.run("plan table state move 1 D0 -o state").done();
    assert!(text.contains("1  01 01 00 00  switch resource 1 on (_ON)"));
    assert!(text.contains("2  03 01 00 00  set device 1 to D0 (_PS0)"));
}

#[test]
fn a_plan_may_have_no_calls() {
    let desk = Desk::new("plan_empty");
    let line = "plan table state move 2 D3cold --list calls";
    let text = desk.run(line).done();
    assert!(text.contains("\nno calls\n"));
    assert_eq!(desk.read("calls"), []);
}

#[test]
fn arming_and_disarming_are_planned() {
    let desk = Desk::new("plan_wake");
    let text = desk.run("plan table state arm 1 S3 D2 -o state").done();
    assert!(text.contains("04 01 03 82  arm device 1 for S3 and D2 (_DSW on)"));
    let text = desk.run("plan table state disarm 1").done();
    assert!(text.contains("04 01 00 00  disarm device 1 (_DSW off)"));
}

#[test]
fn a_request_may_be_one_operand() {
    let desk = Desk::new("plan_operand");
    let words = ["plan", "table", "state", "arm 1 s3 d3hot"];
    let text = desk.run_words(words).done();
    assert!(text.contains("04 01 03 83"));
}

#[test]
fn a_refusal_writes_no_file() {
    let desk = Desk::new("plan_refused");
    let line = "plan table state move 0 D3hot -o after --list calls";
    let text = desk.run(line).refused(14);
    assert!(text.starts_with("Answer 14, device 1: this device is a child"));
    assert_eq!(desk.files(), ["state", "table"]);
}

#[test]
fn wrong_usage_is_explained() {
    let desk = Desk::new("plan_usage");
    desk.each_fails([
        ("plan", "TABLE, STATE and REQUEST are expected"),
        ("plan table", "TABLE, STATE and REQUEST are expected"),
        ("plan table state", "the request is missing"),
        ("plan table state go 1", "\"go\" is no request"),
        ("plan table state move 1", "a move is written like"),
        ("plan table state move 1 D3", "write D3hot or D3cold"),
        (
            "plan table state move one D2",
            "\"one\" is no device number",
        ),
        ("plan table state move 1 D2 more", "unexpected operand more"),
        ("plan table state move 1 D2 -x", "unknown option -x"),
        ("plan table state move 1 D2 --svg x", "unknown option --svg"),
        ("plan table state move 1 D2 -o a -o b", "-o is given twice"),
        ("plan table state move 1 D2 -o table", "two purposes"),
        ("plan table state move 1 D2 --list state", "two purposes"),
        ("plan table state move 1 D2 --list table", "two purposes"),
    ]);
    assert_eq!(desk.files(), ["state", "table"]);
}

#[test]
fn unreadable_files_are_named() {
    let desk = Desk::new("plan_unreadable");
    desk.each_fails([
        ("plan nothing state move 1 D2", "cannot read nothing: "),
        ("plan table nothing move 1 D2", "cannot read nothing: "),
        ("plan . state move 1 D2", "cannot read .: "),
        (
            "plan table state move 1 D2 --list missing/calls",
            "cannot write missing/calls: ",
        ),
        ("plan table state move 1 D2 -o .", "cannot write .: "),
    ]);
}
