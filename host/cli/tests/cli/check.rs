use crate::desk::Desk;

const CONFORMING: [u8; 12] = [3, 1, 3, 0, 2, 1, 0, 0, 2, 2, 0, 0];

#[test]
fn a_list_that_conforms_passes() {
    let desk = Desk::with_dark_lamp("check_good");
    desk.write("calls", &CONFORMING);
    let text = desk.run("check table state move 1 D3hot calls").done();
    assert!(text.contains("The list of 3 calls conforms to the request."));
    let text = desk.run_words(["check", "table", "state", "move 1 D3hot", "calls"]);
    text.done();
    assert_eq!(desk.files(), ["calls", "state", "table"]);
}

#[test]
fn an_empty_list_can_conform() {
    let desk = Desk::new("check_empty");
    desk.write("calls", &[]);
    desk.run("check table state move 2 D3cold calls").done();
    desk.run("check table state disarm 1 calls").done();
}

#[test]
fn other_lists_are_refused_and_the_planners_is_shown() {
    let desk = Desk::with_dark_lamp("check_refused");
    let exchanged = [3, 1, 3, 0, 2, 2, 0, 0, 2, 1, 0, 0];
    for (list, faults) in [
        (&exchanged[..], ""),
        (
            &CONFORMING[..8],
            "Fault: At the end on, though not needed: r2.\n",
        ),
        (
            &CONFORMING[..11],
            "Fault: At the end on, though not needed: r2.\n\
             Fault: The list ends with 3 odd bytes; a call has four.\n",
        ),
        (&[], "Fault: At the end on, though not needed: r1 r2.\n"),
    ] {
        desk.write("calls", list);
        let text = desk.run("check table state move 1 D3hot calls").refused(19);
        assert!(text.contains(&format!(" in order.\n{faults}The planner's list")));
        assert!(text.contains("The planner's list has 3 calls:\n"));
        assert!(text.contains("   2  02 01 00 00  switch resource 1 off (_OFF)\n"));
    }
}

#[test]
fn a_refused_request_is_refused_before_its_list() {
    let desk = Desk::new("check_request");
    desk.write("calls", &[1, 2, 3]);
    let text = desk.run("check table state move 1 D1 calls").refused(11);
    assert!(!text.contains("planner"));
}

#[test]
fn wrong_usage_and_unreadable_files_are_explained() {
    let desk = Desk::new("check_usage");
    desk.each_fails([
        ("check table state move 1 D3hot", "LIST is missing"),
        (
            "check table state move 1 D3hot calls",
            "cannot read calls: ",
        ),
        (
            "check table state move 1 D3hot state more",
            "unexpected operand more",
        ),
        (
            "check table state move 1 D3hot state -o x",
            "unknown option -o",
        ),
    ]);
}
