use crate::desk::Desk;

#[test]
fn the_demo_shows_plans_and_writes_nothing() {
    let desk = Desk::new("demo_good");
    let text = desk.run("demo").done();
    for line in [
        "  1. set device 1 to D2 (_PS2)                  on: r0 r1 r2",
        "  1. switch resource 1 off (_OFF)               on: r0 r2",
        "  2. switch resource 1 on (_ON)                 on: r0 r1 r2",
        "  3. switch resource 2 off (_OFF)               on: r0",
    ] {
        assert!(text.lines().any(|found| found == line), "{line}\n{text}");
    }
    for answer in [
        "Answer 12, ",
        "Answer 14, device 1",
        "Answer 15, ",
        "Answer 16, ",
    ] {
        assert!(text.contains(answer), "{answer}");
    }
    assert_eq!(desk.files(), ["state", "table"]);
}

#[test]
fn the_demo_takes_no_operands() {
    let desk = Desk::new("demo_usage");
    desk.run("demo table").failed("unexpected operand table");
    desk.run("demo -o x").failed("unknown option -o");
}
