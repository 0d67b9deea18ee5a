use crate::desk::Desk;

#[test]
fn a_fresh_state_is_written() {
    let desk = Desk::new("fresh_good");
    let text = desk.run("fresh table -o new").done();
    assert!(text.contains("On: r0 r1 r2"));
    let mut expected = [0; 132];
    expected[128] = 7;
    assert_eq!(desk.read("new"), expected);
}

#[test]
fn a_refused_table_gives_no_state() {
    let desk = Desk::new("fresh_refused");
    desk.write("table", b"PWT");
    desk.run("fresh table -o new").refused(1);
    assert!(!desk.has("new"));
}

#[test]
fn the_output_must_be_named() {
    let desk = Desk::new("fresh_usage");
    desk.run("fresh table").failed("-o STATE is missing");
    desk.run("fresh table -o").failed("-o needs a file");
    desk.run("fresh -o new").failed("TABLE is missing");
}

#[test]
fn the_table_is_not_overwritten() {
    let desk = Desk::new("fresh_overwrite");
    let table = desk.read("table");
    desk.run("fresh table -o table").failed("two purposes");
    desk.run("fresh table -o ./table").failed("two purposes");
    assert_eq!(desk.read("table"), table);
}

#[test]
fn a_file_that_cannot_be_written_is_named() {
    let desk = Desk::new("fresh_unwritable");
    let run = desk.run("fresh table -o missing/new");
    run.failed("cannot write missing/new: ");
}
