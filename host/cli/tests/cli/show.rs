use crate::desk::Desk;

#[test]
fn the_bench_station_is_shown() {
    let text = Desk::new("show_bench").run("show table").done();
    for line in [
        "Table of version 1, 140 bytes: 3 resources, 3 devices",
        "r0        S3                     1",
        "r1        S0                     2",
        "Device 0, no parent",
        "Device 1, parent device 0",
        "  objects           _PS0 _PS2 _PS3 _PR0 _PR2 _PR3 _PRW _DSW _S3D=D2 _S3W=D3hot",
        "  needs in D0       r0 r1 r2",
        "  needs in D2       r0 r2",
        "  needs in D3cold   none",
        "  needs for wake    r2",
        "  wake from S0      not possible, since _S0W is absent",
        "  wake from S2      not possible, since _S2D and _S2W are absent",
        "  wake from S3      in D2, D3hot",
        "  objects           _PR0 _PR3",
    ] {
        assert!(text.lines().any(|found| found == line), "{line}\n{text}");
    }
    assert!(!text.contains("needs in D1"));
}

#[test]
fn a_level_that_forbids_wake_is_shown() {
    let desk = Desk::new("show_level");
    let mut table = desk.read("table");
    table[16] = 1;
    desk.write("table", &table);
    let text = desk.run("show table").done();
    assert!(text.contains("wake from S3      not possible, since r2 is off in S3"));
}

#[test]
fn an_empty_table_is_shown() {
    let desk = Desk::new("show_empty");
    desk.write("table", b"PWT\0\x01\0\0\0");
    let text = desk.run("show table").done();
    assert_eq!(
        text,
        "Table of version 1, 8 bytes: 0 resources, 0 devices\n"
    );
}

#[test]
fn a_damaged_table_refused() {
    let desk = Desk::new("show_damaged");
    let table = desk.read("table");
    desk.write("table", &table[..139]);
    let text = desk.run("show table").refused(3);
    assert_eq!(text.lines().count(), 1);
}
