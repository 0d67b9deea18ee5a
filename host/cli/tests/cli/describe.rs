use crate::desk::Desk;

const BENCH: &str = "\
# sailgarnet write --help explains these lines
version 1

resource r0 level S3 order 1
resource r1 level S0 order 2
resource r2 level S3 order 1

device d0
  _PS0 _PS3
  _PR0 r0
  _PR3 r0

device d1
  parent d0
  _PS0 _PS2 _PS3 _DSW
  _PR0 r0 r1 r2
  _PR2 r0 r2
  _PR3 r0
  _PRW S3 r2
  _S3D D2
  _S3W D3hot

device d2
  parent d0
  _PR0 r1
  _PR3
";

#[test]
fn the_bench_station_is_described() {
    let desk = Desk::new("describe_bench");
    assert_eq!(desk.run("describe table").done(), BENCH);
    assert_eq!(desk.files(), ["state", "table"]);
}

#[test]
fn a_description_goes_to_a_file() {
    let desk = Desk::new("describe_file");
    let text = desk.run("describe table -o text").done();
    assert_eq!(
        text,
        "Answer 0, place 0: done.\nTable of version 1, 140 bytes: 3 resources, 3 devices\n"
    );
    assert_eq!(desk.read("text"), BENCH.as_bytes());
}

#[test]
fn an_empty_table_is_described() {
    let desk = Desk::new("describe_empty");
    desk.write("table", b"PWT\0\x01\0\0\0");
    let text = desk.run("describe table").done();
    assert!(text.ends_with("\nversion 1\n"), "{text}");
}

#[test]
fn a_refused_table_gives_no_text() {
    let desk = Desk::new("describe_refused");
    for (bytes, number) in [
        (&b""[..], 1),
        (b"PWT\xff\x01\0\xff", 1),
        (b"PWT\xff\x01\0\xff\0", 2),
        (b"PWT\x01\x01\0\0\0", 3),
        (b"PWT\x01\x01\0\0\0\x05\0\0\0", 4),
    ] {
        desk.write("table", bytes);
        let text = desk.run("describe table -o text").refused(number);
        assert_eq!(text, desk.run("show table").refused(number));
        assert!(!desk.has("text"));
    }
}

#[test]
fn wrong_usage_and_files_are_explained() {
    let desk = Desk::new("describe_usage");
    let table = desk.read("table");
    desk.each_fails([
        ("describe", "TABLE is missing"),
        ("describe table more", "unexpected operand more"),
        ("describe table -o", "-o needs a file"),
        ("describe table -o table", "two purposes"),
        ("describe table -o ./table", "two purposes"),
        (
            "describe table -o missing/text",
            "cannot write missing/text: ",
        ),
        ("describe nothing", "cannot read nothing: "),
        ("describe .", "cannot read .: "),
    ]);
    assert_eq!(desk.read("table"), table);
    assert_eq!(desk.files(), ["state", "table"]);
}
