use crate::desk::Desk;

const SUBCOMMANDS: [&str; 11] = [
    "show",
    "describe",
    "write",
    "convert",
    "fresh",
    "plan",
    "check",
    "trace",
    "bring-up",
    "check-bring-up",
    "demo",
];

#[test]
fn help_is_given_for_the_command_and_each_subcommand() {
    let desk = Desk::new("usage_help");
    for line in ["--help", "-h", "help"] {
        let text = desk.run(line).done();
        for name in SUBCOMMANDS {
            assert!(text.contains(&format!("sailgarnet {name}")));
        }
    }
    for name in SUBCOMMANDS {
        for option in ["--help", "-h"] {
            let text = desk.run(&format!("{name} {option}")).done();
            assert!(text.starts_with(&format!("Usage: sailgarnet {name}")));
            assert!(text.contains("Exit status: 0 done, 1 refused, 2 "));
            let takes_request = ["plan", "check", "trace"].contains(&name);
            assert_eq!(text.contains("REQUEST is one of"), takes_request);
        }
    }
    // Help is given wherever it is asked for.
    desk.run("plan table --help").done();
}

#[test]
fn the_version_names_the_planner() {
    let text = Desk::new("usage_version").run("--version").done();
    assert!(text.starts_with("sailgarnet "));
    assert!(text.contains("\nplanner: the "));
}

#[test]
fn a_subcommand_is_needed() {
    let desk = Desk::new("usage_subcommand");
    desk.run("").failed("a subcommand is missing");
    desk.run("paint").failed("there is no subcommand \"paint\"");
    desk.run("show").failed("TABLE is missing");
    desk.run("show table more")
        .failed("unexpected operand more");
    desk.run("show nothing").failed("cannot read nothing: ");
    desk.run("show .").failed("cannot read .: ");
}

#[test]
fn two_hyphens_end_the_options() {
    let desk = Desk::new("usage_hyphens");
    desk.write("-o", &desk.read("table"));
    desk.run("show -- -o").done();
    desk.run("show -o").failed("unknown option -o");
}

#[cfg(unix)]
#[test]
fn names_that_are_no_text_are_taken() {
    use std::ffi::OsStr;
    use std::os::unix::ffi::OsStrExt;

    let desk = Desk::new("usage_names");
    let odd = OsStr::from_bytes(b"odd\xff");
    desk.run_words([OsStr::new("show"), odd])
        .failed("cannot read odd");
    desk.run_words([odd]).failed("there is no subcommand");
    let words = ["plan", "table", "state"].map(OsStr::new);
    desk.run_words(words.into_iter().chain([odd]))
        .failed("is no request");
}
