//! The bench station at power-on, and other stations with any resources on.

use cases::{draw_state, image, on_set, Rng, Station};
use reference::Version;

use crate::desk::{is_well_formed, Desk};

/// The bus in D0, the camera in D3hot and the lamp in D3cold, which need r0.
const ASLEEP: [[u8; 4]; 3] = [[0; 4], [3, 0, 0, 0], [4, 0, 0, 0]];

/// A desk whose state has these entries and these resources on.
fn desk(name: &str, entries: [[u8; 4]; 3], on: u64) -> Desk {
    let desk = Desk::new(name);
    desk.write("state", &image(Version::One, &entries, on));
    desk
}

#[test]
fn a_bring_up_is_shown_in_words() {
    let desk = desk("bring_up_words", ASLEEP, 0b001);
    let text = desk.run("bring-up table state --on r1,r2").done();
    assert_eq!(
        text,
        "Bring-up\n\
         Answer 0, place 0: done.\n\
         On at the start: r1 r2\n\
         3 calls:\n   \
         1  01 00 00 00  switch resource 0 on (_ON)\n   \
         2  02 01 00 00  switch resource 1 off (_OFF)\n   \
         3  02 02 00 00  switch resource 2 off (_OFF)\n\
         On afterwards: r0\n"
    );
    assert_eq!(desk.files(), ["state", "table"]);
}

#[test]
fn state_and_list_are_written() {
    let desk = desk("bring_up_files", ASLEEP, 0b110);
    desk.run("bring-up table state -o after --list calls")
        .done();
    assert_eq!(desk.read("calls"), [1, 0, 0, 0, 2, 1, 0, 0, 2, 2, 0, 0]);
    assert_eq!(desk.read("after"), image(Version::One, &ASLEEP, 0b001));
    assert_eq!(desk.read("state"), image(Version::One, &ASLEEP, 0b110));
    desk.run("bring-up table state -o state").done();
    assert_eq!(desk.read("state"), image(Version::One, &ASLEEP, 0b001));
}

#[test]
fn what_is_on_is_reported_or_as_in_the_state() {
    let desk = desk("bring_up_on", [[0; 4]; 3], 0b101);
    for (on, line) in [
        (&[][..], "r0 r2"),
        (&["--on", "r1"], "r1"),
        (&["--on", "r2,r0,r1"], "r0 r1 r2"),
        (&["--on", "none"], "none"),
        (&["--on", ""], "none"),
    ] {
        let words = ["bring-up", "table", "state"].iter().chain(on);
        let text = desk.run_words(words).done();
        assert!(text.contains(&format!("\nOn at the start: {line}\n")));
        assert!(text.ends_with("\nOn afterwards: r0 r1 r2\n"), "{text}");
    }
}

/// The facts that make a bring-up useful, with any resources on: its list passes,
/// the devices are as before with exactly what they need, requests are planned, and
/// a second bring-up has no calls.
#[test]
fn stations_are_brought_up() {
    let desk = Desk::new("bring_up_stations");
    let mut rng = Rng::new(21);
    let mut brought_up = 0;
    while brought_up < 60 {
        let version = rng.pick(&Version::ALL);
        let table = Station::random(&mut rng, version).table(version);
        // What is needed and nothing else is on in a drawn state.
        let Some(needed) = draw_state(&mut rng, &table) else {
            continue;
        };
        let on: Vec<u8> = (0..table[3]).filter(|_| rng.one_in(2)).collect();
        let names: Vec<String> = on.iter().map(|r| format!("r{r}")).collect();
        desk.write("table", &table);
        desk.write("state", &needed);
        let run = |line: &str| {
            let words = line.split(' ').map(String::from);
            desk.run_words(words.chain(["--on".into(), names.join(",")]))
                .done()
        };
        run("bring-up table state -o after --list calls");
        assert_eq!(desk.read("after"), needed);
        let set: u64 = on.iter().map(|r| 1 << r).sum();
        let needed = on_set(version, &needed);
        assert_eq!(
            desk.read("calls").len(),
            4 * (set ^ needed).count_ones() as usize
        );
        run("check-bring-up table state calls");
        let text = desk.run("bring-up table after").done();
        assert!(text.contains("\nno calls\n"), "{text}");
        if table[6] > 0 {
            desk.run("plan table after disarm 0").done();
        }
        brought_up += 1;
    }
}

#[test]
fn a_bring_up_is_drawn() {
    let desk = desk("bring_up_drawn", ASLEEP, 0b001);
    let line = "bring-up table state --on r1,r2 --svg drawing";
    desk.run(line).done();
    let drawing = String::from_utf8(desk.read("drawing")).expect("text");
    is_well_formed(&drawing);
    for label in [
        "<title>bring-up<",
        ">Bring-up<",
        ">Answer 0, place 0: done.<",
        ">_ON<",
        ">_OFF<",
    ] {
        assert!(drawing.contains(label), "{label}");
    }
    let count = |part| drawing.matches(part).count();
    assert_eq!(count("<path class=\"level\""), 3);
    assert_eq!(count("<line class=\"call\""), 3);
    assert_eq!(count("<line class=\"own\""), 0);
    assert_eq!(count("<circle class=\"needed\""), 2);
    assert_eq!(count("<circle class=\"free\""), 4);
    // r0 is off at the start, though needed.
    assert_eq!(count(">! off<"), 1);
    assert_eq!(count("Fault:"), 0);
}

/// What is wrong with the camera, whatever is on, in the words of answer 8.
const INCONSISTENT: [([[u8; 4]; 3], &str); 6] = [
    (
        [[0; 4], [1, 0, 0, 0], [0; 4]],
        "is in D1, which it does not have",
    ),
    (
        [[3, 0, 0, 0], [0; 4], [3, 0, 0, 0]],
        "is in D0, shallower than its parent, device 0, which is in D3hot",
    ),
    (
        [[0; 4], [2, 1, 4, 2], [0; 4]],
        "is armed for S4 and D2, which is not a legal wake pair",
    ),
    (
        [[0; 4], [2, 1, 3, 0], [0; 4]],
        "is armed for S3 and D0, which is not a legal wake pair; \
         it is in D2, deeper than its wake state D0",
    ),
    (
        [[0; 4], [3, 1, 3, 2], [0; 4]],
        "is in D3hot, deeper than its wake state D2",
    ),
    (
        [[3, 0, 0, 0], [1, 1, 0, 0], [0; 4]],
        "is in D1, which it does not have; \
         it is in D1, shallower than its parent, device 0, which is in D3hot; \
         it is armed for S0 and D0, which is not a legal wake pair; \
         it is in D1, deeper than its wake state D0",
    ),
];

#[test]
fn a_refusal_says_why_and_writes_no_file() {
    for (entries, reason) in INCONSISTENT {
        let desk = desk("bring_up_refused", entries, 0b111);
        let refusal =
            format!("Answer 8, device 1: the state is not consistent: this device {reason}.\n");
        // That a resource is off is no reason.
        for on in ["none", "r0", "r0,r1,r2"] {
            let line =
                format!("bring-up table state --on {on} -o after --list calls --svg drawing");
            assert_eq!(desk.run(&line).refused(8), refusal);
            let line = format!("check-bring-up table state table --on {on}");
            assert_eq!(desk.run(&line).refused(8), refusal);
        }
        let text = desk.run("plan table state move 2 D0").refused(8);
        assert_eq!(text, refusal);
        assert_eq!(desk.files(), ["state", "table"]);
    }
}

/// Whatever entry the camera has, a refusal says what is wrong with it.
#[test]
fn each_refusal_has_its_reason() {
    let desk = Desk::new("bring_up_reasons");
    let not_armed = (0..5).map(|state| [state, 0, 0, 0]);
    let armed = (0..125).map(|n| [n / 25, 1, n / 5 % 5, n % 5]);
    let (mut accepted, mut refused) = (0, 0);
    for camera in not_armed.chain(armed) {
        for bus in [[0; 4], [3, 0, 0, 0]] {
            desk.write(
                "state",
                &image(Version::One, &[bus, camera, [4, 0, 0, 0]], 0),
            );
            let run = desk.run("bring-up table state");
            if run.status == 0 {
                accepted += 1;
                continue;
            }
            refused += 1;
            let text = run.refused(8);
            let (_, reasons) = text.split_once(" device 1: ").expect("the camera");
            let reasons = reasons.strip_prefix("the state is not consistent: this device ");
            for reason in reasons.expect("reasons").split("; it ") {
                let known = ["is in D", "is armed for S"];
                assert!(
                    known.iter().any(|start| reason.starts_with(start)),
                    "{text}"
                );
            }
        }
    }
    // With the bus in D0: D0, D2, D3hot and D3cold not armed, five for S3. With the
    // bus in D3hot: D3hot and D3cold not armed, D3hot for S3.
    assert_eq!((accepted, refused), (9 + 3, 260 - 12));
}

/// The text with which plan, check and trace refuse a state with 8.
fn refusal_of_requests(desk: &Desk) -> String {
    let [plan, check, trace] = ["plan", "check", "trace"].map(|name| {
        let list = if name == "plan" { "" } else { "table" };
        desk.run(&format!("{name} table state disarm 1 {list}"))
            .refused(8)
    });
    assert_eq!((&plan, &plan), (&check, &trace));
    plan
}

#[test]
fn where_only_resources_are_off_bring_up_is_named() {
    let desk = desk("bring_up_named", [[0; 4], [2, 0, 0, 0], [0; 4]], 0b001);
    assert_eq!(
        refusal_of_requests(&desk),
        "Answer 8, device 1: the state is not consistent: this device needs what is off: r2.\n\
         sailgarnet bring-up would make this state consistent.\n"
    );
    desk.run("bring-up table state -o state").done();
    desk.run("plan table state disarm 1").done();
}

#[test]
fn where_more_is_wrong_bring_up_is_not_named() {
    // The bus lacks its resource; bring-up refuses the camera.
    let desk = desk("bring_up_not_named", [[0; 4], [1, 1, 3, 2], [0; 4]], 0);
    assert_eq!(
        refusal_of_requests(&desk),
        "Answer 8, device 0: the state is not consistent: this device needs what is off: r0.\n"
    );
    desk.write(
        "state",
        &image(Version::One, &[[0; 4], [1, 1, 3, 2], [0; 4]], 0b001),
    );
    assert_eq!(
        refusal_of_requests(&desk),
        "Answer 8, device 1: the state is not consistent: \
         this device is in D1, which it does not have; it needs what is off: r2.\n"
    );
}

#[test]
fn a_list_that_conforms_passes() {
    let desk = desk("bring_up_check", [[0; 4]; 3], 0b010);
    // r0 and r2 have the same order.
    for list in [[1, 0, 0, 0, 1, 2, 0, 0], [1, 2, 0, 0, 1, 0, 0, 0]] {
        desk.write("calls", &list);
        let text = desk.run("check-bring-up table state calls").done();
        assert!(text.ends_with("\nThe list of 2 calls conforms to the bring-up.\n"));
    }
    desk.write("calls", &[]);
    let line = "check-bring-up table state calls --on r0,r1,r2";
    let text = desk.run(line).done();
    assert!(text.contains("The list of 0 calls conforms"));
    assert_eq!(desk.read("state"), image(Version::One, &[[0; 4]; 3], 0b010));
}

/// The lines after the answer of a refused list for the camera and lamp asleep with
/// r1 and r2 on, up to the planner's list.
fn faults(desk: &Desk, list: &[u8]) -> String {
    desk.write("calls", list);
    let line = "check-bring-up table state calls --on r1,r2";
    let text = desk.run(line).refused(19);
    let (_, rest) = text.split_once("\nOn at the start: r1 r2\n").unwrap();
    let (faults, planned) = rest
        .split_once("The planner's list has 3 calls:\n")
        .unwrap();
    assert_eq!(planned.lines().count(), 3);
    faults.into()
}

#[test]
fn other_lists_are_refused_and_the_planners_is_shown() {
    let desk = desk("bring_up_check_refused", ASLEEP, 0);
    let [on, off_1, off_2] = [[1, 0, 0, 0], [2, 1, 0, 0], [2, 2, 0, 0]];
    for (list, expected) in [
        (&[off_1, off_2, on][..], ""),
        (&[on, off_2, off_1], ""),
        (&[on, on, off_1, off_2], ""),
        (&[on, [3, 1, 0, 0], off_1, off_2], ""),
        (
            &[off_1, off_2],
            "Fault: At the end off, though needed: r0.\n",
        ),
        (
            &[on, off_1],
            "Fault: At the end on, though not needed: r2.\n",
        ),
        (
            &[on, off_1, off_2, [9, 0, 0, 0]],
            "Fault: Word 4 is no call.\n",
        ),
        (
            &[on, [2, 0, 0, 0], on, off_1, off_2],
            "Fault: r0 is off after call 2, though it is needed before and after.\n",
        ),
    ] {
        assert_eq!(faults(&desk, list.as_flattened()), expected, "{list:?}");
    }
}

#[test]
fn a_list_that_ends_within_a_call_is_refused() {
    let desk = desk("bring_up_odd", ASLEEP, 0);
    let list = [1, 0, 0, 0, 2, 1, 0, 0, 2, 2, 0, 0, 0];
    for length in [1, 2, 3, 5, 11] {
        assert!(faults(&desk, &list[..length]).contains("odd byte"));
    }
    assert_eq!(
        faults(&desk, &list),
        "Fault: The list ends with 1 odd byte; a call has four.\n"
    );
}

#[test]
fn wrong_usage_is_explained() {
    let desk = Desk::new("bring_up_usage");
    desk.each_fails([
        ("bring-up", "TABLE and STATE are expected"),
        ("check-bring-up table", "TABLE and STATE are expected"),
        ("check-bring-up table state", "LIST is missing"),
        ("bring-up table state more", "unexpected operand more"),
        (
            "check-bring-up table state state more",
            "unexpected operand more",
        ),
        ("bring-up table state -x", "unknown option -x"),
        ("check-bring-up table state state -o x", "unknown option -o"),
        ("plan table state move 1 D2 --on r0", "unknown option --on"),
        ("bring-up table state --on", "--on needs resources"),
        (
            "bring-up table state --on r0 --on r1",
            "--on is given twice",
        ),
        (
            "bring-up table state --on r0,r3",
            "--on names resource 3, and the table has 3, numbered from 0\n",
        ),
        (
            "check-bring-up table state state --on r31",
            "--on names resource 31, and the table has 3, numbered from 0\n",
        ),
        ("bring-up table state --on r64", "\"r64\" is no resource"),
        ("bring-up table state --on bus", "\"bus\" is no resource"),
        ("bring-up table state --on r0,,r1", "\"\" is no resource"),
        ("bring-up table state --on r0,r0", "\"r0\" is listed twice"),
    ]);
    assert_eq!(desk.files(), ["state", "table"]);
}

#[test]
fn files_are_kept_and_named() {
    let desk = Desk::new("bring_up_kept");
    desk.each_fails([
        ("bring-up table state -o table", "two purposes"),
        ("bring-up table state --list state", "two purposes"),
        ("bring-up table state -o x --list x", "two purposes"),
        ("bring-up table state --svg table", "two purposes"),
        ("bring-up table state --svg state", "two purposes"),
        ("bring-up table state -o x --svg x", "two purposes"),
        ("bring-up table state --list x --svg x", "two purposes"),
        ("bring-up nothing state", "cannot read nothing: "),
        ("bring-up table nothing", "cannot read nothing: "),
        ("check-bring-up table state calls", "cannot read calls: "),
        (
            "bring-up table state --svg missing/drawing",
            "cannot write missing/drawing: ",
        ),
    ]);
    assert_eq!(desk.files(), ["state", "table"]);
}
