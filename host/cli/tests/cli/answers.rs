//! Each answer the command can give, with its place. The command always lends
//! enough room for what is written, so 9 cannot be given.

use crate::desk::Desk;

/// The refusal of a table with one byte changed, or cut.
fn refuses_table(desk: &Desk, change: impl Fn(&mut Vec<u8>), number: u8, place: &str) {
    let table = desk.read("table");
    let mut damaged = table.clone();
    change(&mut damaged);
    desk.write("table", &damaged);
    for line in [
        "show table",
        "describe table",
        "describe table -o new",
        "fresh table -o new",
        "plan table state move 1 D2",
        "check table state move 1 D2 state",
        "trace table state move 1 D2",
        "plan table state sleep S3 -o new",
        "check table state sleep S3 state",
        "trace table state sleep S3",
        "bring-up table state -o new",
        "bring-up table state --on r0 -o new",
        "check-bring-up table state state --on r31",
    ] {
        let text = desk.run(line).refused(number);
        assert!(text.contains(place), "{text}");
        assert!(!desk.has("new"));
    }
    desk.write("table", &table);
}

#[test]
fn answers_1_to_6_are_for_tables() {
    let desk = Desk::new("answers_tables");
    refuses_table(&desk, |table| table.truncate(7), 1, "place 0: the table is");
    refuses_table(&desk, |table| table[3] = 33, 2, "place 0: the table has");
    refuses_table(&desk, |table| table.push(0), 3, "place 0: the table is");
    refuses_table(&desk, |table| table[8 + 4] = 5, 4, "resource 1: ");
    refuses_table(&desk, |table| table[20 + 40 + 39] = 1, 5, "device 1: ");
    refuses_table(&desk, |table| table[20 + 80 + 3] = 2, 6, "device 2: ");
}

#[test]
fn answers_7_and_8_are_for_states() {
    let desk = Desk::new("answers_states");
    let lines = [
        "plan table state move 1 D2",
        "check table state move 1 D2 table",
        "trace table state move 1 D2 table",
        "plan table state sleep S3",
        "check table state sleep S3 table",
        "trace table state sleep S3",
    ];
    let bring_ups = [
        "bring-up table state",
        "bring-up table state --on r0",
        "check-bring-up table state table",
    ];
    for length in [0, 131, 133] {
        desk.write("state", &vec![0; length]);
        for line in lines.iter().chain(&bring_ups) {
            let text = desk.run(line).refused(7);
            assert!(text.contains("place 0: the state is"));
        }
    }
    desk.write("state", &[0; 132]);
    for line in lines {
        assert_eq!(
            desk.run(line).refused(8),
            "Answer 8, device 0: the state is not consistent: this device needs what is off: r0.\n\
             sailgarnet bring-up would make this state consistent.\n"
        );
    }
}

#[test]
fn answers_10_to_18_are_for_requests() {
    let desk = Desk::new("answers_requests");
    let refuses = |request: &str, number, place| {
        let text = desk
            .run(&format!("plan table state {request}"))
            .refused(number);
        assert!(text.starts_with(&format!("Answer {number}, {place}: ")));
        desk.run(&format!("check table state {request} table"))
            .refused(number);
    };
    let set_state = |entries: [[u8; 4]; 3]| {
        let mut state = entries.concat();
        state.resize(128, 0);
        state.extend([7, 0, 0, 0]);
        desk.write("state", &state);
    };
    refuses("move 3 D0", 10, "place 0");
    refuses("disarm 4294967295", 10, "place 0");
    refuses("move 1 D1", 11, "place 0");
    refuses("move 0 D3hot", 14, "device 1");
    refuses("arm 1 S4 D2", 16, "place 0");
    refuses("arm 1 S2 D2", 18, "place 0");
    set_state([[3, 0, 0, 0], [3, 0, 0, 0], [3, 0, 0, 0]]);
    refuses("move 1 D2", 12, "place 0");
    refuses("move 1 D0", 13, "device 0");
    set_state([[0; 4], [0, 1, 3, 2], [0; 4]]);
    refuses("move 1 D3hot", 15, "place 0");
    set_state([[0; 4]; 3]);
    let mut table = desk.read("table");
    table[8 + 4 * 2] = 2;
    desk.write("table", &table);
    refuses("arm 1 S3 D2", 17, "place 0");
}

#[test]
fn a_device_that_is_not_there_is_named() {
    let desk = Desk::new("answers_no_device");
    for line in [
        "plan table state arm 3 S3 D2",
        "check table state disarm 3 table",
        "trace table state move 3 D0",
    ] {
        assert_eq!(
            desk.run(line).refused(10),
            "Answer 10, place 0: the request names device 3, and the table has 3, numbered from 0.\n"
        );
    }
}

#[test]
fn answer_19_is_for_lists() {
    let desk = Desk::new("answers_lists");
    desk.write("calls", &[3, 1, 2]);
    for name in ["check", "trace"] {
        let line = format!("{name} table state move 1 D2 calls");
        let text = desk.run(&line).refused(19);
        assert!(text.contains("place 0: the list does not conform"));
    }
}

#[test]
fn answers_20_and_21_are_for_sleep_entry() {
    let desk = Desk::new("answers_sleep");
    desk.run("plan table state arm 1 S3 D2 -o state").done();
    let text = desk.run("plan table state sleep S2").refused(20);
    assert!(text.starts_with("Answer 20, device 1: "));
    // The camera cannot be in D2 with r0 off.
    let mut table = desk.read("table");
    table[8] = 2;
    desk.write("table", &table);
    let text = desk.run("plan table state sleep S3").refused(21);
    assert!(text.starts_with("Answer 21, place 0: "));
}
