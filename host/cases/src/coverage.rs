//! How often each answer was given, and some of them at each place.

use std::fmt;
use std::ops::Range;

use reference::{Answer, Request, Version, MAX_DEVICES};

use crate::sleep::SLEEP;

/// There are answers with the numbers below this one.
const ANSWERS: u8 = 22;

/// How often a function gave each answer number at each place.
#[derive(Clone)]
pub struct Counts(Vec<[u64; MAX_DEVICES]>);

impl Default for Counts {
    fn default() -> Self {
        Self(vec![[0; MAX_DEVICES]; ANSWERS.into()])
    }
}

impl Counts {
    /// Counts one answer.
    pub fn add(&mut self, answer: Answer) {
        self.0[usize::from(answer.number)][answer.place as usize] += 1;
    }

    /// How often this answer number was given.
    fn of(&self, number: u8) -> u64 {
        self.0[usize::from(number)].iter().sum()
    }

    /// Fails unless exactly these answers were given, each at least `least` times.
    pub fn must_be(&self, name: &str, answers: &[u8], least: u64) {
        for number in 0..ANSWERS {
            let count = self.of(number);
            if answers.contains(&number) {
                assert!(count >= least, "{name} gave {number} only {count} times");
            } else {
                assert_eq!(count, 0, "{name} gave {number}, which it cannot");
            }
        }
    }

    /// Fails unless each of these answers was given at each of these places.
    pub fn must_reach(&self, name: &str, answers: &[u8], places: Range<usize>) {
        for &number in answers {
            for place in places.clone() {
                let count = self.0[usize::from(number)][place];
                assert!(count > 0, "{name} never gave {number} at place {place}");
            }
        }
    }
}

/// The answers the planner can give, but to sleep entry: 19 is the checker's.
pub const PLANNER: &[u8] = &[
    0, 1, 2, 3, 4, 5, 6, 7, 8, 9, 10, 11, 12, 13, 14, 15, 16, 17, 18,
];
/// The answers the planner can give to sleep entry.
pub const SLEEP_ENTRY: &[u8] = &[0, 1, 2, 3, 4, 5, 6, 7, 8, 9, 10, 20, 21];
/// The answers the checker can give: 9 is the planner's.
pub const CHECKER: &[u8] = &[
    0, 1, 2, 3, 4, 5, 6, 7, 8, 10, 11, 12, 13, 14, 15, 16, 17, 18, 19,
];
/// The answers for a fresh state.
pub const FRESH: &[u8] = &[0, 1, 2, 3, 4, 5, 6, 7];
/// The answers of the writer for a known version: 1 is for the others, and
/// 3 for the length of a table that is read.
pub const WRITER: &[u8] = &[0, 2, 4, 5, 6, 9];
/// The answers of the describer.
pub const DESCRIBER: &[u8] = &[0, 1, 2, 3, 4, 5, 6, 9];
/// The answers of bring-up.
pub const BRING_UP: &[u8] = &[0, 1, 2, 3, 4, 5, 6, 7, 8, 9];
/// The answers of the checker of bring-up.
pub const BRING_UP_CHECKER: &[u8] = &[0, 1, 2, 3, 4, 5, 6, 7, 8, 19];

/// The answers of all functions that name a record of the table.
pub const RECORDS: &[u8] = &[4, 5, 6];
/// Those of functions that read a state too.
pub const RECORDS_AND_ENTRIES: &[u8] = &[4, 5, 6, 8];
/// Those of sleep entry.
pub const SLEEP_PLACES: &[u8] = &[4, 5, 6, 8, 20];

/// The answers of all functions.
#[derive(Clone, Default)]
pub struct Functions {
    /// The planner's, but to sleep entry.
    pub planner: Counts,
    /// The planner's to sleep entry.
    pub sleep_entry: Counts,
    /// The checker's.
    pub checker: Counts,
    /// Those for a fresh state.
    pub fresh: Counts,
    /// The writer's.
    pub writer: Counts,
    /// The describer's.
    pub describer: Counts,
    /// Those of bring-up.
    pub bring_up: Counts,
    /// Those of the checker of bring-up.
    pub bring_up_checker: Counts,
}

/// A function with its counts, the answers it can give, and those of them that
/// must be given at every place.
type Function<'a> = (&'static str, &'a Counts, &'static [u8], &'static [u8]);

impl Functions {
    /// Counts an answer of the planner.
    pub fn add_planned(&mut self, request: Request, answer: Answer) {
        match request.kind {
            SLEEP => self.sleep_entry.add(answer),
            _ => self.planner.add(answer),
        }
    }

    fn all(&self) -> [Function<'_>; 8] {
        [
            ("planner", &self.planner, PLANNER, RECORDS_AND_ENTRIES),
            ("sleep entry", &self.sleep_entry, SLEEP_ENTRY, SLEEP_PLACES),
            ("checker", &self.checker, CHECKER, RECORDS_AND_ENTRIES),
            ("fresh", &self.fresh, FRESH, RECORDS),
            ("writer", &self.writer, WRITER, RECORDS),
            ("describer", &self.describer, DESCRIBER, RECORDS),
            ("bring-up", &self.bring_up, BRING_UP, RECORDS_AND_ENTRIES),
            (
                "bring-up checker",
                &self.bring_up_checker,
                BRING_UP_CHECKER,
                RECORDS_AND_ENTRIES,
            ),
        ]
    }

    /// A row for each answer; "-" is an answer that cannot occur.
    fn fmt_answers(&self, f: &mut fmt::Formatter) -> fmt::Result {
        let width = |name: &str| name.len().max(10) + 2;
        write!(f, "answer")?;
        for (name, ..) in self.all() {
            write!(f, "{name:>0$}", width(name))?;
        }
        for number in 0..ANSWERS {
            write!(f, "\n{number:6}")?;
            for (name, counts, answers, _) in self.all() {
                let width = width(name);
                match counts.of(number) {
                    0 if !answers.contains(&number) => write!(f, "{:>width$}", "-")?,
                    count => write!(f, "{count:width$}")?,
                }
            }
        }
        writeln!(f)
    }

    /// A row for each place of a version, with the answers that must be given at
    /// every place.
    fn fmt_places(&self, f: &mut fmt::Formatter, version: Version) -> fmt::Result {
        write!(f, " place")?;
        for (name, _, _, placed) in self.all() {
            write!(f, "{name:>0$}", 7 * placed.len())?;
        }
        write!(f, "\n      ")?;
        for (.., placed) in self.all() {
            placed
                .iter()
                .try_for_each(|number| write!(f, "{number:7}"))?;
        }
        for place in 0..version.limit() {
            write!(f, "\n{place:6}")?;
            for (_, counts, _, placed) in self.all() {
                for &number in placed {
                    write!(f, "{:7}", counts.0[usize::from(number)][place])?;
                }
            }
        }
        writeln!(f)
    }
}

/// The answers of all functions for each version: the table's, and of the writer
/// the one asked for.
#[derive(Clone, Default)]
pub struct Coverage {
    one: Functions,
    two: Functions,
    /// For all numbers of unknown versions, and for tables without one.
    neither: Functions,
}

impl Coverage {
    /// The answers for a version.
    pub fn of(&self, version: Version) -> &Functions {
        match version {
            Version::One => &self.one,
            Version::Two => &self.two,
        }
    }

    /// The answers for all numbers that are no version.
    pub fn of_no_version(&self) -> &Functions {
        &self.neither
    }

    /// The answers for the version of these bytes of a table.
    pub fn of_table(&mut self, table: &[u8]) -> &mut Functions {
        self.of_mut(Version::of_table(table))
    }

    /// The answers for the version that is asked of the writer.
    pub fn of_number(&mut self, number: u32) -> &mut Functions {
        self.of_mut(Version::from_number(number))
    }

    fn of_mut(&mut self, version: Option<Version>) -> &mut Functions {
        match version {
            Some(Version::One) => &mut self.one,
            Some(Version::Two) => &mut self.two,
            None => &mut self.neither,
        }
    }

    /// Fails unless in each version every answer that can be given was given at
    /// least `least` times, and no other, and those that name a record or a device
    /// were given at every place; and unless there was answer 1 alone without one.
    pub fn must_be_whole(&self, least: u64) {
        for version in Version::ALL {
            for (function, counts, answers, placed) in self.of(version).all() {
                let name = format!("version {}, {function}", version.number());
                counts.must_be(&name, answers, least);
                counts.must_reach(&name, placed, 0..version.limit());
            }
        }
        for (function, counts, ..) in self.neither.all() {
            counts.must_be(&format!("no version, {function}"), &[1], least);
        }
    }
}

impl fmt::Display for Coverage {
    fn fmt(&self, f: &mut fmt::Formatter) -> fmt::Result {
        for version in Version::ALL {
            writeln!(f, "version {}", version.number())?;
            let functions = self.of(version);
            functions.fmt_answers(f)?;
            functions.fmt_places(f, version)?;
        }
        write!(f, "no version, answer 1 alone:")?;
        for (function, counts, ..) in self.neither.all() {
            write!(f, " {function} {}", counts.of(1))?;
        }
        Ok(())
    }
}
