//! What must be equal of one station as a table of each version.

use std::fmt::Debug;

use reference::{check_table, Answer, Request, Version};

use crate::image::converted;
use crate::inverse::Write;
use crate::{equal, plan_room, version_of, Case, Description};

/// Functions of one planner, which give their answers as one number.
pub struct Versions {
    /// The writer: version, description and table.
    pub write: Write,
    /// The fresh state: table and state.
    pub fresh: fn(&[u8], &mut [u8]) -> u64,
    /// The planner: table, state, request and plan.
    pub plan: fn(&[u8], &mut [u8], Request, &mut [u8]) -> u64,
    /// The checker: table, state, request and list.
    pub check: fn(&[u8], &[u8], Request, &[u8]) -> u64,
    /// Bring-up: table, state and plan.
    pub bring_up: fn(&[u8], &mut [u8], &mut [u8]) -> u64,
    /// Its checker: table, state and list.
    pub check_bring_up: fn(&[u8], &[u8], &[u8]) -> u64,
}

/// How much of a case was compared in both versions.
#[derive(Clone, Copy, Debug, Default, PartialEq, Eq)]
pub struct Compared {
    /// Whether the planner and the checker were.
    pub request: bool,
    /// Whether bring-up and its checker were.
    pub bring_up: bool,
}

/// A station as a table of one version.
struct Side {
    version: Version,
    table: Vec<u8>,
}

impl Side {
    /// A state of the case as an image of this version.
    fn image(&self, case: &Case, state: &[u8]) -> Option<Vec<u8>> {
        converted(version_of(&case.table), self.version, state)
    }

    /// The answer to a state, with so much room for calls, the calls, and the state
    /// afterwards as an image of version 2.
    fn outcome(
        &self,
        mut state: Vec<u8>,
        room: usize,
        run: impl Fn(&mut [u8], &mut [u8]) -> u64,
    ) -> (Answer, Vec<u8>, Option<Vec<u8>>) {
        let mut plan = vec![0x5a; room];
        let answer = Answer::unpack(run(&mut state, &mut plan));
        plan.truncate(4 * usize::from(answer.count));
        let state = converted(self.version, Version::Two, &state);
        (answer, plan, state)
    }
}

/// Says whether something differs between the two versions.
fn same<T: PartialEq + Debug>(
    what: &str,
    sides: &[Side; 2],
    of: impl Fn(&Side) -> T,
) -> Result<(), String> {
    let [one, two] = sides.each_ref().map(of);
    equal(&format!("of version 2, {what}"), &two, &one)
}

impl Versions {
    /// Says what differs. A station with at most 32 of each is written as a table of
    /// each version, and gets from the same entries and on-set, in the image of that
    /// version, the same answers, calls, entries and on-set. The records of the case,
    /// good or not, get the same verdict from the writer.
    pub fn agree(&self, case: &Case) -> Result<Compared, String> {
        self.records_agree(&case.description)?;
        let mut compared = Compared::default();
        if !check_table(&case.table).is_done() {
            return Ok(compared);
        }
        let Some(sides) = self.sides(&Description::of_table(&case.table))? else {
            return Ok(compared);
        };
        same("the fresh state", &sides, |side| {
            let state = vec![0x5a; side.version.state_bytes()];
            side.outcome(state, 0, |state, _| (self.fresh)(&side.table, state))
        })?;
        if is_held_by_both(&sides, case, &case.state) {
            self.request_agrees(case, &sides)?;
            compared.request = true;
        }
        if is_held_by_both(&sides, case, &case.reported) {
            self.bring_up_agrees(case, &sides)?;
            compared.bring_up = true;
        }
        Ok(compared)
    }

    /// The writer's answer and what it wrote, with just the room for it.
    fn written(&self, version: Version, lists: &Description) -> (Answer, Vec<u8>) {
        let mut table = vec![0x5a; lists.table_length(version)];
        let answer = (self.write)(version.number().into(), lists, &mut table);
        (Answer::unpack(answer), table)
    }

    fn records_agree(&self, lists: &Description) -> Result<(), String> {
        if !lists.fits(Version::One) {
            return Ok(());
        }
        let [one, two] = Version::ALL.map(|version| {
            let (answer, _) = self.written(version, lists);
            (answer.number, answer.place)
        });
        equal("the verdict on records of version 2", &two, &one)
    }

    /// A good description as the tables of both versions, or `None` if version 1
    /// refuses it, with 2.
    fn sides(&self, lists: &Description) -> Result<Option<[Side; 2]>, String> {
        let written = Version::ALL.map(|version| (version, self.written(version, lists)));
        for (version, (answer, table)) in &written {
            let expected = match lists.fits(*version) {
                true => Answer::done(table.len() as u16),
                false => Answer::refused(2, 0),
            };
            equal("the writer's answer", answer, &expected)?;
        }
        let sides = written.map(|(version, (_, table))| Side { version, table });
        Ok(lists.fits(Version::One).then_some(sides))
    }

    fn request_agrees(&self, case: &Case, sides: &[Side; 2]) -> Result<(), String> {
        same("what is planned", sides, |side| {
            let room = plan_room(side.version, case.request);
            let state = side.image(case, &case.state).expect("held by both");
            side.outcome(state, room, |state, plan| {
                (self.plan)(&side.table, state, case.request, plan)
            })
        })?;
        same("the checker's answer", sides, |side| {
            let state = side.image(case, &case.state).expect("held by both");
            Answer::unpack((self.check)(&side.table, &state, case.request, &case.list))
        })
    }

    fn bring_up_agrees(&self, case: &Case, sides: &[Side; 2]) -> Result<(), String> {
        same("what is brought up", sides, |side| {
            let room = side.version.plan_bytes();
            let state = side.image(case, &case.reported).expect("held by both");
            side.outcome(state, room, |state, plan| {
                (self.bring_up)(&side.table, state, plan)
            })
        })?;
        same("the answer of bring-up's checker", sides, |side| {
            let state = side.image(case, &case.reported).expect("held by both");
            Answer::unpack((self.check_bring_up)(
                &side.table,
                &state,
                &case.bring_up_list,
            ))
        })
    }
}

/// Whether a state of the case has an image in both versions.
fn is_held_by_both(sides: &[Side; 2], case: &Case, state: &[u8]) -> bool {
    sides.iter().all(|side| side.image(case, state).is_some())
}
