//! Tables and a desk on which requests follow each other.

#![allow(dead_code)] // Each test file uses a part.

use cases::{image, Case, Resource, Station, Versions};
use reference::{
    bring_up, check, check_bring_up, check_words, demand3, effect, fresh, plan, plan_words, write,
    Answer, Request, Version,
};

pub use cases::Record;

/// The sizes of version 1.
pub const STATE_BYTES: usize = 132;
pub const PLAN_WORDS: usize = 33;
pub const PLAN_BYTES: usize = 132;
pub const SLEEP_PLAN_WORDS: usize = 1_056;
pub const SLEEP_PLAN_BYTES: usize = 4_224;

pub const D0: u32 = 0;
pub const D1: u32 = 1;
pub const D2: u32 = 2;
pub const D3HOT: u32 = 3;
pub const D3COLD: u32 = 4;

/// A station of resources (level, order) and devices.
pub fn station(resources: &[(u8, u16)], devices: &[Record]) -> Station {
    let resource = |&(level, order)| Resource { level, order };
    Station {
        resources: resources.iter().map(resource).collect(),
        devices: devices.to_vec(),
    }
}

/// A table of version 1.
pub fn table(resources: &[(u8, u16)], devices: &[Record]) -> Vec<u8> {
    station(resources, devices).table(Version::One)
}

/// A state image of version 1.
pub fn state(entries: &[[u8; 4]], on: u64) -> Vec<u8> {
    image(Version::One, entries, on)
}

/// The functions that are compared in both versions.
const VERSIONS: Versions = Versions {
    write: |version, lists, table| write(version, &lists.resources, &lists.devices, table).pack(),
    fresh: |table, state| fresh(table, state).pack(),
    plan: |table, state, request, buffer| plan(table, state, request, buffer).pack(),
    check: |table, state, request, list| check(table, state, request, list).pack(),
    bring_up: |table, state, buffer| bring_up(table, state, buffer).pack(),
    check_bring_up: |table, state, list| check_bring_up(table, state, list).pack(),
};

/// The station of a case, which has at most 32 of each, gets the same answers,
/// calls and states as version 1 and as version 2.
pub fn agrees_with_version_2(case: &Case) {
    if let Err(what) = VERSIONS.agree(case) {
        panic!("{what}\n{case:?}");
    }
}

/// The table of the bench station.
pub fn bench() -> Vec<u8> {
    include_bytes!("../../../../examples/station.pwt").to_vec()
}

/// A table of version 1 with its present state. What is asked of it is asked of
/// the same station as version 2 too.
#[derive(Clone)]
pub struct Desk {
    pub table: Vec<u8>,
    pub state: Vec<u8>,
}

impl Desk {
    /// The table in its fresh state.
    pub fn fresh(table: Vec<u8>) -> Self {
        let mut state = vec![0xaa; STATE_BYTES];
        assert_eq!(fresh(&table, &mut state), Answer::done(0));
        Self { table, state }
    }

    pub fn bench() -> Self {
        Self::fresh(bench())
    }

    /// A request that gives exactly these calls and leaves these entries and on-set.
    pub fn accepts(
        &mut self,
        request: Request,
        calls: &[[u8; 4]],
        entries: &[[u8; 4]],
        on: u64,
    ) -> &mut Self {
        let before = self.state.clone();
        let mut buffer = [0x5a; PLAN_BYTES + 5];
        let answer = plan(&self.table, &mut self.state, request, &mut buffer);
        assert_eq!(answer, Answer::done(calls.len() as u16), "{request:?}");
        let list = calls.concat();
        assert_eq!(buffer[..list.len()], list, "{request:?}");
        assert!(buffer[list.len()..].iter().all(|&byte| byte == 0x5a));
        assert_eq!(self.state, state(entries, on), "{request:?}");

        self.words_agree(&before, request, &list);
        self.version_2_agrees(&before, request, &list);
        let passed = check(&self.table, &before, request, &list);
        assert_eq!(passed, Answer::done(0), "{request:?}");
        demand3(&self.table, &before, request, &list).unwrap();
        self
    }

    /// The functions on words do what those on bytes did.
    fn words_agree(&self, before: &[u8], request: Request, list: &[u8]) {
        let mut state = before.to_vec();
        let mut buffer = [0x5a5a_5a5a; PLAN_WORDS + 1];
        let answer = plan_words(&self.table, &mut state, request, &mut buffer);
        let count = usize::from(answer.count);
        assert_eq!(answer, Answer::done((list.len() / 4) as u16));
        assert_eq!(state, self.state);
        let words: Vec<u8> = buffer[..count]
            .iter()
            .flat_map(|word| word.to_le_bytes())
            .collect();
        assert_eq!(words, list);
        assert!(buffer[count..].iter().all(|&word| word == 0x5a5a_5a5a));
        let passed = check_words(&self.table, before, request, &buffer[..count]);
        assert_eq!(passed, Answer::done(0));
    }

    /// The same station as version 2 gets the same from the state before.
    fn version_2_agrees(&self, before: &[u8], request: Request, list: &[u8]) {
        agrees_with_version_2(&Case {
            table: self.table.clone(),
            state: before.to_vec(),
            request,
            list: list.to_vec(),
            ..Case::default()
        });
    }

    /// A request that planner and checker refuse, and that writes nothing.
    pub fn refuses(&mut self, request: Request, number: u8, place: u64) -> &mut Self {
        let before = self.state.clone();
        let refusal = Answer::refused(number, place);
        let mut buffer = [0x5a; PLAN_BYTES];
        assert_eq!(
            plan(&self.table, &mut self.state, request, &mut buffer),
            refusal,
            "{request:?}"
        );
        assert_eq!(self.state, before);
        assert_eq!(buffer, [0x5a; PLAN_BYTES]);
        assert_eq!(check(&self.table, &before, request, &[]), refusal);
        assert_eq!(effect(&self.table, &before, request), Err(refusal));
        self.version_2_agrees(&before, request, &[]);
        self
    }

    /// The planner's list for a request, without carrying it out.
    pub fn list(&self, request: Request) -> Vec<u8> {
        let mut state = self.state.clone();
        let mut buffer = [0; PLAN_BYTES];
        let answer = plan(&self.table, &mut state, request, &mut buffer);
        assert_eq!(answer.number, 0);
        buffer[..4 * usize::from(answer.count)].to_vec()
    }

    pub fn check(&self, request: Request, list: &[u8]) -> Answer {
        check(&self.table, &self.state, request, list)
    }
}
