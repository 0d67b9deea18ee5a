//! Seeded random inputs for comparing two planners.
//!
//! [`Cases`] gives one case after the other without end. A station of either
//! version is drawn, a walk of requests leads it from its fresh state or a drawn one
//! through others, and each step of the walk is a case. Many are sleep entries, for
//! which the armed devices are in most cases armed for the sleep state asked for.
//! Bring-up has the entries of the step and any resources on. Some cases are damaged
//! on purpose: the table, a state, the request, the room for the plan, a list, or the
//! description of the station and the version and room for its table. The same seed
//! gives the same cases. [`Coverage`] counts the answers they get.
//!
//! [`workloads`] are the inputs to measure, [`sweep`] has small sets of inputs that
//! are gone through completely, and [`Guarded`] lends a buffer between two runs of
//! bytes that must stay as they are. [`choices`] finds the choices of a sleep entry
//! by trying all. [`Versions`] compares one station in both versions.

#![forbid(unsafe_code)]

mod bring_up;
mod choices;
mod coverage;
mod damage;
mod description;
mod faults;
mod guard;
mod image;
mod inverse;
mod lists;
mod requests;
mod rng;
mod sleep;
mod states;
mod station;
pub mod sweep;
mod versions;
mod workload;

use std::fmt;

use reference::{
    bring_up, fresh, plan, Answer, Request, Table, Version, DESCRIBED_DEVICE_BYTES,
    DESCRIBED_RESOURCE_BYTES,
};
use states::switch_more_on;

pub use bring_up::BringUp;
pub use choices::{choices, least, may_take, FEW_DEVICES};
pub use coverage::{Counts, Coverage, Functions, RECORDS};
pub use damage::{damage_description, damage_state, damage_table};
pub use description::{Description, VERSIONS};
pub use faults::{entries_with_fault, faults, good_entries, put_fault, FAULTS};
pub use guard::Guarded;
pub use image::{at, converted, image, on_set, set_on};
pub use inverse::{inverse_holds, Describe, Write};
pub use lists::{permute_equal_orders, turn_on_all_needed, vary_bring_up_list, vary_list};
pub use requests::{any_request, any_sleep, likely_request};
pub use rng::Rng;
pub use sleep::{Sleep, SLEEP};
pub use states::{arm_for, arm_one_for_another, draw_state, report_any_on};
pub use station::{first_resources, listed_sets, Record, Resource, Station, SHAPES};
pub use versions::{Compared, Versions};
pub use workload::{filled_station, workloads, Workload};

/// One input for every function.
#[derive(Clone, Default, PartialEq, Eq)]
pub struct Case {
    /// The table.
    pub table: Vec<u8>,
    /// The state lent to planner and checker.
    pub state: Vec<u8>,
    /// The request.
    pub request: Request,
    /// The buffer lent for the plan, of bring-up too, with any content.
    pub plan: Vec<u8>,
    /// The list lent to the checker.
    pub list: Vec<u8>,
    /// The state lent to bring-up and its checker.
    pub reported: Vec<u8>,
    /// The list lent to the checker of bring-up.
    pub bring_up_list: Vec<u8>,
    /// The buffer lent for a fresh state, with any content.
    pub fresh: Vec<u8>,
    /// The device whose record is asked for.
    pub device: usize,
    /// The version asked of the writer.
    pub version: u32,
    /// The description lent to the writer.
    pub description: Description,
    /// The buffer lent for the table that is written, with any content.
    pub written: Vec<u8>,
    /// The buffers lent for what the table describes, with any content.
    pub described: Description,
}

impl Case {
    /// A station to be written and described, with exactly the room that both
    /// need. There is no state and no request.
    pub fn of_station(version: Version, station: &Station) -> Self {
        let description = station.description();
        Self {
            table: station.table(version),
            version: version.number().into(),
            written: vec![0x5a; description.table_length(version)],
            described: Description {
                resources: vec![0x5a; description.resources.len()],
                devices: vec![0x5a; description.devices.len()],
            },
            description,
            ..Self::default()
        }
    }

    /// A state to be brought up, with room for the plan and the reference's list.
    /// There is no other state and no request.
    pub fn of_bring_up(table: &[u8], reported: &[u8]) -> Self {
        let mut bring_up_list = Vec::new();
        set_planned(&mut bring_up_list, |buffer| {
            bring_up(table, &mut reported.to_vec(), buffer)
        });
        Self {
            table: table.to_vec(),
            reported: reported.to_vec(),
            plan: vec![0x5a; version_of(table).plan_bytes()],
            bring_up_list,
            ..Self::default()
        }
    }

    /// A sleep entry for Sx with room for the plan.
    pub fn of_sleep(table: &[u8], state: &[u8], x: u32) -> Self {
        Self {
            table: table.to_vec(),
            state: state.to_vec(),
            request: Request::sleep(x),
            plan: vec![0x5a; version_of(table).sleep_plan_bytes()],
            ..Self::default()
        }
    }
}

impl fmt::Debug for Case {
    fn fmt(&self, f: &mut fmt::Formatter) -> fmt::Result {
        writeln!(f, "{:?}", self.request)?;
        for (name, bytes) in [
            ("table", &self.table),
            ("state", &self.state),
            ("list", &self.list),
            ("reported state", &self.reported),
            ("list of bring-up", &self.bring_up_list),
            ("plan", &self.plan),
            ("fresh", &self.fresh),
            ("resources", &self.description.resources),
            ("devices", &self.description.devices),
            ("written", &self.written),
            ("described resources", &self.described.resources),
            ("described devices", &self.described.devices),
        ] {
            write!(f, "{name}, {} bytes:", bytes.len())?;
            for byte in bytes {
                write!(f, " {byte:02x}")?;
            }
            writeln!(f)?;
        }
        write!(
            f,
            "record of device {}; version {}",
            self.device, self.version
        )
    }
}

/// A stream of cases.
pub struct Cases {
    rng: Rng,
    /// The table of the present station.
    table: Vec<u8>,
    /// What that table describes.
    description: Description,
    /// The state the walk has reached.
    state: Vec<u8>,
    /// How many cases the present station still gives.
    steps: usize,
    /// The list of an earlier request.
    earlier_list: Vec<u8>,
    case: Case,
}

impl Cases {
    /// The cases of a seed.
    pub fn new(seed: u64) -> Self {
        Self {
            rng: Rng::new(seed),
            table: Vec::new(),
            description: Description::default(),
            state: Vec::new(),
            steps: 0,
            earlier_list: Vec::new(),
            case: Case::default(),
        }
    }

    /// The next case. It is lent, so that its buffers serve again.
    pub fn next_case(&mut self) -> &Case {
        if self.steps == 0 {
            self.draw_station();
        }
        self.steps -= 1;
        self.lend_request();
        self.lend_table_and_state();
        self.lend_list_and_step();
        self.lend_buffers();
        self.lend_bring_up();
        self.lend_description();
        &self.case
    }

    fn draw_station(&mut self) {
        self.steps = 1 + self.rng.below(48);
        let version = self.rng.pick(&Version::ALL);
        let station = Station::random(&mut self.rng, version);
        self.table = station.table(version);
        self.description = station.description();
        self.state = fresh_state(&self.table).expect("a drawn station is good");
        if self.rng.one_in(8) {
            self.damage_station();
        }
        if !self.rng.one_in(3) {
            self.draw_start();
        }
    }

    /// Starts the walk from a drawn state, which a few tries find for most stations.
    fn draw_start(&mut self) {
        let start = (0..4).find_map(|_| draw_state(&mut self.rng, &self.table));
        if let Some(state) = start {
            self.state = state;
        }
    }

    /// Walks on a table with one field changed, if it is still good.
    fn damage_station(&mut self) {
        let mut table = self.table.clone();
        damage_table(&mut self.rng, &mut table);
        if let Some(state) = fresh_state(&table) {
            self.description = Description::of_table(&table);
            self.table = table;
            self.state = state;
        }
    }

    fn lend_table_and_state(&mut self) {
        let (rng, case) = (&mut self.rng, &mut self.case);
        // There are fewer sleep entries, and every place counts.
        let rarity = if case.request.kind == SLEEP { 4 } else { 8 };
        case.table.clone_from(&self.table);
        if rng.one_in(rarity) {
            damage_table(rng, &mut case.table);
        }
        case.state.clone_from(&self.state);
        if case.request.kind == SLEEP {
            arm_for_sleep(rng, &self.table, &mut case.state, case.request.a);
        }
        if rng.one_in(4) {
            let table = Table::read(&self.table).expect("a good table");
            switch_more_on(rng, &table, &mut case.state);
        }
        if rng.one_in(rarity) {
            damage_state(rng, &self.table, &mut case.state);
        }
    }

    fn lend_request(&mut self) {
        let rng = &mut self.rng;
        self.case.request = match rng.below(8) {
            0 => any_request(rng, self.table[6].into()),
            1..=3 => any_sleep(rng),
            _ => likely_request(rng, &self.table, &self.state),
        };
    }

    /// Plans the request for the sake of its list, and walks on if all was undamaged;
    /// seldom from a sleep entry, after which few devices can move.
    fn lend_list_and_step(&mut self) {
        let (rng, case) = (&mut self.rng, &mut self.case);
        let mut state = case.state.clone();
        let accepted = set_planned(&mut case.list, |buffer| {
            plan(&case.table, &mut state, case.request, buffer)
        });
        let times_in_8 = if case.request.kind == SLEEP { 1 } else { 7 };
        if accepted && case.table == self.table && rng.below(8) < times_in_8 {
            self.state = state;
        }
        let planned = case.list.clone();
        vary_list(rng, &case.table, &self.earlier_list, &mut case.list);
        if !planned.is_empty() {
            self.earlier_list = planned;
        }
    }

    fn lend_buffers(&mut self) {
        let (rng, case) = (&mut self.rng, &mut self.case);
        let version = version_of(&self.table);
        let needed = plan_room(version_lent(rng, version), case.request);
        let length = room(rng, needed);
        rng.fill(&mut case.plan, length);
        let length = match rng.below(16) {
            0 => rng.below(2 * version.state_bytes()),
            _ => version_lent(rng, version).state_bytes(),
        };
        rng.fill(&mut case.fresh, length);
        case.device = match rng.below(8) {
            0 => rng.next() as usize,
            _ => rng.below(version.limit() + 2),
        };
    }

    /// What bring-up and its checker are lent, which the walk does not depend on.
    fn lend_bring_up(&mut self) {
        let (rng, case) = (&mut self.rng, &mut self.case);
        case.reported.clone_from(&self.state);
        report_any_on(rng, &self.table, &mut case.reported);
        // With two, the lower one is named.
        for _ in 0..rng.pick(&[0, 0, 0, 0, 1, 2]) {
            put_fault(rng, &self.table, &mut case.reported);
        }
        if rng.one_in(8) {
            damage_state(rng, &self.table, &mut case.reported);
        }
        let mut state = case.reported.clone();
        set_planned(&mut case.bring_up_list, |buffer| {
            bring_up(&case.table, &mut state, buffer)
        });
        let (earlier, list) = (&self.earlier_list, &mut case.bring_up_list);
        vary_bring_up_list(rng, &case.table, &case.reported, earlier, list);
    }

    /// What writer and describer are lent, which the walk does not depend on.
    fn lend_description(&mut self) {
        let (rng, case) = (&mut self.rng, &mut self.case);
        let version = rng.pick(&[Version::One, Version::Two, version_of(&self.table)]);
        case.version = match rng.below(32) {
            0 => rng.pick(&VERSIONS),
            1 => rng.next() as u32,
            _ => version.number().into(),
        };
        case.description.clone_from(&self.description);
        // Two kinds of damage show which is answered.
        for _ in 0..rng.pick(&[0, 0, 1, 2]) {
            damage_description(rng, &mut case.description);
        }
        let length = room(rng, case.description.table_length(version));
        rng.fill(&mut case.written, length);
        let count = |index| case.table.get(index).map_or(0, |&count| usize::from(count));
        let length = room(rng, DESCRIBED_RESOURCE_BYTES * count(3));
        rng.fill(&mut case.described.resources, length);
        let length = room(rng, DESCRIBED_DEVICE_BYTES * count(6));
        rng.fill(&mut case.described.devices, length);
    }
}

/// The fresh state of a table, if it is good.
fn fresh_state(table: &[u8]) -> Option<Vec<u8>> {
    let mut state = vec![0; Version::of_table(table)?.state_bytes()];
    fresh(table, &mut state).is_done().then_some(state)
}

/// The version of a table; where it has none, that with the larger sizes.
fn version_of(table: &[u8]) -> Version {
    Version::of_table(table).unwrap_or(Version::Two)
}

/// The version whose sizes a buffer has: in most cases the table's.
fn version_lent(rng: &mut Rng, version: Version) -> Version {
    match rng.below(16) {
        0 => rng.pick(&Version::ALL),
        _ => version,
    }
}

/// The room for the plan of a request, in bytes.
fn plan_room(version: Version, request: Request) -> usize {
    match request.kind {
        SLEEP => version.sleep_plan_bytes(),
        _ => version.plan_bytes(),
    }
}

/// Arms the devices of a consistent state as a sleep entry for Sx asks for it, in
/// some cases but for one or two devices, or leaves them.
fn arm_for_sleep(rng: &mut Rng, table: &[u8], state: &mut [u8], x: u32) {
    let x = x as u8;
    let others = rng.pick(&[0, 0, 0, 0, 0, 1, 2]);
    if !rng.one_in(8) {
        arm_for(rng, table, state, x);
        (0..others).for_each(|_| arm_one_for_another(rng, table, state, x));
    }
}

/// Makes `list` what a planner writes, and says whether it does.
fn set_planned(list: &mut Vec<u8>, plan: impl FnOnce(&mut [u8]) -> Answer) -> bool {
    let mut buffer = [0; Version::Two.sleep_plan_bytes()];
    let answer = plan(&mut buffer);
    list.clear();
    list.extend_from_slice(&buffer[..4 * usize::from(answer.count)]);
    answer.is_done()
}

/// A room for so many bytes: in most cases exactly that, else less or more.
fn room(rng: &mut Rng, needed: usize) -> usize {
    match rng.below(32) {
        0 => rng.below(needed + 1),
        1 => needed.saturating_sub(1),
        2 | 3 => needed + rng.below(200),
        _ => needed,
    }
}

/// Says which thing is not as it must be.
pub fn equal<T: PartialEq + fmt::Debug + ?Sized>(
    what: &str,
    is: &T,
    expected: &T,
) -> Result<(), String> {
    match is == expected {
        true => Ok(()),
        false => Err(format!("{what} is\n{is:02x?}, not\n{expected:02x?}")),
    }
}
