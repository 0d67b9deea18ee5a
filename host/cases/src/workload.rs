//! The inputs on which the functions are measured: the bench station, stations
//! of full size, a refusal at each stage of the checks, and the double-camera line.

use reference::{plan, Request, Version};

use crate::image::image;
use crate::station::{first_resources, mixed_orders, Record, Station};
use crate::sweep::bench_station;
use crate::{fresh_state, set_planned, version_of, Case};

/// An input to measure, with the answers it must get.
pub struct Workload {
    /// What the input is.
    pub name: &'static str,
    /// The input.
    pub case: Case,
    /// The planner's answer number, or `None` if the planner is not measured.
    pub planner: Option<u8>,
    /// The checker's answer number, or `None` if the checker is not measured.
    pub checker: Option<u8>,
    /// The writer's answer number, or `None` if the writer is not measured.
    pub writer: Option<u8>,
    /// The describer's answer number, or `None` if the describer is not measured.
    pub describer: Option<u8>,
    /// The answer number of bring-up, or `None` if it is not measured.
    pub bring_up: Option<u8>,
    /// That of the checker of bring-up, or `None` if it is not measured.
    pub bring_up_checker: Option<u8>,
}

impl Workload {
    fn new(name: &'static str, case: Case) -> Self {
        Self {
            name,
            case,
            planner: None,
            checker: None,
            writer: None,
            describer: None,
            bring_up: None,
            bring_up_checker: None,
        }
    }

    /// For planner and checker.
    fn both(name: &'static str, number: u8, case: Case) -> Self {
        Self {
            planner: Some(number),
            checker: Some(number),
            ..Self::new(name, case)
        }
    }

    fn planner(name: &'static str, number: u8, case: Case) -> Self {
        Self {
            planner: Some(number),
            ..Self::new(name, case)
        }
    }

    fn checker(name: &'static str, number: u8, case: Case) -> Self {
        Self {
            checker: Some(number),
            ..Self::new(name, case)
        }
    }

    /// For bring-up and its checker.
    fn both_of_bring_up(name: &'static str, number: u8, case: Case) -> Self {
        Self {
            bring_up: Some(number),
            bring_up_checker: Some(number),
            ..Self::new(name, case)
        }
    }

    fn bring_up(name: &'static str, number: u8, case: Case) -> Self {
        Self {
            bring_up: Some(number),
            ..Self::new(name, case)
        }
    }

    fn bring_up_checker(name: &'static str, number: u8, case: Case) -> Self {
        Self {
            bring_up_checker: Some(number),
            ..Self::new(name, case)
        }
    }

    fn writer(name: &'static str, number: u8, case: Case) -> Self {
        Self {
            writer: Some(number),
            ..Self::new(name, case)
        }
    }

    fn describer(name: &'static str, number: u8, case: Case) -> Self {
        Self {
            describer: Some(number),
            ..Self::new(name, case)
        }
    }
}

/// Every input to measure.
pub fn workloads() -> Vec<Workload> {
    let mut all = accepted();
    all.extend(refused_bytes());
    all.extend(refused_requests());
    all.extend(sleep_entries());
    all.extend(bring_ups());
    all.extend(descriptions());
    all.extend(of_version_2());
    all.extend(on_the_line());
    all
}

fn accepted() -> Vec<Workload> {
    let bench = bench_station().table(Version::One);
    let lamp_off = Request::move_to(2, 4);
    let camera_off = Request::move_to(1, 3);
    let before_w4 = walk(&bench, &[lamp_off]);
    let before_w5 = walk(&bench, &[lamp_off, camera_off]);
    let camera_on = Request::move_to(1, 0);
    vec![
        Workload::both("bench W4, 3 calls", 0, case(&bench, before_w4, camera_off)),
        Workload::both("bench W5, 3 calls", 0, case(&bench, before_w5, camera_on)),
        Workload::both("full, 25 calls to D3cold", 0, ONE.last_device_down()),
        Workload::both("full, 25 calls to D0", 0, ONE.last_device_up()),
        Workload::both("full, arming again", 0, ONE.case(Request::arm(3, 4, 4))),
    ]
}

/// Table, state values and consistency. On the full table the last record is the
/// bad one, so that all others are looked at.
fn refused_bytes() -> Vec<Workload> {
    let changed = |change: fn(&mut Case)| changed(ONE.last_device_down(), change);
    vec![
        Workload::both("table, mark", 1, changed(|case| case.table[0] ^= 1)),
        Workload::both("table, last field", 5, changed(last_field_bad)),
        Workload::both("state value, last device", 7, {
            changed(|case| case.state[4 * ONE.last() as usize + 1] = 2)
        }),
        Workload::both("consistency, last device", 8, changed(last_resource_off)),
        Workload::planner("room", 9, changed(plan_too_short)),
    ]
}

fn refused_requests() -> Vec<Workload> {
    let changed = |change: fn(&mut Case)| changed(ONE.last_device_down(), change);
    let kind_5 = Request {
        kind: 5,
        ..Request::default()
    };
    vec![
        Workload::both("request, kind", 10, ONE.case(kind_5)),
        Workload::both("request, child", 14, {
            ONE.case(Request::move_to(ONE.last() - 1, 4))
        }),
        Workload::both("request, wake state", 18, {
            ONE.case(Request::arm(ONE.last(), 1, 0))
        }),
        Workload::checker("list, last word", 19, {
            changed(|case| *case.list.last_mut().expect("not empty") ^= 1)
        }),
        Workload::checker("list, 2000 words", 19, {
            changed(|case| case.list.resize(8000, 0))
        }),
    ]
}

/// Sleep entry for S3 of the bench station, with the camera armed for D2, and of
/// the full one, where every device moves or none does; and its own refusals.
fn sleep_entries() -> Vec<Workload> {
    let bench = bench_station().table(Version::One);
    let armed = walk(&bench, &[Request::arm(1, 3, 2)]);
    let full = ONE.sleeping_station().table(Version::One);
    let on_last = |request| walk(&full, &[request]);
    vec![
        Workload::planner(
            "sleep entry, bench station",
            0,
            Case::of_sleep(&bench, &armed, 3),
        ),
        Workload::planner("sleep entry, full table, 32 moves", 0, ONE.all_move()),
        Workload::planner("sleep entry, full table, none moves", 0, ONE.none_moves()),
        Workload::planner("sleep entry, last device armed for another", 20, {
            Case::of_sleep(&full, &on_last(Request::arm(ONE.last(), 2, 3)), 3)
        }),
        Workload::planner("sleep entry, last device without a state", 21, {
            // It is armed for D0, and its parent goes to D3hot.
            Case::of_sleep(&full, &on_last(Request::arm(ONE.last(), 4, 0)), 4)
        }),
    ]
}

/// Bring-up of the bench station, with the camera in D3hot and r2 alone on, and
/// of the full one, where every resource is to be switched; and its refusals.
fn bring_ups() -> Vec<Workload> {
    let bench = bench_station().table(Version::One);
    let camera_off = image(Version::One, &[[0; 4], [3, 0, 0, 0]], 0b100);
    let changed = |change: fn(&mut Case)| changed(ONE.all_on(), change);
    vec![
        Workload::both_of_bring_up("bench, 2 ONs and 1 OFF", 0, {
            Case::of_bring_up(&bench, &camera_off)
        }),
        Workload::both_of_bring_up("full, 32 ONs", 0, ONE.all_on()),
        Workload::both_of_bring_up("full, 32 OFFs", 0, ONE.all_off()),
        Workload::both_of_bring_up("wake pair, last device", 8, {
            // D0, which its _S3D forbids.
            changed(|case| case.reported[4 * ONE.last() as usize + 3] = 0)
        }),
        Workload::bring_up("room", 9, changed(plan_too_short)),
        Workload::bring_up_checker("list, last word", 19, {
            changed(|case| *case.bring_up_list.last_mut().expect("not empty") ^= 1)
        }),
    ]
}

/// A station to write and to describe, as small and as large as it is measured,
/// and of each the refusal that comes last.
fn descriptions() -> Vec<Workload> {
    let bench = || Case::of_station(Version::One, &bench_station());
    let filled = || Case::of_station(Version::One, &filled_station(Version::One));
    vec![
        Workload::writer("bench", 0, bench()),
        Workload::writer("full, all sets full", 0, filled()),
        Workload::writer("device, last field", 5, {
            changed(filled(), |case| {
                *case.description.devices.last_mut().expect("not empty") = 5
            })
        }),
        Workload::describer("bench", 0, bench()),
        Workload::describer("full, all sets full", 0, filled()),
        Workload::describer("room for the devices", 9, {
            changed(filled(), |case| {
                case.described.devices.truncate(54 * 32 - 1)
            })
        }),
    ]
}

/// The largest inputs of version 2.
fn of_version_2() -> Vec<Workload> {
    let filled = || Case::of_station(Version::Two, &filled_station(Version::Two));
    let changed = |change: fn(&mut Case)| changed(TWO.last_device_down(), change);
    vec![
        Workload::both("version 2, full, 57 calls to D3cold", 0, {
            TWO.last_device_down()
        }),
        Workload::both("version 2, full, 57 calls to D0", 0, TWO.last_device_up()),
        Workload::both("version 2, table, last field", 5, changed(last_field_bad)),
        Workload::both("version 2, consistency, last device", 8, {
            changed(last_resource_off)
        }),
        Workload::planner("version 2, sleep entry, full table, 64 moves", 0, {
            TWO.all_move()
        }),
        Workload::planner("version 2, sleep entry, full table, none moves", 0, {
            TWO.none_moves()
        }),
        Workload::both_of_bring_up("version 2, full, 64 ONs", 0, TWO.all_on()),
        Workload::both_of_bring_up("version 2, full, 64 OFFs", 0, TWO.all_off()),
        Workload::writer("version 2, full, all sets full", 0, filled()),
        Workload::describer("version 2, full, all sets full", 0, filled()),
    ]
}

/// The double-camera line, a table of version 2 with 47 resources and 41 devices,
/// from its fresh state: its panel goes to D3hot, it is prepared for S3, and it is
/// brought up with nothing on.
fn on_the_line() -> Vec<Workload> {
    let line = include_bytes!("../../../examples/double-camera.pwt");
    let start = walk(line, &[]);
    let nothing_on = image(Version::Two, &[], 0);
    let panel_off = Request::move_to(2, 3);
    vec![
        Workload::both("double-camera line, 5 calls to D3hot", 0, {
            case(line, start.clone(), panel_off)
        }),
        Workload::planner("sleep entry, double-camera line, 37 moves", 0, {
            Case::of_sleep(line, &start, 3)
        }),
        Workload::both_of_bring_up("double-camera line, 44 ONs", 0, {
            Case::of_bring_up(line, &nothing_on)
        }),
    ]
}

fn changed(mut case: Case, change: impl FnOnce(&mut Case)) -> Case {
    change(&mut case);
    case
}

fn last_field_bad(case: &mut Case) {
    *case.table.last_mut().expect("not empty") = 1;
}

/// The last resource, which the last device alone needs, is off.
fn last_resource_off(case: &mut Case) {
    *case.state.last_mut().expect("not empty") ^= 128;
}

fn plan_too_short(case: &mut Case) {
    case.plan.pop();
}

/// Stations of full size, in a version.
struct Full(Version);

const ONE: Full = Full(Version::One);
const TWO: Full = Full(Version::Two);

/// The resources of all but the last device.
const SHARED: u64 = 0xff;

impl Full {
    /// The number of the last device.
    const fn last(&self) -> u32 {
        self.0.limit() as u32 - 1
    }

    /// As many resources and devices as there can be, each device below the one
    /// before. Every device has every object and a set for each; all resources but
    /// eight are for the last one alone.
    fn station(&self) -> Station {
        Station {
            resources: mixed_orders(self.0.limit()),
            devices: (0..=self.last()).map(|d| self.device(d)).collect(),
        }
    }

    fn device(&self, d: u32) -> Record {
        let all = first_resources(self.0.limit());
        let is_last = d == self.last();
        let own = if is_last { all & !SHARED } else { SHARED };
        Record {
            parent: if d == 0 { 255 } else { d as u8 - 1 },
            ps: 15,
            pr: 15,
            flags: 3,
            sets: [
                own,
                own & 0x7777_7777_7777_7777,
                own & 0x3333_3333_3333_3333,
                own & 0x1111_1111_1111_1111,
                1 << (d % 8),
            ],
            sxd: if is_last { [1; 4] } else { [0; 4] },
            sxw: [4; 5],
            deepest: 4,
        }
    }

    /// The full station with other needs: device d needs resource d in D0 to D2, and
    /// the next one in D3hot, to which all go for S3 and S4. So most moves have an
    /// own call, turn on what the move before turned off, and turn off what the
    /// device needed.
    fn sleeping_station(&self) -> Station {
        let mut station = self.station();
        let last = self.last() as usize;
        for (d, device) in station.devices.iter_mut().enumerate() {
            let (own, next) = (1 << d, 1 << ((d + 1) % (last + 1)));
            device.sets = [own, own, own, next, 1];
            device.sxd = [0, 0, 3, if d == last { 0 } else { 3 }];
        }
        station
    }

    /// Every fourth device may wake the system from S3 in D3hot.
    fn armings(&self) -> Vec<Request> {
        (3..self.last())
            .step_by(4)
            .map(|d| Request::arm(d, 3, 3))
            .collect()
    }

    /// A request with every device in D0 and every fourth armed.
    fn case(&self, request: Request) -> Case {
        let table = self.station().table(self.0);
        let state = walk(&table, &self.armings());
        case(&table, state, request)
    }

    fn last_device_down(&self) -> Case {
        self.case(Request::move_to(self.last(), 4))
    }

    fn last_device_up(&self) -> Case {
        let table = self.station().table(self.0);
        let down = Request::move_to(self.last(), 4);
        let below = walk(&table, &[&self.armings()[..], &[down]].concat());
        case(&table, below, Request::move_to(self.last(), 0))
    }

    fn all_move(&self) -> Case {
        let table = self.sleeping_station().table(self.0);
        Case::of_sleep(&table, &walk(&table, &self.armings()), 3)
    }

    fn none_moves(&self) -> Case {
        let table = self.sleeping_station().table(self.0);
        let requests = [&self.armings()[..], &[Request::sleep(3)]].concat();
        Case::of_sleep(&table, &walk(&table, &requests), 3)
    }

    /// To be brought up with every device in one state and these resources on.
    fn reported(&self, entry: [u8; 4], on: u64) -> Case {
        let entries = vec![entry; self.0.limit()];
        let reported = image(self.0, &entries, on);
        Case::of_bring_up(&self.station().table(self.0), &reported)
    }

    /// All devices in D0, armed for S3 and D3cold, and nothing on.
    fn all_on(&self) -> Case {
        self.reported([0, 1, 3, 4], 0)
    }

    /// All devices in D3cold, and all on.
    fn all_off(&self) -> Case {
        self.reported([4, 0, 0, 0], u64::MAX)
    }
}

/// As large as a station of a version can be, with every bit of every set.
pub fn filled_station(version: Version) -> Station {
    let mut station = Full(version).station();
    for device in &mut station.devices {
        device.sets = [first_resources(version.limit()); 5];
    }
    station
}

/// The state after some requests from the fresh state.
fn walk(table: &[u8], requests: &[Request]) -> Vec<u8> {
    let mut state = fresh_state(table).expect("a good table");
    let mut buffer = [0; Version::Two.sleep_plan_bytes()];
    for &request in requests {
        let answer = plan(table, &mut state, request, &mut buffer);
        assert!(answer.is_done(), "{request:?}");
    }
    state
}

/// A case with the planner's own list, if the request is accepted.
fn case(table: &[u8], state: Vec<u8>, request: Request) -> Case {
    let mut list = Vec::new();
    set_planned(&mut list, |buffer| {
        plan(table, &mut state.clone(), request, buffer)
    });
    let version = version_of(table);
    Case {
        table: table.to_vec(),
        list,
        state,
        request,
        plan: vec![0; version.plan_bytes()],
        fresh: vec![0; version.state_bytes()],
        ..Case::default()
    }
}
