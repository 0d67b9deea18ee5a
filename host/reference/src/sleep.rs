//! Sleep entry: the states that the devices take for a sleep state of the system
//! (answers 20 and 21), and the moves to them.

use crate::answer::Answer;
use crate::request::{moving, Request};
use crate::resources::numbers;
use crate::state::{write_on_set, Entry, State, D0, D3COLD};
use crate::switching::Switching;
use crate::table::{for_either, Records, Table, MAX_DEVICES};
use crate::work::Work;

/// A state for every device of a table; the rest is not used.
pub(crate) type Choice = [u8; MAX_DEVICES];

/// A move of a sleep entry.
#[derive(Clone, Copy, Debug, PartialEq, Eq)]
pub struct SleepMove {
    /// The device number.
    pub device: usize,
    /// The state before.
    pub from: u8,
    /// The state after, which is deeper.
    pub to: u8,
}

/// Why a device may not take a state for a sleep entry: the first rule that is
/// against it.
#[derive(Clone, Copy, Debug, PartialEq, Eq)]
pub enum Obstacle {
    /// The device does not support it.
    NotSupported,
    /// It is shallower than the state the device is in.
    ShallowerThanPresent,
    /// It is shallower than `_SxD`, which is given.
    ShallowerThanSxd(u8),
    /// The device would need resources that cannot be on in Sx.
    Unpowered {
        /// The lowest of them.
        resource: usize,
        /// Its systemlevel.
        level: u8,
    },
    /// The device is armed, and its wake D is another state, which is given.
    NotWakeState(u8),
    /// It is shallower than the least state of the parent.
    ShallowerThanParent {
        /// The number of the parent.
        parent: usize,
        /// The least state of the parent.
        state: u8,
    },
}

/// The moves of a sleep entry for Sx in the order of its plan, or its refusal with
/// 1 to 8, 10, 20 or 21.
pub fn sleep_moves(table: &[u8], state: &[u8], x: u32) -> Result<Vec<SleepMove>, Answer> {
    for_either!(Table::read(table)?, records => moves_in(&records, state, x))
}

fn moves_in<const N: usize, const W: usize>(
    records: &Records<N, W>,
    state: &[u8],
    x: u32,
) -> Result<Vec<SleepMove>, Answer> {
    let state = records.state(state)?;
    let choice = least_choice(records, &state, Request::sleep(x))?;
    let moves = (0..records.device_count()).rev().map(|device| SleepMove {
        device,
        from: state.entry(device).state,
        to: choice[device],
    });
    Ok(moves.filter(|step| step.to != step.from).collect())
}

/// Where a sleep entry for Sx is refused with 21: the lowest device without any
/// state to take, when those below it take their least, and what is against each
/// of its states D0 to D3cold.
pub fn sleep_obstacles(table: &[u8], state: &[u8], x: u32) -> Option<(usize, [Obstacle; 5])> {
    for_either!(Table::read(table).ok()?, records => obstacles_in(&records, state, x))
}

fn obstacles_in<const N: usize, const W: usize>(
    records: &Records<N, W>,
    state: &[u8],
    x: u32,
) -> Option<(usize, [Obstacle; 5])> {
    let state = records.state(state).ok()?;
    let sleep = Sleep::of(records, &state, Request::sleep(x)).ok()?;
    let (device, parent) = sleep.least_choice().err()?;
    let mut against = [Obstacle::NotSupported; 5];
    for (target, obstacle) in (D0..=D3COLD).zip(&mut against) {
        *obstacle = sleep.obstacle(device, target, parent)?;
    }
    Some((device, against))
}

/// The states that the devices take for a request of sleep entry, or its refusal
/// with 10, 20 or 21.
pub(crate) fn least_choice<const N: usize, const W: usize>(
    records: &Records<N, W>,
    state: &State,
    request: Request,
) -> Result<Choice, Answer> {
    let sleep = Sleep::of(records, state, request)?;
    sleep.least_choice().map_err(|_| Answer::refused(21, 0))
}

/// Moves the devices of a good state to a choice, by falling number: writes the
/// calls by index and word, and the new state, and gives the number of calls.
pub(crate) fn write_moves<const N: usize, const W: usize>(
    records: &Records<N, W>,
    state: &mut [u8],
    choice: &Choice,
    mut write: impl FnMut(usize, u32),
) -> u16 {
    let mut count = 0;
    let mut none_moved = true;
    for (d, &target) in choice[..records.device_count()].iter().enumerate().rev() {
        let now = records.good_state(state);
        let entry = now.entry(d);
        if target != entry.state {
            let work = Work::of(records, &now, moving(records.device(d), entry, d, target));
            count += work.write(records, state, |i, word| write(count as usize + i, word));
            none_moved = false;
        }
    }
    if none_moved {
        let now = records.good_state(state);
        let switching = Switching::new(now.on(), records.needed(&now));
        count = switching.write_calls(records.resources, write);
        write_on_set(Records::<N, W>::VERSION, state, switching.target);
    }
    count
}

/// The parent of a device and the state chosen for it.
type Parent = Option<(usize, u8)>;

/// A sleep entry whose armed devices are all armed for its x.
struct Sleep<'a, const N: usize, const W: usize> {
    records: &'a Records<'a, N, W>,
    state: &'a State<'a>,
    x: u8,
    /// The resources that cannot be on in Sx.
    lost: u64,
}

impl<'a, const N: usize, const W: usize> Sleep<'a, N, W> {
    /// What a request of sleep entry asks for, or its refusal with 10 or 20.
    fn of(records: &'a Records<N, W>, state: &'a State, request: Request) -> Result<Self, Answer> {
        let Request { device, a, b, .. } = request;
        if !(1..=4).contains(&a) || device != 0 || b != 0 {
            return Err(Answer::refused(10, 0));
        }
        let x = a as u8;
        let is_armed_for_another = |&d: &usize| {
            let entry = state.entry(d);
            entry.armed && entry.wake_s != x
        };
        if let Some(d) = (0..records.device_count()).find(is_armed_for_another) {
            return Err(Answer::refused(20, d as u64));
        }
        let resources = records.resources;
        let lost = numbers(resources.all())
            .filter(|&r| resources.system_level(r) < x)
            .fold(0, |set, r| set | 1 << r);
        Ok(Self {
            records,
            state,
            x,
            lost,
        })
    }

    /// The choice in which no device is deeper than in any other. Parents have
    /// lower numbers, so by rising number each device takes the least state that
    /// its parent's leaves to it. The error is the first device that has none.
    fn least_choice(&self) -> Result<Choice, (usize, Parent)> {
        let mut choice = [D0; MAX_DEVICES];
        for d in 0..self.records.device_count() {
            let parent = self.records.device(d).parent().map(|p| (p, choice[p]));
            let shallowest = parent.map_or(D0, |(_, state)| state);
            choice[d] = (shallowest..=D3COLD)
                .find(|&target| self.own_obstacle(d, target).is_none())
                .ok_or((d, parent))?;
        }
        Ok(choice)
    }

    /// What is against a state of device `d`.
    fn obstacle(&self, d: usize, target: u8, parent: Parent) -> Option<Obstacle> {
        let own = self.own_obstacle(d, target);
        match parent {
            Some((parent, state)) if own.is_none() && target < state => {
                Some(Obstacle::ShallowerThanParent { parent, state })
            }
            _ => own,
        }
    }

    /// What is against a state, whatever the other devices do.
    fn own_obstacle(&self, d: usize, target: u8) -> Option<Obstacle> {
        let (device, entry) = (self.records.device(d), self.state.entry(d));
        if !device.supports(target) {
            return Some(Obstacle::NotSupported);
        }
        if target < entry.state {
            return Some(Obstacle::ShallowerThanPresent);
        }
        if let Some(sxd) = device.sxd(self.x).filter(|&sxd| target < sxd) {
            return Some(Obstacle::ShallowerThanSxd(sxd));
        }
        let needs = device.needs(Entry {
            state: target,
            ..entry
        });
        if let Some(resource) = numbers(needs & self.lost).next() {
            let level = self.records.resources.system_level(resource);
            return Some(Obstacle::Unpowered { resource, level });
        }
        (entry.armed && target != entry.wake_d).then_some(Obstacle::NotWakeState(entry.wake_d))
    }
}
