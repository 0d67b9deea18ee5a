//! Random stations that keep every rule of the table.

use reference::Version;

use crate::description::Description;
use crate::rng::Rng;

/// A resource of a station.
#[derive(Clone, Copy, Debug, PartialEq, Eq)]
pub struct Resource {
    /// The deepest sleep state in which it can be on.
    pub level: u8,
    /// The resource order.
    pub order: u16,
}

/// A device of a station, field by field.
#[derive(Clone, Copy, Debug, PartialEq, Eq)]
pub struct Record {
    /// The parent's number, or 255.
    pub parent: u8,
    /// The `_PS` mask.
    pub ps: u8,
    /// The `_PR` mask.
    pub pr: u8,
    /// Bit 0 `_PRW`, bit 1 `_DSW`.
    pub flags: u8,
    /// `_PR0` to `_PR3` and `_PRW`.
    pub sets: [u64; 5],
    /// `_S1D` to `_S4D`.
    pub sxd: [u8; 4],
    /// `_S0W` to `_S4W`.
    pub sxw: [u8; 5],
    /// The deepest sleep state of `_PRW`.
    pub deepest: u8,
}

impl Default for Record {
    /// A device without any object and without a parent.
    fn default() -> Self {
        Self {
            parent: ABSENT,
            ps: 0,
            pr: 0,
            flags: 0,
            sets: [0; 5],
            sxd: [ABSENT; 4],
            sxw: [ABSENT; 5],
            deepest: 0,
        }
    }
}

const ABSENT: u8 = 255;

/// Every pair of `_PS` and `_PR` masks that the object rules allow.
pub const SHAPES: [(u8, u8); 21] = shapes();

const fn shapes() -> [(u8, u8); 21] {
    let mut shapes = [(0, 0); 21];
    let mut count = 0;
    let mut pair = 0;
    while pair < 256 {
        let (ps, pr) = ((pair >> 4) as u8, (pair & 15) as u8);
        let ps_rule = ps == 0 || ps & 9 == 9;
        let pr_rule = pr == 0 || pr & 1 == 1;
        let both_rule = ps == 0 || pr == 0 || ps & 7 == pr & 7;
        if ps_rule && pr_rule && both_rule {
            shapes[count] = (ps, pr);
            count += 1;
        }
        pair += 1;
    }
    assert!(count == shapes.len());
    shapes
}

/// A station: resources and devices.
#[derive(Clone, Debug, Default, PartialEq, Eq)]
pub struct Station {
    /// The resources, by number.
    pub resources: Vec<Resource>,
    /// The devices, by number.
    pub devices: Vec<Record>,
}

impl Station {
    /// The table of the station in some version. Bits of sets that it cannot hold
    /// are lost.
    pub fn table(&self, version: Version) -> Vec<u8> {
        let mut bytes = header(version, self.resources.len(), self.devices.len());
        for resource in &self.resources {
            bytes.extend(resource.bytes());
        }
        for device in &self.devices {
            let end = bytes.len() + version.record_bytes();
            device.write(&mut bytes, version.set_bytes());
            bytes.resize(end, 0);
        }
        bytes
    }

    /// The station as two lists of records.
    pub fn description(&self) -> Description {
        let mut description = Description::default();
        for resource in &self.resources {
            description.resources.extend(resource.bytes());
        }
        for device in &self.devices {
            device.write(&mut description.devices, 8);
        }
        description
    }

    /// A random station that keeps every rule of a version.
    pub fn random(rng: &mut Rng, version: Version) -> Self {
        let resource_count = random_count(rng, version.limit());
        let device_count = random_count(rng, version.limit());
        let style = Style::random(rng);
        let all = first_resources(resource_count);
        Self {
            resources: (0..resource_count)
                .map(|r| style.resource(rng, r))
                .collect(),
            devices: (0..device_count)
                .map(|d| style.device(rng, d, all))
                .collect(),
        }
    }
}

impl Resource {
    fn bytes(&self) -> [u8; 4] {
        let [low, high] = self.order.to_le_bytes();
        [self.level, 0, low, high]
    }
}

impl Record {
    /// Writes the fields, each set with so many bytes, at the end of `bytes`.
    fn write(&self, bytes: &mut Vec<u8>, set_bytes: usize) {
        bytes.extend([self.parent, self.ps, self.pr, self.flags]);
        for set in self.sets {
            bytes.extend(&set.to_le_bytes()[..set_bytes]);
        }
        bytes.extend(self.sxd);
        bytes.extend(self.sxw);
        bytes.push(self.deepest);
    }
}

/// The header of a table.
pub(crate) fn header(version: Version, resource_count: usize, device_count: usize) -> Vec<u8> {
    let [low, high] = version.number().to_le_bytes();
    let counts = [resource_count as u8, low, high, device_count as u8, 0];
    [b"PWT", &counts[..]].concat()
}

/// The sets of a device: of these for `_PR0` to `_PR3` the ones that a `_PR` mask
/// has, and that of `_PRW`.
pub fn listed_sets(pr: u8, states: [u64; 4], prw: u64) -> [u64; 5] {
    let listed = |x: usize| if pr >> x & 1 != 0 { states[x] } else { 0 };
    [listed(0), listed(1), listed(2), listed(3), prw]
}

/// So many resources that can be on in every sleep state, in an order that is not
/// that of their numbers. Some have equal orders.
pub(crate) fn mixed_orders(count: usize) -> Vec<Resource> {
    let resource = |r: usize| Resource {
        level: 4,
        order: 7 * r as u16 % 16,
    };
    (0..count).map(resource).collect()
}

/// The set of the first resources, at most 64.
pub fn first_resources(count: usize) -> u64 {
    (0..count).fold(0, |set, r| set | 1 << r)
}

/// A number of resources or devices: none, one, few, many or all, of which the
/// edges of both versions are more likely than others.
fn random_count(rng: &mut Rng, limit: usize) -> usize {
    match rng.below(16) {
        0 => rng.below(2),
        1..=4 => limit,
        5 => rng.pick(&[31, 32, 33, 34, 63]).min(limit),
        6..=11 => 2 + rng.below(5),
        _ => rng.below(limit + 1),
    }
}

/// What the parts of one station have in common.
struct Style {
    orders: Orders,
    /// The level of all resources, or any for each.
    level: Option<u8>,
    parents: Parents,
    /// The shape of all devices, or any for each.
    shape: Option<(u8, u8)>,
    /// Out of 8 devices, how many have `_PRW`.
    wakers: usize,
    /// Whether wake ranges are wide and most sleep states allowed.
    wide_wake: bool,
    sets: Sets,
    /// One in so many parts is not like the others.
    exceptions: usize,
}

#[derive(Clone, Copy)]
enum Orders {
    Equal(u16),
    Few,
    ByNumber,
    AgainstNumber,
    /// Values whose order changes if the two bytes are exchanged.
    Bytes,
    Any,
}

#[derive(Clone, Copy)]
enum Parents {
    None,
    Chain,
    Flat,
    Near,
    Any,
}

const PARENTS: [Parents; 5] = [
    Parents::None,
    Parents::Chain,
    Parents::Flat,
    Parents::Near,
    Parents::Any,
];

#[derive(Clone, Copy)]
enum Sets {
    Empty,
    Single,
    Sparse,
    Half,
    All,
}

impl Style {
    fn random(rng: &mut Rng) -> Self {
        let any_order = rng.next() as u16;
        Self {
            orders: rng.pick(&[
                Orders::Equal(any_order),
                Orders::Few,
                Orders::Few,
                Orders::ByNumber,
                Orders::AgainstNumber,
                Orders::Bytes,
                Orders::Any,
            ]),
            level: match rng.below(4) {
                0 => Some(4),
                1 => Some(rng.byte_below(5)),
                _ => None,
            },
            parents: rng.pick(&PARENTS),
            shape: match rng.below(4) {
                0 => Some(rng.pick(&SHAPES)),
                1 => Some((15, 15)),
                _ => None,
            },
            wakers: rng.pick(&[0, 4, 6, 8]),
            wide_wake: rng.one_in(2),
            sets: rng.pick(&[
                Sets::Single,
                Sets::Single,
                Sets::Sparse,
                Sets::Sparse,
                Sets::Half,
                Sets::All,
            ]),
            exceptions: rng.pick(&[8, 8, 500]),
        }
    }

    fn resource(&self, rng: &mut Rng, r: usize) -> Resource {
        let order = match self.orders {
            Orders::Equal(order) => order,
            Orders::Few => rng.below(3) as u16,
            Orders::ByNumber => r as u16,
            Orders::AgainstNumber => 63 - r as u16,
            Orders::Bytes => rng.pick(&[
                0, 1, 0xff, 0x100, 0x101, 0x200, 0x7fff, 0x8000, 0xfffe, 0xffff,
            ]),
            Orders::Any => rng.next() as u16,
        };
        let level = match self.level {
            Some(level) if !rng.one_in(2 * self.exceptions) => level,
            _ => rng.byte_below(5),
        };
        Resource { level, order }
    }

    fn device(&self, rng: &mut Rng, d: usize, all: u64) -> Record {
        let (ps, pr) = match self.shape {
            Some(shape) if !rng.one_in(self.exceptions) => shape,
            _ => rng.pick(&SHAPES),
        };
        let prw = rng.below(8) < self.wakers;
        let mut record = Record {
            parent: self.parent(rng, d),
            ps,
            pr,
            flags: if prw { rng.pick(&[1, 3, 3]) } else { 0 },
            ..Record::default()
        };
        for x in 0..4 {
            if pr >> x & 1 != 0 {
                record.sets[x] = self.set(rng, all);
            }
        }
        if prw {
            record.sets[4] = self.set(rng, all);
            record.deepest = if self.wide_wake { 4 } else { rng.byte_below(5) };
        }
        self.sleep_states(rng, &mut record);
        record
    }

    fn parent(&self, rng: &mut Rng, d: usize) -> u8 {
        if d == 0 || rng.one_in(self.exceptions) {
            return ABSENT;
        }
        match self.parents {
            Parents::None => ABSENT,
            Parents::Chain => d as u8 - 1,
            Parents::Flat => 0,
            Parents::Near => (d - 1 - rng.below(d.min(3))) as u8,
            Parents::Any => rng.below(d) as u8,
        }
    }

    fn set(&self, rng: &mut Rng, all: u64) -> u64 {
        let sets = if rng.one_in(self.exceptions) {
            rng.pick(&[Sets::Empty, Sets::Single, Sets::Half, Sets::All])
        } else {
            self.sets
        };
        let bits = rng.next();
        all & match sets {
            Sets::Empty => 0,
            Sets::Single => 1 << (bits % u64::from(all.count_ones().max(1))),
            Sets::Sparse => bits & rng.next() & rng.next(),
            Sets::Half => bits,
            Sets::All => u64::MAX,
        }
    }

    fn sleep_states(&self, rng: &mut Rng, record: &mut Record) {
        for x in 0..5 {
            let (sxd, sxw) = self.sleep_pair(rng);
            record.sxw[x] = sxw;
            if x > 0 {
                record.sxd[x - 1] = sxd;
            }
        }
    }

    /// `_SxD` and `_SxW`, each present or absent.
    fn sleep_pair(&self, rng: &mut Rng) -> (u8, u8) {
        if self.wide_wake && rng.one_in(2) {
            return (0, 4);
        }
        let sxd = rng.byte_below(4);
        match rng.below(4) {
            0 => (ABSENT, ABSENT),
            1 => (sxd, ABSENT),
            2 => (ABSENT, rng.byte_below(5)),
            _ => (sxd, rng.byte_within(sxd, 4)),
        }
    }
}
