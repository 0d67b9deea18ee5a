//! A device: the fields of its record, and what follows from them.

use crate::answer::Answer;
use crate::resources::{numbers, Resources};
use crate::state::{Entry, D0, D3COLD, D3HOT};

/// Stands for no parent, or for an `_SxD` or `_SxW` that is absent.
const ABSENT: u8 = 255;

/// Flag of `_PRW` in byte 3 of a device record.
const PRW: u8 = 1;
/// Flag of `_DSW` in byte 3 of a device record.
const DSW: u8 = 2;
/// Index of `_PRW` among the five sets of a device.
const PRW_SET: usize = 4;

/// Refuses the lowest device record that has a bad field (5) or breaks an object
/// rule (6), on a station with these resources.
pub(crate) fn check_devices<const N: usize, const W: usize>(
    records: &[[u8; N]],
    resources: Resources,
) -> Result<(), Answer> {
    let all = resources.all();
    for (d, record) in records.iter().enumerate() {
        let device = Record::<N, W>(record);
        if !device.fields_are_good(d, all) {
            return Err(Answer::refused(5, d as u64));
        }
        if !device.keeps_object_rules() {
            return Err(Answer::refused(6, d as u64));
        }
    }
    Ok(())
}

/// The shallowest and the deepest device state that can wake the system from a
/// sleep state with these values, or `None` if the range is empty.
pub fn wake_range(sxd: Option<u8>, sxw: Option<u8>) -> Option<(u8, u8)> {
    match (sxd, sxw) {
        (Some(sxd), Some(sxw)) => Some((sxd, sxw)),
        (Some(sxd), None) => Some((sxd, sxd)),
        (None, Some(sxw)) => Some((D0, sxw)),
        (None, None) => None,
    }
}

/// A device record of `N` bytes whose five sets have `W` bytes each: 40 and 4 in a
/// table of version 1, 64 and 8 in one of version 2, 54 and 8 in a description.
#[derive(Clone, Copy)]
pub(crate) struct Record<'a, const N: usize, const W: usize>(pub &'a [u8; N]);

impl<const N: usize, const W: usize> Record<'_, N, W> {
    /// Where the first set begins.
    const SETS: usize = 4;
    /// Where `_S1D` is.
    const SXD: usize = Self::SETS + 5 * W;
    /// Where `_S0W` is.
    const SXW: usize = Self::SXD + 4;
    /// Where the deepest sleep state is.
    const DEEPEST: usize = Self::SXW + 5;
    /// Where the reserved bytes begin. A description has none.
    const RESERVED: usize = Self::DEEPEST + 1;

    /// The number of the parent.
    pub fn parent(self) -> Option<usize> {
        present(self.0[0]).map(usize::from)
    }

    /// The `_PS` mask: bit x for `_PSx`.
    pub fn ps_mask(self) -> u8 {
        self.0[1]
    }

    /// The `_PR` mask: bit x for `_PRx`.
    pub fn pr_mask(self) -> u8 {
        self.0[2]
    }

    /// Whether the device has `_PRW`.
    pub fn has_prw(self) -> bool {
        self.0[3] & PRW != 0
    }

    /// Whether the device has `_DSW`.
    pub fn has_dsw(self) -> bool {
        self.0[3] & DSW != 0
    }

    /// Whether the device has `_PSx` for this x.
    pub fn has_set_state_method(self, x: u8) -> bool {
        self.ps_mask() >> x & 1 != 0
    }

    fn set(self, index: usize) -> u64 {
        let start = Self::SETS + W * index;
        let mut bytes = [0; 8];
        bytes[..W].copy_from_slice(&self.0[start..start + W]);
        u64::from_le_bytes(bytes)
    }

    /// `_SxD` for sleep state x, 0 to 4. There is no `_S0D`.
    pub fn sxd(self, x: u8) -> Option<u8> {
        match x {
            0 => None,
            _ => present(self.0[Self::SXD - 1 + x as usize]),
        }
    }

    /// `_SxW` for sleep state x, 0 to 4.
    pub fn sxw(self, x: u8) -> Option<u8> {
        present(self.0[Self::SXW + x as usize])
    }

    /// The deepest sleep state of `_PRW`.
    pub fn deepest_sleep(self) -> u8 {
        self.0[Self::DEEPEST]
    }

    /// The field rules of answer 5, for device number `d` and the set of all resources.
    fn fields_are_good(self, d: usize, all: u64) -> bool {
        let bytes = self.0;
        (bytes[0] == ABSENT || (bytes[0] as usize) < d)
            && (bytes[1] | bytes[2]) & 0xf0 == 0
            && bytes[3] & !(PRW | DSW) == 0
            && self.sets_are_good(all)
            && bytes[Self::SXD..Self::SXW]
                .iter()
                .all(|&sxd| sxd <= 3 || sxd == ABSENT)
            && bytes[Self::SXW..Self::DEEPEST]
                .iter()
                .all(|&sxw| sxw <= 4 || sxw == ABSENT)
            && self.sleep_states_agree()
            && self.deepest_sleep() <= 4
            && (self.has_prw() || self.deepest_sleep() == 0)
            && bytes[Self::RESERVED..] == [0; N][Self::RESERVED..]
    }

    /// Sets name only resources of the table, and those of absent objects are empty.
    fn sets_are_good(self, all: u64) -> bool {
        let listed = self.pr_mask() | u8::from(self.has_prw()) << PRW_SET;
        (0..5).all(|i| {
            let allowed = if listed >> i & 1 != 0 { all } else { 0 };
            self.set(i) & !allowed == 0
        })
    }

    /// `_SxD` is not larger than `_SxW` where both are present.
    fn sleep_states_agree(self) -> bool {
        (1..=4).all(|x| match (self.sxd(x), self.sxw(x)) {
            (Some(sxd), Some(sxw)) => sxd <= sxw,
            _ => true,
        })
    }

    /// The object rules of answer 6.
    fn keeps_object_rules(self) -> bool {
        let (ps, pr) = (self.ps_mask(), self.pr_mask());
        (ps == 0 || ps & 0b1001 == 0b1001)
            && (pr == 0 || pr & 1 != 0)
            && (ps == 0 || pr == 0 || (ps ^ pr) & 0b0111 == 0)
            && (!self.has_dsw() || self.has_prw())
    }

    /// The resources of `_PRx`, x from 0 to 3; empty if it is absent.
    pub fn pr_set(self, x: u8) -> u64 {
        self.set(x as usize)
    }

    /// The resources of `_PRW`; empty if it is absent.
    pub fn prw_set(self) -> u64 {
        self.set(PRW_SET)
    }

    /// Whether the device has this state, 0 to 4.
    pub fn supports(self, state: u8) -> bool {
        match state {
            D0 | D3HOT => true,
            D3COLD => self.pr_mask() >> 3 & 1 != 0,
            _ => (self.ps_mask() | self.pr_mask()) >> state & 1 != 0,
        }
    }

    /// The resources the device needs with this entry.
    pub fn needs(self, entry: Entry) -> u64 {
        let in_state = match entry.state {
            D3COLD => 0,
            D3HOT => self.needs_in_d3hot(),
            state => self.pr_set(state),
        };
        if entry.armed {
            in_state | self.prw_set()
        } else {
            in_state
        }
    }

    /// `_PR3`, or without it the deepest of the shallower sets that are listed.
    fn needs_in_d3hot(self) -> u64 {
        let mask = self.pr_mask();
        (0..4)
            .rev()
            .find(|x| mask >> x & 1 != 0)
            .map_or(0, |x| self.pr_set(x))
    }

    /// Whether (S, D) is a legal wake pair, with the resources of the table; if not,
    /// 16, 17 or 18.
    pub fn wake_pair(self, resources: Resources, s: u8, d: u8) -> Result<(), Answer> {
        if !self.has_prw() || s > self.deepest_sleep() {
            return Err(Answer::refused(16, 0));
        }
        if numbers(self.prw_set()).any(|r| resources.system_level(r) < s) {
            return Err(Answer::refused(17, 0));
        }
        let (shallowest, deepest) = match wake_range(self.sxd(s), self.sxw(s)) {
            Some(range) => range,
            None => return Err(Answer::refused(18, 0)),
        };
        if !self.supports(d) || d < shallowest || d > deepest {
            return Err(Answer::refused(18, 0));
        }
        Ok(())
    }

    /// The record of `M` bytes with the same fields, `V` for each set, which have no
    /// bit that it cannot hold.
    pub fn converted<const M: usize, const V: usize>(self) -> [u8; M] {
        let mut record = [0; M];
        record[..Self::SETS].copy_from_slice(&self.0[..Self::SETS]);
        let (sets, rest) = record[Self::SETS..].split_at_mut(5 * V);
        for (index, set) in sets.as_chunks_mut::<V>().0.iter_mut().enumerate() {
            set.copy_from_slice(&self.set(index).to_le_bytes()[..V]);
        }
        rest[..10].copy_from_slice(&self.0[Self::SXD..Self::RESERVED]);
        record
    }
}

/// The value of a byte that may be absent.
fn present(byte: u8) -> Option<u8> {
    (byte != ABSENT).then_some(byte)
}

/// A device of a table of either version.
#[derive(Clone, Copy)]
pub struct Device<'a>(Either<'a>);

#[derive(Clone, Copy)]
enum Either<'a> {
    One(Record<'a, 40, 4>),
    Two(Record<'a, 64, 8>),
}

impl<'a> Device<'a> {
    pub(crate) const fn one(record: &'a [u8; 40]) -> Self {
        Self(Either::One(Record(record)))
    }

    pub(crate) const fn two(record: &'a [u8; 64]) -> Self {
        Self(Either::Two(Record(record)))
    }
}

/// Methods of a record that a device of either version has.
macro_rules! of_either {
    ($($(#[$doc:meta])* $name:ident($($operand:ident: $type:ty),*) -> $result:ty;)*) => {
        impl Device<'_> {
            $($(#[$doc])* pub fn $name(self, $($operand: $type),*) -> $result {
                match self.0 {
                    Either::One(record) => record.$name($($operand),*),
                    Either::Two(record) => record.$name($($operand),*),
                }
            })*
        }
    };
}

of_either! {
    /// The number of the parent.
    parent() -> Option<usize>;
    /// The `_PS` mask: bit x for `_PSx`.
    ps_mask() -> u8;
    /// The `_PR` mask: bit x for `_PRx`.
    pr_mask() -> u8;
    /// Whether the device has `_PRW`.
    has_prw() -> bool;
    /// Whether the device has `_DSW`.
    has_dsw() -> bool;
    /// Whether the device has `_PSx` for this x.
    has_set_state_method(x: u8) -> bool;
    /// The resources of `_PRx`, x from 0 to 3; empty if it is absent.
    pr_set(x: u8) -> u64;
    /// The resources of `_PRW`; empty if it is absent.
    prw_set() -> u64;
    /// `_SxD` for sleep state x, 0 to 4. There is no `_S0D`.
    sxd(x: u8) -> Option<u8>;
    /// `_SxW` for sleep state x, 0 to 4.
    sxw(x: u8) -> Option<u8>;
    /// The deepest sleep state of `_PRW`.
    deepest_sleep() -> u8;
    /// Whether the device has this state, 0 to 4.
    supports(state: u8) -> bool;
    /// The resources the device needs with this entry.
    needs(entry: Entry) -> u64;
    /// Whether (S, D) is a legal wake pair, with the resources of the table; if not,
    /// 16, 17 or 18.
    wake_pair(resources: Resources, s: u8, d: u8) -> Result<(), Answer>;
}
