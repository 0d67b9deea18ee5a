//! The calls that turn one set of resources that are on into another.

use crate::answer::Answer;
use crate::call::Call;
use crate::resources::{numbers, Resources};
use crate::table::MAX_RESOURCES;

/// The calls that bring the resources that are on to a target, before, after or
/// without a device's own call.
pub(crate) struct Switching {
    /// The resources that are on at the end.
    pub target: u64,
    /// Those of the target that are off.
    to_turn_on: u64,
    /// The resources that are on and not in the target.
    to_turn_off: u64,
    own_first: Option<u32>,
    own_last: Option<u32>,
}

impl Switching {
    /// The switching alone.
    pub fn new(on: u64, target: u64) -> Self {
        Self {
            target,
            to_turn_on: target & !on,
            to_turn_off: on & !target,
            own_first: None,
            own_last: None,
        }
    }

    /// With the word of an own call before or after the switching.
    pub fn with_own_call(self, own_call: Option<u32>, first: bool) -> Self {
        Self {
            own_first: own_call.filter(|_| first),
            own_last: own_call.filter(|_| !first),
            ..self
        }
    }

    /// Writes the planner's list by index and word, and gives its length.
    pub fn write_calls(&self, resources: Resources, mut write: impl FnMut(usize, u32)) -> u16 {
        let mut count = 0;
        let mut push = |word| {
            write(count, word);
            count += 1;
        };
        self.own_first.into_iter().for_each(&mut push);
        let mut keys = [0; MAX_RESOURCES];
        for &key in rising(resources, self.to_turn_on, &mut keys) {
            push(
                Call::On {
                    resource: key as u8,
                }
                .word(),
            );
        }
        for &key in rising(resources, self.to_turn_off, &mut keys).iter().rev() {
            push(
                Call::Off {
                    resource: key as u8,
                }
                .word(),
            );
        }
        self.own_last.into_iter().for_each(&mut push);
        count as u16
    }

    /// The checker's answer to a list, or to one that ends within a word: 0 or 19.
    pub fn check(&self, resources: Resources, list: Option<impl Iterator<Item = u32>>) -> Answer {
        if list.is_some_and(|list| self.list_conforms(resources, list)) {
            Answer::done(0)
        } else {
            Answer::refused(19, 0)
        }
    }

    /// Whether a list has exactly the calls due, in order, with equal
    /// resource orders in any sequence.
    fn list_conforms(&self, resources: Resources, mut list: impl Iterator<Item = u32>) -> bool {
        calls_own(self.own_first, &mut list)
            && switches_on(resources, self.to_turn_on, &mut list)
            && switches_off(resources, self.to_turn_off, &mut list)
            && calls_own(self.own_last, &mut list)
            && list.next().is_none()
    }
}

/// The words of a byte list, or `None` if it ends within a word.
pub(crate) fn words(list: &[u8]) -> Option<impl Iterator<Item = u32> + '_> {
    let (words, rest) = list.as_chunks::<4>();
    let words = words.iter().map(|&word| u32::from_le_bytes(word));
    rest.is_empty().then_some(words)
}

/// The resources of a set as sort keys, rising by order and then by number.
/// The lowest byte of a key is the resource number.
fn rising<'k>(resources: Resources, set: u64, keys: &'k mut [u32; MAX_RESOURCES]) -> &'k [u32] {
    let mut length = 0;
    for r in numbers(set) {
        keys[length] = u32::from(resources.order(r)) << 8 | r as u32;
        length += 1;
    }
    let keys = &mut keys[..length];
    keys.sort_unstable();
    keys
}

/// Whether the next call of a list is the own call, if there is one.
fn calls_own(own_call: Option<u32>, list: &mut impl Iterator<Item = u32>) -> bool {
    own_call.is_none() || list.next() == own_call
}

/// Whether the next calls of a list are `_ON` of each resource of `due`, by rising order.
fn switches_on(resources: Resources, mut due: u64, list: &mut impl Iterator<Item = u32>) -> bool {
    let mut last = 0;
    while due != 0 {
        let Some(Call::On { resource }) = list.next().and_then(Call::from_word) else {
            return false;
        };
        let Some(order) = take(resources, &mut due, resource) else {
            return false;
        };
        if order < last {
            return false;
        }
        last = order;
    }
    true
}

/// Whether the next calls of a list are `_OFF` of each resource of `due`, by falling order.
fn switches_off(resources: Resources, mut due: u64, list: &mut impl Iterator<Item = u32>) -> bool {
    let mut last = u16::MAX;
    while due != 0 {
        let Some(Call::Off { resource }) = list.next().and_then(Call::from_word) else {
            return false;
        };
        let Some(order) = take(resources, &mut due, resource) else {
            return false;
        };
        if order > last {
            return false;
        }
        last = order;
    }
    true
}

/// Takes a resource out of a set and gives its order, or `None` if it is not in it.
fn take(resources: Resources, set: &mut u64, resource: u8) -> Option<u16> {
    let bit = 1u64.checked_shl(resource.into())?;
    if *set & bit == 0 {
        return None;
    }
    *set &= !bit;
    Some(resources.order(resource.into()))
}
