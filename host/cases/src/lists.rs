//! Variations of a list of calls.

use reference::{numbers, Call, State, Table};

use crate::rng::Rng;

/// Changes a planned list in one of many ways, or leaves it. An empty list is
/// often left or exchanged for another.
pub fn vary_list(rng: &mut Rng, table: &[u8], earlier: &[u8], list: &mut Vec<u8>) {
    match rng.below(24) {
        0..=3 => {}
        4..=8 => permute_equal_orders(rng, table, list),
        9 | 10 => exchange(rng, list),
        11 => cut(rng, list),
        12 => double(rng, list),
        13 | 14 => insert(rng, list, any_call),
        15 | 16 => change_byte(rng, list),
        17 => odd_length(rng, list),
        18 => {
            let words = list.len() / 4;
            list.rotate_left(4 * rng.below(words + 1));
        }
        19 => list.as_chunks_mut::<4>().0.reverse(),
        20 => turn_call(rng, list),
        21 => list.splice(.., earlier.iter().copied()).for_each(drop),
        22 => any_calls(rng, list),
        _ => {
            let length = rng.below(200);
            rng.fill(list, length);
        }
    }
}

/// Changes the planned list of a bring-up, also in ways that are of interest
/// there. `state` is the one before it.
pub fn vary_bring_up_list(
    rng: &mut Rng,
    table: &[u8],
    state: &[u8],
    earlier: &[u8],
    list: &mut Vec<u8>,
) {
    match rng.below(12) {
        0 | 1 => turn_on_all_needed(table, state, list),
        // `_OFF`s before `_ON`s, each kind in its order, as the sort is stable.
        2 => list.as_chunks_mut::<4>().0.sort_by_key(|word| !word[0]),
        3 => insert(rng, list, any_method),
        _ => vary_list(rng, table, earlier, list),
    }
}

/// Turns on all that is needed by rising order, on or not, before the other calls.
pub fn turn_on_all_needed(table: &[u8], state: &[u8], list: &mut Vec<u8>) {
    let Ok(table) = Table::read(table) else {
        return;
    };
    let Ok(state) = State::read_for_bring_up(&table, state) else {
        return;
    };
    let mut needed: Vec<usize> = numbers(state.needed(&table)).collect();
    needed.sort_by_key(|&r| table.resource_order(r));
    let words = list.as_chunks().0.iter().copied();
    let others = words.filter(|word| word[0] != 1);
    let turn_on = needed.iter().map(|&r| [1, r as u8, 0, 0]);
    *list = turn_on.chain(others).flatten().collect();
}

/// Brings the calls of equal resource order, of one kind, into any sequence.
/// A list that conforms still does so afterwards.
pub fn permute_equal_orders(rng: &mut Rng, table: &[u8], list: &mut [u8]) {
    let Ok(table) = Table::read(table) else {
        return;
    };
    let words = list.as_chunks_mut::<4>().0;
    let same_place = |a: &[u8; 4], b: &[u8; 4]| match (group(&table, *a), group(&table, *b)) {
        (Some(a), Some(b)) => a == b,
        _ => false,
    };
    for run in words.chunk_by_mut(same_place) {
        shuffle(rng, run);
    }
}

/// What two calls must have in common to be exchanged: the kind and the order.
fn group(table: &Table, word: [u8; 4]) -> Option<(u8, u16)> {
    match Call::from_word(u32::from_le_bytes(word)) {
        Some(Call::On { resource } | Call::Off { resource })
            if usize::from(resource) < table.resource_count() =>
        {
            Some((word[0], table.resource_order(resource.into())))
        }
        _ => None,
    }
}

fn shuffle(rng: &mut Rng, words: &mut [[u8; 4]]) {
    for last in (1..words.len()).rev() {
        words.swap(last, rng.below(last + 1));
    }
}

fn exchange(rng: &mut Rng, list: &mut [u8]) {
    let words = list.as_chunks_mut::<4>().0;
    if words.len() > 1 {
        let first = rng.below(words.len() - 1);
        let second = match rng.below(2) {
            0 => first + 1,
            _ => first + 1 + rng.below(words.len() - 1 - first),
        };
        words.swap(first, second);
    }
}

/// Leaves out one call, or the end of the list.
fn cut(rng: &mut Rng, list: &mut Vec<u8>) {
    let words = list.len() / 4;
    if words > 0 {
        let start = 4 * rng.below(words);
        match rng.below(2) {
            0 => list.truncate(start),
            _ => list.drain(start..start + 4).for_each(drop),
        }
    }
}

/// Repeats one call, beside itself or at the end, or the whole list.
fn double(rng: &mut Rng, list: &mut Vec<u8>) {
    let words = list.len() / 4;
    if words > 0 {
        let start = 4 * rng.below(words);
        let word: [u8; 4] = list[start..start + 4].try_into().expect("four bytes");
        match rng.below(3) {
            0 => list.splice(start..start, word).for_each(drop),
            1 => list.extend(word),
            _ => list.extend_from_within(..),
        }
    }
}

fn insert(rng: &mut Rng, list: &mut Vec<u8>, call: fn(&mut Rng) -> [u8; 4]) {
    let start = 4 * rng.below(list.len() / 4 + 1);
    let word = call(rng);
    list.splice(start..start, word).for_each(drop);
}

fn change_byte(rng: &mut Rng, list: &mut [u8]) {
    if !list.is_empty() {
        let index = rng.below(list.len());
        match rng.below(3) {
            0 => list[index] ^= 1 << rng.below(8),
            1 => list[index] = rng.edge_byte(),
            _ => list[index] = rng.byte(),
        }
    }
}

/// A length that is no multiple of four, shorter or longer.
fn odd_length(rng: &mut Rng, list: &mut Vec<u8>) {
    let odd = 1 + rng.below(3);
    let whole = list.len() / 4 * 4;
    match rng.below(2) {
        0 if whole > 0 => list.truncate(whole - odd),
        _ => {
            list.truncate(whole);
            list.extend((0..odd).map(|_| rng.edge_byte()));
        }
    }
}

/// Makes an `_ON` an `_OFF`, or the other way round.
fn turn_call(rng: &mut Rng, list: &mut [u8]) {
    let words = list.as_chunks_mut::<4>().0;
    if !words.is_empty() {
        let index = rng.below(words.len());
        words[index][0] ^= 3;
    }
}

/// A list of calls that have nothing to do with the request, sometimes a long one.
fn any_calls(rng: &mut Rng, list: &mut Vec<u8>) {
    let words = match rng.below(16) {
        0 => rng.below(2000),
        _ => rng.below(40),
    };
    list.clear();
    for _ in 0..words {
        list.extend(any_call(rng));
    }
}

fn any_call(rng: &mut Rng) -> [u8; 4] {
    let number = any_number(rng);
    match rng.below(3) {
        0 => [1, number, 0, 0],
        1 => [2, number, 0, 0],
        _ => any_method(rng),
    }
}

fn any_method(rng: &mut Rng) -> [u8; 4] {
    let number = any_number(rng);
    match rng.below(2) {
        0 => [3, number, rng.byte_below(4), 0],
        _ => [4, number, rng.byte_below(5), 128 + rng.byte_below(5)],
    }
}

/// The number of a resource or device, of version 1 or 2.
fn any_number(rng: &mut Rng) -> u8 {
    let limit = rng.pick(&[32, 64]);
    rng.byte_below(limit)
}
