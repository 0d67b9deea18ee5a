//! The execution of a list, and what must hold of it (RULES.md 8).

use crate::call::Call;
use crate::planner::{effect, Effect};
use crate::request::Request;
use crate::resources::numbers;
use crate::switching::words;

/// What is on while a list is carried out: a set of resources that follows the
/// words and gives no answers. It knows no table: any byte is the number of a
/// resource.
#[derive(Clone, Copy, Debug, PartialEq, Eq)]
pub struct Execution {
    /// Resource r is on if bit r % 64 of word r / 64 is 1.
    on: [u64; 4],
}

impl Execution {
    /// The start, with these of the resources 0 to 63 on, and no other.
    pub fn new(on: u64) -> Self {
        Self { on: [on, 0, 0, 0] }
    }

    /// The resources 0 to 63 that are on; a table has no others.
    pub fn on(self) -> u64 {
        self.on[0]
    }

    /// Whether a resource is on.
    pub fn is_on(self, resource: u8) -> bool {
        let (word, bit) = place(resource);
        self.on[word] & bit != 0
    }

    /// Carries out one word. Only `_ON` and `_OFF` change the set.
    pub fn carry_out(&mut self, word: u32) {
        match Call::from_word(word) {
            Some(Call::On { resource }) => {
                let (word, bit) = place(resource);
                self.on[word] |= bit;
            }
            Some(Call::Off { resource }) => {
                let (word, bit) = place(resource);
                self.on[word] &= !bit;
            }
            _ => {}
        }
    }

    /// The resources that are on and not in a set, rising.
    pub fn on_but_not_in(self, set: u64) -> impl Iterator<Item = usize> {
        let mut extra = self.on;
        extra[0] &= !set;
        let words = (0..).step_by(64).zip(extra);
        words.flat_map(|(first, bits)| numbers(bits).map(move |bit| first + bit))
    }
}

/// The word of a resource, and its bit there.
fn place(resource: u8) -> (usize, u64) {
    (usize::from(resource / 64), 1 << (resource % 64))
}

/// Which of the resources 0 to 63 are on after each word of a list.
pub fn execution(on: u64, words: impl IntoIterator<Item = u32>) -> impl Iterator<Item = u64> {
    words
        .into_iter()
        .scan(Execution::new(on), |execution, word| {
            execution.carry_out(word);
            Some(execution.on())
        })
}

/// Carries out a byte list that the checker passed, and checks that
///
/// - at every point, before the first call and after each one, what is needed
///   both before and after the request is on, and nothing is on that was
///   neither on at the start nor is needed after;
/// - the own call is made once, or not at all if there is none, and finds the
///   device's needs met;
/// - at the end exactly the resources needed after are on.
///
/// The error names the point that failed.
pub fn demand3(table: &[u8], state: &[u8], request: Request, list: &[u8]) -> Result<(), String> {
    let words = words(list).ok_or("the list ends within a call")?;
    check_demand3(table, state, request, words)
}

/// As [`demand3`], for a list of words.
pub fn demand3_words(
    table: &[u8],
    state: &[u8],
    request: Request,
    list: &[u32],
) -> Result<(), String> {
    check_demand3(table, state, request, list.iter().copied())
}

fn check_demand3(
    table: &[u8],
    state: &[u8],
    request: Request,
    words: impl Iterator<Item = u32>,
) -> Result<(), String> {
    let effect = effect(table, state, request)
        .map_err(|answer| format!("the request is refused with {}", answer.number))?;
    let own_call = effect.own_call.map(Call::word);
    let mut execution = Execution::new(effect.on_before);
    let mut own_calls = 0;
    check_point(&effect, execution, 0)?;
    for (calls_before, word) in words.enumerate() {
        if own_call == Some(word) {
            own_calls += 1;
            check_own_call(&effect, execution, calls_before + 1)?;
        }
        execution.carry_out(word);
        check_point(&effect, execution, calls_before + 1)?;
    }
    if own_calls != usize::from(own_call.is_some()) {
        return Err(format!("the own call is made {own_calls} times"));
    }
    if execution != Execution::new(effect.needed_after) {
        return Err(format!(
            "at the end {:#x} is on, not the needed {:#x}",
            execution.on(),
            effect.needed_after
        ));
    }
    Ok(())
}

fn check_point(effect: &Effect, execution: Execution, calls: usize) -> Result<(), String> {
    let missing = effect.needed_before & effect.needed_after & !execution.on();
    if missing != 0 {
        return Err(format!(
            "after {calls} calls {missing:#x} is off, needed before and after"
        ));
    }
    let allowed = effect.on_before | effect.needed_after;
    if let Some(extra) = execution.on_but_not_in(allowed).next() {
        return Err(format!(
            "after {calls} calls r{extra} is on, neither on at the start nor needed after"
        ));
    }
    Ok(())
}

fn check_own_call(effect: &Effect, execution: Execution, call: usize) -> Result<(), String> {
    match effect.own_call_needs & !execution.on() {
        0 => Ok(()),
        missing => Err(format!(
            "call {call} is the device's own and finds {missing:#x} off, which it needs"
        )),
    }
}
