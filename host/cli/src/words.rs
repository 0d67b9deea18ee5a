//! Names of resources, states, calls and answers in texts.

use std::ops::Range;
use std::str::FromStr;

use reference::numbers;
use sailgarnet::{Answer, Call, Version};

/// The names of the device states, by number.
pub const DEVICE_STATES: [&str; 5] = ["D0", "D1", "D2", "D3hot", "D3cold"];

/// The name of a device state.
pub fn device_state(state: u8) -> &'static str {
    DEVICE_STATES[usize::from(state)]
}

/// The resources of a set, or that there are none.
pub fn resources(set: u64) -> String {
    match set {
        0 => "none".into(),
        _ => names(numbers(set)),
    }
}

/// The names of resources.
pub fn names(resources: impl IntoIterator<Item = usize>) -> String {
    let names: Vec<String> = resources.into_iter().map(|r| format!("r{r}")).collect();
    names.join(" ")
}

/// The set of resources that are on in a state that the planner took or made.
pub fn on_set(state: &[u8]) -> u64 {
    sailgarnet::on_set(state).expect("the length of a state")
}

/// A call in words.
pub fn call(call: Option<Call>) -> String {
    match call {
        Some(call) => call.to_string(),
        None => "no call".into(),
    }
}

/// A call in few letters: the method, and what it is called on.
pub fn short_call(call: Option<Call>) -> (String, String) {
    match call {
        Some(Call::On { resource }) => ("_ON".into(), format!("r{resource}")),
        Some(Call::Off { resource }) => ("_OFF".into(), format!("r{resource}")),
        Some(Call::SetState { device, method }) => {
            (format!("_PS{method}"), format!("device {device}"))
        }
        Some(Call::SetWake { device, wake }) => {
            let on = if wake.is_some() { "on" } else { "off" };
            (format!("_DSW {on}"), format!("device {device}"))
        }
        None => ("no call".into(), String::new()),
    }
}

/// Four bytes as they stand in a list.
fn hexadecimal(bytes: [u8; 4]) -> String {
    let [a, b, c, d] = bytes;
    format!("{a:02x} {b:02x} {c:02x} {d:02x}")
}

/// The line before a list of calls.
pub fn calls_title(calls: usize) -> String {
    match calls {
        0 => "no calls\n".into(),
        _ => format!("{}:\n", count(calls, "call")),
    }
}

/// A list of calls, a line each, numbered from 1.
pub fn call_lines(list: &[u8]) -> String {
    let calls = list.len() / 4;
    calls_title(calls) + &calls_at(0..calls, list)
}

/// The calls at these places of a list, a line each, numbered from 1 in the whole
/// list.
pub fn calls_at(places: Range<usize>, list: &[u8]) -> String {
    let calls = list.as_chunks().0;
    let lines = places.map(|i| call_line(i + 1, calls[i]) + "\n");
    lines.collect()
}

/// A call of a list with its number.
pub fn call_line(number: usize, bytes: [u8; 4]) -> String {
    let words = call(Call::from_bytes(bytes));
    format!("{number:4}  {}  {words}", hexadecimal(bytes))
}

/// An answer as a line, with a capital letter.
pub fn answer_line(answer: Answer) -> String {
    let text = answer.to_string();
    format!("A{}\n", &text[1..])
}

/// An answer as a line with this sentence, if there is one, in place of its own.
pub fn answer_line_with(answer: Answer, sentence: Option<&str>) -> String {
    let line = answer_line(answer);
    match (line.split_once(": "), sentence) {
        (Some((answer, _)), Some(sentence)) => format!("{answer}: {sentence}\n"),
        _ => line,
    }
}

/// How many letters of a user's word are shown.
const SHOWN: usize = 40;

/// A user's word as it stands. A long one is cut, and control characters are
/// escaped, since a terminal would obey them.
pub fn shown(word: &str) -> String {
    let mut shown = String::new();
    for letter in word.chars().take(SHOWN) {
        match letter.is_control() {
            true => shown.extend(letter.escape_default()),
            false => shown.push(letter),
        }
    }
    if word.chars().nth(SHOWN).is_some() {
        shown += "..";
    }
    shown
}

/// A user's word in quotes.
pub fn quoted(word: &str) -> String {
    format!("\"{}\"", shown(word))
}

/// A number with its noun.
pub fn count(number: usize, noun: &str) -> String {
    match number {
        1 => format!("1 {noun}"),
        _ => format!("{number} {noun}s"),
    }
}

/// The number that a word says in digits alone, without zeros before it.
pub fn number<T: FromStr>(word: &str) -> Option<T> {
    let digits = word.bytes().all(|byte| byte.is_ascii_digit());
    let plain = digits && (word == "0" || !word.starts_with('0'));
    word.parse().ok().filter(|_| plain)
}

/// That a table with so many resources or devices has none with this number.
pub fn numbered_beyond(noun: &str, number: usize, count: usize) -> Option<String> {
    let has = match count {
        0 => "none".into(),
        _ => format!("{count}, numbered from 0"),
    };
    (number >= count).then(|| format!("names {noun} {number}, and the table has {has}"))
}

/// How many resources and devices a table says that it has. It has a header.
pub fn table_counts(table: &[u8]) -> (usize, usize) {
    (table[3].into(), table[6].into())
}

/// How large a table is that the planner found good or wrote.
pub fn table_size(table: &[u8]) -> String {
    let (resources, devices) = table_counts(table);
    let (resources, devices) = (count(resources, "resource"), count(devices, "device"));
    let version = Version::of_table(table).expect("the header of a table");
    let (version, bytes) = (version.number(), count(table.len(), "byte"));
    format!("Table of version {version}, {bytes}: {resources}, {devices}\n")
}

/// A text in lines of at most `width` letters, broken between words.
pub fn wrap(text: &str, width: usize) -> Vec<String> {
    let mut lines = vec![String::new()];
    for word in text.split_whitespace() {
        let line = lines.last_mut().expect("there is always a line");
        if !line.is_empty() && line.len() + 1 + word.len() > width {
            lines.push(word.into());
        } else {
            if !line.is_empty() {
                line.push(' ');
            }
            line.push_str(word);
        }
    }
    lines
}

#[cfg(test)]
mod tests {
    use super::{answer_line, answer_line_with, quoted, resources, wrap};
    use sailgarnet::Answer;

    #[test]
    fn sets_are_named() {
        assert_eq!(resources(0), "none");
        assert_eq!(resources(0x8000_0000_8000_0005), "r0 r2 r31 r63");
    }

    #[test]
    fn an_answer_is_a_line() {
        let answer = Answer::unpack(14 | 1 << 24);
        let line = answer_line(answer);
        assert!(line.starts_with("Answer 14, device 1: this device is a child"));
        assert!(line.ends_with(".\n"));
    }

    #[test]
    fn an_answer_may_have_another_sentence() {
        let answer = Answer::unpack(14 | 1 << 24);
        let line = answer_line_with(answer, Some("a: b."));
        assert_eq!(line, "Answer 14, device 1: a: b.\n");
        assert_eq!(answer_line_with(answer, None), answer_line(answer));
    }

    #[test]
    fn words_are_shown_as_they_stand() {
        assert_eq!(quoted("e\u{301}\"\\'"), "\"e\u{301}\"\\'\"");
        assert_eq!(quoted("\x1b[m\0"), "\"\\u{1b}[m\\u{0}\"");
        let word = |letters| "ü".repeat(letters);
        assert_eq!(quoted(&word(40)), format!("\"{}\"", word(40)));
        assert_eq!(quoted(&word(41)), format!("\"{}..\"", word(40)));
    }

    #[test]
    fn texts_break_between_words() {
        assert_eq!(wrap("one two three", 7), ["one two", "three"]);
        assert_eq!(wrap("one two three", 3), ["one", "two", "three"]);
        assert_eq!(wrap("", 3), [""]);
    }
}
