//! Requests as people write them.

use std::ffi::OsString;

use sailgarnet::Request;

use crate::words::quoted;

/// Reads a request from the first operands and gives the operands after it. A
/// request is one operand, `"move 1 D2"`, or one for each of its words.
pub fn parse(operands: &[OsString]) -> Result<(Request, &[OsString]), String> {
    let first = operands.first().ok_or("the request is missing")?;
    let text = first.to_string_lossy();
    if text.contains(char::is_whitespace) {
        let words: Vec<&str> = text.split_whitespace().collect();
        let count = word_count(words.first().unwrap_or(&""))?;
        if words.len() > count {
            return Err(format!("{:?} is more than one request", text));
        }
        return Ok((from_words(&words)?, &operands[1..]));
    }
    let count = word_count(&text)?.min(operands.len());
    let (words, rest) = operands.split_at(count);
    let texts: Vec<_> = words.iter().map(|word| word.to_string_lossy()).collect();
    let words: Vec<&str> = texts.iter().map(AsRef::as_ref).collect();
    Ok((from_words(&words)?, rest))
}

/// The number of words of a request that begins with this one.
fn word_count(kind: &str) -> Result<usize, String> {
    match kind.to_ascii_lowercase().as_str() {
        "move" => Ok(3),
        "arm" => Ok(4),
        "disarm" | "sleep" => Ok(2),
        _ => Err(format!(
            "{kind:?} is no request; write move, arm, disarm or sleep"
        )),
    }
}

fn from_words(words: &[&str]) -> Result<Request, String> {
    match (words[0].to_ascii_lowercase().as_str(), &words[1..]) {
        ("move", [d, state]) => Ok(Request::move_to(device(d)?, device_state(state)?.into())),
        ("arm", [d, s, state]) => Ok(Request::arm(
            device(d)?,
            sleep_state(s)?.into(),
            device_state(state)?.into(),
        )),
        ("disarm", [d]) => Ok(Request::disarm(device(d)?)),
        ("sleep", [s]) => Ok(Request::sleep(sleep_state(s)?.into())),
        ("move", _) => Err("a move is written like: move 1 D2".into()),
        ("arm", _) => Err("arming is written like: arm 1 S3 D2".into()),
        ("disarm", _) => Err("disarming is written like: disarm 1".into()),
        _ => Err("sleep entry is written like: sleep S3".into()),
    }
}

fn device(word: &str) -> Result<u32, String> {
    word.parse()
        .map_err(|_| format!("{word:?} is no device number"))
}

/// The number of a device state.
pub fn device_state(word: &str) -> Result<u8, String> {
    match word.to_ascii_lowercase().as_str() {
        "d0" => Ok(0),
        "d1" => Ok(1),
        "d2" => Ok(2),
        "d3hot" => Ok(3),
        "d3cold" => Ok(4),
        "d3" => Err("D3 can be two states; write D3hot or D3cold".into()),
        _ => Err(format!(
            "{} is no device state; write D0, D1, D2, D3hot or D3cold",
            quoted(word)
        )),
    }
}

/// The number of a sleep state.
pub fn sleep_state(word: &str) -> Result<u8, String> {
    match word.to_ascii_lowercase().as_str() {
        "s0" => Ok(0),
        "s1" => Ok(1),
        "s2" => Ok(2),
        "s3" => Ok(3),
        "s4" => Ok(4),
        _ => Err(format!(
            "{} is no sleep state; write S0 to S4",
            quoted(word)
        )),
    }
}

#[cfg(test)]
mod tests {
    use super::parse;
    use sailgarnet::Request;
    use std::ffi::OsString;

    fn read(words: &[&str]) -> Result<(Request, usize), String> {
        let operands: Vec<OsString> = words.iter().map(OsString::from).collect();
        parse(&operands).map(|(request, rest)| (request, rest.len()))
    }

    #[test]
    fn requests_are_one_word_each_or_one_operand() {
        for (words, request, rest) in [
            (&["move", "1", "D2"][..], Request::move_to(1, 2), 0),
            (&["move 1 D2"], Request::move_to(1, 2), 0),
            (&["MOVE", "1", "d3HOT", "x"], Request::move_to(1, 3), 1),
            (&["move 1  d3cold ", "x"], Request::move_to(1, 4), 1),
            (&["arm", "1", "S3", "D2", "x"], Request::arm(1, 3, 2), 1),
            (&["arm 1 s0 D0"], Request::arm(1, 0, 0), 0),
            (&["disarm", "7", "x"], Request::disarm(7), 1),
            (&["disarm 7", "x", "y"], Request::disarm(7), 2),
            (&["disarm", "4294967295"], Request::disarm(u32::MAX), 0),
            (&["sleep", "S3"], Request::sleep(3), 0),
            (&["Sleep", "s1", "x"], Request::sleep(1), 1),
            (&["sleep S4", "x"], Request::sleep(4), 1),
            (&["sleep", "S0"], Request::sleep(0), 0),
        ] {
            assert_eq!(read(words), Ok((request, rest)), "{words:?}");
        }
    }

    #[test]
    fn wrong_requests_are_explained() {
        for (words, message) in [
            (&[][..], "the request is missing"),
            (&["go", "1"], "\"go\" is no request"),
            (&[" "], "\"\" is no request"),
            (&["move", "1"], "a move is written like"),
            (&["move 1"], "a move is written like"),
            (&["arm", "1", "S3"], "arming is written like"),
            (&["disarm"], "disarming is written like"),
            (&["sleep"], "sleep entry is written like"),
            (&["sleep "], "sleep entry is written like"),
            (&["sleep 1 S3"], "more than one request"),
            (&["disarm 1 2"], "more than one request"),
            (&["move", "x", "D2"], "\"x\" is no device number"),
            (&["move", "-1", "D2"], "\"-1\" is no device number"),
            (&["move", "4294967296", "D2"], "is no device number"),
            (&["move", "1", "D3"], "write D3hot or D3cold"),
            (&["move", "1", "D5"], "\"D5\" is no device state"),
            (&["arm", "1", "S5", "D2"], "\"S5\" is no sleep state"),
            (&["sleep", "S5"], "\"S5\" is no sleep state"),
            (&["sleep", "3"], "\"3\" is no sleep state"),
            (&["sleep D3hot"], "\"D3hot\" is no sleep state"),
        ] {
            let found = read(words).unwrap_err();
            assert!(found.contains(message), "{words:?}: {found}");
        }
    }
}
