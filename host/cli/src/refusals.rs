//! Why a table or a state is refused as a whole, in the numbers of its version, and
//! why a request is, in those of its table.

use sailgarnet::{Answer, Request, Verdict, Version};

use crate::words::{count, numbered_beyond, table_counts};

/// The sentence of a refusal of a table with 1, 2 or 3.
pub fn of_table(answer: Answer, table: &[u8]) -> Option<String> {
    match answer.verdict()? {
        Verdict::NotATable => Some(of_header(table)),
        Verdict::TooMany => Some(too_many(Version::of_table(table)?, table)),
        Verdict::WrongLength => Some(wrong_length(Version::of_table(table)?, table)),
        _ => None,
    }
}

/// What is wrong with the first 8 bytes of a table.
fn of_header(table: &[u8]) -> String {
    match table {
        [b'P', b'W', b'T', _, low, high, _, 0, ..] => {
            let version = u16::from_le_bytes([*low, *high]);
            format!("the table is of version {version}, and there are versions 1 and 2 alone.")
        }
        [b'P', b'W', b'T', _, _, _, _, _, ..] => "the table is not zero in its byte 7.".into(),
        [_, _, _, _, _, _, _, _, ..] => {
            "the table is none, since it does not begin with the letters PWT.".into()
        }
        _ => {
            let bytes = count(table.len(), "byte");
            format!("the table is {bytes} long, and its header alone has 8.")
        }
    }
}

/// That a table has more records than a version allows.
pub fn too_many(version: Version, table: &[u8]) -> String {
    let (number, counts) = (version.number(), counts(table));
    let most = version.max_resources();
    format!("the table has {counts}, and version {number} allows {most} of each.")
}

fn wrong_length(version: Version, table: &[u8]) -> String {
    let (resources, devices) = table_counts(table);
    let (number, counts) = (version.number(), counts(table));
    let due = count(version.table_bytes(resources, devices), "byte");
    let bytes = count(table.len(), "byte");
    format!("the table is {bytes} long, and version {number} has {due} for {counts}.")
}

fn counts(table: &[u8]) -> String {
    let (resources, devices) = table_counts(table);
    let (resources, devices) = (count(resources, "resource"), count(devices, "device"));
    format!("{resources} and {devices}")
}

/// The sentence of answer 7, and what to do about it.
pub fn of_state(table: &[u8], state: &[u8]) -> Option<(String, String)> {
    let version = Version::of_table(table)?;
    if state.len() == version.state_bytes() {
        let sentence = "the state has a value that is not allowed.";
        return Some((sentence.into(), String::new()));
    }
    let (bytes, due) = (count(state.len(), "byte"), version.state_bytes());
    let number = version.number();
    let sentence = format!(
        "the state is {bytes} long, and for a table of version {number} it has {due} bytes."
    );
    let advice = Version::of_state(state).map(|other| {
        format!(
            "It has the length of a state for a table of version {}; sailgarnet fresh writes a \
             state for this table.\n",
            other.number()
        )
    });
    Some((sentence, advice.unwrap_or_default()))
}

/// The sentence of answer 10 to a request about one device. As people write it, only
/// the number of the device can be out of range.
pub fn of_request(table: &[u8], request: Request) -> Option<String> {
    let (_, devices) = table_counts(table);
    let beyond = numbered_beyond("device", request.device as usize, devices)?;
    Some(format!("the request {beyond}."))
}
