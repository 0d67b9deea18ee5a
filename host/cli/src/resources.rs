//! Sets of resources as people write them.

use reference::{numbers, Table, MAX_RESOURCES};

use crate::words::{number, numbered_beyond, quoted};

/// The set of the resources that a word names, such as `r0,r2`. `none` and an
/// empty word name none.
pub fn parse(word: &str) -> Result<u64, String> {
    if word.is_empty() || word.eq_ignore_ascii_case("none") {
        return Ok(0);
    }
    let mut set = 0;
    for name in word.split(',') {
        let bit = 1 << resource(name)?;
        if set & bit != 0 {
            return Err(format!("{} is listed twice", quoted(name)));
        }
        set |= bit;
    }
    Ok(set)
}

fn resource(name: &str) -> Result<usize, String> {
    let found = name.strip_prefix(['r', 'R']).and_then(number);
    found.filter(|&r| r < MAX_RESOURCES).ok_or_else(|| {
        let last = MAX_RESOURCES - 1;
        format!(
            "{} is no resource; write r0 to r{last} with commas between them, or none",
            quoted(name)
        )
    })
}

/// Checks that a table has all resources of a set.
pub fn must_be_in(table: &Table, set: u64) -> Result<(), String> {
    let count = table.resource_count();
    let beyond = numbers(set).find_map(|r| numbered_beyond("resource", r, count));
    beyond.map_or(Ok(()), Err)
}

#[cfg(test)]
mod tests {
    use super::parse;

    #[test]
    fn names_stand_between_commas() {
        for (word, set) in [
            ("r0", 1),
            ("r0,r2", 5),
            ("r2,R0", 5),
            ("r31", 1 << 31),
            ("r63,r0", 1 << 63 | 1),
            ("none", 0),
            ("None", 0),
            ("", 0),
        ] {
            assert_eq!(parse(word), Ok(set), "{word}");
        }
    }

    #[test]
    fn other_words_are_explained() {
        for (word, message) in [
            ("r0,r2,r0", "\"r0\" is listed twice"),
            ("r0,", "\"\" is no resource; write r0 to r63"),
            ("r0 r2", "\"r0 r2\" is no resource"),
            ("r0,none", "\"none\" is no resource"),
            ("0", "\"0\" is no resource"),
            ("r", "\"r\" is no resource"),
            ("r01", "\"r01\" is no resource"),
            ("r+1", "\"r+1\" is no resource"),
            ("r64", "\"r64\" is no resource"),
            ("r18446744073709551616", "is no resource"),
        ] {
            let found = parse(word).unwrap_err();
            assert!(found.contains(message), "{word}: {found}");
        }
    }
}
