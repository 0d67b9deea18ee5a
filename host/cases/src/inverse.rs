//! What must hold of a writer and a describer on every case, checked without
//! the code of either.

use reference::{check_table, Answer, Version};

use crate::{equal, Case, Description};

/// Writes the table of a description in some version, and gives the answer as
/// one number.
pub type Write = fn(u32, &Description, &mut [u8]) -> u64;
/// Writes what a table describes, and gives the answer as one number.
pub type Describe = fn(&[u8], &mut Description) -> u64;

/// Says what does not hold. What is written describes back as the same lists,
/// and what is described writes back as the same table. The writer judges the
/// records as a reader judges the table that they would make. A refusal writes
/// nothing, and no byte past the result is written.
pub fn inverse_holds(case: &Case, write: Write, describe: Describe) -> Result<(), String> {
    written_describes_back(case, write, describe)?;
    described_writes_back(case, write, describe)
}

fn written_describes_back(case: &Case, write: Write, describe: Describe) -> Result<(), String> {
    let mut written = case.written.clone();
    let answer = Answer::unpack(write(case.version, &case.description, &mut written));
    let (table, rest) = written.split_at(answer.count.into());
    equal("what is past the table", rest, &case.written[table.len()..])?;
    judged_as_a_table(case, answer, table)?;
    if !answer.is_done() {
        return Ok(());
    }
    let Description { resources, devices } = &case.description;
    let mut described = Description {
        resources: vec![0x5a; resources.len()],
        devices: vec![0x5a; devices.len()],
    };
    let answer = Answer::unpack(describe(table, &mut described));
    let expected = Answer::done((resources.len() + devices.len()) as u16);
    equal("the answer to what was written", &answer, &expected)?;
    equal("what was written", &described, &case.description)
}

/// Answer and bytes are those of the table that the records would make, where
/// there is one, its version is asked for and it has room.
fn judged_as_a_table(case: &Case, answer: Answer, table: &[u8]) -> Result<(), String> {
    let Some(version) = Version::from_number(case.version) else {
        return Ok(());
    };
    if case.written.len() < case.description.table_length(version) {
        return Ok(());
    }
    let Some(assembled) = case.description.assembled(version) else {
        return Ok(());
    };
    let verdict = check_table(&assembled);
    if verdict.is_done() {
        let done = Answer::done(assembled.len() as u16);
        equal("the writer's answer", &answer, &done)?;
        equal("the table", table, &assembled)
    } else {
        equal("the writer's answer", &answer, &verdict)
    }
}

fn described_writes_back(case: &Case, write: Write, describe: Describe) -> Result<(), String> {
    let mut described = case.described.clone();
    let answer = Answer::unpack(describe(&case.table, &mut described));
    if !answer.is_done() {
        return equal("a list after a refusal", &described, &case.described);
    }
    let resources_length = 4 * usize::from(case.table[3]);
    let devices_length = 54 * usize::from(case.table[6]);
    let expected = Answer::done((resources_length + devices_length) as u16);
    equal("the describer's answer", &answer, &expected)?;
    let rest = described.resources.split_off(resources_length);
    let lent = &case.described.resources[resources_length..];
    equal("what is past the resources", &rest[..], lent)?;
    let rest = described.devices.split_off(devices_length);
    let lent = &case.described.devices[devices_length..];
    equal("what is past the devices", &rest[..], lent)?;

    let version = Version::of_table(&case.table).expect("a good table");
    let mut table = vec![0x5a; case.table.len()];
    let answer = Answer::unpack(write(version.number().into(), &described, &mut table));
    let expected = Answer::done(table.len() as u16);
    equal("the answer to what was described", &answer, &expected)?;
    equal("what was described", &table, &case.table)
}
