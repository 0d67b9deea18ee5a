//! The subcommands on tables: what a table has, its text, its other version, and
//! its fresh state.

use std::path::Path;

use sailgarnet::{Answer, Device, Resource, Version};

use crate::args::{Args, VERSION};
use crate::commands::{exactly, output, usage, Outcome};
use crate::help::Help;
use crate::{backend, files, printer, reader, refusals, show, words, Failure, Report};

/// `show`.
pub fn show(help: &Help, args: &Args) -> Outcome {
    let [table] = exactly(help, &args.operands, ["TABLE"])?;
    let table = files::read(Path::new(table))?;
    match fresh_state(&table) {
        Ok(_) => show::table(&table).map(Report::done),
        Err(refusal) => Ok(refused(refusal, &table)),
    }
}

/// `describe`.
pub fn describe(help: &Help, args: &Args) -> Outcome {
    let [table_path] = exactly(help, &args.operands, ["TABLE"])?;
    let output = args.option("-o");
    files::must_keep(output, &[Some(Path::new(table_path))])?;
    let table = files::read(Path::new(table_path))?;
    let (answer, lists) = match described(&table) {
        Ok(described) => described,
        Err(refusal) => return Ok(refused(refusal, &table)),
    };
    let version = Version::of_table(&table).expect("the header of a table");
    let text = printer::text(version, &lists.resources, &lists.devices);
    let Some(path) = output else {
        return Ok(Report::done(text));
    };
    files::write(path, text.as_bytes())?;
    Ok(done_with(answer, &table))
}

/// `write`.
pub fn write(help: &Help, args: &Args) -> Outcome {
    let [text_path] = exactly(help, &args.operands, ["FILE"])?;
    let text_path = Path::new(text_path);
    let version = asked_version(help, args)?;
    let output = output(help, args, "TABLE")?;
    files::must_keep(Some(output), &[Some(text_path)])?;
    let bytes = files::read(text_path)?;
    let position = |mistake| format!("{}:{mistake}", text_path.display());
    let mut text =
        reader::read(&bytes).map_err(|mistake| Failure::at_position(position(mistake)))?;
    if let Some(version) = version {
        text.write_as(version);
    }
    let lists = Lists {
        resources: text.resources.iter().flat_map(|r| r.to_bytes()).collect(),
        devices: text.devices.iter().flat_map(|d| d.to_bytes()).collect(),
    };
    match written(text.version, &lists) {
        Ok((answer, table)) => save(output, answer, &table),
        Err(refusal) => {
            let sentence = text.refusal_sentence(refusal);
            let line = words::answer_line_with(refusal, sentence.as_deref());
            let part = position(text.refused_part(refusal));
            Ok(Report::refused(format!("{line}{part}\n")))
        }
    }
}

/// `convert`.
pub fn convert(help: &Help, args: &Args) -> Outcome {
    let [table_path] = exactly(help, &args.operands, ["TABLE"])?;
    let missing = || usage(help, &format!("{VERSION} N is missing"));
    let version = asked_version(help, args)?.ok_or_else(missing)?;
    let output = output(help, args, "TABLE")?;
    files::must_keep(Some(output), &[Some(Path::new(table_path))])?;
    let table = files::read(Path::new(table_path))?;
    let (_, lists) = match described(&table) {
        Ok(described) => described,
        Err(refusal) => return Ok(refused(refusal, &table)),
    };
    match written(version.number(), &lists) {
        Ok((answer, table)) => save(output, answer, &table),
        Err(refusal) => Ok(does_not_fit(refusal, version, &table)),
    }
}

/// `fresh`.
pub fn fresh(help: &Help, args: &Args) -> Outcome {
    let [table_path] = exactly(help, &args.operands, ["TABLE"])?;
    let output = output(help, args, "STATE")?;
    files::must_keep(Some(output), &[Some(Path::new(table_path))])?;
    let table = files::read(Path::new(table_path))?;
    let (answer, state) = match fresh_state(&table) {
        Ok(fresh) => fresh,
        Err(refusal) => return Ok(refused(refusal, &table)),
    };
    files::write(output, &state)?;
    let on = words::resources(words::on_set(&state));
    let text = words::answer_line(answer);
    Ok(Report::done(format!(
        "{text}Every device is in D0 and not armed. On: {on}\n"
    )))
}

/// The version that an option asks for.
fn asked_version(help: &Help, args: &Args) -> Result<Option<Version>, Failure> {
    args.version().map_err(|message| usage(help, &message))
}

/// The refusal of a table.
fn refused(answer: Answer, table: &[u8]) -> Report {
    let why = refusals::of_table(answer, table);
    Report::refused(words::answer_line_with(answer, why.as_deref()))
}

/// That a good table does not fit into another version.
fn does_not_fit(answer: Answer, version: Version, table: &[u8]) -> Report {
    let why = refusals::too_many(version, table);
    Report::refused(words::answer_line_with(answer, Some(&why)))
}

/// Writes a table to its file.
fn save(path: &Path, answer: Answer, table: &[u8]) -> Outcome {
    files::write(path, table)?;
    Ok(done_with(answer, table))
}

/// What was done with a table, and how large it is.
fn done_with(answer: Answer, table: &[u8]) -> Report {
    Report::done(words::answer_line(answer) + &words::table_size(table))
}

/// What the planner made with this answer, or its refusal.
fn accepted<T>(answer: Answer, made: T) -> Result<(Answer, T), Answer> {
    match answer.is_done() {
        true => Ok((answer, made)),
        false => Err(answer),
    }
}

/// The fresh state of a table, or the refusal of the table.
fn fresh_state(table: &[u8]) -> Result<(Answer, Vec<u8>), Answer> {
    // A table without a version is refused whatever is lent.
    let length = Version::of_table(table).map_or(0, Version::state_bytes);
    let mut state = vec![0; length];
    let answer = backend::fresh(table, &mut state);
    accepted(answer, state)
}

/// The records of a station as two lists of bytes.
struct Lists {
    resources: Vec<u8>,
    devices: Vec<u8>,
}

/// The lists that a table describes, or the refusal of the table.
fn described(table: &[u8]) -> Result<(Answer, Lists), Answer> {
    // As many records as the header says. Without a header nothing is written.
    let number = |byte: usize| table.get(byte).copied().map_or(0, usize::from);
    let mut resources = vec![0; Resource::BYTES * number(3)];
    let mut devices = vec![0; Device::BYTES * number(6)];
    let answer = backend::describe(table, &mut resources, &mut devices);
    accepted(answer, Lists { resources, devices })
}

/// The table of two lists, or their refusal.
fn written(version: u32, lists: &Lists) -> Result<(Answer, Vec<u8>), Answer> {
    // Enough for both versions.
    let mut table = vec![0; Version::Two.max_table_bytes()];
    let answer = backend::write(version, &lists.resources, &lists.devices, &mut table);
    table.truncate(answer.bytes_written());
    accepted(answer, table)
}
