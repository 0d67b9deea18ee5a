//! The subcommands.

use std::ffi::OsString;
use std::path::Path;

use sailgarnet::Verdict;

use crate::args::{Args, ON, VERSION};
use crate::help::{self, Help};
use crate::subject::Subject;
use crate::{backend, demo, files, grid, svg, tables, words, Failure, Report};

/// What a subcommand gives.
pub type Outcome = Result<Report, Failure>;

/// Runs the command line.
pub fn run(line: Vec<OsString>) -> Outcome {
    let Some((name, rest)) = line.split_first() else {
        return Err(Failure::new(format!(
            "a subcommand is missing\n\n{}",
            help::overview()
        )));
    };
    match name.to_string_lossy().as_ref() {
        "show" => with_args(&help::SHOW, rest, &[], tables::show),
        "describe" => with_args(&help::DESCRIBE, rest, &["-o"], tables::describe),
        "write" => with_args(&help::WRITE, rest, &[VERSION, "-o"], tables::write),
        "convert" => with_args(&help::CONVERT, rest, &[VERSION, "-o"], tables::convert),
        "fresh" => with_args(&help::FRESH, rest, &["-o"], tables::fresh),
        "plan" => with_args(&help::PLAN, rest, &["-o", "--list"], plan_list),
        "check" => with_args(&help::CHECK, rest, &[], check_list),
        "trace" => with_args(&help::TRACE, rest, &["--svg"], trace_list),
        "bring-up" => with_args(
            &help::BRING_UP,
            rest,
            &[ON, "-o", "--list", "--svg"],
            plan_list,
        ),
        "check-bring-up" => with_args(&help::CHECK_BRING_UP, rest, &[ON], check_list),
        "demo" => with_args(&help::DEMO, rest, &[], run_demo),
        "-h" | "--help" | "help" => Ok(Report::done(help::overview())),
        "-V" | "--version" => Ok(Report::done(version())),
        other => Err(Failure::new(format!(
            "there is no subcommand {other:?}; try: sailgarnet --help"
        ))),
    }
}

fn version() -> String {
    let version = env!("CARGO_PKG_VERSION");
    format!("sailgarnet {version}\nplanner: {}\n", backend::NAME)
}

fn with_args(
    help: &Help,
    words: &[OsString],
    options: &[&'static str],
    run: fn(&Help, &Args) -> Outcome,
) -> Outcome {
    let args = Args::parse(words, options).map_err(|message| usage(help, &message))?;
    if args.help {
        return Ok(Report::done(help.page()));
    }
    run(help, &args)
}

/// What is wrong with the words after a subcommand, and how it is used.
pub fn usage(help: &Help, message: &str) -> Failure {
    Failure::new(format!(
        "{message}\nUsage: {}\nMore with: sailgarnet {} --help",
        help.usage_line(),
        help.name
    ))
}

/// The operands, if there is exactly one for each name.
pub fn exactly<'a, const N: usize>(
    help: &Help,
    operands: &'a [OsString],
    names: [&str; N],
) -> Result<&'a [OsString; N], Failure> {
    operands.try_into().map_err(|_| {
        let message = match (names.get(operands.len()), operands.get(N)) {
            (Some(name), _) => format!("{name} is missing"),
            (None, Some(operand)) => {
                format!("unexpected operand {}", operand.to_string_lossy())
            }
            (None, None) => "wrong operands".into(),
        };
        usage(help, &message)
    })
}

/// The planner and the reference differ, which must not happen.
pub fn disagreement(refusal: reference::Answer) -> Failure {
    Failure::new(format!(
        "the planner accepted what the reference refuses with {}; please report this",
        refusal.number
    ))
}

/// The file to write, which must be named.
pub fn output<'a>(help: &Help, args: &'a Args, name: &str) -> Result<&'a Path, Failure> {
    let path = args.option("-o");
    path.ok_or_else(|| usage(help, &format!("-o {name} is missing")))
}

fn plan_list(help: &Help, args: &Args) -> Outcome {
    let (subject, rest) = Subject::read(help, args)?;
    let [] = exactly(help, rest, [])?;
    let [state_output, list_output, svg_output] = ["-o", "--list", "--svg"].map(|o| args.option(o));
    let (table_path, state_path) = (Some(subject.table_path), Some(subject.state_path));
    files::must_keep(state_output, &[table_path])?;
    files::must_keep(list_output, &[table_path, state_path, state_output])?;
    let others = [table_path, state_path, state_output, list_output];
    files::must_keep(svg_output, &others)?;

    let (answer, list, state) = subject.plan();
    if !answer.is_done() {
        return Ok(subject.refusal(answer));
    }
    let calls = subject.call_lines(&list)?;
    if let Some(path) = svg_output {
        let trace = subject.trace(&list)?;
        files::write(path, svg::draw(&trace, subject.task, answer).as_bytes())?;
    }
    if let Some(path) = list_output {
        files::write(path, &list)?;
    }
    if let Some(path) = state_output {
        files::write(path, &state)?;
    }
    Ok(Report::done(format!(
        "{}\n{}{}{calls}On afterwards: {}\n",
        subject.task.heading(),
        words::answer_line(answer),
        subject.on_at_the_start(),
        words::resources(words::on_set(&state)),
    )))
}

fn check_list(help: &Help, args: &Args) -> Outcome {
    let (subject, rest) = Subject::read(help, args)?;
    let [list] = exactly(help, rest, ["LIST"])?;
    let list = files::read(Path::new(list))?;
    let answer = subject.check(&list);
    let line = words::answer_line(answer);
    Ok(match answer.verdict() {
        Some(Verdict::Done) => {
            let (calls, noun) = (words::count(list.len() / 4, "call"), subject.task.noun());
            Report::done(format!(
                "{line}The list of {calls} conforms to the {noun}.\n"
            ))
        }
        Some(Verdict::NotConforming) => {
            let trace = subject.trace(&list)?;
            let faults = subject.on_at_the_start() + &grid::faults(&trace);
            Report::refused(line + &faults + &subject.planned_instead(answer))
        }
        _ => subject.refusal(answer),
    })
}

fn trace_list(help: &Help, args: &Args) -> Outcome {
    let (subject, rest) = Subject::read(help, args)?;
    let list_path = match rest {
        [] => None,
        rest => {
            let [path] = exactly(help, rest, ["LIST"])?;
            Some(Path::new(path))
        }
    };
    let svg_output = args.option("--svg");
    let (table_path, state_path) = (Some(subject.table_path), Some(subject.state_path));
    files::must_keep(svg_output, &[table_path, state_path, list_path])?;
    let (answer, list) = subject.answered_list(list_path)?;
    // If the request itself is refused, there is nothing to trace.
    let Some(Verdict::Done | Verdict::NotConforming) = answer.verdict() else {
        return Ok(subject.refusal(answer));
    };
    let trace = subject.trace(&list)?;
    if let Some(path) = svg_output {
        files::write(path, svg::draw(&trace, subject.task, answer).as_bytes())?;
    }
    Ok(Report {
        text: format!(
            "{}\n{}{}{}",
            subject.task.heading(),
            words::answer_line(answer),
            grid::draw(&trace),
            subject.planned_instead(answer),
        ),
        refused: !answer.is_done(),
    })
}

fn run_demo(help: &Help, args: &Args) -> Outcome {
    let [] = exactly(help, &args.operands, [])?;
    Ok(Report::done(demo::text()))
}
