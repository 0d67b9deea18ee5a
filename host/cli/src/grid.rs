//! A trace as a grid of letters.

use std::fmt::Write;

use crate::trace::{Needed, Row, Step, Trace};
use crate::words;

/// How many calls stand beside each other.
const CALLS_ACROSS: usize = 12;
/// With more resources than this, those that stay as they are have no row.
const MANY_ROWS: usize = 16;
/// How long a line of names may be.
const WIDTH: usize = 100;

/// The calls of each part, and a grid with a row for each resource and a column for
/// each call.
pub fn draw(trace: &Trace) -> String {
    let parts: Vec<String> = (0..trace.parts.len())
        .map(|part| draw_part(trace, part))
        .collect();
    parts.join("\n") + &faults(trace)
}

fn draw_part(trace: &Trace, part: usize) -> String {
    let calls = trace.parts[part].calls.clone();
    let mut text = trace.parts[part].title();
    for i in calls.clone() {
        text += &call_line(i + 1, &trace.steps[i]);
    }
    // The first point is the start of the part; the others are after a call.
    let points: Vec<usize> = (calls.start..=calls.end).collect();
    let has_row = |row: &&Row| trace.rows.len() <= MANY_ROWS || !stays(row, &points);
    let (rows, others): (Vec<&Row>, Vec<&Row>) = trace.rows.iter().partition(has_row);
    if others.is_empty() || !rows.is_empty() {
        for points in points.chunks(CALLS_ACROSS + 1) {
            text += &block(trace, part, points, &rows);
        }
    }
    let (on, off): (Vec<&Row>, Vec<&Row>) = others.iter().partition(|row| row.on[points[0]]);
    text + &throughout("on", &on) + &throughout("off", &off)
}

/// Whether a resource is as it is at all these points, and not off where it must be
/// on.
fn stays(row: &Row, points: &[usize]) -> bool {
    let first = row.on[points[0]];
    let stays_at = |&point: &usize| row.on[point] == first && !row.fails_at(point);
    points.iter().all(stays_at)
}

/// The resources that stay on or off in a part, in lines.
fn throughout(word: &str, rows: &[&Row]) -> String {
    if rows.is_empty() {
        return String::new();
    }
    let names = words::names(rows.iter().map(|row| row.resource));
    let text = format!("{word} throughout: {names}");
    words::wrap(&text, WIDTH).join("\n  ") + "\n"
}

/// What went wrong, a line each.
pub fn faults(trace: &Trace) -> String {
    let faults = trace.faults.iter();
    faults.map(|fault| format!("Fault: {fault}\n")).collect()
}

fn call_line(number: usize, step: &Step) -> String {
    let own = if step.own { ", own call" } else { "" };
    format!("{}{own}\n", words::call_line(number, step.bytes))
}

fn block(trace: &Trace, part: usize, points: &[usize], rows: &[&Row]) -> String {
    let mut text = String::from("\nresource  order  needed      ");
    for &point in points {
        let title = match point == trace.parts[part].calls.start {
            true => "start".into(),
            false => point.to_string(),
        };
        let _ = write!(text, "{title:>6}");
    }
    text += "\n";
    if rows.is_empty() {
        text += "(the table has no resources)\n";
    }
    for row in rows {
        text += &grid_line(row, needed(row.needed[part]), points);
    }
    text
}

fn grid_line(row: &Row, needed: &str, points: &[usize]) -> String {
    let name = format!("r{}", row.resource);
    let mut text = format!("{name:<8}  {:>5}  {needed:<12}", row.order);
    for &point in points {
        let on = if row.on[point] { "on" } else { "off" };
        let mark = if row.fails_at(point) { "!" } else { "" };
        let _ = write!(text, "{:>6}", format!("{mark}{on}"));
    }
    text + "\n"
}

/// When a resource is needed.
fn needed(needed: Needed) -> &'static str {
    match (needed.before, needed.after) {
        (true, true) => "before+after",
        (true, false) => "before",
        (false, true) => "after",
        (false, false) => "-",
    }
}
