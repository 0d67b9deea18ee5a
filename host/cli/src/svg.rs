//! A trace as a timing diagram.

mod bands;
mod repeats;

use std::fmt::Write;
use std::ops::Range;

use sailgarnet::Answer;

use self::bands::Extras;
use self::repeats::Repeats;
use crate::subject::Task;
use crate::trace::{Part, Row, Step, Trace};
use crate::words;

/// Left edge of the drawing of the resources; names stand before it.
const LEFT: usize = 210;
/// The width around a call, and of the start and the end together.
const COLUMN: usize = 84;
/// The space after the last point, for the mark of need.
const RIGHT: usize = 110;
const ROW: usize = 40;
/// How far a line for off is below one for on.
const SWING: usize = 20;
const LINE: usize = 20;
/// How far the methods of the calls stand above the first row.
const METHODS: usize = 27;
const LEAST_WIDTH: usize = 640;

const STYLE: &str = "\
text { font: 13px system-ui, sans-serif; fill: #222 }
.title { font-size: 17px; font-weight: 600 }
.small { font-size: 11px; fill: #555 }
.middle { text-anchor: middle }
.call { stroke: #777; stroke-dasharray: 3 3 }
.own { stroke: #b35c00; stroke-width: 3 }
.own-text { fill: #b35c00; font-weight: 600 }
.rule { stroke: #e4e4e4 }
.on { fill: #d5e6f5 }
.level { fill: none; stroke: #1c5a91; stroke-width: 2 }
.needed { fill: #2b7a3d }
.free { fill: none; stroke: #555 }
.fault { fill: #f6c9c4; stroke: #b3261e }
.fault-text { fill: #b3261e }
";

/// What the signs mean. No sign is told from another by its colour alone.
const LEGEND: [&str; 2] = [
    "High line: on. Low line: off. Full circle: needed by some device. Empty circle: not needed.",
    "Thick line: the device's own call. The mark !: off, though needed before and after.",
];

/// Where the parts of a drawing are.
struct Layout {
    width: usize,
    height: usize,
    /// The top of the first row.
    top: usize,
    /// The left edge of each point in time, and the right edge of the last.
    edges: Vec<usize>,
    /// From where to where each part goes.
    spans: Vec<Range<usize>>,
    /// What there is for bands.
    bands: Extras,
    /// What is shown again.
    repeats: Repeats,
    /// The lines of text at the top.
    heading: Vec<String>,
    /// The lines of text about faults, at the bottom.
    faults: Vec<String>,
}

impl Layout {
    fn of(trace: &Trace, answer: Answer) -> Self {
        let (edges, spans) = columns(&trace.parts);
        let width = (edges[edges.len() - 1] + RIGHT).max(LEAST_WIDTH);
        // A letter is about 7 wide.
        let lines = |text: &str| words::wrap(text, (width - 40) / 7);
        let heading = lines(words::answer_line(answer).trim_end());
        let faults = trace.faults.iter();
        let faults: Vec<String> = faults
            .flat_map(|fault| lines(&format!("Fault: {fault}")))
            .collect();
        let bands = Extras::of(trace);
        let top = 60 + LINE * heading.len() + 60 + bands.height;
        let lines = faults.len() + LEGEND.len() + bands.legend.iter().len();
        let rows = trace.rows.len().max(1);
        let repeats = Repeats::of(rows, width);
        let height = top + ROW * rows + repeats.height + LINE * (lines + 1);
        Self {
            width,
            height,
            top,
            edges,
            spans,
            bands,
            repeats,
            heading,
            faults,
        }
    }

    fn row_top(&self, row: usize) -> usize {
        self.top + ROW * row
    }

    /// The middle of the marks of need after the last point.
    fn after(&self) -> usize {
        self.edges[self.edges.len() - 1] + 50
    }
}

/// The edges of the points in time, and from where to where each part goes. Its
/// calls are spread over a part.
fn columns(parts: &[Part]) -> (Vec<usize>, Vec<Range<usize>>) {
    let (mut edges, mut spans) = (vec![LEFT], Vec::new());
    let mut x = LEFT + COLUMN / 2;
    for part in parts {
        let calls = part.calls.len();
        let width = (COLUMN * calls).max(bands::width(part));
        edges.extend((0..calls).map(|i| x + width * (2 * i + 1) / (2 * calls)));
        spans.push(x..x + width);
        x += width;
    }
    edges.push(x + COLUMN / 2);
    (edges, spans)
}

/// Where the line of a resource that is off runs, in a row with this top.
fn base(top: usize) -> usize {
    top + ROW - 8
}

/// A trace as a drawing that a browser opens.
pub fn draw(trace: &Trace, task: Task, answer: Answer) -> String {
    let layout = Layout::of(trace, answer);
    let Layout { width, height, .. } = layout;
    let style_of_bands = layout.bands.style;
    let mut out = format!(
        "<svg xmlns=\"http://www.w3.org/2000/svg\" width=\"{width}\" height=\"{height}\" \
         viewBox=\"0 0 {width} {height}\">\n<title>{}</title>\n\
         <style>\n{STYLE}{style_of_bands}</style>\n\
         <rect width=\"{width}\" height=\"{height}\" fill=\"#fff\"/>\n",
        escape(&task.to_string())
    );
    draw_heading(&mut out, &layout, task);
    bands::draw(&mut out, &layout, trace);
    draw_column_titles(&mut out, &layout);
    for (r, row) in trace.rows.iter().enumerate() {
        draw_row(&mut out, &layout, layout.row_top(r), row);
        bands::draw_bars(&mut out, &layout, trace, r);
    }
    if trace.rows.is_empty() {
        let y = layout.top + ROW / 2;
        text(&mut out, 20, y, "", "The table has no resources.");
    }
    for (i, step) in trace.steps.iter().enumerate() {
        draw_call(&mut out, &layout, trace.rows.len(), i + 1, step);
    }
    // After the calls, so that no call's line hides a change.
    for (r, row) in trace.rows.iter().enumerate() {
        draw_level(&mut out, &layout, base(layout.row_top(r)), row);
    }
    draw_legend(&mut out, &layout, trace);
    out + "</svg>\n"
}

fn draw_heading(out: &mut String, layout: &Layout, task: Task) {
    text(out, 20, 32, "title", &task.heading());
    for (i, line) in layout.heading.iter().enumerate() {
        text(out, 20, 58 + LINE * i, "", line);
    }
}

fn draw_column_titles(out: &mut String, layout: &Layout) {
    let y = layout.top - 10;
    text(out, 20, y, "small", "resource");
    text(out, LEFT - 60, y - 14, "small middle", "needed");
    text(out, LEFT - 60, y, "small middle", "before");
    text(out, LEFT + COLUMN / 2 - 10, y, "small middle", "start");
}

fn draw_call(out: &mut String, layout: &Layout, rows: usize, number: usize, step: &Step) {
    let x = layout.edges[number];
    let (top, bottom) = (layout.top - 6, layout.row_top(rows.max(1)));
    let line = if step.own { "own" } else { "call" };
    let _ = writeln!(
        out,
        "<line class=\"{line}\" x1=\"{x}\" y1=\"{top}\" x2=\"{x}\" y2=\"{bottom}\"/>"
    );
    repeats::draw_call_texts(out, layout, bottom, number, step);
}

fn draw_row(out: &mut String, layout: &Layout, top: usize, row: &Row) {
    let base = base(top);
    let needed = row.needed_overall();
    let _ = writeln!(
        out,
        "<line class=\"rule\" x1=\"20\" y1=\"{y}\" x2=\"{x2}\" y2=\"{y}\"/>",
        y = top + ROW,
        x2 = layout.width - 20
    );
    let name = format!("r{}", row.resource);
    text(out, 20, base - 6, "", &name);
    let order = format!("order {}", row.order);
    text(out, 52, base - 6, "small", &order);
    draw_need(out, LEFT - 60, base - 10, needed.before);
    draw_need(out, layout.after(), base - 10, needed.after);
    repeats::draw_name(out, layout, base - 6, row);
    draw_areas(out, layout, base, row);
}

/// A full circle for needed, an empty one for not needed.
fn draw_need(out: &mut String, x: usize, y: usize, needed: bool) {
    let class = if needed { "needed" } else { "free" };
    let _ = writeln!(
        out,
        "<circle class=\"{class}\" cx=\"{x}\" cy=\"{y}\" r=\"5\"/>"
    );
}

/// Areas for the points at which the resource is on, or off though needed.
fn draw_areas(out: &mut String, layout: &Layout, base: usize, row: &Row) {
    for (point, &on) in row.on.iter().enumerate() {
        let class = match (on, row.fails_at(point)) {
            (true, _) => "on",
            (false, true) => "fault",
            (false, false) => continue,
        };
        let (x, end) = (layout.edges[point], layout.edges[point + 1]);
        let _ = writeln!(
            out,
            "<rect class=\"{class}\" x=\"{x}\" y=\"{}\" width=\"{}\" height=\"{SWING}\"/>",
            base - SWING,
            end - x
        );
    }
}

/// The line that is high for on and low for off, with a word at the start and
/// after each change, and again where a large drawing repeats it.
fn draw_level(out: &mut String, layout: &Layout, base: usize, row: &Row) {
    let edges = &layout.edges;
    let level = |on: bool| if on { base - SWING } else { base };
    let mut path = format!("M{LEFT} {}", level(row.on[0]));
    for (&on, end) in row.on.iter().zip(&edges[1..]) {
        let _ = write!(path, "V{}H{end}", level(on));
    }
    let _ = writeln!(out, "<path class=\"level\" d=\"{path}\"/>");
    let mut last = LEFT;
    for (point, &on) in row.on.iter().enumerate() {
        let x = edges[point];
        let is_said = point > 0 && row.on[point - 1] == on;
        let word = match (on, row.fails_at(point)) {
            (_, true) => "! off",
            _ if is_said && !layout.repeats.is_far(x - last) => continue,
            (true, _) => "on",
            (false, _) => "off",
        };
        last = x;
        let word = layout.repeats.named(row, word);
        text(out, x + 7, base - 6, "small", &word);
    }
}

fn draw_legend(out: &mut String, layout: &Layout, trace: &Trace) {
    let after = layout.after();
    text(out, after, layout.top - 24, "small middle", "needed");
    text(out, after, layout.top - 10, "small middle", "after");
    let mut y = layout.row_top(trace.rows.len().max(1)) + layout.repeats.height + 26;
    for line in LEGEND.into_iter().chain(layout.bands.legend) {
        text(out, 20, y, "small", line);
        y += LINE;
    }
    for line in &layout.faults {
        text(out, 20, y, "fault-text", line);
        y += LINE;
    }
}

fn text(out: &mut String, x: usize, y: usize, class: &str, content: &str) {
    let content = escape(content);
    let _ = writeln!(
        out,
        "<text x=\"{x}\" y=\"{y}\" class=\"{class}\">{content}</text>"
    );
}

fn escape(content: &str) -> String {
    content
        .replace('&', "&amp;")
        .replace('<', "&lt;")
        .replace('>', "&gt;")
}
