//! Bands: the labelled parts of a trace, behind their calls.

use std::fmt::Write;

use super::{base, text, Layout, METHODS};
use crate::trace::{Part, Trace};

/// The height of the labels above the calls.
const HEIGHT: usize = 24;
/// The height of the texts of a call, between the labels and the first row.
const CALL_TEXTS: usize = 52;
/// The space at each side of a band.
const GAP: usize = 6;
/// The space at each side of a label within its band.
const MARGIN: usize = 10;

const STYLE: &str = "\
.band { fill: #f6f3ec; stroke: #8a7f66 }
.kept { stroke: #2b7a3d; stroke-width: 3 }
";

const LEGEND: &str = "Band: a move and its calls. Bar below a line: needed before and after \
                      the move, so it stays on.";

/// What a drawing has for its bands alone.
#[derive(Default)]
pub struct Extras {
    /// The style of their signs.
    pub style: &'static str,
    /// What the signs mean.
    pub legend: Option<&'static str>,
    /// The height of the labels.
    pub height: usize,
}

impl Extras {
    /// Those of a trace. Without a labelled part there are none.
    pub fn of(trace: &Trace) -> Self {
        if trace.parts.iter().all(|part| part.label.is_none()) {
            return Self::default();
        }
        Self {
            style: STYLE,
            legend: Some(LEGEND),
            height: HEIGHT,
        }
    }
}

/// The width that the label of a part takes.
pub fn width(part: &Part) -> usize {
    let label = part.label.as_ref();
    // A small letter is about 6 wide.
    label.map_or(0, |label| 6 * label.len() + 2 * (GAP + MARGIN))
}

/// Draws the band of each labelled part.
pub fn draw(out: &mut String, layout: &Layout, trace: &Trace) {
    let bottom = layout.row_top(trace.rows.len().max(1));
    let top = layout.top - HEIGHT - CALL_TEXTS;
    for (part, span) in trace.parts.iter().zip(&layout.spans) {
        let Some(label) = &part.label else {
            continue;
        };
        let _ = writeln!(
            out,
            "<rect class=\"band\" x=\"{}\" y=\"{top}\" width=\"{}\" height=\"{}\" rx=\"4\"/>",
            span.start + GAP,
            span.len() - 2 * GAP,
            bottom - top
        );
        let middle = (span.start + span.end) / 2;
        text(out, middle, top + 16, "small middle", label);
        if part.calls.is_empty() {
            text(
                out,
                middle,
                layout.top - METHODS,
                "small middle",
                "no calls",
            );
        }
    }
}

/// Draws a bar for each labelled part that a row must stay on in.
pub fn draw_bars(out: &mut String, layout: &Layout, trace: &Trace, row: usize) {
    let y = base(layout.row_top(row)) + 4;
    let spans = trace.parts.iter().zip(&layout.spans);
    for ((part, span), needed) in spans.zip(&trace.rows[row].needed) {
        if part.label.is_some() && needed.throughout() {
            let (x1, x2) = (span.start + GAP, span.end - GAP);
            let _ = writeln!(
                out,
                "<line class=\"kept\" x1=\"{x1}\" y1=\"{y}\" x2=\"{x2}\" y2=\"{y}\"/>"
            );
        }
    }
}
