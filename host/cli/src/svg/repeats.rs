//! What a large drawing shows again, so that no part of it is far from the names.

use super::{text, Layout};
use crate::trace::{Row, Step};
use crate::words;

/// With more rows than this the calls stand below them again.
const MANY_ROWS: usize = 16;
/// In a drawing wider than this the resources are named again.
const WIDE: usize = 2000;
/// So far from a word of a row the next one is written without a change.
const FAR: usize = 1000;
/// The height of the texts of the calls.
const CALL_TEXTS: usize = 48;

/// What is shown again.
#[derive(Default)]
pub struct Repeats {
    /// Whether the resources are named along their rows and at the right edge.
    names: bool,
    /// The height of the texts of the calls below the rows, 0 if there are none.
    pub height: usize,
}

impl Repeats {
    /// That of a drawing with so many rows and so wide.
    pub fn of(rows: usize, width: usize) -> Self {
        Self {
            names: width > WIDE,
            height: if rows > MANY_ROWS { CALL_TEXTS } else { 0 },
        }
    }

    /// Whether a word is said again at this distance from the last one.
    pub fn is_far(&self, distance: usize) -> bool {
        self.names && distance >= FAR
    }

    /// A word in the row of a resource.
    pub fn named(&self, row: &Row, word: &str) -> String {
        match self.names {
            true => format!("r{} {word}", row.resource),
            false => word.into(),
        }
    }
}

/// Draws the name of a resource at the right edge.
pub fn draw_name(out: &mut String, layout: &Layout, y: usize, row: &Row) {
    if layout.repeats.names {
        let name = format!("r{}", row.resource);
        text(out, layout.after() + 16, y, "", &name);
    }
}

/// Draws the texts of a call above the rows, and below them where they end at
/// `bottom`.
pub fn draw_call_texts(out: &mut String, layout: &Layout, bottom: usize, i: usize, step: &Step) {
    let class = if step.own {
        "middle own-text"
    } else {
        "middle"
    };
    let (x, number) = (layout.edges[i], i.to_string());
    let (method, target) = words::short_call(step.call);
    let mut texts_from = |y: usize| {
        text(out, x, y, "small middle", &number);
        text(out, x, y + 15, class, &method);
        text(out, x, y + 30, "small middle", &target);
    };
    texts_from(layout.top - 42);
    if layout.repeats.height > 0 {
        texts_from(bottom + 15);
    }
}
