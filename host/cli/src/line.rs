//! The words of a text, and where they stand.

use std::fmt;
use std::str::FromStr;

use crate::words::{number, quoted};

/// A mistake in a text. Lines and columns count from 1, columns in characters, of
/// which a tab is one.
#[derive(Debug, PartialEq, Eq)]
pub struct Mistake {
    line: usize,
    column: usize,
    message: String,
}

impl Mistake {
    /// A mistake of the text as a whole.
    pub fn at_start(message: impl Into<String>) -> Self {
        Self {
            line: 1,
            column: 1,
            message: message.into(),
        }
    }
}

impl fmt::Display for Mistake {
    fn fmt(&self, f: &mut fmt::Formatter) -> fmt::Result {
        write!(f, "{}:{}: {}", self.line, self.column, self.message)
    }
}

/// The characters of a file, if they are UTF-8. A byte order mark is passed over.
pub fn characters(bytes: &[u8]) -> Result<&str, Mistake> {
    let text = std::str::from_utf8(bytes).map_err(|error| {
        let before = String::from_utf8_lossy(&bytes[..error.valid_up_to()]);
        let last_line = before.rsplit('\n').next().unwrap_or(&before);
        Mistake {
            line: before.split('\n').count(),
            column: last_line.chars().count() + 1,
            message: "the file is not text in UTF-8".into(),
        }
    })?;
    Ok(text.strip_prefix('\u{feff}').unwrap_or(text))
}

/// A word of a text.
#[derive(Clone, Copy)]
pub struct Word<'a> {
    /// Its letters.
    pub text: &'a str,
    line: usize,
    column: usize,
}

impl Word<'_> {
    /// A mistake at this word.
    pub fn mistake(self, message: impl Into<String>) -> Mistake {
        Mistake {
            line: self.line,
            column: self.column,
            message: message.into(),
        }
    }

    /// Its letters in quotes, for a message.
    pub fn quoted(self) -> String {
        quoted(self.text)
    }

    /// The number that it says.
    pub fn number<T: FromStr>(self) -> Option<T> {
        number(self.text)
    }

    /// The line in which it stands.
    pub fn line(self) -> usize {
        self.line
    }

    /// Whether it is this word, in capitals or not.
    pub fn is(self, word: &str) -> bool {
        self.text.eq_ignore_ascii_case(word)
    }

    /// Which of these words it is, in capitals or not.
    pub fn place_in(self, words: &[&str]) -> Option<usize> {
        words.iter().position(|word| self.is(word))
    }

    /// Checks that it can be a name.
    pub fn must_be_name(self) -> Result<(), Mistake> {
        let allowed = |c: char| c.is_alphanumeric() || "_-.".contains(c);
        if self.text.chars().all(allowed) {
            return Ok(());
        }
        Err(self.mistake(format!(
            "{} is no name; a name has only letters, digits, _ - and .",
            self.quoted()
        )))
    }
}

/// What stands between words.
const SEPARATORS: [char; 2] = [' ', '\t'];

/// A line of a text that has words.
pub struct Line<'a> {
    /// Its first word.
    pub first: Word<'a>,
    /// The words after it.
    pub rest: Rest<'a>,
}

/// The lines of a text that have words. A comment has none.
pub fn lines(text: &str) -> impl Iterator<Item = Line<'_>> {
    (1..).zip(text.lines()).filter_map(|(number, line)| {
        let words = line.split('#').next().unwrap_or(line);
        let mut rest = Rest {
            line: number,
            column: 1,
            text: words.trim_end_matches(SEPARATORS),
        };
        let first = rest.take()?;
        Some(Line { first, rest })
    })
}

/// The words of a line that are not taken yet.
pub struct Rest<'a> {
    line: usize,
    /// The column at which `text` begins.
    column: usize,
    text: &'a str,
}

impl<'a> Rest<'a> {
    /// Takes the next word.
    pub fn take(&mut self) -> Option<Word<'a>> {
        let start = self.text.trim_start_matches(SEPARATORS);
        let spaces = self.text[..self.text.len() - start.len()].chars().count();
        let end = start.find(SEPARATORS).unwrap_or(start.len());
        let (text, rest) = start.split_at(end);
        let column = self.column + spaces;
        (self.text, self.column) = (rest, column + text.chars().count());
        (!text.is_empty()).then_some(Word {
            text,
            line: self.line,
            column,
        })
    }

    /// Takes the next word, which must be there.
    pub fn expect(&mut self, what: &str) -> Result<Word<'a>, Mistake> {
        self.take().ok_or_else(|| Mistake {
            line: self.line,
            column: self.column,
            message: format!("{what} is missing here"),
        })
    }

    /// Takes the next word, which must be this one.
    pub fn expect_word(&mut self, word: &str) -> Result<(), Mistake> {
        let found = self.expect(&format!("the word {word}"))?;
        if found.is(word) {
            return Ok(());
        }
        let message = format!("the word {word} is expected here, not {}", found.quoted());
        Err(found.mistake(message))
    }

    /// Checks that all words are taken.
    pub fn end(&mut self) -> Result<(), Mistake> {
        match self.take() {
            Some(word) => Err(word.mistake(format!("unexpected word {}", word.quoted()))),
            None => Ok(()),
        }
    }
}
