//! A directory with the bench station, and the command run in it.

use std::ffi::OsStr;
use std::fs;
use std::path::{Path, PathBuf};
use std::process::Command;

use cases::sweep::bench_station;
use reference::Version;

/// A directory of its own for each test.
pub struct Desk {
    directory: PathBuf,
}

/// What a run of the command gave.
#[derive(Debug)]
pub struct Run {
    pub status: i32,
    pub output: String,
    pub error: String,
}

impl Desk {
    /// A directory with `table`, the bench station, and `state`, its fresh state.
    pub fn new(name: &str) -> Self {
        let directory = Path::new(env!("CARGO_TARGET_TMPDIR")).join(name);
        let _ = fs::remove_dir_all(&directory);
        fs::create_dir_all(&directory).expect("a directory for the test");
        let desk = Self { directory };
        desk.write("table", &bench_station().table(Version::One));
        let mut state = [0; 132];
        state[128] = 0b111;
        desk.write("state", &state);
        desk
    }

    /// As `new`, with the lamp in D3cold.
    pub fn with_dark_lamp(name: &str) -> Self {
        let desk = Self::new(name);
        let mut state = desk.read("state");
        state[8] = 4;
        desk.write("state", &state);
        desk
    }

    pub fn write(&self, name: &str, bytes: &[u8]) {
        fs::write(self.directory.join(name), bytes).expect("a file for the test");
    }

    pub fn read(&self, name: &str) -> Vec<u8> {
        fs::read(self.directory.join(name)).expect("a file of the test")
    }

    pub fn has(&self, name: &str) -> bool {
        self.directory.join(name).exists()
    }

    pub fn remove(&self, name: &str) {
        fs::remove_file(self.directory.join(name)).expect("a file of the test");
    }

    /// The names of all files.
    pub fn files(&self) -> Vec<String> {
        let entries = fs::read_dir(&self.directory).expect("the directory of the test");
        let name = |entry: fs::DirEntry| entry.file_name().to_string_lossy().into_owned();
        let mut names: Vec<String> = entries.map(|entry| name(entry.unwrap())).collect();
        names.sort_unstable();
        names
    }

    /// Runs the command with words separated by spaces.
    pub fn run(&self, line: &str) -> Run {
        self.run_words(line.split_whitespace())
    }

    /// Each line fails with its message.
    pub fn each_fails<const N: usize>(&self, lines: [(&str, &str); N]) {
        for (line, message) in lines {
            self.run(line).failed(message);
        }
    }

    pub fn run_words<S: AsRef<OsStr>>(&self, words: impl IntoIterator<Item = S>) -> Run {
        let output = Command::new(env!("CARGO_BIN_EXE_sailgarnet"))
            .args(words)
            .current_dir(&self.directory)
            .output()
            .expect("the command runs");
        Run {
            status: output.status.code().expect("an exit status"),
            output: String::from_utf8(output.stdout).expect("text"),
            error: String::from_utf8(output.stderr).expect("text"),
        }
    }
}

impl Run {
    /// Done: status 0, and nothing on standard error.
    pub fn done(self) -> String {
        assert_eq!(self.status, 0, "{self:?}");
        assert_eq!(self.error, "");
        self.output
    }

    /// Refused: status 1, the answer on standard output.
    pub fn refused(self, number: u8) -> String {
        assert_eq!(self.status, 1, "{self:?}");
        assert_eq!(self.error, "");
        let answer = format!("Answer {number}, ");
        assert!(self.output.contains(&answer), "{self:?}");
        self.output
    }

    /// A mistake in a text: status 2, this line on standard error.
    pub fn mistaken(self, line: &str) {
        assert_eq!(self.status, 2, "{self:?}");
        assert_eq!(self.output, "");
        assert_eq!(self.error, format!("{line}\n"));
    }

    /// Failed: status 2, a message with these words on standard error.
    pub fn failed(self, message: &str) {
        assert_eq!(self.status, 2, "{self:?}");
        assert_eq!(self.output, "");
        assert!(self.error.starts_with("sailgarnet: "), "{self:?}");
        assert!(self.error.contains(message), "{self:?}");
    }
}

/// Checks that every element of a drawing is closed.
pub fn is_well_formed(drawing: &str) {
    let mut open = Vec::new();
    for part in drawing.split('<').skip(1) {
        let (tag, _) = part.split_once('>').expect("a tag ends");
        let name = tag.split_whitespace().next().expect("a tag has a name");
        match name.strip_prefix('/') {
            Some(name) => assert_eq!(open.pop(), Some(name)),
            None if tag.ends_with('/') => {}
            None => open.push(name),
        }
    }
    assert_eq!(open, [""; 0]);
}

/// The value of an attribute in a tag of a drawing.
fn attribute<'a>(tag: &'a str, name: &str) -> &'a str {
    let (_, rest) = tag
        .split_once(&format!(" {name}=\""))
        .expect("an attribute");
    rest.split('"').next().unwrap_or(rest)
}

/// The letters of a text in a drawing and where it stands: left, top, right and
/// bottom. A letter is about 0.55 of its size wide.
fn placed<'a>(tag: &'a str, letters: &'a str) -> (&'a str, [f64; 4]) {
    let number = |name| attribute(tag, name).parse::<f64>().expect("a number");
    let class = attribute(tag, "class");
    let size = match class {
        "title" => 17.0,
        _ if class.contains("small") => 11.0,
        _ => 13.0,
    };
    let width = 0.55 * size * letters.chars().count() as f64;
    let left = match class.contains("middle") {
        true => number("x") - width / 2.0,
        false => number("x"),
    };
    let bottom = number("y") + 0.2 * size;
    (letters, [left, bottom - size, left + width, bottom])
}

/// Checks that no text of a drawing covers another, and that all are within it.
pub fn texts_are_apart(drawing: &str) {
    let tags = drawing.split("<text").skip(1);
    let texts: Vec<_> = tags
        .map(|text| {
            let (tag, rest) = text.split_once('>').expect("a tag ends");
            placed(tag, rest.split('<').next().unwrap_or(rest))
        })
        .collect();
    let (svg, _) = drawing.split_once('>').expect("a tag ends");
    let size = |name| attribute(svg, name).parse::<f64>().expect("a number");
    let (width, height) = (size("width"), size("height"));
    for (i, (letters, [left, top, right, bottom])) in texts.iter().enumerate() {
        let inside = *left >= 0.0 && *right <= width && *top >= 0.0 && *bottom <= height;
        assert!(inside, "{letters} is outside");
        for (others, [x1, y1, x2, y2]) in &texts[i + 1..] {
            let apart = right <= x1 || x2 <= left || bottom <= y1 || y2 <= top;
            assert!(apart, "{letters} and {others} cover each other");
        }
    }
}
