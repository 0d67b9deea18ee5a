//! Operands and options of a subcommand.

use std::ffi::{OsStr, OsString};
use std::path::Path;

use sailgarnet::Version;

use crate::words::{number, quoted};

/// The option that names the resources that are on.
pub const ON: &str = "--on";
/// The option that names the version of a table. The others name a file.
pub const VERSION: &str = "--version";

/// The words after a subcommand, sorted out.
#[derive(Default)]
pub struct Args {
    /// The words that belong to no option.
    pub operands: Vec<OsString>,
    /// Whether help is asked for.
    pub help: bool,
    options: Vec<(&'static str, OsString)>,
}

impl Args {
    /// Sorts words into operands and the options that are `known`, each of
    /// which has a value.
    pub fn parse(words: &[OsString], known: &[&'static str]) -> Result<Self, String> {
        let mut args = Self::default();
        let mut words = words.iter();
        while let Some(word) = words.next() {
            let text = word.to_string_lossy();
            if text == "--" {
                args.operands.extend(words.by_ref().cloned());
            } else if text == "-h" || text == "--help" {
                args.help = true;
            } else if text.len() > 1 && text.starts_with('-') {
                args.add_option(word, &mut words, known)?;
            } else {
                args.operands.push(word.clone());
            }
        }
        Ok(args)
    }

    fn add_option<'a>(
        &mut self,
        word: &OsStr,
        rest: &mut impl Iterator<Item = &'a OsString>,
        known: &[&'static str],
    ) -> Result<(), String> {
        let found = known.iter().find(|name| word == **name);
        let &name = found.ok_or_else(|| format!("unknown option {}", word.to_string_lossy()))?;
        if self.value(name).is_some() {
            return Err(format!("{name} is given twice"));
        }
        let what = match name {
            ON => "resources",
            VERSION => "1 or 2",
            _ => "a file",
        };
        let value = rest.next().ok_or_else(|| format!("{name} needs {what}"))?;
        self.options.push((name, value.clone()));
        Ok(())
    }

    /// The word after an option.
    pub fn value(&self, name: &str) -> Option<&OsStr> {
        let found = self.options.iter().find(|(option, _)| *option == name);
        found.map(|(_, value)| value.as_os_str())
    }

    /// The version that is asked for, if one is.
    pub fn version(&self) -> Result<Option<Version>, String> {
        let Some(word) = self.value(VERSION).map(OsStr::to_string_lossy) else {
            return Ok(None);
        };
        let version = number(&word).and_then(Version::from_number);
        let unknown = || format!("{VERSION} is 1 or 2, not {}", quoted(&word));
        version.map(Some).ok_or_else(unknown)
    }

    /// The file an option names.
    pub fn option(&self, name: &str) -> Option<&Path> {
        self.value(name).map(Path::new)
    }
}

#[cfg(test)]
mod tests {
    use super::{Args, ON, VERSION};
    use sailgarnet::Version;
    use std::ffi::OsString;
    use std::path::Path;

    fn parse(words: &[&str]) -> Result<Args, String> {
        let words: Vec<OsString> = words.iter().map(OsString::from).collect();
        Args::parse(&words, &["-o", "--list", ON, VERSION])
    }

    #[test]
    fn options_may_stand_anywhere() {
        let args = parse(&["a", "-o", "b", "c", "--list", "d", "e"])
            .ok()
            .unwrap();
        assert_eq!(args.operands, ["a", "c", "e"]);
        assert_eq!(args.option("-o"), Some(Path::new("b")));
        assert_eq!(args.option("--list"), Some(Path::new("d")));
        assert!(!args.help);
    }

    #[test]
    fn two_hyphens_end_the_options() {
        let args = parse(&["--", "-o", "--help"]).ok().unwrap();
        assert_eq!(args.operands, ["-o", "--help"]);
        assert!(!args.help);
    }

    #[test]
    fn wrong_options_are_named() {
        let message = |words: &[&str]| parse(words).err().unwrap();
        assert_eq!(message(&["-x"]), "unknown option -x");
        assert_eq!(message(&["-o"]), "-o needs a file");
        assert_eq!(message(&["--on"]), "--on needs resources");
        assert_eq!(message(&["--version"]), "--version needs 1 or 2");
        assert_eq!(message(&["-o", "a", "-o", "b"]), "-o is given twice");
    }

    #[test]
    fn a_version_is_1_or_2() {
        let version = |words: &[&str]| parse(words).ok().unwrap().version();
        assert_eq!(version(&["a"]), Ok(None));
        assert_eq!(version(&["--version", "1"]), Ok(Some(Version::One)));
        assert_eq!(version(&["--version", "2"]), Ok(Some(Version::Two)));
        for word in ["0", "3", "02", "+2", "two", "", "4294967298"] {
            let message = version(&["--version", word]).unwrap_err();
            assert_eq!(message, format!("--version is 1 or 2, not \"{word}\""));
        }
    }
}
