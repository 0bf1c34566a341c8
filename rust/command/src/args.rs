//! The words of a command line: files, and options with or without a value.

use crate::input::STANDARD;
use crate::near::hint;
use crate::text::quoted;
use std::ffi::{OsStr, OsString};
use std::os::unix::ffi::OsStrExt;

/// The files and options of one call.
#[derive(Debug, Default)]
pub struct Args {
    pub files: Vec<OsString>,
    options: Vec<(&'static str, OsString)>,
}

/// An option: its name, and whether a value follows it.
pub type Choice = (&'static str, bool);

impl Args {
    /// Reads the words behind the name of a command that has these options.
    pub fn read(words: &[OsString], choices: &'static [Choice]) -> Result<Args, String> {
        let mut args = Args::default();
        let mut words = words.iter();
        while let Some(word) = words.next() {
            let bytes = word.as_bytes();
            if bytes == b"--" {
                args.files.extend(words.by_ref().cloned());
            } else if bytes.starts_with(b"-") && word != STANDARD {
                args.option(bytes, &mut words, choices)?;
            } else {
                args.files.push(word.clone());
            }
        }
        let standard = args.files.iter().filter(|f| *f == STANDARD).count();
        if standard > 1 {
            return Err("standard input is named twice".to_string());
        }
        Ok(args)
    }

    /// Takes one option, with its value behind `=` or as the next word. The value may be any bytes.
    fn option<'a>(
        &mut self,
        word: &[u8],
        words: &mut impl Iterator<Item = &'a OsString>,
        choices: &'static [Choice],
    ) -> Result<(), String> {
        let (option, behind) = match word.iter().position(|b| *b == b'=') {
            Some(at) => (&word[..at], Some(OsStr::from_bytes(&word[at + 1..]).into())),
            None => (word, None),
        };
        let is_it = |(name, _): &&Choice| option.strip_prefix(b"--") == Some(name.as_bytes());
        let Some(&(name, valued)) = choices.iter().find(is_it) else {
            return Err(unknown(&String::from_utf8_lossy(option), choices));
        };
        if self.has(name) {
            return Err(format!("--{name} stands twice"));
        }
        let value = match (valued, behind) {
            (false, Some(_)) => return Err(format!("--{name} takes no value")),
            (false, None) => Some(OsString::new()),
            (true, behind) => behind.or_else(|| words.next().cloned().filter(is_value)),
        };
        let value = value.ok_or_else(|| format!("--{name} takes a value"))?;
        self.options.push((name, value));
        Ok(())
    }

    pub fn has(&self, name: &str) -> bool {
        self.value(name).is_some()
    }

    /// The value of an option, as the system hands it over: a path may be any bytes.
    pub fn value(&self, name: &str) -> Option<&OsStr> {
        let option = self.options.iter().find(|(n, _)| *n == name);
        option.map(|(_, value)| value.as_os_str())
    }

    /// The value of an option, read by `read`; `None` without the option.
    pub fn get<T>(
        &self,
        name: &str,
        read: impl Fn(&str) -> Result<T, String>,
    ) -> Result<Option<T>, String> {
        let Some(value) = self.value(name) else {
            return Ok(None);
        };
        let value = value.to_str().ok_or_else(|| format!("--{name}: no text"))?;
        let read = read(value).map_err(|says| format!("--{name}: {says}"))?;
        Ok(Some(read))
    }

    /// The same of an option that has to be there.
    pub fn need<T>(
        &self,
        name: &str,
        read: impl Fn(&str) -> Result<T, String>,
    ) -> Result<T, String> {
        let value = self.get(name, read)?;
        value.ok_or_else(|| format!("--{name} is missing"))
    }
}

/// Whether a word may be the value of the option before it: what looks like an option is one, and a
/// file of such a name stands behind `=`.
fn is_value(word: &OsString) -> bool {
    !word.as_bytes().starts_with(b"--")
}

/// What is said of an option that there isn't.
fn unknown(option: &str, choices: &[Choice]) -> String {
    let names: Vec<String> = choices
        .iter()
        .map(|(name, _)| format!("--{name}"))
        .collect();
    let names: Vec<&str> = names.iter().map(String::as_str).collect();
    let meant = hint(&format!("--{}", option.trim_start_matches('-')), &names);
    format!("no option is called {}{meant}", quoted(option))
}

/// A whole number from `lowest` to `highest`.
pub fn whole(text: &str, lowest: u32, highest: u32) -> Result<u32, String> {
    let number = text.parse().ok().filter(|n| (lowest..=highest).contains(n));
    let digits = text.bytes().all(|b| b.is_ascii_digit());
    let says = || {
        format!(
            "{} is no whole number from {lowest} to {highest}",
            quoted(text)
        )
    };
    number.filter(|_| digits).ok_or_else(says)
}

/// An hour.
pub fn hour(text: &str) -> Result<u32, String> {
    whole(text, 0, u32::MAX)
}

#[cfg(test)]
mod tests {
    use super::*;

    const CHOICES: &[Choice] = &[("hour", true), ("json", false)];

    fn read(words: &str) -> Result<Args, String> {
        let words: Vec<OsString> = words.split(' ').map(OsString::from).collect();
        Args::read(&words, CHOICES)
    }

    #[test]
    fn options_and_files_in_any_order() {
        for words in [
            "a --hour 3 b --json",
            "--json --hour=3 a b",
            "--hour 3 --json -- a b",
        ] {
            let args = read(words).unwrap();
            assert_eq!(args.files, ["a", "b"], "{words}");
            assert_eq!(args.need("hour", hour), Ok(3), "{words}");
            assert!(args.has("json"), "{words}");
        }
    }

    #[test]
    fn values_that_look_like_options() {
        let value = |words: &str| read(words).unwrap().value("hour").map(OsStr::to_owned);
        assert_eq!(value("--hour=--json a"), Some("--json".into()));
        assert_eq!(value("--hour -5 a"), Some("-5".into()));
    }

    #[test]
    fn wrong_use_is_said() {
        for words in [
            "--hour",
            "--hour --json",
            "--hour --",
            "--what 1",
            "-x",
            "--json=1",
            "--hour 1 --hour 2",
            "- -",
        ] {
            assert!(read(words).is_err(), "{words}");
        }
        for hours in ["", "-1", "+1", "4294967296", "1.0", "one"] {
            assert!(hour(hours).is_err(), "{hours}");
        }
    }
}
