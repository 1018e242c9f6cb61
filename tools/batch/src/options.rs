//! The words of the command line.

use std::ffi::{OsStr, OsString};
use std::os::unix::ffi::OsStrExt;
use std::path::PathBuf;

use crate::words::shown;

/// What `./bench` hands over, and what its user asked for.
#[derive(Debug)]
pub struct Options {
    pub bench: PathBuf,
    pub listing: PathBuf,
    pub why: PathBuf,
    pub meanings: String,
    pub folder: PathBuf,
    pub card: Option<PathBuf>,
    pub out: Option<PathBuf>,
    pub html: Option<PathBuf>,
    pub jobs: Option<usize>,
}

impl Options {
    /// The programs bench and listing, tools/why, the meanings of the numbers, then the user's words.
    pub fn read(mut words: impl Iterator<Item = OsString>) -> Result<Options, String> {
        let handed = "batch is called by ./bench";
        let mut path = || words.next().map(PathBuf::from).ok_or(handed);
        let (bench, listing, why) = (path()?, path()?, path()?);
        let meanings = path()?.into_os_string().into_string().map_err(|_| handed)?;
        let mut folder = None;
        let (mut card, mut out, mut html, mut jobs) = (None, None, None, None);
        let mut options_end = false;
        while let Some(word) = words.next() {
            if options_end || word == "-" || !word.as_bytes().starts_with(b"-") {
                if folder.is_some() {
                    let word = shown(word.as_bytes());
                    return Err(format!("batch takes one folder, and '{word}' is a second"));
                }
                folder = Some(PathBuf::from(word));
                continue;
            }
            let (name, value) = split(&word);
            let place = match name.as_bytes() {
                b"--" if value.is_none() => {
                    options_end = true;
                    continue;
                }
                b"--card" => &mut card,
                b"--out" => &mut out,
                b"--html" => &mut html,
                b"--jobs" => &mut jobs,
                _ => return Err(format!("there is no option '{}'", shown(word.as_bytes()))),
            };
            let name = name.to_string_lossy();
            let value = value.or_else(|| words.next());
            let value = value.filter(|value| !value.is_empty());
            let value = value.ok_or_else(|| format!("{name} needs a word behind it"))?;
            if place.replace(value).is_some() {
                return Err(format!("{name} is given twice"));
            }
        }
        let jobs = jobs.map(|word| number(&word)).transpose()?;
        Ok(Options {
            bench,
            listing,
            why,
            meanings,
            folder: folder
                .filter(|folder| !folder.as_os_str().is_empty())
                .ok_or("batch needs a folder")?,
            card: card.map(PathBuf::from),
            out: out.map(PathBuf::from),
            html: html.map(PathBuf::from),
            jobs,
        })
    }
}

/// `--out=x` is `--out x`.
fn split(word: &OsStr) -> (OsString, Option<OsString>) {
    let bytes = word.as_bytes();
    match bytes.iter().position(|&byte| byte == b'=') {
        Some(place) => (
            OsStr::from_bytes(&bytes[..place]).to_os_string(),
            Some(OsStr::from_bytes(&bytes[place + 1..]).to_os_string()),
        ),
        None => (word.to_os_string(), None),
    }
}

fn number(word: &OsStr) -> Result<usize, String> {
    let digits = word.to_str().filter(|word| !word.starts_with('+'));
    let number = digits.and_then(|word| word.parse().ok());
    number
        .filter(|number| (1..=1024).contains(number))
        .ok_or_else(|| {
            let word = shown(word.as_bytes());
            format!("--jobs takes a number from 1 to 1024, not '{word}'")
        })
}

#[cfg(test)]
mod tests {
    use super::*;

    fn read(words: &str) -> Result<Options, String> {
        let handed = ["bench", "listing", "why", "0 done"].map(OsString::from);
        Options::read(
            handed
                .into_iter()
                .chain(words.split_whitespace().map(OsString::from)),
        )
    }

    #[test]
    fn words_in_any_order() {
        let options = read("--jobs 3 f --card=c --out o --html h").unwrap();
        assert_eq!(options.folder, PathBuf::from("f"));
        assert_eq!(options.card, Some(PathBuf::from("c")));
        assert_eq!(options.out, Some(PathBuf::from("o")));
        assert_eq!(options.html, Some(PathBuf::from("h")));
        assert_eq!(options.jobs, Some(3));
        assert_eq!(read("-- --f").unwrap().folder, PathBuf::from("--f"));
    }

    #[test]
    fn bad_words() {
        for (words, wrong) in [
            ("", "batch needs a folder"),
            ("f --card", "--card needs a word behind it"),
            ("f --card=", "--card needs a word behind it"),
            ("f --out a --out b", "--out is given twice"),
            ("f g", "batch takes one folder, and 'g' is a second"),
            ("f -x", "there is no option '-x'"),
            ("f --crad=x", "there is no option '--crad=x'"),
            (
                "f --jobs 0",
                "--jobs takes a number from 1 to 1024, not '0'",
            ),
            (
                "f --jobs +1",
                "--jobs takes a number from 1 to 1024, not '+1'",
            ),
        ] {
            assert_eq!(read(words).unwrap_err(), wrong);
        }
    }
}
