//! The cases below a folder, and where their answers go.

use std::collections::{BTreeMap, HashSet};
use std::ffi::OsStr;
use std::fs;
use std::io;
use std::os::unix::ffi::OsStrExt;
use std::os::unix::fs::MetadataExt;
use std::path::{Path, PathBuf};

use crate::words::reason;

#[derive(Debug)]
pub struct Case {
    /// The path below the folder.
    pub name: Vec<u8>,
    pub file: PathBuf,
}

impl Case {
    /// Where an answer to the case stands below a folder of answers.
    pub fn answer_below(&self, folder: &Path) -> PathBuf {
        let stem = &self.name[..self.name.len() - b"case".len()];
        folder.join(OsStr::from_bytes(&[stem, b"out"].concat()))
    }
}

#[derive(Default)]
pub struct Found {
    pub cases: Vec<Case>,
    /// Folders that cannot be read, with the reason.
    pub unread: Vec<(Vec<u8>, String)>,
}

/// All `*.case` below a folder, by name. Each folder is read once, also where links lead to it again; its own name goes before a link's.
pub fn find_cases(root: &Path) -> Found {
    let mut found = Found::default();
    let mut seen = HashSet::new();
    let mut waiting = vec![(Vec::new(), root.to_path_buf())];
    let mut linked = BTreeMap::new();
    loop {
        while let Some((name, folder)) = waiting.pop() {
            let entries = look_into(&folder, &mut seen);
            let entries = entries.unwrap_or_else(|error| {
                found.unread.push((name.clone(), reason(&error)));
                Vec::new()
            });
            for (entry, kind) in entries {
                let mut below = name.clone();
                if !below.is_empty() {
                    below.push(b'/');
                }
                below.extend(entry.as_bytes());
                let file = folder.join(&entry);
                let leads_to_folder = || fs::metadata(&file).is_ok_and(|to| to.is_dir());
                if kind.is_dir() {
                    waiting.push((below, file));
                } else if kind.is_symlink() && leads_to_folder() {
                    linked.insert(below, file);
                } else if below.ends_with(b".case") {
                    found.cases.push(Case { name: below, file });
                }
            }
        }
        match linked.pop_first() {
            Some(next) => waiting.push(next),
            None => break,
        }
    }
    found.cases.sort_by(|a, b| a.name.cmp(&b.name));
    found.unread.sort();
    found
}

type Entry = (std::ffi::OsString, fs::FileType);

fn look_into(folder: &Path, seen: &mut HashSet<(u64, u64)>) -> io::Result<Vec<Entry>> {
    let about = fs::metadata(folder)?;
    if !seen.insert((about.dev(), about.ino())) {
        return Ok(Vec::new());
    }
    let entries = fs::read_dir(folder)?;
    entries
        .map(|entry| entry.and_then(|entry| Ok((entry.file_name(), entry.file_type()?))))
        .collect()
}

/// The first case whose answer would be written over a card's answer.
pub fn written_over<'a>(cases: &'a [Case], answers: &Path, card: &Path) -> Option<&'a Case> {
    let real = |path: PathBuf| {
        let folder = fs::canonicalize(path.parent()?).ok()?;
        Some(folder.join(path.file_name()?))
    };
    let cards: HashSet<_> = cases
        .iter()
        .filter_map(|case| real(case.answer_below(card)))
        .filter(|path| path.exists())
        .collect();
    cases
        .iter()
        .find(|case| real(case.answer_below(answers)).is_some_and(|path| cards.contains(&path)))
}

/// An answer that is being written; the number of the process tells whether it still is.
pub fn unfinished_name(process: u32, index: usize) -> String {
    format!(".unfinished-answer-{process}-{index}")
}

/// Removes what interrupted calls left in the folders of answers.
pub fn remove_unfinished(cases: &[Case], answers: &Path) {
    let mut folders = HashSet::new();
    for case in cases {
        if let Some(folder) = case.answer_below(answers).parent() {
            if folders.insert(folder.to_path_buf()) {
                remove_unfinished_in(folder);
            }
        }
    }
}

fn remove_unfinished_in(folder: &Path) {
    let Ok(entries) = fs::read_dir(folder) else {
        return;
    };
    for entry in entries.flatten() {
        if writer_of(&entry.file_name()).is_some_and(|process| !is_alive(process)) {
            // Where it cannot be removed, no answer can be written either, and that is told.
            let _ = fs::remove_file(entry.path());
        }
    }
}

fn writer_of(name: &OsStr) -> Option<u32> {
    let rest = name.to_str()?.strip_prefix(".unfinished-answer-")?;
    let (process, index) = rest.split_once('-')?;
    index.parse::<usize>().ok()?;
    process.parse().ok()
}

/// This process has written nothing yet: what bears its number is left of another.
fn is_alive(process: u32) -> bool {
    process != std::process::id() && Path::new(&format!("/proc/{process}")).exists()
}

#[cfg(test)]
mod tests {
    use super::*;

    #[test]
    fn where_answers_go() {
        let case = Case {
            name: b"a/b.case".to_vec(),
            file: PathBuf::from("f/a/b.case"),
        };
        assert_eq!(
            case.answer_below(Path::new("o")),
            PathBuf::from("o/a/b.out")
        );
    }

    #[test]
    fn names_of_unfinished_answers() {
        assert_eq!(writer_of(OsStr::new(&unfinished_name(17, 4))), Some(17));
        for name in [
            ".unfinished-answer-17",
            ".unfinished-answer-x-1",
            "unfinished-answer-1-1",
            "a.out",
        ] {
            assert_eq!(writer_of(OsStr::new(name)), None);
        }
    }
}
