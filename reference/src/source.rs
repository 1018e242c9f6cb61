//! Where the cases of a comparison come from: the generator, or the case files of a folder.

use crate::generate::Generator;
use crate::panics::caught;
use std::io;
use std::path::{Path, PathBuf};

pub enum Source {
    Generated {
        generator: Generator,
        first: u64,
        count: u64,
    },
    Files(Vec<PathBuf>),
}

/// A case file, and a line that says which it is.
pub struct NamedCase {
    pub name: String,
    pub file: Vec<u8>,
}

impl Source {
    /// The case files of a folder, those whose names end in `.case`, in the order of their names.
    pub fn folder(folder: &Path) -> io::Result<Source> {
        let mut files = Vec::new();
        for entry in std::fs::read_dir(folder)? {
            let path = entry?.path();
            let name_ends = path.extension().is_some_and(|end| end == "case");
            if name_ends && path.is_file() {
                files.push(path);
            }
        }
        files.sort();
        Ok(Source::Files(files))
    }

    pub fn count(&self) -> u64 {
        match self {
            Source::Generated { count, .. } => *count,
            Source::Files(files) => files.len() as u64,
        }
    }

    /// Case `n`, or which one could not be had and why.
    pub fn case(&self, n: u64) -> Result<NamedCase, String> {
        match self {
            Source::Generated {
                generator, first, ..
            } => {
                let place = generator.place(first + n);
                let case = caught(|| generator.case(first + n))
                    .map_err(|message| format!("panic while {place} was made: {message}"))?;
                Ok(NamedCase {
                    name: format!("{place}: {}", case.name),
                    file: case.file,
                })
            }
            Source::Files(files) => {
                let name = files[n as usize].display().to_string();
                match std::fs::read(&files[n as usize]) {
                    Ok(file) => Ok(NamedCase { name, file }),
                    Err(error) => Err(format!("{name}: {error}")),
                }
            }
        }
    }
}
