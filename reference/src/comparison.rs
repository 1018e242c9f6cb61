//! The comparison: cases through a command and through an interpreter, every byte that comes back equal.

use crate::command::{run_batch, run_once};
use crate::difference::{first_difference, listing, verdict_difference};
use crate::panics::caught;
use crate::programs::Interpreter;
use crate::source::{NamedCase, Source};
use std::sync::atomic::{AtomicU64, Ordering};
use std::sync::Mutex;
use std::time::Duration;

pub struct Comparison {
    pub source: Source,
    /// The command's words.
    pub command: Vec<String>,
    pub compared: Compared,
    /// What gives the library's output or verdict.
    pub interpreter: Interpreter,
    /// Processes at a time, and the time that one may take.
    pub jobs: u64,
    pub patience: Duration,
    /// Whether reports show long lines whole.
    pub whole: bool,
}

/// What comes back for a case: the bench program's output, or the verdict.
#[derive(Clone, Copy, Debug, PartialEq, Eq)]
pub enum Compared {
    Outputs,
    Verdicts,
}

impl Compared {
    /// The first difference in words, or nothing where all is equal.
    fn difference(self, expected: &[u8], got: &[u8]) -> Option<String> {
        match self {
            Compared::Outputs => first_difference(expected, got).map(|it| it.to_string()),
            Compared::Verdicts => verdict_difference(expected, got),
        }
    }
}

/// A case whose outputs differ, or that could not be judged.
pub struct Failure {
    /// The case's place in the source.
    pub n: u64,
    pub report: String,
    /// Whether it could not be judged: there was a panic, or no file.
    pub unjudged: bool,
}

impl Comparison {
    /// One process a case, some at a time.
    pub fn each(&self) -> Vec<Failure> {
        let next = AtomicU64::new(0);
        let failures = Mutex::new(Vec::new());
        std::thread::scope(|scope| {
            for _ in 0..self.jobs {
                scope.spawn(|| loop {
                    let n = next.fetch_add(1, Ordering::Relaxed);
                    if n >= self.source.count() {
                        return;
                    }
                    let judged = self.case(n).and_then(|case| {
                        let got = run_once(&self.command, case.file.clone(), self.patience);
                        self.judge(n, &case, got)
                    });
                    if let Err(failure) = judged {
                        failures.lock().unwrap().push(failure);
                    }
                });
            }
        });
        let mut failures = failures.into_inner().unwrap();
        failures.sort_by_key(|failure| failure.n);
        failures
    }

    /// Many cases in one process, a thousand made at a time.
    pub fn batch(&self) -> Vec<Failure> {
        let mut failures = Vec::new();
        let mut from = 0;
        while from < self.source.count() {
            let to = (from + 1000).min(self.source.count());
            let mut cases = Vec::new();
            for n in from..to {
                match self.case(n) {
                    Ok(case) => cases.push((n, case)),
                    Err(failure) => failures.push(failure),
                }
            }
            let files = cases.iter().map(|(_, case)| case.file.clone()).collect();
            run_batch(&self.command, files, |k, got| {
                let (n, case) = &cases[k];
                failures.extend(self.judge(*n, case, got).err());
            });
            from = to;
        }
        failures.sort_by_key(|failure| failure.n);
        failures
    }

    fn case(&self, n: u64) -> Result<NamedCase, Failure> {
        self.source.case(n).map_err(|report| Failure {
            n,
            report,
            unjudged: true,
        })
    }

    /// Refuse a case if the command's output is not that of the interpreter. After a panic the other cases are
    /// judged all the same.
    fn judge(&self, n: u64, case: &NamedCase, got: Result<Vec<u8>, String>) -> Result<(), Failure> {
        let (report, unjudged) = match caught(|| self.problem(case, got)) {
            Ok(None) => return Ok(()),
            Ok(Some(report)) => (report, false),
            Err(message) => (format!("panic at {}: {message}", case.name), true),
        };
        Err(Failure {
            n,
            report,
            unjudged,
        })
    }

    fn problem(&self, case: &NamedCase, got: Result<Vec<u8>, String>) -> Option<String> {
        let expected = (self.interpreter)(&case.file);
        let (difference, got) = match got {
            Ok(got) => (self.compared.difference(&expected, &got)?, got),
            Err(problem) => (problem, Vec::new()),
        };
        Some(format!(
            "{}\n{difference}\ncase:\n{}expected:\n{}got:\n{}",
            case.name,
            listing(&case.file, self.whole),
            listing(&expected, self.whole),
            listing(&got, self.whole)
        ))
    }
}
