//! The comparison of the exec byte's table: what a command writes when its standard input is empty, every line held against
//! the library's.

use crate::command::run_once;
use crate::difference::text;
use crate::line_comparison::{difference, ended, LineFailure};
use crate::panics::caught;
use crate::programs::ExecLine;
use std::time::Duration;

pub struct ExecComparison {
    /// The command's words.
    pub command: Vec<String>,
    /// The library's line of an exec byte.
    pub line: ExecLine,
    /// The time that the process may take.
    pub patience: Duration,
}

impl ExecComparison {
    /// How many of the 256 lines pass; and those that are wrong or not there, with any that are too many behind them.
    pub fn judged(&self) -> (u64, Vec<LineFailure>) {
        let run = run_once(&self.command, Vec::new(), self.patience);
        let output = run.as_deref().unwrap_or_default();
        let mut got = output.split_inclusive(|byte| *byte == 0x0a);
        let (mut passed, mut failures) = (0, Vec::new());
        for byte in 0..=255 {
            let got = got.next().unwrap_or_default();
            let problem = match (caught(|| (self.line)(byte)), &run) {
                (Err(message), _) => Some((format!("panic: {message}"), true)),
                (_, Err(words)) => Some((words.clone(), false)),
                (Ok(expected), _) if got == ended(&[&expected]) => None,
                (Ok(expected), _) => Some((difference(byte.into(), &expected, got), false)),
            };
            match problem {
                None => passed += 1,
                Some((words, unjudged)) => failures.push(LineFailure {
                    index: byte.into(),
                    report: format!("exec byte {byte:02x}: {words}"),
                    unjudged,
                }),
            }
        }
        failures.extend((256..).zip(got).map(|(index, more)| LineFailure {
            index,
            report: format!("behind the last exec byte: got \"{}\"", text(more)),
            unjudged: false,
        }));
        (passed, failures)
    }
}
