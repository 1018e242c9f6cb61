//! The program `compare-lines`: the arguments of a comparison of lines, and its count of lines that passed and failed.

use super::{ExecLine, LineProgram};
use crate::command::words;
use crate::exec_comparison::ExecComparison;
use crate::generate::line_cases::LineKind;
use crate::line_comparison::{LineComparison, LineFailure};
use std::process::ExitCode;
use std::time::Duration;

const USAGE: &str =
    "usage: compare-lines kernels|texts --command CMD [--seed S] [--count N] [--first I]
               [--show N] [--whole] [--timeout SECONDS]
       compare-lines exec-bytes --command CMD [--show N] [--timeout SECONDS]
  kernels    the command is a listing: kernels in hex on its standard input, their instructions out
  texts      the command is an assembler: texts on its standard input, their encodings out
  exec-bytes the command prints the exec byte's table: nothing on its standard input, 256 lines out
  --command  the program to compare and its arguments, split at white space; one process gets a thousand
             kernels or texts
  --seed, --count, --first   which lines are generated, as for the program `lines`
  --show     how many differences are shown (3)
  --whole    show long lines whole
  --timeout  seconds that one process may take (20)";

/// What the library answers: the line programs stand for `listing` and `assembler`, the last for `exec-table`.
pub struct Library {
    pub listing: LineProgram,
    pub assembler: LineProgram,
    pub exec_line: ExecLine,
}

pub fn main(arguments: impl Iterator<Item = String>, library: Library) -> ExitCode {
    let (comparison, show) = options(arguments, library);
    let (passed, failures) = comparison.judged();
    for failure in failures.iter().filter(|failure| failure.unjudged) {
        eprintln!("compare-lines: {}", failure.report);
    }
    for failure in failures.iter().take(show) {
        println!("{}", failure.report);
    }
    println!("{passed} passed, {} failed", failures.len());
    if failures.is_empty() {
        ExitCode::SUCCESS
    } else {
        ExitCode::FAILURE
    }
}

enum Comparison {
    Generated(LineComparison),
    ExecBytes(ExecComparison),
}

impl Comparison {
    /// How many lines pass, and those that do not.
    fn judged(&self) -> (u64, Vec<LineFailure>) {
        match self {
            Comparison::Generated(generated) => {
                let failures = generated.failures();
                (generated.count - failures.len() as u64, failures)
            }
            Comparison::ExecBytes(table) => table.judged(),
        }
    }
}

/// The comparison, and how many failures are shown.
fn options(mut arguments: impl Iterator<Item = String>, library: Library) -> (Comparison, usize) {
    let name = arguments.next().unwrap_or_default();
    let kind = LineKind::of_name(&name);
    if kind.is_none() && name != "exec-bytes" {
        stop(&format!("{name:?} is none of kernels, texts, exec-bytes"))
    }
    let mut command = Vec::new();
    let (mut seed, mut first, mut count) = (1, 0, 20_000);
    let (mut show, mut whole, mut patience) = (3, false, Duration::from_secs(20));
    while let Some(argument) = arguments.next() {
        let mut value = || {
            arguments
                .next()
                .unwrap_or_else(|| stop(&format!("{argument} needs a value")))
        };
        match argument.as_str() {
            "--command" => command = words(&value()),
            "--seed" if kind.is_some() => seed = number(&value()),
            "--count" if kind.is_some() => count = number(&value()),
            "--first" if kind.is_some() => first = number(&value()),
            "--whole" if kind.is_some() => whole = true,
            "--show" => show = number(&value()) as usize,
            "--timeout" => patience = Duration::from_secs(number(&value())),
            other => stop(&format!("cannot take {other:?}")),
        }
    }
    if command.is_empty() {
        stop("--command is missing or empty")
    }
    let comparison = match kind {
        None => Comparison::ExecBytes(ExecComparison {
            command,
            line: library.exec_line,
            patience,
        }),
        Some(kind) => Comparison::Generated(LineComparison {
            kind,
            seed,
            first,
            count,
            command,
            program: match kind {
                LineKind::Kernels => library.listing,
                LineKind::Texts => library.assembler,
            },
            patience,
            whole,
        }),
    };
    (comparison, show)
}

fn number(text: &str) -> u64 {
    text.parse()
        .unwrap_or_else(|_| stop(&format!("{text:?} is no number")))
}

fn stop<T>(problem: &str) -> T {
    eprintln!("compare-lines: {problem}\n{USAGE}");
    std::process::exit(2);
}
