//! The program `compare`: the arguments of a comparison, and its count of cases that passed and failed.

use super::Interpreter;
use crate::command::words;
use crate::comparison::{Compared, Comparison};
use crate::generate::{Generator, Mode};
use crate::source::Source;
use std::path::Path;
use std::process::ExitCode;
use std::time::Duration;

const USAGE: &str = "usage: compare --command CMD [--verdicts] [--batch]
               [--folder DIR | [--seed S] [--count N] [--first I] [--mode MODE]]
               [--jobs N] [--show N] [--whole] [--timeout SECONDS]
  --command  the program to compare and its arguments, split at white space; it gets one case file on
             standard input
  --verdicts what comes back is the verdict, as the program `verdict` writes it, and not the bench's output
  --batch    the command takes many cases in one process, in the batch framing
  --folder   take the case files of a folder, those that end in .case, in the order of their names, instead
             of generated ones
  --seed, --count, --first, --mode   which cases are generated, as for the program `cases`
  --jobs     processes at a time (2)
  --show     how many differences are shown (3)
  --whole    show long lines whole
  --timeout  seconds that one process may take (20)";

/// The interpreters give the bench's output and the verdict.
pub fn main(
    arguments: impl Iterator<Item = String>,
    bench: Interpreter,
    verdict: Interpreter,
) -> ExitCode {
    let options = options(arguments, bench, verdict);
    let comparison = &options.comparison;
    let failures = if options.batch {
        comparison.batch()
    } else {
        comparison.each()
    };
    for failure in failures.iter().filter(|failure| failure.unjudged) {
        eprintln!("compare: {}", failure.report);
    }
    for failure in failures.iter().take(options.show) {
        println!("{}", failure.report);
    }
    let failed = failures.len() as u64;
    let passed = comparison.source.count() - failed;
    println!("{passed} passed, {failed} failed");
    if failed == 0 {
        ExitCode::SUCCESS
    } else {
        ExitCode::FAILURE
    }
}

struct Options {
    comparison: Comparison,
    batch: bool,
    /// How many failures are shown.
    show: usize,
}

fn options(
    mut arguments: impl Iterator<Item = String>,
    bench: Interpreter,
    verdict: Interpreter,
) -> Options {
    let mut command = None;
    let (mut compared, mut interpreter) = (Compared::Outputs, bench);
    let mut batch = false;
    let mut folder = None;
    let (mut seed, mut count, mut first, mut only) = (1, 1000, 0, None);
    let (mut jobs, mut show, mut whole, mut timeout) = (2, 3, false, 20);
    while let Some(argument) = arguments.next() {
        let mut value = || {
            arguments
                .next()
                .unwrap_or_else(|| stop(&format!("{argument} needs a value")))
        };
        match argument.as_str() {
            "--command" => command = Some(words(&value())),
            "--verdicts" => (compared, interpreter) = (Compared::Verdicts, verdict),
            "--batch" => batch = true,
            "--folder" => folder = Some(value()),
            "--seed" => seed = number(&value()),
            "--count" => count = number(&value()),
            "--first" => first = number(&value()),
            "--mode" => {
                let name = value();
                let mode = Mode::of_name(&name);
                only = Some(mode.unwrap_or_else(|| stop(&format!("no mode {name}"))));
            }
            "--jobs" => jobs = number(&value()).max(1),
            "--show" => show = number(&value()) as usize,
            "--whole" => whole = true,
            "--timeout" => timeout = number(&value()),
            other => stop(&format!("cannot take {other:?}")),
        }
    }
    let command = match command {
        None => stop("--command is missing"),
        Some(words) if words.is_empty() => stop("the command is empty"),
        Some(words) => words,
    };
    let source = match folder {
        Some(folder) => case_files(&folder),
        None => Source::Generated {
            generator: Generator::new(seed, only),
            first,
            count,
        },
    };
    Options {
        comparison: Comparison {
            source,
            command,
            compared,
            interpreter,
            jobs,
            patience: Duration::from_secs(timeout),
            whole,
        },
        batch,
        show,
    }
}

fn case_files(folder: &str) -> Source {
    let source = Source::folder(Path::new(folder))
        .unwrap_or_else(|error| stop(&format!("{folder}: {error}")));
    if source.count() == 0 {
        stop(&format!("{folder}: no file ends in .case"))
    }
    source
}

fn number(text: &str) -> u64 {
    text.parse()
        .unwrap_or_else(|_| stop(&format!("{text:?} is no number")))
}

fn stop<T>(problem: &str) -> T {
    eprintln!("compare: {problem}\n{USAGE}");
    std::process::exit(2);
}
