//! The program `lines`: makes kernels in hex or texts from a seed, a line each.

use crate::generate::line_cases::{line_case, LineKind};
use std::io::{self, BufWriter, Write};
use std::process::ExitCode;

const USAGE: &str = "usage: lines kernels|texts [--seed S] [--count N] [--first I] [--names]
  --names  write what is special about each line, instead of the line";

pub fn main(arguments: impl Iterator<Item = String>) -> ExitCode {
    match write(options(arguments)) {
        Ok(()) => ExitCode::SUCCESS,
        Err(error) => {
            eprintln!("lines: {error}");
            ExitCode::FAILURE
        }
    }
}

struct Options {
    kind: LineKind,
    seed: u64,
    first: u64,
    count: u64,
    names: bool,
}

fn write(options: Options) -> io::Result<()> {
    let mut output = BufWriter::new(io::stdout().lock());
    for index in options.first..options.first + options.count {
        let case = line_case(options.kind, options.seed, index);
        let line = match options.names {
            true => case.name.as_bytes(),
            false => &case.line,
        };
        output.write_all(line)?;
        output.write_all(b"\n")?;
    }
    output.flush()
}

fn options(mut arguments: impl Iterator<Item = String>) -> Options {
    let kind = arguments.next().unwrap_or_default();
    let mut options = Options {
        kind: LineKind::of_name(&kind).unwrap_or_else(|| wrong(&kind)),
        seed: 1,
        first: 0,
        count: 1000,
        names: false,
    };
    while let Some(argument) = arguments.next() {
        let mut value = || arguments.next().unwrap_or_else(|| wrong(&argument));
        match argument.as_str() {
            "--seed" => options.seed = number(&value()),
            "--first" => options.first = number(&value()),
            "--count" => options.count = number(&value()),
            "--names" => options.names = true,
            other => wrong(other),
        }
    }
    options
}

fn number(text: &str) -> u64 {
    text.parse().unwrap_or_else(|_| wrong(text))
}

fn wrong<T>(argument: &str) -> T {
    eprintln!("lines: cannot take {argument:?}\n{USAGE}");
    std::process::exit(2);
}
