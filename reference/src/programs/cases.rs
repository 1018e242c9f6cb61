//! The program `cases`: makes case files from a seed and reports what it made.

use super::Answering;
use crate::batch::write_entry;
use crate::generate::report::Report;
use crate::generate::{Generated, Generator, Mode};
use crate::panics::caught;
use std::io::{self, BufWriter, Write};
use std::path::Path;
use std::process::ExitCode;

const USAGE: &str = "usage: cases [--seed S] [--count N] [--first I] [--mode MODE] [--folder DIR | --batch | --print]
  --mode    valid, exec-bytes, near-miss, two-faults, bad-lines or random-bytes; all mixed when absent
  --folder  write each case to a file of its own
  --batch   write all cases to standard output, in the batch framing
  --print   write the cases one after the other, as they are (with --count 1: one case file)
The report goes to standard output when there is no --batch or --print, else to standard error.";

enum Output {
    None,
    Folder(String),
    Batch,
    Print,
}

struct Options {
    seed: u64,
    count: u64,
    first: u64,
    only: Option<Mode>,
    output: Output,
}

pub fn main(arguments: impl Iterator<Item = String>, answering: Answering) -> ExitCode {
    match make(options(arguments), answering) {
        Ok(0) => ExitCode::SUCCESS,
        Ok(_) => ExitCode::FAILURE,
        Err(error) => {
            eprintln!("cases: {error}");
            ExitCode::FAILURE
        }
    }
}

/// Make the cases, write them and the report; gives the number of panics, each named on standard error.
fn make(options: Options, answering: Answering) -> io::Result<u64> {
    let generator = Generator::new(options.seed, options.only);
    let mut report = Report::default();
    let mut stdout = BufWriter::new(io::stdout().lock());
    let mut panics = 0;
    if let Output::Folder(folder) = &options.output {
        std::fs::create_dir_all(folder)?;
    }
    for index in options.first..options.first + options.count {
        let place = generator.place(index);
        let case = match caught(|| generator.case(index)) {
            Ok(case) => case,
            Err(message) => {
                eprintln!("cases: panic while {place} was made: {message}");
                panics += 1;
                continue;
            }
        };
        write_out(&mut stdout, &options.output, index, &case)?;
        if let Err(message) = caught(|| report.add(&case, &answering(&case.file))) {
            eprintln!("cases: panic at {place}: {}: {message}", case.name);
            panics += 1;
        }
    }
    let ways = format!("ways of a near miss: {}\n", generator.near_miss_ways());
    match options.output {
        Output::Batch | Output::Print => eprint!("{report}{ways}"),
        _ => write!(stdout, "{report}{ways}")?,
    }
    stdout.flush()?;
    Ok(panics)
}

fn write_out(
    stdout: &mut impl Write,
    output: &Output,
    index: u64,
    case: &Generated,
) -> io::Result<()> {
    match output {
        Output::None => Ok(()),
        Output::Folder(folder) => {
            let name = format!("{index:06}-{}.case", case.mode.name());
            std::fs::write(Path::new(folder).join(name), &case.file)
        }
        Output::Batch => write_entry(stdout, &case.file),
        Output::Print => stdout.write_all(&case.file),
    }
}

fn options(mut arguments: impl Iterator<Item = String>) -> Options {
    let mut options = Options {
        seed: 1,
        count: 20_000,
        first: 0,
        only: None,
        output: Output::None,
    };
    while let Some(argument) = arguments.next() {
        let mut value = || arguments.next().unwrap_or_else(|| wrong(&argument));
        match argument.as_str() {
            "--seed" => options.seed = number(&value()),
            "--count" => options.count = number(&value()),
            "--first" => options.first = number(&value()),
            "--mode" => {
                let name = value();
                options.only = Some(Mode::of_name(&name).unwrap_or_else(|| wrong(&name)));
            }
            "--folder" => options.output = Output::Folder(value()),
            "--batch" => options.output = Output::Batch,
            "--print" => options.output = Output::Print,
            other => wrong(other),
        }
    }
    options
}

fn number(text: &str) -> u64 {
    text.parse().unwrap_or_else(|_| wrong(text))
}

fn wrong<T>(argument: &str) -> T {
    eprintln!("cases: cannot take {argument:?}\n{USAGE}");
    std::process::exit(2);
}
