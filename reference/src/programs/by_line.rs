//! The programs `listing` and `assembler`: standard input line by line, standard output the lines that each line gives.

use super::LineProgram;
use std::io::{self, BufRead, BufWriter, Write};
use std::process::ExitCode;

pub fn main(name: &str, arguments: impl Iterator<Item = String>, program: LineProgram) -> ExitCode {
    if arguments.count() > 0 {
        eprintln!("usage: {name}, which reads standard input and takes no arguments");
        return ExitCode::from(2);
    }
    match answer(program) {
        Ok(()) => ExitCode::SUCCESS,
        Err(error) => {
            eprintln!("{name}: {error}");
            ExitCode::FAILURE
        }
    }
}

/// "A line ends in 0x0a, which the last may lack." One line is held at a time, so the input may have any length.
fn answer(program: LineProgram) -> io::Result<()> {
    let mut input = io::stdin().lock();
    let mut output = BufWriter::new(io::stdout().lock());
    let mut line = Vec::new();
    while input.read_until(0x0a, &mut line)? > 0 {
        if line.last() == Some(&0x0a) {
            line.pop();
        }
        for answer in program(&line) {
            writeln!(output, "{answer}")?;
        }
        line.clear();
    }
    output.flush()
}
