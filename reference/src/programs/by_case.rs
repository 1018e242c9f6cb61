//! The programs `reference` and `verdict`: a case file on standard input, the bench program's output or the verdict on
//! standard output. With `--batch`, many of both, in the framing of the module `batch`.

use super::Interpreter;
use crate::batch::{read_entry, write_entry};
use crate::panics::caught;
use std::io::{self, BufWriter, Read, Write};
use std::process::ExitCode;

pub fn main(
    name: &str,
    arguments: impl Iterator<Item = String>,
    interpreter: Interpreter,
) -> ExitCode {
    let arguments: Vec<String> = arguments.collect();
    let answered = match arguments.iter().map(String::as_str).collect::<Vec<_>>()[..] {
        [] => one_case(interpreter),
        ["--batch"] => many_cases(interpreter),
        _ => {
            eprintln!("usage: {name} [--batch]");
            return ExitCode::from(2);
        }
    };
    match answered {
        Ok(()) => ExitCode::SUCCESS,
        Err(error) => {
            eprintln!("{name}: {error}");
            ExitCode::FAILURE
        }
    }
}

fn one_case(interpreter: Interpreter) -> io::Result<()> {
    let mut input = Vec::new();
    io::stdin().read_to_end(&mut input)?;
    io::stdout().write_all(&interpreter(&input))
}

/// A panic ends the batch after the outputs of the entries before it.
fn many_cases(interpreter: Interpreter) -> io::Result<()> {
    let mut input = io::stdin().lock();
    let mut output = BufWriter::new(io::stdout().lock());
    let mut entry = 0;
    while let Some(case) = read_entry(&mut input)? {
        entry += 1;
        let answer = caught(|| interpreter(&case)).map_err(|message| {
            io::Error::other(format!("panic at entry {entry} of the batch: {message}"))
        });
        match answer {
            Ok(answer) => write_entry(&mut output, &answer)?,
            Err(error) => {
                output.flush()?;
                return Err(error);
            }
        }
    }
    output.flush()
}
