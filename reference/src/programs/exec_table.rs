//! The program `exec-table`: the exec byte's table on standard output, a line for each byte.

use super::ExecLine;
use std::io::{self, BufWriter, Write};
use std::process::ExitCode;

pub fn main(arguments: impl Iterator<Item = String>, line: ExecLine) -> ExitCode {
    if arguments.count() > 0 {
        eprintln!("usage: exec-table, which reads nothing and takes no arguments");
        return ExitCode::from(2);
    }
    match write(line) {
        Ok(()) => ExitCode::SUCCESS,
        Err(error) => {
            eprintln!("exec-table: {error}");
            ExitCode::FAILURE
        }
    }
}

fn write(line: ExecLine) -> io::Result<()> {
    let mut output = BufWriter::new(io::stdout().lock());
    for byte in 0..=255 {
        writeln!(output, "{}", line(byte))?;
    }
    output.flush()
}
