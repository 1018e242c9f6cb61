//! Running a command on a case: one process a case, or one process for many.

use crate::batch::{read_entry, write_entry};
use std::io::{self, BufReader, BufWriter, Read, Write};
use std::process::{Child, Command, Stdio};
use std::sync::mpsc;
use std::thread;
use std::time::Duration;

/// The words of a command: a program and its arguments, split at white space. No shell is asked.
pub fn words(command: &str) -> Vec<String> {
    command.split_whitespace().map(str::to_string).collect()
}

fn start(words: &[String]) -> io::Result<Child> {
    Command::new(&words[0])
        .args(&words[1..])
        .stdin(Stdio::piped())
        .stdout(Stdio::piped())
        .stderr(Stdio::null())
        .spawn()
}

/// The standard output of a process that is given one case, or what went wrong instead.
pub fn run_once(words: &[String], case: Vec<u8>, patience: Duration) -> Result<Vec<u8>, String> {
    let mut child = start(words).map_err(|error| format!("cannot start {words:?}: {error}"))?;
    let mut stdin = child.stdin.take().unwrap();
    let mut stdout = child.stdout.take().unwrap();
    // A process that does not read all its input is not stopped by that.
    thread::spawn(move || {
        let _ = stdin.write_all(&case);
    });
    let (sender, receiver) = mpsc::channel();
    thread::spawn(move || {
        let mut output = Vec::new();
        let result = stdout.read_to_end(&mut output).map(|_| output);
        let _ = sender.send(result);
    });
    let received = receiver.recv_timeout(patience);
    if received.is_err() {
        let _ = child.kill();
    }
    let status = child.wait().map_err(|error| error.to_string())?;
    match received {
        Err(_) => Err(format!("no end within {} s", patience.as_secs())),
        Ok(Err(error)) => Err(error.to_string()),
        // Document 01 says nothing of the exit status, but a process that a signal ended has crashed.
        Ok(Ok(output)) if status.code().is_none() => Err(format!(
            "ended by a signal ({status}) after {} bytes of output",
            output.len()
        )),
        Ok(Ok(output)) => Ok(output),
    }
}

/// Give many cases to one process in the batch framing. `judge` gets each case's place and output in
/// turn, or what went wrong from there on.
pub fn run_batch(
    words: &[String],
    cases: Vec<Vec<u8>>,
    mut judge: impl FnMut(usize, Result<Vec<u8>, String>),
) {
    let count = cases.len();
    let mut child = match start(words) {
        Ok(child) => child,
        Err(error) => {
            for n in 0..count {
                judge(n, Err(format!("cannot start {words:?}: {error}")));
            }
            return;
        }
    };
    let stdin = child.stdin.take().unwrap();
    let mut stdout = BufReader::new(child.stdout.take().unwrap());
    let writer = thread::spawn(move || -> io::Result<()> {
        let mut stdin = BufWriter::new(stdin);
        for case in &cases {
            write_entry(&mut stdin, case)?;
        }
        stdin.flush()
    });
    for n in 0..count {
        let output = match read_entry(&mut stdout) {
            Ok(Some(output)) => Ok(output),
            Ok(None) => Err("the output ended before this case".to_string()),
            Err(error) => Err(format!("the output is broken here: {error}")),
        };
        judge(n, output);
    }
    drop(stdout);
    let _ = writer.join();
    let _ = child.wait();
}
