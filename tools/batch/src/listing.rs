//! Kernels as text, by the program listing: one process for all of them.

use std::io::{Read, Write};
use std::path::Path;
use std::process::{Command, Stdio};
use std::thread;

use crate::hex;

/// A kernel's lines; where decoding refuses, the last one is `! NUMBER POSITION`.
pub type Lines = Vec<String>;

/// A byte that is no opcode: its own listing ends that of the kernel before it.
const SEPARATOR: (&str, &str) = ("ff", "! 2 0");

/// The lines of each kernel, in their order.
pub fn list(program: &Path, kernels: &[&[u8]]) -> Option<Vec<Lines>> {
    if kernels.is_empty() {
        return Some(Vec::new());
    }
    let mut input = String::new();
    for kernel in kernels {
        input.push_str(&hex::text(kernel));
        input.push('\n');
        input.push_str(SEPARATOR.0);
        input.push('\n');
    }
    let child = Command::new(program)
        .stdin(Stdio::piped())
        .stdout(Stdio::piped())
        .stderr(Stdio::null())
        .spawn();
    let mut child = child.ok()?;
    let mut stdin = child.stdin.take()?;
    let mut stdout = child.stdout.take()?;
    let mut text = String::new();
    let read = thread::scope(|scope| {
        scope.spawn(move || stdin.write_all(input.as_bytes()));
        stdout.read_to_string(&mut text)
    });
    let ended = child.wait();
    if read.is_err() || !ended.is_ok_and(|status| status.success()) {
        return None;
    }
    split(&text, kernels)
}

/// A kernel with a byte has a line. Where it has a line already, its refusal is not at byte 0, as the separator's is.
fn split(text: &str, kernels: &[&[u8]]) -> Option<Vec<Lines>> {
    let mut rest = text.lines();
    let mut listings = Vec::with_capacity(kernels.len());
    for kernel in kernels {
        let mut lines = Lines::new();
        loop {
            let line = rest.next()?;
            if line == SEPARATOR.1 && (kernel.is_empty() || !lines.is_empty()) {
                break;
            }
            lines.push(line.to_string());
        }
        listings.push(lines);
    }
    rest.next().is_none().then_some(listings)
}

/// The text of an instruction by its place from 0, or its bytes where it does not decode. The longest instruction has 31 bytes, and of a bad
/// opcode two are enough.
pub fn instruction(lines: &[String], place: usize, kernel: &[u8]) -> Option<String> {
    let line = lines.get(place)?;
    let Some(refusal) = line.strip_prefix("! ") else {
        return Some(line.clone());
    };
    let (number, position) = refusal.split_once(' ')?;
    let bytes = kernel.get(position.parse::<usize>().ok()?..)?;
    let most = if number == "2" { 2 } else { 31 };
    let shown = hex::text(&bytes[..bytes.len().min(most)]);
    let more = match number {
        "1" => ", and there the kernel ends",
        _ if bytes.len() > most => "..",
        _ => "",
    };
    Some(format!("bytes {shown}{more}"))
}

#[cfg(test)]
mod tests {
    use super::*;

    #[test]
    fn kernels_are_told_apart() {
        let kernels: [&[u8]; 5] = [b"", b"x", b"xy", b"xy", b""];
        let text = "! 2 0\n! 2 0\n! 2 0\nA\nB\n! 2 0\nA\n! 1 24\n! 2 0\n! 2 0\n";
        let listings = split(text, &kernels).unwrap();
        let expected: [&[&str]; 5] = [&[], &["! 2 0"], &["A", "B"], &["A", "! 1 24"], &[]];
        assert_eq!(listings, expected);
        assert_eq!(split("A\n", &[b"x"]), None);
        assert_eq!(split("A\n! 2 0\nB\n", &[b"x"]), None);
    }

    #[test]
    fn what_does_not_decode() {
        let kernel = [0xab; 40];
        let text = |line: &str| instruction(&[line.to_string()], 0, &kernel);
        assert_eq!(text("SHL"), Some("SHL".to_string()));
        assert_eq!(text("! 2 1"), Some("bytes abab..".to_string()));
        assert_eq!(
            text("! 1 37"),
            Some("bytes ababab, and there the kernel ends".to_string())
        );
        assert_eq!(text("! 3 38"), Some("bytes abab".to_string()));
        assert_eq!(instruction(&[], 0, &kernel), None);
    }
}
