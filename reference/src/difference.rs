//! Where two outputs of the bench program, or two verdicts, differ first, said readably.

use std::fmt::{self, Display};

/// The first difference of two outputs.
#[derive(Clone, Debug, PartialEq, Eq)]
pub struct Difference {
    /// The line, from 1.
    pub line: usize,
    /// The byte of the line's frame, the kind being byte 0.
    pub byte: usize,
    /// The two digits there, or what is left of the line; nothing when the output ends before.
    pub expected: String,
    pub got: String,
    /// The frame's kind as the expected output has it.
    pub frame: &'static str,
}

/// The first difference, or nothing when the outputs are equal byte for byte.
pub fn first_difference(expected: &[u8], got: &[u8]) -> Option<Difference> {
    if expected == got {
        return None;
    }
    let same = expected.iter().zip(got).take_while(|(a, b)| a == b).count();
    let line_start = match expected[..same].iter().rposition(|byte| *byte == 0x0a) {
        Some(end) => end + 1,
        None => 0,
    };
    let line = 1 + expected[..same]
        .iter()
        .filter(|byte| **byte == 0x0a)
        .count();
    let byte = (same - line_start) / 2;
    let digits = |output: &[u8]| {
        let from = (line_start + 2 * byte).min(output.len());
        let to = (from + 2).min(output.len());
        text(&output[from..to])
    };
    Some(Difference {
        line,
        byte,
        expected: digits(expected),
        got: digits(got),
        frame: frame_name(&expected[line_start..]),
    })
}

/// Where two verdicts differ first, by word, or nothing when they are equal byte for byte.
pub fn verdict_difference(expected: &[u8], got: &[u8]) -> Option<String> {
    if expected == got {
        return None;
    }
    let same = expected.iter().zip(got).take_while(|(a, b)| a == b).count();
    let words = expected[..same]
        .iter()
        .filter(|byte| **byte == b' ')
        .count();
    let word = match words {
        0 => "number",
        1 => "completed",
        2 => "position",
        _ => "what it carries",
    };
    Some(format!(
        "first difference: character {} ({word}): expected \"{}\", got \"{}\"",
        same + 1,
        text(expected),
        text(got)
    ))
}

fn frame_name(line: &[u8]) -> &'static str {
    match line.get(..2) {
        Some(b"40") => "40, the answer: number ub, completed uw, position ud",
        Some(b"01") => "01, registers",
        Some(b"05") => "05, base uq and memory",
        Some(b"08") => "08, register taint",
        Some(b"0a") => "0a, memory taint",
        _ => "after the last line",
    }
}

/// Bytes as text, with 0x0a and what is no character made visible.
pub fn text(bytes: &[u8]) -> String {
    String::from_utf8_lossy(bytes).escape_debug().to_string()
}

impl Display for Difference {
    fn fmt(&self, to: &mut fmt::Formatter) -> fmt::Result {
        write!(
            to,
            "first difference: line {} (frame {}), byte {}: expected \"{}\", got \"{}\"",
            self.line, self.frame, self.byte, self.expected, self.got
        )
    }
}

/// An output or a case file for reading: each line under its number, long ones shortened unless all is
/// wanted.
pub fn listing(bytes: &[u8], whole: bool) -> String {
    let mut listed = String::new();
    let mut lines: Vec<&[u8]> = bytes.split(|byte| *byte == 0x0a).collect();
    let ends = lines.last().is_some_and(|last| last.is_empty());
    if ends {
        lines.pop();
    }
    for (n, line) in lines.iter().enumerate() {
        let shown = if whole {
            line.len()
        } else {
            line.len().min(180)
        };
        listed.push_str(&format!("  {:>3} {}", n + 1, text(&line[..shown])));
        if shown < line.len() {
            listed.push_str(&format!("... ({} characters)", line.len()));
        }
        listed.push('\n');
    }
    if !bytes.is_empty() && !ends {
        listed.push_str("      (the last line has no 0a)\n");
    }
    if bytes.is_empty() {
        listed.push_str("      (nothing)\n");
    }
    listed
}
