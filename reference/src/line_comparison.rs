//! The comparison of lines: many lines at once to a command's standard input, and every line that it writes held
//! against the library's.

use crate::command::run_once;
use crate::difference::{listing, text};
use crate::generate::line_cases::{line_case, LineCase, LineKind};
use crate::panics::caught;
use crate::programs::LineProgram;
use std::time::{Duration, Instant};

/// How many lines one process gets.
const AT_ONCE: u64 = 1000;

pub struct LineComparison {
    pub kind: LineKind,
    pub seed: u64,
    pub first: u64,
    pub count: u64,
    /// The command's words.
    pub command: Vec<String>,
    /// What the library answers to a line.
    pub program: LineProgram,
    /// The time that one process may take.
    pub patience: Duration,
    /// Whether reports show long lines whole.
    pub whole: bool,
}

/// A line whose answers differ, or that could not be judged.
pub struct LineFailure {
    pub index: u64,
    pub report: String,
    /// Whether there was a panic of the library.
    pub unjudged: bool,
}

/// A line and the library's answer to it.
struct Asked {
    case: LineCase,
    expected: Vec<String>,
}

impl LineComparison {
    pub fn failures(&self) -> Vec<LineFailure> {
        let mut failures = Vec::new();
        let end = self.first + self.count;
        let mut from = self.first;
        while from < end {
            let to = (from + AT_ONCE).min(end);
            let mut asked = Vec::new();
            for index in from..to {
                match self.asked(index) {
                    Ok(one) => asked.push(one),
                    Err(failure) => failures.push(failure),
                }
            }
            self.judge(&asked, &mut failures);
            from = to;
        }
        failures.sort_by_key(|failure| failure.index);
        failures
    }

    fn place(&self, index: u64) -> String {
        format!("seed {}, {} {index}", self.seed, self.kind.name())
    }

    fn asked(&self, index: u64) -> Result<Asked, LineFailure> {
        let asked = caught(|| {
            let case = line_case(self.kind, self.seed, index);
            let expected = (self.program)(&case.line);
            Asked { case, expected }
        });
        asked.map_err(|message| LineFailure {
            index,
            report: format!("panic at {}: {message}", self.place(index)),
            unjudged: true,
        })
    }

    /// Give lines to one process. If something is wrong the two halves of the lines are judged apart, down to single
    /// lines, so that an answer of too many or too few lines is the failure of one line.
    fn judge(&self, asked: &[Asked], failures: &mut Vec<LineFailure>) {
        if asked.is_empty() {
            return;
        }
        let started = Instant::now();
        let Err((place, words)) = self.given(asked) else {
            return;
        };
        if started.elapsed() >= self.patience {
            // Nobody waits for the halves too.
            failures.extend(asked.iter().map(|one| self.failure(one, &words)));
            return;
        }
        let others = failures.len();
        if asked.len() > 1 {
            let (former, latter) = asked.split_at(asked.len() / 2);
            self.judge(former, failures);
            self.judge(latter, failures);
        }
        if failures.len() == others {
            let words = match asked.len() {
                1 => words,
                count => format!("wrong only where {count} lines are given at once\n{words}"),
            };
            failures.push(self.failure(&asked[place], &words));
        }
    }

    fn failure(&self, one: &Asked, words: &str) -> LineFailure {
        let index = one.case.index;
        let report = format!(
            "{} ({})\n{words}\nline:\n{}expected:\n{}",
            self.place(index),
            one.case.name,
            listing(&ended(&[&one.case.line]), self.whole),
            self.answer(&one.expected)
        );
        LineFailure {
            index,
            report,
            unjudged: false,
        }
    }

    /// An answer for reading: its first lines, unless all is wanted.
    fn answer(&self, lines: &[String]) -> String {
        let shown = match self.whole {
            true => lines.len(),
            false => lines.len().min(8),
        };
        let mut listed = listing(&ended(&lines[..shown]), self.whole);
        if shown < lines.len() {
            listed.push_str(&format!("      ... ({} lines)\n", lines.len()));
        }
        listed
    }

    /// The first line with a wrong answer and words for it, when one process gets all these lines.
    fn given(&self, asked: &[Asked]) -> Result<(), (usize, String)> {
        let lines: Vec<&[u8]> = asked.iter().map(|one| &one.case.line[..]).collect();
        let mut input = ended(&lines);
        // "which the last may lack"; but an empty line without it is none.
        let last = &asked[asked.len() - 1].case;
        if last.index % 3 == 0 && !last.line.is_empty() {
            input.pop();
        }
        let output = run_once(&self.command, input, self.patience).map_err(|words| (0, words))?;
        let mut got = output.split_inclusive(|byte| *byte == 0x0a);
        for (place, one) in asked.iter().enumerate() {
            for (k, expected) in one.expected.iter().enumerate() {
                let got = got.next().unwrap_or_default();
                if got != ended(&[expected]) {
                    return Err((place, difference(k, expected, got)));
                }
            }
        }
        match got.next() {
            None => Ok(()),
            Some(more) => {
                let more = text(more);
                let words = format!("more than the answer is there: got \"{more}\" behind it");
                Err((asked.len() - 1, words))
            }
        }
    }
}

/// Lines, each with its 0x0a.
pub fn ended<T: AsRef<[u8]>>(lines: &[T]) -> Vec<u8> {
    let mut all = Vec::new();
    for line in lines {
        all.extend(line.as_ref());
        all.push(0x0a);
    }
    all
}

/// Where line `k` of an answer differs, in words.
pub fn difference(k: usize, expected: &str, got: &[u8]) -> String {
    let line = k + 1;
    if got.is_empty() {
        return format!(
            "first difference: the output ends before line {line} of the answer, \"{expected}\""
        );
    }
    let whole = ended(&[expected]);
    let same = whole.iter().zip(got).take_while(|(a, b)| a == b).count();
    format!(
        "first difference: line {line} of the answer, character {}: expected \"{}\", got \"{}\"",
        same + 1,
        text(&whole),
        text(got)
    )
}
