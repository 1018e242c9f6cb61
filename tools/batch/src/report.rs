//! The report as text: the differences first, then what both agree on, then the summary.

use std::collections::BTreeMap;
use std::fmt::Write;

use crate::answer::Head;
use crate::compare::Counts;
use crate::entries::Entry;
use crate::run::Outcome;
use crate::words::{amount, grouped, shown, Meanings};

pub struct Run<'a> {
    pub entries: Vec<Entry<'a>>,
    /// Folders that could not be read.
    pub unread: Vec<(Vec<u8>, String)>,
    pub meanings: Meanings,
    pub has_card: bool,
    pub seconds: f64,
}

impl Run<'_> {
    /// Those that need a writer, most differences first.
    pub fn differing(&self) -> Vec<&Entry<'_>> {
        let mut entries: Vec<_> = self.with(|entry| entry.differences() > 0);
        entries.sort_by_key(|entry| std::cmp::Reverse(entry.differences()));
        entries
    }

    pub fn with(&self, wanted: impl Fn(&Entry) -> bool) -> Vec<&Entry<'_>> {
        self.entries.iter().filter(|entry| wanted(entry)).collect()
    }

    pub fn not_answered(&self) -> usize {
        self.with(|entry| entry.head().is_none()).len()
    }

    /// 0 all equal, 1 differences, 2 something could not be done.
    pub fn status(&self) -> u8 {
        let undone = self.not_answered() + self.unread.len();
        if undone > 0
            || self
                .entries
                .iter()
                .any(|entry| entry.not_compared().is_some())
        {
            2
        } else {
            u8::from(self.entries.iter().any(|entry| entry.differences() > 0))
        }
    }

    pub fn numbers(&self) -> BTreeMap<u8, usize> {
        let mut numbers = BTreeMap::new();
        for head in self.entries.iter().filter_map(Entry::head) {
            *numbers.entry(head.number).or_insert(0) += 1;
        }
        numbers
    }

    /// What both agree on, in one line.
    pub fn agreed(&self) -> String {
        let compared: Vec<_> = self.entries.iter().filter_map(Entry::compared).collect();
        let equal = compared
            .iter()
            .filter(|found| found.counts.differences() == 0 && found.doubtful.is_empty());
        let sum = |of: fn(&Counts) -> usize| compared.iter().map(|found| of(&found.counts)).sum();
        let all: usize = sum(|counts| counts.compared);
        format!(
            "{} of {} compared, {} of {}",
            grouped(equal.count()),
            amount(compared.len(), "case"),
            grouped(sum(Counts::equal)),
            amount(all, "byte")
        )
    }

    /// `13 cases, 6 differ, 2 not compared`.
    pub fn outline(&self) -> String {
        let mut text = amount(self.entries.len(), "case");
        let not_answered = self.not_answered();
        if not_answered > 0 {
            let _ = write!(text, ", {} not answered", grouped(not_answered));
        }
        if self.has_card {
            text.push_str(&match self.differing().len() {
                0 => ", no differences".to_string(),
                1 => ", 1 differs".to_string(),
                count => format!(", {} differ", grouped(count)),
            });
            let not_compared = self.with(|entry| entry.not_compared().is_some()).len();
            if not_compared > 0 {
                let _ = write!(text, ", {} not compared", grouped(not_compared));
            }
        }
        text
    }

    pub fn time(&self) -> String {
        let made = |entry: &Entry| matches!(entry.outcome, Outcome::Answered { made: true, .. });
        let kept = |entry: &Entry| matches!(entry.outcome, Outcome::Answered { made: false, .. });
        let made = self.with(made).len();
        let mut text = format!("{:.3} s; {} made", self.seconds, amount(made, "answer"));
        let kept = self.with(kept).len();
        if kept > 0 {
            let _ = write!(text, ", {} there already", grouped(kept));
        }
        text
    }

    /// The line 40 in words.
    pub fn in_words(&self, head: Head) -> String {
        let Head {
            number,
            completed,
            position,
        } = head;
        let meaning = self.meanings.of(number);
        let completed = amount(usize::from(completed), "instruction");
        match number {
            13 => format!("13, {meaning}"),
            14 => format!("14, {meaning}, line {position}"),
            0 => format!("0, {meaning}; {completed} completed, up to byte {position}"),
            _ => format!("{number}, {meaning}; {completed} completed, refused at byte {position}"),
        }
    }

    pub fn text(&self) -> String {
        let mut lines = Vec::new();
        if self.has_card {
            self.tell_differences(&mut lines);
        }
        self.tell_summary(&mut lines);
        lines.push(String::new());
        lines.join("\n")
    }

    fn tell_differences(&self, lines: &mut Vec<String>) {
        let differing = self.differing();
        lines.push(match differing.len() {
            0 => "differences: none".to_string(),
            1 => "differences: 1 case".to_string(),
            count => format!("differences: {}, most first", amount(count, "case")),
        });
        for entry in &differing {
            lines.push(String::new());
            self.tell_case(entry, lines);
        }
        lines.push(String::new());
        let doubtful = self.with(|entry| entry.differs_in_doubt_alone());
        if !doubtful.is_empty() {
            let count = amount(doubtful.len(), "case");
            lines.push(format!(
                "only doubtful bytes differ, needs no writer: {count}"
            ));
            for entry in doubtful {
                lines.push(String::new());
                self.tell_case(entry, lines);
            }
            lines.push(String::new());
        }
        let not_compared = self.with(|entry| entry.not_compared().is_some());
        if !not_compared.is_empty() {
            let count = amount(not_compared.len(), "case");
            lines.push(format!("could not be compared: {count}"));
            for entry in not_compared {
                let wrong = entry.not_compared().unwrap_or_default();
                lines.push(format!("  {}: {wrong}", entry.name()));
            }
            lines.push(String::new());
        }
        lines.push(format!("both agree: {}", self.agreed()));
        lines.push(String::new());
    }

    fn tell_case(&self, entry: &Entry, lines: &mut Vec<String>) {
        let name = entry.name();
        let counts = entry.compared().map(|found| found.counts);
        let counts = counts.unwrap_or_default();
        lines.push(format!("{name}: {}", in_counts(&counts)));
        let told = [self.about(entry), self.told(entry)].concat();
        lines.extend(told.iter().map(|line| format!("  {line}")));
    }

    /// The line 40 in words, or both where they differ, and the instruction.
    pub fn about(&self, entry: &Entry) -> Vec<String> {
        let heads = entry.compared().and_then(|found| found.heads);
        let mut lines = match (heads, entry.head()) {
            (Some((bench, card)), _) => vec![
                format!("bench: {}", self.in_words(bench)),
                format!("card:  {}", self.in_words(card)),
            ],
            (None, Some(head)) if entry.compared().is_some() => {
                vec![format!("both: {}", self.in_words(head))]
            }
            (None, Some(head)) => vec![self.in_words(head)],
            (None, None) => Vec::new(),
        };
        lines.extend(entry.instruction.clone());
        lines.extend(entry.card_instruction.clone());
        lines
    }

    /// What differs, a line each; doubtful bytes come last, further in.
    pub fn told(&self, entry: &Entry) -> Vec<String> {
        let Some(found) = entry.compared() else {
            return Vec::new();
        };
        let mut lines = found.lines.clone();
        if !found.doubtful.is_empty() {
            lines.push("doubtful, needs no writer:".to_string());
            lines.extend(found.doubtful.iter().map(|line| format!("  {line}")));
        }
        lines
    }

    fn tell_summary(&self, lines: &mut Vec<String>) {
        let all = self.entries.len();
        let not_answered = self.with(|entry| entry.head().is_none());
        lines.push(format!("cases: {}", grouped(all)));
        lines.push(format!("answers: {}", grouped(all - not_answered.len())));
        let numbers = self.numbers();
        let most = numbers.values().max().copied().unwrap_or(0);
        let width = grouped(most).len();
        for (number, count) in numbers {
            let count = grouped(count);
            let meaning = self.meanings.of(number);
            lines.push(format!("  {count:>width$} with {number}, {meaning}"));
        }
        let refused = self.with(|entry| entry.refusal().is_some());
        if !refused.is_empty() {
            lines.push(format!("refused: {}", grouped(refused.len())));
            for entry in refused {
                let refusal = entry.refusal().unwrap_or_default();
                lines.push(format!("  {}: {refusal}", entry.name()));
            }
        }
        if !not_answered.is_empty() {
            lines.push(format!("not answered: {}", grouped(not_answered.len())));
            for entry in not_answered {
                if let Outcome::NotAnswered(wrong) = &entry.outcome {
                    lines.push(format!("  {}: {wrong}", entry.name()));
                }
            }
        }
        if !self.unread.is_empty() {
            let count = grouped(self.unread.len());
            lines.push(format!("folders that cannot be read: {count}"));
            for (name, wrong) in &self.unread {
                lines.push(format!("  {}: {wrong}", shown(name)));
            }
        }
        lines.push(format!("time: {}", self.time()));
    }
}

/// `5 differences: number, 4 register bytes`.
pub fn in_counts(counts: &Counts) -> String {
    let mut parts = Vec::new();
    if counts.head > 0 {
        parts.push(format!("{} of the line 40", counts.head));
    }
    if counts.shape > 0 {
        parts.push(format!("{} of length or base", counts.shape));
    }
    for (count, noun) in [
        (counts.register_bytes, "register byte"),
        (counts.memory_bytes, "memory byte"),
        (counts.marks, "mark"),
    ] {
        if count > 0 {
            parts.push(amount(count, noun));
        }
    }
    let mut text = String::new();
    if !parts.is_empty() {
        let all = amount(counts.differences(), "difference");
        text = format!("{all} ({})", parts.join(", "));
    }
    if counts.doubtful_bytes > 0 {
        let and = if text.is_empty() { "" } else { ", and " };
        let _ = write!(
            text,
            "{and}{}",
            amount(counts.doubtful_bytes, "doubtful byte")
        );
    }
    text
}
