//! Each case with its outcome, its comparison with the card's answer, and the instruction that goes with it.

use std::fs;
use std::io;
use std::os::unix::ffi::OsStrExt;
use std::path::Path;

use crate::answer::{Answer, Head, TOO_LONG};
use crate::case::CaseFile;
use crate::compare::{compare, Comparison};
use crate::folders::Case;
use crate::listing;
use crate::run::Outcome;
use crate::words::{reason, shown};

/// A case with all that is known of it.
pub struct Entry<'a> {
    pub case: &'a Case,
    pub outcome: Outcome,
    /// With a card: what differs, or why nothing can be compared. None where the bench has no answer.
    pub comparison: Option<Result<Comparison, String>>,
    /// The refused or last instruction, in a sentence, and the one where the card stopped.
    pub instruction: Option<String>,
    pub card_instruction: Option<String>,
}

impl Entry<'_> {
    pub fn name(&self) -> String {
        shown(&self.case.name)
    }

    pub fn head(&self) -> Option<Head> {
        match &self.outcome {
            Outcome::Answered { head, .. } => Some(*head),
            Outcome::NotAnswered(_) => None,
        }
    }

    pub fn compared(&self) -> Option<&Comparison> {
        self.comparison.as_ref()?.as_ref().ok()
    }

    pub fn not_compared(&self) -> Option<&str> {
        let wrong = self.comparison.as_ref()?.as_ref().err()?;
        Some(wrong)
    }

    pub fn differences(&self) -> usize {
        self.compared()
            .map_or(0, |found| found.counts.differences())
    }

    /// Whether doubtful bytes differ, and nothing else does.
    pub fn differs_in_doubt_alone(&self) -> bool {
        self.differences() == 0
            && self
                .compared()
                .is_some_and(|found| !found.doubtful.is_empty())
    }

    /// What was wrong with a refused case, and where.
    pub fn refusal(&self) -> Option<String> {
        let Outcome::Answered { head, why, .. } = &self.outcome else {
            return None;
        };
        let Head {
            number, position, ..
        } = *head;
        match number {
            0 => None,
            13 | 14 => {
                let place = match why {
                    Some(why) => format!(", {why}"),
                    None if number == 14 => format!(", line {position}"),
                    None => String::new(),
                };
                Some(format!("{number}{place}"))
            }
            _ => {
                let text = self
                    .instruction
                    .as_deref()
                    .unwrap_or("instruction not known");
                Some(format!("{number}, {text}"))
            }
        }
    }
}

/// The entries of all cases, compared where there is a card.
pub fn entries<'a>(
    cases: &'a [Case],
    outcomes: Vec<Outcome>,
    card: Option<&Path>,
    answers: &Path,
) -> Vec<Entry<'a>> {
    let entry = |(case, outcome): (&'a Case, Outcome)| {
        let comparison = match (&outcome, card) {
            (Outcome::Answered { head, .. }, Some(card)) => {
                Some(compare_case(case, *head, answers, card))
            }
            _ => None,
        };
        Entry {
            case,
            outcome,
            comparison,
            instruction: None,
            card_instruction: None,
        }
    };
    cases.iter().zip(outcomes).map(entry).collect()
}

fn compare_case(
    case: &Case,
    head: Head,
    answers: &Path,
    card: &Path,
) -> Result<Comparison, String> {
    let card = read_answer(&case.answer_below(card), true)?;
    let bench = read_answer(&case.answer_below(answers), false)?;
    Ok(compare(&read_case(case, head)?, &bench, &card))
}

pub fn read_answer(path: &Path, is_of_card: bool) -> Result<Answer, String> {
    let name = shown(path.as_os_str().as_bytes());
    let text = match fs::metadata(path) {
        Ok(about) if !about.is_file() => return Err(format!("{name} is no file")),
        Ok(about) if about.len() >= TOO_LONG => {
            return Err(format!("{name} is too long for an answer"))
        }
        Ok(_) => fs::read(path),
        Err(error) => Err(error),
    };
    let text = text.map_err(|error| match error.kind() {
        io::ErrorKind::NotFound => format!("there is no {name}"),
        _ => format!("{name} cannot be read: {}", reason(&error)),
    })?;
    Answer::read(&text, is_of_card).map_err(|wrong| format!("{name}: {wrong}"))
}

/// Where nothing ran, nothing of the case is wanted.
pub fn read_case(case: &Case, head: Head) -> Result<CaseFile, String> {
    if head.nothing_ran() {
        return Ok(CaseFile::default());
    }
    let name = shown(&case.name);
    let text = fs::read(&case.file)
        .map_err(|error| format!("{name} cannot be read: {}", reason(&error)))?;
    CaseFile::read(&text).map_err(|wrong| format!("{name}: {wrong}"))
}

/// Puts the refused or last instruction beside each case that is refused or differs. False where the listing broke off.
pub fn tell_instructions(entries: &mut [Entry], program: &Path) -> bool {
    let mut wanted = Vec::new();
    for (index, entry) in entries.iter().enumerate() {
        let Some(head) = entry.head().filter(|head| !head.nothing_ran()) else {
            continue;
        };
        let differs = entry.differences() > 0 || entry.differs_in_doubt_alone();
        if head.number == 0 && !differs {
            continue;
        }
        if let Ok(case) = read_case(entry.case, head) {
            wanted.push((index, head, case.kernel));
        }
    }
    let kernels: Vec<&[u8]> = wanted.iter().map(|(_, _, kernel)| &kernel[..]).collect();
    let Some(listings) = listing::list(program, &kernels) else {
        return false;
    };
    for ((index, head, kernel), lines) in wanted.iter().zip(&listings) {
        let entry = &mut entries[*index];
        let at = |head: Head| {
            let completed = usize::from(head.completed);
            let text = listing::instruction(lines, completed, kernel)?;
            let position = head.position;
            Some(format!(
                "instruction {}, at byte {position}: {text}",
                completed + 1
            ))
        };
        entry.instruction = if head.number == 0 {
            let last = usize::from(head.completed).checked_sub(1);
            last.and_then(|last| listing::instruction(lines, last, kernel))
                .map(|text| format!("last instruction, {}: {text}", head.completed))
        } else {
            at(*head)
        };
        let card = entry.compared().and_then(|found| found.heads);
        let card = card.map(|(_, card)| card);
        entry.card_instruction = card
            .filter(|card| card.number != 0 && !card.nothing_ran())
            .filter(|card| (card.completed, card.position) != (head.completed, head.position))
            .and_then(at)
            .map(|text| format!("card: {text}"));
    }
    true
}
