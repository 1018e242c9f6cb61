//! The generator's report: how many cases of each mode and intended number, how many valid cases ran all
//! their instructions, the numbers that are answered, the operands that they name, the rare places that are reached, the
//! exec bytes that the instructions meet, the register sizes that are picked with their edges, and the mistakes that show.

use super::exec_reach::{met, Fate, Meeting, INSTRUCTIONS};
use super::mistakes::{Judged, Mistake};
use super::reach::{reached, Place};
use super::size_mistakes::SizeMistake;
use super::size_reach::{edge_of, sized_edges, Choice, OTHERS};
use super::{Generated, Mode};
use crate::refusal::Detail;
use crate::run::Answer;
use std::collections::BTreeMap;
use std::fmt::{self, Display};

#[derive(Default)]
pub struct Report {
    /// Cases by mode and intended number; none is intended for random bytes.
    pub intended: BTreeMap<(Mode, Option<u8>), u64>,
    /// Cases by the number answered.
    pub answered: BTreeMap<u8, u64>,
    /// Cases by the number answered and the place of the operand that it names.
    pub named: BTreeMap<(u8, usize), u64>,
    /// Cases that reach a rare place; one case may reach several.
    pub reached: BTreeMap<Place, u64>,
    /// Instructions by opcode, exec byte and what becomes of them by it.
    pub met: BTreeMap<(Meeting, Fate), u64>,
    /// Cases on which a program with a mistake answers wrongly.
    pub shown: BTreeMap<Mistake, u64>,
    /// The same for the mistakes of request 5, by the whole output.
    pub shown_by_output: BTreeMap<SizeMistake, u64>,
    /// Cases by mode and register size.
    pub sizes: BTreeMap<(Mode, Choice), u64>,
    /// Cases by the edges of request 5.
    pub edges: BTreeMap<String, u64>,
    pub valid: u64,
    /// Valid cases that answer 0: all their instructions were completed.
    pub valid_complete: u64,
    /// Instructions completed in all cases.
    pub completed: u64,
    pub bytes: u64,
    /// Names of cases, valid ones apart, that do not answer what is intended.
    pub unintended: Vec<String>,
}

impl Report {
    /// Count a case and the answer to it.
    pub fn add(&mut self, case: &Generated, answer: &Answer) {
        let number = answer.number;
        *self.intended.entry((case.mode, case.intended)).or_default() += 1;
        *self.answered.entry(number).or_default() += 1;
        if let Detail::Operand(place) = answer.detail {
            *self.named.entry((number, place)).or_default() += 1;
        }
        for place in reached(&case.file, answer) {
            *self.reached.entry(place).or_default() += 1;
        }
        for meeting in met(&case.file, answer) {
            *self.met.entry(meeting).or_default() += 1;
        }
        for mistake in Judged::of(&case.file, answer).mistakes() {
            *self.shown.entry(mistake).or_default() += 1;
        }
        for mistake in SizeMistake::shown(&case.file) {
            *self.shown_by_output.entry(mistake).or_default() += 1;
        }
        let choice = Choice::of(&case.file);
        *self.sizes.entry((case.mode, choice)).or_default() += 1;
        if let Some(edge) = edge_of(&case.name) {
            *self.edges.entry(edge).or_default() += 1;
        }
        self.completed += answer.completed as u64;
        self.bytes += case.file.len() as u64;
        if case.mode == Mode::Valid {
            self.valid += 1;
            self.valid_complete += u64::from(number == 0);
        } else if case.intended.is_some_and(|intended| intended != number)
            || case.carried.is_some_and(|carried| carried != answer.detail)
        {
            let meant = (case.intended, case.carried);
            let name = format!("{} meant {meant:?}, answered {answer:?}", case.name);
            self.unintended.push(name);
        }
    }

    /// How many cases reach a place.
    pub fn count_of(&self, place: Place) -> u64 {
        self.reached.get(&place).copied().unwrap_or_default()
    }

    /// How many exec bytes an instruction meets with a fate.
    pub fn exec_bytes(&self, opcode: u8, fate: Fate) -> usize {
        let is_such = |it: &&(Meeting, Fate)| it.0 .0 == opcode && it.1 == fate;
        self.met.keys().filter(is_such).count()
    }

    /// How many cases of a mode pick the register size so.
    pub fn sized(&self, mode: Mode, choice: Choice) -> u64 {
        self.sizes.get(&(mode, choice)).copied().unwrap_or_default()
    }

    /// How many cases have an edge of request 5.
    pub fn with_edge(&self, edge: &str) -> u64 {
        self.edges.get(edge).copied().unwrap_or_default()
    }

    /// On how many cases a mistake of request 5 shows.
    pub fn shown_by_size(&self, mistake: SizeMistake) -> u64 {
        self.shown_by_output
            .get(&mistake)
            .copied()
            .unwrap_or_default()
    }

    /// On how many cases a mistake shows.
    pub fn shown_by(&self, mistake: Mistake) -> u64 {
        self.shown.get(&mistake).copied().unwrap_or_default()
    }
}

impl Display for Report {
    fn fmt(&self, to: &mut fmt::Formatter) -> fmt::Result {
        writeln!(to, "cases by mode and intended number:")?;
        for mode in Mode::ALL {
            let of_mode: Vec<_> = self
                .intended
                .iter()
                .filter(|((m, _), _)| *m == mode)
                .collect();
            let total: u64 = of_mode.iter().map(|(_, count)| **count).sum();
            write!(to, "  {:<13}{total:>7} ", mode.name())?;
            for ((_, intended), count) in of_mode {
                match intended {
                    Some(number) => write!(to, "  {number}: {count}")?,
                    None => write!(to, "  any: {count}")?,
                }
            }
            writeln!(to)?;
        }
        write!(to, "answers: ")?;
        for (number, count) in &self.answered {
            write!(to, "  {number}: {count}")?;
        }
        writeln!(to)?;
        writeln!(to, "operands named, by number and place:")?;
        for ((number, place), count) in &self.named {
            writeln!(to, "  {number}, operand {place:<22}{count:>6}")?;
        }
        writeln!(to, "rare places reached:")?;
        for place in Place::ALL {
            writeln!(to, "  {:<34}{:>6}", place.name(), self.count_of(place))?;
        }
        writeln!(to, "exec bytes met: taken, over 32, reserved")?;
        for (opcode, name) in INSTRUCTIONS {
            write!(to, "  {name:<24}")?;
            for fate in Fate::ALL {
                write!(to, "{:>6}", self.exec_bytes(opcode, fate))?;
            }
            writeln!(to)?;
        }
        write!(to, "register sizes:   ")?;
        for choice in Choice::ALL {
            write!(to, "{:>11}", choice.name())?;
        }
        writeln!(to)?;
        for mode in Mode::ALL {
            write!(to, "  {:<16}", mode.name())?;
            for choice in Choice::ALL {
                write!(to, "{:>11}", self.sized(mode, choice))?;
            }
            writeln!(to)?;
        }
        writeln!(to, "edges of the register size, with 32 and with 64:")?;
        for (edge, [of_32, of_64]) in sized_edges() {
            let (of_32, of_64) = (self.with_edge(&of_32), self.with_edge(&of_64));
            writeln!(to, "  {edge:<46}{of_32:>6}{of_64:>6}")?;
        }
        for edge in OTHERS {
            writeln!(to, "  {edge:<46}{:>6}", self.with_edge(edge))?;
        }
        writeln!(to, "mistakes of the register size that show:")?;
        for mistake in SizeMistake::ALL {
            let count = self.shown_by_size(mistake);
            writeln!(to, "  {:<44}{count:>6}", mistake.name())?;
        }
        writeln!(to, "mistakes that show:")?;
        for mistake in Mistake::ALL {
            let count = self.shown_by(mistake);
            writeln!(to, "  {:<34}{count:>6}", mistake.name())?;
        }
        let percent = 100 * self.valid_complete / self.valid.max(1);
        writeln!(
            to,
            "valid cases that ran all their instructions: {} of {} ({percent} %)",
            self.valid_complete, self.valid
        )?;
        writeln!(to, "instructions completed: {}", self.completed)?;
        writeln!(to, "bytes of case files: {}", self.bytes)?;
        writeln!(
            to,
            "cases not answered as intended: {}",
            self.unintended.len()
        )?;
        for name in self.unintended.iter().take(10) {
            writeln!(to, "  {name}")?;
        }
        Ok(())
    }
}
