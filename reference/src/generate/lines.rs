//! A case as the lines of a case file, in varying ways that mean the same.

use super::random::Random;
use crate::case::Case;
use crate::case_writer::{case_lines, register_size_line};
use crate::register_size::RegisterSize;

/// The case's lines: taint frames of zeros and empty frames may be absent, and so may a predicate's count of 32 and a
/// register size of 32; frames may come in any order as long as those that repeat keep theirs.
pub fn lines_of(random: &mut Random, case: &Case) -> Vec<Vec<u8>> {
    let mut lines = case_lines(case);
    for line in &mut lines {
        // "an old four-byte frame means 32"
        if line.starts_with(b"03") && line.ends_with(b"20") && random.chance(50) {
            line.truncate(10);
        }
    }
    lines.retain(|line| {
        let kind = &line[..2];
        let all_zero = line[2..].iter().all(|digit| *digit == b'0');
        let may_be_absent = match kind {
            b"08" => all_zero && case.register_taint.len() == case.registers.len(),
            b"09" => all_zero && case.surface_taint.len() == case.surface_bytes(),
            b"0a" => all_zero && case.memory_taint.len() == case.memory.len(),
            b"01" | b"07" => line.len() == 2,
            b"05" => case.base == 0 && case.memory.is_empty(),
            b"06" => all_zero,
            // Put in below.
            b"0b" => return false,
            _ => false,
        };
        !(may_be_absent && random.chance(70))
    });
    if random.chance(30) {
        // Move some lines that come once at most.
        for _ in 0..4 {
            let from = random.below(lines.len().max(1) as u64) as usize;
            let to = random.below(lines.len().max(1) as u64) as usize;
            let repeats = |line: &Vec<u8>| matches!(&line[..2], b"02" | b"03" | b"04");
            if lines.get(from).is_some_and(|line| !repeats(line)) {
                let line = lines.remove(from);
                lines.insert(to, line);
            }
        }
    }
    // "absent means 32"
    if case.register_size != RegisterSize::OF_32 || random.chance(50) {
        let place = random.edge(lines.len() as u64) as usize;
        lines.insert(place, register_size_line(case));
    }
    lines
}

/// The file of some lines: "A line ends in 0x0a, which the last may lack."
pub fn file_of(random: &mut Random, lines: &[Vec<u8>]) -> Vec<u8> {
    let mut file = Vec::new();
    for line in lines {
        file.extend(line);
        file.push(0x0a);
    }
    let last_is_empty = lines.last().is_some_and(Vec::is_empty);
    if random.chance(20) && !last_is_empty {
        file.pop();
    }
    file
}
