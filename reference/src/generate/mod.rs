//! The generators: case files in six modes, and lines for kernels as text (`line_cases`), each determined by a seed and
//! an index.

pub mod accepted;
pub mod address_faults;
pub mod bad_lines;
pub mod exec_bytes;
pub mod exec_reach;
pub mod far_rows;
pub mod fault;
pub mod faults;
pub mod first_pairs;
pub mod instructions;
pub mod kernel_lines;
pub mod largest_kernel;
pub mod length_mistakes;
pub mod limits;
pub mod line_cases;
pub mod lines;
pub mod mistakes;
pub mod near_misses;
pub mod operand_faults;
pub mod predicate_counts;
pub mod random;
pub mod random_bytes;
pub mod reach;
pub mod region_mistakes;
pub mod region_words;
pub mod register_sizes;
pub mod report;
pub mod scene;
pub mod size_mistakes;
pub mod size_reach;
pub mod slip_one;
pub mod table_faults;
pub mod texts;
pub mod two_faults;
pub mod valid;

use crate::refusal::Detail;
use near_misses::Ways;
use random::Random;

#[derive(Clone, Copy, Debug, PartialEq, Eq, PartialOrd, Ord)]
pub enum Mode {
    Valid,
    ExecBytes,
    NearMiss,
    TwoFaults,
    BadLines,
    RandomBytes,
}

impl Mode {
    pub const ALL: [Mode; 6] = [
        Mode::Valid,
        Mode::ExecBytes,
        Mode::NearMiss,
        Mode::TwoFaults,
        Mode::BadLines,
        Mode::RandomBytes,
    ];

    pub fn name(self) -> &'static str {
        match self {
            Mode::Valid => "valid",
            Mode::ExecBytes => "exec-bytes",
            Mode::NearMiss => "near-miss",
            Mode::TwoFaults => "two-faults",
            Mode::BadLines => "bad-lines",
            Mode::RandomBytes => "random-bytes",
        }
    }

    pub fn of_name(name: &str) -> Option<Mode> {
        Mode::ALL.into_iter().find(|mode| mode.name() == name)
    }
}

/// One generated case.
#[derive(Clone, Debug, PartialEq, Eq)]
pub struct Generated {
    pub mode: Mode,
    /// What is special about it.
    pub name: String,
    /// The number that the generator means it to give, if it means one.
    pub intended: Option<u8>,
    /// What the answer is meant to carry, if the generator says it.
    pub carried: Option<Detail>,
    /// The case file.
    pub file: Vec<u8>,
}

/// Makes the cases of one seed.
pub struct Generator {
    seed: u64,
    only: Option<Mode>,
    ways: Ways,
}

impl Generator {
    /// All modes mixed, or one alone.
    pub fn new(seed: u64, only: Option<Mode>) -> Generator {
        Generator {
            seed,
            only,
            ways: Ways::all(),
        }
    }

    /// How many ways of a near miss there are; they come in turn.
    pub fn near_miss_ways(&self) -> usize {
        self.ways.count()
    }

    /// What says which case has an index, before it is made.
    pub fn place(&self, index: u64) -> String {
        let mode = self.mode_and_number(index).0.name();
        format!("seed {}, case {index} ({mode})", self.seed)
    }

    /// The mode of an index and its running number there. Of twenty cases six are valid, two have an exec byte of their
    /// own, six are near misses, three have two faults, one has a bad line and two are random bytes.
    fn mode_and_number(&self, index: u64) -> (Mode, u64) {
        let (round, turn) = (index / 20, index % 20);
        match (self.only, turn) {
            (Some(mode), _) => (mode, index),
            (None, 0..=5) => (Mode::Valid, 0),
            (None, 6..=7) => (Mode::ExecBytes, 2 * round + turn - 6),
            (None, 8..=13) => (Mode::NearMiss, 6 * round + turn - 8),
            (None, 14..=16) => (Mode::TwoFaults, 3 * round + turn - 14),
            (None, 17) => (Mode::BadLines, round),
            (None, _) => (Mode::RandomBytes, 0),
        }
    }

    /// The case of an index.
    pub fn case(&self, index: u64) -> Generated {
        let mut random = Random::new(self.seed, index);
        let (mode, number) = self.mode_and_number(index);
        match mode {
            Mode::Valid => valid::valid(&mut random),
            Mode::ExecBytes => exec_bytes::exec_byte(&mut random, number),
            Mode::NearMiss => self.ways.near_miss(&mut random, number),
            Mode::TwoFaults => self.ways.two_faults(&mut random, number),
            Mode::BadLines => bad_lines::bad_lines(&mut random, number),
            Mode::RandomBytes => random_bytes::random_bytes(&mut random),
        }
    }
}
