//! Which register size a case file picks, and how, judged from the file alone; and the edges of request 5, by the names of
//! the cases.

use super::bad_lines::{
    OTHER_SIZE_TWICE, SAME_SIZE_TWICE, SIZE_OF_NO_BYTE, SIZE_OF_TWO_BYTES, WRONG_SIZE_THEN_BAD_LINE,
};
use super::register_sizes::{edge_name, edge_names, WRONG_SIZE, WRONG_SIZE_AND_13};
use crate::case_file::read_case;
use crate::register_size::RegisterSize;

#[derive(Clone, Copy, Debug, PartialEq, Eq, PartialOrd, Ord)]
pub enum Choice {
    /// 32, no frame 0b being there.
    Absent,
    /// 32 by a frame.
    Of32,
    Of64,
    /// A size that is none.
    Other,
    /// A line is bad; a frame of 64 is there, or not.
    NotReadOf64,
    NotRead,
}

impl Choice {
    pub const ALL: [Choice; 6] = [
        Choice::Absent,
        Choice::Of32,
        Choice::Of64,
        Choice::Other,
        Choice::NotReadOf64,
        Choice::NotRead,
    ];

    pub fn name(self) -> &'static str {
        match self {
            Choice::Absent => "32, no 0b",
            Choice::Of32 => "32, 0b20",
            Choice::Of64 => "64, 0b40",
            Choice::Other => "another",
            Choice::NotReadOf64 => "14, 0b40",
            Choice::NotRead => "14, other",
        }
    }

    pub fn of(file: &[u8]) -> Choice {
        let mut lines = file.split(|byte| *byte == 0x0a);
        let Ok(case) = read_case(file) else {
            return match lines.any(|line| line == b"0b40") {
                true => Choice::NotReadOf64,
                false => Choice::NotRead,
            };
        };
        match case.register_size {
            RegisterSize::OF_32 if lines.any(|line| line.starts_with(b"0b")) => Choice::Of32,
            RegisterSize::OF_32 => Choice::Absent,
            RegisterSize::OF_64 => Choice::Of64,
            _ => Choice::Other,
        }
    }
}

/// The edges that come with each size: each with its two names.
pub fn sized_edges() -> Vec<(&'static str, [String; 2])> {
    let sizes = [RegisterSize::OF_32, RegisterSize::OF_64];
    let both = |name| (name, sizes.map(|size| edge_name(size, name)));
    edge_names().map(both).collect()
}

/// The others: sizes that are none, and bad lines.
pub const OTHERS: [&str; 7] = [
    WRONG_SIZE,
    WRONG_SIZE_AND_13,
    SIZE_OF_NO_BYTE,
    SIZE_OF_TWO_BYTES,
    SAME_SIZE_TWICE,
    OTHER_SIZE_TWICE,
    WRONG_SIZE_THEN_BAD_LINE,
];

/// The edge of a case by its name.
pub fn edge_of(name: &str) -> Option<String> {
    if name.starts_with("registers of ") {
        return Some(name.to_string());
    }
    // Two faults have both names, and a bad line may stand further down.
    let found = OTHERS.into_iter().find(|it| name.contains(it));
    found.map(str::to_string)
}
