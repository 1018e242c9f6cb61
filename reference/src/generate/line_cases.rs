//! The line generator: kernels in hex for the program `listing` and texts for the program `assembler`, each determined
//! by a seed and an index.

use super::random::Random;
use super::{kernel_lines, texts};

#[derive(Clone, Copy, Debug, PartialEq, Eq)]
pub enum LineKind {
    Kernels,
    Texts,
}

impl LineKind {
    pub const ALL: [LineKind; 2] = [LineKind::Kernels, LineKind::Texts];

    pub fn name(self) -> &'static str {
        match self {
            LineKind::Kernels => "kernels",
            LineKind::Texts => "texts",
        }
    }

    pub fn of_name(name: &str) -> Option<LineKind> {
        LineKind::ALL.into_iter().find(|kind| kind.name() == name)
    }
}

/// One generated line.
#[derive(Clone, Debug, PartialEq, Eq)]
pub struct LineCase {
    pub index: u64,
    /// What is special about it.
    pub name: &'static str,
    /// The line, which has no 0x0a.
    pub line: Vec<u8>,
}

/// The line of a seed and an index.
pub fn line_case(kind: LineKind, seed: u64, index: u64) -> LineCase {
    let mut random = Random::new(seed, index);
    let (name, line) = match kind {
        LineKind::Kernels => kernel_lines::kernel_line(&mut random),
        LineKind::Texts => texts::text(&mut random),
    };
    LineCase { index, name, line }
}
