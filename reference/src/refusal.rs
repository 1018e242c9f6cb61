//! A refusal: its number, and what it carries besides (document 02, request 2).

/// What an answer carries besides its numbers. The 40 line does not show it.
#[derive(Clone, Copy, Debug, Default, PartialEq, Eq, PartialOrd, Ord)]
pub enum Detail {
    #[default]
    None,
    /// 20 to 25: "name the operand by its place in field order, from 1, surfaces not counted".
    Operand(usize),
    /// "11 and 12 now carry channel and lane of the first offending pair".
    Pair { channel: u64, lane: u64 },
}

#[derive(Clone, Copy, Debug, PartialEq, Eq)]
pub struct Refusal {
    pub number: u8,
    pub detail: Detail,
}

impl Refusal {
    /// A number that names an operand.
    pub fn of_operand(number: u8, place: usize) -> Refusal {
        Refusal {
            number,
            detail: Detail::Operand(place),
        }
    }
}

/// A number that carries nothing.
impl From<u8> for Refusal {
    fn from(number: u8) -> Refusal {
        Refusal {
            number,
            detail: Detail::None,
        }
    }
}
