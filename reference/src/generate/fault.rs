//! One fault of an instruction: how it is made, the number that document 01 gives for it, and the place
//! of that number in the order of tests.

use super::random::Random;
use super::scene::Scene;
use crate::assemble::{Draft, Part, Slot};
use crate::refusal::Detail;

/// What a fault changes: two faults that change the same cannot be combined.
#[derive(Clone, Copy, Debug, PartialEq, Eq)]
pub enum Touch {
    Slot(Slot),
    /// One field of an operand's region word, by its lowest bit.
    RegionField(usize, u16),
    Taint,
    /// An element offset of a lane with an odd or even number.
    OddLane,
    EvenLane,
}

impl Touch {
    /// Whether two faults would change the same.
    pub fn meets(self, other: Touch) -> bool {
        let is_word_of = |word: Touch, field: Touch| match field {
            Touch::RegionField(n, _) => word == Touch::Slot(Slot::Operand(n, Part::Region)),
            _ => false,
        };
        self == other || is_word_of(self, other) || is_word_of(other, self)
    }
}

/// The form that a vector source must have for a fault.
#[derive(Clone, Copy, Debug, PartialEq, Eq)]
pub enum Form {
    General,
    Immediate,
}

type Apply = Box<dyn Fn(&mut Random, &mut Scene, &mut Draft) + Send + Sync>;

pub struct Fault {
    pub name: String,
    /// The number that it gives when nothing else is wrong.
    pub number: u8,
    /// The place of its test: the lowest one stands.
    pub rank: usize,
    pub needs: Option<(usize, Form)>,
    pub touches: Vec<Touch>,
    pub apply: Apply,
}

impl Fault {
    /// What its answer carries; of 11 and 12 the pair is not said.
    pub fn detail(&self) -> Option<Detail> {
        match self.number {
            11 | 12 => None,
            20..=25 => Some(Detail::Operand((self.rank - RANK_OPERANDS) / 10 + 1)),
            _ => Some(Detail::None),
        }
    }
}

/// The place of a field in the order of fields.
pub fn field_rank(slot: Slot) -> usize {
    match slot {
        Slot::Opcode => 0,
        Slot::SubOpcode => 1,
        Slot::Modifiers => 2,
        Slot::Exec => 3,
        Slot::Pred => 4,
        Slot::BlockSize => 5,
        Slot::NumBlocks => 6,
        Slot::Channels => 7,
        Slot::Scale => 8,
        Slot::Surface => 9,
        Slot::ExMsgDesc => 10,
        Slot::NumSrc => 11,
        Slot::NumDst => 12,
        Slot::Operand(operand, part) => {
            let within = match part {
                Part::Tag => 0,
                Part::Index | Part::Type => 1,
                Part::Row | Part::Low | Part::Offset => 2,
                Part::Column | Part::High => 3,
                Part::Region => 4,
            };
            20 + 10 * operand + within
        }
    }
}

/// "A run then tests 8; predicate 5; surface 5; each operand in order 5, 4 (type), 6, 7; 9; 10 over all
/// lanes; 11 over all; 12 over all." "6 becomes 20 to 24 ..., tested in that order within an operand; a scalar's
/// region is judged by 25 alone, in the same place." 17 stands "directly after the predicate's 5".
pub const RANK_8: usize = 100;
pub const RANK_PREDICATE: usize = 101;
pub const RANK_17: usize = 102;
pub const RANK_SURFACE: usize = 103;
/// Ten places for each operand.
pub const RANK_OPERANDS: usize = 110;
pub const RANK_9: usize = 150;
pub const RANK_10: usize = 160;
pub const RANK_11: usize = 161;
pub const RANK_12: usize = 162;

pub fn operand_rank(operand: usize, number: u8) -> usize {
    let within = match number {
        5 => 0,
        4 => 1,
        20..=24 => 2 + usize::from(number - 20),
        25 => 2,
        _ => 7,
    };
    RANK_OPERANDS + 10 * operand + within
}

/// Collects the faults of one kind of instruction.
pub struct Faults {
    pub list: Vec<Fault>,
}

impl Faults {
    /// A fault of one field, found while decoding.
    pub fn field(
        &mut self,
        name: &str,
        number: u8,
        slot: Slot,
        needs: Option<(usize, Form)>,
        bytes: impl Fn(&mut Random, &[u8]) -> Vec<u8> + Send + Sync + 'static,
    ) {
        self.list.push(Fault {
            name: name.to_string(),
            number,
            rank: field_rank(slot),
            needs,
            touches: vec![Touch::Slot(slot)],
            apply: Box::new(move |random, _, draft| {
                let old = draft.get(slot).unwrap().to_vec();
                let new = bytes(random, &old);
                draft.set(slot, &new);
            }),
        });
    }

    /// A fault that the run finds.
    pub fn run(
        &mut self,
        name: &str,
        number: u8,
        rank: usize,
        needs: Option<(usize, Form)>,
        touches: Vec<Touch>,
        apply: impl Fn(&mut Random, &mut Scene, &mut Draft) + Send + Sync + 'static,
    ) {
        self.list.push(Fault {
            name: name.to_string(),
            number,
            rank,
            needs,
            touches,
            apply: Box::new(apply),
        });
    }
}

pub fn or_byte(bits: u8) -> impl Fn(&mut Random, &[u8]) -> Vec<u8> {
    move |_, old| vec![old[0] | bits]
}

/// A byte from `low` to 255, the lowest more often than the rest.
pub fn byte_from(low: u64) -> impl Fn(&mut Random, &[u8]) -> Vec<u8> {
    move |random, _| vec![(low + random.edge(255 - low)) as u8]
}

pub fn word(value: u16) -> Vec<u8> {
    value.to_le_bytes().to_vec()
}

pub fn word_of(bytes: &[u8]) -> u16 {
    u16::from_le_bytes([bytes[0], bytes[1]])
}
