//! The rare places that a case reaches, judged from its file and its output alone: what the generator means
//! by the case is not asked.

use crate::case::Case;
use crate::case_file::read_case;
use crate::decode::decode;
use crate::element;
use crate::instruction::Instruction;
use crate::lanes::lanes_on;
use crate::number::{BAD_LINE, DONE, OUTSIDE, SIZES, TAINTED_ADDRESS};
use crate::run::{run, Answer};

/// A place that random cases reach seldom or never.
///
/// Row R starts at byte R times a register's bytes of its variable, and no variable is longer than the 4,096 bytes of the
/// largest register file: row 127 is the last that can be accepted, or row 63 of 64 bytes, and a larger one is 7 unless an
/// earlier test refuses.
#[derive(Clone, Copy, Debug, PartialEq, Eq, PartialOrd, Ord)]
pub enum Place {
    /// The run ends with 7 at an instruction that decodes and has a row behind the last.
    RowBehindLastOutside,
    /// It ends there with another number.
    RowBehindLastRefusedBefore,
    /// An instruction with the last row is completed, of 32 bytes or of 64.
    LastRowOf32Completed,
    LastRowOf64Completed,
    /// 14 at a line whose number takes more than a byte.
    LineOver255,
    /// 10 where slip 1 answers 11: no lane before the first unaligned one is tainted.
    UnalignedBeforeTainted,
    /// A refusal at the last byte of the largest kernel.
    LastByteOfLargestKernel,
}

impl Place {
    pub const ALL: [Place; 7] = [
        Place::RowBehindLastOutside,
        Place::RowBehindLastRefusedBefore,
        Place::LastRowOf32Completed,
        Place::LastRowOf64Completed,
        Place::LineOver255,
        Place::UnalignedBeforeTainted,
        Place::LastByteOfLargestKernel,
    ];

    pub fn name(self) -> &'static str {
        match self {
            Place::RowBehindLastOutside => "a row behind the last, answer 7",
            Place::RowBehindLastRefusedBefore => "a row behind the last, refused before",
            Place::LastRowOf32Completed => "row 127 of 32 bytes, completed",
            Place::LastRowOf64Completed => "row 63 of 64 bytes, completed",
            Place::LineOver255 => "14 at a line over 255",
            Place::UnalignedBeforeTainted => "10 where slip 1 answers 11",
            Place::LastByteOfLargestKernel => "a refusal at byte 4,095 of 4,096",
        }
    }
}

/// The places that a case reaches, `answer` being the answer to its file.
pub fn reached(file: &[u8], answer: &Answer) -> Vec<Place> {
    let mut places = Vec::new();
    let mut see = |place, there| {
        if there {
            places.push(place);
        }
    };
    if answer.number == BAD_LINE {
        see(Place::LineOver255, answer.position > 255);
        return places;
    }
    let case = match read_case(file) {
        Ok(case) if answer.number != SIZES => case,
        _ => return places,
    };
    see(
        Place::LastByteOfLargestKernel,
        answer.number != DONE && answer.position == 4095 && case.kernel.len() == 4096,
    );
    let last_row = (4096 / case.register_size.bytes() - 1) as u8;
    let in_last_row =
        completed(&case.kernel, answer.position).any(|it| highest_row(&it) == last_row);
    see(Place::LastRowOf32Completed, in_last_row && last_row == 127);
    see(Place::LastRowOf64Completed, in_last_row && last_row == 63);
    if answer.number == DONE {
        return places;
    }
    let refused = decode(&case.kernel, answer.position);
    if refused.number != DONE {
        return places;
    }
    let far = highest_row(&refused.instruction) > last_row;
    let outside = answer.number == OUTSIDE;
    see(Place::RowBehindLastOutside, far && outside);
    see(Place::RowBehindLastRefusedBefore, far && !outside);
    see(
        Place::UnalignedBeforeTainted,
        answer.number == TAINTED_ADDRESS && slip_1_answers_11(case.clone(), &refused.instruction),
    );
    places
}

/// The instructions before a position.
pub fn completed(kernel: &[u8], end: usize) -> impl Iterator<Item = Instruction> + '_ {
    let mut position = 0;
    std::iter::from_fn(move || {
        if position >= end {
            return None;
        }
        let decoded = decode(kernel, position);
        position += decoded.part.len();
        (decoded.number == DONE).then_some(decoded.instruction)
    })
}

/// Operands that the instruction does not have, and immediates, have row 0.
fn highest_row(it: &Instruction) -> u8 {
    let operands = [it.dst, it.src0, it.src1, it.scalar];
    operands
        .map(|operand| operand.row)
        .into_iter()
        .max()
        .unwrap()
}

/// Slip 1, "Testing alignment lane by lane before asking about doubt", made on purpose: whether alignment
/// comes before doubt in each lane or in all of them, it answers 11 here.
fn slip_1_answers_11(mut case: Case, scatter: &Instruction) -> bool {
    // A refusal changes nothing, so the run leaves what the refused scatter meets.
    run(&mut case);
    let on = lanes_on(&case, scatter);
    let address = element::scalar(&case, &scatter.scalar, case.register_size.bytes());
    for lane in (0..scatter.exec_size()).filter(|lane| on[*lane as usize]) {
        let offset = element::raw(&case, &scatter.element_offset, lane);
        // The 4c of a channel leaves the remainder by 4 as it is.
        if address.bits.wrapping_add(offset.bits) % 4 != 0 {
            return true;
        }
        if address.tainted || offset.tainted {
            return false;
        }
    }
    false
}
