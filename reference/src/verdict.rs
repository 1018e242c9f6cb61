//! The verdict on a case file: the whole answer as one line, with what it carries besides its numbers.

use crate::bench::answer;
use crate::refusal::Detail;
use crate::run::Answer;

/// The line that the program `verdict` writes for a case file, with its 0x0a.
pub fn verdict(input: &[u8]) -> Vec<u8> {
    line_of(&answer(input))
}

/// `NUMBER COMPLETED POSITION`, then ` operand PLACE` or ` channel C lane L`.
pub fn line_of(answer: &Answer) -> Vec<u8> {
    let detail = match answer.detail {
        Detail::None => String::new(),
        Detail::Operand(place) => format!(" operand {place}"),
        Detail::Pair { channel, lane } => format!(" channel {channel} lane {lane}"),
    };
    let Answer {
        number,
        completed,
        position,
        ..
    } = answer;
    format!("{number} {completed} {position}{detail}\n").into_bytes()
}
