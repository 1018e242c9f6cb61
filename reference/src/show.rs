//! Show: "given register or memory, a start and a length, the bench hands back that part of one of
//! those two buffers, or refuses with 7 and an empty part exactly when it runs over the end."

use crate::number::{DONE, OUTSIDE};

#[derive(Clone, Copy, Debug, PartialEq, Eq)]
pub enum Buffer {
    Registers,
    Memory,
}

/// The number, and apart from it the part.
pub fn show<'a>(
    registers: &'a [u8],
    memory: &'a [u8],
    buffer: Buffer,
    start: usize,
    length: usize,
) -> (u8, &'a [u8]) {
    let bytes = match buffer {
        Buffer::Registers => registers,
        Buffer::Memory => memory,
    };
    // The sum is exact: it cannot wrap in 128 bits.
    if start as u128 + length as u128 > bytes.len() as u128 {
        (OUTSIDE, &[])
    } else {
        (DONE, &bytes[start..start + length])
    }
}
