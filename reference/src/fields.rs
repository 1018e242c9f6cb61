//! What decoding and encoding ask of one stored number, a function for each kind of field.

use crate::element_type;
use crate::instruction::{CLASS_GENERAL, CLASS_IMMEDIATE};
use crate::number::{NOT_ALLOWED, RESERVED};

/// Where a vector operand stands. A scalar is a source.
#[derive(Clone, Copy, Debug, PartialEq, Eq)]
pub enum Role {
    Destination,
    Source,
}

fn reserved_unless(good: bool) -> Result<(), u8> {
    if good {
        Ok(())
    } else {
        Err(RESERVED)
    }
}

/// "Exec byte: bits 0-2 sizes 1, 2, 4, 8, 16, 32 (codes 6, 7 reserved; scatter 8 and 16 only)";
/// bit 3 is not named: "Bits not named are zero."
pub fn exec(byte: u8, scatter: bool) -> Result<(), u8> {
    reserved_unless(byte & 0x08 == 0)?;
    let code = byte & 0x07;
    reserved_unless(code < 6)?;
    // Code 3 is size 8, code 4 is size 16.
    reserved_unless(!scatter || code == 3 || code == 4)
}

/// "Pred word: bits 0-11 id, 12 zero, 13-14 none/any/all/reserved, 15 inverse."
pub fn pred(word: u16) -> Result<(), u8> {
    reserved_unless(word & 0x1000 == 0)?;
    reserved_unless((word >> 13) & 3 != 3)
}

/// "Num_blocks codes 0, 1, 2 are 1, 2, 4 bytes."
pub fn num_blocks(code: u8) -> Result<(), u8> {
    reserved_unless(code <= 2)
}

/// "Channels: low four bits, not all zero."
pub fn channels(byte: u8) -> Result<(), u8> {
    reserved_unless(byte != 0 && byte <= 15)
}

/// RAW_SEND's Modifiers: 002 names bit 0 alone, and "Bits not named are zero."
pub fn modifiers(byte: u8) -> Result<(), u8> {
    reserved_unless(byte <= 1)
}

/// "RAW_SEND: NumSrc 1-15"
pub fn num_src(count: u8) -> Result<(), u8> {
    reserved_unless((1..=15).contains(&count))
}

/// "NumDst 0-16"
pub fn num_dst(count: u8) -> Result<(), u8> {
    reserved_unless(count <= 16)
}

/// "tag (bits 0-2 class, 3-5 modifier)"; "then 2 or 3, then 4 for class and modifier";
/// "any class but General, or Immediate on a source, is 4"; "modifiers ... are left out".
pub fn tag(byte: u8, role: Role) -> Result<(), u8> {
    reserved_unless(byte & 0xc0 == 0)?;
    let class = byte & 0x07;
    let modifier = (byte >> 3) & 0x07;
    let class_allowed =
        class == CLASS_GENERAL || (class == CLASS_IMMEDIATE && role == Role::Source);
    if class_allowed && modifier == 0 {
        Ok(())
    } else {
        Err(NOT_ALLOWED)
    }
}

/// "An immediate type code not listed above and a region code over 7 are 3"
pub fn immediate_type(code: u8) -> Result<(), u8> {
    reserved_unless(element_type::size(code).is_some())
}

/// "region uw (bits 0-3 vertical, 4-7 width, 8-11 horizontal stride; codes 0 Null, 1..7 ...)"
pub fn region(word: u16) -> Result<(), u8> {
    let vertical = word & 15;
    let width = (word >> 4) & 15;
    let horizontal = (word >> 8) & 15;
    reserved_unless(word >> 12 == 0)?;
    reserved_unless(vertical <= 7 && width <= 7 && horizontal <= 7)
}

/// The encoder alone: "a non-zero high word that the type lacks is 3".
pub fn lacking_high(high: u32) -> Result<(), u8> {
    reserved_unless(high == 0)
}
