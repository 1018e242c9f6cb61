//! The words that a printed line has for the codes of its fields, as the pages and document 02 spell them.

use crate::element_type::{B, D, F, UB, UD, UQ, UW, W};

/// The sizes of the exec byte, each word under its code.
pub const SIZES: [(&str, u8); 6] = [("1", 0), ("2", 1), ("4", 2), ("8", 3), ("16", 4), ("32", 5)];

/// 000: "0b011: 8 elements, 0b100: 16 elements".
pub const SCATTER_SIZES: [(&str, u8); 2] = [("8", 3), ("16", 4)];

/// "Num_blocks shows 1, 2 or 4".
pub const NUM_BLOCKS: [(&str, u8); 3] = [("1", 0), ("2", 1), ("4", 2)];

/// "channels as letters of RGBA", with R being bit 0 and A bit 3.
pub const CHANNELS: [(&str, u8); 4] = [("R", 1), ("G", 2), ("B", 4), ("A", 8)];

/// 002: "0b0: raw_send, 0b1: raw_sendc".
pub const RAW_SENDS: [(&str, u8); 2] = [("raw_send", 0), ("raw_sendc", 1)];

/// "codes 0 Null, 1..7 for 0, 1, 2, 4, 8, 16, 32"; "n for Null".
pub const REGION_FIELDS: [(&str, u16); 8] = [
    ("n", 0),
    ("0", 1),
    ("1", 2),
    ("2", 3),
    ("4", 4),
    ("8", 5),
    ("16", 6),
    ("32", 7),
];

/// The immediate types that have no high word.
pub const TYPES_OF_32_BITS: [(&str, u8); 7] = [
    ("ud", UD),
    ("d", D),
    ("uw", UW),
    ("w", W),
    ("ub", UB),
    ("b", B),
    ("f", F),
];

/// The immediate type that has one: "high ud for UQ only".
pub const TYPES_OF_64_BITS: [(&str, u8); 1] = [("uq", UQ)];

/// The word of a code. The encoder has let the code pass, so there is one.
pub fn word<T: Copy + PartialEq>(words: &[(&'static str, T)], code: T) -> &'static str {
    let found = words.iter().find(|(_, it)| *it == code);
    found.expect("a code that the encoder refuses").0
}
