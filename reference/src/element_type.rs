//! The element types: "Codes and sizes: UD 0, D 1, F 7 (4 bytes); UW 2, W 3 (2); UB 4, B 5 (1); UQ 11 (8)."

pub const UD: u8 = 0;
pub const D: u8 = 1;
pub const UW: u8 = 2;
pub const W: u8 = 3;
pub const UB: u8 = 4;
pub const B: u8 = 5;
pub const F: u8 = 7;
pub const UQ: u8 = 11;

/// Every listed code.
pub const ALL: [u8; 8] = [UD, D, UW, W, UB, B, F, UQ];

/// Bytes of one element, or nothing for a code that is not listed.
pub fn size(code: u8) -> Option<u64> {
    match code {
        UD | D | F => Some(4),
        UW | W => Some(2),
        UB | B => Some(1),
        UQ => Some(8),
        _ => None,
    }
}

/// "signed types signed"
pub fn is_signed(code: u8) -> bool {
    matches!(code, D | W | B)
}

/// SHL: "integer types of at most 4 bytes, freely mixed."
pub const SHL_TYPES: [u8; 6] = [UD, D, UW, W, UB, B];

/// GATHER: "Dst is UD, D or F." SCATTER: "Src is UD, D or F."
pub const DWORD_TYPES: [u8; 3] = [UD, D, F];
