//! What the program `exec-table` writes for one exec byte, split as decoding and runs split it.

use crate::fields;
use crate::instruction::Instruction;

/// Byte, size and offset, then NM if so: `94 16 4 NM`; or `06 reserved`; without its 0x0a. A scatter's "8 and 16 only" and
/// "offset + ExecSize over 32" are no part of it.
pub fn exec_line(byte: u8) -> String {
    if fields::exec(byte, false).is_err() {
        return format!("{byte:02x} reserved");
    }
    let it = Instruction {
        exec: byte,
        ..Instruction::default()
    };
    let kind = if it.no_mask() { " NM" } else { "" };
    format!("{byte:02x} {} {}{kind}", it.exec_size(), it.mask_offset())
}
