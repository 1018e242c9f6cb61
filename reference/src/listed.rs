//! What the program `listing` writes for one of its lines: a kernel in hex in, its instructions as text out.

use crate::decode::decode;
use crate::hex::bytes_of;
use crate::number::BAD_LINE;
use crate::print::print;

/// The longest kernel that is listed, in bytes.
pub const LONGEST_KERNEL: usize = 65_536;

/// A line for each instruction, and `! NUMBER POSITION` where decoding refuses; `! 14 0` for a line that is no hex or
/// longer than the longest kernel. An empty line is an empty kernel, which has no instruction. Lines come in and go out
/// without their 0x0a.
pub fn listed(line: &[u8]) -> Vec<String> {
    match bytes_of(line) {
        Some(kernel) if kernel.len() <= LONGEST_KERNEL => instructions(&kernel),
        _ => vec![format!("! {BAD_LINE} 0")],
    }
}

fn instructions(kernel: &[u8]) -> Vec<String> {
    let mut lines = Vec::new();
    let mut position = 0;
    while position < kernel.len() {
        let decoded = decode(kernel, position);
        if decoded.part.is_empty() {
            lines.push(format!("! {} {position}", decoded.number));
            break;
        }
        lines.push(print(&decoded.instruction).expect("fields that decoding takes are printed"));
        position += decoded.part.len();
    }
    lines
}
