//! The effect of GATHER_SCALED: bytes of a surface into the dwords of Dst.

use crate::case::Case;
use crate::element;
use crate::instruction::Instruction;
use crate::register_size::Followers;

pub fn gather(case: &mut Case, instruction: &Instruction, on: &[bool], followers: &Followers) {
    let exec_size = instruction.exec_size();

    // "All sources are read before any write."
    let offset = element::scalar(case, &instruction.scalar, followers.rows);
    let mut element_offsets = Vec::new();
    for lane in 0..exec_size {
        element_offsets.push(element::raw(case, &instruction.element_offset, lane));
    }

    let surface = usize::from(instruction.surface);
    let surface_length = case.surfaces[surface].len() as u64;
    let taint_start = case.surface_taint_start(surface);

    for lane in 0..exec_size as usize {
        if !on[lane] {
            continue;
        }
        // "Address is their sum modulo 2^32"
        let address = (offset.bits + element_offsets[lane].bits) % (1u64 << 32);
        // "A gathered dword is wholly marked if any byte of its offset or element offset was"
        let address_tainted = offset.tainted || element_offsets[lane].tainted;
        let to = element::raw_position(case, &instruction.raw_dst, lane as u64);

        for k in 0..4 {
            // "the block's later bytes do not wrap. Each byte at or past the surface's end reads 0.
            // Bytes of the dword above the block become 0."
            let in_block = k < instruction.block_bytes();
            let from = address + k;
            let mut byte = 0;
            // "zeros are unmarked"
            let mut tainted = false;
            if in_block && from < surface_length {
                byte = case.surfaces[surface][from as usize];
                // "else each byte takes the mark of the surface byte read"
                tainted = case.surface_taint[taint_start + from as usize] != 0;
            }
            let tainted = address_tainted || tainted;
            element::write(case, to + k, 1, u64::from(byte), tainted);
        }
    }
}
