//! SVM SCATTER4_SCALED: the tests 10, 11 and 12 of its addresses, then its effect on memory.
//!
//! A channel is document 01's channel c, one of R, G, B, A; a lane is the instruction's channel n.

use crate::case::Case;
use crate::element;
use crate::instruction::Instruction;
use crate::number::{NOT_IN_WINDOW, TAINTED_ADDRESS, UNALIGNED};
use crate::refusal::{Detail, Refusal};
use crate::register_size::{channel_stride, Followers};

/// One enabled channel-and-lane pair.
struct Pair {
    channel: u64,
    lane: u64,
    /// "address + element offset + 4c modulo 2^64"
    address: u64,
    /// The dword of Src that goes there.
    dword: u64,
}

impl Pair {
    /// "11 and 12 now carry channel and lane of the first offending pair".
    fn refused_by(&self, number: u8) -> Refusal {
        let detail = Detail::Pair {
            channel: self.channel,
            lane: self.lane,
        };
        Refusal { number, detail }
    }
}

pub fn scatter(
    case: &mut Case,
    instruction: &Instruction,
    on: &[bool],
    followers: &Followers,
) -> Result<(), Refusal> {
    let exec_size = instruction.exec_size();
    let address = element::scalar(case, &instruction.scalar, followers.rows);

    // "10 over all lanes": "A marked byte in any enabled lane's scatter address or element offset
    // gives 10."
    for lane in 0..exec_size {
        if on[lane as usize] {
            let element_offset = element::raw(case, &instruction.element_offset, lane);
            if address.tainted || element_offset.tainted {
                return Err(TAINTED_ADDRESS.into());
            }
        }
    }

    // "Order: c outer, i inner"
    let mut pairs = Vec::new();
    let mut enabled_below = 0; // "p the number of enabled channels below c"
    for channel in 0..4u64 {
        if (instruction.channels >> channel) & 1 == 0 {
            continue;
        }
        for lane in 0..exec_size {
            if !on[lane as usize] {
                continue;
            }
            let element_offset = element::raw(case, &instruction.element_offset, lane);
            let sum = u128::from(address.bits)
                + u128::from(element_offset.bits)
                + 4 * u128::from(channel);
            pairs.push(Pair {
                channel,
                lane,
                address: (sum % (1u128 << 64)) as u64,
                // "Its data are dword p·max(ExecSize, 8)+i of Src", with the stride of the register size.
                dword: enabled_below * channel_stride(followers.scatter_data, exec_size) + lane,
            });
        }
        enabled_below += 1;
    }

    // "11 over all": "scatter address not a multiple of 4"
    for pair in &pairs {
        if pair.address % 4 != 0 {
            return Err(pair.refused_by(UNALIGNED));
        }
    }
    // "12 over all": "its four bytes not all in the window"
    let window_end = u128::from(case.base) + case.memory.len() as u128;
    for pair in &pairs {
        if pair.address < case.base || u128::from(pair.address) + 4 > window_end {
            return Err(pair.refused_by(NOT_IN_WINDOW));
        }
    }

    // The sources are registers and the destination is memory: no write changes a source.
    for pair in &pairs {
        let from = element::raw_position(case, &instruction.raw_src, pair.dword);
        let to = pair.address - case.base;
        for k in 0..4 {
            let register_byte = (from + k) as usize;
            let memory_byte = (to + k) as usize;
            case.memory[memory_byte] = case.registers[register_byte];
            // "Scattered bytes carry their marks", "marks are written as 0 or 1"; "the later write stays"
            case.memory_taint[memory_byte] = u8::from(case.register_taint[register_byte] != 0);
        }
    }
    Ok(())
}
