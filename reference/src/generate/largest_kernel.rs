//! The largest kernel, refused at its last byte: instructions of 4,095 bytes that are completed, and then one
//! byte that begins an instruction or is no opcode.

use super::near_misses::base_scene;
use super::random::Random;
use super::scene::Scene;
use super::valid::accepted;

/// How many ways `refused_at_its_end` knows.
pub const WAYS: usize = 5;

const KNOWN: [u8; WAYS - 1] = [0x24, 0x78, 0x4e, 0x5d];
const BEFORE_THE_LAST: usize = 4095;

/// The shortest SHL has two immediates; each General source makes it one byte longer.
const SHORTEST_SHL: usize = 23;
const LONGEST_SHL: usize = 25;

/// From so many bytes on, every number is a sum of lengths of SHL.
const SHL_FILLS: usize = 12 * SHORTEST_SHL;

/// The scene with its kernel, what is special about it, and its number: the opcodes in turn, then no opcode.
pub fn refused_at_its_end(random: &mut Random, way: usize) -> (Scene, String, u8) {
    let mut scene = base_scene(random);
    let mut kernel = filled(random, &scene);
    let (last, number) = match KNOWN.get(way) {
        // "bytes end inside an instruction"
        Some(opcode) => (*opcode, 1),
        None => (no_opcode(random), 2),
    };
    kernel.push(last);
    scene.case.kernel = kernel;
    let name = format!("kernel of 4,096 bytes, the last one is {last:02x}");
    (scene, name, number)
}

fn no_opcode(random: &mut Random) -> u8 {
    loop {
        let any = random.byte();
        let byte = random.pick(&[0x00, 0x23, 0x25, 0x4f, 0x79, 0xff, any]);
        if !KNOWN.contains(&byte) {
            return byte;
        }
    }
}

/// Accepted instructions of 4,095 bytes.
fn filled(random: &mut Random, scene: &Scene) -> Vec<u8> {
    let mut kernel = Vec::new();
    loop {
        let bytes = accepted(random, scene).bytes();
        if kernel.len() + bytes.len() + SHL_FILLS > BEFORE_THE_LAST {
            break;
        }
        kernel.extend(bytes);
    }
    let left = BEFORE_THE_LAST - kernel.len();
    let count = left.div_ceil(LONGEST_SHL);
    let mut longer = left - SHORTEST_SHL * count;
    for _ in 0..count {
        let more = longer.min(LONGEST_SHL - SHORTEST_SHL);
        longer -= more;
        kernel.extend(shl_of_length(random, scene, SHORTEST_SHL + more));
    }
    kernel
}

fn shl_of_length(random: &mut Random, scene: &Scene, length: usize) -> Vec<u8> {
    loop {
        let bytes = scene.shl(random).bytes();
        if bytes.len() == length {
            return bytes;
        }
    }
}
