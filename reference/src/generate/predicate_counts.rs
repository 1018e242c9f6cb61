//! Predicates with as many elements as an instruction needs, one less, and one more: for every offset and ExecSize.

use super::accepted::{mask_end, naming, Kind};
use super::fault::word;
use super::limits::{byte_destination, with};
use super::near_misses::{base_instruction, base_scene};
use super::random::Random;
use super::region_words::Meant;
use crate::assemble::Slot;
use crate::case::Predicate;
use crate::refusal::Detail;

/// Each offset and ExecSize: eight offsets for 1, 2 and 4, seven for 8, five for 16, one for 32.
pub const WAYS: usize = 3 * 8 + 7 + 5 + 1;

/// The exec byte of a way, without NM.
fn exec_of(way: usize) -> u8 {
    let good = |exec: &u8| exec & 15 < 6 && mask_end(*exec) <= 32;
    (0..0x80).filter(good).nth(way).unwrap()
}

/// An instruction with a predicate of about as many elements as it needs: one less, as many and one more come in turn with
/// the rounds. Less than 1 and more than 32 are 13.
pub fn one_count(random: &mut Random, way: usize, round: u64) -> Meant {
    let exec = exec_of(way);
    let end = mask_end(exec);
    let count = end + round % 3 - 1;
    let kind = match exec & 7 {
        3 | 4 => random.pick(&[Kind::Shl, Kind::Gather, Kind::Scatter, Kind::Send]),
        _ => random.pick(&[Kind::Shl, Kind::Gather, Kind::Send]),
    };
    let mut scene = base_scene(random);
    // Room for every ExecSize.
    byte_destination(&mut scene);
    let mut draft = loop {
        let draft = base_instruction(random, &scene, kind);
        if draft.get(Slot::Exec).unwrap()[0] & 7 == exec & 7 {
            break draft;
        }
    };
    draft.set(Slot::Exec, &[exec | random.pick(&[0, 0x80])]);

    let id = scene.case.predicates.len() as u16;
    draft.set(Slot::Pred, &word(naming(random, id)));
    let mut scene = with(random, scene, &draft);
    scene.case.predicates.push(Predicate {
        bits: bits_about(random, end.min(count)),
        count: count as u8,
    });
    let number = match kind {
        _ if count == 0 || count > 32 => 13,
        _ if count < end => 17,
        Kind::Send => 9,
        _ => 0,
    };
    let name = format!("{kind:?}: exec {exec:02x}, predicate of {count} elements");
    (scene, name, number, Detail::None)
}

/// Bits that change at a place, or there alone: a program that looks at more of them, or at fewer, takes other lanes.
fn bits_about(random: &mut Random, place: u64) -> u32 {
    let below = ((1u64 << place) - 1) as u32;
    match random.below(5) {
        0 => below,
        1 => !below,
        2 => !(1u64 << place) as u32,
        3 => (1u64 << place) as u32,
        _ => random.next() as u32,
    }
}
