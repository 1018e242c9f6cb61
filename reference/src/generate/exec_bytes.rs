//! Every exec byte with every instruction: where it is taken, the lanes that are on are those of no other exec byte; where
//! it is refused, the kernel is good up to there.

use super::accepted::{mask_end, Kind};
use super::fault::word;
use super::limits::byte_destination;
use super::lines::{file_of, lines_of};
use super::near_misses::{base_instruction, base_scene, prefix, suffix, KINDS};
use super::random::Random;
use super::scene::{bits, Scene};
use super::{Generated, Mode};
use crate::assemble::{Draft, Slot};
use crate::case::Predicate;
use crate::refusal::Detail;

/// The case of a running number: the four instructions with one exec byte, then with the next.
pub fn exec_byte(random: &mut Random, number: u64) -> Generated {
    let kind = KINDS[(number % 4) as usize];
    let exec = (number / 4) as u8;
    let mut scene = base_scene(random);
    // Room for every ExecSize.
    byte_destination(&mut scene);
    let mut draft = of_size(random, &scene, kind, exec);
    draft.set(Slot::Exec, &[exec]);
    let intended = match kind {
        _ if !has_size(kind, exec) => 3,
        _ if mask_end(exec) > 32 => 8,
        Kind::Send => 9,
        _ => 0,
    };
    if matches!(intended, 0 | 9) {
        lanes_of_its_own(random, &mut scene, &mut draft, exec);
    }
    let mut kernel = prefix(random, &scene);
    kernel.extend(draft.bytes());
    if intended != 0 {
        kernel.extend(suffix(random, &scene));
    }
    scene.case.kernel = kernel;
    let lines = lines_of(random, &scene.case);
    Generated {
        mode: Mode::ExecBytes,
        name: format!("{kind:?}: exec {exec:02x}"),
        intended: Some(intended),
        carried: Some(Detail::None),
        file: file_of(random, &lines),
    }
}

/// Whether the byte's lower half, bits 0-3, is a size of this instruction.
fn has_size(kind: Kind, exec: u8) -> bool {
    match kind {
        Kind::Scatter => matches!(exec & 15, 3 | 4),
        _ => exec & 15 < 6,
    }
}

/// A good instruction with operands for the byte's size, if it has one.
fn of_size(random: &mut Random, scene: &Scene, kind: Kind, exec: u8) -> Draft {
    loop {
        let draft = base_instruction(random, scene, kind);
        let own = draft.get(Slot::Exec).unwrap()[0];
        if own & 7 == exec & 7 || !has_size(kind, exec) {
            return draft;
        }
    }
}

/// Give EM and the predicate bits under which every other exec byte turns other lanes on, or is refused.
fn lanes_of_its_own(random: &mut Random, scene: &mut Scene, draft: &mut Draft, exec: u8) {
    let runs = |other: &u8| has_size(Kind::Shl, *other) && mask_end(*other) <= 32;
    let others: Vec<u8> = (0..=255).filter(|it| runs(it) && *it != exec).collect();
    let (mask, agreeing) = loop {
        let (mask, agreeing) = (bits(random), bits(random));
        let own = lanes(exec, mask, agreeing);
        if others.iter().all(|it| lanes(*it, mask, agreeing) != own) {
            break (mask, agreeing);
        }
    };
    scene.case.execution_mask = mask;
    if agreeing == u32::MAX && random.chance(50) {
        draft.set(Slot::Pred, &word(0));
        return;
    }
    let id = scene.case.predicates.len() as u16;
    // The word 0 would name none.
    let inverse = id == 0 || random.chance(50);
    scene.case.predicates.push(Predicate {
        bits: if inverse { !agreeing } else { agreeing },
        count: random.pick(&[32, mask_end(exec) as u8]),
    });
    draft.set(Slot::Pred, &word(id | u16::from(inverse) << 15));
}

/// The lanes that an exec byte turns on, a bit each, where a predicate agrees with these.
fn lanes(exec: u8, mask: u32, agreeing: u32) -> u64 {
    let offset = 4 * (exec >> 4 & 7);
    let on = match exec & 0x80 {
        0 => mask & agreeing,
        _ => agreeing,
    };
    let size = 1 << (exec & 7);
    u64::from(on >> offset) & ((1 << size) - 1)
}
