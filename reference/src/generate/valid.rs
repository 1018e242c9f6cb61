//! Valid cases: legal tables and kernels that are mostly accepted to their end.

use super::lines::{file_of, lines_of};
use super::random::Random;
use super::scene::{scene, Scene, Size};
use super::{Generated, Mode};
use crate::assemble::Draft;
use crate::refusal::Detail;

pub fn valid(random: &mut Random) -> Generated {
    if random.chance(1) {
        return without_registers(random);
    }
    let size = match random.below(100) {
        0..=14 => Size::Tiny,
        15..=96 => Size::Usual,
        _ => Size::Large,
    };
    let mut scene = scene(random, size, false);
    let length = match random.below(100) {
        0..=3 => 0,
        4..=69 => random.range(1, 6),
        70..=92 => random.range(7, 20),
        93..=97 => random.range(21, 60),
        _ => random.range(61, 165),
    };
    let mut kernel = Vec::new();
    for _ in 0..length {
        let bytes = accepted(random, &scene).bytes();
        if kernel.len() + bytes.len() <= 4096 {
            kernel.extend(bytes);
        }
    }
    let mut intended = 0;
    if random.chance(3) {
        if let Some(send) = scene.send(random) {
            if kernel.len() + send.bytes().len() <= 4096 {
                kernel.extend(send.bytes());
                intended = 9;
            }
        }
    }
    scene.case.kernel = kernel;
    let lines = lines_of(random, &scene.case);
    Generated {
        mode: Mode::Valid,
        name: format!("{size:?} scene, {length} instructions"),
        intended: Some(intended),
        carried: Some(Detail::None),
        file: file_of(random, &lines),
    }
}

/// No registers and so no variables: every instruction has an operand in them, so the kernel is empty.
fn without_registers(random: &mut Random) -> Generated {
    let mut scene = scene(random, Size::Tiny, false);
    scene.case.registers.clear();
    scene.case.register_taint.clear();
    scene.case.variables.clear();
    let lines = lines_of(random, &scene.case);
    Generated {
        mode: Mode::Valid,
        name: "no registers".to_string(),
        intended: Some(0),
        carried: Some(Detail::None),
        file: file_of(random, &lines),
    }
}

/// One instruction of those that run, accepted on the scene as it stands.
pub fn accepted(random: &mut Random, scene: &Scene) -> Draft {
    let other = match random.below(20) {
        0..=5 => scene.gather(random),
        6..=11 => scene.scatter(random),
        12 => scene.computed_offsets(random),
        _ => None,
    };
    match other {
        Some(draft) => draft,
        None => scene.shl(random),
    }
}
