//! Scatters on which slip 1 shows, "Testing alignment lane by lane before asking about doubt": an unaligned
//! lane, and a tainted one behind it or the same.

use super::accepted::{mask_end, Kind};
use super::fault::{word, word_of, Form};
use super::near_misses::{base_instruction, base_scene, give_form, prefix, suffix};
use super::random::Random;
use super::scene::Scene;
use crate::assemble::{Draft, Part, Slot};
use crate::case::Predicate;

#[derive(Clone, Copy, Debug, PartialEq, Eq)]
enum Shape {
    /// A lane is unaligned, a later one is tainted.
    LaterLane,
    /// One lane is both; the tainted byte may be the one on which its alignment depends.
    SameLane,
    /// The address is both, and so every lane.
    Address,
    /// The address is unaligned, one lane's element offset is tainted.
    AddressAndLane,
    /// The address is tainted, the first lane's element offset is unaligned.
    LaneAndAddress,
    /// The tainted lane is off: the unaligned one stands.
    TaintedLaneOff,
}

impl Shape {
    fn any(random: &mut Random) -> Shape {
        match random.below(8) {
            0 | 1 => Shape::LaterLane,
            2 | 3 => Shape::SameLane,
            4 => Shape::Address,
            5 => Shape::AddressAndLane,
            6 => Shape::LaneAndAddress,
            _ => Shape::TaintedLaneOff,
        }
    }

    fn needs_address(self) -> bool {
        matches!(
            self,
            Shape::Address | Shape::AddressAndLane | Shape::LaneAndAddress
        )
    }
}

/// The scene with its kernel, what is special about it, and its number.
pub fn unaligned_and_tainted(random: &mut Random) -> (Scene, String, u8) {
    let shape = Shape::any(random);
    let mut scene = base_scene(random);
    let mut draft = base_instruction(random, &scene, Kind::Scatter);
    if shape.needs_address() {
        let needs = Some((0, Form::General));
        give_form(random, &scene, &mut draft, Kind::Scatter, needs);
    }
    let lanes = 1 << (draft.get(Slot::Exec).unwrap()[0] & 7);
    let (unaligned, tainted) = if shape == Shape::SameLane {
        let lane = random.below(lanes);
        (lane, lane)
    } else {
        let tainted = random.range(1, lanes - 1);
        (random.below(tainted), tainted)
    };
    let on = turn_lanes_on(random, &mut scene, &mut draft, |lane| {
        if lane == tainted {
            Some(shape != Shape::TaintedLaneOff)
        } else if lane == unaligned {
            Some(true)
        } else if lane < unaligned && shape == Shape::LaneAndAddress {
            Some(false)
        } else {
            None
        }
    });

    let address = address_start(&scene, &draft);
    let offsets = offsets_start(&scene, &draft);
    let lane_at = |lane: u64| offsets + 8 * lane as usize;
    let (unaligned_at, tainted_at) = match shape {
        Shape::Address => (address, address),
        Shape::AddressAndLane => (address, lane_at(tainted)),
        Shape::LaneAndAddress => (lane_at(unaligned), address),
        _ => (lane_at(unaligned), lane_at(tainted)),
    };
    unalign(random, &mut scene, unaligned_at);
    // The lowest byte, on which the alignment depends, more often than the rest.
    let byte = random.edge(7) as usize;
    scene.case.register_taint[tainted_at + byte] = random.pick(&[1, 2, 0x80, 0xff]);
    // Lanes that are off may be anything.
    for lane in (0..lanes).filter(|lane| (on >> lane) & 1 == 0) {
        if random.chance(30) {
            unalign(random, &mut scene, lane_at(lane));
        }
        if random.chance(30) {
            scene.case.register_taint[lane_at(lane) + random.below(8) as usize] = 1;
        }
    }

    let mut kernel = prefix(random, &scene);
    kernel.extend(draft.bytes());
    kernel.extend(suffix(random, &scene));
    scene.case.kernel = kernel;
    let name = format!("Scatter: {shape:?}, unaligned lane {unaligned}, tainted lane {tainted}");
    let number = match shape {
        Shape::TaintedLaneOff => 11,
        _ => 10,
    };
    (scene, name, number)
}

/// Turn each lane on or off as it is wanted, by EM or by a predicate; lanes for which nothing is wanted are on
/// or off at random. Gives the lanes as bits.
pub fn turn_lanes_on(
    random: &mut Random,
    scene: &mut Scene,
    draft: &mut Draft,
    wanted: impl Fn(u64) -> Option<bool>,
) -> u64 {
    let exec = draft.get(Slot::Exec).unwrap()[0];
    let lanes = 1u64 << (exec & 7);
    let others = random.pick(&[10, 50, 90, 100]);
    let mut on = 0;
    for lane in 0..lanes {
        let is_on = wanted(lane).unwrap_or_else(|| random.chance(others));
        on |= u64::from(is_on) << lane;
    }
    let offset = 4 * u32::from((exec >> 4) & 7);
    let of_lanes = (((1u64 << lanes) - 1) << offset) as u32;
    let bits = (random.next() as u32 & !of_lanes) | (on << offset) as u32;
    if random.chance(50) {
        scene.case.execution_mask = bits;
        draft.set(Slot::Exec, &[exec & 0x7f]);
    } else {
        // The scene has fewer than 64. The inverse of the inverse bits, so that number 0 is a predicate too.
        let id = scene.case.predicates.len() as u16;
        scene.case.predicates.push(Predicate {
            bits: !bits,
            count: (mask_end(exec) + random.edge(32 - mask_end(exec))) as u8,
        });
        draft.set(Slot::Exec, &[exec | 0x80]);
        draft.set(Slot::Pred, &word(id | 0x8000));
    }
    on
}

/// The register byte where the address starts, if it is General.
fn address_start(scene: &Scene, draft: &Draft) -> usize {
    let column = draft.get(Slot::Operand(0, Part::Column));
    let element = column.map_or(0, |column| usize::from(column[0]));
    scene.guarded.unwrap().addresses_start + 8 * element
}

/// The register byte where the element offset of lane 0 starts.
pub fn offsets_start(scene: &Scene, draft: &Draft) -> usize {
    let offset = word_of(draft.get(Slot::Operand(1, Part::Offset)).unwrap());
    scene.guarded.unwrap().offsets_start + usize::from(offset)
}

/// Change an element of a sum that is a multiple of 4, so that the sum is none.
fn unalign(random: &mut Random, scene: &mut Scene, at: usize) {
    let low = scene.case.registers[at];
    let other = low.wrapping_add(random.range(1, 3) as u8) & 3;
    scene.case.registers[at] = (low & !3) | other;
}
