//! All faults of one kind of instruction, field by field and test by test; here those of the fields before
//! the operands.

use super::accepted::{mask_end, naming, Kind};
use super::address_faults::scatter_addresses;
use super::fault::*;
use super::operand_faults::{operands, raw_operand, vector_operand, Role};
use super::random::Random;
use super::scene::{bits, Scene};
use crate::assemble::{Draft, Slot};
use crate::case::Predicate;

/// All faults of a kind of instruction.
pub fn faults_of(kind: Kind) -> Vec<Fault> {
    let mut faults = Faults { list: Vec::new() };
    first_fields(&mut faults, kind);
    for (operand, (name, role, types)) in operands(kind).into_iter().enumerate() {
        if role == Role::Raw {
            raw_operand(&mut faults, kind, operand, name, types);
        } else {
            vector_operand(&mut faults, operand, name, role, types);
        }
    }
    if kind == Kind::Scatter {
        // Three times, so that they come as often as they matter.
        for _ in 0..3 {
            scatter_addresses(&mut faults);
        }
    }
    if kind == Kind::Send {
        let nothing = |_: &mut Random, _: &mut Scene, _: &mut Draft| {};
        faults.run("otherwise good", 9, RANK_9, None, vec![], nothing);
    }
    faults.list
}

/// Name a predicate that has too few elements, by 1 up to so many.
fn short_predicate(random: &mut Random, scene: &mut Scene, draft: &mut Draft, furthest: u64) {
    let mut exec = draft.get(Slot::Exec).unwrap()[0];
    if mask_end(exec) == 1 {
        // No predicate is shorter: another mask.
        exec |= (random.range(1, 7) as u8) << 4;
        draft.set(Slot::Exec, &[exec]);
    }
    // Where 8 stands, the predicate may have all its 32.
    let longest = (mask_end(exec) - 1).min(32);
    let fewer = random.below(furthest.min(longest));
    let id = scene.case.predicates.len() as u16;
    scene.case.predicates.push(Predicate {
        bits: bits(random),
        count: (longest - fewer) as u8,
    });
    draft.set(Slot::Pred, &word(naming(random, id)));
}

/// The fields before the operands: numbers 2, 3, 8, 17 and the 5 of predicate and surface.
fn first_fields(faults: &mut Faults, kind: Kind) {
    let known = [0x24, 0x78, 0x4e, 0x5d];
    faults.field("opcode", 2, Slot::Opcode, None, move |random, _| loop {
        let near = known[random.below(4) as usize] ^ (1 << random.below(8));
        let byte = if random.chance(50) {
            near
        } else {
            random.byte()
        };
        if !known.contains(&byte) {
            return vec![byte];
        }
    });
    if kind == Kind::Scatter {
        faults.field("sub-opcode", 2, Slot::SubOpcode, None, |random, _| loop {
            let byte = match random.below(4) {
                0 => 6,
                1 => 8,
                _ => random.byte(),
            };
            if byte != 7 {
                return vec![byte];
            }
        });
        faults.field("scatter size", 3, Slot::Exec, None, |random, old| {
            vec![(old[0] & 0xf0) | random.pick(&[0, 1, 2, 5])]
        });
    }
    faults.field("exec bit 3", 3, Slot::Exec, None, or_byte(8));
    faults.field("exec code 6 or 7", 3, Slot::Exec, None, |random, old| {
        vec![(old[0] & 0xf0) | random.pick(&[6, 7])]
    });
    faults.field("pred bit 12", 3, Slot::Pred, None, |_, old| {
        word(word_of(old) | 0x1000)
    });
    faults.field("pred combine 3", 3, Slot::Pred, None, |_, old| {
        word(word_of(old) | 0x6000)
    });
    match kind {
        Kind::Shl => {}
        Kind::Gather => faults.field("num_blocks over 2", 3, Slot::NumBlocks, None, byte_from(3)),
        Kind::Scatter => {
            faults.field("channels 0", 3, Slot::Channels, None, |_, _| vec![0]);
            faults.field("channels over 15", 3, Slot::Channels, None, byte_from(16));
        }
        Kind::Send => {
            faults.field("modifiers over 1", 3, Slot::Modifiers, None, byte_from(2));
            faults.field("num_src 0", 3, Slot::NumSrc, None, |_, _| vec![0]);
            faults.field("num_src over 15", 3, Slot::NumSrc, None, byte_from(16));
            faults.field("num_dst over 16", 3, Slot::NumDst, None, byte_from(17));
        }
    }

    let over_32 = vec![Touch::Slot(Slot::Exec)];
    faults.run(
        "offset + ExecSize over 32",
        8,
        RANK_8,
        None,
        over_32,
        move |random, _, draft| {
            let code = if kind == Kind::Scatter {
                random.range(3, 4)
            } else {
                random.range(3, 5)
            };
            // The first mask whose offset is too large, or any later one, NM or not.
            let first = (32 - (1u64 << code)) / 4 + 1;
            let mask = first + random.edge(7 - first) + 8 * random.below(2);
            draft.set(Slot::Exec, &[(code | mask << 4) as u8]);
        },
    );
    let pred = vec![Touch::Slot(Slot::Pred)];
    faults.run(
        "predicate one past",
        5,
        RANK_PREDICATE,
        None,
        pred.clone(),
        |random, scene, draft| {
            if scene.case.predicates.is_empty() {
                // Only the whole word 0 means none.
                let named = random.pick(&[0x2000, 0x4000, 0x8000, 0xa000, 0xc000, 1, 0x8001]);
                draft.set(Slot::Pred, &word(named));
            } else {
                let id = scene.case.predicates.len() as u16;
                let how = random.pick(&[0, 0x2000, 0x4000, 0x8000, 0xc000]);
                draft.set(Slot::Pred, &word(id | how));
            }
        },
    );
    faults.run(
        "predicate far",
        5,
        RANK_PREDICATE,
        None,
        pred.clone(),
        |random, _, draft| {
            let id = random.pick(&[64, 255, 256, 4095]);
            draft.set(Slot::Pred, &word(id | random.pick(&[0, 0x2000, 0x8000])));
        },
    );
    for (name, furthest) in [("predicate one element short", 1), ("predicate short", 32)] {
        faults.run(
            name,
            17,
            RANK_17,
            None,
            pred.clone(),
            move |random, scene, draft| short_predicate(random, scene, draft, furthest),
        );
    }
    if kind == Kind::Gather {
        let surface = vec![Touch::Slot(Slot::Surface)];
        faults.run(
            "surface one past",
            5,
            RANK_SURFACE,
            None,
            surface.clone(),
            |_, scene, draft| {
                draft.set(Slot::Surface, &[scene.case.surfaces.len() as u8]);
            },
        );
        faults.run(
            "surface far",
            5,
            RANK_SURFACE,
            None,
            surface,
            |random, _, draft| {
                draft.set(Slot::Surface, &[random.pick(&[8, 9, 128, 254, 255])]);
            },
        );
    }
}
