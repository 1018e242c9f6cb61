//! Cases exactly at a limit: the last value that is still good, or what only looks wrong.

use super::accepted::{scatter_dwords, Kind};
use super::far_rows::{in_last_row, FarOperand};
use super::fault::Form;
use super::near_misses::{base_instruction, base_scene, give_form, prefix};
use super::random::Random;
use super::scene::{scene, variable, Scene, Size};
use crate::assemble::*;
use crate::case::Predicate;

type Make = fn(&mut Random) -> Scene;

pub struct Limit {
    pub name: &'static str,
    pub number: u8,
    /// The scene with its kernel.
    pub make: Make,
}

/// A scene whose kernel is a prefix and then this instruction.
pub fn with(random: &mut Random, mut scene: Scene, draft: &Draft) -> Scene {
    let mut kernel = prefix(random, &scene);
    kernel.extend(draft.bytes());
    scene.case.kernel = kernel;
    scene
}

/// A byte destination at the work area's start.
pub fn byte_destination(scene: &mut Scene) -> Operand {
    scene.case.variables.push(variable(4, 0, 32));
    general(
        scene.case.variables.len() as u16 - 1,
        0,
        0,
        destination_region(1),
    )
}

pub fn one() -> Operand {
    immediate(0, 1)
}

/// A scatter of eight lanes, NM, no predicate, channel R, with the guarded addresses.
fn plain_scatter(scene: &Scene) -> Draft {
    let guarded = scene.guarded.unwrap();
    let dwords = scene.variables(|v| v.type_code == 0 && v.start == 0 && v.count >= 32);
    scatter(
        0x83,
        0,
        1,
        &immediate_uq(guarded.address),
        &raw(guarded.offsets, 0),
        &raw(dwords[0], 0),
    )
}

/// A scatter whose data lack so many dwords. All lanes are off: the data are asked for all the same.
fn scatter_with_data(
    random: &mut Random,
    type_code: u8,
    (exec, channels): (u8, u8),
    lacking: u16,
) -> Scene {
    let mut scene = base_scene(random);
    let exec_size = 1 << (exec & 7);
    let dwords = scatter_dwords(scene.register(), exec_size, channels.count_ones()) as u16;
    let it = variable(type_code, 0, dwords - lacking);
    scene.case.variables.push(it);
    let index = scene.case.variables.len() as u16 - 1;
    let mut draft = plain_scatter(&scene);
    draft.set(Slot::Exec, &[exec]);
    draft.set(Slot::Channels, &[channels]);
    draft.set_operand(2, &raw(index, 0));
    scene.case.execution_mask = 0;
    with(random, scene, &draft)
}

/// A variable of dwords that is the first four registers.
fn four_registers(scene: &mut Scene) -> u16 {
    let dwords = scene.register() as u16;
    scene.case.variables.push(variable(0, 0, dwords));
    scene.case.variables.len() as u16 - 1
}

/// An exec byte with as many lanes as two registers have dwords: 16 or 32.
fn two_registers_of_lanes(scene: &Scene) -> u8 {
    match scene.register() {
        32 => 0x84,
        _ => 0x85,
    }
}

fn set_offset(scene: &mut Scene, lane: usize, value: u64) {
    let at = scene.guarded.unwrap().offsets_start + 8 * lane;
    scene.case.registers[at..at + 8].copy_from_slice(&value.to_le_bytes());
}

/// Three different lanes of eight.
fn three_lanes(random: &mut Random) -> [usize; 3] {
    let mut lanes = [0, 1, 2, 3, 4, 5, 6, 7];
    random.shuffle(&mut lanes);
    [lanes[0], lanes[1], lanes[2]]
}

/// Turn all lanes off in one of several ways; gives exec byte and pred word for size 8.
fn all_off(random: &mut Random, scene: &mut Scene) -> (u8, u16) {
    scene.case.predicates.truncate(63);
    // M3 of size 8 needs 16.
    let count = random.pick(&[16, 17, 32]);
    scene.case.predicates.push(Predicate { bits: 0, count });
    let zero = scene.case.predicates.len() as u16 - 1;
    match random.below(5) {
        0 => {
            scene.case.execution_mask &= 0xffff_ff00;
            (0x03, 0)
        }
        // A predicate of zeros under NM: bit by bit, any, all. Id 0 with combine none would be no
        // predicate.
        1 => (0x83, zero | 0x2000),
        2 => (0x83, zero | 0x4000),
        3 if zero != 0 => (0xa3, zero),
        _ => {
            scene.case.predicates[usize::from(zero)].bits = u32::MAX;
            (0x83, zero | 0xc000)
        }
    }
}

pub fn limits() -> Vec<Limit> {
    let list: &[(&'static str, u8, Make)] = &[
        ("offset + ExecSize is 32", 0, |r| {
            let mut scene = base_scene(r);
            let dst = byte_destination(&mut scene);
            let code = r.range(2, 5) as u8;
            let mask = (32 - (1u8 << code)) / 4 + 8 * r.below(2) as u8;
            let draft = shl(code | mask << 4, 0, &dst, &one(), &one());
            with(r, scene, &draft)
        }),
        ("the last variable", 0, |r| {
            let mut scene = base_scene(r);
            while scene.case.variables.len() < 255 && r.chance(90) {
                scene.case.variables.push(variable(5, 1, 1));
            }
            let dst = byte_destination(&mut scene);
            let draft = shl(0x83, 0, &dst, &one(), &one());
            with(r, scene, &draft)
        }),
        ("the last predicate", 0, |r| {
            let mut scene = base_scene(r);
            let dst = byte_destination(&mut scene);
            while scene.case.predicates.len() < 64 {
                // M2 of size 8 needs 12.
                scene.case.predicates.push(Predicate {
                    bits: r.next() as u32,
                    count: r.pick(&[12, 13, 32]),
                });
            }
            let how = r.pick(&[0, 0x2000, 0x4000, 0x8000, 0xa000, 0xc000]);
            let draft = shl(0x13, 63 | how, &dst, &one(), &one());
            with(r, scene, &draft)
        }),
        ("predicate 0 by any, all or inverse", 0, |r| {
            let mut scene = base_scene(r);
            let dst = byte_destination(&mut scene);
            scene.case.predicates = vec![Predicate {
                bits: r.next() as u32,
                count: r.pick(&[16, 17, 32]),
            }];
            let how = r.pick(&[0x2000, 0x4000, 0x8000, 0xa000, 0xc000]);
            let draft = shl(0x04, how, &dst, &one(), &one());
            scene.case.kernel = draft.bytes();
            scene
        }),
        ("the last surface", 0, |r| {
            let mut scene = base_scene(r);
            while scene.case.surfaces.len() < 8 {
                scene.case.surfaces.push(r.bytes(6));
            }
            scene.case.surface_taint = vec![3; scene.case.surface_bytes()];
            let mut draft = base_instruction(r, &scene, Kind::Gather);
            draft.set(Slot::Surface, &[7]);
            draft.set(Slot::NumBlocks, &[2]);
            with(r, scene, &draft)
        }),
        ("an empty surface", 0, |r| {
            let mut scene = base_scene(r);
            scene.case.surfaces = vec![Vec::new()];
            scene.case.surface_taint = Vec::new();
            let draft = base_instruction(r, &scene, Kind::Gather);
            with(r, scene, &draft)
        }),
        ("width is ExecSize", 0, |r| {
            let mut scene = base_scene(r);
            let dst = byte_destination(&mut scene);
            let index = scene.case.variables.len() as u16 - 1;
            let code = r.below(5) as u8;
            let width = 1u16 << code;
            let vertical = r.pick(&[0, 1, 2, 4, 8, 16, 32]);
            let src = general(index, 0, 0, source_region(vertical, width, 1));
            let draft = shl(0x80 | code, 0, &dst, &src, &one());
            with(r, scene, &draft)
        }),
        ("last element of a destination", 0, |r| {
            let mut scene = base_scene(r);
            let second = scene.register() as u16;
            scene.case.variables.push(variable(2, second, 24));
            let index = scene.case.variables.len() as u16 - 1;
            // Element 23 is the last: 16 + 7, or 9 + 7·2.
            let (column, stride) = r.pick(&[(16, 1), (9, 2)]);
            let dst = general(index, 0, column, destination_region(stride));
            let draft = shl(0x83, 0, &dst, &one(), &one());
            with(r, scene, &draft)
        }),
        ("last element of a source", 0, |r| {
            let mut scene = base_scene(r);
            let register = scene.register() as u16;
            let it = variable(3, register, register / 2 + 8);
            scene.case.variables.push(it);
            let index = scene.case.variables.len() as u16 - 1;
            let dst = byte_destination(&mut scene);
            // Row 1 has eight elements: eight from its first, two rows of two from its fifth, or the last for all lanes.
            let (exec, column, region) = r.pick(&[
                (0x83, 0, source_region(16, 8, 1)),
                (0x82, 4, source_region(2, 2, 1)),
                (0x85, 7, source_region(0, 1, 0)),
            ]);
            let draft = shl(exec, 0, &dst, &general(index, 1, column, region), &one());
            with(r, scene, &draft)
        }),
        ("exactly two registers", 0, |r| {
            let mut scene = base_scene(r);
            let index = four_registers(&mut scene);
            let dst = general(index, 1, 0, destination_region(1));
            let src = general(index, 1, 0, source_region(8, 8, 1));
            let draft = shl(two_registers_of_lanes(&scene), 0, &dst, &src, &one());
            with(r, scene, &draft)
        }),
        (
            "over two registers by one element, inside the variable",
            7,
            |r| {
                let mut scene = base_scene(r);
                let index = four_registers(&mut scene);
                let bad = general(index, 0, 1, source_region(8, 8, 1));
                let good = general(index, 0, 0, source_region(8, 8, 1));
                let dst_column = r.below(2) as u8;
                let dst = general(index, 1, dst_column, destination_region(1));
                let src = if dst_column == 0 { &bad } else { &good };
                let draft = shl(two_registers_of_lanes(&scene), 0, &dst, src, &one());
                with(r, scene, &draft)
            },
        ),
        ("destination in the last row", 0, |r| {
            in_last_row(r, 0, FarOperand::Destination)
        }),
        ("destination behind the last row", 7, |r| {
            in_last_row(r, 1, FarOperand::Destination)
        }),
        ("source in the last row", 0, |r| {
            in_last_row(r, 0, FarOperand::Source)
        }),
        ("source behind the last row", 7, |r| {
            in_last_row(r, 1, FarOperand::Source)
        }),
        ("gather's offset in the last row", 0, |r| {
            in_last_row(r, 0, FarOperand::Offset)
        }),
        ("gather's offset behind the last row", 7, |r| {
            in_last_row(r, 1, FarOperand::Offset)
        }),
        ("scatter's address in the last row", 0, |r| {
            in_last_row(r, 0, FarOperand::Address)
        }),
        ("scatter's address behind the last row", 7, |r| {
            in_last_row(r, 1, FarOperand::Address)
        }),
        ("three registers, the middle one touched or not", 7, |r| {
            let mut scene = base_scene(r);
            let dst = byte_destination(&mut scene);
            // Four registers: in words and bytes, or of 64 bytes in dwords and words.
            let (wide, narrow) = match scene.register() {
                32 => (2, 4),
                _ => (0, 2),
            };
            scene.case.variables.push(variable(wide, 0, 64));
            scene.case.variables.push(variable(narrow, 0, 128));
            let narrow = scene.case.variables.len() as u16 - 1;
            let wide = narrow - 1;
            let src = match r.below(2) {
                // Elements 0, 1, 32, 33: in the first and in the third register.
                0 => general(wide, 0, 0, source_region(32, 2, 1)),
                // Elements 31, 47, 63, 79: in all three.
                _ => general(narrow, 0, 31, source_region(16, 1, 0)),
            };
            let draft = shl(0x82, 0, &dst, &src, &one());
            with(r, scene, &draft)
        }),
        ("raw operands exactly at the end", 0, |r| {
            let mut scene = base_scene(r);
            scene.case.variables.push(variable(0, 0, 32));
            let index = scene.case.variables.len() as u16 - 1;
            let code = r.range(0, 5) as u8;
            let offset = 4 * (32 - (1u16 << code));
            let it = raw(index, offset);
            let draft = gather(0x80 | code, 0, 2, 0, &one(), &it, &it);
            with(r, scene, &draft)
        }),
        ("scatter data exactly enough", 0, |r| {
            let channels = r.pick(&[(0x03, 15), (0x04, 3), (0x04, 9), (0x04, 12)]);
            scatter_with_data(r, 7, channels, 0)
        }),
        ("scatter data one dword short, lanes off", 7, |r| {
            let channels = r.pick(&[(0x03, 15), (0x04, 3), (0x04, 10), (0x04, 12)]);
            scatter_with_data(r, 1, channels, 1)
        }),
        ("RAW_SEND of 15 and 16 registers", 9, |r| {
            let mut scene = loop {
                let scene = scene(r, Size::Large, true);
                if scene.work >= 16 * scene.register() {
                    break scene;
                }
            };
            scene.case.variables.truncate(255);
            let type_code = r.pick(&[0, 1, 7]);
            let dwords = 4 * scene.register() as u16;
            scene.case.variables.push(variable(type_code, 0, dwords));
            let index = scene.case.variables.len() as u16 - 1;
            let src = raw(index, r.pick(&[0, 4, 32]));
            let draft = raw_send(0x85, 0, 15, 16, &one(), &src, &raw(index, 0));
            scene.case.kernel = draft.bytes();
            scene
        }),
        ("RAW_SEND of one register too many", 7, |r| {
            let mut scene = base_scene(r);
            let bytes = 4 * scene.register() as u16;
            scene.case.variables.push(variable(4, 0, bytes));
            let index = scene.case.variables.len() as u16 - 1;
            let (num_src, num_dst) = r.pick(&[(5, 4), (4, 5), (15, 1), (1, 16)]);
            let it = raw(index, 0);
            let draft = raw_send(0x03, 0, num_src, num_dst, &one(), &it, &it);
            with(r, scene, &draft)
        }),
        ("RAW_SEND of none at the variable's end", 9, |r| {
            let mut scene = base_scene(r);
            let (type_code, count, end) = r.pick(&[(4, 31, 31), (0, 7, 28), (11, 16, 128)]);
            scene.case.variables.push(variable(type_code, 0, count));
            let index = scene.case.variables.len() as u16 - 1;
            let mut draft = base_instruction(r, &scene, Kind::Send);
            draft.set(Slot::NumDst, &[0]);
            draft.set_operand(2, &raw(index, end));
            with(r, scene, &draft)
        }),
        ("RAW_SEND of none past the variable's end", 7, |r| {
            let mut scene = base_scene(r);
            let (type_code, count, past) = r.pick(&[(4, 31, 32), (0, 7, 32), (11, 16, 136)]);
            scene.case.variables.push(variable(type_code, 0, count));
            let index = scene.case.variables.len() as u16 - 1;
            let mut draft = base_instruction(r, &scene, Kind::Send);
            draft.set(Slot::NumDst, &[0]);
            draft.set_operand(2, &raw(index, past));
            with(r, scene, &draft)
        }),
        ("RAW_SEND of none, offset unaligned", 7, |r| {
            let mut scene = base_scene(r);
            scene.case.variables.push(variable(0, 0, 8));
            let index = scene.case.variables.len() as u16 - 1;
            let mut draft = base_instruction(r, &scene, Kind::Send);
            draft.set(Slot::NumDst, &[0]);
            draft.set_operand(2, &raw(index, r.pick(&[1, 2, 30, 31])));
            with(r, scene, &draft)
        }),
        ("unaligned address and offset, aligned sum", 0, |r| {
            let mut scene = base_scene(r);
            let guarded = scene.guarded.unwrap();
            let odd = r.range(1, 3);
            for lane in 0..8 {
                set_offset(&mut scene, lane, guarded.constant.wrapping_sub(odd));
            }
            let mut draft = plain_scatter(&scene);
            draft.set_operand(0, &immediate_uq(guarded.address.wrapping_add(odd)));
            with(r, scene, &draft)
        }),
        ("first and last dword of the window", 0, |r| {
            let mut scene = base_scene(r);
            let guarded = scene.guarded.unwrap();
            for lane in 0..8 {
                let dword = if r.chance(50) { 0 } else { guarded.dwords - 1 };
                set_offset(&mut scene, lane, guarded.constant.wrapping_add(4 * dword));
            }
            let draft = plain_scatter(&scene);
            with(r, scene, &draft)
        }),
        ("last dword by channel A", 0, |r| {
            let mut scene = base_scene(r);
            let guarded = scene.guarded.unwrap();
            // The last dword less 12, which may lie below the window: only channel A is enabled.
            let offset = (4 * guarded.dwords).wrapping_sub(16);
            for lane in 0..8 {
                set_offset(&mut scene, lane, guarded.constant.wrapping_add(offset));
            }
            let mut draft = plain_scatter(&scene);
            draft.set(Slot::Channels, &[8]);
            with(r, scene, &draft)
        }),
        (
            "taint, an odd and an outside address in lanes that are off",
            0,
            |r| {
                let mut scene = base_scene(r);
                let on = r.below(256) as u32;
                scene.case.execution_mask = on;
                for lane in 0..8 {
                    if (on >> lane) & 1 == 1 {
                        continue;
                    }
                    let at = scene.guarded.unwrap().offsets_start + 8 * lane;
                    match r.below(3) {
                        0 => scene.case.register_taint[at + r.below(8) as usize] = 0x40,
                        1 => set_offset(&mut scene, lane, 1),
                        _ => set_offset(&mut scene, lane, r.next()),
                    }
                }
                let mut draft = plain_scatter(&scene);
                draft.set(Slot::Exec, &[0x03]);
                with(r, scene, &draft)
            },
        ),
        ("no lane on, tainted, odd or outside address", 0, |r| {
            let mut scene = base_scene(r);
            let (exec, pred) = all_off(r, &mut scene);
            let mut draft = plain_scatter(&scene);
            give_form(
                r,
                &scene,
                &mut draft,
                Kind::Scatter,
                Some((0, Form::General)),
            );
            let at = scene.guarded.unwrap().addresses_start;
            scene.case.registers[at..at + 32].fill(r.byte());
            scene.case.register_taint[at..at + 32].fill(r.pick(&[0, 1, 0xff]));
            draft.set(Slot::Exec, &[exec]);
            draft.set(Slot::Pred, &pred.to_le_bytes());
            with(r, scene, &draft)
        }),
        (
            "a tainted, an odd and an outside lane in any order",
            10,
            |r| {
                let mut scene = base_scene(r);
                let [tainted, odd, outside] = three_lanes(r);
                let constant = scene.guarded.unwrap().constant;
                let at = scene.guarded.unwrap().offsets_start + 8 * tainted;
                scene.case.register_taint[at + r.below(8) as usize] = r.pick(&[1, 2, 0xff]);
                set_offset(&mut scene, odd, constant.wrapping_add(r.range(1, 3)));
                set_offset(&mut scene, outside, constant.wrapping_add(0x10000));
                let draft = plain_scatter(&scene);
                with(r, scene, &draft)
            },
        ),
        ("an odd and an outside lane in any order", 11, |r| {
            let mut scene = base_scene(r);
            let [_, odd, outside] = three_lanes(r);
            let constant = scene.guarded.unwrap().constant;
            set_offset(&mut scene, odd, constant.wrapping_add(r.range(1, 3)));
            set_offset(&mut scene, outside, constant.wrapping_add(0x10000));
            let draft = plain_scatter(&scene);
            with(r, scene, &draft)
        }),
        (
            "offset + ExecSize over 32, predicate and variable not there",
            8,
            |r| {
                let scene = base_scene(r);
                let nowhere = general(0xffff, 0, 0, destination_region(1));
                let exec = r.pick(&[0x15, 0x75, 0x54, 0xf4, 0x73, 0xf3]);
                let pred = r.pick(&[0x0040, 0x2fff, 0x8fff]);
                let draft = shl(exec, pred, &nowhere, &one(), &one());
                with(r, scene, &draft)
            },
        ),
        ("kernel of 4,096 bytes, 178 instructions", 0, |r| {
            let mut scene = base_scene(r);
            let dst = byte_destination(&mut scene);
            let mut kernel = Vec::new();
            for _ in 0..176 {
                kernel.extend(shl(0x83, 0, &dst, &one(), &one()).bytes());
            }
            let mut src = dst.clone();
            src[4].1 = source_region(8, 8, 1).to_le_bytes().to_vec();
            for _ in 0..2 {
                kernel.extend(shl(0x83, 0, &dst, &src, &one()).bytes());
            }
            scene.case.kernel = kernel;
            scene
        }),
        ("empty kernel", 0, |r| {
            let mut scene = base_scene(r);
            scene.case.kernel = Vec::new();
            scene
        }),
        ("surface taint of 16,386 characters", 0, |r| {
            let mut scene = base_scene(r);
            scene.case.surfaces = (0..8).map(|_| r.bytes(1024)).collect();
            scene.case.surface_taint = r.bytes(8192);
            let draft = base_instruction(r, &scene, Kind::Gather);
            with(r, scene, &draft)
        }),
    ];
    list.iter()
        .map(|(name, number, make)| Limit {
            name,
            number: *number,
            make: *make,
        })
        .collect()
}
