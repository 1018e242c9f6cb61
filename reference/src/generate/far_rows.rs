//! Operands in the last row that a variable can have, and in the first that none can.
//!
//! Row R starts at byte R times a register's bytes of its variable, for every element size, and the largest register file
//! has 4,096 bytes: row 127 may be good, or row 63 of 64 bytes, and every later one is outside.

use super::accepted::{exec, Kind};
use super::limits::{byte_destination, one, with};
use super::near_misses::{base_instruction, base_scene};
use super::random::Random;
use super::scene::{taint, variable, Scene};
use crate::assemble::*;

#[derive(Clone, Copy)]
pub enum FarOperand {
    Destination,
    Source,
    /// Of a gather.
    Offset,
    /// Of a scatter.
    Address,
}

/// An operand in the last row of a variable that is all of the largest register file, where it is good, or in so many rows
/// behind.
pub fn in_last_row(random: &mut Random, behind: u8, operand: FarOperand) -> Scene {
    let mut scene = base_scene(random);
    let register = scene.register() as u16;
    let row = (4096 / register) as u8 - 1 + behind;
    let work = scene.work as usize;
    scene.case.registers.resize(4096, 0x5a);
    scene.case.register_taint = taint(random, 4096);
    scene.case.register_taint[work..].fill(0);
    let (type_code, size) = match operand {
        FarOperand::Address => (11, 8),
        FarOperand::Offset => (0, 4),
        _ => random.pick(&[(0, 4), (1, 4), (2, 2), (3, 2), (4, 1), (5, 1)]),
    };
    let all_of_it = variable(type_code, 0, 4096 / size);
    scene.case.variables.push(all_of_it);
    let index = scene.case.variables.len() as u16 - 1;
    let in_a_row = register / size;
    let draft = match operand {
        FarOperand::Destination | FarOperand::Source => {
            let code = random.below(u64::from(in_a_row.ilog2()).min(5) + 1) as u8;
            let lanes = 1u16 << code;
            let column = random.edge(u64::from(in_a_row - lanes)) as u8;
            let exec = exec(random, code);
            let pred = scene.pred(random, exec);
            if let FarOperand::Destination = operand {
                let dst = general(index, row, column, destination_region(1));
                shl(exec, pred, &dst, &one(), &one())
            } else {
                let width = lanes.min(16);
                let src = general(index, row, column, source_region(width, width, 1));
                shl(exec, pred, &byte_destination(&mut scene), &src, &one())
            }
        }
        FarOperand::Offset | FarOperand::Address => {
            let kind = match operand {
                FarOperand::Offset => Kind::Gather,
                _ => Kind::Scatter,
            };
            let mut draft = base_instruction(random, &scene, kind);
            let column = random.below(u64::from(in_a_row)) as u8;
            draft.set_operand(0, &general(index, row, column, SCALAR_REGION));
            draft
        }
    };
    if let FarOperand::Address = operand {
        let address = scene.guarded.unwrap().address.to_le_bytes();
        let register = usize::from(register);
        scene.case.registers[4096 - register..].copy_from_slice(&address.repeat(register / 8));
    }
    with(random, scene, &draft)
}
