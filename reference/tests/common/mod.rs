//! What the tests share: a small stage with variables of every type, and short ways to run on it.
#![allow(dead_code)]

use reference::assemble::Draft;
use reference::case::{Case, Predicate, Variable};
use reference::refusal::Detail;
use reference::register_size::RegisterSize;
use reference::run::{run, Answer};

/// Numbers of the stage's variables.
pub const UD: u16 = 0;
pub const D: u16 = 1;
pub const UW: u16 = 2;
pub const W: u16 = 3;
pub const UB: u16 = 4;
pub const B: u16 = 5;
pub const F: u16 = 6;
pub const UQ: u16 = 7;
/// The first number that is not in the stage's table.
pub const NO_VARIABLE: u16 = 8;

/// Where a stage variable starts: each has eight registers of its own, 256 bytes.
pub fn start(variable: u16) -> usize {
    usize::from(variable) * 256
}

/// 2,048 register bytes of zeros, one variable of 256 bytes for each type, two predicates of 32, a
/// surface of ten bytes, a memory window of 64 bytes at 0x1000, every lane on, no taint, registers of 32 bytes.
pub fn stage() -> Case {
    let types = [
        (0, 64),
        (1, 64),
        (2, 128),
        (3, 128),
        (4, 256),
        (5, 256),
        (7, 64),
        (11, 32),
    ];
    let mut variables = Vec::new();
    for (k, (type_code, count)) in types.into_iter().enumerate() {
        variables.push(Variable {
            type_code,
            start: 256 * k as u16,
            count,
        });
    }
    Case {
        register_size: RegisterSize::OF_32,
        kernel: Vec::new(),
        registers: vec![0; 2048],
        variables,
        predicates: vec![Predicate::of_32(0x80), Predicate::of_32(0xffff_ffff)],
        surfaces: vec![vec![
            0xa0, 0xa1, 0xa2, 0xa3, 0xa4, 0xa5, 0xa6, 0xa7, 0xa8, 0xa9,
        ]],
        base: 0x1000,
        memory: vec![0; 64],
        execution_mask: 0xffff_ffff,
        register_taint: vec![0; 2048],
        surface_taint: vec![0; 10],
        memory_taint: vec![0; 64],
    }
}

/// Put bytes into the registers.
pub fn put(case: &mut Case, at: usize, bytes: &[u8]) {
    case.registers[at..at + bytes.len()].copy_from_slice(bytes);
}

/// Put one UQ after the other into the registers.
pub fn put_uq(case: &mut Case, at: usize, values: &[u64]) {
    for (k, value) in values.iter().enumerate() {
        put(case, at + 8 * k, &value.to_le_bytes());
    }
}

/// The kernel of some instructions.
pub fn kernel(drafts: &[Draft]) -> Vec<u8> {
    drafts.iter().flat_map(Draft::bytes).collect()
}

/// Run these instructions on the case.
pub fn run_on(case: &mut Case, drafts: &[Draft]) -> Answer {
    case.kernel = kernel(drafts);
    run(case)
}

/// The number that one instruction gives on a fresh stage.
pub fn number_of(draft: &Draft) -> u8 {
    run_on(&mut stage(), &[draft.clone()]).number
}

/// The number that these kernel bytes give on a fresh stage.
pub fn number_of_bytes(bytes: &[u8]) -> u8 {
    let mut case = stage();
    case.kernel = bytes.to_vec();
    run(&mut case).number
}

/// An answer that carries nothing, shortly.
pub fn answer(number: u8, completed: usize, position: usize) -> Answer {
    Answer {
        number,
        completed,
        position,
        detail: Detail::None,
    }
}
