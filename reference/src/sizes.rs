//! The tables check, number 13: document 01's section "Tables and sizes" and the lengths of taint.

use crate::case::{Case, Variable};
use crate::element_type;
use crate::number::SIZES;
use crate::register_size::{is_well_placed, is_whole_registers, Followers};

/// Every entry of every table is judged, used or not.
pub fn check(case: &Case) -> Result<(), u8> {
    // "Refusals: any other size is 13."
    if case.register_size.is_good() {
        check_by(case, &Followers::of(case.register_size))
    } else {
        Err(SIZES)
    }
}

/// The same by what follows the register size, which itself is not judged here.
pub fn check_by(case: &Case, followers: &Followers) -> Result<(), u8> {
    if sizes_hold(case, followers) {
        Ok(())
    } else {
        Err(SIZES)
    }
}

fn sizes_hold(case: &Case, followers: &Followers) -> bool {
    let registers = case.registers.len() as u64;
    let variable_holds = |it: &Variable| variable_holds(it, registers, followers.placing);
    // "Register file: multiple of 32, at most 4,096."
    is_whole_registers(followers.file, registers)
        && registers <= followers.largest_file
        // "Kernel and memory: at most 4,096 each."
        && case.kernel.len() <= 4096
        && case.memory.len() <= 4096
        // "Base plus memory length is at most 2^64."
        && u128::from(case.base) + case.memory.len() as u128 <= 1u128 << 64
        // "At most 256 variables, 64 predicates (32 bits each), 8 surfaces of at most 1,024 bytes."
        && case.variables.len() <= 256
        && case.predicates.len() <= 64
        && case.surfaces.len() <= 8
        && case.surfaces.iter().all(|surface| surface.len() <= 1024)
        // "a count from 1 to 32", "a bad count is 13"
        && case.predicates.iter().all(|it| (1..=32).contains(&it.count))
        && case.variables.iter().all(variable_holds)
        // "or marks differ in length from their buffer"
        && case.register_taint.len() == case.registers.len()
        && case.surface_taint.len() == case.surface_bytes()
        && case.memory_taint.len() == case.memory.len()
}

/// "It lies in the file, starts at a multiple of its element size, at a multiple of 32 if it is 32
/// bytes or longer, and otherwise crosses no 32-byte line", `register` in the place of 32.
fn variable_holds(variable: &Variable, registers: u64, register: u64) -> bool {
    // "(a type not listed too)"
    let size = match element_type::size(variable.type_code) {
        Some(size) => size,
        None => return false,
    };
    // "element count (at least 1)"
    if variable.count == 0 {
        return false;
    }
    let start = u64::from(variable.start);
    let bytes = size * u64::from(variable.count);
    start + bytes <= registers && start % size == 0 && is_well_placed(register, start, bytes)
}
