//! Reading and writing elements of the register file, each with its taint.

use crate::case::Case;
use crate::element_type;
use crate::instruction::{RawOperand, VectorOperand};
use crate::region;

/// The bytes of one element as an unsigned number, and whether any of them is tainted.
#[derive(Clone, Copy, Debug, PartialEq, Eq)]
pub struct Element {
    pub bits: u64,
    pub tainted: bool,
}

/// `size` register bytes from `at`, little-endian.
fn read(case: &Case, at: u64, size: u64) -> Element {
    let mut bits = 0;
    let mut tainted = false;
    for k in 0..size {
        let byte = (at + k) as usize;
        bits |= u64::from(case.registers[byte]) << (8 * k);
        // "non-zero is marked"
        tainted |= case.register_taint[byte] != 0;
    }
    Element { bits, tainted }
}

/// Write the low bytes of `bits`; "marks are written as 0 or 1".
pub fn write(case: &mut Case, at: u64, size: u64, bits: u64, tainted: bool) {
    for k in 0..size {
        let byte = (at + k) as usize;
        case.registers[byte] = (bits >> (8 * k)) as u8;
        case.register_taint[byte] = u8::from(tainted);
    }
}

/// "the lowest bytes that the type needs are used"; "Immediates are unmarked."
fn immediate(operand: &VectorOperand) -> Element {
    let all = u64::from(operand.low) | (u64::from(operand.high) << 32);
    let bits = match element_type::size(operand.immediate_type).unwrap() {
        1 => all & 0xff,
        2 => all & 0xffff,
        4 => all & 0xffff_ffff,
        _ => all,
    };
    Element {
        bits,
        tainted: false,
    }
}

/// The element of a vector source for each lane; a row has `row` bytes.
pub fn sources(case: &Case, operand: &VectorOperand, exec_size: u64, row: u64) -> Vec<Element> {
    if operand.is_immediate() {
        return vec![immediate(operand); exec_size as usize];
    }
    let variable = case.variables[usize::from(operand.index)];
    let size = element_type::size(variable.type_code).unwrap();
    region::source_elements(operand, variable.type_code, exec_size, row)
        .iter()
        .map(|e| read(case, u64::from(variable.start) + e * size, size))
        .collect()
}

/// The one element of a scalar.
pub fn scalar(case: &Case, operand: &VectorOperand, row: u64) -> Element {
    sources(case, operand, 1, row)[0]
}

/// The type of a vector operand's elements.
pub fn type_of(case: &Case, operand: &VectorOperand) -> u8 {
    if operand.is_immediate() {
        operand.immediate_type
    } else {
        case.variables[usize::from(operand.index)].type_code
    }
}

/// Where element `e` of a raw operand starts in the register file.
pub fn raw_position(case: &Case, operand: &RawOperand, e: u64) -> u64 {
    let variable = case.variables[usize::from(operand.index)];
    let size = element_type::size(variable.type_code).unwrap();
    u64::from(variable.start) + u64::from(operand.offset) + e * size
}

/// Element `e` of a raw operand.
pub fn raw(case: &Case, operand: &RawOperand, e: u64) -> Element {
    let variable = case.variables[usize::from(operand.index)];
    let size = element_type::size(variable.type_code).unwrap();
    read(case, raw_position(case, operand, e), size)
}
