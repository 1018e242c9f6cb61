//! What a run asks of one operand: "each operand in order 5, 4 (type), 6, 7", 6 being 20 to 24, or 25 for a scalar.
//!
//! An operand's place is its number in field order, from 1.

use crate::case::{Case, Variable};
use crate::element_type;
use crate::fields::Role;
use crate::instruction::{RawOperand, VectorOperand};
use crate::number::{NOT_ALLOWED, NOT_IN_TABLE, OUTSIDE, SCALAR_REGION};
use crate::refusal::Refusal;
use crate::region::{self, Region, RULES};
use crate::register_size::{in_two_registers, Followers};

/// 5: "variable ... not in its table"
fn variable(case: &Case, index: u16) -> Result<Variable, u8> {
    match case.variables.get(usize::from(index)) {
        Some(variable) => Ok(*variable),
        None => Err(NOT_IN_TABLE),
    }
}

/// 4: "type not allowed there"
fn type_is_one_of(type_code: u8, allowed: &[u8]) -> Result<(), u8> {
    if allowed.contains(&type_code) {
        Ok(())
    } else {
        Err(NOT_ALLOWED)
    }
}

/// A vector operand of SHL.
pub fn vector(
    case: &Case,
    operand: &VectorOperand,
    place: usize,
    role: Role,
    exec_size: u64,
    allowed: &[u8],
    followers: &Followers,
) -> Result<(), Refusal> {
    if operand.is_immediate() {
        type_is_one_of(operand.immediate_type, allowed)?;
        return Ok(());
    }
    let variable = variable(case, operand.index)?;
    type_is_one_of(variable.type_code, allowed)?;
    let region = Region::of(operand.region, role, exec_size);
    if let Some(number) = region::first_broken(&RULES, &region) {
        return Err(Refusal::of_operand(number, place));
    }
    let elements_of = match role {
        Role::Source => region::source_elements,
        Role::Destination => region::destination_elements,
    };
    let elements = elements_of(operand, variable.type_code, exec_size, followers.rows);
    elements_lie_well(&variable, &elements, followers.two_registers)?;
    Ok(())
}

/// A scalar: "Immediate, or General with region <0;1,0>."
pub fn scalar(
    case: &Case,
    operand: &VectorOperand,
    place: usize,
    allowed: u8,
    followers: &Followers,
) -> Result<(), Refusal> {
    if operand.is_immediate() {
        type_is_one_of(operand.immediate_type, &[allowed])?;
        return Ok(());
    }
    let variable = variable(case, operand.index)?;
    type_is_one_of(variable.type_code, &[allowed])?;
    // "a scalar's region is judged by 25 alone, in the same place"
    if !region::scalar_is_right(operand.region) {
        return Err(Refusal::of_operand(SCALAR_REGION, place));
    }
    // Its one element is that of a region of ExecSize 1.
    let elements = region::source_elements(operand, variable.type_code, 1, followers.rows);
    elements_lie_well(&variable, &elements, followers.two_registers)?;
    Ok(())
}

/// "All ExecSize elements, enabled or not, lie in the variable and touch at most two adjacent
/// registers, lowest byte to highest."
fn elements_lie_well(variable: &Variable, elements: &[u64], register: u64) -> Result<(), u8> {
    let size = element_type::size(variable.type_code).unwrap();
    let start = u64::from(variable.start);
    if elements.iter().any(|&e| e >= u64::from(variable.count)) {
        return Err(OUTSIDE);
    }
    let lowest_byte = start + elements.iter().min().unwrap() * size;
    let highest_byte = start + elements.iter().max().unwrap() * size + size - 1;
    if !in_two_registers(register, lowest_byte, highest_byte) {
        return Err(OUTSIDE);
    }
    Ok(())
}

/// "A raw operand may be longer, but it lies in its variable and its offset is a multiple of the
/// element size." No types named means that any type is allowed.
pub fn raw(
    case: &Case,
    operand: &RawOperand,
    allowed: Option<&[u8]>,
    bytes_needed: u64,
) -> Result<(), Refusal> {
    let variable = variable(case, operand.index)?;
    if let Some(allowed) = allowed {
        type_is_one_of(variable.type_code, allowed)?;
    }
    let size = element_type::size(variable.type_code).unwrap();
    let offset = u64::from(operand.offset);
    let end = size * u64::from(variable.count);
    // "for none, the offset may be the variable's end": with no byte needed, this sum is the offset.
    if offset % size != 0 || offset + bytes_needed > end {
        return Err(OUTSIDE.into());
    }
    Ok(())
}
