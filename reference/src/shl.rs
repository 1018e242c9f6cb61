//! The effect of SHL: "Source read exactly (signed types signed), times 2^(count mod 32), taken modulo
//! 2^(destination bits). The count is the low five bits of src1."

use crate::case::Case;
use crate::element;
use crate::element_type;
use crate::instruction::Instruction;
use crate::region;
use crate::register_size::Followers;

pub fn shl(case: &mut Case, instruction: &Instruction, on: &[bool], followers: &Followers) {
    let exec_size = instruction.exec_size();

    // "All sources are read before any write."
    let row = followers.rows;
    let src0 = element::sources(case, &instruction.src0, exec_size, row);
    let src1 = element::sources(case, &instruction.src1, exec_size, row);
    let src0_type = element::type_of(case, &instruction.src0);

    let variable = case.variables[usize::from(instruction.dst.index)];
    let size = element_type::size(variable.type_code).unwrap();
    let places = region::destination_elements(&instruction.dst, variable.type_code, exec_size, row);

    for lane in 0..exec_size as usize {
        if !on[lane] {
            continue;
        }
        let value = exact(src0[lane].bits, src0_type);
        let count = (src1[lane].bits % 32) as u32;
        let result = shifted(value, count, 8 * size as u32);
        // "Each written SHL element is wholly marked if any byte of either source element was, else
        // wholly unmarked."
        let tainted = src0[lane].tainted || src1[lane].tainted;
        let at = u64::from(variable.start) + places[lane] * size;
        element::write(case, at, size, result, tainted);
    }
}

/// "Source read exactly (signed types signed)".
pub fn exact(bits: u64, type_code: u8) -> i128 {
    let width = 8 * element_type::size(type_code).unwrap();
    let value = i128::from(bits);
    if element_type::is_signed(type_code) && (bits >> (width - 1)) & 1 == 1 {
        value - (1i128 << width)
    } else {
        value
    }
}

/// "times 2^(count mod 32), taken modulo 2^(destination bits)".
pub fn shifted(value: i128, count: u32, destination_bits: u32) -> u64 {
    let product = value * (1i128 << (count % 32));
    product.rem_euclid(1i128 << destination_bits) as u64
}
