//! Regions: which elements of its variable a general operand names (document 01's section "Regions"), and which rule its
//! parameters break (document 02, request 2).

use crate::element_type;
use crate::fields::Role;
use crate::instruction::VectorOperand;
use crate::number::{
    DESTINATION_STRIDE_0, NULL, STRIDE_OVER_4, WIDTH_0_OR_32, WIDTH_OVER_EXEC_SIZE,
};
use crate::register_size::elements_in_a_row;

/// "codes 0 Null, 1..7 for 0, 1, 2, 4, 8, 16, 32". Decoding lets no code over 7 pass.
fn value(code: u16) -> Option<u64> {
    match code {
        1 => Some(0),
        2 => Some(1),
        3 => Some(2),
        4 => Some(4),
        5 => Some(8),
        6 => Some(16),
        7 => Some(32),
        _ => None,
    }
}

/// "bits 0-3 vertical"
fn vertical(region: u16) -> Option<u64> {
    value(region & 15)
}

/// "4-7 width"
fn width(region: u16) -> Option<u64> {
    value((region >> 4) & 15)
}

/// "8-11 horizontal stride"
fn horizontal(region: u16) -> Option<u64> {
    value((region >> 8) & 15)
}

/// The region of a General operand of SHL, a field being nothing where it is Null.
#[derive(Clone, Copy, Debug, PartialEq, Eq)]
pub struct Region {
    pub role: Role,
    pub vertical: Option<u64>,
    pub width: Option<u64>,
    pub horizontal: Option<u64>,
    pub exec_size: u64,
}

impl Region {
    pub fn of(region: u16, role: Role, exec_size: u64) -> Region {
        Region {
            role,
            vertical: vertical(region),
            width: width(region),
            horizontal: horizontal(region),
            exec_size,
        }
    }
}

/// A rule's number, and whether a region breaks it.
pub type Rule = (u8, fn(&Region) -> bool);

/// "6 becomes 20 to 24 in the order just given, tested in that order within an operand".
pub const RULES: [Rule; 5] = [
    (WIDTH_0_OR_32, width_0_or_32),
    (STRIDE_OVER_4, horizontal_stride_over_4),
    (WIDTH_OVER_EXEC_SIZE, width_over_exec_size),
    (DESTINATION_STRIDE_0, destination_stride_zero),
    (NULL, null_where_none_may_stand_or_not_null_where_it_must),
];

/// The number of the first rule that a region breaks.
pub fn first_broken(rules: &[Rule], region: &Region) -> Option<u8> {
    let broken = rules.iter().find(|(_, breaks)| breaks(region));
    broken.map(|(number, _)| *number)
}

/// Of a source: a destination's width is judged by the last rule alone.
pub fn width_0_or_32(region: &Region) -> bool {
    region.role == Role::Source && matches!(region.width, Some(0 | 32))
}

pub fn horizontal_stride_over_4(region: &Region) -> bool {
    region.horizontal.is_some_and(|horizontal| horizontal > 4)
}

/// Of a source.
pub fn width_over_exec_size(region: &Region) -> bool {
    region.role == Role::Source && region.width.is_some_and(|width| width > region.exec_size)
}

pub fn destination_stride_zero(region: &Region) -> bool {
    region.role == Role::Destination && region.horizontal == Some(0)
}

/// A source has "no Null"; of a destination V and W are Null and H is not. "The last alone judges Nulls and a
/// destination's other two fields."
pub fn null_where_none_may_stand_or_not_null_where_it_must(region: &Region) -> bool {
    let Region {
        vertical,
        width,
        horizontal,
        ..
    } = region;
    match region.role {
        Role::Source => vertical.is_none() || width.is_none() || horizontal.is_none(),
        Role::Destination => vertical.is_some() || width.is_some() || horizontal.is_none(),
    }
}

/// "Scalar: Immediate, or General with region <0;1,0>."
pub fn scalar_is_right(region: u16) -> bool {
    vertical(region) == Some(0) && width(region) == Some(1) && horizontal(region) == Some(0)
}

/// "R·(32/size)+C", the element at the region's origin; a row has `row` bytes, the register's size.
fn origin(operand: &VectorOperand, type_code: u8, row: u64) -> u64 {
    let size = element_type::size(type_code).unwrap();
    u64::from(operand.row) * elements_in_a_row(row, size) + u64::from(operand.column)
}

/// "General source element (i, j): R·(32/size)+C+i·V+j·H, for ExecSize/Width rows of Width."
/// One element number for each lane, the region being right.
pub fn source_elements(
    operand: &VectorOperand,
    type_code: u8,
    exec_size: u64,
    row: u64,
) -> Vec<u64> {
    let v = vertical(operand.region).unwrap();
    let w = width(operand.region).unwrap();
    let h = horizontal(operand.region).unwrap();
    let mut elements = Vec::new();
    for i in 0..exec_size / w {
        for j in 0..w {
            elements.push(origin(operand, type_code, row) + i * v + j * h);
        }
    }
    elements
}

/// 003: "DstDataElements[i] = VN[FirstElementIndex + i *HorzStride]".
pub fn destination_elements(
    operand: &VectorOperand,
    type_code: u8,
    exec_size: u64,
    row: u64,
) -> Vec<u64> {
    let h = horizontal(operand.region).unwrap();
    (0..exec_size)
        .map(|i| origin(operand, type_code, row) + i * h)
        .collect()
}
