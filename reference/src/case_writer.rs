//! The case file writer: a case as lines, every frame present, in the order of the kinds, predicates with their counts.

use crate::case::Case;
use crate::hex::push_hex;

/// A case file whose reading gives the case back.
pub fn write_case(case: &Case) -> Vec<u8> {
    let mut file = Vec::new();
    for line in case_lines(case) {
        file.extend(line);
        file.push(0x0a);
    }
    file
}

/// The lines of a case file, without their 0x0a.
pub fn case_lines(case: &Case) -> Vec<Vec<u8>> {
    let mut lines = vec![line(0x01, &[&case.registers])];
    for variable in &case.variables {
        let start = variable.start.to_le_bytes();
        let count = variable.count.to_le_bytes();
        lines.push(line(0x02, &[&[variable.type_code], &start, &count]));
    }
    for predicate in &case.predicates {
        let bits = predicate.bits.to_le_bytes();
        lines.push(line(0x03, &[&bits, &[predicate.count]]));
    }
    for surface in &case.surfaces {
        lines.push(line(0x04, &[surface]));
    }
    lines.push(memory_line(case));
    lines.push(line(0x06, &[&case.execution_mask.to_le_bytes()]));
    lines.push(line(0x07, &[&case.kernel]));
    lines.push(line(0x08, &[&case.register_taint]));
    lines.push(line(0x09, &[&case.surface_taint]));
    lines.push(line(0x0a, &[&case.memory_taint]));
    lines.push(register_size_line(case));
    lines
}

/// "A frame 0b with one byte"
pub fn register_size_line(case: &Case) -> Vec<u8> {
    line(0x0b, &[&[case.register_size.0]])
}

/// "05 base uq and memory"
pub fn memory_line(case: &Case) -> Vec<u8> {
    line(0x05, &[&case.base.to_le_bytes(), &case.memory])
}

/// One line: the kind, then the parts of the frame, in lower-case hex.
pub fn line(kind: u8, parts: &[&[u8]]) -> Vec<u8> {
    let mut text = Vec::new();
    push_hex(&mut text, &[kind]);
    for part in parts {
        push_hex(&mut text, part);
    }
    text
}
