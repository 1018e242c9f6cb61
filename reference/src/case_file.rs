//! The case file reader: "lower-case hex, first byte the kind", and number 14.
//!
//! A line is document 01's bench line; the bytes that it spells are a frame, the kind being the first.

use crate::case::{Case, Predicate, Variable};
use crate::hex;
use crate::register_size::RegisterSize;

/// "one over 16,386 characters included"; the 0x0a is not counted.
pub const LONGEST_LINE: usize = 16_386;

/// Read a case file, or give the number (from 1) of its first bad line.
pub fn read_case(input: &[u8]) -> Result<Case, usize> {
    let mut frames = Frames::default();
    for (n, line) in lines(input).iter().enumerate() {
        let good = match bytes_of(line) {
            Some(bytes) => frames.take(&bytes),
            None => false,
        };
        if !good {
            return Err(n + 1);
        }
    }
    Ok(frames.case())
}

/// "A line ends in 0x0a, which the last may lack." Empty input has no line.
fn lines(input: &[u8]) -> Vec<&[u8]> {
    let mut lines: Vec<&[u8]> = input.split(|byte| *byte == 0x0a).collect();
    // What stands after the last 0x0a is a line only if there is something.
    if lines.last().is_some_and(|last| last.is_empty()) {
        lines.pop();
    }
    lines
}

/// The bytes that a line spells, if it is of the right length and spells bytes at all.
fn bytes_of(line: &[u8]) -> Option<Vec<u8>> {
    if line.is_empty() || line.len() > LONGEST_LINE {
        return None;
    }
    hex::bytes_of(line)
}

fn uw(bytes: &[u8]) -> u16 {
    u16::from_le_bytes([bytes[0], bytes[1]])
}

fn ud(bytes: &[u8]) -> u32 {
    u32::from_le_bytes([bytes[0], bytes[1], bytes[2], bytes[3]])
}

/// The frames met so far; a frame that may come once is nothing until it came.
#[derive(Default)]
struct Frames {
    registers: Option<Vec<u8>>,
    variables: Vec<Variable>,
    predicates: Vec<Predicate>,
    surfaces: Vec<Vec<u8>>,
    base_and_memory: Option<(u64, Vec<u8>)>,
    execution_mask: Option<u32>,
    kernel: Option<Vec<u8>>,
    register_taint: Option<Vec<u8>>,
    surface_taint: Option<Vec<u8>>,
    memory_taint: Option<Vec<u8>>,
    register_size: Option<RegisterSize>,
}

impl Frames {
    /// Take one frame; false when it is bad.
    fn take(&mut self, bytes: &[u8]) -> bool {
        let kind = bytes[0];
        let body = &bytes[1..];
        match kind {
            // "01 registers"
            0x01 => once(&mut self.registers, body.to_vec()),
            // "02 variable (type ub, start uw, count uw)"
            0x02 => {
                if body.len() != 5 {
                    return false;
                }
                self.variables.push(Variable {
                    type_code: body[0],
                    start: uw(&body[1..3]),
                    count: uw(&body[3..5]),
                });
                true
            }
            // "03 predicate ud"; "frame 03 takes a further count byte, and an old four-byte frame means 32"
            0x03 => {
                let predicate = match body.len() {
                    4 => Predicate::of_32(ud(body)),
                    5 => Predicate {
                        bits: ud(body),
                        count: body[4],
                    },
                    _ => return false,
                };
                self.predicates.push(predicate);
                true
            }
            // "04 surface"
            0x04 => {
                self.surfaces.push(body.to_vec());
                true
            }
            // "05 base uq and memory"
            0x05 => {
                if body.len() < 8 {
                    return false;
                }
                let base = u64::from(ud(&body[0..4])) | (u64::from(ud(&body[4..8])) << 32);
                once(&mut self.base_and_memory, (base, body[8..].to_vec()))
            }
            // "06 EM ud"
            0x06 => body.len() == 4 && once(&mut self.execution_mask, ud(body)),
            // "07 kernel"
            0x07 => once(&mut self.kernel, body.to_vec()),
            // "08, 09, 0a marks of registers, surfaces in order, memory"
            0x08 => once(&mut self.register_taint, body.to_vec()),
            0x09 => once(&mut self.surface_taint, body.to_vec()),
            0x0a => once(&mut self.memory_taint, body.to_vec()),
            // "A frame 0b with one byte ... picks the size"; which bytes are good, 13 says.
            0x0b => {
                let [size] = body else {
                    return false;
                };
                once(&mut self.register_size, RegisterSize(*size))
            }
            // "Anything else ... is 14"
            _ => false,
        }
    }

    /// "absent means empty, base 0, EM 0, marks all 0", and registers of 32 bytes.
    fn case(self) -> Case {
        let registers = self.registers.unwrap_or_default();
        let (base, memory) = self.base_and_memory.unwrap_or_default();
        let surface_bytes = self.surfaces.iter().map(Vec::len).sum();
        Case {
            register_size: self.register_size.unwrap_or_default(),
            register_taint: self.register_taint.unwrap_or(vec![0; registers.len()]),
            surface_taint: self.surface_taint.unwrap_or(vec![0; surface_bytes]),
            memory_taint: self.memory_taint.unwrap_or(vec![0; memory.len()]),
            kernel: self.kernel.unwrap_or_default(),
            registers,
            variables: self.variables,
            predicates: self.predicates,
            surfaces: self.surfaces,
            base,
            memory,
            execution_mask: self.execution_mask.unwrap_or_default(),
        }
    }
}

/// "others once at most": false when the frame was there already.
fn once<T>(frame: &mut Option<T>, content: T) -> bool {
    let first = frame.is_none();
    *frame = Some(content);
    first
}
