//! Number 13: tables and lengths that break a size, and the same at their limits.

use super::random::Random;
use super::scene::{any_count, bits, taint, variable};
use crate::assemble::{destination_region, general, immediate, shl};
use crate::case::{Case, Predicate};

type Apply = fn(&mut Random, &mut Case);

pub struct TableFault {
    pub name: &'static str,
    /// 13, or 0 when the case is exactly at the limit.
    pub number: u8,
    pub apply: Apply,
}

fn set_registers(random: &mut Random, case: &mut Case, length: usize) {
    case.registers.resize(length, 0xa5);
    case.register_taint = taint(random, length);
}

/// The bytes of a register.
fn register(case: &Case) -> usize {
    case.register_size.bytes() as usize
}

fn set_memory(random: &mut Random, case: &mut Case, base: u64, length: usize) {
    case.base = base;
    case.memory = random.bytes(length as u64);
    case.memory_taint = taint(random, length);
}

fn add_surfaces(random: &mut Random, case: &mut Case, count: usize, length: u64) {
    while case.surfaces.len() < count {
        case.surfaces.push(random.bytes(length));
    }
    case.surface_taint = taint(random, case.surface_bytes());
}

fn add_variable(random: &mut Random, case: &mut Case, type_code: u8, start: usize, count: usize) {
    let it = variable(type_code, start as u16, count as u16);
    // A wrong entry is wrong at any place; good kernels keep their numbers when it comes last.
    let place = case.variables.len();
    let place = if random.chance(80) {
        place
    } else {
        place.min(1)
    };
    case.variables.insert(place, it);
}

/// Like the above for entries that are good: always last, so that the kernel still means the same.
fn add_good_variable(case: &mut Case, type_code: u8, start: usize, count: usize) {
    case.variables
        .push(variable(type_code, start as u16, count as u16));
}

/// A good one, last in its table.
fn add_predicate(random: &mut Random, case: &mut Case) {
    let predicate = Predicate {
        bits: bits(random),
        count: any_count(random),
    };
    case.predicates.push(predicate);
}

/// Give a predicate a count: one that a further instruction names, or one that none names.
fn set_count(random: &mut Random, case: &mut Case, named: bool, count: u8) {
    add_predicate(random, case);
    let last = case.predicates.len() as u16 - 1;
    case.predicates[usize::from(last)].count = count;
    if named {
        // By any, so that number 0 is a predicate too.
        let exec = random.pick(&[0x00, 0x03, 0x75, 0x80, 0xf4]);
        let dst = general(0, 0, 0, destination_region(1));
        let one = immediate(0, 1);
        let naming = shl(exec, last | 0x2000, &dst, &one, &one);
        case.kernel.splice(0..0, naming.bytes());
    }
}

pub fn table_faults() -> Vec<TableFault> {
    let list: &[(&'static str, u8, Apply)] = &[
        ("one register byte too many", 13, |r, c| {
            let n = c.registers.len() + 1;
            set_registers(r, c, n)
        }),
        ("one register byte too few", 13, |r, c| {
            let n = c.registers.len() - 1;
            set_registers(r, c, n)
        }),
        ("half a register more", 13, |r, c| {
            let n = c.registers.len() + register(c) / 2;
            set_registers(r, c, n)
        }),
        ("one register byte in all", 13, |r, c| {
            c.variables.clear();
            set_registers(r, c, 1)
        }),
        ("4,096 register bytes", 0, |r, c| set_registers(r, c, 4096)),
        ("4,097 register bytes", 13, |r, c| set_registers(r, c, 4097)),
        ("4,128 register bytes", 13, |r, c| set_registers(r, c, 4128)),
        ("kernel of 4,097 bytes", 13, |r, c| c.kernel = r.bytes(4097)),
        ("memory of 4,096 bytes", 0, |r, c| set_memory(r, c, 0, 4096)),
        ("memory of 4,097 bytes", 13, |r, c| {
            set_memory(r, c, 0, 4097)
        }),
        ("base + length is 2^64", 0, |r, c| {
            let length = r.range(1, 64);
            set_memory(r, c, 0u64.wrapping_sub(length), length as usize)
        }),
        ("base + length is one over 2^64", 13, |r, c| {
            let length = r.range(1, 64);
            set_memory(r, c, 0u64.wrapping_sub(length), length as usize + 1)
        }),
        ("4,096 bytes up to 2^64", 0, |r, c| {
            set_memory(r, c, 0u64.wrapping_sub(4096), 4096)
        }),
        ("base 2^64 - 1 without memory", 0, |r, c| {
            set_memory(r, c, u64::MAX, 0)
        }),
        ("base 2^64 - 1 and one byte", 0, |r, c| {
            set_memory(r, c, u64::MAX, 1)
        }),
        ("base 2^64 - 1 and two bytes", 13, |r, c| {
            set_memory(r, c, u64::MAX, 2)
        }),
        ("256 variables", 0, |_, c| {
            while c.variables.len() < 256 {
                add_good_variable(c, 4, 0, 1);
            }
        }),
        ("257 variables", 13, |_, c| {
            while c.variables.len() < 257 {
                add_good_variable(c, 4, 0, 1);
            }
        }),
        ("64 predicates", 0, |r, c| {
            while c.predicates.len() < 64 {
                add_predicate(r, c);
            }
        }),
        ("65 predicates", 13, |r, c| {
            while c.predicates.len() < 65 {
                add_predicate(r, c);
            }
        }),
        ("a predicate of no elements, named", 13, |r, c| {
            set_count(r, c, true, 0)
        }),
        ("a predicate of no elements, not named", 13, |r, c| {
            set_count(r, c, false, 0)
        }),
        ("a predicate of 1 element, not named", 0, |r, c| {
            set_count(r, c, false, 1)
        }),
        ("a predicate of 32 elements, not named", 0, |r, c| {
            set_count(r, c, false, 32)
        }),
        ("a predicate of 33 elements, named", 13, |r, c| {
            set_count(r, c, true, 33)
        }),
        ("a predicate of 33 elements, not named", 13, |r, c| {
            set_count(r, c, false, 33)
        }),
        ("a predicate of more elements, named", 13, |r, c| {
            let count = r.pick(&[34, 63, 64, 96, 127, 128, 160, 224, 254, 255]);
            set_count(r, c, true, count)
        }),
        ("a predicate of more elements, not named", 13, |r, c| {
            let count = r.pick(&[34, 63, 64, 96, 127, 128, 160, 224, 254, 255]);
            set_count(r, c, false, count)
        }),
        ("the first predicate of a bad count", 13, |r, c| {
            add_predicate(r, c);
            c.predicates[0].count = r.pick(&[0, 33, 255]);
        }),
        ("8 surfaces", 0, |r, c| add_surfaces(r, c, 8, 3)),
        ("9 surfaces", 13, |r, c| add_surfaces(r, c, 9, 3)),
        ("9 surfaces, the last one empty", 13, |r, c| {
            add_surfaces(r, c, 8, 2);
            add_surfaces(r, c, 9, 0)
        }),
        ("a surface of 1,024 bytes", 0, |r, c| {
            c.surfaces[0] = r.bytes(1024);
            c.surface_taint = taint(r, c.surface_bytes());
        }),
        ("a surface of 1,025 bytes", 13, |r, c| {
            c.surfaces[0] = r.bytes(1025);
            c.surface_taint = taint(r, c.surface_bytes());
        }),
        ("the last surface of 1,025 bytes", 13, |r, c| {
            *c.surfaces.last_mut().unwrap() = r.bytes(1025);
            c.surface_taint = taint(r, c.surface_bytes());
        }),
        ("variable type 6", 13, |r, c| add_variable(r, c, 6, 0, 1)),
        ("variable type 8, 9 or 10", 13, |r, c| {
            let code = r.range(8, 10) as u8;
            add_variable(r, c, code, 0, 1)
        }),
        ("variable type 12", 13, |r, c| add_variable(r, c, 12, 0, 1)),
        ("variable type over 12", 13, |r, c| {
            let code = r.range(13, 255) as u8;
            add_variable(r, c, code, 0, 1)
        }),
        ("variable of no elements", 13, |r, c| {
            let code = r.pick(&[0, 1, 2, 3, 4, 5, 7, 11]);
            let start = r.pick(&[0, 8, 24, 32, 40]);
            add_variable(r, c, code, start, 0)
        }),
        ("variable up to the file's end", 0, |r, c| {
            let (code, size) = r.pick(&[(0, 4), (2, 2), (5, 1), (7, 4), (11, 8)]);
            let count = r.range(1, 4) as usize;
            let start = c.registers.len() - count * size;
            add_good_variable(c, code, start, count);
        }),
        ("long variable up to the file's end", 0, |r, c| {
            let (code, size) = r.pick(&[(1, 4), (3, 2), (4, 1), (11, 8)]);
            let start = c.registers.len() - 64;
            add_good_variable(c, code, start, 64 / size);
        }),
        (
            "long variable one element over the file's end",
            13,
            |r, c| {
                let (code, size) = r.pick(&[(0, 4), (2, 2), (5, 1), (7, 4), (11, 8)]);
                let start = c.registers.len() - 64;
                add_variable(r, c, code, start, 64 / size + 1)
            },
        ),
        ("variable at the file's end", 13, |r, c| {
            let code = r.pick(&[0, 1, 2, 3, 4, 5, 7, 11]);
            let start = c.registers.len();
            add_variable(r, c, code, start, 1)
        }),
        ("variable far outside", 13, |r, c| {
            add_variable(r, c, 4, 0xffff, 1)
        }),
        ("variable of 65,535 elements", 13, |r, c| {
            let code = r.pick(&[0, 2, 4, 11]);
            add_variable(r, c, code, 0, 0xffff)
        }),
        ("variable not at a multiple of its size", 13, |r, c| {
            let (code, size) = r.pick(&[(0, 4), (1, 4), (7, 4), (2, 2), (3, 2), (11, 8)]);
            let start = size as usize + r.range(1, size - 1) as usize;
            add_variable(r, c, code, start, 1)
        }),
        ("UQ at a multiple of 4", 13, |r, c| {
            add_variable(r, c, 11, 4, 1)
        }),
        ("a register's bytes at its start", 0, |r, c| {
            let (code, size) = r.pick(&[(0, 4), (2, 2), (4, 1), (11, 8)]);
            let register = register(c);
            add_good_variable(c, code, register, register / size);
        }),
        ("a register's bytes not at its start", 13, |r, c| {
            let (code, size) = r.pick(&[(0, 4), (2, 2), (4, 1), (11, 8)]);
            let register = register(c);
            let start = 8 * r.range(1, register as u64 / 8 - 1) as usize;
            add_variable(r, c, code, start, register / size)
        }),
        ("more than a register not at its start", 13, |r, c| {
            let (code, size) = r.pick(&[(0, 4), (2, 2), (4, 1), (11, 8)]);
            let register = register(c);
            let start = 8 * r.range(1, register as u64 / 8 - 1) as usize;
            add_variable(r, c, code, start, 2 * register / size)
        }),
        ("less than a register inside it", 0, |r, c| {
            let (code, size) = r.pick(&[(0, 4), (2, 2), (4, 1), (11, 8)]);
            let register = register(c);
            add_good_variable(c, code, register + size, register / size - 1);
        }),
        ("less than a register in two of them", 13, |r, c| {
            let (code, size) = r.pick(&[(0, 4), (2, 2), (4, 1), (11, 8)]);
            let count = register(c) / size - 1;
            add_variable(r, c, code, 2 * size, count)
        }),
        ("two bytes in two registers", 13, |r, c| {
            let start = register(c) - 1;
            add_variable(r, c, 5, start, 2)
        }),
        ("register taint one longer", 13, |_, c| {
            c.register_taint.push(0)
        }),
        ("register taint one shorter", 13, |_, c| {
            c.register_taint.truncate(c.registers.len() - 1)
        }),
        ("register taint present and empty", 13, |_, c| {
            c.register_taint.clear()
        }),
        ("surface taint one longer", 13, |_, c| {
            c.surface_taint.push(1)
        }),
        (
            "surface taint one shorter, or of a missing surface",
            13,
            |_, c| {
                if c.surface_taint.pop().is_none() {
                    c.surface_taint.push(0)
                }
            },
        ),
        ("memory taint one longer", 13, |_, c| c.memory_taint.push(0)),
        ("memory taint one shorter", 13, |_, c| {
            c.memory_taint.truncate(c.memory.len() - 1)
        }),
        ("memory taint without memory", 13, |r, c| {
            set_memory(r, c, 0x1000, 0);
            c.memory_taint.push(0)
        }),
    ];
    list.iter()
        .map(|(name, number, apply)| TableFault {
            name,
            number: *number,
            apply: *apply,
        })
        .collect()
}
