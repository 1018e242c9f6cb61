//! A scene: legal tables and buffers, with what is needed to write instructions that fit them.
//!
//! The registers have two areas. The work area comes first and is free to be written. The guarded area
//! after it holds the addresses and element offsets of scatters that stay inside the memory window.

use super::accepted::{exec, mask_end};
use super::random::Random;
use crate::case::{Case, Predicate, Variable};
use crate::element_type::{ALL, UD, UQ, UW};
use crate::register_size::RegisterSize;

/// What the guarded area holds.
#[derive(Clone, Copy, Debug)]
pub struct Guarded {
    /// UQ, 16 elements: element offsets. Address + each of them lies in the window.
    pub offsets: u16,
    pub offsets_start: usize,
    /// UD over the same bytes.
    pub halves: u16,
    /// UQ, 4 elements, each good as an Address with the element offsets.
    pub addresses: u16,
    pub addresses_start: usize,
    /// UW, 16 elements: element offsets divided by 4, without the constant part.
    pub indices: u16,
    /// A good Address.
    pub address: u64,
    /// The constant part of the element offsets.
    pub constant: u64,
    /// The highest channel that stays inside the window.
    pub top_channel: u8,
    /// The window's first dword at a multiple of 4, and the number of such dwords.
    pub first: u64,
    pub dwords: u64,
}

#[derive(Clone, Debug)]
pub struct Scene {
    pub case: Case,
    /// The work area's length in bytes.
    pub work: u64,
    pub guarded: Option<Guarded>,
}

/// How large a scene is to be.
#[derive(Clone, Copy, Debug, PartialEq, Eq)]
pub enum Size {
    /// A few registers and no scatter.
    Tiny,
    /// A work area of some registers and a guarded area.
    Usual,
    /// As usual, with buffers up to their limits.
    Large,
}

/// Element offsets 128, addresses 32, indices 32: whole registers of either size.
const GUARDED_BYTES: u64 = 192;
const ADDRESSES: u64 = 128;
const INDICES: u64 = 160;

/// A legal scene with registers of 32 or of 64 bytes. With `clean`, no byte of the guarded area is tainted.
pub fn scene(random: &mut Random, size: Size, clean: bool) -> Scene {
    let register_size = random.pick(&[RegisterSize::OF_32, RegisterSize::OF_64]);
    scene_of(random, register_size, size, clean)
}

/// The same with registers of a size.
pub fn scene_of(random: &mut Random, registers: RegisterSize, size: Size, clean: bool) -> Scene {
    let mut case = Case {
        register_size: registers,
        ..Case::default()
    };
    let register = registers.bytes();
    memory(random, &mut case, size);
    surfaces(random, &mut case, size);
    predicates(random, &mut case, size);
    case.execution_mask = bits(random);

    let work = match size {
        Size::Tiny => register * random.range(1, 4),
        Size::Usual => register * random.range(4, 10),
        Size::Large => random.pick(&[512, 1024, 1280, 3904]),
    };
    let has_guarded = size != Size::Tiny;
    let guarded_bytes = if has_guarded { GUARDED_BYTES } else { 0 };
    case.registers = work_bytes(random, work, &case);
    case.registers.resize((work + guarded_bytes) as usize, 0);

    let mut roles = Vec::new();
    variables(random, &mut case, work, work + guarded_bytes, size);
    if has_guarded {
        // Element offsets, their halves, addresses, indices, in this order.
        let at = |byte: u64| (work + byte) as u16;
        roles = vec![
            variable(UQ, at(0), 16),
            variable(UD, at(0), 32),
            variable(UQ, at(ADDRESSES), 4),
            variable(UW, at(INDICES), 16),
        ];
    }
    // The roles stand somewhere among the others.
    let mut places = Vec::new();
    for role in &roles {
        let place = random.below(case.variables.len() as u64 + 1) as usize;
        for earlier in places.iter_mut() {
            if *earlier >= place {
                *earlier += 1;
            }
        }
        case.variables.insert(place, *role);
        places.push(place);
    }
    let guarded = match places[..] {
        [offsets, halves, addresses, indices] => guarded(
            random,
            &mut case,
            [offsets, halves, addresses, indices].map(|place| place as u16),
        ),
        _ => None,
    };

    case.register_taint = taint(random, case.registers.len());
    case.surface_taint = taint(random, case.surface_bytes());
    case.memory_taint = taint(random, case.memory.len());
    if clean || random.chance(95) {
        case.register_taint[work as usize..].fill(0);
    }
    Scene {
        case,
        work,
        guarded,
    }
}

pub fn variable(type_code: u8, start: u16, count: u16) -> Variable {
    Variable {
        type_code,
        start,
        count,
    }
}

/// A 32-bit mask: none, all, sparse, dense, a run of low bits, or anything.
pub fn bits(random: &mut Random) -> u32 {
    let any = random.next() as u32;
    match random.below(10) {
        0 => 0,
        1..=3 => u32::MAX,
        4 => any & random.next() as u32 & random.next() as u32,
        5 => any | random.next() as u32 | random.next() as u32,
        6 => (1u32 << random.below(32)).wrapping_sub(1),
        7 => 0xff << (4 * random.below(7)),
        _ => any,
    }
}

/// Memory lengths from 0, and bases at 0, unaligned, around 2^32 and up to base + length = 2^64.
fn memory(random: &mut Random, case: &mut Case, size: Size) {
    let length = match (size, random.below(12)) {
        (Size::Large, 0..=2) => 4096,
        (Size::Large, _) => random.range(64, 2048),
        (_, 0) => random.below(8),
        (_, 1..=4) => random.range(4, 40),
        _ => random.range(40, 200),
    };
    case.memory = random.bytes(length);
    let to_the_top = 0u64.wrapping_sub(length);
    case.base = match random.below(10) {
        0 | 1 => 0,
        2 => random.range(1, 64),
        3 => 0x1000,
        4 => (1 << 32) - random.below(length + 1),
        5 => (1u64 << 32).wrapping_add(random.range(0, 8)) - 4,
        6 if length > 0 => to_the_top,
        7 if length > 0 => to_the_top - random.below(9),
        8 => 1 << 63,
        _ => random.next() >> random.range(1, 40),
    };
}

/// Surfaces of 0 to 1,024 bytes.
fn surfaces(random: &mut Random, case: &mut Case, size: Size) {
    let count = match random.below(10) {
        0 => 0,
        1..=6 => random.range(1, 2),
        7 | 8 => random.range(2, 4),
        _ => 8,
    };
    for _ in 0..count {
        let length = match (size, random.below(8)) {
            (Size::Large, 0) => 1024,
            (Size::Large, 1) => random.range(900, 1023),
            (_, 0 | 1) => random.below(5),
            (_, 2..=5) => random.range(4, 24),
            _ => random.range(16, 80),
        };
        case.surfaces.push(random.bytes(length));
    }
}

fn predicates(random: &mut Random, case: &mut Case, size: Size) {
    let count = match (size, random.below(8)) {
        (Size::Large, 0) => 64,
        (_, 0) => 0,
        _ => random.range(1, 5),
    };
    for _ in 0..count {
        let predicate = Predicate {
            bits: bits(random),
            count: any_count(random),
        };
        case.predicates.push(predicate);
    }
}

/// A predicate's count: 32, as many as some exec byte needs, or any.
pub fn any_count(random: &mut Random) -> u8 {
    let count = match random.below(4) {
        0 => 32,
        1 => random.range(1, 32),
        _ => {
            let code = random.below(6) as u8;
            mask_end(exec(random, code))
        }
    };
    count as u8
}

/// Bytes for the work area: some registers of any bytes, of small dwords, of zeros, of dwords near
/// 2^32, of dwords around a surface's end.
fn work_bytes(random: &mut Random, work: u64, case: &Case) -> Vec<u8> {
    let ends: Vec<u64> = case.surfaces.iter().map(|s| s.len() as u64).collect();
    let mut bytes = Vec::new();
    while (bytes.len() as u64) < work {
        let kind = random.below(8);
        for _ in 0..8 {
            let dword = match kind {
                0 | 1 => random.next(),
                2 => random.below(16),
                3 => 0,
                4 => 0u64.wrapping_sub(random.range(1, 12)),
                _ if ends.is_empty() => random.below(40),
                _ => (random.pick(&ends) + 3).wrapping_sub(random.below(8)),
            };
            bytes.extend((dword as u32).to_le_bytes());
        }
    }
    bytes
}

/// One variable of every type inside the work area, one long one, and others anywhere, overlapping.
fn variables(random: &mut Random, case: &mut Case, work: u64, all: u64, size: Size) {
    let register = case.register_size.bytes();
    for type_code in ALL {
        let it = any_variable(random, type_code, work, register);
        case.variables.push(it);
    }
    // The whole work area as dwords.
    case.variables.push(variable(UD, 0, (work / 4) as u16));
    let more = match (size, random.below(20)) {
        (Size::Large, 0..=2) => 240,
        _ => random.below(10),
    };
    for _ in 0..more {
        let type_code = random.pick(&ALL);
        let area = if random.chance(70) { work } else { all };
        let it = any_variable(random, type_code, area, register);
        case.variables.push(it);
    }
    random.shuffle(&mut case.variables);
}

/// A legal variable in the first `area` bytes.
fn any_variable(random: &mut Random, type_code: u8, area: u64, register_bytes: u64) -> Variable {
    let size = match type_code {
        UQ => 8,
        2 | 3 => 2,
        4 | 5 => 1,
        _ => 4,
    };
    let registers = area / register_bytes;
    let register = random.below(registers);
    let in_a_register = register_bytes / size;
    if random.chance(65) {
        // A register or longer, from a register's start.
        let whole = random.range(1, (registers - register).min(8));
        let fewer = random.edge(in_a_register - 1);
        let count = whole * in_a_register - if whole > 1 { fewer } else { 0 };
        variable(type_code, (register_bytes * register) as u16, count as u16)
    } else {
        // Shorter, inside one register.
        let count = random.range(1, in_a_register - 1);
        let first = random.edge(in_a_register - count);
        let start = register_bytes * register + size * first;
        variable(type_code, start as u16, count as u16)
    }
}

/// Fill the guarded area so that address + element offset + 4c stays in the window, or leave it out if
/// the window holds no dword at a multiple of 4.
fn guarded(random: &mut Random, case: &mut Case, roles: [u16; 4]) -> Option<Guarded> {
    let [offsets, halves, addresses, indices] = roles;
    let start_of = |case: &Case, index: u16| usize::from(case.variables[usize::from(index)].start);
    let base = u128::from(case.base);
    let end = base + case.memory.len() as u128;
    let first = base.div_ceil(4) * 4;
    let dwords = (end / 4 * 4).saturating_sub(first) / 4;
    if dwords == 0 {
        return None;
    }
    let first = first as u64;
    let dwords = dwords as u64;
    let top_channel = random.range(0, (dwords - 1).min(3));
    let slack = random.below((dwords - top_channel).min(4));
    // The constant part makes the sum wrap when it is large.
    let constant = match random.below(6) {
        0 | 1 => 0,
        2 => random.next() << 32,
        3 => 0u64.wrapping_sub(random.range(1, 64)),
        _ => random.next(),
    };
    let last_index = dwords - 1 - top_channel - slack;
    // Few different offsets make lanes collide.
    let different = random.pick(&[1, 2, 4, 16, 16]);
    let pool: Vec<u64> = (0..different).map(|_| random.edge(last_index)).collect();
    let offsets_start = start_of(case, offsets);
    let indices_start = start_of(case, indices);
    for lane in 0..16 {
        let index = random.pick(&pool);
        let offset = constant.wrapping_add(4 * index).to_le_bytes();
        case.registers[offsets_start + 8 * lane..][..8].copy_from_slice(&offset);
        let index = (random.pick(&pool) as u16).to_le_bytes();
        case.registers[indices_start + 2 * lane..][..2].copy_from_slice(&index);
    }
    let address = first.wrapping_sub(constant);
    let addresses_start = start_of(case, addresses);
    for k in 0..4 {
        let it = address
            .wrapping_add(4 * random.range(0, slack))
            .to_le_bytes();
        case.registers[addresses_start + 8 * k..][..8].copy_from_slice(&it);
    }
    Some(Guarded {
        offsets,
        offsets_start,
        halves,
        addresses,
        addresses_start,
        indices,
        address,
        constant,
        top_channel: top_channel as u8,
        first,
        dwords,
    })
}

/// Taint of so many bytes: none, sparse, dense or all, with byte values other than 0 and 1.
pub fn taint(random: &mut Random, length: usize) -> Vec<u8> {
    let percent = random.pick(&[0, 0, 0, 2, 5, 15, 60, 100]);
    (0..length)
        .map(|_| {
            if random.chance(percent) {
                match random.below(4) {
                    0 => random.range(1, 255) as u8,
                    1 => random.pick(&[2, 7, 0x10, 0x80, 0xfe, 0xff]),
                    _ => 1,
                }
            } else {
                0
            }
        })
        .collect()
}
