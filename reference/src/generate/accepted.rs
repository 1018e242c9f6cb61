//! Instructions that fit a scene: regions inside their variables, aligned scatters inside the window.

use super::random::Random;
use super::scene::Scene;
use crate::assemble::*;
use crate::case::Variable;

/// The four instructions.
#[derive(Clone, Copy, Debug, PartialEq, Eq)]
pub enum Kind {
    Shl,
    Gather,
    Scatter,
    Send,
}

const INTEGERS: [u8; 6] = [0, 1, 2, 3, 4, 5];
const DWORDS: [u8; 3] = [0, 1, 7];

/// Bytes of one element of a legal variable.
pub fn size_of(variable: &Variable) -> u64 {
    match variable.type_code {
        11 => 8,
        2 | 3 => 2,
        4 | 5 => 1,
        _ => 4,
    }
}

fn bytes_of(variable: &Variable) -> u64 {
    size_of(variable) * u64::from(variable.count)
}

/// An exec byte of a size code, with any mask that keeps offset + ExecSize at most 32.
pub fn exec(random: &mut Random, code: u8) -> u8 {
    let size = 1u64 << code;
    let k = random.edge(((32 - size) / 4).min(7)) as u8;
    let no_mask = if random.chance(40) { 8 } else { 0 };
    code | (k + no_mask) << 4
}

/// Offset + ExecSize of an exec byte: so many elements a predicate must have there.
pub fn mask_end(exec: u8) -> u64 {
    4 * u64::from((exec >> 4) & 7) + (1 << (exec & 7))
}

/// The dwords that a scatter of so many channels needs, by the size of a register.
pub fn scatter_dwords(register: u64, exec_size: u64, channels: u32) -> u64 {
    let apart = match exec_size * 4 < register {
        true => register / 4,
        false => exec_size,
    };
    // None, or more than four, where another fault has spoilt the channels.
    u64::from(channels.saturating_sub(1)) * apart + exec_size
}

/// Row and column of an element number; "row and column are simply added up". A row has a register's bytes.
pub fn row_and_column(
    random: &mut Random,
    register: u64,
    variable: &Variable,
    element: u64,
) -> (u8, u8) {
    let in_a_row = register / size_of(variable);
    let row = (element / in_a_row).min(255);
    // Sometimes some rows less, as long as the column holds them.
    let spare = (255 - (element - row * in_a_row)) / in_a_row;
    let fewer = if random.chance(15) {
        random.below(row.min(spare) + 1)
    } else {
        0
    };
    let row = row - fewer;
    (row as u8, (element - row * in_a_row) as u8)
}

/// Whether elements `first` to `last` of a variable touch at most two registers.
pub fn two_registers(register: u64, variable: &Variable, first: u64, last: u64) -> bool {
    let size = size_of(variable);
    let low = u64::from(variable.start) + first * size;
    let high = u64::from(variable.start) + last * size + size - 1;
    high / register - low / register <= 1
}

/// A predicate word that names a predicate: bit by bit, any or all, inverse or not. The word 0 names none.
pub fn naming(random: &mut Random, id: u16) -> u16 {
    loop {
        let combine = random.pick(&[0, 0, 1, 2]);
        let word = id | combine << 13 | random.pick(&[0, 0x8000]);
        if word != 0 {
            return word;
        }
    }
}

impl Scene {
    /// The bytes of a register.
    pub fn register(&self) -> u64 {
        self.case.register_size.bytes()
    }

    pub fn variable(&self, index: u16) -> Variable {
        self.case.variables[usize::from(index)]
    }

    /// The numbers of the variables that satisfy a condition.
    pub fn variables(&self, condition: impl Fn(&Variable) -> bool) -> Vec<u16> {
        (0..self.case.variables.len() as u16)
            .filter(|index| condition(&self.variable(*index)))
            .collect()
    }

    fn in_work_area(&self, variable: &Variable) -> bool {
        u64::from(variable.start) + bytes_of(variable) <= self.work
    }

    /// A predicate word that names a predicate of the table long enough for an exec byte, or none.
    pub fn pred(&self, random: &mut Random, exec: u8) -> u16 {
        let count_of = |id: &u16| self.case.predicates[usize::from(*id)].count;
        let mut fitting: Vec<u16> = (0..self.case.predicates.len() as u16)
            .filter(|id| u64::from(count_of(id)) >= mask_end(exec))
            .collect();
        if fitting.is_empty() || random.chance(40) {
            return 0;
        }
        // The shortest more often than the rest.
        fitting.sort_by_key(count_of);
        let id = fitting[random.edge(fitting.len() as u64 - 1) as usize];
        naming(random, id)
    }

    /// A General source of an integer type that fits.
    pub fn general_source(&self, random: &mut Random, exec_size: u64) -> Operand {
        let fitting = self.variables(|v| INTEGERS.contains(&v.type_code));
        for _ in 0..30 {
            let index = random.pick(&fitting);
            let variable = self.variable(index);
            let widths: Vec<u64> = [1, 2, 4, 8, 16]
                .into_iter()
                .filter(|width| *width <= exec_size)
                .collect();
            let mut width = random.pick(&widths);
            let mut vertical = random.pick(&[0, 1, 2, 4, 8, 16, 32]);
            let mut horizontal = random.pick(&[0, 1, 2, 4]);
            if random.chance(40) {
                // The elements one after the other.
                width = *widths.last().unwrap();
                vertical = width;
                horizontal = 1;
            }
            let span = (exec_size / width - 1) * vertical + (width - 1) * horizontal;
            if span >= u64::from(variable.count) {
                continue;
            }
            let first = random.edge(u64::from(variable.count) - 1 - span);
            if !two_registers(self.register(), &variable, first, first + span) {
                continue;
            }
            let (row, column) = row_and_column(random, self.register(), &variable, first);
            let region = source_region(vertical as u16, width as u16, horizontal as u16);
            return general(index, row, column, region);
        }
        let index = random.pick(&fitting);
        let element = random.edge(u64::from(self.variable(index).count) - 1);
        let (row, column) = row_and_column(random, self.register(), &self.variable(index), element);
        general(index, row, column, SCALAR_REGION)
    }

    /// An Immediate source of an integer type.
    pub fn immediate_source(&self, random: &mut Random) -> Operand {
        let value = match random.below(4) {
            0 => random.next(),
            1 => random.pick(&[0x80, 0x8000, 0x8000_0000, 0xffff_ffff]),
            _ => random.below(40),
        };
        immediate(random.pick(&INTEGERS), value as u32)
    }

    fn source(&self, random: &mut Random, exec_size: u64) -> Operand {
        if random.chance(30) {
            self.immediate_source(random)
        } else {
            self.general_source(random, exec_size)
        }
    }

    /// A destination of an integer type in the work area, or nothing if none fits.
    fn destination(&self, random: &mut Random, exec_size: u64) -> Option<Operand> {
        let fitting = self.variables(|v| INTEGERS.contains(&v.type_code) && self.in_work_area(v));
        for _ in 0..20 {
            let index = random.pick(&fitting);
            let variable = self.variable(index);
            let horizontal = random.pick(&[1, 1, 2, 4]);
            let span = (exec_size - 1) * horizontal;
            if span >= u64::from(variable.count) {
                continue;
            }
            let first = random.edge(u64::from(variable.count) - 1 - span);
            if !two_registers(self.register(), &variable, first, first + span) {
                continue;
            }
            let (row, column) = row_and_column(random, self.register(), &variable, first);
            let region = destination_region(horizontal as u16);
            return Some(general(index, row, column, region));
        }
        None
    }

    pub fn shl(&self, random: &mut Random) -> Draft {
        let mut code = random.below(6) as u8;
        let dst = loop {
            match self.destination(random, 1 << code) {
                Some(dst) => break dst,
                None => code = code.saturating_sub(1),
            }
        };
        let mut src0 = self.source(random, 1 << code);
        if random.chance(15) {
            // The first element of the destination as source of all lanes.
            let mut own = dst.clone();
            own[4].1 = SCALAR_REGION.to_le_bytes().to_vec();
            src0 = own;
        }
        let src1 = self.source(random, 1 << code);
        let exec = exec(random, code);
        shl(exec, self.pred(random, exec), &dst, &src0, &src1)
    }

    /// A General scalar of a type.
    pub fn general_scalar(&self, random: &mut Random, type_code: u8) -> Operand {
        let fitting = self.variables(|v| v.type_code == type_code);
        let index = random.pick(&fitting);
        let element = random.edge(u64::from(self.variable(index).count) - 1);
        let (row, column) = row_and_column(random, self.register(), &self.variable(index), element);
        general(index, row, column, SCALAR_REGION)
    }

    /// A raw operand of one of the types with room for so many bytes, if there is one.
    pub fn raw_of(
        &self,
        random: &mut Random,
        types: &[u8],
        bytes: u64,
        only_work: bool,
    ) -> Option<Operand> {
        let fitting = self.variables(|v| {
            types.contains(&v.type_code)
                && bytes_of(v) >= bytes
                && (!only_work || self.in_work_area(v))
        });
        if fitting.is_empty() {
            return None;
        }
        let index = random.pick(&fitting);
        let variable = self.variable(index);
        let size = size_of(&variable);
        let element = random.edge((bytes_of(&variable) - bytes) / size);
        Some(raw(index, (element * size) as u16))
    }

    /// A gather around a surface's end, or nothing if there is no surface.
    pub fn gather(&self, random: &mut Random) -> Option<Draft> {
        if self.case.surfaces.is_empty() {
            return None;
        }
        let surface = random.below(self.case.surfaces.len() as u64) as u8;
        let length = self.case.surfaces[usize::from(surface)].len() as u64;
        let mut code = random.below(6) as u8;
        let (element_offset, dst) = loop {
            let bytes = 4 << code;
            let element_offset = self.raw_of(random, &[0], bytes, false);
            let dst = self.raw_of(random, &DWORDS, bytes, true);
            if let (Some(element_offset), Some(dst)) = (element_offset, dst) {
                break (element_offset, dst);
            }
            code -= 1;
        };
        let offset = if random.chance(30) {
            self.general_scalar(random, 0)
        } else {
            // Aim one lane near the surface's end, wrapping modulo 2^32 when its element offset is large.
            let index = u16::from_le_bytes([element_offset[0].1[0], element_offset[0].1[1]]);
            let byte = u16::from_le_bytes([element_offset[1].1[0], element_offset[1].1[1]]);
            let lane = random.below(1 << code) as usize;
            let at = usize::from(self.variable(index).start) + usize::from(byte) + 4 * lane;
            let mut dword = [0; 4];
            dword.copy_from_slice(&self.case.registers[at..at + 4]);
            let aim = (length + 2).saturating_sub(random.below(length + 3)) as u32;
            let low = match random.below(6) {
                0 => 0u32.wrapping_sub(random.range(1, 6) as u32),
                1 => random.below(length + 4) as u32,
                _ => aim.wrapping_sub(u32::from_le_bytes(dword)),
            };
            immediate(0, low)
        };
        let exec = exec(random, code);
        let mut draft = gather(
            exec,
            self.pred(random, exec),
            random.below(3) as u8,
            surface,
            &offset,
            &element_offset,
            &dst,
        );
        if random.chance(25) {
            draft.set(Slot::BlockSize, &[random.byte()]);
            draft.set(Slot::Scale, &[random.byte(), random.byte()]);
        }
        Some(draft)
    }

    /// A scatter inside the window, or nothing if the window holds no dword.
    pub fn scatter(&self, random: &mut Random) -> Option<Draft> {
        let guarded = self.guarded?;
        let mut code = 3 + random.below(2) as u8;
        let mut channels = random.range(1, (2 << guarded.top_channel) - 1) as u8;
        let src = loop {
            let dwords = scatter_dwords(self.register(), 1 << code, channels.count_ones());
            if let Some(src) = self.raw_of(random, &DWORDS, 4 * dwords, false) {
                break src;
            }
            // Less data: the smaller size, then one channel less.
            if code == 4 {
                code = 3;
            } else {
                channels &= channels - 1;
            }
        };
        let first_lane = if code == 3 { random.edge(8) } else { 0 };
        let address = if random.chance(60) {
            immediate_uq(guarded.address)
        } else {
            general(guarded.addresses, 0, random.below(4) as u8, SCALAR_REGION)
        };
        let exec = exec(random, code);
        let mut draft = scatter(
            exec,
            self.pred(random, exec),
            channels,
            &address,
            &raw(guarded.offsets, 8 * first_lane as u16),
            &src,
        );
        if random.chance(25) {
            draft.set(Slot::Scale, &[random.byte(), random.byte()]);
        }
        Some(draft)
    }

    /// A shift that computes element offsets: eight indices times 4 into the low halves.
    pub fn computed_offsets(&self, random: &mut Random) -> Option<Draft> {
        let guarded = self.guarded?;
        if guarded.constant as u32 != 0 {
            return None;
        }
        let exec = exec(random, 3);
        Some(shl(
            exec,
            self.pred(random, exec),
            // From lane 0 or from lane 8, whose offset is at byte 64.
            &general(
                guarded.halves,
                random.pick(&[0, 64 / self.register() as u8]),
                0,
                destination_region(2),
            ),
            &general(
                guarded.indices,
                0,
                random.edge(8) as u8,
                source_region(8, 8, 1),
            ),
            &immediate(random.pick(&INTEGERS), 2),
        ))
    }

    /// A RAW_SEND that is good but for being one.
    pub fn send(&self, random: &mut Random) -> Option<Draft> {
        let register = self.register();
        let num_src = random.range(1, (self.work / register).min(15));
        let num_dst = random.range(0, (self.work / register).min(16));
        let all = [0, 1, 2, 3, 4, 5, 7, 11];
        let src = self.raw_of(random, &all, register * num_src, false)?;
        let dst = self.raw_of(random, &all, register * num_dst, false)?;
        let desc = if random.chance(50) {
            self.general_scalar(random, 0)
        } else {
            immediate(0, random.next() as u32)
        };
        let code = random.below(6) as u8;
        let exec = exec(random, code);
        let mut draft = raw_send(
            exec,
            self.pred(random, exec),
            num_src as u8,
            num_dst as u8,
            &desc,
            &src,
            &dst,
        );
        draft.set(Slot::Modifiers, &[random.below(2) as u8]);
        let descriptor = random.bytes(4);
        draft.set(Slot::ExMsgDesc, &descriptor);
        Some(draft)
    }

    /// An instruction of a kind, if the scene has what it needs.
    pub fn instruction(&self, random: &mut Random, kind: Kind) -> Option<Draft> {
        match kind {
            Kind::Shl => Some(self.shl(random)),
            Kind::Gather => self.gather(random),
            Kind::Scatter => self.scatter(random),
            Kind::Send => self.send(random),
        }
    }
}
