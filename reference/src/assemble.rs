//! An assembler without judgement: the stored numbers of an instruction, each under its name, in the
//! order of its page's Format table. Tests and the case generator write kernels with it.

/// A stored number of a vector or raw operand.
#[derive(Clone, Copy, Debug, PartialEq, Eq)]
pub enum Part {
    Tag,
    Index,
    Row,
    Column,
    Region,
    Type,
    Low,
    High,
    Offset,
}

/// A stored number of an instruction; operands are counted from 0 in field order.
#[derive(Clone, Copy, Debug, PartialEq, Eq)]
pub enum Slot {
    Opcode,
    SubOpcode,
    Modifiers,
    Exec,
    Pred,
    BlockSize,
    NumBlocks,
    Channels,
    Scale,
    Surface,
    ExMsgDesc,
    NumSrc,
    NumDst,
    Operand(usize, Part),
}

/// An operand as its stored numbers.
pub type Operand = Vec<(Part, Vec<u8>)>;

/// An instruction as its stored numbers.
#[derive(Clone, Debug, PartialEq, Eq)]
pub struct Draft {
    pub fields: Vec<(Slot, Vec<u8>)>,
}

impl Draft {
    fn new(opcode: u8) -> Draft {
        Draft {
            fields: vec![(Slot::Opcode, vec![opcode])],
        }
    }

    fn with(mut self, slot: Slot, bytes: &[u8]) -> Draft {
        self.fields.push((slot, bytes.to_vec()));
        self
    }

    fn operand(mut self, number: usize, operand: &Operand) -> Draft {
        for (part, bytes) in operand {
            self.fields
                .push((Slot::Operand(number, *part), bytes.clone()));
        }
        self
    }

    /// The instruction's bytes.
    pub fn bytes(&self) -> Vec<u8> {
        self.fields
            .iter()
            .flat_map(|(_, bytes)| bytes.clone())
            .collect()
    }

    /// The bytes of one stored number, if the instruction has it.
    pub fn get(&self, slot: Slot) -> Option<&[u8]> {
        let field = self.fields.iter().find(|(s, _)| *s == slot)?;
        Some(&field.1)
    }

    /// Put other bytes in the place of one stored number.
    pub fn set(&mut self, slot: Slot, bytes: &[u8]) {
        let field = self.fields.iter_mut().find(|(s, _)| *s == slot).unwrap();
        field.1 = bytes.to_vec();
    }

    /// Put another operand in the place of one.
    pub fn set_operand(&mut self, number: usize, operand: &Operand) {
        let is_of_it = |slot: &Slot| matches!(slot, Slot::Operand(n, _) if *n == number);
        let place = self.fields.iter().position(|(s, _)| is_of_it(s)).unwrap();
        self.fields.retain(|(s, _)| !is_of_it(s));
        for (k, (part, bytes)) in operand.iter().enumerate() {
            let field = (Slot::Operand(number, *part), bytes.clone());
            self.fields.insert(place + k, field);
        }
    }
}

/// A General operand, class 0.
pub fn general(index: u16, row: u8, column: u8, region: u16) -> Operand {
    vec![
        (Part::Tag, vec![0]),
        (Part::Index, index.to_le_bytes().to_vec()),
        (Part::Row, vec![row]),
        (Part::Column, vec![column]),
        (Part::Region, region.to_le_bytes().to_vec()),
    ]
}

/// An Immediate operand, class 5, without a high word.
pub fn immediate(type_code: u8, low: u32) -> Operand {
    vec![
        (Part::Tag, vec![5]),
        (Part::Type, vec![type_code]),
        (Part::Low, low.to_le_bytes().to_vec()),
    ]
}

/// An Immediate operand of type UQ, code 11.
pub fn immediate_uq(value: u64) -> Operand {
    let bytes = value.to_le_bytes();
    vec![
        (Part::Tag, vec![5]),
        (Part::Type, vec![11]),
        (Part::Low, bytes[..4].to_vec()),
        (Part::High, bytes[4..].to_vec()),
    ]
}

/// A raw operand.
pub fn raw(index: u16, offset: u16) -> Operand {
    vec![
        (Part::Index, index.to_le_bytes().to_vec()),
        (Part::Offset, offset.to_le_bytes().to_vec()),
    ]
}

pub fn shl(exec: u8, pred: u16, dst: &Operand, src0: &Operand, src1: &Operand) -> Draft {
    Draft::new(0x24)
        .with(Slot::Exec, &[exec])
        .with(Slot::Pred, &pred.to_le_bytes())
        .operand(0, dst)
        .operand(1, src0)
        .operand(2, src1)
}

/// Block_size and Scale are given as 0; `set` puts other bytes there.
pub fn gather(
    exec: u8,
    pred: u16,
    num_blocks: u8,
    surface: u8,
    offset: &Operand,
    element_offset: &Operand,
    dst: &Operand,
) -> Draft {
    Draft::new(0x78)
        .with(Slot::Exec, &[exec])
        .with(Slot::Pred, &pred.to_le_bytes())
        .with(Slot::BlockSize, &[0])
        .with(Slot::NumBlocks, &[num_blocks])
        .with(Slot::Scale, &[0, 0])
        .with(Slot::Surface, &[surface])
        .operand(0, offset)
        .operand(1, element_offset)
        .operand(2, dst)
}

/// Scale is given as 0.
pub fn scatter(
    exec: u8,
    pred: u16,
    channels: u8,
    address: &Operand,
    element_offset: &Operand,
    src: &Operand,
) -> Draft {
    Draft::new(0x4e)
        .with(Slot::SubOpcode, &[0x07])
        .with(Slot::Exec, &[exec])
        .with(Slot::Pred, &pred.to_le_bytes())
        .with(Slot::Channels, &[channels])
        .with(Slot::Scale, &[0, 0])
        .operand(0, address)
        .operand(1, element_offset)
        .operand(2, src)
}

/// Modifiers and ExMsgDesc are given as 0.
pub fn raw_send(
    exec: u8,
    pred: u16,
    num_src: u8,
    num_dst: u8,
    desc: &Operand,
    src: &Operand,
    dst: &Operand,
) -> Draft {
    Draft::new(0x5d)
        .with(Slot::Modifiers, &[0])
        .with(Slot::Exec, &[exec])
        .with(Slot::Pred, &pred.to_le_bytes())
        .with(Slot::ExMsgDesc, &[0, 0, 0, 0])
        .with(Slot::NumSrc, &[num_src])
        .with(Slot::NumDst, &[num_dst])
        .operand(0, desc)
        .operand(1, src)
        .operand(2, dst)
}

/// The region code of a number of elements.
fn region_code(elements: u16) -> u16 {
    match elements {
        0 => 1,
        1 => 2,
        2 => 3,
        4 => 4,
        8 => 5,
        16 => 6,
        32 => 7,
        _ => panic!("no region code stands for {elements} elements"),
    }
}

/// The region word of a source, <V;W,H>.
pub fn source_region(vertical: u16, width: u16, horizontal: u16) -> u16 {
    region_code(vertical) | region_code(width) << 4 | region_code(horizontal) << 8
}

/// The region word of a destination, <H>.
pub fn destination_region(horizontal: u16) -> u16 {
    region_code(horizontal) << 8
}

/// The region word <0;1,0> of a scalar.
pub const SCALAR_REGION: u16 = 0x0121;
