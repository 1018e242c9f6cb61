//! A decoded instruction: every stored number of the pages' Format tables, kept as it is stored.
//!
//! The record is flat: the opcode says which of its numbers belong to the instruction. The others
//! are zero after decoding and are not looked at by the encoder.

/// SHL, source document 004.
pub const SHL: u8 = 0x24;
/// GATHER_SCALED, source document 001.
pub const GATHER: u8 = 0x78;
/// SVM, source document 000.
pub const SVM: u8 = 0x4e;
/// SCATTER4_SCALED, the one sub-opcode of SVM here.
pub const SCATTER: u8 = 0x07;
/// RAW_SEND, source document 002.
pub const RAW_SEND: u8 = 0x5d;

/// "General, class 0"
pub const CLASS_GENERAL: u8 = 0;
/// "Immediate, class 5"
pub const CLASS_IMMEDIATE: u8 = 5;

/// A vector operand or a scalar: "tag (bits 0-2 class, 3-5 modifier). General, class 0: index uw,
/// row ub, column ub, region uw. Immediate, class 5: type ub, low ud, and high ud for UQ only".
#[derive(Clone, Copy, Debug, Default, PartialEq, Eq)]
pub struct VectorOperand {
    pub tag: u8,
    pub index: u16,
    pub row: u8,
    pub column: u8,
    pub region: u16,
    pub immediate_type: u8,
    pub low: u32,
    pub high: u32,
}

impl VectorOperand {
    /// "bits 0-2 class"
    pub fn class(&self) -> u8 {
        self.tag & 0x07
    }

    pub fn is_immediate(&self) -> bool {
        self.class() == CLASS_IMMEDIATE
    }
}

/// "Raw: index uw, byte offset uw."
#[derive(Clone, Copy, Debug, Default, PartialEq, Eq)]
pub struct RawOperand {
    pub index: u16,
    pub offset: u16,
}

#[derive(Clone, Copy, Debug, Default, PartialEq, Eq)]
pub struct Instruction {
    pub opcode: u8,
    /// SVM only.
    pub sub_opcode: u8,
    /// RAW_SEND only.
    pub modifiers: u8,
    pub exec: u8,
    pub pred: u16,
    /// Gather only; ignored and carried.
    pub block_size: u8,
    /// Gather only.
    pub num_blocks: u8,
    /// Scatter only.
    pub channels: u8,
    /// Gather and scatter; ignored and carried.
    pub scale: u16,
    /// Gather only.
    pub surface: u8,
    /// RAW_SEND only.
    pub ex_msg_desc: u32,
    /// RAW_SEND only.
    pub num_src: u8,
    /// RAW_SEND only.
    pub num_dst: u8,
    /// SHL only.
    pub dst: VectorOperand,
    /// SHL only.
    pub src0: VectorOperand,
    /// SHL only.
    pub src1: VectorOperand,
    /// Gather's Offset, scatter's Address, RAW_SEND's Desc.
    pub scalar: VectorOperand,
    /// Gather's and scatter's Element_offset.
    pub element_offset: RawOperand,
    /// Scatter's and RAW_SEND's Src.
    pub raw_src: RawOperand,
    /// Gather's and RAW_SEND's Dst.
    pub raw_dst: RawOperand,
}

impl Instruction {
    /// "bits 0-2 sizes 1, 2, 4, 8, 16, 32"
    pub fn exec_size(&self) -> u64 {
        1u64 << (self.exec & 0x07)
    }

    /// "bits 4-7 M1..M8, then M1_NM..M8_NM. Mk and Mk_NM have offset 4(k-1)."
    pub fn mask_offset(&self) -> u64 {
        let k = u64::from((self.exec >> 4) & 0x07) + 1;
        4 * (k - 1)
    }

    /// "offset + ExecSize"
    pub fn mask_end(&self) -> u64 {
        self.mask_offset() + self.exec_size()
    }

    /// The upper half of the sixteen masks is M1_NM..M8_NM.
    pub fn no_mask(&self) -> bool {
        (self.exec >> 4) >= 8
    }

    /// "A word of 0 means no predicate."
    pub fn has_predicate(&self) -> bool {
        self.pred != 0
    }

    /// "bits 0-11 id"
    pub fn predicate_id(&self) -> usize {
        usize::from(self.pred & 0x0fff)
    }

    /// "Num_blocks codes 0, 1, 2 are 1, 2, 4 bytes."
    pub fn block_bytes(&self) -> u64 {
        match self.num_blocks {
            0 => 1,
            1 => 2,
            _ => 4,
        }
    }
}
