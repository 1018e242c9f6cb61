//! Reading text back: "16 for text that is no printed line, with the first column, from 1, where none goes on so"
//! (document 02, request 1). What a line may be stands here as parts; `ways` follows them.

use crate::encode::encode;
use crate::instruction::{
    Instruction, RawOperand, VectorOperand, CLASS_IMMEDIATE, GATHER, RAW_SEND, SCATTER, SHL, SVM,
};
use crate::number::{NO_LINE, SHORT_BUFFER};
use crate::spelling::{
    CHANNELS, NUM_BLOCKS, RAW_SENDS, REGION_FIELDS, SCATTER_SIZES, SIZES, TYPES_OF_32_BITS,
    TYPES_OF_64_BITS,
};
use crate::ways::Ways;

/// Why reading into a buffer is refused.
#[derive(Clone, Copy, Debug, PartialEq, Eq)]
pub enum Refusal {
    /// 16, with the column.
    NoLine(usize),
    /// 15
    ShortBuffer,
}

impl Refusal {
    pub fn number(self) -> u8 {
        match self {
            Refusal::NoLine(_) => NO_LINE,
            Refusal::ShortBuffer => SHORT_BUFFER,
        }
    }
}

/// The instruction whose printed line the text is, or the column of 16.
pub fn read(text: &[u8]) -> Result<Instruction, usize> {
    line(Ways::start(text)).end()
}

/// Write the encoding at the buffer's start and hand back its length: 16 first, then 15; "a refusal leaves the lent
/// buffer as it was".
pub fn read_into(text: &[u8], buffer: &mut [u8]) -> Result<usize, Refusal> {
    let instruction = read(text).map_err(Refusal::NoLine)?;
    // The fields of a printed line are never refused, so this is the room.
    encode(&instruction, buffer).map_err(|_| Refusal::ShortBuffer)
}

fn line(ways: Ways) -> Ways {
    ways.perhaps(&pred)
        .either(&[&shl, &gather, &scatter, &raw_send])
}

/// 004: `[(<P>)] SHL[.sat] (<exec_size>) <dst> <src0> <src1>`.
fn shl(ways: Ways) -> Ways {
    let ways = ways.set(|it| it.opcode = SHL);
    let ways = exec(ways.word("SHL "), &SIZES);
    let ways = destination(ways.word(" "), |it| &mut it.dst);
    let ways = source(ways.word(" "), |it| &mut it.src0);
    source(ways.word(" "), |it| &mut it.src1)
}

/// 001: `[(<P>)] GATHER_SCALED.<num_blocks> (<exec_size>) <surface> <offset> <element_offset> <dst>`.
fn gather(ways: Ways) -> Ways {
    let ways = ways.set(|it| it.opcode = GATHER).word("GATHER_SCALED.");
    let ways = ways.one_of(&NUM_BLOCKS, |it, code| it.num_blocks = code);
    let ways = exec(ways.word(" "), &SIZES).word(" T");
    let ways = ways.number(10, 0..=255, |it, n| it.surface = n as u8);
    let ways = source(ways.word(" "), |it| &mut it.scalar);
    let ways = raw(ways.word(" "), |it| &mut it.element_offset);
    let ways = raw(ways.word(" "), |it| &mut it.raw_dst);
    ways.perhaps(&block_size_and_scale)
}

/// 000: `[(<P>)] SVM_SCATTER4_SCALED.<channels> (<exec_size>) <address> <element_offset> <src>`.
fn scatter(ways: Ways) -> Ways {
    let ways = ways.set(|it| (it.opcode, it.sub_opcode) = (SVM, SCATTER));
    let ways = channels(ways.word("SVM_SCATTER4_SCALED."));
    let ways = exec(ways.word(" "), &SCATTER_SIZES);
    let ways = source(ways.word(" "), |it| &mut it.scalar);
    let ways = raw(ways.word(" "), |it| &mut it.element_offset);
    let ways = raw(ways.word(" "), |it| &mut it.raw_src);
    ways.perhaps(&scale_alone)
}

/// 002: `[(<P>)] {raw_send|raw_sendc} (<exec_size>) <ExMsgDesc> <NumSrc> <NumDst> <Desc> <Src> <Dst>`.
fn raw_send(ways: Ways) -> Ways {
    let ways = ways.set(|it| it.opcode = RAW_SEND);
    let ways = ways.one_of(&RAW_SENDS, |it, code| it.modifiers = code);
    let ways = exec(ways.word(" "), &SIZES).word(" 0x");
    let ways = ways.number(16, 0..=0xffff_ffff, |it, n| it.ex_msg_desc = n as u32);
    let ways = ways.word(" ");
    let ways = ways.number(10, 1..=15, |it, n| it.num_src = n as u8);
    let ways = ways.word(" ");
    let ways = ways.number(10, 0..=16, |it, n| it.num_dst = n as u8);
    let ways = source(ways.word(" "), |it| &mut it.scalar);
    let ways = raw(ways.word(" "), |it| &mut it.raw_src);
    raw(ways.word(" "), |it| &mut it.raw_dst)
}

/// A word of 0 means no predicate, so predicate 0 with nothing else is not among the texts.
fn pred(ways: Ways) -> Ways {
    let ways = ways.either(&[
        &|ways| pred_id(ways.word("(P"), 1).word(")"),
        &|ways| combine(pred_id(ways.word("(P"), 0)),
        &|ways| pred_id(inverse(ways), 0).word(")"),
        &|ways| combine(pred_id(inverse(ways), 0)),
    ]);
    ways.word(" ")
}

fn inverse(ways: Ways) -> Ways {
    ways.word("(!P").set(|it| it.pred = 0x8000)
}

/// "bits 0-11 id"
fn pred_id(ways: Ways, low: u64) -> Ways {
    ways.number(10, low..=4095, |it, n| it.pred |= n as u16)
}

/// "13-14 none/any/all/reserved", any or all here.
fn combine(ways: Ways) -> Ways {
    let words = [(".any)", 0x2000), (".all)", 0x4000)];
    ways.one_of(&words, |it, bits| it.pred |= bits)
}

/// The mask and the size.
fn exec<'a>(ways: Ways<'a>, sizes: &[(&str, u8)]) -> Ways<'a> {
    let ways = ways.word("(M");
    let ways = ways.number(10, 1..=8, |it, k| it.exec = (k as u8 - 1) << 4);
    let ways = ways.perhaps(&|ways| ways.word("_NM").set(|it| it.exec |= 0x80));
    let ways = ways.word(",").one_of(sizes, |it, code| it.exec |= code);
    ways.word(")")
}

/// Each letter or not, in the order of RGBA, but not none of them: the first letter there is one of four.
fn channels(ways: Ways) -> Ways {
    let first = |k: usize| {
        move |ways| {
            let mut ways = letter(ways, k);
            for later in k + 1..4 {
                ways = ways.perhaps(&|ways| letter(ways, later));
            }
            ways
        }
    };
    ways.either(&[&first(0), &first(1), &first(2), &first(3)])
}

fn letter(ways: Ways, k: usize) -> Ways {
    ways.one_of(&CHANNELS[k..=k], |it, bit| it.channels |= bit)
}

/// "ignored fields ... follow as `{1,0}` in byte order if one is not zero"
fn block_size_and_scale(ways: Ways) -> Ways {
    ways.word(" {").either(&[
        &|ways| scale(block_size(ways, 1..=255).word(","), 0),
        &|ways| scale(block_size(ways, 0..=0).word(","), 1),
    ])
}

fn block_size(ways: Ways, range: std::ops::RangeInclusive<u64>) -> Ways {
    ways.number(10, range, |it, n| it.block_size = n as u8)
}

fn scale_alone(ways: Ways) -> Ways {
    scale(ways.word(" {"), 1)
}

fn scale(ways: Ways, low: u64) -> Ways {
    let ways = ways.number(10, low..=65535, |it, n| it.scale = n as u16);
    ways.word("}")
}

/// Where in an instruction an operand stands.
type Of<T> = fn(&mut Instruction) -> &mut T;

/// A vector operand that is read, or a scalar.
fn source(ways: Ways, of: Of<VectorOperand>) -> Ways {
    ways.either(&[&|ways| general_source(ways, of), &|ways| {
        immediate(ways, of)
    }])
}

fn general_source(ways: Ways, of: Of<VectorOperand>) -> Ways {
    let ways = origin(ways, of).word("<");
    let ways = vertical(ways, of, &REGION_FIELDS).word(";");
    let ways = width(ways, of, &REGION_FIELDS).word(",");
    horizontal(ways, of, &REGION_FIELDS).word(">")
}

/// The horizontal stride alone, if it is not Null and the other two are; else all three fields.
fn destination(ways: Ways, of: Of<VectorOperand>) -> Ways {
    let null = &REGION_FIELDS[..1];
    let not_null = &REGION_FIELDS[1..];
    let any = &REGION_FIELDS;
    let three = |ways, v, w, h| {
        let ways = vertical(ways, of, v).word(";");
        let ways = width(ways, of, w).word(",");
        horizontal(ways, of, h)
    };
    let ways = origin(ways, of).word("<").either(&[
        &|ways| horizontal(ways, of, not_null),
        &|ways| three(ways, not_null, any, any),
        &|ways| three(ways, null, not_null, any),
        &|ways| three(ways, null, null, null),
    ]);
    ways.word(">")
}

/// Variable, row and column.
fn origin(ways: Ways, of: Of<VectorOperand>) -> Ways {
    let ways = ways.word("v");
    let ways = ways.number(10, 0..=65535, |it, n| of(it).index = n as u16);
    let ways = ways.word("(");
    let ways = ways.number(10, 0..=255, |it, n| of(it).row = n as u8);
    let ways = ways.word(",");
    let ways = ways.number(10, 0..=255, |it, n| of(it).column = n as u8);
    ways.word(")")
}

/// Some words of a region's field, with their codes.
type Fields<'f> = &'f [(&'static str, u16)];

/// "bits 0-3 vertical"
fn vertical<'a>(ways: Ways<'a>, of: Of<VectorOperand>, fields: Fields) -> Ways<'a> {
    ways.one_of(fields, |it, code| of(it).region |= code)
}

/// "4-7 width"
fn width<'a>(ways: Ways<'a>, of: Of<VectorOperand>, fields: Fields) -> Ways<'a> {
    ways.one_of(fields, |it, code| of(it).region |= code << 4)
}

/// "8-11 horizontal stride"
fn horizontal<'a>(ways: Ways<'a>, of: Of<VectorOperand>, fields: Fields) -> Ways<'a> {
    ways.one_of(fields, |it, code| of(it).region |= code << 8)
}

/// "immediates show the whole stored word": 32 bits, and 64 for UQ only.
fn immediate(ways: Ways, of: Of<VectorOperand>) -> Ways {
    let ways = ways.set(|it| of(it).tag = CLASS_IMMEDIATE).word("0x");
    ways.either(&[
        &|ways| typed(ways, of, 0xffff_ffff, &TYPES_OF_32_BITS),
        &|ways| typed(ways, of, u64::MAX, &TYPES_OF_64_BITS),
    ])
}

fn typed<'a>(ways: Ways<'a>, of: Of<VectorOperand>, high: u64, types: &[(&str, u8)]) -> Ways<'a> {
    let ways = ways.number(16, 0..=high, |it, n| {
        of(it).low = n as u32;
        of(it).high = (n >> 32) as u32;
    });
    let ways = ways.word(":");
    ways.one_of(types, |it, code| of(it).immediate_type = code)
}

/// "raw operands read `v2.8`"
fn raw(ways: Ways, of: Of<RawOperand>) -> Ways {
    let ways = ways.word("v");
    let ways = ways.number(10, 0..=65535, |it, n| of(it).index = n as u16);
    let ways = ways.word(".");
    ways.number(10, 0..=65535, |it, n| of(it).offset = n as u16)
}
