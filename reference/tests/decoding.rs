//! Decoding field by field: numbers 1 to 4, the part handed back, and what is carried.

mod common;

use common::*;
use reference::assemble::*;
use reference::decode::decode;
use reference::instruction::{Instruction, RawOperand, VectorOperand};

fn good_shl() -> Draft {
    shl(
        0x03,
        0,
        &general(UB, 0, 0, destination_region(1)),
        &general(UB, 0, 0, source_region(8, 8, 1)),
        &immediate(0, 1),
    )
}

fn good_gather() -> Draft {
    gather(0x03, 0, 2, 0, &immediate(0, 0), &raw(UD, 0), &raw(F, 0))
}

fn good_scatter() -> Draft {
    scatter(0x03, 0, 1, &immediate_uq(0x1000), &raw(UQ, 0), &raw(UD, 0))
}

fn good_send() -> Draft {
    raw_send(0x03, 0, 1, 0, &immediate(0, 0), &raw(UD, 0), &raw(D, 0))
}

fn all_good() -> [Draft; 4] {
    [good_shl(), good_gather(), good_scatter(), good_send()]
}

/// The number with other bytes in one place.
fn with(draft: &Draft, slot: Slot, bytes: &[u8]) -> u8 {
    let mut draft = draft.clone();
    draft.set(slot, bytes);
    decode(&draft.bytes(), 0).number
}

/// The whole case's kernel by hand: 24, 03, 0000, dst 00 0100 00 00 0002, src0 00 0000 00 00 5502,
/// src1 05 02 01000000.
#[test]
fn the_whole_case_kernel() {
    let bytes = [
        0x24, 0x03, 0x00, 0x00, 0x00, 0x01, 0x00, 0x00, 0x00, 0x00, 0x02, 0x00, 0x00, 0x00, 0x00,
        0x00, 0x55, 0x02, 0x05, 0x02, 0x01, 0x00, 0x00, 0x00,
    ];
    let decoded = decode(&bytes, 0);
    assert_eq!(decoded.number, 0);
    assert_eq!(decoded.part, bytes);
    let expected = Instruction {
        opcode: 0x24,
        exec: 0x03,
        dst: VectorOperand {
            index: 1,
            region: 0x0200,
            ..VectorOperand::default()
        },
        src0: VectorOperand {
            region: 0x0255,
            ..VectorOperand::default()
        },
        src1: VectorOperand {
            tag: 5,
            immediate_type: 2,
            low: 1,
            ..VectorOperand::default()
        },
        ..Instruction::default()
    };
    assert_eq!(decoded.instruction, expected);
}

/// Every stored number of the three other instructions, each with a value of its own.
#[test]
fn every_field_has_its_place() {
    let bytes = [
        0x78, 0x25, 0x02, 0x80, 0xee, 0x02, 0x34, 0x12, 0x77, 0x00, 0x11, 0x22, 0x33, 0x44, 0x21,
        0x01, 0x55, 0x66, 0x78, 0x99, 0xaa, 0xbb, 0xcc, 0xdd,
    ];
    let expected = Instruction {
        opcode: 0x78,
        exec: 0x25,
        pred: 0x8002,
        block_size: 0xee,
        num_blocks: 2,
        scale: 0x1234,
        surface: 0x77,
        scalar: VectorOperand {
            index: 0x2211,
            row: 0x33,
            column: 0x44,
            region: 0x0121,
            ..VectorOperand::default()
        },
        element_offset: RawOperand {
            index: 0x6655,
            offset: 0x9978,
        },
        raw_dst: RawOperand {
            index: 0xbbaa,
            offset: 0xddcc,
        },
        ..Instruction::default()
    };
    let decoded = decode(&bytes, 0);
    assert_eq!(decoded.instruction, expected);
    assert_eq!(decoded.part, bytes);

    let bytes = [
        0x4e, 0x07, 0x94, 0x00, 0x20, 0x0a, 0x78, 0x56, 0x05, 0x0b, 0x01, 0x02, 0x03, 0x04, 0x05,
        0x06, 0x07, 0x08, 0x01, 0x00, 0x08, 0x00, 0x02, 0x00, 0x04, 0x00,
    ];
    let expected = Instruction {
        opcode: 0x4e,
        sub_opcode: 0x07,
        exec: 0x94,
        pred: 0x2000,
        channels: 0x0a,
        scale: 0x5678,
        scalar: VectorOperand {
            tag: 5,
            immediate_type: 11,
            low: 0x0403_0201,
            high: 0x0807_0605,
            ..VectorOperand::default()
        },
        element_offset: RawOperand {
            index: 1,
            offset: 8,
        },
        raw_src: RawOperand {
            index: 2,
            offset: 4,
        },
        ..Instruction::default()
    };
    let decoded = decode(&bytes, 0);
    assert_eq!(decoded.instruction, expected);
    assert_eq!(decoded.part, bytes);

    let bytes = [
        0x5d, 0x01, 0x35, 0x00, 0x40, 0x0d, 0x0c, 0x0b, 0x0a, 0x0f, 0x10, 0x05, 0x00, 0x04, 0x03,
        0x02, 0x01, 0x01, 0x00, 0x02, 0x00, 0x03, 0x00, 0x04, 0x00,
    ];
    let expected = Instruction {
        opcode: 0x5d,
        modifiers: 1,
        exec: 0x35,
        pred: 0x4000,
        ex_msg_desc: 0x0a0b_0c0d,
        num_src: 15,
        num_dst: 16,
        scalar: VectorOperand {
            tag: 5,
            low: 0x0102_0304,
            ..VectorOperand::default()
        },
        raw_src: RawOperand {
            index: 1,
            offset: 2,
        },
        raw_dst: RawOperand {
            index: 3,
            offset: 4,
        },
        ..Instruction::default()
    };
    let decoded = decode(&bytes, 0);
    assert_eq!(decoded.instruction, expected);
    assert_eq!(decoded.part, bytes);
}

/// The part starts and ends with the instruction, whatever stands around it.
#[test]
fn the_part_is_the_instruction_alone() {
    let mut bytes = vec![0xff; 3];
    bytes.extend(good_gather().bytes());
    bytes.extend([0xff; 5]);
    let decoded = decode(&bytes, 3);
    assert_eq!(decoded.number, 0);
    assert_eq!(decoded.part, good_gather().bytes());
    assert_eq!(decode(&bytes, 2).part, &[] as &[u8]);
    assert_eq!(decode(&bytes, 2).number, 2);
}

/// 1: "bytes end inside an instruction", at every length short of the whole; none left is 1 too.
#[test]
fn number_1_at_every_cut() {
    for draft in all_good() {
        let bytes = draft.bytes();
        for cut in 0..bytes.len() {
            let decoded = decode(&bytes[..cut], 0);
            assert_eq!(decoded.number, 1, "cut at {cut} of {bytes:02x?}");
            assert_eq!(decoded.part, &[] as &[u8]);
        }
        assert_eq!(decode(&bytes, 0).number, 0);
    }
    // Past the end of the kernel there is no whole field either.
    assert_eq!(decode(&[0x24], 7).number, 1);
}

/// "The first faulty field in order decides": a faulty field stands before a missing one.
#[test]
fn field_order_against_missing_bytes() {
    assert_eq!(decode(&[0x4e], 0).number, 1);
    assert_eq!(decode(&[0x4e, 0x08], 0).number, 2);
    assert_eq!(decode(&[0x24, 0x06], 0).number, 3);
    // Half a Pred word is not a field yet, though its half could not become good.
    assert_eq!(decode(&[0x24, 0x03, 0x00], 0).number, 1);
    assert_eq!(decode(&[0x24, 0x03, 0x00, 0x10], 0).number, 3);
    // A type not listed is refused before the missing low word.
    assert_eq!(decode(&[0x78, 3, 0, 0, 0, 2, 0, 0, 0, 5, 6], 0).number, 3);
    assert_eq!(decode(&[0x78, 3, 0, 0, 0, 2, 0, 0, 0, 5, 0], 0).number, 1);
}

/// 2: every opcode but four, every sub-opcode but one.
#[test]
fn number_2() {
    for opcode in 0..=255u8 {
        let good = [0x24, 0x78, 0x4e, 0x5d].contains(&opcode);
        let expected = if good { 1 } else { 2 };
        assert_eq!(decode(&[opcode], 0).number, expected);
        let expected = if opcode == 7 { 1 } else { 2 };
        assert_eq!(decode(&[0x4e, opcode], 0).number, expected);
    }
}

/// 3: the exec byte. Size codes 0 to 5, bit 3 zero, every mask; scatter codes 3 and 4 alone.
#[test]
fn number_3_exec() {
    for draft in all_good() {
        let scatter = draft == good_scatter();
        for exec in 0..=255u8 {
            let code = exec % 8;
            let named = exec & 8 == 0 && code < 6;
            let good = named && (!scatter || code == 3 || code == 4);
            let expected = if good { 0 } else { 3 };
            assert_eq!(
                with(&draft, Slot::Exec, &[exec]),
                expected,
                "exec {exec:02x}"
            );
        }
    }
}

/// 3: the Pred word, bit 12 and combine 3.
#[test]
fn number_3_pred() {
    for draft in all_good() {
        for (pred, expected) in [
            (0x0000u16, 0),
            (0x0fff, 0),
            (0x1000, 3),
            (0x1fff, 3),
            (0x2000, 0),
            (0x4000, 0),
            (0x6000, 3),
            (0x8000, 0),
            (0x9000, 3),
            (0xa000, 0),
            (0xc000, 0),
            (0xcfff, 0),
            (0xe000, 3),
            (0xffff, 3),
        ] {
            let number = with(&draft, Slot::Pred, &pred.to_le_bytes());
            assert_eq!(number, expected, "pred {pred:04x}");
        }
    }
}

/// 3: counts and codes, each at its limit and one past.
#[test]
fn number_3_counts() {
    let gather = good_gather();
    for code in 0..=255u8 {
        let expected = if code <= 2 { 0 } else { 3 };
        assert_eq!(with(&gather, Slot::NumBlocks, &[code]), expected);
    }
    let scatter = good_scatter();
    for channels in 0..=255u8 {
        let expected = if (1..=15).contains(&channels) { 0 } else { 3 };
        assert_eq!(with(&scatter, Slot::Channels, &[channels]), expected);
    }
    let send = good_send();
    for byte in 0..=255u8 {
        let expected = if byte <= 1 { 0 } else { 3 };
        assert_eq!(with(&send, Slot::Modifiers, &[byte]), expected);
        let expected = if byte == 0 || byte > 15 { 3 } else { 0 };
        assert_eq!(with(&send, Slot::NumSrc, &[byte]), expected);
        let expected = if byte > 16 { 3 } else { 0 };
        assert_eq!(with(&send, Slot::NumDst, &[byte]), expected);
    }
}

/// Fields that are free: ignored, or judged by the run alone.
#[test]
fn free_fields() {
    let gather = good_gather();
    assert_eq!(with(&gather, Slot::BlockSize, &[0xff]), 0);
    assert_eq!(with(&gather, Slot::Scale, &[0xff, 0xff]), 0);
    assert_eq!(with(&gather, Slot::Surface, &[0xff]), 0);
    assert_eq!(with(&good_scatter(), Slot::Scale, &[0xff, 0xff]), 0);
    assert_eq!(with(&good_send(), Slot::ExMsgDesc, &[0xff; 4]), 0);
    for part in [Part::Index, Part::Row, Part::Column] {
        let slot = Slot::Operand(1, part);
        let width = good_shl().get(slot).unwrap().len();
        assert_eq!(with(&good_shl(), slot, &vec![0xff; width]), 0);
    }
    assert_eq!(with(&gather, Slot::Operand(1, Part::Offset), &[0xff; 2]), 0);
    assert_eq!(
        with(&good_shl(), Slot::Operand(2, Part::Low), &[0xff; 4]),
        0
    );
}

/// A tag byte at every place: bits 6-7 give 3, then every class and modifier but the allowed give 4.
#[test]
fn tags() {
    let places = [
        (good_shl(), 0, false),
        (good_shl(), 1, true),
        (good_shl(), 2, true),
        (good_gather(), 0, true),
        (good_scatter(), 0, true),
        (good_send(), 0, true),
    ];
    for (draft, operand, source) in places {
        for tag in 0..=255u8 {
            let mut draft = draft.clone();
            // After the tag stands what its class asks for.
            let mut parts = if tag % 8 == 5 {
                immediate(0, 0)
            } else {
                general(0, 0, 0, SCALAR_REGION)
            };
            parts[0].1 = vec![tag];
            draft.set_operand(operand, &parts);
            let expected = if tag >= 64 {
                3
            } else if tag == 0 || (tag == 5 && source) {
                0
            } else {
                4
            };
            assert_eq!(decode(&draft.bytes(), 0).number, expected, "tag {tag:02x}");
        }
    }
}

/// "An immediate type code not listed above ... 3": the whole byte counts.
#[test]
fn immediate_types() {
    for code in 0..=255u8 {
        let listed = [0, 1, 2, 3, 4, 5, 7, 11].contains(&code);
        let mut draft = good_shl();
        let parts = if code == 11 {
            immediate_uq(0)
        } else {
            immediate(code, 0)
        };
        draft.set_operand(1, &parts);
        let expected = if listed { 0 } else { 3 };
        assert_eq!(decode(&draft.bytes(), 0).number, expected, "type {code}");
    }
}

/// "a region code over 7" is 3, and bits 12-15 are; every other word decodes, right or wrong.
#[test]
fn region_words() {
    let mut scalar = good_gather();
    scalar.set_operand(0, &general(0, 0, 0, SCALAR_REGION));
    for (draft, operand) in [(good_shl(), 0), (good_shl(), 1), (scalar, 0)] {
        for word in 0..=0xffffu16 {
            let over = [0, 4, 8].iter().any(|k| (word >> k) % 16 > 7);
            let expected = if over || word > 0x0fff { 3 } else { 0 };
            let slot = Slot::Operand(operand, Part::Region);
            assert_eq!(with(&draft, slot, &word.to_le_bytes()), expected);
        }
    }
}

/// Faults in two fields: the earlier field's number stands, whatever the numbers are.
#[test]
fn the_earlier_field_stands() {
    // Tag 0x01 (4) before a type or region fault (3) of a later operand.
    let mut draft = good_shl();
    draft.set(Slot::Operand(0, Part::Tag), &[0x01]);
    draft.set(Slot::Operand(1, Part::Region), &[0x88, 0x08]);
    assert_eq!(decode(&draft.bytes(), 0).number, 4);
    // Exec (3) before tag (4).
    draft.set(Slot::Exec, &[0x07]);
    assert_eq!(decode(&draft.bytes(), 0).number, 3);
    // A tag with bit 7 and a wrong class: 3 before 4.
    let mut draft = good_shl();
    draft.set(Slot::Operand(1, Part::Tag), &[0x81]);
    assert_eq!(decode(&draft.bytes(), 0).number, 3);
    // Sub-opcode (2) before exec (3).
    let mut draft = good_scatter();
    draft.set(Slot::SubOpcode, &[0x06]);
    draft.set(Slot::Exec, &[0x0f]);
    assert_eq!(decode(&draft.bytes(), 0).number, 2);
}
