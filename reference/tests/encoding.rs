//! Encoding: the bytes come back, fields are refused in order, 15 is last and the buffer untouched.

use reference::assemble::*;
use reference::decode::decode;
use reference::encode::encode;
use reference::instruction::Instruction;

fn decoded(draft: &Draft) -> Instruction {
    let bytes = draft.bytes();
    let decoded = decode(&bytes, 0);
    assert_eq!(decoded.number, 0);
    decoded.instruction
}

fn drafts() -> Vec<Draft> {
    let mut gather = gather(
        0x23,
        0x8001,
        1,
        0xfe,
        &general(9, 8, 7, 0x0777),
        &raw(0xfffe, 0xfffd),
        &raw(0x0102, 0x0304),
    );
    gather.set(Slot::BlockSize, &[0x99]);
    gather.set(Slot::Scale, &[0x98, 0x97]);
    let mut send = raw_send(
        0xf0,
        0x4123,
        15,
        16,
        &immediate(5, 0xffff_ff80),
        &raw(1, 2),
        &raw(3, 4),
    );
    send.set(Slot::Modifiers, &[1]);
    send.set(Slot::ExMsgDesc, &[1, 2, 3, 4]);
    vec![
        shl(
            0x15,
            0x0fff,
            &general(0xffff, 0xff, 0xff, 0),
            &immediate(2, 0xdead_beef),
            &immediate_uq(0x0102_0304_0506_0708),
        ),
        gather,
        scatter(
            0x74,
            0xa000,
            15,
            &immediate_uq(u64::MAX),
            &raw(0, 0),
            &raw(1, 1),
        ),
        send,
    ]
}

/// "A decoded instruction still carries them, so encoding restores the bytes"; "bytes past an encoding
/// stay".
#[test]
fn encoding_restores_the_bytes() {
    for draft in drafts() {
        let bytes = draft.bytes();
        let mut buffer = [0x55; 64];
        assert_eq!(encode(&decoded(&draft), &mut buffer), Ok(bytes.len()));
        assert_eq!(buffer[..bytes.len()], bytes);
        assert!(buffer[bytes.len()..].iter().all(|byte| *byte == 0x55));
    }
}

/// 15: "encoder's buffer shorter than the encoding"; an exact fit is enough.
#[test]
fn number_15() {
    for draft in drafts() {
        let bytes = draft.bytes();
        let instruction = decoded(&draft);
        for length in 0..bytes.len() {
            let mut buffer = vec![0x55; length];
            assert_eq!(encode(&instruction, &mut buffer), Err(15));
            assert_eq!(buffer, vec![0x55; length]);
        }
        let mut buffer = vec![0x55; bytes.len()];
        assert_eq!(encode(&instruction, &mut buffer), Ok(bytes.len()));
        assert_eq!(buffer, bytes);
    }
}

/// The number of a refusal; the buffer, long enough or empty, stays as it was.
fn refusal(instruction: &Instruction) -> u8 {
    let mut buffer = [0x55; 64];
    let number = encode(instruction, &mut buffer).unwrap_err();
    assert_eq!(buffer, [0x55; 64]);
    // "then 15": a field's number stands before it.
    assert_eq!(encode(instruction, &mut []), Err(number));
    number
}

/// 2: an opcode or sub-opcode that no page has.
#[test]
fn number_2() {
    let mut instruction = decoded(&drafts()[0]);
    instruction.opcode = 0x25;
    assert_eq!(refusal(&instruction), 2);
    let mut instruction = decoded(&drafts()[2]);
    instruction.sub_opcode = 0x08;
    // The exec byte after it is faulty too, and later.
    instruction.exec = 0x0f;
    assert_eq!(refusal(&instruction), 2);
}

/// 3 and 4 field by field, each set on a good instruction.
#[test]
fn numbers_3_and_4() {
    let changes: [(usize, fn(&mut Instruction), u8); 24] = [
        (0, |i| i.exec = 0x08, 3),
        (0, |i| i.exec = 0x06, 3),
        (0, |i| i.pred = 0x1000, 3),
        (0, |i| i.pred = 0x6000, 3),
        (0, |i| i.dst.tag = 0x40, 3),
        (0, |i| i.dst.tag = 5, 4),
        (0, |i| i.dst.tag = 0x08, 4),
        (0, |i| i.dst.region = 0x1000, 3),
        (0, |i| i.dst.region = 0x0080, 3),
        (0, |i| i.src0.tag = 3, 4),
        (0, |i| i.src0.tag = 0x0d, 4),
        (0, |i| i.src0.immediate_type = 6, 3),
        (0, |i| i.src0.high = 1, 3),
        (1, |i| i.num_blocks = 3, 3),
        (1, |i| i.scalar.region = 0x0800, 3),
        (1, |i| i.scalar.tag = 0x80, 3),
        (2, |i| i.exec = 0x02, 3),
        (2, |i| i.exec = 0x05, 3),
        (2, |i| i.channels = 0, 3),
        (2, |i| i.channels = 16, 3),
        (3, |i| i.modifiers = 2, 3),
        (3, |i| i.num_src = 0, 3),
        (3, |i| i.num_src = 16, 3),
        (3, |i| i.num_dst = 17, 3),
    ];
    for (draft, change, number) in changes {
        let mut instruction = decoded(&drafts()[draft]);
        change(&mut instruction);
        assert_eq!(refusal(&instruction), number, "{instruction:x?}");
    }
}

/// "in field order (a non-zero high word that the type lacks is 3)": at the high word's place.
#[test]
fn fields_in_order() {
    // src0's lacking high word (3) stands before src1's class (4).
    let mut instruction = decoded(&drafts()[0]);
    instruction.src0.high = 7;
    instruction.src1.tag = 1;
    assert_eq!(refusal(&instruction), 3);
    // dst's class (4) stands before src0's high word (3).
    instruction.dst.tag = 2;
    assert_eq!(refusal(&instruction), 4);
    // Exec (3) stands before all of them.
    instruction.exec = 7;
    assert_eq!(refusal(&instruction), 3);
}

/// What decoding does not judge, encoding does not: unused bytes of low, and a UQ's high word.
#[test]
fn nothing_else_is_judged() {
    let mut instruction = decoded(&drafts()[0]);
    instruction.src0.low = u32::MAX;
    instruction.src1.high = u32::MAX;
    // Numbers that a General operand does not store are not looked at.
    instruction.dst.high = 9;
    instruction.dst.immediate_type = 9;
    assert_eq!(encode(&instruction, &mut [0; 64]), Ok(27));
}
