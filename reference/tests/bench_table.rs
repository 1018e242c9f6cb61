//! Every line of "The bench table", starred or not, in its order.

mod common;

use common::*;
use reference::assemble::*;
use reference::bench::bench;
use reference::case::{Case, Variable};
use reference::decode::decode;
use reference::instruction::Instruction;
use reference::lanes::lanes_on;

/// "Empty kernel: 0, none completed, position 0."
#[test]
fn empty_kernel() {
    assert_eq!(run_on(&mut stage(), &[]), answer(0, 0, 0));
}

fn shl_with_exec(exec: u8) -> Draft {
    shl(
        exec,
        0,
        &general(UB, 0, 0, destination_region(1)),
        &immediate(0, 1),
        &immediate(0, 1),
    )
}

/// "Exec 0x23: size 8, offset 8." Code 3 is size 8, mask 2 is M3, 4(3-1) = 8.
#[test]
fn exec_23() {
    let bytes = shl_with_exec(0x23).bytes();
    let decoded = decode(&bytes, 0);
    assert_eq!(decoded.number, 0);
    assert_eq!(decoded.instruction.exec_size(), 8);
    assert_eq!(decoded.instruction.mask_offset(), 8);
    assert!(!decoded.instruction.no_mask());
}

/// "0x15: 8 (4+32)."
#[test]
fn exec_15() {
    assert_eq!(number_of(&shl_with_exec(0x15)), 8);
}

/// "0x06: 3."
#[test]
fn exec_06() {
    assert_eq!(number_of(&shl_with_exec(0x06)), 3);
    // A decode refusal hands back an empty part.
    assert_eq!(decode(&shl_with_exec(0x06).bytes(), 0).part, &[] as &[u8]);
}

/// "0xf4: 8." Mask 15 is M8_NM, offset 28, and 28 + 16 is over 32.
#[test]
fn exec_f4() {
    assert_eq!(number_of(&shl_with_exec(0xf4)), 8);
}

/// "Pred 0x8000: predicate 0 inverted." Its bits are 0x80, so lanes 0 to 6 are on and lane 7 is off.
#[test]
fn pred_8000() {
    let instruction = Instruction {
        exec: 0x03,
        pred: 0x8000,
        ..Instruction::default()
    };
    let on = lanes_on(&stage(), &instruction);
    assert_eq!(on, [true, true, true, true, true, true, true, false]);
}

/// "any, size 8, bits 0x80, EM 0x01: only lane 0 on."
#[test]
fn any_looks_at_all_bits() {
    let mut case = stage();
    case.execution_mask = 0x01;
    let instruction = Instruction {
        exec: 0x03,
        pred: 0x2000,
        ..Instruction::default()
    };
    let on = lanes_on(&case, &instruction);
    assert_eq!(on, [true, false, false, false, false, false, false, false]);
}

/// One lane of SHL: bytes of the source variable, an immediate UD count, and the destination's bytes.
fn shift_one(source: u16, bytes: &[u8], count: u32, destination: u16) -> [u8; 4] {
    let mut case = stage();
    put(&mut case, start(source), bytes);
    // The bytes of the destination are 0x55 first, so that what is not written is seen.
    let to = start(destination) + 32;
    put(&mut case, to, &[0x55; 4]);
    let draft = shl(
        0x00,
        0,
        &general(destination, 1, 0, destination_region(1)),
        &general(source, 0, 0, source_region(0, 1, 0)),
        &immediate(0, count),
    );
    assert_eq!(run_on(&mut case, &[draft]), answer(0, 1, 24));
    [0, 1, 2, 3].map(|k| case.registers[to + k])
}

/// "UB 0x81 by 1: UB 0x02, UW 0x0102." 0x81 times 2 is 0x102.
#[test]
fn shift_ub() {
    assert_eq!(shift_one(UB, &[0x81], 1, UB), [0x02, 0x55, 0x55, 0x55]);
    assert_eq!(shift_one(UB, &[0x81], 1, UW), [0x02, 0x01, 0x55, 0x55]);
}

/// "B 0x81 into W: 0xff02." 0x81 is -127, times 2 is -254, and 65536 - 254 is 0xff02.
#[test]
fn shift_b_into_w() {
    assert_eq!(shift_one(B, &[0x81], 1, W), [0x02, 0xff, 0x55, 0x55]);
}

/// "UD 1 by 33: 2." 33 mod 32 is 1.
#[test]
fn shift_by_33() {
    assert_eq!(shift_one(UD, &[1, 0, 0, 0], 33, UD), [2, 0, 0, 0]);
}

/// "UB 1 by 8 into UB: 0." 256 modulo 256.
#[test]
fn shift_by_8_into_ub() {
    assert_eq!(shift_one(UB, &[1], 8, UB), [0, 0x55, 0x55, 0x55]);
}

fn shl_with_source_region(region: u16) -> Draft {
    shl(
        0x04,
        0,
        &general(UW, 4, 0, destination_region(1)),
        &general(UW, 0, 0, region),
        &immediate(0, 0),
    )
}

/// "UW <16;8,2>, size 16, start 0: last byte 61, good." The last element is 16 + 7·2 = 30, bytes 60, 61.
#[test]
fn region_of_two_registers() {
    let mut case = stage();
    put(&mut case, start(UW) + 60, &[0x34, 0x12]);
    let draft = shl_with_source_region(source_region(16, 8, 2));
    assert_eq!(run_on(&mut case, &[draft]), answer(0, 1, 24));
    // Lane 15 arrives in element 15 of the destination at register 4 of the variable.
    let to = start(UW) + 4 * 32 + 30;
    assert_eq!(case.registers[to..to + 2], [0x34, 0x12]);
}

/// "<32;8,2>: last byte 93, three registers, 7." 32 + 14 = 46, bytes 92, 93, register 2.
#[test]
fn region_of_three_registers() {
    let draft = shl_with_source_region(source_region(32, 8, 2));
    assert_eq!(number_of(&draft), 7);
}

fn gather_one(case: &mut Case, offset: u32, element: u32, num_blocks: u8) -> Vec<u8> {
    put(case, start(UD), &element.to_le_bytes());
    put(case, start(F), &[0x55; 4]);
    let draft = gather(
        0x00,
        0,
        num_blocks,
        0,
        &immediate(0, offset),
        &raw(UD, 0),
        &raw(F, 0),
    );
    assert_eq!(run_on(case, &[draft]), answer(0, 1, 23));
    case.registers[start(F)..start(F) + 4].to_vec()
}

/// "Gather offset 0xffffffff, element 2: address 1."
#[test]
fn gather_address_wraps() {
    let dword = gather_one(&mut stage(), 0xffff_ffff, 2, 2);
    assert_eq!(dword, [0xa1, 0xa2, 0xa3, 0xa4]);
}

/// "Surface of 10, four bytes at 8: two bytes, two zeros."
#[test]
fn gather_over_the_end() {
    assert_eq!(gather_one(&mut stage(), 8, 0, 2), [0xa8, 0xa9, 0, 0]);
}

/// "Scatter channels 1010, size 8: channel 1 takes dwords 0-7 to +4, channel 3 dwords 8-15 to +12."
#[test]
fn scatter_channels_1010() {
    let mut case = stage();
    case.memory = vec![0x55; 128];
    case.memory_taint = vec![0; 128];
    // Lane i has element offset 16·i; dword d of Src is 0xd0d0d000 + d.
    let offsets: Vec<u64> = (0..8).map(|i| 16 * i).collect();
    put_uq(&mut case, start(UQ), &offsets);
    for d in 0..16u32 {
        let bytes = (0xd0d0_d000 + d).to_le_bytes();
        put(&mut case, start(UD) + 4 * d as usize, &bytes);
    }
    let draft = scatter(
        0x03,
        0,
        0b1010,
        &immediate_uq(0x1000),
        &raw(UQ, 0),
        &raw(UD, 0),
    );
    assert_eq!(run_on(&mut case, &[draft]), answer(0, 1, 26));
    for i in 0..8u32 {
        let at = 16 * i as usize;
        assert_eq!(case.memory[at..at + 4], [0x55; 4]);
        assert_eq!(case.memory[at + 4..at + 8], (0xd0d0_d000 + i).to_le_bytes());
        assert_eq!(case.memory[at + 8..at + 12], [0x55; 4]);
        assert_eq!(
            case.memory[at + 12..at + 16],
            (0xd0d0_d008 + i).to_le_bytes()
        );
    }
}

fn scatter_to(address: u64) -> Draft {
    scatter(
        0x03,
        0,
        0b0001,
        &immediate_uq(address),
        &raw(UQ, 0),
        &raw(UD, 0),
    )
}

/// "Last dword of the window: good." The window is 0x1000 to 0x103f, its last dword at 0x103c.
#[test]
fn last_dword_of_the_window() {
    let mut case = stage();
    put(&mut case, start(UD) + 28, &[1, 2, 3, 4]);
    assert_eq!(run_on(&mut case, &[scatter_to(0x103c)]), answer(0, 1, 26));
    // All eight lanes go there; lane 7 is the last and stays.
    assert_eq!(case.memory[60..64], [1, 2, 3, 4]);
    // One past it is not good.
    assert_eq!(number_of(&scatter_to(0x1040)), 12);
}

/// "No lane on, odd address: 0."
#[test]
fn no_lane_on() {
    let mut case = stage();
    case.execution_mask = 0;
    let before = case.clone();
    assert_eq!(run_on(&mut case, &[scatter_to(0x1001)]), answer(0, 1, 26));
    assert_eq!(case.memory, before.memory);
    assert_eq!(case.memory_taint, before.memory_taint);
}

const WHOLE_CASE_INPUT: &str = "\
010100020003000400050006000700080000000000000000000000000000000000
020200000800
020210000800
060f000000
07240300000001000000000200000000005502050201000000
080000010000000000000000000000000000000000000000000000000000000000
";

const WHOLE_CASE_OUTPUT: &str = "\
4000010018000000
010100020003000400050006000700080002000400060008000000000000000000
050000000000000000
080000010000000000000000000000000000000101000000000000000000000000
0a
";

/// "Whole case, input then output".
#[test]
fn whole_case() {
    let output = bench(WHOLE_CASE_INPUT.as_bytes());
    assert_eq!(String::from_utf8(output).unwrap(), WHOLE_CASE_OUTPUT);
    // "A line ends in 0x0a, which the last may lack."
    let lacking = WHOLE_CASE_INPUT.trim_end_matches('\n');
    let output = bench(lacking.as_bytes());
    assert_eq!(String::from_utf8(output).unwrap(), WHOLE_CASE_OUTPUT);
}

/// The stage of these tests is itself legal, and its last byte is used by a variable.
#[test]
fn the_stage_is_legal() {
    let case = stage();
    assert_eq!(reference::sizes::check(&case), Ok(()));
    let last: Variable = case.variables[7];
    assert_eq!(usize::from(last.start) + 8 * usize::from(last.count), 2048);
}
