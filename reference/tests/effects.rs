//! What the instructions do to bytes and taint: values, order of writes, bytes that stay.

mod common;

use common::*;
use reference::assemble::*;
use reference::case::Predicate;
use reference::shl::{exact, shifted};

/// "Source read exactly (signed types signed)".
#[test]
fn exact_values() {
    assert_eq!(exact(0xffff_ffff, 0), 4_294_967_295);
    assert_eq!(exact(0xffff_ffff, 1), -1);
    assert_eq!(exact(0x8000_0000, 1), -2_147_483_648);
    assert_eq!(exact(0x8000, 2), 32_768);
    assert_eq!(exact(0x8000, 3), -32_768);
    assert_eq!(exact(0x7fff, 3), 32_767);
    assert_eq!(exact(0x80, 4), 128);
    assert_eq!(exact(0x80, 5), -128);
}

/// "times 2^(count mod 32), taken modulo 2^(destination bits)".
#[test]
fn shifted_values() {
    assert_eq!(shifted(1, 31, 32), 0x8000_0000);
    assert_eq!(shifted(1, 32, 32), 1);
    assert_eq!(shifted(3, 31, 32), 0x8000_0000);
    assert_eq!(shifted(-1, 4, 32), 0xffff_fff0);
    assert_eq!(shifted(-1, 0, 8), 0xff);
    assert_eq!(shifted(-128, 1, 16), 0xff00);
    assert_eq!(shifted(255, 31, 8), 0);
}

/// Immediates: "the lowest bytes that the type needs are used", and the type says whether it is signed.
#[test]
fn immediates() {
    for (type_code, low, expected) in [
        (0, 0xffff_ff80, 0xffff_ff80u32),
        (2, 0xffff_ff80, 0x0000_ff80),
        (3, 0x0001_ff80, 0xffff_ff80),
        (4, 0xffff_ff80, 0x0000_0080),
        (5, 0x0000_0080, 0xffff_ff80),
        (5, 0xffff_ff7f, 0x0000_007f),
    ] {
        let mut case = stage();
        let draft = shl(
            0,
            0,
            &general(UD, 0, 0, 0x0200),
            &immediate(type_code, low),
            &immediate(0, 0),
        );
        assert_eq!(run_on(&mut case, &[draft]).number, 0);
        assert_eq!(case.registers[0..4], expected.to_le_bytes());
    }
    // The count: the low five bits of a B immediate 0xe1 are 1, of a W variable 0x8021 are 1.
    let mut case = stage();
    put(&mut case, start(W), &[0x21, 0x80]);
    let by_immediate = shl(
        0,
        0,
        &general(UD, 0, 0, 0x0200),
        &immediate(0, 1),
        &immediate(5, 0xe1),
    );
    let by_variable = shl(
        0,
        0,
        &general(UD, 0, 1, 0x0200),
        &immediate(0, 1),
        &general(W, 0, 0, SCALAR_REGION),
    );
    assert_eq!(run_on(&mut case, &[by_immediate, by_variable]).number, 0);
    assert_eq!(case.registers[0..8], [2, 0, 0, 0, 2, 0, 0, 0]);
}

/// "General source element (i, j): R·(32/size)+C+i·V+j·H": <4;2,1> of bytes at row 1, column 3.
#[test]
fn region_elements() {
    let mut case = stage();
    for k in 0..64 {
        case.registers[start(UB) + k] = k as u8;
    }
    let draft = shl(
        3,
        0,
        &general(UB, 4, 0, 0x0300),
        &general(UB, 1, 3, source_region(4, 2, 1)),
        &immediate(0, 0),
    );
    assert_eq!(run_on(&mut case, &[draft]).number, 0);
    // Rows start at 35, 39, 43, 47; the destination takes every second byte from 128 on.
    let at = start(UB) + 128;
    let written: Vec<u8> = (0..8).map(|i| case.registers[at + 2 * i]).collect();
    assert_eq!(written, [35, 36, 39, 40, 43, 44, 47, 48]);
    let between: Vec<u8> = (0..8).map(|i| case.registers[at + 2 * i + 1]).collect();
    assert_eq!(between, [0; 8]);
}

/// "All sources are read before any write": a destination one element after its source.
#[test]
fn overlapping_shl() {
    let mut case = stage();
    put(&mut case, start(UB), &[1, 2, 3, 4, 5, 6, 7, 8, 0]);
    case.register_taint[start(UB)] = 9;
    let draft = shl(
        3,
        0,
        &general(UB, 0, 1, 0x0200),
        &general(UB, 0, 0, source_region(8, 8, 1)),
        &immediate(0, 1),
    );
    assert_eq!(run_on(&mut case, &[draft]).number, 0);
    assert_eq!(
        case.registers[start(UB)..start(UB) + 9],
        [1, 2, 4, 6, 8, 10, 12, 14, 16]
    );
    // Lane 0's taint goes one element on and no further; the byte not written keeps its mark byte 9.
    assert_eq!(
        case.register_taint[start(UB)..start(UB) + 9],
        [9, 1, 0, 0, 0, 0, 0, 0, 0]
    );
}

/// A gather whose destination is its own element offsets.
#[test]
fn overlapping_gather() {
    let mut case = stage();
    put(&mut case, 0, &[9, 0, 0, 0, 8, 0, 0, 0]);
    let draft = gather(1, 0, 0, 0, &immediate(0, 0), &raw(UD, 0), &raw(UD, 4));
    assert_eq!(run_on(&mut case, &[draft]).number, 0);
    // Lane 0 reads a9 at 9 into element 1, lane 1 reads a8 at 8 (the old element 1) into element 2.
    assert_eq!(
        case.registers[0..12],
        [9, 0, 0, 0, 0xa9, 0, 0, 0, 0xa8, 0, 0, 0]
    );
}

/// SHL's taint: "wholly marked if any byte of either source element was, else wholly unmarked".
#[test]
fn shl_taint() {
    let mut case = stage();
    // Source UW elements 0..7: taint on the high byte of element 1. Count UB elements: taint on 2.
    case.register_taint[start(UW) + 3] = 0x80;
    case.register_taint[start(UB) + 2] = 2;
    // The destination was wholly tainted with 5 before; lane 7 is off.
    for k in 0..32 {
        case.register_taint[start(UD) + k] = 5;
    }
    case.execution_mask = 0x7f;
    let draft = shl(
        3,
        0,
        &general(UD, 0, 0, 0x0200),
        &general(UW, 0, 0, source_region(8, 8, 1)),
        &general(UB, 0, 0, source_region(8, 8, 1)),
    );
    assert_eq!(run_on(&mut case, &[draft]).number, 0);
    let mut expected = vec![0; 32];
    expected[4..12].fill(1);
    expected[28..32].fill(5);
    assert_eq!(case.register_taint[0..32], expected);
}

/// A gathered dword: byte by byte from the surface, the filler unmarked, a tainted offset marks it all.
#[test]
fn gather_taint() {
    let gathered = |offset_taint: usize, num_blocks: u8| {
        let mut case = stage();
        case.surfaces.insert(0, vec![0; 3]);
        // One buffer over both surfaces: surface 1 starts at 3. Its byte 7 is at 10, byte 9 at 12.
        case.surface_taint = vec![0; 13];
        case.surface_taint[10] = 0x40;
        case.surface_taint[12] = 1;
        put(&mut case, start(UD), &[7, 0, 0, 0]);
        case.register_taint[start(F)..start(F) + 4].fill(6);
        if offset_taint < 8 {
            case.register_taint[start(UD) + offset_taint] = 1;
        }
        let draft = gather(
            0,
            0,
            num_blocks,
            1,
            &general(UD, 0, 1, SCALAR_REGION),
            &raw(UD, 0),
            &raw(F, 0),
        );
        assert_eq!(run_on(&mut case, &[draft]).number, 0);
        (
            case.registers[start(F)..start(F) + 4].to_vec(),
            case.register_taint[start(F)..start(F) + 4].to_vec(),
        )
    };
    let untainted = 8;
    // Bytes 7, 8, 9 are there, byte 10 is past the end.
    let all = vec![0xa7, 0xa8, 0xa9, 0];
    assert_eq!(gathered(untainted, 2), (all.clone(), vec![1, 0, 1, 0]));
    assert_eq!(
        gathered(untainted, 1),
        (vec![0xa7, 0xa8, 0, 0], vec![1, 0, 0, 0])
    );
    assert_eq!(
        gathered(untainted, 0),
        (vec![0xa7, 0, 0, 0], vec![1, 0, 0, 0])
    );
    // Any byte of the element offset (0 to 3) or of the offset (4 to 7): all four bytes.
    for byte in 0..8 {
        assert_eq!(gathered(byte, 2), (all.clone(), vec![1, 1, 1, 1]));
    }
    assert_eq!(gathered(0, 0), (vec![0xa7, 0, 0, 0], vec![1, 1, 1, 1]));
}

/// "the block's later bytes do not wrap": at 0xffffffff nothing is read at 0.
#[test]
fn gather_blocks_do_not_wrap() {
    let mut case = stage();
    put(&mut case, start(F), &[0x55; 4]);
    let draft = gather(
        0,
        0,
        2,
        0,
        &immediate(0, 0xffff_ffff),
        &raw(UD, 0),
        &raw(F, 0),
    );
    assert_eq!(run_on(&mut case, &[draft]).number, 0);
    assert_eq!(case.registers[start(F)..start(F) + 4], [0; 4]);
}

/// A surface of no bytes reads zeros; the mark of a surface byte 0 is kept.
#[test]
fn zeros_that_are_read_and_zeros_that_fill() {
    let mut case = stage();
    case.surfaces = vec![vec![], vec![0]];
    case.surface_taint = vec![1];
    case.register_taint[start(F)..start(F) + 8].fill(1);
    let from_empty = gather(0, 0, 2, 0, &immediate(0, 0), &raw(UD, 0), &raw(F, 0));
    let from_zero = gather(0, 0, 2, 1, &immediate(0, 0), &raw(UD, 0), &raw(F, 4));
    assert_eq!(run_on(&mut case, &[from_empty, from_zero]).number, 0);
    assert_eq!(case.registers[start(F)..start(F) + 8], [0; 8]);
    assert_eq!(
        case.register_taint[start(F)..start(F) + 8],
        [0, 0, 0, 0, 1, 0, 0, 0]
    );
}

/// "Order: c outer, i inner; the later write stays", in its bytes and in its taint.
#[test]
fn colliding_scatter_writes() {
    let mut case = stage();
    // Lane 1 has element offset 4, so channel R of lane 1 and channel G of lane 0 meet at 4. Channel G
    // comes later: dword 8 stays. Lanes 2 to 7 are off.
    put_uq(&mut case, start(UQ), &[0, 4]);
    case.execution_mask = 0x03;
    for d in 0..16u8 {
        put(&mut case, start(UD) + 4 * usize::from(d), &[d; 4]);
    }
    case.register_taint[start(UD) + 4] = 1; // dword 1, overwritten by dword 8
    case.register_taint[start(UD) + 4 * 9 + 1] = 3; // dword 9
    let draft = scatter(
        3,
        0,
        0b0011,
        &immediate_uq(0x1000),
        &raw(UQ, 0),
        &raw(UD, 0),
    );
    assert_eq!(run_on(&mut case, &[draft]).number, 0);
    assert_eq!(
        case.memory[0..16],
        [0, 0, 0, 0, 8, 8, 8, 8, 9, 9, 9, 9, 0, 0, 0, 0]
    );
    assert_eq!(
        case.memory_taint[0..16],
        [0, 0, 0, 0, 0, 0, 0, 0, 0, 1, 0, 0, 0, 0, 0, 0]
    );
}

/// Scatter over an unaligned base: address 0x1004 is byte 3 of a window at 0x1001; what is not written
/// keeps its byte and its mark byte.
#[test]
fn scatter_over_an_unaligned_base() {
    let mut case = stage();
    case.base = 0x1001;
    case.memory.fill(0x55);
    case.memory_taint.fill(7);
    case.execution_mask = 1;
    put(&mut case, start(UD), &[1, 2, 3, 4]);
    let draft = scatter(3, 0, 1, &immediate_uq(0x1004), &raw(UQ, 0), &raw(UD, 0));
    assert_eq!(run_on(&mut case, &[draft]).number, 0);
    assert_eq!(case.memory[0..8], [0x55, 0x55, 0x55, 1, 2, 3, 4, 0x55]);
    assert_eq!(case.memory_taint[0..8], [7, 7, 7, 0, 0, 0, 0, 7]);
}

/// Lanes: NM ignores EM, the offset counts for predicate bits under NM too.
#[test]
fn masks() {
    let written = |exec: u8, pred: u16, mask: u32, bits: u32| {
        let mut case = stage();
        case.execution_mask = mask;
        case.predicates = vec![Predicate::of_32(bits); 2];
        let draft = shl(
            exec,
            pred,
            &general(UB, 0, 0, 0x0200),
            &immediate(0, 1),
            &immediate(0, 0),
        );
        assert_eq!(run_on(&mut case, &[draft]).number, 0);
        (0..8)
            .map(|lane| u32::from(case.registers[start(UB) + lane]) << lane)
            .sum::<u32>()
    };
    // M1, M3 (offset 8), M1_NM, M3_NM without a predicate.
    assert_eq!(written(0x03, 0, 0x0000_a5c3, 0), 0xc3);
    assert_eq!(written(0x23, 0, 0x0000_a5c3, 0), 0xa5);
    assert_eq!(written(0x83, 0, 0, 0), 0xff);
    assert_eq!(written(0xa3, 0, 0, 0), 0xff);
    // A predicate with bits 0x0000_3c0f: M1 sees 0x0f, M3 sees 0x3c, NM alike.
    assert_eq!(written(0x03, 1, 0xffff_ffff, 0x3c0f), 0x0f);
    assert_eq!(written(0x23, 1, 0xffff_ffff, 0x3c0f), 0x3c);
    assert_eq!(written(0x83, 1, 0, 0x3c0f), 0x0f);
    assert_eq!(written(0xa3, 1, 0, 0x3c0f), 0x3c);
    assert_eq!(written(0xa3, 0x8001, 0, 0x3c0f), 0xc3);
    // any and all look at the ExecSize bits from the offset on, not at others.
    assert_eq!(written(0x03, 0x2001, 0xff, 0x0000_0100), 0x00);
    assert_eq!(written(0x23, 0x2001, 0xff00, 0x0000_0100), 0xff);
    assert_eq!(written(0x23, 0x4001, 0xff00, 0x0000_ff00), 0xff);
    assert_eq!(written(0x23, 0x4001, 0xff00, 0x0000_fe00), 0x00);
    assert_eq!(written(0x23, 0xc001, 0xff00, 0x0000_fe00), 0xff);
    assert_eq!(written(0x23, 0xa001, 0xff00, 0x0000_00ff), 0xff);
}

/// "Block_size and Scale are ignored".
#[test]
fn block_size_and_scale() {
    let mut plain = stage();
    let mut strange = stage();
    let draft = gather(3, 0, 1, 0, &immediate(0, 3), &raw(UD, 0), &raw(F, 0));
    let mut other = draft.clone();
    other.set(Slot::BlockSize, &[0xff]);
    other.set(Slot::Scale, &[0xff, 0x7f]);
    assert_eq!(run_on(&mut plain, &[draft]).number, 0);
    assert_eq!(run_on(&mut strange, &[other]).number, 0);
    assert_eq!(plain.registers, strange.registers);
    assert_eq!(plain.registers[start(F)..start(F) + 4], [0xa3, 0xa4, 0, 0]);
}

/// Along a run: "The first meets the bytes and marks lent, each later one those that the one before it
/// left." SHL taints a UQ's low half, and the scatter after it is refused; the SHL stands.
#[test]
fn taint_along_a_run() {
    let mut case = stage();
    // A UD variable over the UQ variable's bytes.
    case.variables.push(reference::case::Variable {
        type_code: 0,
        start: start(UQ) as u16,
        count: 64,
    });
    case.register_taint[start(UB)] = 1;
    let shift = shl(
        0,
        0,
        &general(8, 0, 0, 0x0200),
        &general(UB, 0, 0, SCALAR_REGION),
        &immediate(0, 0),
    );
    let store = scatter(3, 0, 1, &immediate_uq(0x1000), &raw(UQ, 0), &raw(UD, 0));
    assert_eq!(
        run_on(&mut case, &[shift, store.clone()]),
        answer(10, 1, 24)
    );
    assert_eq!(
        case.register_taint[start(UQ)..start(UQ) + 5],
        [1, 1, 1, 1, 0]
    );
    // An untainted shift over it first, and the scatter is good.
    let clean = shl(
        0,
        0,
        &general(8, 0, 0, 0x0200),
        &immediate(0, 4),
        &immediate(0, 0),
    );
    assert_eq!(run_on(&mut case, &[clean, store]), answer(0, 2, 49));
}
