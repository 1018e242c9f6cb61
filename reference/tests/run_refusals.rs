//! The numbers of a run's own tests, 4 to 9 and 20 to 25, each in several ways, at its limit and one past.

mod common;

use common::*;
use reference::assemble::*;
use reference::case::Variable;

const DST: u16 = 0x0200; // <1>

fn shl_of(exec: u8, dst: &Operand, src0: &Operand, src1: &Operand) -> u8 {
    number_of(&shl(exec, 0, dst, src0, src1))
}

fn good_dst() -> Operand {
    general(UB, 0, 0, DST)
}

fn one() -> Operand {
    immediate(0, 1)
}

fn gather_of(offset: &Operand, element_offset: &Operand, dst: &Operand) -> u8 {
    number_of(&gather(0x03, 0, 2, 0, offset, element_offset, dst))
}

fn scatter_of(address: &Operand, element_offset: &Operand, src: &Operand) -> u8 {
    number_of(&scatter(0x03, 0, 1, address, element_offset, src))
}

fn send_of(num_src: u8, num_dst: u8, desc: &Operand, src: &Operand, dst: &Operand) -> u8 {
    number_of(&raw_send(0x03, 0, num_src, num_dst, desc, src, dst))
}

fn window() -> Operand {
    immediate_uq(0x1000)
}

fn scalar_of(variable: u16) -> Operand {
    general(variable, 0, 0, SCALAR_REGION)
}

/// Every variable of the stage, with its type.
const VARIABLES: [u16; 8] = [UD, D, UW, W, UB, B, F, UQ];

/// 4 by type: SHL takes "integer types of at most 4 bytes", so not F and not UQ.
#[test]
fn shl_types() {
    let region = source_region(8, 8, 1);
    for variable in VARIABLES {
        let expected = if variable == F || variable == UQ {
            4
        } else {
            0
        };
        let dst = general(variable, 0, 0, DST);
        let src = general(variable, 0, 0, region);
        assert_eq!(shl_of(3, &dst, &one(), &one()), expected);
        assert_eq!(shl_of(3, &good_dst(), &src, &one()), expected);
        assert_eq!(shl_of(3, &good_dst(), &one(), &src), expected);
    }
    for source in [immediate(7, 0), immediate_uq(0)] {
        assert_eq!(shl_of(3, &good_dst(), &source, &one()), 4);
        assert_eq!(shl_of(3, &good_dst(), &one(), &source), 4);
    }
    for type_code in [0, 1, 2, 3, 4, 5] {
        let source = immediate(type_code, 0xffff_ffff);
        assert_eq!(shl_of(3, &good_dst(), &source, &source), 0);
    }
}

/// 4 by type for the raw operands and scalars of the other three.
#[test]
fn message_types() {
    let zero = immediate(0, 0);
    for variable in VARIABLES {
        let is_ud = if variable == UD { 0 } else { 4 };
        let is_uq = if variable == UQ { 0 } else { 4 };
        let is_dword = if [UD, D, F].contains(&variable) { 0 } else { 4 };
        let it = raw(variable, 0);
        assert_eq!(gather_of(&zero, &it, &raw(F, 0)), is_ud);
        assert_eq!(gather_of(&zero, &raw(UD, 0), &it), is_dword);
        assert_eq!(
            gather_of(&scalar_of(variable), &raw(UD, 0), &raw(F, 0)),
            is_ud
        );
        assert_eq!(scatter_of(&window(), &it, &raw(F, 0)), is_uq);
        assert_eq!(scatter_of(&window(), &raw(UQ, 0), &it), is_dword);
        // The stage's UQ variable holds 0, which lies outside the window: 12 once all is allowed.
        let expected = if variable == UQ { 12 } else { 4 };
        assert_eq!(
            scatter_of(&scalar_of(variable), &raw(UQ, 0), &raw(F, 0)),
            expected
        );
        let expected = if variable == UD { 9 } else { 4 };
        assert_eq!(send_of(1, 1, &scalar_of(variable), &it, &it), expected);
        // "Src and Dst may have any type."
        assert_eq!(send_of(1, 1, &zero, &it, &it), 9);
    }
    for type_code in [1, 2, 3, 4, 5, 7] {
        let it = immediate(type_code, 0);
        assert_eq!(gather_of(&it, &raw(UD, 0), &raw(F, 0)), 4);
        assert_eq!(scatter_of(&it, &raw(UQ, 0), &raw(F, 0)), 4);
        assert_eq!(send_of(1, 1, &it, &raw(UD, 0), &raw(UD, 0)), 4);
    }
    assert_eq!(gather_of(&immediate_uq(0), &raw(UD, 0), &raw(F, 0)), 4);
    assert_eq!(
        scatter_of(&immediate(0, 0x1000), &raw(UQ, 0), &raw(F, 0)),
        4
    );
    assert_eq!(send_of(1, 1, &immediate_uq(0), &raw(UD, 0), &raw(UD, 0)), 4);
}

/// 5: a variable not in its table, at every operand of every instruction.
#[test]
fn variables_not_in_the_table() {
    for index in [NO_VARIABLE, 256, 0xffff] {
        let vector = general(index, 0, 0, SCALAR_REGION);
        let it = raw(index, 0);
        assert_eq!(shl_of(3, &vector, &one(), &one()), 5);
        assert_eq!(shl_of(3, &good_dst(), &vector, &one()), 5);
        assert_eq!(shl_of(3, &good_dst(), &one(), &vector), 5);
        assert_eq!(gather_of(&vector, &raw(UD, 0), &raw(F, 0)), 5);
        assert_eq!(gather_of(&one(), &it, &raw(F, 0)), 5);
        assert_eq!(gather_of(&one(), &raw(UD, 0), &it), 5);
        assert_eq!(scatter_of(&vector, &raw(UQ, 0), &raw(F, 0)), 5);
        assert_eq!(scatter_of(&window(), &it, &raw(F, 0)), 5);
        assert_eq!(scatter_of(&window(), &raw(UQ, 0), &it), 5);
        assert_eq!(send_of(1, 1, &vector, &raw(UD, 0), &raw(UD, 0)), 5);
        assert_eq!(send_of(1, 1, &one(), &it, &raw(UD, 0)), 5);
        assert_eq!(send_of(1, 1, &one(), &raw(UD, 0), &it), 5);
        // "NumDst 0 still needs its variable".
        assert_eq!(send_of(1, 0, &one(), &raw(UD, 0), &it), 5);
    }
}

/// 5: predicates. The stage has 0 and 1; only the whole word 0 means none.
#[test]
fn predicates_not_in_the_table() {
    for (pred, number) in [
        (0x0000, 0),
        (0x0001, 0),
        (0x0002, 5),
        (0x8000, 0),
        (0x8002, 5),
        (0x2001, 0),
        (0x2002, 5),
        (0x4fff, 5),
    ] {
        let draft = shl(0x03, pred, &good_dst(), &one(), &one());
        assert_eq!(number_of(&draft), number, "pred {pred:04x}");
    }
    // With an empty table 0x2000, 0x4000 and 0x8000 name a predicate that is not there.
    for (pred, number) in [(0x0000, 0), (0x2000, 5), (0x4000, 5), (0x8000, 5)] {
        let mut case = stage();
        case.predicates = Vec::new();
        let draft = shl(0x83, pred, &good_dst(), &one(), &one());
        assert_eq!(run_on(&mut case, &[draft]).number, number);
    }
    // RAW_SEND's predicate is asked for too.
    let draft = raw_send(3, 2, 1, 1, &one(), &raw(UD, 0), &raw(UD, 0));
    assert_eq!(number_of(&draft), 5);
}

/// 5: surfaces. The stage has surface 0 alone.
#[test]
fn surfaces_not_in_the_table() {
    for (surface, number) in [(0, 0), (1, 5), (255, 5)] {
        let draft = gather(3, 0, 2, surface, &one(), &raw(UD, 0), &raw(F, 0));
        assert_eq!(number_of(&draft), number);
    }
    let mut case = stage();
    case.surfaces = Vec::new();
    case.surface_taint = Vec::new();
    let draft = gather(3, 0, 2, 0, &one(), &raw(UD, 0), &raw(F, 0));
    assert_eq!(run_on(&mut case, &[draft]).number, 5);
}

/// 20, 21, 22 and 24: a source's region, each of its three codes at every value.
#[test]
fn source_regions() {
    // ExecSize 8 on bytes at stride 0 or 1: nothing here leaves the variable or two registers unless
    // the code asks for a long stride, so the number is 0 exactly where a code is allowed.
    let number = |region: u16| shl_of(3, &good_dst(), &general(UB, 0, 0, region), &one());
    for code in 0..8u16 {
        // Width: 1, 2, 4, 8 or 16 (codes 2 to 6) and at most ExecSize 8 (code 5).
        let expected = [24, 20, 0, 0, 0, 0, 22, 20][usize::from(code)];
        assert_eq!(number(0x0201 | code << 4), expected, "width code {code}");
        // Vertical: every value but Null. With width 8 there is one row, so no stride is too long.
        let expected = if code == 0 { 24 } else { 0 };
        assert_eq!(number(0x0250 | code), expected, "vertical code {code}");
        // Horizontal: 0, 1, 2 or 4 (codes 1 to 4).
        let expected = [24, 0, 0, 0, 0, 21, 21, 21][usize::from(code)];
        assert_eq!(
            number(0x0051 | code << 8),
            expected,
            "horizontal code {code}"
        );
    }
    // Width 16 with ExecSize 16 is good, with 8 it is 22; 32 is never.
    let wide = general(UB, 0, 0, source_region(16, 16, 1));
    assert_eq!(shl_of(4, &good_dst(), &wide, &one()), 0);
    assert_eq!(shl_of(3, &good_dst(), &wide, &one()), 22);
    let wider = general(UB, 0, 0, source_region(32, 32, 1));
    assert_eq!(shl_of(5, &good_dst(), &wider, &one()), 20);
    // src1 is asked the same.
    assert_eq!(shl_of(3, &good_dst(), &one(), &wide), 22);
}

/// 21, 23 and 24: a destination's region is <H> with H 1, 2 or 4 and both others Null.
#[test]
fn destination_regions() {
    for word in 0..0x1000u16 {
        if [0, 4, 8].iter().any(|k| (word >> k) % 16 > 7) {
            continue;
        }
        let dst = general(UB, 0, 0, word);
        let expected = match word {
            0x0200 | 0x0300 | 0x0400 => 0,
            0x0500.. => 21,
            0x0100..0x0200 => 23,
            _ => 24,
        };
        assert_eq!(
            shl_of(0, &dst, &one(), &one()),
            expected,
            "region {word:04x}"
        );
    }
}

/// 25: "General with region <0;1,0>", after 5 and 4 and before 7.
#[test]
fn scalar_regions() {
    for word in [0x0000, 0x0120, 0x0101, 0x0021, 0x0122, 0x0221, 0x0131] {
        let offset = general(UD, 0, 0, word);
        assert_eq!(gather_of(&offset, &raw(UD, 0), &raw(F, 0)), 25);
        let address = general(UQ, 0, 0, word);
        assert_eq!(scatter_of(&address, &raw(UQ, 0), &raw(F, 0)), 25);
        let desc = general(UD, 0, 0, word);
        assert_eq!(send_of(1, 1, &desc, &raw(UD, 0), &raw(UD, 0)), 25);
        // Outside too, and still 25; of a wrong type too, and then 4.
        let outside = general(UD, 255, 0, word);
        assert_eq!(gather_of(&outside, &raw(UD, 0), &raw(F, 0)), 25);
        let wrong = general(UW, 255, 0, word);
        assert_eq!(gather_of(&wrong, &raw(UD, 0), &raw(F, 0)), 4);
    }
}

/// 7: elements at the variable's end and one past. A stage variable has 256 bytes, 8 rows.
#[test]
fn elements_outside() {
    let row_of_8 = source_region(8, 8, 1);
    // UB: row 7 column 24 gives elements 248 to 255, column 25 gives 256.
    let src = |column| general(UB, 7, column, row_of_8);
    assert_eq!(shl_of(3, &good_dst(), &src(24), &one()), 0);
    assert_eq!(shl_of(3, &good_dst(), &src(25), &one()), 7);
    assert_eq!(shl_of(3, &good_dst(), &one(), &src(24)), 0);
    assert_eq!(shl_of(3, &good_dst(), &one(), &src(25)), 7);
    let dst = |column| general(UB, 7, column, DST);
    assert_eq!(shl_of(3, &dst(24), &one(), &one()), 0);
    assert_eq!(shl_of(3, &dst(25), &one(), &one()), 7);
    // UW: 16 elements a row, 128 in all.
    let src = |row, column| general(UW, row, column, row_of_8);
    assert_eq!(shl_of(3, &good_dst(), &src(7, 8), &one()), 0);
    assert_eq!(shl_of(3, &good_dst(), &src(7, 9), &one()), 7);
    assert_eq!(shl_of(3, &good_dst(), &src(8, 0), &one()), 7);
    // "row and column are simply added up": row 0 column 120 is row 7 column 8.
    assert_eq!(shl_of(3, &good_dst(), &src(0, 120), &one()), 0);
    assert_eq!(shl_of(3, &good_dst(), &src(0, 121), &one()), 7);
    // "All ExecSize elements, enabled or not": a lane that is off counts.
    let mut case = stage();
    case.execution_mask = 0x01;
    let draft = shl(3, 0, &dst(25), &one(), &one());
    assert_eq!(run_on(&mut case, &[draft]).number, 7);
}

/// 7: row R starts at byte 32·R of its variable, whatever the type. The largest file has 4,096 bytes, so row
/// 127 is the last that any variable has.
#[test]
fn rows_of_the_largest_variable() {
    let of_type = |type_code, count| {
        let mut case = stage();
        case.registers = vec![0; 4096];
        case.register_taint = vec![0; 4096];
        case.variables.push(Variable {
            type_code,
            start: 0,
            count,
        });
        case
    };
    for row in 0..=255 {
        let expected = if row <= 127 { 0 } else { 7 };
        for (type_code, count) in [
            (0, 1024),
            (1, 1024),
            (2, 2048),
            (3, 2048),
            (4, 4096),
            (5, 4096),
        ] {
            let src = general(NO_VARIABLE, row, 0, SCALAR_REGION);
            let dst = general(NO_VARIABLE, row, 0, DST);
            for draft in [
                shl(0, 0, &dst, &one(), &one()),
                shl(0, 0, &good_dst(), &src, &one()),
                shl(0, 0, &good_dst(), &one(), &src),
            ] {
                let mut case = of_type(type_code, count);
                assert_eq!(run_on(&mut case, &[draft]).number, expected, "row {row}");
            }
        }
        let scalar = general(NO_VARIABLE, row, 0, SCALAR_REGION);
        let mut case = of_type(0, 1024);
        let draft = gather(0x03, 0, 2, 0, &scalar, &raw(UD, 0), &raw(UD, 0));
        assert_eq!(run_on(&mut case, &[draft]).number, expected, "row {row}");
        let mut case = of_type(11, 512);
        // No lane on, so that the address itself is not asked about.
        case.execution_mask = 0;
        let draft = scatter(0x03, 0, 1, &scalar, &raw(UQ, 0), &raw(UD, 0));
        assert_eq!(run_on(&mut case, &[draft]).number, expected, "row {row}");
        // RAW_SEND: otherwise good.
        let mut case = of_type(0, 1024);
        let draft = raw_send(0x03, 0, 1, 0, &scalar, &raw(UD, 0), &raw(UD, 0));
        let expected = if row <= 127 { 9 } else { 7 };
        assert_eq!(run_on(&mut case, &[draft]).number, expected, "row {row}");
    }
}

/// 7: "touch at most two adjacent registers, lowest byte to highest", in the register file.
#[test]
fn two_registers() {
    // Rows of one element 32 bytes apart: two rows touch two registers, three rows touch three.
    let rows = source_region(32, 1, 0);
    assert_eq!(shl_of(1, &good_dst(), &general(UB, 0, 0, rows), &one()), 0);
    assert_eq!(shl_of(2, &good_dst(), &general(UB, 0, 0, rows), &one()), 7);
    // Elements 0-1 and 32-33 of UW (bytes 0-3 and 64-67) do not touch the middle register and still
    // span three, lowest byte to highest.
    let apart = source_region(32, 2, 1);
    assert_eq!(shl_of(2, &good_dst(), &general(UW, 0, 0, apart), &one()), 7);
    // Destination UD, ExecSize 16: at column 0 two registers, at column 1 three.
    assert_eq!(shl_of(4, &general(UD, 0, 0, DST), &one(), &one()), 0);
    assert_eq!(shl_of(4, &general(UD, 0, 1, DST), &one(), &one()), 7);
    // Destination UW <4>, ExecSize 8: last element 28, byte 57: good at column 0; 32, byte 65 at column 4.
    assert_eq!(shl_of(3, &general(UW, 0, 0, 0x0400), &one(), &one()), 0);
    assert_eq!(shl_of(3, &general(UW, 0, 4, 0x0400), &one(), &one()), 7);
}

/// 7: raw offsets. Element_offset and Dst of a gather of 8 need 32 bytes of 256.
#[test]
fn raw_offsets() {
    let zero = one();
    for (offset, number) in [
        (0, 0),
        (4, 0),
        (224, 0),
        (228, 7),
        (225, 7),
        (2, 7),
        (0xfffc, 7),
    ] {
        assert_eq!(gather_of(&zero, &raw(UD, offset), &raw(F, 0)), number);
        assert_eq!(gather_of(&zero, &raw(UD, 0), &raw(F, offset)), number);
    }
    // Scatter of 8: element offsets need 64 bytes and multiples of 8.
    for (offset, number) in [(0, 0), (8, 0), (192, 0), (200, 7), (4, 7), (188, 7)] {
        assert_eq!(scatter_of(&window(), &raw(UQ, offset), &raw(F, 0)), number);
    }
    // No two-register rule for raw operands: 32 dwords are four registers.
    let draft = gather(5, 0, 2, 0, &zero, &raw(UD, 4), &raw(F, 4));
    assert_eq!(number_of(&draft), 0);
}

/// 7: "Scatter with k channels needs (k-1)·max(ExecSize, 8)+ExecSize dwords", of 64 in the variable.
#[test]
fn scatter_data_length() {
    for (exec, channels, dwords) in [
        (3u8, 0b0001u8, 8u16),
        (3, 0b1000, 8),
        (3, 0b0011, 16),
        (3, 0b1110, 24),
        (3, 0b1111, 32),
        (4, 0b0010, 16),
        (4, 0b1001, 32),
        (4, 0b0111, 48),
        (4, 0b1111, 64),
    ] {
        // The last offset that leaves room, and one dword further.
        let last = 4 * (64 - dwords);
        for (offset, number) in [(last, 0), (last + 4, 7)] {
            let mut case = stage();
            case.execution_mask = 0;
            let draft = scatter(exec, 0, channels, &window(), &raw(UQ, 0), &raw(F, offset));
            assert_eq!(run_on(&mut case, &[draft]).number, number);
        }
    }
}

/// 7 and 9: "RAW_SEND needs 32 bytes per register counted; for none, the offset may be the variable's
/// end." A stage variable has eight registers.
#[test]
fn raw_send_lengths() {
    let zero = one();
    let ud = |offset| raw(UD, offset);
    assert_eq!(send_of(8, 8, &zero, &ud(0), &ud(0)), 9);
    assert_eq!(send_of(9, 8, &zero, &ud(0), &ud(0)), 7);
    assert_eq!(send_of(8, 9, &zero, &ud(0), &ud(0)), 7);
    assert_eq!(send_of(7, 8, &zero, &ud(32), &ud(0)), 9);
    assert_eq!(send_of(7, 8, &zero, &ud(36), &ud(0)), 7);
    assert_eq!(send_of(7, 8, &zero, &ud(31), &ud(0)), 7);
    assert_eq!(send_of(1, 0, &zero, &ud(0), &ud(256)), 9);
    assert_eq!(send_of(1, 0, &zero, &ud(0), &ud(260)), 7);
    assert_eq!(send_of(1, 0, &zero, &ud(0), &ud(255)), 7);
    assert_eq!(send_of(1, 0, &zero, &ud(0), &raw(UB, 255)), 9);
    assert_eq!(send_of(1, 0, &zero, &ud(0), &raw(UB, 257)), 7);
}

/// 8: "offset + ExecSize over 32", for every size and mask, NM too, before the predicate's 5.
#[test]
fn number_8() {
    for code in 0..6u8 {
        for mask in 0..16u8 {
            let over = 4 * u32::from(mask % 8) + (1 << code) > 32;
            let expected = if over { 8 } else { 0 };
            let draft = shl(code | mask << 4, 0, &good_dst(), &one(), &one());
            assert_eq!(number_of(&draft), expected, "code {code} mask {mask}");
            let draft = shl(code | mask << 4, 0x0777, &good_dst(), &one(), &one());
            assert_eq!(number_of(&draft), if over { 8 } else { 5 });
        }
    }
}

/// 8 of the other three: M8_NM of size 16 and M6 of size 16, before predicate and surface. M5 of size 16
/// is exactly 32.
#[test]
fn number_8_of_messages() {
    for (exec, over) in [(0xf4, true), (0x54, true), (0x44, false), (0xc4, false)] {
        let sent = raw_send(exec, 0, 1, 1, &one(), &raw(UD, 0), &raw(UD, 0));
        assert_eq!(number_of(&sent), if over { 8 } else { 9 });
        let scattered = scatter(exec, 0, 1, &window(), &raw(UQ, 0), &raw(F, 0));
        assert_eq!(number_of(&scattered), if over { 8 } else { 0 });
        for (pred, surface) in [(0, 0), (0, 9), (9, 0)] {
            let gathered = gather(exec, pred, 2, surface, &one(), &raw(UD, 0), &raw(F, 0));
            let otherwise = if pred == 0 && surface == 0 { 0 } else { 5 };
            assert_eq!(number_of(&gathered), if over { 8 } else { otherwise });
        }
    }
}

/// 9: not completed, and it ends the run; EM and predicate bits do not matter.
#[test]
fn number_9_ends_the_run() {
    let send = raw_send(3, 1, 1, 1, &one(), &raw(UD, 0), &raw(UD, 0));
    let shift = shl(3, 0, &good_dst(), &one(), &one());
    let mut case = stage();
    case.execution_mask = 0;
    let kernel = [shift.clone(), send, shift];
    assert_eq!(run_on(&mut case, &kernel), answer(9, 1, 23));
}

/// "A run then tests 8; predicate 5; surface 5; each operand in order 5, 4 (type), 6, 7", 6 being 25 here: each fault
/// is repaired in turn and the next one shows.
#[test]
fn the_order_of_a_runs_tests() {
    // Gather: 8, then pred, surface, offset 5, 4, 25, 7, element offset 5, 4, 7, dst 5, 4, 7.
    let mut draft = gather(
        0x15,
        0x0777,
        0,
        9,
        &general(99, 255, 0, 0),
        &raw(99, 1),
        &raw(99, 1),
    );
    assert_eq!(number_of(&draft), 8);
    draft.set(Slot::Exec, &[0x05]);
    assert_eq!(number_of(&draft), 5);
    draft.set(Slot::Pred, &[0, 0]);
    assert_eq!(number_of(&draft), 5);
    draft.set(Slot::Surface, &[0]);
    assert_eq!(number_of(&draft), 5);
    draft.set_operand(0, &general(UQ, 255, 0, 0));
    assert_eq!(number_of(&draft), 4);
    draft.set_operand(0, &general(UD, 255, 0, 0));
    assert_eq!(number_of(&draft), 25);
    draft.set_operand(0, &general(UD, 255, 0, SCALAR_REGION));
    assert_eq!(number_of(&draft), 7);
    draft.set_operand(0, &general(UD, 7, 7, SCALAR_REGION));
    assert_eq!(number_of(&draft), 5);
    draft.set_operand(1, &raw(UW, 1));
    assert_eq!(number_of(&draft), 4);
    draft.set_operand(1, &raw(UD, 1));
    assert_eq!(number_of(&draft), 7);
    draft.set_operand(1, &raw(UD, 128));
    assert_eq!(number_of(&draft), 5);
    draft.set_operand(2, &raw(UQ, 1));
    assert_eq!(number_of(&draft), 4);
    draft.set_operand(2, &raw(F, 1));
    assert_eq!(number_of(&draft), 7);
    draft.set_operand(2, &raw(F, 128));
    assert_eq!(number_of(&draft), 0);
}

/// A refused instruction in the middle: its start as position, those before as completed, and nothing
/// of those after is done.
#[test]
fn earlier_instructions_stand() {
    let first = shl(
        0,
        0,
        &general(UB, 0, 0, DST),
        &immediate(0, 3),
        &immediate(0, 1),
    );
    let refused = shl(0, 0, &general(99, 0, 0, DST), &one(), &one());
    let last = shl(
        0,
        0,
        &general(UB, 0, 1, DST),
        &immediate(0, 3),
        &immediate(0, 1),
    );
    let mut case = stage();
    let kernel = [first, refused, last];
    assert_eq!(run_on(&mut case, &kernel), answer(5, 1, 23));
    assert_eq!(case.registers[start(UB)..start(UB) + 2], [6, 0]);
    // A decode refusal after good instructions is answered alike.
    case.kernel.truncate(23);
    case.kernel.extend([0x24, 0x06]);
    assert_eq!(reference::run::run(&mut case), answer(3, 1, 23));
}

/// A variable of one element: the whole of it, and one past.
#[test]
fn a_small_variable() {
    let mut case = stage();
    case.variables.push(Variable {
        type_code: 0,
        start: 28,
        count: 1,
    });
    let number = |operand: &Operand| {
        let draft = gather(0, 0, 2, 0, operand, &raw(UD, 0), &raw(8, 0));
        run_on(&mut case.clone(), &[draft]).number
    };
    assert_eq!(number(&general(8, 0, 0, SCALAR_REGION)), 0);
    assert_eq!(number(&general(8, 0, 1, SCALAR_REGION)), 7);
    assert_eq!(number(&general(8, 1, 0, SCALAR_REGION)), 7);
}
