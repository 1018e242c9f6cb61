//! Number 13: tables and lent lengths, each limit at and one past.

mod common;

use common::*;
use reference::case::{Case, Predicate, Variable};
use reference::sizes::check;

fn number(change: impl Fn(&mut Case)) -> u8 {
    let mut case = stage();
    change(&mut case);
    match check(&case) {
        Ok(()) => 0,
        Err(number) => number,
    }
}

#[test]
fn nothing_lent_is_good() {
    assert_eq!(check(&Case::default()), Ok(()));
}

/// "Register file: multiple of 32, at most 4,096."
#[test]
fn registers() {
    let length = |length: usize| {
        number(|case| {
            case.variables.clear();
            case.registers = vec![0; length];
            case.register_taint = vec![0; length];
        })
    };
    for (bytes, expected) in [
        (0, 0),
        (1, 13),
        (31, 13),
        (32, 0),
        (33, 13),
        (4064, 0),
        (4095, 13),
        (4096, 0),
        (4097, 13),
        (4128, 13),
    ] {
        assert_eq!(length(bytes), expected, "{bytes}");
    }
}

/// "Kernel and memory: at most 4,096 each."
#[test]
fn kernel_and_memory() {
    assert_eq!(number(|case| case.kernel = vec![0; 4096]), 0);
    assert_eq!(number(|case| case.kernel = vec![0; 4097]), 13);
    for (length, expected) in [(0, 0), (1, 0), (4096, 0), (4097, 13)] {
        let change = |case: &mut Case| {
            case.memory = vec![0; length];
            case.memory_taint = vec![0; length];
        };
        assert_eq!(number(change), expected);
    }
}

/// "Base plus memory length is at most 2^64." The stage's memory is 64 bytes.
#[test]
fn base() {
    for (base, expected) in [
        (0, 0),
        (u64::MAX - 64, 0),
        (u64::MAX - 63, 0),
        (u64::MAX - 62, 13),
        (u64::MAX, 13),
    ] {
        assert_eq!(number(|case| case.base = base), expected, "{base:x}");
    }
    // The largest base with no memory is good, with one byte it is exactly 2^64.
    for (length, expected) in [(0, 0), (1, 0), (2, 13)] {
        let change = |case: &mut Case| {
            case.base = u64::MAX;
            case.memory = vec![0; length];
            case.memory_taint = vec![0; length];
        };
        assert_eq!(number(change), expected);
    }
}

/// "At most 256 variables, 64 predicates (32 bits each), 8 surfaces of at most 1,024 bytes."
#[test]
fn table_lengths() {
    for (length, expected) in [(256, 0), (257, 13)] {
        let variable = stage().variables[0];
        assert_eq!(
            number(|case| case.variables = vec![variable; length]),
            expected
        );
    }
    for (length, expected) in [(64, 0), (65, 13)] {
        assert_eq!(
            number(|case| case.predicates = vec![Predicate::of_32(0); length]),
            expected
        );
    }
    for (surfaces, bytes, expected) in [(8, 1024, 0), (8, 1025, 13), (1, 1025, 13), (9, 0, 13)] {
        let change = |case: &mut Case| {
            case.surfaces = vec![vec![0; bytes]; surfaces];
            case.surface_taint = vec![0; bytes * surfaces];
        };
        assert_eq!(number(change), expected);
    }
}

/// A variable of the stage's 2,048-byte file, in the last place of the table.
fn variable(type_code: u8, start: u16, count: u16) -> u8 {
    number(|case| {
        case.variables.push(Variable {
            type_code,
            start,
            count,
        })
    })
}

/// "(a type not listed too)"
#[test]
fn variable_types() {
    for code in 0..=255u8 {
        let listed = [0, 1, 2, 3, 4, 5, 7, 11].contains(&code);
        assert_eq!(variable(code, 0, 1), if listed { 0 } else { 13 });
    }
}

/// "element count (at least 1)", "It lies in the file".
#[test]
fn variables_in_the_file() {
    assert_eq!(variable(4, 0, 0), 13);
    assert_eq!(variable(4, 0, 2048), 0);
    assert_eq!(variable(4, 0, 2049), 13);
    assert_eq!(variable(4, 2047, 1), 0);
    assert_eq!(variable(4, 2048, 1), 13);
    assert_eq!(variable(11, 2040, 1), 0);
    assert_eq!(variable(11, 2048, 1), 13);
    assert_eq!(variable(11, 2016, 4), 0);
    assert_eq!(variable(11, 2016, 5), 13);
    assert_eq!(variable(0, 0xffe0, 0xffff), 13);
    // With no registers no variable is good.
    let change = |case: &mut Case| {
        case.registers.clear();
        case.register_taint.clear();
        case.variables.truncate(1);
    };
    assert_eq!(number(change), 13);
}

/// "starts at a multiple of its element size"
#[test]
fn variable_alignment() {
    for (type_code, size) in [(0, 4), (1, 4), (7, 4), (2, 2), (3, 2), (11, 8)] {
        assert_eq!(variable(type_code, size, 1), 0);
        assert_eq!(variable(type_code, size + 1, 1), 13);
        assert_eq!(variable(type_code, size / 2, 1), 13);
    }
    assert_eq!(variable(4, 1, 1), 0);
}

/// "at a multiple of 32 if it is 32 bytes or longer, and otherwise crosses no 32-byte line"
#[test]
fn variables_and_lines() {
    // 32 bytes: good at 0 and 32, not at 16, where it would cross, nor ever elsewhere.
    assert_eq!(variable(4, 32, 32), 0);
    assert_eq!(variable(4, 16, 32), 13);
    assert_eq!(variable(2, 16, 16), 13);
    // 64 bytes at 16.
    assert_eq!(variable(0, 64, 16), 0);
    assert_eq!(variable(0, 16, 16), 13);
    // 31 bytes: at 0 and 1 inside one line, at 2 across.
    assert_eq!(variable(4, 0, 31), 0);
    assert_eq!(variable(4, 1, 31), 0);
    assert_eq!(variable(4, 2, 31), 13);
    // 2 bytes at 31.
    assert_eq!(variable(4, 31, 2), 13);
    assert_eq!(variable(4, 30, 2), 0);
    // 24 bytes of UQ at 8 and at 16.
    assert_eq!(variable(11, 8, 3), 0);
    assert_eq!(variable(11, 16, 3), 13);
}

/// "or marks differ in length from their buffer"
#[test]
fn taint_lengths() {
    assert_eq!(number(|case| case.register_taint.push(0)), 13);
    assert_eq!(number(|case| case.register_taint.truncate(2047)), 13);
    assert_eq!(number(|case| case.surface_taint.push(0)), 13);
    assert_eq!(number(|case| case.surface_taint.truncate(9)), 13);
    assert_eq!(number(|case| case.memory_taint.push(0)), 13);
    assert_eq!(number(|case| case.memory_taint.truncate(63)), 13);
    assert_eq!(number(|case| case.memory_taint.clear()), 13);
}

/// "13 comes first." "13 answers 0 and 0." Nothing is run, though the first instruction is good.
#[test]
fn thirteen_comes_first() {
    let mut case = stage();
    case.memory_taint.push(0);
    case.registers[start(UB)] = 1;
    let good = reference::assemble::shl(
        0,
        0,
        &reference::assemble::general(UB, 0, 0, 0x0200),
        &reference::assemble::immediate(0, 9),
        &reference::assemble::immediate(0, 1),
    );
    let before = case.registers.clone();
    assert_eq!(run_on(&mut case, &[good]), answer(13, 0, 0));
    assert_eq!(case.registers, before);
    case.kernel = vec![0xff];
    assert_eq!(reference::run::run(&mut case), answer(13, 0, 0));
}
