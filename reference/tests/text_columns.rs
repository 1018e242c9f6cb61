//! The column of 16 against its definition: 1 + the length of the longest start of the text with which some printed line
//! starts.
//!
//! First from the printer alone: all lines that differ in one field are printed, and a text that leaves them there has
//! its column where it leaves the set of their starts. Then against a pattern of lines that shares nothing with the
//! reader: the start before the column is carried on to a line that the printer prints, and the pattern has none that
//! goes on with the column's character.

mod grammar;

use reference::element_type;
use reference::generate::instructions::{good, longest};
use reference::generate::line_cases::{line_case, LineKind};
use reference::generate::random::Random;
use reference::generate::texts::{OF_LINES, OTHERS};
use reference::instruction::Instruction;
use reference::print::print;
use reference::read::read;
use std::collections::HashSet;

/// The instruction of a line.
fn of(line: &str) -> Instruction {
    read(line.as_bytes()).unwrap()
}

/// The lines of an instruction with one field changed to each of some values, those that the printer takes.
fn family(line: &str, values: u64, set: fn(&mut Instruction, u64)) -> Vec<Vec<u8>> {
    let mut lines = Vec::new();
    for value in 0..values {
        let mut instruction = of(line);
        set(&mut instruction, value);
        lines.extend(print(&instruction).map(String::into_bytes));
    }
    lines
}

fn same<'a>(a: impl Iterator<Item = &'a u8>, b: impl Iterator<Item = &'a u8>) -> usize {
    a.zip(b).take_while(|(a, b)| a == b).count()
}

/// The lines of a family are alike before the changed field and behind it. Each start of one that ends in the field, or
/// with it, goes on with a character exactly if the two together are a start of one. All starts are tried that end within
/// three characters of the field, and of the longer ones those of one line in `every` and of the first and last lines.
fn leaves_the_family_at_its_column(lines: &[Vec<u8>], every: usize) {
    let first = &lines[0];
    let before = lines
        .iter()
        .map(|line| same(first.iter(), line.iter()))
        .min()
        .unwrap();
    let rest = |line: &Vec<u8>| same(first[before..].iter().rev(), line[before..].iter().rev());
    let behind = lines.iter().map(rest).min().unwrap();
    let mut starts = HashSet::new();
    for line in lines {
        for length in before..=(line.len() - behind + 1).min(line.len()) {
            starts.insert(&line[..length]);
        }
    }
    assert!(lines.len() > 1 && starts.len() > lines.len());
    let mut tried = HashSet::new();
    for (k, line) in lines.iter().enumerate() {
        let whole = k % every == 0 || k < 50 || k + 50 > lines.len();
        let end = line.len() - behind;
        let end = if whole { end } else { end.min(before + 3) };
        for length in before..=end {
            if tried.insert(&line[..length]) {
                goes_on_as_the_family(&starts, &line[..length]);
            }
        }
    }
}

fn goes_on_as_the_family(starts: &HashSet<&[u8]>, start: &[u8]) {
    let mut text = start.to_vec();
    // Text that stops short: "the one after its end".
    assert!(read(&text).is_ok() || read(&text) == Err(start.len() + 1));
    for character in OF_LINES.iter().chain(OTHERS).chain(b"\n") {
        text.push(*character);
        let goes_on = match read(&text) {
            Ok(_) => true,
            Err(column) => {
                assert!(column == text.len() || column == text.len() + 1);
                column == text.len() + 1
            }
        };
        let expected = starts.contains(&text[..]);
        assert_eq!(goes_on, expected, "{:?}", String::from_utf8_lossy(&text));
        text.pop();
    }
}

const SHL: &str = "SHL (M1,8) v1(0,0)<1> v0(0,0)<8;8,1> 0x1:uw";
const GATHER: &str = "GATHER_SCALED.4 (M1,8) T0 0x0:ud v1.0 v2.0";
const SCATTER: &str = "SVM_SCATTER4_SCALED.R (M1,8) 0x0:uq v1.0 v2.0";
const SEND: &str = "raw_send (M1,8) 0x1a 1 0 0x0:ud v1.0 v2.0";

/// A word of 0 is no predicate, and shows nothing.
#[test]
fn predicates() {
    let lines = family(SHL, 65535, |it, n| it.pred = n as u16 + 1);
    assert_eq!(lines.len(), 6 * 4096 - 1);
    leaves_the_family_at_its_column(&lines, 50);
}

#[test]
fn exec_bytes() {
    for line in [SHL, GATHER, SCATTER, SEND] {
        leaves_the_family_at_its_column(&family(line, 256, |it, n| it.exec = n as u8), 1);
    }
}

#[test]
fn regions() {
    let lines = family(SHL, 65536, |it, n| it.dst.region = n as u16);
    assert_eq!(lines.len(), 512);
    leaves_the_family_at_its_column(&lines, 1);
    let lines = family(SHL, 65536, |it, n| it.src0.region = n as u16);
    assert_eq!(lines.len(), 512);
    leaves_the_family_at_its_column(&lines, 1);
    let line = "raw_send (M1,8) 0x1a 1 0 v0(0,0)<0;1,0> v1.0 v2.0";
    let lines = family(line, 65536, |it, n| it.scalar.region = n as u16);
    leaves_the_family_at_its_column(&lines, 1);
}

#[test]
fn fields_of_one_byte() {
    let families: [(&str, fn(&mut Instruction, u64)); 10] = [
        (SHL, |it, n| it.dst.row = n as u8),
        (SHL, |it, n| it.dst.column = n as u8),
        (SHL, |it, n| it.src0.row = n as u8),
        (GATHER, |it, n| it.num_blocks = n as u8),
        (GATHER, |it, n| it.surface = n as u8),
        (SCATTER, |it, n| it.channels = n as u8),
        (SEND, |it, n| it.modifiers = n as u8),
        (SEND, |it, n| it.num_src = n as u8),
        (SEND, |it, n| it.num_dst = n as u8),
        (GATHER, |it, n| (it.block_size, it.scale) = (n as u8, 7)),
    ];
    for (line, set) in families {
        leaves_the_family_at_its_column(&family(line, 256, set), 1);
    }
}

#[test]
fn fields_of_two_bytes() {
    let families: [(&str, fn(&mut Instruction, u64)); 6] = [
        (SHL, |it, n| it.dst.index = n as u16),
        (GATHER, |it, n| it.element_offset.index = n as u16),
        (GATHER, |it, n| it.element_offset.offset = n as u16),
        (SCATTER, |it, n| it.scale = n as u16),
        (GATHER, |it, n| (it.block_size, it.scale) = (1, n as u16)),
        // {0,0} shows nothing.
        (GATHER, |it, n| it.scale = n.max(1) as u16),
    ];
    for (line, set) in families {
        leaves_the_family_at_its_column(&family(line, 65536, set), 997);
    }
}

/// Which types a number may have depends on how large it is; `f` is a digit too.
#[test]
fn types_of_immediates() {
    fn types(it: &mut Instruction, n: u64) {
        it.src1.immediate_type = n as u8;
    }
    for number in ["0x0", "0x1", "0xf", "0xffffffff"] {
        let line = format!("SHL (M1,8) v1(0,0)<1> v0(0,0)<8;8,1> {number}:uw");
        let lines = family(&line, 256, types);
        assert_eq!(lines.len(), element_type::ALL.len());
        leaves_the_family_at_its_column(&lines, 1);
    }
}

/// Texts cut, extended and changed.
#[test]
fn the_column_of_any_text() {
    let line = grammar::line();
    let mut refused = 0;
    for index in 0..10000 {
        let text = line_case(LineKind::Texts, 3, index).line;
        refused += u64::from(is_right_for(&line, &text).is_err());
    }
    assert!((6000..8500).contains(&refused), "{refused}");
}

/// One character of some lines inserted, deleted and replaced, at each place, and the lines cut there.
#[test]
fn the_column_at_each_place() {
    let line = grammar::line();
    let mut random = Random::new(5, 0);
    for k in 0..24 {
        let instruction = match k {
            0 => longest(&mut random),
            _ => good(&mut random),
        };
        let text = print(&instruction).unwrap().into_bytes();
        assert!(is_right_for(&line, &text).is_ok());
        for at in 0..text.len() {
            let _ = is_right_for(&line, &text[..at]);
            let mut shorter = text.clone();
            shorter.remove(at);
            let _ = is_right_for(&line, &shorter);
            for _ in 0..8 {
                let character = random.pick(&[OF_LINES, OTHERS].concat());
                let mut longer = text.clone();
                longer.insert(at, character);
                let _ = is_right_for(&line, &longer);
                let mut other = text.clone();
                other[at] = character;
                let _ = is_right_for(&line, &other);
            }
        }
    }
}

/// What is read, held against the pattern and the printer.
fn is_right_for(line: &std::rc::Rc<grammar::Pattern>, text: &[u8]) -> Result<Instruction, usize> {
    let shown = String::from_utf8_lossy(text);
    let (left, length) = grammar::longest_start(line, text);
    let answer = read(text);
    match answer {
        Ok(instruction) => {
            assert!(length == text.len() && grammar::may_end(&left), "{shown}");
            assert_eq!(print(&instruction).unwrap().as_bytes(), text);
        }
        Err(column) => {
            // The first `column` characters begin no line of the pattern.
            assert_eq!(column, length + 1, "{shown}");
            assert!(length < text.len() || !grammar::may_end(&left), "{shown}");
            // The characters before the column begin a line of the printer.
            let whole = [&text[..length], &grammar::some_text(&left)].concat();
            let instruction = read(&whole).unwrap();
            assert_eq!(print(&instruction).unwrap().as_bytes(), whole, "{shown}");
        }
    }
    answer
}

/// The pattern has every printed line.
#[test]
fn printed_lines_fit_the_pattern() {
    let line = grammar::line();
    let mut random = Random::new(6, 0);
    for _ in 0..10000 {
        let text = print(&good(&mut random)).unwrap();
        let (left, length) = grammar::longest_start(&line, text.as_bytes());
        assert!(length == text.len() && grammar::may_end(&left), "{text}");
    }
}
