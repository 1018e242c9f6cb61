//! Number 14: bad lines of every kind, put into the lines of a good case.

use super::lines::lines_of;
use super::near_misses::{base_scene, prefix};
use super::random::Random;
use super::register_sizes::OTHER_SIZES;
use super::{Generated, Mode};
use crate::refusal::Detail;

/// How many ways `bad_line` knows.
pub const BAD_LINE_WAYS: u64 = 30;

/// Names of the ways that concern the register size.
pub const SIZE_OF_NO_BYTE: &str = "register size without a byte";
pub const SIZE_OF_TWO_BYTES: &str = "register size of two bytes";
pub const SAME_SIZE_TWICE: &str = "register size twice, the same";
pub const OTHER_SIZE_TWICE: &str = "register size twice, another";
pub const WRONG_SIZE_THEN_BAD_LINE: &str = "a wrong register size, then a bad line";

pub struct BadFile {
    pub name: &'static str,
    pub file: Vec<u8>,
}

pub fn bad_lines(random: &mut Random, number: u64) -> Generated {
    let mut scene = base_scene(random);
    scene.case.kernel = prefix(random, &scene);
    let lines = lines_of(random, &scene.case);
    let bad = bad_line(random, lines, number % BAD_LINE_WAYS);
    let (mut name, mut file) = (bad.name.to_string(), Vec::new());
    if random.chance(30) {
        let count = random.range(250, 300);
        file = good_lines(random, count);
        name = format!("{name}, {count} lines further down");
    }
    file.extend(bad.file);
    Generated {
        mode: Mode::BadLines,
        name,
        intended: Some(14),
        carried: Some(Detail::None),
        file,
    }
}

/// So many short lines of the kinds that repeat: surfaces, predicates, variables, or all of them.
fn good_lines(random: &mut Random, count: u64) -> Vec<u8> {
    let kinds = random.pick(&[&[4][..], &[3], &[2], &[2, 3, 4]]);
    let mut lines = Vec::new();
    for _ in 0..count {
        let kind = random.pick(kinds);
        let bytes = match kind {
            2 => 5,
            3 => random.range(4, 5),
            _ => random.below(2),
        };
        lines.extend(frame(random, kind, bytes));
        lines.push(0x0a);
    }
    lines
}

/// A line of a kind with a body of so many bytes.
fn frame(random: &mut Random, kind: u8, bytes: u64) -> Vec<u8> {
    let body = random.bytes(bytes);
    crate::case_writer::line(kind, &[&body])
}

/// Make one line bad, in the way of a number.
pub fn bad_line(random: &mut Random, mut lines: Vec<Vec<u8>>, way: u64) -> BadFile {
    let mut end = Vec::from(b"\n");
    // The line that is changed, and the place where a new one comes.
    let changed = random.below(lines.len() as u64) as usize;
    let place = random.below(lines.len() as u64 + 1) as usize;
    let name = match way {
        0 => {
            lines.insert(place, Vec::new());
            "empty line"
        }
        1 => {
            lines.push(Vec::new());
            "empty line at the end"
        }
        2 => {
            lines = vec![Vec::new()];
            "nothing but one empty line"
        }
        3 => {
            lines[changed].pop();
            "one digit less"
        }
        4 => {
            let digit = random.pick(b"0123456789abcdef");
            lines[changed].push(digit);
            "one digit more"
        }
        5 => {
            spoil(random, &mut lines[changed], b"ABCDEF");
            "upper-case digit"
        }
        6 => {
            spoil(random, &mut lines[changed], b"gG/:@`xz-_.,#");
            "character next to the digits"
        }
        7 => {
            spoil(random, &mut lines[changed], b" \t\x0b\x0c");
            "white space for a digit"
        }
        8 => {
            lines[changed].push(b'\r');
            "carriage return at a line's end"
        }
        9 => {
            end = Vec::from(b"\r\n");
            "carriage return at every line's end"
        }
        10 => {
            let byte = random.pick(&[0x00, 0x01, 0x7f, 0x80, 0xb0, 0xe1, 0xff]);
            spoil(random, &mut lines[changed], &[byte]);
            "byte that is no character"
        }
        11 => {
            let pair = random.pick(&[b"  ", b"\r\r", b" 0", b"0 ", b"0X"]);
            let at = lines[changed].len().min(2);
            lines[changed].splice(at..at, pair.iter().copied());
            "two characters that are no digits"
        }
        12 => {
            lines.insert(place, Vec::from(random.pick(&[b"0", b"1", b"a"])));
            "a single digit"
        }
        13 => {
            let kind = random.pick(&[0x00, 0x0c, 0x0d, 0x0f, 0x10, 0x11, 0x20, 0x40, 0x81, 0xff]);
            let bytes = random.below(9);
            lines.insert(place, frame(random, kind, bytes));
            "kind not listed"
        }
        14 => {
            let kind = random.range(0x0c, 0xff) as u8;
            lines.insert(place, frame(random, kind, 4));
            "kind over 0b"
        }
        15 => {
            let kind = random.pick(&[0x01, 0x05, 0x07, 0x08, 0x09, 0x0a]);
            // Whether the case has one or not, of two more the second is bad at the latest.
            for _ in 0..2 {
                let bytes = random.pick(&[8, 32]);
                let place = random.below(lines.len() as u64 + 1) as usize;
                lines.insert(place, frame(random, kind, bytes));
            }
            "frame that may come once, again"
        }
        16 => {
            let place = random.below(lines.len() as u64 + 1) as usize;
            for _ in 0..2 {
                lines.insert(place, frame(random, 0x06, 4));
            }
            "mask again"
        }
        17 => {
            let again = lines
                .iter()
                .find(|line| !matches!(line.get(..2), Some(b"02" | b"03" | b"04")))
                .cloned()
                .unwrap_or_default();
            lines.push(again);
            "the same line again"
        }
        18 => {
            let bytes = random.pick(&[0, 1, 4, 6, 9, 10]);
            lines.insert(place, frame(random, 0x02, bytes));
            "variable not of 5 bytes"
        }
        19 => {
            let bytes = random.pick(&[0, 1, 2, 3, 6, 6, 7, 8]);
            lines.insert(place, frame(random, 0x03, bytes));
            "predicate not of 4 or 5 bytes"
        }
        20 => {
            lines.retain(|line| !line.starts_with(b"06"));
            let bytes = random.pick(&[0, 1, 3, 5, 8]);
            lines.insert(place.min(lines.len()), frame(random, 0x06, bytes));
            "mask not of 4 bytes"
        }
        21 => {
            lines.retain(|line| !line.starts_with(b"05"));
            let bytes = random.edge(7);
            lines.insert(place.min(lines.len()), frame(random, 0x05, bytes));
            "base of fewer than 8 bytes"
        }
        22 => {
            let kind = random.pick(&[0x01, 0x04, 0x07, 0x09]);
            let mut line = frame(random, kind, 8192);
            let more = random.pick(&[1, 2, 2, 3, 400]);
            line.extend(vec![b'0'; more]);
            lines.insert(place, line);
            "line over 16,386 characters"
        }
        23 => {
            let place = without_size(random, &mut lines);
            lines.insert(place, Vec::from(b"0b"));
            SIZE_OF_NO_BYTE
        }
        24 => {
            let place = without_size(random, &mut lines);
            let two = random.pick(&[b"0b2000", b"0b4000", b"0b4040", b"0b0040", b"0b2040"]);
            lines.insert(place, Vec::from(two));
            SIZE_OF_TWO_BYTES
        }
        25 => {
            let place = without_size(random, &mut lines);
            let bytes = random.pick(&[3, 4, 8, 32, 64]);
            lines.insert(place, frame(random, 0x0b, bytes));
            "register size of more bytes"
        }
        26 => {
            size_twice(random, &mut lines, |random| {
                let size = random.pick(&[0x20, 0x40]);
                [size, size]
            });
            SAME_SIZE_TWICE
        }
        27 => {
            size_twice(random, &mut lines, |random| {
                random.pick(&[[0x20, 0x40], [0x40, 0x20], [0x30, 0x40], [0x40, 0x30]])
            });
            OTHER_SIZE_TWICE
        }
        28 => {
            // The wrong size alone would be 13; the bad line stands behind it.
            let place = without_size(random, &mut lines);
            let size = random.pick(&OTHER_SIZES);
            lines.insert(place, crate::case_writer::line(0x0b, &[&[size]]));
            let behind = random.range(place as u64 + 1, lines.len() as u64) as usize;
            let bad = random.pick(&["zz", "0", "", "0b", "0c01", "0b40", "0300", "0B40"]);
            lines.insert(behind, Vec::from(bad));
            WRONG_SIZE_THEN_BAD_LINE
        }
        _ => {
            let mut line = Vec::from(random.pick(&[b"02", b"03", b"06", b"ff", b"0b"]));
            line.extend(vec![b'0'; 17000]);
            lines.insert(place, line);
            "line over 16,386 characters of another kind"
        }
    };
    let mut file = Vec::new();
    for line in &lines {
        file.extend(line);
        file.extend(&end);
    }
    BadFile { name, file }
}

/// Take the register size's line away and choose a place for another.
fn without_size(random: &mut Random, lines: &mut Vec<Vec<u8>>) -> usize {
    lines.retain(|line| !line.starts_with(b"0b"));
    random.edge(lines.len() as u64) as usize
}

/// Two lines of the register size, the second one anywhere behind the first.
fn size_twice(
    random: &mut Random,
    lines: &mut Vec<Vec<u8>>,
    sizes: impl Fn(&mut Random) -> [u8; 2],
) {
    let first = without_size(random, lines);
    let [one, other] = sizes(random).map(|size| crate::case_writer::line(0x0b, &[&[size]]));
    lines.insert(first, one);
    let second = random.range(first as u64 + 1, lines.len() as u64) as usize;
    lines.insert(second, other);
}

/// Put one of some characters in the place of a digit.
fn spoil(random: &mut Random, line: &mut Vec<u8>, characters: &[u8]) {
    let wrong = random.pick(characters);
    if line.is_empty() {
        line.push(wrong);
    } else {
        let at = random.below(line.len() as u64) as usize;
        line[at] = wrong;
    }
}
