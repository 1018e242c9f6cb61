//! Texts for the reader: printed lines whole, cut, extended, and changed in a character, a number or a region; and texts
//! that are longer than any line.

use super::instructions::{good, longest};
use super::random::Random;
use crate::print::print;

/// The characters that occur in printed lines.
pub const OF_LINES: &[u8] = b" !(),.0123456789:;<>ABCDEGHLMNPRSTV_abcdefilnqrsuvwxy{}";

/// Some that do not; no text has a 0x0a, which ends a line.
pub const OTHERS: &[u8] =
    b"\"#$%&'*+-/=?@FIJKOQUWXYZ[\\]^`ghjkmoptz|~\t\r\0\x7f\x80\xa0\xc3\xe9\xff";

/// What is special about a text, and the text.
pub fn text(random: &mut Random) -> (&'static str, Vec<u8>) {
    let mut text = line(random);
    let name = match random.below(100) {
        0..=12 => "a printed line",
        13..=14 => {
            text = long(random, &text);
            "a long text"
        }
        15..=27 => {
            cut(random, &mut text);
            "a line cut"
        }
        28..=33 => {
            extend(random, &mut text);
            "a line extended"
        }
        34..=39 => {
            slip(random, &mut text);
            "a likely slip"
        }
        40..=49 => {
            insert(random, &mut text);
            "a character inserted"
        }
        50..=57 => {
            delete(random, &mut text);
            "a character deleted"
        }
        58..=67 => {
            replace(random, &mut text);
            "a character replaced"
        }
        68..=73 => {
            swap(random, &mut text);
            "two characters swapped"
        }
        74..=85 => {
            other_number(random, &mut text);
            "another number"
        }
        86..=91 => {
            other_region(random, &mut text);
            "another region"
        }
        92..=94 => {
            two_changes(random, &mut text);
            "two changes"
        }
        95..=97 => {
            splice(random, &mut text);
            "the starts and ends of two lines"
        }
        98 => {
            text = any_characters(random);
            "any characters"
        }
        _ => {
            text.clear();
            "an empty text"
        }
    };
    (name, text)
}

/// The printed line of some instruction.
fn line(random: &mut Random) -> Vec<u8> {
    let instruction = match random.chance(5) {
        true => longest(random),
        false => good(random),
    };
    let line = print(&instruction).expect("the encoder takes it");
    line.into_bytes()
}

/// One of the text's own characters, one of lines, or another.
fn character(random: &mut Random, text: &[u8]) -> u8 {
    match random.below(10) {
        0..=3 if !text.is_empty() => random.pick(text),
        0..=8 => random.pick(OF_LINES),
        _ => random.pick(OTHERS),
    }
}

fn place(random: &mut Random, text: &[u8]) -> usize {
    random.below(text.len() as u64) as usize
}

fn cut(random: &mut Random, text: &mut Vec<u8>) {
    let length = place(random, text);
    text.truncate(length);
}

fn extend(random: &mut Random, text: &mut Vec<u8>) {
    let ends: [&[u8]; 9] = [
        b" ", b"\r", b" {0,0}", b" {0}", b" {1,0}", b" {7}", b" {", b"0", b" v1.0",
    ];
    match random.below(4) {
        0 => {
            let other = line(random);
            text.extend(other);
        }
        1 => text.push(character(random, text)),
        _ => text.extend(random.pick(&ends)),
    }
}

fn insert(random: &mut Random, text: &mut Vec<u8>) {
    let at = place(random, text);
    let character = character(random, text);
    text.insert(at, character);
}

fn delete(random: &mut Random, text: &mut Vec<u8>) {
    let at = place(random, text);
    text.remove(at);
}

fn replace(random: &mut Random, text: &mut [u8]) {
    let at = place(random, text);
    text[at] = character(random, text);
}

fn swap(random: &mut Random, text: &mut [u8]) {
    let at = place(random, text).min(text.len() - 2);
    text.swap(at, at + 1);
}

/// A run of decimal digits, or of hex digits behind `0x`, replaced by a number at some field's limit, or spelled
/// otherwise.
fn other_number(random: &mut Random, text: &mut Vec<u8>) {
    let numbers: [&[u8]; 30] = [
        b"0", b"1", b"2", b"3", b"4", b"7", b"8", b"9", b"10", b"15", b"16", b"17", b"32", b"64",
        b"99", b"100", b"255", b"256", b"999", b"4095", b"4096", b"9999", b"10000", b"65535",
        b"65536", b"00", b"01", b"n", b"-1", b"",
    ];
    let hex_numbers: [&[u8]; 14] = [
        b"0",
        b"1",
        b"a",
        b"A",
        b"00",
        b"0a",
        b"ffff",
        b"10000",
        b"ffffffff",
        b"100000000",
        b"123456789",
        b"ffffffffffffffff",
        b"10000000000000000",
        b"",
    ];
    let behind_0x = |at: usize| text[..at].ends_with(b"0x");
    let digits = runs(text, |character| character.is_ascii_hexdigit());
    let is_number = |run: &Run| text[run.start].is_ascii_digit() || behind_0x(run.start);
    let all: Vec<Run> = digits.into_iter().filter(is_number).collect();
    // Every line has numbers: those of its mask, say.
    let run = all[random.below(all.len() as u64) as usize].clone();
    let number = match behind_0x(run.start) {
        true => random.pick(&hex_numbers),
        false => random.pick(&numbers),
    };
    text.splice(run, number.iter().copied());
}

/// A part of a text, from its start to its end.
type Run = std::ops::Range<usize>;

/// The parts of a text, each as long as it can be, whose characters are all of a kind.
fn runs(text: &[u8], of_kind: impl Fn(u8) -> bool) -> Vec<Run> {
    let mut runs = Vec::new();
    let mut start = 0;
    while start < text.len() {
        let length = text[start..].iter().take_while(|c| of_kind(**c)).count();
        if length > 0 {
            runs.push(start..start + length);
        }
        start += length + 1;
    }
    runs
}

/// A region of either form in the place of one, or at the end of a line that has none.
fn other_region(random: &mut Random, text: &mut Vec<u8>) {
    let fields = ["n", "n", "0", "1", "2", "4", "8", "16", "32", "3"];
    let mut field = || random.pick(&fields);
    let region = match field() {
        "0" | "1" | "2" => format!("<{}>", field()),
        "4" => format!("<n;n,{}>", field()),
        _ => format!("<{};{},{}>", field(), field(), field()),
    };
    let starts: Vec<usize> = (0..text.len()).filter(|at| text[*at] == b'<').collect();
    if starts.is_empty() {
        text.extend(region.bytes());
        return;
    }
    let from = random.pick(&starts);
    let length = text[from..].iter().position(|c| *c == b'>').unwrap() + 1;
    text.splice(from..from + length, region.bytes());
}

/// What a reader may take though no line is so, or refuse one character too late.
fn slip(random: &mut Random, text: &mut Vec<u8>) {
    match random.below(5) {
        0 => plain_predicate_0(text),
        1 => braces_of_zeros(text),
        2 => three_fields_for_one(random, text),
        3 => type_of_32_bits(random, text),
        _ => other_size(random, text),
    }
}

/// `(P0)`, though a word of 0 means no predicate.
fn plain_predicate_0(text: &mut Vec<u8>) {
    if text[0] == b'(' {
        let end = position_of(text, b") ").unwrap() + 2;
        text.drain(..end);
    }
    text.splice(0..0, *b"(P0) ");
}

/// `{0,0}` or `{0}`, though braces stand only where one field is not zero.
fn braces_of_zeros(text: &mut Vec<u8>) {
    if let Some(at) = position_of(text, b" {") {
        text.truncate(at);
    }
    match position_of(text, b"SVM") {
        Some(_) => text.extend(b" {0}"),
        None => text.extend(b" {0,0}"),
    }
}

/// `<n;n,1>` for a destination's `<1>`.
fn three_fields_for_one(random: &mut Random, text: &mut Vec<u8>) {
    let at = position_of(text, b"<").map(|at| at + 1);
    match at {
        Some(at) if !text[at..].starts_with(b"n") => {
            text.splice(at..at, *b"n;n,");
        }
        _ => other_region(random, text),
    }
}

/// A number of up to 64 bits with a type of 32 bits.
fn type_of_32_bits(random: &mut Random, text: &mut Vec<u8>) {
    match position_of(text, b":uq") {
        Some(at) => {
            let name = random.pick(&[&b"ud"[..], b"d", b"uw", b"f"]);
            text.splice(at + 1..at + 3, name.iter().copied());
        }
        None => other_number(random, text),
    }
}

/// A size that is none, or none of a scatter's.
fn other_size(random: &mut Random, text: &mut Vec<u8>) {
    let mask = position_of(text, b"(M").unwrap();
    let from = mask + position_of(&text[mask..], b",").unwrap() + 1;
    let to = from + position_of(&text[from..], b")").unwrap();
    let size = random.pick(&[&b"1"[..], b"2", b"3", b"4", b"32", b"64", b"0", b"08", b""]);
    text.splice(from..to, size.iter().copied());
}

fn position_of(text: &[u8], word: &[u8]) -> Option<usize> {
    text.windows(word.len()).position(|part| part == word)
}

fn two_changes(random: &mut Random, text: &mut Vec<u8>) {
    for _ in 0..2 {
        match random.below(4) {
            0 => insert(random, text),
            1 => delete(random, text),
            2 => replace(random, text),
            _ => swap(random, text),
        }
    }
}

fn splice(random: &mut Random, text: &mut Vec<u8>) {
    cut(random, text);
    let other = line(random);
    let from = place(random, &other);
    text.extend(&other[from..]);
}

fn any_characters(random: &mut Random) -> Vec<u8> {
    let count = random.below(40);
    (0..count).map(|_| character(random, b"(SGrv")).collect()
}

/// Longer than any line, about the sizes that a program may read at once.
fn long(random: &mut Random, line: &[u8]) -> Vec<u8> {
    let sizes = [
        109, 127, 128, 128, 129, 255, 256, 257, 512, 1_024, 4_095, 4_096, 4_097, 8_192,
    ];
    let size = random.pick(&sizes);
    let much = much(random, line, size);
    // With these the line has the size.
    let rest = &much[line.len().min(size)..];
    match random.below(7) {
        0 => [line, &much].concat(),
        1 => [line, rest].concat(),
        2..=3 => [&much, line].concat(),
        4 => [rest, line].concat(),
        5 => grown(random, line, size),
        _ => much,
    }
}

/// So many characters, all the same or not.
fn much(random: &mut Random, line: &[u8], size: usize) -> Vec<u8> {
    match random.below(4) {
        0 => vec![b' '; size],
        1 => vec![0; size],
        2 => vec![character(random, line); size],
        _ => (0..size).map(|_| character(random, line)).collect(),
    }
}

/// So many digits more in one of a line's numbers.
fn grown(random: &mut Random, line: &[u8], size: usize) -> Vec<u8> {
    let is_digit = |at: &usize| line[*at].is_ascii_digit();
    let digits: Vec<usize> = (0..line.len()).filter(is_digit).collect();
    let at = random.pick(&digits);
    let digit = random.pick(&[line[at], b'0', b'1']);
    [&line[..at], &vec![digit; size], &line[at..]].concat()
}
