//! Line programs that are wrong on purpose, each in a way of its own.

use reference::assembled::assembled;
use reference::element_type::UW;
use reference::encode::encoding;
use reference::hex::push_hex;
use reference::instruction::{Instruction, VectorOperand, GATHER, SVM};
use reference::listed::{listed, LONGEST_KERNEL};
use reference::programs::LineProgram;
use reference::read::read;

/// A listing that is wrong in a way.
pub fn listing(way: &str) -> LineProgram {
    match way {
        "null-as-0" => |line| changed(listed(line), null_as_0),
        "cut-immediate" => |line| changed(listed(line), cut_immediates),
        "room" => |line| changed(listed(line), |text| longer_than(&text, 107).unwrap_or(text)),
        "position-from-1" => |line| changed(listed(line), one_more),
        "no-nm" => |line| changed(listed(line), |text| text.replace("_NM", "")),
        "line-end" => |line| changed(listed(line), |text| text + " "),
        "upper-case" => |line| listed(&line.to_ascii_lowercase()),
        "empty-kernel" => empty_kernel_as_a_line,
        "4096" => at_most_4096,
        "no-limit" => without_a_limit,
        "cut-at-65536" => |line| listed(&line[..line.len().min(2 * LONGEST_KERNEL)]),
        "hex-later" => lists_before_it_judges,
        "silent" => |_| Vec::new(),
        "panic" => panics_where_refused,
        other => panic!("no way {other:?} of being wrong"),
    }
}

/// An assembler that is wrong in a way.
pub fn assembler(way: &str) -> LineProgram {
    match way {
        "braces-of-zeros" => takes_braces_of_zeros,
        "column-from-0" => |line| changed(assembled(line), one_less),
        "word-start" => column_of_the_word,
        "plain-p0" => |line| assembled(line.strip_prefix(b"(P0) ").unwrap_or(line)),
        "cut-immediate" => |line| read_as(line, cut_words),
        "room" => |line| {
            changed(assembled(line), |text| {
                longer_than(&text, 60).unwrap_or(text)
            })
        },
        "trailing-space" => |line| assembled(line.strip_suffix(b" ").unwrap_or(line)),
        "three-fields" => |line| first_that_is_read(line, |text| text.replacen("<n;n,", "<", 1)),
        "upper-case" => |line| first_that_is_read(line, |text| text.replace("0xA", "0xa")),
        "scale-lost" => |line| read_as(line, |it| it.scale = 0),
        "first-108" => |line| assembled(&line[..line.len().min(108)]),
        "behind-128" => |line| assembled(&line[line.len() / 128 * 128..]),
        "pieces-of-128" => |line| match line.len() > 128 {
            true => line.chunks(128).flat_map(assembled).collect(),
            false => assembled(line),
        },
        "silent" => |_| Vec::new(),
        "panic" => panics_where_refused,
        other => panic!("no way {other:?} of being wrong"),
    }
}

fn changed(lines: Vec<String>, change: impl Fn(String) -> String) -> Vec<String> {
    lines.into_iter().map(change).collect()
}

fn null_as_0(text: String) -> String {
    let mut in_region = false;
    let character = |c| {
        in_region = c == '<' || in_region && c != '>';
        match c {
            'n' if in_region => '0',
            _ => c,
        }
    };
    text.chars().map(character).collect()
}

/// A uw shows its lowest 16 bits alone.
fn cut_immediates(text: String) -> String {
    let word = |word: &str| {
        let digits = word.strip_prefix("0x").and_then(|w| w.strip_suffix(":uw"));
        match digits.map(|digits| u32::from_str_radix(digits, 16).unwrap()) {
            Some(number) => format!("{:#x}:uw", number & 0xffff),
            None => word.to_string(),
        }
    };
    text.split(' ').map(word).collect::<Vec<_>>().join(" ")
}

/// The room is one too little for what is longest.
fn longer_than(text: &str, room: usize) -> Option<String> {
    (text.len() > room).then(|| "! 15 0".to_string())
}

/// The last number of a refusal, changed.
fn refusal(text: String, change: fn(u64) -> u64) -> String {
    match text.starts_with('!') {
        true => {
            let (front, last) = text.rsplit_once(' ').unwrap();
            format!("{front} {}", change(last.parse().unwrap()))
        }
        false => text,
    }
}

fn one_more(text: String) -> String {
    refusal(text, |n| n + 1)
}

fn one_less(text: String) -> String {
    refusal(text, |n| n - 1)
}

fn empty_kernel_as_a_line(line: &[u8]) -> Vec<String> {
    match line.is_empty() {
        true => vec![String::new()],
        false => listed(line),
    }
}

/// A run's limit.
fn at_most_4096(line: &[u8]) -> Vec<String> {
    match line.len() > 2 * 4096 {
        true => vec!["! 13 0".to_string()],
        false => listed(line),
    }
}

/// A longer kernel as two, the second behind the first whole instructions of as much as is listed.
fn without_a_limit(line: &[u8]) -> Vec<String> {
    if line.len() <= 2 * LONGEST_KERNEL {
        return listed(line);
    }
    let mut lines = listed(&line[..2 * LONGEST_KERNEL]);
    lines.pop();
    let listed_bytes: usize = lines.iter().map(|line| encoding_of(line).len() / 2).sum();
    lines.extend(without_a_limit(&line[2 * listed_bytes..]));
    lines
}

fn encoding_of(line: &str) -> String {
    assembled(line.as_bytes()).concat()
}

/// What is hex at the line's start, and then 14.
fn lists_before_it_judges(line: &[u8]) -> Vec<String> {
    let is_hex = |c: &u8| matches!(c, b'0'..=b'9' | b'a'..=b'f');
    let digits = line.iter().take_while(|c| is_hex(c)).count();
    match digits < line.len() {
        true => [listed(&line[..digits / 2 * 2]), listed(line)].concat(),
        false => listed(line),
    }
}

fn panics_where_refused(line: &[u8]) -> Vec<String> {
    let answer = match read(line) {
        Ok(_) => assembled(line),
        Err(_) => listed(line),
    };
    assert!(!answer.concat().starts_with('!'), "wrong on purpose");
    answer
}

/// The encoding of what is read, changed.
fn read_as(line: &[u8], change: fn(&mut Instruction)) -> Vec<String> {
    let Ok(mut instruction) = read(line) else {
        return assembled(line);
    };
    change(&mut instruction);
    let mut hex = Vec::new();
    push_hex(&mut hex, &encoding(&instruction).unwrap());
    vec![String::from_utf8(hex).unwrap()]
}

fn cut_words(it: &mut Instruction) {
    let cut = |operand: &mut VectorOperand| {
        if operand.immediate_type == UW {
            operand.low &= 0xffff;
        }
    };
    for operand in [&mut it.src0, &mut it.src1, &mut it.scalar] {
        cut(operand);
    }
}

fn takes_braces_of_zeros(line: &[u8]) -> Vec<String> {
    for (end, opcode) in [(&b" {0,0}"[..], GATHER), (b" {0}", SVM)] {
        let front = line.strip_suffix(end);
        if let Some(front) = front.filter(|it| read(it).is_ok_and(|it| it.opcode == opcode)) {
            return assembled(front);
        }
    }
    assembled(line)
}

/// The column of the first character of the word in which the line goes wrong.
fn column_of_the_word(line: &[u8]) -> Vec<String> {
    match read(line) {
        Ok(_) => assembled(line),
        Err(column) => {
            let before = &line[..column - 1];
            let space = before.iter().rposition(|c| *c == b' ');
            vec![format!("! 16 {}", space.map_or(1, |at| at + 2))]
        }
    }
}

/// The text as it is, or changed where that is no line.
fn first_that_is_read(line: &[u8], change: fn(&str) -> String) -> Vec<String> {
    let other = std::str::from_utf8(line).map(change).unwrap_or_default();
    match read(line).is_err() && read(other.as_bytes()).is_ok() {
        true => assembled(other.as_bytes()),
        false => assembled(line),
    }
}
