//! Kernels in hex, a line each: whole ones, ones that decoding refuses, and lines that are no hex.

use super::instructions::{bytes, faulty, good, longest};
use super::random::Random;
use crate::hex::push_hex;
use crate::listed::LONGEST_KERNEL;

/// What is special about a line, and the line.
pub fn kernel_line(random: &mut Random) -> (&'static str, Vec<u8>) {
    let (name, kernel) = match random.below(100) {
        0 => ("an empty kernel", Vec::new()),
        1..=49 => {
            let count = random.range(1, 6);
            ("good instructions", instructions(random, count))
        }
        50..=54 => ("a longest line", bytes(&longest(random))),
        55..=69 => ("a refused field", refused_field(random)),
        70..=76 => ("a cut kernel", cut(random)),
        77..=84 => ("some bits changed", changed(random)),
        85..=87 => ("any bytes", any_bytes(random)),
        88 if random.chance(90) => return ("a long kernel", long(random)),
        88 => return ("about the longest kernel", about_the_longest(random)),
        _ => return ("no hex", no_hex(random)),
    };
    (name, hex(&kernel))
}

fn hex(kernel: &[u8]) -> Vec<u8> {
    let mut line = Vec::new();
    push_hex(&mut line, kernel);
    line
}

fn instructions(random: &mut Random, count: u64) -> Vec<u8> {
    (0..count).flat_map(|_| bytes(&good(random))).collect()
}

/// Good instructions, one with a refused field, and perhaps a good one behind it.
fn refused_field(random: &mut Random) -> Vec<u8> {
    let before = random.below(3);
    let mut kernel = instructions(random, before);
    kernel.extend(bytes(&faulty(random)));
    let behind = random.below(2);
    kernel.extend(instructions(random, behind));
    kernel
}

fn cut(random: &mut Random) -> Vec<u8> {
    let count = random.range(1, 3);
    let mut kernel = instructions(random, count);
    let length = random.below(kernel.len() as u64);
    kernel.truncate(length as usize);
    kernel
}

fn changed(random: &mut Random) -> Vec<u8> {
    let count = random.range(1, 3);
    let mut kernel = instructions(random, count);
    for _ in 0..random.range(1, 3) {
        let at = random.below(kernel.len() as u64) as usize;
        kernel[at] ^= 1 << random.below(8);
    }
    kernel
}

/// A known opcode, and then bytes that are often small.
fn any_bytes(random: &mut Random) -> Vec<u8> {
    let mut kernel = vec![random.pick(&[0x24, 0x78, 0x4e, 0x5d, 0x00])];
    let count = random.below(60);
    kernel.extend((0..count).map(|_| random.byte() >> random.below(8)));
    kernel
}

/// About as many bytes as a run may have, 4,096, or three times as many: a listing has not a run's limit.
fn long(random: &mut Random) -> Vec<u8> {
    let length = random.pick(&[4_095, 4_096, 4_096, 4_097, 8_193, 12_288]);
    let mut line = hex(&of_length(random, length));
    if random.chance(10) {
        spoil_the_end(random, &mut line);
    }
    line
}

/// As many bytes as a listing takes, some less or more, or a line that is bad for its last character.
fn about_the_longest(random: &mut Random) -> Vec<u8> {
    let longest = LONGEST_KERNEL;
    let length = random.pick(&[longest - 1, longest, longest, longest + 1, 2 * longest]);
    let mut line = hex(&of_length(random, length));
    if random.chance(20) {
        spoil_the_end(random, &mut line);
    }
    line
}

/// Good instructions, the last of them cut.
fn of_length(random: &mut Random, length: usize) -> Vec<u8> {
    let mut kernel = Vec::new();
    while kernel.len() < length {
        kernel.extend(bytes(&good(random)));
    }
    kernel.truncate(length);
    kernel
}

/// Another last character, one more, or one less.
fn spoil_the_end(random: &mut Random, line: &mut Vec<u8>) {
    match random.below(3) {
        0 => line.push(b'0'),
        1 => line.extend(b" "),
        _ => {
            line.pop();
            line.extend(b"G");
        }
    }
}

/// Odd length, upper case, and other characters.
fn no_hex(random: &mut Random) -> Vec<u8> {
    let count = random.range(1, 2);
    let mut line = hex(&instructions(random, count));
    let at = random.below(line.len() as u64) as usize;
    match random.below(6) {
        0 => {
            line.pop();
        }
        1 => line.insert(at, b'0'),
        2 => line[at] = random.pick(b"ABCDEF"),
        3 => line[at] = random.pick(b"gxz GZ.:/@`\r\t\0\x80\xff"),
        4 => line.extend(random.pick(&[b"  ", b"\r\r", b"0a"]).iter().chain(b" ")),
        _ => line.splice(0..0, *b"0x").for_each(drop),
    }
    line
}
