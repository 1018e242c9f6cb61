//! Random bytes: kernels, lines and whole files that nobody meant.

use super::lines::{file_of, lines_of};
use super::near_misses::base_scene;
use super::random::Random;
use super::valid::accepted;
use super::{Generated, Mode};
use crate::case_writer::line;

pub fn random_bytes(random: &mut Random) -> Generated {
    let (name, file) = match random.below(10) {
        0 => ("any bytes", any_bytes(random)),
        1 => ("any characters of lines", any_characters(random)),
        2 | 3 => ("any frames", any_frames(random)),
        4 | 5 => ("any kernel", any_kernel(random)),
        6..=8 => ("kernel with some bits changed", changed_kernel(random)),
        _ => ("file with some characters changed", changed_file(random)),
    };
    Generated {
        mode: Mode::RandomBytes,
        name: name.to_string(),
        intended: None,
        carried: None,
        file,
    }
}

fn any_bytes(random: &mut Random) -> Vec<u8> {
    let count = random.below(120);
    random.bytes(count)
}

fn any_characters(random: &mut Random) -> Vec<u8> {
    let count = random.below(60);
    (0..count)
        .map(|_| random.pick(b"0000001123456789abcdef\n\n\nA g"))
        .collect()
}

/// Lines of known kinds with bodies of any length.
fn any_frames(random: &mut Random) -> Vec<u8> {
    let mut lines = Vec::new();
    for _ in 0..random.below(8) {
        let kind = random.range(1, 11) as u8;
        let bytes = match (kind, random.below(8)) {
            (2, 1..) | (3, 1..=3) => 5,
            (3 | 6, 1..) => 4,
            (11, 1..) => 1,
            (5, _) => random.range(7, 40),
            _ => random.pick(&[0, 1, 8, 32, 64]),
        };
        let mut body = random.bytes(bytes);
        if kind == 3 && bytes == 5 {
            // A good count more often than the rest.
            body[4] = random.pick(&[1, 8, 16, 31, 32, 33, body[4]]);
        }
        if kind == 11 && bytes == 1 {
            body[0] = random.pick(&[0x20, 0x40, 0x40, 0x30, body[0]]);
        }
        lines.push(line(kind, &[&body]));
    }
    file_of(random, &lines)
}

/// A known opcode and then anything.
fn any_kernel(random: &mut Random) -> Vec<u8> {
    let mut scene = base_scene(random);
    let mut kernel = vec![random.pick(&[0x24, 0x78, 0x4e, 0x5d])];
    if kernel[0] == 0x4e {
        kernel.push(7);
    }
    let count = random.below(60);
    // Small bytes get further than large ones.
    kernel.extend((0..count).map(|_| random.byte() >> random.below(8)));
    scene.case.kernel = kernel;
    let lines = lines_of(random, &scene.case);
    file_of(random, &lines)
}

fn changed_kernel(random: &mut Random) -> Vec<u8> {
    let mut scene = base_scene(random);
    let mut kernel = Vec::new();
    for _ in 0..random.range(1, 5) {
        kernel.extend(accepted(random, &scene).bytes());
    }
    for _ in 0..random.range(1, 3) {
        let at = random.below(kernel.len() as u64) as usize;
        match random.below(8) {
            0 => kernel[at] = random.byte(),
            1 => {
                kernel.remove(at);
            }
            2 => kernel.insert(at, random.byte()),
            _ => kernel[at] ^= 1 << random.below(8),
        }
    }
    scene.case.kernel = kernel;
    let lines = lines_of(random, &scene.case);
    file_of(random, &lines)
}

fn changed_file(random: &mut Random) -> Vec<u8> {
    let mut scene = base_scene(random);
    scene.case.kernel = accepted(random, &scene).bytes();
    let lines = lines_of(random, &scene.case);
    let mut file = file_of(random, &lines);
    for _ in 0..random.range(1, 3) {
        let at = random.below(file.len() as u64) as usize;
        match random.below(10) {
            0 => {
                file.remove(at);
            }
            1 => file.insert(at, b'\n'),
            _ => file[at] = random.pick(b"0123456789abcdef"),
        }
    }
    file
}
