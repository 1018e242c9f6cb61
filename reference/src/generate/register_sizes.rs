//! The edges of request 5, each with registers of 32 bytes and of 64: placing, the file's length, two registers, rows,
//! RAW_SEND's lengths, a scatter's data, and sizes that are none.

use super::accepted::{size_of, Kind};
use super::limits::{byte_destination, one, with};
use super::near_misses::{base_instruction, base_scene, base_scene_of, prefix};
use super::random::Random;
use super::region_words::Meant;
use super::scene::{taint, variable, Scene};
use crate::assemble::*;
use crate::refusal::Detail;
use crate::register_size::RegisterSize;

/// Bytes that are no register size: next to 32 and 64, between them, and others.
pub const OTHER_SIZES: [u8; 10] = [0x00, 0x1f, 0x21, 0x30, 0x3f, 0x41, 0x48, 0x60, 0x80, 0xff];

/// Names of cases that the report counts.
pub const WRONG_SIZE: &str = "register size is";
pub const WRONG_SIZE_AND_13: &str = "a wrong register size and another 13";

/// An edge: its name, its numbers with registers of 32 bytes and of 64, and the scene with its kernel.
struct Edge {
    name: &'static str,
    numbers: [u8; 2],
    make: fn(&mut Random, Scene) -> Scene,
}

const fn edge(name: &'static str, numbers: [u8; 2], make: fn(&mut Random, Scene) -> Scene) -> Edge {
    Edge {
        name,
        numbers,
        make,
    }
}

const EDGES: [Edge; 38] = [
    edge("a long variable at a register's start", [0, 0], |r, s| {
        let (start, bytes) = (register(&s), long(r, &s));
        placed(r, s, start, bytes)
    }),
    edge(
        "a long variable off a register's start",
        [13, 13],
        |r, s| {
            let register = register(&s);
            let start = r.pick(&[
                8,
                register / 2,
                register - 8,
                register + 8,
                register * 3 / 2,
            ]);
            let bytes = long(r, &s);
            placed(r, s, start, bytes)
        },
    ),
    edge("a short variable up to a register's end", [0, 0], |r, s| {
        let bytes = short(r, &s);
        let start = 2 * register(&s) - bytes;
        placed(r, s, start, bytes)
    }),
    edge(
        "a short variable over a register's end",
        [13, 13],
        |r, s| {
            let bytes = short(r, &s);
            let start = 2 * register(&s) - bytes + 8;
            placed(r, s, start, bytes)
        },
    ),
    edge("two bytes over a register's end", [13, 13], |_, mut s| {
        let last = register(&s) - 1;
        s.case.variables.push(variable(4, last, 2));
        s
    }),
    edge("64 bytes at byte 32", [0, 13], |r, s| placed(r, s, 32, 64)),
    edge("64 bytes at byte 64", [0, 0], |r, s| placed(r, s, 64, 64)),
    edge("32 bytes at byte 16", [13, 0], |r, s| placed(r, s, 16, 32)),
    edge("32 bytes at byte 32", [0, 0], |r, s| placed(r, s, 32, 32)),
    edge("two bytes over byte 32", [13, 0], |_, mut s| {
        s.case.variables.push(variable(5, 31, 2));
        s
    }),
    edge("a file of one register more", [0, 0], |r, s| {
        let more = usize::from(register(&s));
        longer(r, s, more)
    }),
    edge("a file of half a register more", [13, 13], |r, s| {
        let more = usize::from(register(&s)) / 2;
        longer(r, s, more)
    }),
    edge("a file of an odd multiple of 32", [0, 13], |r, s| {
        let more = match s.case.registers.len() % 64 {
            0 => 32,
            _ => 0,
        };
        longer(r, s, more)
    }),
    edge("a file of 4,096 bytes", [0, 0], |r, s| {
        let more = 4096 - s.case.registers.len();
        longer(r, s, more)
    }),
    edge("a file of 4,160 bytes", [13, 13], |r, s| {
        let more = 4160 - s.case.registers.len();
        longer(r, s, more)
    }),
    edge("a file of 8,192 bytes", [13, 13], |r, s| {
        let more = 8192 - s.case.registers.len();
        longer(r, s, more)
    }),
    edge(
        "a source up to the second register's end",
        [0, 0],
        |r, s| every_fourth_byte(r, s, 3, false),
    ),
    edge("a source into the third register", [7, 7], |r, s| {
        every_fourth_byte(r, s, 4, false)
    }),
    edge(
        "a destination up to the second register's end",
        [0, 0],
        |r, s| every_fourth_byte(r, s, 3, true),
    ),
    edge("a destination into the third register", [7, 7], |r, s| {
        every_fourth_byte(r, s, 4, true)
    }),
    edge(
        "a source from the second register's start",
        [0, 0],
        |r, s| every_second_word(r, s, 0),
    ),
    edge(
        "a source from the first register's last word",
        [7, 7],
        |r, s| every_second_word(r, s, 1),
    ),
    edge("words <32;8,2>, last byte 93", [7, 0], |r, mut s| {
        let words = add(&mut s, 2, 64);
        let dst = byte_destination(&mut s);
        let src = general(words, 0, 0, source_region(32, 8, 2));
        let draft = shl(0x84, 0, &dst, &src, &one());
        with(r, s, &draft)
    }),
    edge(
        "a row whose last element is the variable's",
        [0, 0],
        |r, s| in_a_row(r, s, 0),
    ),
    edge("a row whose last element is one past", [7, 7], |r, s| {
        in_a_row(r, s, 1)
    }),
    edge("a destination's row, last element", [0, 0], |r, s| {
        into_a_row(r, s, 0)
    }),
    edge("a destination's row, one past", [7, 7], |r, s| {
        into_a_row(r, s, 1)
    }),
    edge(
        "a gather's offset in a row, last element",
        [0, 0],
        |r, s| scalar_in_a_row(r, s, Kind::Gather, 0),
    ),
    edge("a gather's offset in a row, one past", [7, 7], |r, s| {
        scalar_in_a_row(r, s, Kind::Gather, 1)
    }),
    edge(
        "a scatter's address in a row, last element",
        [0, 0],
        |r, s| scalar_in_a_row(r, s, Kind::Scatter, 0),
    ),
    edge("a scatter's address in a row, one past", [7, 7], |r, s| {
        scalar_in_a_row(r, s, Kind::Scatter, 1)
    }),
    edge("RAW_SEND's registers just there", [9, 9], |r, s| {
        sent(r, s, 0)
    }),
    edge("RAW_SEND's registers one element short", [7, 7], |r, s| {
        sent(r, s, 1)
    }),
    edge("eight lanes' data just there", [0, 0], |r, s| {
        scattered(r, s, 8, Data::Enough)
    }),
    edge("eight lanes' data one dword short", [7, 7], |r, s| {
        scattered(r, s, 8, Data::OneShort)
    }),
    edge(
        "eight lanes' data as 32-byte registers ask",
        [0, 7],
        |r, s| scattered(r, s, 8, Data::Of32),
    ),
    edge("sixteen lanes' data just there", [0, 0], |r, s| {
        scattered(r, s, 16, Data::Enough)
    }),
    edge("sixteen lanes' data one dword short", [7, 7], |r, s| {
        scattered(r, s, 16, Data::OneShort)
    }),
];

/// Each edge with each size, and each size that is none, 48 more often.
pub const WAYS: usize = 2 * EDGES.len() + OTHER_SIZES.len() + 3;

pub fn one_edge(random: &mut Random, way: usize) -> Meant {
    let sizes = [RegisterSize::OF_32, RegisterSize::OF_64];
    let (size, edge) = (way % 2, EDGES.get(way / 2));
    let Some(edge) = edge else {
        let wrong = OTHER_SIZES.get(way - 2 * EDGES.len());
        let wrong = *wrong.unwrap_or(&0x30);
        let scene = wrong_size(random, wrong);
        return (scene, format!("{WRONG_SIZE} {wrong:02x}"), 13, Detail::None);
    };
    let mut scene = base_scene_of(random, sizes[size]);
    scene.case.kernel = prefix(random, &scene);
    let scene = (edge.make)(random, scene);
    let name = edge_name(sizes[size], edge.name);
    (scene, name, edge.numbers[size], Detail::None)
}

/// A size that is none. In half of the cases all else would be good with it: there are no registers, or whole ones of that
/// size, as variables and operands ask it.
fn wrong_size(random: &mut Random, wrong: u8) -> Scene {
    let mut scene = base_scene(random);
    scene.case.kernel = prefix(random, &scene);
    scene.case.register_size = RegisterSize(wrong);
    if random.chance(50) {
        return scene;
    }
    scene.case.variables.clear();
    scene.case.kernel.clear();
    let register = u16::from(wrong);
    let whole = match wrong {
        0x30 | 0x48 | 0x60 | 0x80 => random.range(0, 4) as usize,
        _ => 0,
    };
    scene.case.registers = vec![0x7b; usize::from(wrong) * whole];
    scene.case.register_taint = vec![0; scene.case.registers.len()];
    if whole > 1 {
        // The second register, in dwords.
        let index = scene.case.variables.len() as u16;
        scene
            .case
            .variables
            .push(variable(0, register, register / 4));
        let dst = general(index, 0, 1, destination_region(1));
        scene.case.kernel = shl(0x82, 0, &dst, &one(), &one()).bytes();
    }
    scene
}

/// The names of the edges.
pub fn edge_names() -> impl Iterator<Item = &'static str> {
    EDGES.iter().map(|edge| edge.name)
}

/// The name of an edge's case.
pub fn edge_name(size: RegisterSize, edge: &str) -> String {
    format!("registers of {}: {edge}", size.bytes())
}

fn register(scene: &Scene) -> u16 {
    scene.register() as u16
}

/// A register's bytes or more, in whole UQ.
fn long(random: &mut Random, scene: &Scene) -> u16 {
    register(scene) + 8 * random.edge(4) as u16
}

/// Less than a register's bytes and more than 8, in whole UQ.
fn short(random: &mut Random, scene: &Scene) -> u16 {
    let bytes = register(scene);
    bytes - 8 * random.range(1, u64::from(bytes) / 8 - 2) as u16
}

/// A further variable of any type. The kernel does not name it.
fn placed(random: &mut Random, mut scene: Scene, start: u16, bytes: u16) -> Scene {
    let (type_code, size) = random.pick(&[(0, 4), (2, 2), (4, 1), (7, 4), (11, 8)]);
    let it = variable(type_code, start, bytes / size);
    scene.case.variables.push(it);
    scene
}

/// A register file of so many bytes more.
fn longer(random: &mut Random, mut scene: Scene, more: usize) -> Scene {
    let length = scene.case.registers.len() + more;
    scene.case.registers.resize(length, 0x3c);
    scene.case.register_taint = taint(random, length);
    scene.case.register_taint[scene.work as usize..].fill(0);
    scene
}

/// A further variable from byte 0 on, and its number.
fn add(scene: &mut Scene, type_code: u8, count: u16) -> u16 {
    scene.case.variables.push(variable(type_code, 0, count));
    scene.case.variables.len() as u16 - 1
}

/// The exec byte of so many lanes, NM.
fn exec_of(lanes: u16) -> u8 {
    0x80 | lanes.ilog2() as u8
}

/// Every fourth byte, as many as reach from column 3 to the second register's last byte.
fn every_fourth_byte(random: &mut Random, mut scene: Scene, column: u8, written: bool) -> Scene {
    let register = register(&scene);
    let bytes = add(&mut scene, random.pick(&[4, 5]), 4 * register);
    let exec = exec_of(register / 2);
    let draft = if written {
        let dst = general(bytes, 0, column, destination_region(4));
        shl(exec, 0, &dst, &one(), &one())
    } else {
        let src = general(bytes, 0, column, source_region(32, 8, 4));
        let dst = byte_destination(&mut scene);
        let sources = random.pick(&[[0, 1], [1, 0]]).map(|it| match it {
            0 => src.clone(),
            _ => one(),
        });
        shl(exec, 0, &dst, &sources[0], &sources[1])
    };
    with(random, scene, &draft)
}

/// Every second word from the second register's start on, or from so many words before, up to the third register.
fn every_second_word(random: &mut Random, mut scene: Scene, before: u8) -> Scene {
    let register = register(&scene);
    let words = add(&mut scene, random.pick(&[2, 3]), 2 * register);
    let exec = exec_of(register / 2);
    let dst = byte_destination(&mut scene);
    let column = register as u8 / 2 - before;
    let src = general(words, 0, column, source_region(16, 8, 2));
    let draft = shl(exec, 0, &dst, &src, &one());
    with(random, scene, &draft)
}

/// A variable that ends with a row's lanes, or lacks some of them; its number, the row, the column and the lanes.
fn row_of(random: &mut Random, scene: &mut Scene, lacking: u16) -> (u16, u8, u8, u16) {
    let type_code = random.pick(&[0, 1, 2, 3, 4, 5]);
    let in_a_row = register(scene) / size_of(&variable(type_code, 0, 1)) as u16;
    let lanes = 1 << random.range(0, u64::from(in_a_row.min(32).ilog2()));
    let row = random.range(1, 3) as u16;
    let column = random.edge(u64::from(in_a_row - lanes)) as u16;
    let count = row * in_a_row + column + lanes - lacking;
    let index = add(scene, type_code, count);
    (index, row as u8, column as u8, lanes)
}

fn in_a_row(random: &mut Random, mut scene: Scene, lacking: u16) -> Scene {
    let (index, row, column, lanes) = row_of(random, &mut scene, lacking);
    let dst = byte_destination(&mut scene);
    let width = lanes.min(16);
    let src = general(index, row, column, source_region(width, width, 1));
    let draft = shl(exec_of(lanes), 0, &dst, &src, &one());
    with(random, scene, &draft)
}

fn into_a_row(random: &mut Random, mut scene: Scene, lacking: u16) -> Scene {
    let (index, row, column, lanes) = row_of(random, &mut scene, lacking);
    let dst = general(index, row, column, destination_region(1));
    let draft = shl(exec_of(lanes), 0, &dst, &one(), &one());
    with(random, scene, &draft)
}

/// A scalar that is the last element of its variable, or the one behind, in a row over 0. The instruction comes first.
fn scalar_in_a_row(random: &mut Random, mut scene: Scene, kind: Kind, lacking: u16) -> Scene {
    let (type_code, size) = match kind {
        Kind::Scatter => (11, 8),
        _ => (0, 4),
    };
    let in_a_row = register(&scene) / size;
    let row = random.range(1, 3) as u16;
    let column = random.edge(u64::from(in_a_row - 1)) as u16;
    let element = row * in_a_row + column;
    let index = add(&mut scene, type_code, element + 1 - lacking);
    let mut draft = base_instruction(random, &scene, kind);
    let scalar = general(index, row as u8, column as u8, SCALAR_REGION);
    draft.set_operand(0, &scalar);
    if kind == Kind::Scatter {
        let at = usize::from(element * size);
        let address = scene.guarded.unwrap().address.to_le_bytes();
        scene.case.registers[at..at + 8].copy_from_slice(&address);
        scene.case.register_taint[at..at + 8].fill(0);
    }
    scene.case.kernel = draft.bytes();
    scene
}

/// A RAW_SEND of whole registers from and to a variable that has just these, or one of them lacking an element.
fn sent(random: &mut Random, mut scene: Scene, lacking: u16) -> Scene {
    let all = [
        (0, 4),
        (1, 4),
        (2, 2),
        (3, 2),
        (4, 1),
        (5, 1),
        (7, 4),
        (11, 8),
    ];
    let short = random.below(2);
    let operands = [0, 1].map(|operand| {
        let (type_code, size) = random.pick(&all);
        let count = random.range(1, 4) as u16;
        let elements = count * register(&scene) / size;
        let lacking = if operand == short { lacking } else { 0 };
        (count as u8, add(&mut scene, type_code, elements - lacking))
    });
    let [(num_src, src), (num_dst, dst)] = operands;
    let exec = random.pick(&[0x00, 0x83, 0x85]);
    let draft = raw_send(
        exec,
        0,
        num_src,
        num_dst,
        &one(),
        &raw(src, 0),
        &raw(dst, 0),
    );
    with(random, scene, &draft)
}

#[derive(Clone, Copy, PartialEq, Eq)]
enum Data {
    Enough,
    OneShort,
    /// As much as 32-byte registers need.
    Of32,
}

/// A scatter of two channels or more with its data in a variable of their own.
fn scattered(random: &mut Random, first: Scene, exec_size: u16, data: Data) -> Scene {
    let mut scene = first;
    let (channels, dwords) = loop {
        let top = scene.guarded.unwrap().top_channel;
        let channels = random.range(1, (2 << top) - 1) as u8;
        let further = u16::from(channels.count_ones() as u8) - 1;
        // Eight lanes: 8 dwords apart, or 16 of 64 bytes; sixteen lanes: 16.
        let apart = match (exec_size, data, scene.register()) {
            (8, Data::Of32, _) | (8, _, 32) => 8,
            _ => 16,
        };
        let dwords = further * apart + exec_size;
        if further > 0 && u64::from(dwords) <= scene.work / 4 {
            break (channels, dwords);
        }
        scene = base_scene_of(random, scene.case.register_size);
        scene.case.kernel = prefix(random, &scene);
    };
    let lacking = u16::from(data == Data::OneShort);
    let src = add(&mut scene, random.pick(&[0, 1, 7]), dwords - lacking);
    let mut draft = base_instruction(random, &scene, Kind::Scatter);
    draft.set(Slot::Exec, &[exec_of(exec_size)]);
    draft.set(Slot::Channels, &[channels]);
    draft.set_operand(1, &raw(scene.guarded.unwrap().offsets, 0));
    draft.set_operand(2, &raw(src, 0));
    with(random, scene, &draft)
}
