//! Region words at the limits of each rule and beyond them: one field wrong, several in one operand, and in two operands.
//!
//! The number is stated field by field, and of several the lowest stands: 20 to 24 are "tested in that order within an
//! operand".

use super::accepted::{exec, Kind};
use super::fault::{word, Form};
use super::limits::{one, with};
use super::near_misses::{base_instruction, base_scene, give_form, KINDS};
use super::random::Random;
use super::scene::{variable, Scene};
use crate::assemble::*;
use crate::refusal::Detail;

/// The three fields of a region word: vertical, width, horizontal.
const SHIFTS: [u16; 3] = [0, 4, 8];
const DESTINATION: usize = 0;

/// A scene with its kernel, what is special about it, its number and what that carries.
pub type Meant = (Scene, String, u8, Detail);

/// For each operand of SHL every code of every field, and for each scalar every code.
pub const WAYS: usize = SHL_WAYS + 3 * 8;
const SHL_WAYS: usize = 3 * 3 * 8;

/// One field of a region at one code, right or wrong; all ExecSizes and a scalar's fields come in turn with the rounds.
pub fn one_field(random: &mut Random, way: usize, round: u64) -> Meant {
    let code = (way % 8) as u16;
    if way < SHL_WAYS {
        let (operand, field) = (way / 24, way / 8 % 3);
        of_shl(random, operand, field, code, (round % 6) as u16)
    } else {
        let kind = KINDS[1 + (way - SHL_WAYS) / 8];
        of_scalar(random, kind, (round % 3) as usize, code)
    }
}

/// The number of a source's field, if its code is wrong there. Width code `c` is 2^(c-2) elements.
fn source_field(field: usize, code: u16, exec_code: u16) -> Option<u8> {
    match (field, code) {
        (_, 0) => Some(24),
        (1, 1 | 7) => Some(20),
        (1, _) if code > exec_code + 2 => Some(22),
        (2, 5..=7) => Some(21),
        _ => None,
    }
}

fn destination_field(field: usize, code: u16) -> Option<u8> {
    match (field, code) {
        (2, 0) => Some(24),
        (2, 1) => Some(23),
        (2, 5..=7) => Some(21),
        (2, _) | (_, 0) => None,
        _ => Some(24),
    }
}

fn of_field(operand: usize, field: usize, code: u16, exec_code: u16) -> Option<u8> {
    match operand {
        DESTINATION => destination_field(field, code),
        _ => source_field(field, code, exec_code),
    }
}

/// The number of a whole word at an operand of SHL.
fn of_word(operand: usize, region: u16, exec_code: u16) -> Option<u8> {
    let numbers = (0..3)
        .map(|field| of_field(operand, field, (region >> SHIFTS[field]) & 15, exec_code))
        .collect::<Vec<_>>();
    numbers.into_iter().flatten().min()
}

/// A region that is right at an operand and stays in 64 bytes.
fn right(random: &mut Random, operand: usize, exec_code: u16) -> u16 {
    if operand == DESTINATION {
        // 31·2 is 62, and 15·4 is 60.
        let widest = if exec_code == 5 { 2 } else { 4 };
        return destination_region(random.pick(&[1, 2, widest]));
    }
    let width = 1 << random.below(u64::from(exec_code.min(4)) + 1);
    source_region(0, width, random.pick(&[0, 1, 2, 4]))
}

/// One field of a right region, changed.
fn changed(region: u16, field: usize, code: u16) -> u16 {
    let shift = SHIFTS[field];
    region & !(15 << shift) | code << shift
}

fn of_shl(
    random: &mut Random,
    operand: usize,
    field: usize,
    code: u16,
    mut exec_code: u16,
) -> Meant {
    if operand == DESTINATION && code == 4 {
        // Of 32 bytes every fourth one: four registers.
        exec_code = exec_code.min(4);
    }
    let mut region = right(random, operand, exec_code);
    if operand != DESTINATION && field == 0 {
        // At most two rows, the second one at most 32 elements behind.
        let width = (1 << exec_code).min(16);
        region = source_region(0, width, random.pick(&[0, 1, 2]));
    }
    let region = changed(region, field, code);
    let number = of_word(operand, region, exec_code);
    let field = ["vertical", "width", "horizontal"][field];
    let name = format!("Shl: operand {}, {field} code {code}", operand + 1);
    let mut words = [None; 3];
    words[operand] = Some(region);
    shl_with(
        random,
        name,
        exec_code,
        words,
        number.map(|it| (it, operand)),
    )
}

/// A SHL with some region words given, all else good.
fn shl_with(
    random: &mut Random,
    name: String,
    exec_code: u16,
    words: [Option<u16>; 3],
    meant: Option<(u8, usize)>,
) -> Meant {
    let mut scene = base_scene(random);
    let type_code = random.pick(&[4, 5]);
    scene.case.variables.push(variable(type_code, 0, 64));
    let bytes = scene.case.variables.len() as u16 - 1;
    let mut operands = Vec::new();
    for (operand, given) in words.into_iter().enumerate() {
        operands.push(match given {
            None if operand != DESTINATION && random.chance(40) => one(),
            None if operand != DESTINATION && random.chance(40) => {
                scene.general_source(random, 1 << exec_code)
            }
            None => general(bytes, 0, 0, right(random, operand, exec_code)),
            // "each operand in order 5, 4 (type), 6, 7": where it lies comes later.
            Some(region) if of_word(operand, region, exec_code).is_some() => {
                let row = random.pick(&[0, 0, 1, 200]);
                general(bytes, row, random.edge(63) as u8, region)
            }
            Some(region) => general(bytes, 0, 0, region),
        });
    }
    let exec = exec(random, exec_code as u8);
    let pred = scene.pred(random, exec);
    let draft = shl(exec, pred, &operands[0], &operands[1], &operands[2]);
    let scene = with(random, scene, &draft);
    match meant {
        Some((number, operand)) => (scene, name, number, Detail::Operand(operand + 1)),
        None => (scene, name, 0, Detail::None),
    }
}

/// A scalar's region, right (code 1, 2, 1) or wrong: "judged by 25 alone".
fn of_scalar(random: &mut Random, kind: Kind, field: usize, code: u16) -> Meant {
    let scene = base_scene(random);
    let mut draft = base_instruction(random, &scene, kind);
    let general = Some((0, Form::General));
    give_form(random, &scene, &mut draft, kind, general);
    let region = changed(SCALAR_REGION, field, code);
    draft.set(Slot::Operand(0, Part::Region), &word(region));
    let scene = with(random, scene, &draft);
    let name = format!("{kind:?}: scalar region {region:04x}");
    match region {
        SCALAR_REGION if kind == Kind::Send => (scene, name, 9, Detail::None),
        SCALAR_REGION => (scene, name, 0, Detail::None),
        _ => (scene, name, 25, Detail::Operand(1)),
    }
}

/// Any code of a field that is wrong by a number, if there is one.
fn code_of(
    random: &mut Random,
    operand: usize,
    field: usize,
    exec_code: u16,
    number: u8,
) -> Option<u16> {
    let wrong = |code: &u16| of_field(operand, field, *code, exec_code) == Some(number);
    let codes: Vec<u16> = (0..8).filter(wrong).collect();
    (!codes.is_empty()).then(|| random.pick(&codes))
}

/// Fields and the numbers by which they are wrong: every pair within a source and within a destination.
type Wrong = &'static [(usize, u8)];
const SOURCE_PAIRS: [Wrong; 13] = [
    &[(1, 20), (2, 21)],
    &[(1, 20), (0, 24)],
    &[(1, 20), (2, 24)],
    &[(1, 22), (2, 21)],
    &[(1, 22), (0, 24)],
    &[(1, 22), (2, 24)],
    &[(2, 21), (0, 24)],
    &[(2, 21), (1, 24)],
    &[(0, 24), (1, 24)],
    &[(0, 24), (2, 24)],
    &[(1, 24), (2, 24)],
    // All three.
    &[(1, 22), (2, 21), (0, 24)],
    // Again: of the pairs in the order of the fields only these stand the other way round.
    &[(1, 22), (2, 21)],
];
const DESTINATION_PAIRS: [Wrong; 8] = [
    &[(2, 21), (0, 24)],
    &[(2, 21), (1, 24)],
    &[(2, 23), (0, 24)],
    &[(2, 23), (1, 24)],
    &[(2, 24), (0, 24)],
    &[(2, 24), (1, 24)],
    &[(0, 24), (1, 24)],
    &[(2, 21), (0, 24), (1, 24)],
];
const SOURCE_FAULTS: [Wrong; 6] = [
    &[(1, 20)],
    &[(2, 21)],
    &[(1, 22)],
    &[(0, 24)],
    &[(1, 24)],
    &[(2, 24)],
];
const DESTINATION_FAULTS: [Wrong; 5] = [&[(2, 21)], &[(2, 23)], &[(2, 24)], &[(0, 24)], &[(1, 24)]];

/// A word that is wrong in one field or in several. No width is over an ExecSize of 16 and not 32.
fn wrong_word(random: &mut Random, operand: usize, exec_code: u16, pair: bool) -> u16 {
    loop {
        let wrong = match (operand, pair) {
            (DESTINATION, true) => random.pick(&DESTINATION_PAIRS),
            (DESTINATION, false) => random.pick(&DESTINATION_FAULTS),
            (_, true) => random.pick(&SOURCE_PAIRS),
            (_, false) => random.pick(&SOURCE_FAULTS),
        };
        let mut region = Some(right(random, operand, exec_code));
        for (field, number) in wrong {
            let code = code_of(random, operand, *field, exec_code, *number);
            region = region.zip(code).map(|(it, code)| changed(it, *field, code));
        }
        if let Some(region) = region {
            return region;
        }
    }
}

/// Several wrong fields of one operand, or wrong fields in two operands or all: the first operand's number stands.
pub fn several(random: &mut Random) -> Meant {
    let exec_code = random.pick(&[0, 1, 2, 3, 3, 4, 5]);
    let mut words = [None; 3];
    if random.chance(65) {
        let operand = random.pick(&[DESTINATION, 1, 1, 2, 2]);
        words[operand] = Some(wrong_word(random, operand, exec_code, true));
    } else {
        let good = random.below(4) as usize;
        for operand in (0..3).filter(|operand| *operand != good) {
            let pair = random.chance(30);
            words[operand] = Some(wrong_word(random, operand, exec_code, pair));
        }
    }
    let wrong = |operand: usize| {
        let number = of_word(operand, words[operand]?, exec_code)?;
        Some((number, operand))
    };
    let meant = (0..3).find_map(wrong);
    let shown = words.map(|it| it.map_or("good".to_string(), |it| format!("{it:04x}")));
    let name = format!("Shl: regions {}, size code {exec_code}", shown.join(" "));
    shl_with(random, name, exec_code, words, meant)
}
