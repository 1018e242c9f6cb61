//! Faults of one operand: its tag, type and region while decoding, and the run's 5, 4, 20 to 25 and 7.

use super::accepted::{row_and_column, scatter_dwords, size_of, Kind};
use super::fault::*;
use super::random::Random;
use super::scene::Scene;
use crate::assemble::{immediate, immediate_uq, source_region, Draft, Part, Slot, SCALAR_REGION};

/// What stands at an operand.
#[derive(Clone, Copy, PartialEq, Eq)]
pub enum Role {
    Destination,
    Source,
    Scalar,
    Raw,
}

pub const INTEGERS: &[u8] = &[0, 1, 2, 3, 4, 5];
pub const DWORDS: &[u8] = &[0, 1, 7];
pub const ALL: &[u8] = &[0, 1, 2, 3, 4, 5, 7, 11];

/// The operands of a kind: their names, what stands there, and the types allowed there.
pub fn operands(kind: Kind) -> [(&'static str, Role, &'static [u8]); 3] {
    match kind {
        Kind::Shl => [
            ("dst", Role::Destination, INTEGERS),
            ("src0", Role::Source, INTEGERS),
            ("src1", Role::Source, INTEGERS),
        ],
        Kind::Gather => [
            ("offset", Role::Scalar, &[0]),
            ("element_offset", Role::Raw, &[0]),
            ("dst", Role::Raw, DWORDS),
        ],
        Kind::Scatter => [
            ("address", Role::Scalar, &[11]),
            ("element_offset", Role::Raw, &[11]),
            ("src", Role::Raw, DWORDS),
        ],
        Kind::Send => [
            ("desc", Role::Scalar, &[0]),
            ("src", Role::Raw, ALL),
            ("dst", Role::Raw, ALL),
        ],
    }
}

/// A variable's number that is not in the table.
fn no_variable(faults: &mut Faults, operand: usize, name: &str, needs: Option<(usize, Form)>) {
    let slot = Slot::Operand(operand, Part::Index);
    let rank = operand_rank(operand, 5);
    let touches = vec![Touch::Slot(slot)];
    let one_past = format!("{name} variable one past");
    faults.run(
        &one_past,
        5,
        rank,
        needs,
        touches.clone(),
        move |_, scene, draft| {
            draft.set(slot, &word(scene.case.variables.len() as u16));
        },
    );
    let far = format!("{name} variable far");
    faults.run(&far, 5, rank, needs, touches, move |random, _, draft| {
        draft.set(slot, &word(random.pick(&[256, 0x0fff, 0x8000, 0xffff])));
    });
}

/// A variable of a type that is not allowed there.
fn wrong_variable(
    faults: &mut Faults,
    operand: usize,
    name: &str,
    types: &'static [u8],
    needs: Option<(usize, Form)>,
) {
    let slot = Slot::Operand(operand, Part::Index);
    let rank = operand_rank(operand, 4);
    for type_code in ALL.iter().filter(|code| !types.contains(code)) {
        let name = format!("{name} variable of type {type_code}");
        let touches = vec![Touch::Slot(slot)];
        faults.run(
            &name,
            4,
            rank,
            needs,
            touches,
            move |random, scene, draft| {
                let wrong = scene.variables(|variable| variable.type_code == *type_code);
                draft.set(slot, &word(random.pick(&wrong)));
            },
        );
    }
}

pub fn raw_operand(
    faults: &mut Faults,
    kind: Kind,
    operand: usize,
    name: &str,
    types: &'static [u8],
) {
    no_variable(faults, operand, name, None);
    wrong_variable(faults, operand, name, types, None);

    let slot = Slot::Operand(operand, Part::Offset);
    let index_slot = Slot::Operand(operand, Part::Index);
    let rank = operand_rank(operand, 7);
    let unaligned = format!("{name} offset unaligned");
    let touches = vec![Touch::Slot(slot), Touch::Slot(index_slot)];
    faults.run(
        &unaligned,
        7,
        rank,
        None,
        touches.clone(),
        move |random, scene, draft| {
            let mut size = size_of(&scene.variable(word_of(draft.get(index_slot).unwrap())));
            if size == 1 {
                // Bytes are never unaligned: the long variable of dwords instead.
                let dwords = scene.variables(|v| v.type_code == 0 && v.start == 0 && v.count >= 32);
                draft.set(index_slot, &word(dwords[0]));
                size = 4;
            }
            let old = word_of(draft.get(slot).unwrap());
            let wrong = old & !(size as u16 - 1) | random.range(1, size - 1) as u16;
            draft.set(slot, &word(wrong));
        },
    );
    let past = format!("{name} one element past");
    faults.run(&past, 7, rank, None, touches, move |_, scene, draft| {
        let variable = scene.variable(word_of(draft.get(index_slot).unwrap()));
        let size = size_of(&variable);
        let end = size * u64::from(variable.count);
        let needed = bytes_needed(scene, kind, operand, draft);
        // The lowest multiple of the element size that leaves too little room.
        let offset = if needed > end {
            0
        } else {
            ((end - needed) / size + 1) * size
        };
        draft.set(slot, &word(offset as u16));
    });
    let far = format!("{name} offset far");
    let touches = vec![Touch::Slot(slot)];
    faults.run(&far, 7, rank, None, touches, move |random, _, draft| {
        draft.set(
            slot,
            &word(random.pick(&[0x1008, 0x2000, 0x8000, 0xffe0, 0xfff8])),
        );
    });
}

/// The bytes that a raw operand of a good instruction needs.
fn bytes_needed(scene: &Scene, kind: Kind, operand: usize, draft: &Draft) -> u64 {
    let byte = |slot| u64::from(draft.get(slot).map_or(0, |bytes| bytes[0]));
    let exec_size = 1u64 << (byte(Slot::Exec) & 7);
    let register = scene.register();
    let channels = (byte(Slot::Channels) as u8).count_ones();
    match (kind, operand) {
        (Kind::Scatter, 1) => 8 * exec_size,
        (Kind::Scatter, _) => 4 * scatter_dwords(register, exec_size, channels),
        (Kind::Send, 1) => register * byte(Slot::NumSrc),
        (Kind::Send, _) => register * byte(Slot::NumDst),
        _ => 4 * exec_size,
    }
}

pub fn vector_operand(
    faults: &mut Faults,
    operand: usize,
    name: &str,
    role: Role,
    types: &'static [u8],
) {
    let is_source = role != Role::Destination;
    let general = is_source.then_some((operand, Form::General));
    let at = |part| Slot::Operand(operand, part);
    let named = |what: &str| format!("{name} {what}");

    // Decoding: the tag.
    let tag = at(Part::Tag);
    faults.field(&named("tag bit 6"), 3, tag, None, or_byte(0x40));
    faults.field(&named("tag bit 7"), 3, tag, None, or_byte(0x80));
    let wrong_classes: &[u8] = if is_source {
        &[1, 2, 3, 4, 6, 7]
    } else {
        &[1, 2, 3, 4, 5, 6, 7]
    };
    for class in wrong_classes {
        faults.field(&named(&format!("class {class}")), 4, tag, None, |_, _| {
            vec![*class]
        });
    }
    faults.field(&named("modifier"), 4, tag, None, |random, old| {
        vec![old[0] | (random.range(1, 7) << 3) as u8]
    });
    // Decoding: the region word.
    let region = at(Part::Region);
    faults.field(
        &named("region bits 12-15"),
        3,
        region,
        general,
        |random, old| word(word_of(old) | 0x1000 << random.below(4)),
    );
    for (what, shift) in [("vertical", 0), ("width", 4), ("horizontal", 8)] {
        let name = named(&format!("region {what} code over 7"));
        faults.field(&name, 3, region, general, move |random, old| {
            let code = random.range(8, 15) as u16;
            word(word_of(old) & !(15 << shift) | code << shift)
        });
    }
    // Decoding: the type of an immediate.
    if is_source {
        let needs = Some((operand, Form::Immediate));
        let slot = at(Part::Type);
        faults.field(
            &named("immediate type not listed"),
            3,
            slot,
            needs,
            |random, _| {
                let listed = [0, 1, 2, 3, 4, 5, 7, 11];
                loop {
                    let near = random.pick(&[6, 8, 9, 10, 12, 15, 16, 0x20, 0x8b]);
                    let byte = if random.chance(60) {
                        near
                    } else {
                        random.byte()
                    };
                    if !listed.contains(&byte) {
                        return vec![byte];
                    }
                }
            },
        );
        for type_code in ALL.iter().filter(|code| !types.contains(code)) {
            let name = named(&format!("immediate of type {type_code}"));
            let touches = vec![
                Touch::Slot(at(Part::Tag)),
                Touch::Slot(at(Part::Type)),
                Touch::Slot(at(Part::Low)),
                Touch::Slot(at(Part::High)),
            ];
            let rank = operand_rank(operand, 4);
            faults.run(&name, 4, rank, needs, touches, move |random, _, draft| {
                let value = random.next();
                if *type_code == 11 {
                    draft.set_operand(operand, &immediate_uq(value));
                } else {
                    draft.set_operand(operand, &immediate(*type_code, value as u32));
                }
            });
        }
    }

    // The run: 5, 4, 20 to 25, 7.
    no_variable(faults, operand, name, general);
    wrong_variable(faults, operand, name, types, general);
    wrong_regions(faults, operand, name, role, general);
    outside(faults, operand, name, role, general);
}

/// 20 to 25: region words of listed codes, one field wrong.
fn wrong_regions(
    faults: &mut Faults,
    operand: usize,
    name: &str,
    role: Role,
    general: Option<(usize, Form)>,
) {
    let slot = Slot::Operand(operand, Part::Region);
    let mut set_code = |what: &str, number: u8, shift: u16, codes: &'static [u16]| {
        let name = format!("{name} region {what}");
        let rank = operand_rank(operand, number);
        let touches = vec![Touch::RegionField(operand, shift)];
        let apply = move |random: &mut Random, _: &mut Scene, draft: &mut Draft| {
            let old = word_of(draft.get(slot).unwrap());
            let code = random.pick(codes);
            draft.set(slot, &word(old & !(15 << shift) | code << shift));
        };
        faults.run(&name, number, rank, general, touches, apply);
    };
    match role {
        Role::Source => {
            set_code("width 0", 20, 4, &[1]);
            set_code("width 32", 20, 4, &[7]);
            set_code("horizontal stride 8", 21, 8, &[5]);
            set_code("horizontal stride over 4", 21, 8, &[5, 6, 7]);
            set_code("vertical stride Null", 24, 0, &[0]);
            set_code("width Null", 24, 4, &[0]);
            set_code("horizontal stride Null", 24, 8, &[0]);
            width_over_exec_size(faults, operand, name, general);
        }
        Role::Destination => {
            set_code("stride 8", 21, 8, &[5]);
            set_code("stride over 4", 21, 8, &[5, 6, 7]);
            set_code("stride 0", 23, 8, &[1]);
            set_code("stride Null", 24, 8, &[0]);
            set_code("vertical stride not Null", 24, 0, &[1, 2, 3, 4, 5, 6, 7]);
            set_code("width not Null", 24, 4, &[1, 2, 3, 4, 5, 6, 7]);
        }
        _ => {
            // Right is code 1, 2, 1.
            set_code("vertical stride not 0", 25, 0, &[0, 2, 3, 4, 5, 6, 7]);
            set_code("width not 1", 25, 4, &[0, 1, 3, 4, 5, 6, 7]);
            set_code("horizontal stride not 0", 25, 8, &[0, 2, 3, 4, 5, 6, 7]);
            any_wrong_scalar(faults, operand, name, general);
        }
    }
}

/// 22 of a source. ExecSize is 8 at most, and the other source has one element for all lanes where it is made so.
fn width_over_exec_size(
    faults: &mut Faults,
    operand: usize,
    name: &str,
    general: Option<(usize, Form)>,
) {
    let slot = Slot::Operand(operand, Part::Region);
    let other = Slot::Operand(3 - operand, Part::Region);
    let touches = vec![
        Touch::Slot(Slot::Exec),
        Touch::RegionField(operand, 4),
        Touch::Slot(other),
    ];
    let over = format!("{name} region width over ExecSize");
    let rank = operand_rank(operand, 22);
    let apply = move |random: &mut Random, _: &mut Scene, draft: &mut Draft| {
        let exec = draft.get(Slot::Exec).unwrap()[0];
        let exec_code = match exec & 7 {
            code if code <= 3 => code,
            _ => {
                if draft.get(other).is_some() {
                    draft.set(other, &word(SCALAR_REGION));
                }
                random.below(4) as u8
            }
        };
        draft.set(Slot::Exec, &[exec & 0xf8 | exec_code]);
        // Width code 2 is 1 element, so ExecSize of code e is width code e + 2, and code 6 is 16.
        let code = random.range(u64::from(exec_code) + 3, 6) as u16;
        let old = word_of(draft.get(slot).unwrap());
        draft.set(slot, &word(old & !0x00f0 | code << 4));
    };
    faults.run(&over, 22, rank, general, touches, apply);
}

/// 25 of a scalar, whatever is wrong: a region that SHL would take, or any other.
fn any_wrong_scalar(
    faults: &mut Faults,
    operand: usize,
    name: &str,
    general: Option<(usize, Form)>,
) {
    let slot = Slot::Operand(operand, Part::Region);
    let rank = operand_rank(operand, 25);
    let touches = vec![Touch::Slot(slot)];
    let any = format!("{name} region wrong");
    let apply = move |random: &mut Random, _: &mut Scene, draft: &mut Draft| {
        let region = loop {
            let codes = [(); 3].map(|_| random.below(8) as u16);
            let any = codes[0] | codes[1] << 4 | codes[2] << 8;
            let region = random.pick(&[0x0255, 0x0200, 0x0122, 0x0000, any]);
            if region != SCALAR_REGION {
                break region;
            }
        };
        draft.set(slot, &word(region));
    };
    faults.run(&any, 25, rank, general, touches, apply);
}

/// 7: elements outside the variable or over two registers.
fn outside(
    faults: &mut Faults,
    operand: usize,
    name: &str,
    role: Role,
    general: Option<(usize, Form)>,
) {
    let at = move |part| Slot::Operand(operand, part);
    let rank = operand_rank(operand, 7);
    let touch = |parts: &[Part]| {
        parts
            .iter()
            .map(|part| Touch::Slot(at(*part)))
            .collect::<Vec<_>>()
    };
    // Row 128, or row 64 of 64 bytes, starts at byte 4,096 of its variable, and no variable is longer.
    for what in ["row 255", "row behind the last one that can be"] {
        faults.run(
            &format!("{name} {what}"),
            7,
            rank,
            general,
            touch(&[Part::Row]),
            move |_, scene, draft| {
                let least = match what {
                    "row 255" => 255,
                    _ => (4096 / scene.register()) as u8,
                };
                let row = draft.get(at(Part::Row)).unwrap()[0];
                draft.set(at(Part::Row), &[row | least]);
            },
        );
    }
    faults.run(
        &format!("{name} row that is negative as a signed byte"),
        7,
        rank,
        general,
        touch(&[Part::Index, Part::Row, Part::Column]),
        move |random, scene, draft| {
            let variable = scene.variable(word_of(draft.get(at(Part::Index)).unwrap()));
            let byte = |part| u64::from(draft.get(at(part)).unwrap()[0]);
            let in_a_row = scene.register() / size_of(&variable);
            let element = byte(Part::Row) * in_a_row + byte(Part::Column);
            // The column makes up for the rows below 0, as far as it can: read so, the element is the good one.
            let back = random.range(1, (255u64.saturating_sub(element) / in_a_row).max(1));
            let column = (element + back * in_a_row).min(255);
            draft.set(at(Part::Row), &[(256 - back) as u8]);
            draft.set(at(Part::Column), &[column as u8]);
        },
    );
    let mut everything = touch(&[Part::Index, Part::Row, Part::Column, Part::Region]);
    // Where the last element lies depends on ExecSize.
    everything.push(Touch::Slot(Slot::Exec));
    let past = format!("{name} last element one past");
    let moved = everything.clone();
    faults.run(
        &past,
        7,
        rank,
        general,
        moved,
        move |random, scene, draft| {
            let variable = scene.variable(word_of(draft.get(at(Part::Index)).unwrap()));
            let region = word_of(draft.get(at(Part::Region)).unwrap());
            let exec_size = 1u64 << (draft.get(Slot::Exec).unwrap()[0] & 7);
            let stride = |shift: u16| match (region >> shift) & 15 {
                0 | 1 => 0u64,
                code => 1 << (code - 2),
            };
            let span = match role {
                Role::Destination => (exec_size - 1) * stride(8),
                Role::Source => {
                    let width = stride(4).max(1);
                    let rows = (exec_size / width).max(1);
                    (rows - 1) * stride(0) + (width - 1) * stride(8)
                }
                _ => 0,
            };
            // The highest element is the variable's count, one past its last.
            let first = u64::from(variable.count).saturating_sub(span);
            let (row, column) = row_and_column(random, scene.register(), &variable, first);
            draft.set(at(Part::Row), &[row]);
            draft.set(at(Part::Column), &[column]);
        },
    );
    let over = format!("{name} over two registers");
    match role {
        Role::Scalar | Role::Raw => {}
        Role::Source => {
            faults.run(
                &over,
                7,
                rank,
                general,
                everything,
                move |_, scene, draft| {
                    let exec_size = 1u64 << (draft.get(Slot::Exec).unwrap()[0] & 7);
                    long_variable(scene, draft, operand);
                    if exec_size >= 2 {
                        // Dwords 32 elements apart are 128 bytes apart.
                        draft.set(at(Part::Region), &word(source_region(32, 1, 0)));
                    } else {
                        draft.set(at(Part::Row), &[200]);
                    }
                },
            );
        }
        Role::Destination => {
            faults.run(
                &over,
                7,
                rank,
                general,
                everything,
                move |_, scene, draft| {
                    let exec_size = 1u64 << (draft.get(Slot::Exec).unwrap()[0] & 7);
                    long_variable(scene, draft, operand);
                    let register = scene.register();
                    if exec_size >= register / 8 {
                        // Every fourth dword, from a register's last one on: bytes 28 to 79 by four lanes, bytes 60 to 175
                        // by eight, three registers.
                        draft.set(at(Part::Region), &word(0x0400));
                        draft.set(at(Part::Column), &[register as u8 / 4 - 1]);
                    } else {
                        draft.set(at(Part::Row), &[200]);
                    }
                },
            );
        }
    }
}

/// Put the variable that is the whole work area in dwords there, at its first element.
fn long_variable(scene: &Scene, draft: &mut Draft, operand: usize) {
    let whole = (scene.work / 4) as u16;
    let dwords = scene.variables(|v| v.type_code == 0 && v.start == 0 && v.count == whole);
    draft.set(Slot::Operand(operand, Part::Index), &word(dwords[0]));
    draft.set(Slot::Operand(operand, Part::Row), &[0]);
    draft.set(Slot::Operand(operand, Part::Column), &[0]);
}
