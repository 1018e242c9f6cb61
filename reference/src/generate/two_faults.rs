//! Two faults at once: the number of the earlier test is the one that stands.

use super::accepted::Kind;
use super::bad_lines::{bad_line, BAD_LINE_WAYS};
use super::fault::{
    field_rank, Fault, Touch, RANK_10, RANK_17, RANK_8, RANK_OPERANDS, RANK_PREDICATE,
};
use super::first_pairs::several_lanes;
use super::lines::{file_of, lines_of};
use super::near_misses::{base_instruction, base_scene, give_form, prefix, suffix, Ways, KINDS};
use super::random::Random;
use super::region_words::several;
use super::register_sizes::{OTHER_SIZES, WRONG_SIZE_AND_13};
use super::scene::Scene;
use super::slip_one::unaligned_and_tainted;
use super::{Generated, Mode};
use crate::assemble::{Draft, Slot};
use crate::refusal::Detail;
use crate::register_size::RegisterSize;

/// How near two faults of one instruction stand in the order of tests.
#[derive(Clone, Copy)]
enum Nearness {
    Anywhere,
    BothDecoding,
    BothInTheRun,
    /// Tests of the same operand in the run.
    SameOperand,
    /// Among 10, 11 and 12.
    Addresses,
}

impl Nearness {
    fn any(random: &mut Random, kind: Kind) -> Nearness {
        match random.below(8) {
            0 => Nearness::BothDecoding,
            1 | 2 => Nearness::BothInTheRun,
            3 | 4 => Nearness::SameOperand,
            5 | 6 if kind == Kind::Scatter => Nearness::Addresses,
            _ => Nearness::Anywhere,
        }
    }

    fn holds(self, a: &Fault, b: &Fault) -> bool {
        let lowest = a.rank.min(b.rank);
        match self {
            Nearness::Anywhere => true,
            Nearness::BothDecoding => a.rank.max(b.rank) < RANK_8,
            Nearness::BothInTheRun => lowest >= RANK_8,
            Nearness::SameOperand => lowest >= RANK_OPERANDS && a.rank / 10 == b.rank / 10,
            Nearness::Addresses => lowest >= RANK_10,
        }
    }
}

impl Ways {
    /// The case of a running number: every third one goes through the faults of fields in turn, with the
    /// kernel's end at the faulty field.
    pub fn two_faults(&self, random: &mut Random, number: u64) -> Generated {
        if number % 3 == 0 {
            return self.cut_at_the_fault(random, number / 3);
        }
        match random.below(46) {
            0..=11 => self.in_one_instruction(random),
            12 | 13 => self.with_a_cut(random),
            14 | 15 => self.in_two_instructions(random),
            16 => self.with_the_tables(random),
            17..=19 => self.line_and_tables(random),
            20 => two_lines(random),
            21..=26 => {
                let (scene, name, number) = unaligned_and_tainted(random);
                let detail = (number == 10).then_some(Detail::None);
                two(random, &scene, name, number, detail)
            }
            27..=32 => {
                let (scene, name, number, detail) = several(random);
                two(random, &scene, name, number, Some(detail))
            }
            33..=37 => self.short_predicate_and_another(random),
            38..=40 => self.wrong_size_and_tables(random),
            _ => {
                let (scene, name, number, detail) = several_lanes(random);
                two(random, &scene, name, number, Some(detail))
            }
        }
    }

    fn any_fault(&self, random: &mut Random, kind: usize) -> &Fault {
        let faults = &self.faults[kind];
        &faults[random.below(faults.len() as u64) as usize]
    }

    /// Two faults of one instruction that do not change the same.
    fn in_one_instruction(&self, random: &mut Random) -> Generated {
        let kind = random.below(4) as usize;
        let near = Nearness::any(random, KINDS[kind]);
        let (a, b) = loop {
            let a = self.any_fault(random, kind);
            let b = self.any_fault(random, kind);
            if !near.holds(a, b) {
                continue;
            }
            let forms_differ = match (a.needs, b.needs) {
                (Some((m, f)), Some((n, g))) => m == n && f != g,
                _ => false,
            };
            let meets = |touch: &Touch| b.touches.iter().any(|other| touch.meets(*other));
            let same = a.touches.iter().any(meets);
            if a.name != b.name && !same && !forms_differ {
                break (a, b);
            }
        };
        both(random, KINDS[kind], a, b)
    }

    /// A predicate that is too short, and another fault of the same instruction, mostly one that is tested near it.
    fn short_predicate_and_another(&self, random: &mut Random) -> Generated {
        // A gather more often than the rest: its surface's 5 is the next test.
        let kind = random.pick(&[0, 1, 1, 2, 3]);
        let is_near = random.chance(75);
        let first_operand = RANK_OPERANDS..RANK_OPERANDS + 10;
        let (short, other) = loop {
            let short = self.any_fault(random, kind);
            let other = self.any_fault(random, kind);
            let near = (RANK_8..RANK_OPERANDS).contains(&other.rank)
                || first_operand.contains(&other.rank) && random.chance(5);
            let names_it = other.touches.contains(&Touch::Slot(Slot::Pred));
            if short.rank == RANK_17 && !names_it && (near || !is_near) {
                break (short, other);
            }
        };
        both(random, KINDS[kind], short, other)
    }

    /// A faulty field, and the kernel's end inside it or right after it.
    fn cut_at_the_fault(&self, random: &mut Random, number: u64) -> Generated {
        let mut of_fields = Vec::new();
        for (kind, faults) in self.faults.iter().enumerate() {
            for fault in faults.iter().filter(|fault| fault.rank < RANK_8) {
                of_fields.push((kind, fault));
            }
        }
        let (kind, fault) = of_fields[number as usize % of_fields.len()];
        self.cut(random, kind, fault, |random, draft| {
            let of_fault = |(slot, _): &(Slot, Vec<u8>)| field_rank(*slot) == fault.rank;
            let faulty = draft.fields.iter().position(of_fault).unwrap();
            let after = (faulty + 1).min(draft.fields.len() - 1);
            if random.chance(30) {
                faulty
            } else {
                after
            }
        })
    }

    /// A fault, and the kernel's end inside the same instruction.
    fn with_a_cut(&self, random: &mut Random) -> Generated {
        let kind = random.below(4) as usize;
        let fault = self.any_fault(random, kind);
        self.cut(random, kind, fault, |random, draft| {
            random.range(1, draft.fields.len() as u64 - 1) as usize
        })
    }

    /// Make a fault, then keep the fields before a chosen one and a part of that one.
    fn cut(
        &self,
        random: &mut Random,
        kind: usize,
        fault: &Fault,
        choose: impl Fn(&mut Random, &Draft) -> usize,
    ) -> Generated {
        let mut scene = base_scene(random);
        let mut kernel = prefix(random, &scene);
        let mut draft = base_instruction(random, &scene, KINDS[kind]);
        apply(random, &mut scene, &mut draft, KINDS[kind], &[fault]);
        let field = choose(random, &draft);
        let (slot, cut_field) = &draft.fields[field];
        for (_, whole) in &draft.fields[..field] {
            kernel.extend(whole);
        }
        let part = random.below(cut_field.len() as u64) as usize;
        kernel.extend(&cut_field[..part]);
        scene.case.kernel = kernel;
        // With the opcode cut away there is no instruction left, and nothing is wrong.
        let number = match field {
            0 => 0,
            _ if fault.rank < field_rank(*slot) => fault.number,
            _ => 1,
        };
        let name = format!("{:?}: {} and cut in field {field}", KINDS[kind], fault.name);
        two(random, &scene, name, number, Some(Detail::None))
    }

    /// Two refused instructions: the first one ends the run.
    fn in_two_instructions(&self, random: &mut Random) -> Generated {
        let mut scene = base_scene(random);
        let mut kernel = prefix(random, &scene);
        let first_kind = random.below(4) as usize;
        let first = self.any_fault(random, first_kind);
        let mut draft = base_instruction(random, &scene, KINDS[first_kind]);
        apply(random, &mut scene, &mut draft, KINDS[first_kind], &[first]);
        kernel.extend(draft.bytes());
        let second_kind = random.below(2) as usize;
        // A further predicate would be the one that the first instruction lacks.
        let second = loop {
            let second = self.any_fault(random, second_kind);
            if first.rank != RANK_PREDICATE || second.rank != RANK_17 {
                break second;
            }
        };
        let mut draft = base_instruction(random, &scene, KINDS[second_kind]);
        apply(
            random,
            &mut scene,
            &mut draft,
            KINDS[second_kind],
            &[second],
        );
        kernel.extend(draft.bytes());
        scene.case.kernel = kernel;
        let name = format!("{} before {}", first.name, second.name);
        two(random, &scene, name, first.number, first.detail())
    }

    /// A fault of the tables stands before every fault of an instruction.
    fn with_the_tables(&self, random: &mut Random) -> Generated {
        let mut scene = base_scene(random);
        let kind = random.below(4) as usize;
        let fault = self.any_fault(random, kind);
        let mut draft = base_instruction(random, &scene, KINDS[kind]);
        apply(random, &mut scene, &mut draft, KINDS[kind], &[fault]);
        scene.case.kernel = draft.bytes();
        let table_name = self.break_tables(random, &mut scene);
        let name = format!("{table_name} and {}", fault.name);
        two(random, &scene, name, 13, Some(Detail::None))
    }

    /// A register size that is none, and another 13.
    fn wrong_size_and_tables(&self, random: &mut Random) -> Generated {
        let mut scene = base_scene(random);
        scene.case.kernel = prefix(random, &scene);
        let table_name = self.break_tables(random, &mut scene);
        let size = random.pick(&OTHER_SIZES);
        scene.case.register_size = RegisterSize(size);
        let name = format!("{WRONG_SIZE_AND_13}: {size:02x} and {table_name}");
        two(random, &scene, name, 13, Some(Detail::None))
    }

    fn break_tables(&self, random: &mut Random, scene: &mut Scene) -> &'static str {
        loop {
            let table = &self.tables[random.below(self.tables.len() as u64) as usize];
            if table.number == 13 {
                (table.apply)(random, &mut scene.case);
                return table.name;
            }
        }
    }

    /// "before any 13"
    fn line_and_tables(&self, random: &mut Random) -> Generated {
        let mut scene = base_scene(random);
        let table_name = self.break_tables(random, &mut scene);
        let mut lines = lines_of(random, &scene.case);
        let (line_name, file) = if random.chance(50) {
            // After everything that breaks the tables.
            let last = random.pick(&[
                "0b",
                "",
                "0",
                "0 ",
                "0A",
                "0300",
                "03ff00000008ff",
                "0b4040",
                "zz",
            ]);
            lines.push(Vec::from(last));
            // An empty last line needs its 0x0a.
            let mut file = lines.join(&0x0a);
            file.push(0x0a);
            ("a bad last line", file)
        } else {
            let way = random.below(BAD_LINE_WAYS);
            let bad = bad_line(random, lines, way);
            (bad.name, bad.file)
        };
        Generated {
            mode: Mode::TwoFaults,
            name: format!("{table_name} and {line_name}"),
            intended: Some(14),
            carried: Some(Detail::None),
            file,
        }
    }
}

/// "at the first such line"
fn two_lines(random: &mut Random) -> Generated {
    let scene = base_scene(random);
    let lines = lines_of(random, &scene.case);
    let first = random.below(BAD_LINE_WAYS);
    let once = bad_line(random, lines, first);
    let lines: Vec<Vec<u8>> = once
        .file
        .split(|b| *b == 0x0a)
        .map(<[u8]>::to_vec)
        .collect();
    let second = random.below(BAD_LINE_WAYS);
    let twice = bad_line(random, lines, second);
    Generated {
        mode: Mode::TwoFaults,
        name: format!("{} and {}", once.name, twice.name),
        intended: Some(14),
        carried: Some(Detail::None),
        file: twice.file,
    }
}

/// One instruction with two faults.
fn both(random: &mut Random, kind: Kind, a: &Fault, b: &Fault) -> Generated {
    let mut scene = base_scene(random);
    let mut kernel = prefix(random, &scene);
    let mut draft = base_instruction(random, &scene, kind);
    apply(random, &mut scene, &mut draft, kind, &[a, b]);
    kernel.extend(draft.bytes());
    kernel.extend(suffix(random, &scene));
    scene.case.kernel = kernel;
    let first = if a.rank <= b.rank { a } else { b };
    let name = format!("{kind:?}: {} and {}", a.name, b.name);
    two(random, &scene, name, first.number, first.detail())
}

/// Give the operands the forms that the faults need, then make the faults.
fn apply(random: &mut Random, scene: &mut Scene, draft: &mut Draft, kind: Kind, faults: &[&Fault]) {
    for fault in faults {
        give_form(random, scene, draft, kind, fault.needs);
    }
    // How many elements are too few depends on the exec byte, which the other fault may change.
    let (last, first): (Vec<&Fault>, Vec<&Fault>) =
        faults.iter().partition(|fault| fault.rank == RANK_17);
    for fault in first.iter().chain(&last) {
        (fault.apply)(random, scene, draft);
    }
}

fn two(
    random: &mut Random,
    scene: &Scene,
    name: String,
    number: u8,
    detail: Option<Detail>,
) -> Generated {
    let lines = lines_of(random, &scene.case);
    Generated {
        mode: Mode::TwoFaults,
        name,
        intended: Some(number),
        carried: detail,
        file: file_of(random, &lines),
    }
}
