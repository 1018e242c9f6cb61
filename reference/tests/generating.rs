//! The case generator: deterministic, its cases give the numbers that it means, and they cover what they
//! are to cover.

use reference::bench::answer;
use reference::case::Case;
use reference::case_file::read_case;
use reference::decode::decode;
use reference::element;
use reference::generate::bad_lines::WRONG_SIZE_THEN_BAD_LINE;
use reference::generate::near_misses::Ways;
use reference::generate::report::Report;
use reference::generate::size_reach::Choice;
use reference::generate::{Generator, Mode};
use std::collections::BTreeSet;

#[test]
fn a_seed_determines_its_cases() {
    let once = Generator::new(7, None);
    let again = Generator::new(7, None);
    let other = Generator::new(8, None);
    // In another order, so that no case depends on those made before it.
    let backwards: Vec<_> = (0..100).rev().map(|index| again.case(index)).collect();
    let mut same_as_other = 0;
    for index in 0..100u64 {
        let case = once.case(index);
        assert_eq!(case, backwards[99 - index as usize]);
        same_as_other += u64::from(case.file == other.case(index).file);
    }
    // A lone empty line may be the same for two seeds; the rest is not.
    assert!(same_as_other <= 3, "{same_as_other}");
}

/// Exec bytes, near misses, pairs of faults and bad lines answer as intended: what the generator means was written
/// down fault by fault, apart from the interpreter.
#[test]
fn faults_answer_as_intended() {
    for mode in [
        Mode::ExecBytes,
        Mode::NearMiss,
        Mode::TwoFaults,
        Mode::BadLines,
    ] {
        for seed in [3, 4] {
            let generator = Generator::new(seed, Some(mode));
            let mut report = Report::default();
            for index in 0..2500 {
                let case = generator.case(index);
                report.add(&case, &answer(&case.file));
            }
            assert_eq!(report.unintended, Vec::<String>::new());
        }
    }
}

/// A wrong register size is 13, but 14 stands where a line behind it is bad, at that line.
#[test]
fn a_bad_line_behind_a_wrong_size() {
    let generator = Generator::new(9, Some(Mode::BadLines));
    let mut met = 0;
    for index in 0..600 {
        let case = generator.case(index);
        if !case.name.starts_with(WRONG_SIZE_THEN_BAD_LINE) {
            continue;
        }
        let lines: Vec<&[u8]> = case.file.split(|byte| *byte == 0x0a).collect();
        let size = lines
            .iter()
            .position(|line| line.starts_with(b"0b"))
            .unwrap();
        let position = answer(&case.file).position;
        assert!(position > size + 1);
        // Without the bad line it is 13.
        let mut others = lines.clone();
        others.remove(position - 1);
        let others = others[..position - 1].join(&0x0a);
        assert_eq!(answer(&others).number, 13);
        met += 1;
    }
    assert!(met >= 15, "{met}");
}

/// The generator makes both register sizes in every mode, by itself and with the frame at every place.
#[test]
fn both_register_sizes_in_every_mode() {
    for mode in Mode::ALL {
        let generator = Generator::new(6, Some(mode));
        let (mut sizes, mut first, mut last) = (BTreeSet::new(), 0, 0);
        for index in 0..400 {
            let file = generator.case(index).file;
            sizes.insert(Choice::of(&file));
            let text = file.strip_suffix(b"\n").unwrap_or(&file);
            let lines: Vec<&[u8]> = text.split(|byte| *byte == 0x0a).collect();
            let is_size = |line: &&[u8]| *line == b"0b20" || *line == b"0b40";
            first += u64::from(lines.first().is_some_and(is_size));
            last += u64::from(lines.last().is_some_and(is_size));
        }
        if mode == Mode::BadLines {
            assert_eq!(sizes, [Choice::NotReadOf64, Choice::NotRead].into());
        } else {
            let good = [Choice::Absent, Choice::Of32, Choice::Of64];
            assert!(good.iter().all(|it| sizes.contains(it)), "{mode:?}");
        }
        assert!(first >= 10 && last >= 10, "{mode:?}: {first}, {last}");
    }
}

/// One round of the near misses has every number of a run but 14.
#[test]
fn near_misses_have_every_number() {
    let generator = Generator::new(5, Some(Mode::NearMiss));
    let ways = Ways::all().count() as u64;
    let mut numbers = BTreeSet::new();
    let mut names = BTreeSet::new();
    for index in 0..ways {
        let case = generator.case(index);
        numbers.insert(case.intended.unwrap());
        names.insert(case.name);
    }
    // 6 is given no more.
    assert_eq!(
        numbers,
        (0..=5).chain(7..=13).chain([17]).chain(20..=25).collect()
    );
    // Cuts may share a name, a scatter's faulty addresses come three times each, each last byte of the largest kernel five
    // times, and a pair may be the first one several times.
    assert!(names.len() as u64 > ways - 90, "{} of {ways}", names.len());
}

/// At least 40 % of the valid cases run all their instructions.
#[test]
fn valid_cases_mostly_run_to_their_end() {
    let generator = Generator::new(6, Some(Mode::Valid));
    let mut report = Report::default();
    for index in 0..2000 {
        let case = generator.case(index);
        report.add(&case, &answer(&case.file));
    }
    assert_eq!(report.valid, 2000);
    assert!(report.valid_complete >= 800, "{}", report.valid_complete);
    assert!(report.completed > 5000, "{}", report.completed);
}

/// What valid cases are to have, each seen at least once.
#[test]
fn valid_cases_cover_their_ground() {
    let generator = Generator::new(9, Some(Mode::Valid));
    let mut seen = BTreeSet::new();
    for index in 0..4000 {
        let file = generator.case(index).file;
        let case = read_case(&file).expect("a valid case has no bad line");
        assert_eq!(reference::sizes::check(&case), Ok(()));
        tables(&case, &mut seen);
        kernel(&case, &mut seen);
    }
    let expected = [
        "base 0",
        "base unaligned",
        "base around 2^32",
        "base + length is 2^64",
        "no memory",
        "surface of 0",
        "surface of 1024",
        "overlapping variables",
        "256 or nearly 256 variables",
        "taint byte other than 0 and 1",
        "dense taint",
        "no taint",
        "type 0",
        "type 1",
        "type 2",
        "type 3",
        "type 4",
        "type 5",
        "type 7",
        "type 11",
        "no instruction",
        "more than 140 instructions",
        "any",
        "all",
        "inverse",
        "gather wraps",
        "gather over a surface's end",
        "scatter wraps",
        "scatter lanes collide",
        "destination overlaps source",
    ];
    for what in expected {
        assert!(seen.contains(what), "no case has: {what}");
    }
    for mask in 0..16 {
        assert!(seen.contains(&format!("mask {mask}")), "mask {mask}");
    }
    for size in 0..6 {
        assert!(
            seen.contains(&format!("size code {size}")),
            "size code {size}"
        );
    }
}

/// A predicate's frame has four bytes or five in every mode, five also where the count is 32.
#[test]
fn frames_of_predicates() {
    for mode in Mode::ALL {
        let generator = Generator::new(10, Some(mode));
        let mut forms = BTreeSet::new();
        for index in 0..400 {
            let file = generator.case(index).file;
            let frames = file.split(|byte| *byte == 0x0a);
            for frame in frames.filter(|line| line.starts_with(b"03")) {
                forms.insert((frame.len(), frame.ends_with(b"20")));
            }
        }
        for form in [(10, false), (12, false), (12, true)] {
            assert!(forms.contains(&form), "{}: {form:?}", mode.name());
        }
    }
}

fn tables(case: &Case, seen: &mut BTreeSet<String>) {
    let mut see = |what: &str, there: bool| {
        if there {
            seen.insert(what.to_string());
        }
    };
    let end = u128::from(case.base) + case.memory.len() as u128;
    see("base 0", case.base == 0 && !case.memory.is_empty());
    see("base unaligned", case.base % 4 != 0);
    let two_32 = 1u128 << 32;
    see(
        "base around 2^32",
        u128::from(case.base) < two_32 && end > two_32,
    );
    see(
        "base + length is 2^64",
        end == 1 << 64 && !case.memory.is_empty(),
    );
    see("no memory", case.memory.is_empty());
    for length in [0, 1024] {
        let there = case.surfaces.iter().any(|surface| surface.len() == length);
        see(&format!("surface of {length}"), there);
    }
    let overlap = |a: usize, b: usize| {
        let (a, b) = (case.variables[a], case.variables[b]);
        a.start == b.start && a.type_code != b.type_code
    };
    let count = case.variables.len();
    see(
        "overlapping variables",
        (1..count).any(|b| (0..b).any(|a| overlap(a, b))),
    );
    see("256 or nearly 256 variables", count > 240);
    for variable in &case.variables {
        see(&format!("type {}", variable.type_code), true);
    }
    let taint = &case.register_taint;
    see(
        "taint byte other than 0 and 1",
        taint.iter().any(|byte| *byte > 1),
    );
    let tainted = taint.iter().filter(|byte| **byte != 0).count();
    see("dense taint", tainted > 64 && 2 * tainted > taint.len());
    see("no taint", tainted == 0 && !taint.is_empty());
}

fn kernel(case: &Case, seen: &mut BTreeSet<String>) {
    let mut see = |what: &str, there: bool| {
        if there {
            seen.insert(what.to_string());
        }
    };
    let mut position = 0;
    let mut count = 0;
    while position < case.kernel.len() {
        let decoded = decode(&case.kernel, position);
        assert_eq!(decoded.number, 0, "a valid kernel decodes");
        position += decoded.part.len();
        count += 1;
        let it = decoded.instruction;
        see(&format!("mask {}", it.exec >> 4), true);
        see(&format!("size code {}", it.exec & 7), true);
        see("any", (it.pred >> 13) & 3 == 1);
        see("all", (it.pred >> 13) & 3 == 2);
        see("inverse", it.pred >> 15 == 1);
        let lanes = it.exec_size();
        match it.opcode {
            0x24 => {
                let same = !it.src0.is_immediate() && it.src0.index == it.dst.index;
                see("destination overlaps source", same);
            }
            0x78 => {
                let offset = element::scalar(case, &it.scalar, case.register_size.bytes()).bits;
                let length = case.surfaces[usize::from(it.surface)].len() as u64;
                for lane in 0..lanes {
                    let sum = offset + element::raw(case, &it.element_offset, lane).bits;
                    see("gather wraps", sum >= 1 << 32 && sum % (1 << 32) < length);
                    let address = sum % (1 << 32);
                    let over = address < length && address + it.block_bytes() > length;
                    see("gather over a surface's end", over);
                }
            }
            0x4e => {
                let address = element::scalar(case, &it.scalar, case.register_size.bytes()).bits;
                let mut addresses = BTreeSet::new();
                for lane in 0..lanes {
                    let offset = element::raw(case, &it.element_offset, lane).bits;
                    see("scatter wraps", address.checked_add(offset).is_none());
                    let new = addresses.insert(address.wrapping_add(offset));
                    see("scatter lanes collide", !new);
                }
            }
            _ => {}
        }
    }
    see("no instruction", count == 0);
    see("more than 140 instructions", count > 140);
}
