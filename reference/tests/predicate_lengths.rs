//! Document 02, request 3: a predicate's count in its frame, 13 for a bad one, and 17 where an instruction needs more
//! elements.

mod common;

use common::*;
use reference::assemble::*;
use reference::assembled::assembled;
use reference::bench::{answer as answer_to, bench};
use reference::case::{Case, Predicate};
use reference::case_file::read_case;
use reference::case_writer::write_case;
use reference::generate::Generator;
use reference::run::Answer;
use reference::sizes;
use reference::verdict::verdict;

/// Document 01's whole case without its kernel and taint.
const D: &str = "\
010100020003000400050006000700080000000000000000000000000000000000
020200000800
020210000800
060f000000
";

/// The answer to a kernel of one line of text on D with a predicate's frame.
fn answer_with(frame: &str, text: &str) -> Answer {
    let kernel = assembled(text.as_bytes()).concat();
    assert!(!kernel.starts_with('!'), "{text}: {kernel}");
    answer_to(format!("{D}{frame}\n07{kernel}\n").as_bytes())
}

#[test]
fn lines_alone() {
    for (file, expected) in [
        ("03ffffffff00", answer(13, 0, 0)),
        ("03ffffffff21", answer(13, 0, 0)),
        ("03ffff", answer(14, 0, 1)),
        ("03ffffffff0800", answer(14, 0, 1)),
        ("03ffffffff20", answer(0, 0, 0)),
        ("03ffffffff00\nzz", answer(14, 0, 2)),
    ] {
        assert_eq!(answer_to(file.as_bytes()), expected, "{file}");
    }
}

/// A predicate's frame, the pred word and exec byte as text, the source's region, and the answer.
#[test]
fn kernels_of_one_shift() {
    let done = answer(0, 1, 24);
    let refused = |number| answer(number, 0, 0);
    for (frame, pred, exec, region, expected) in [
        ("03ff00000008", "(P0.any) ", "(M1,8)", "<8;8,1>", done),
        ("03ffffffff08", "(P0.all) ", "(M1,8)", "<8;8,1>", done),
        (
            "03ff00000008",
            "(P0.any) ",
            "(M1,16)",
            "<0;1,0>",
            refused(17),
        ),
        // v1 is too short.
        ("03ff000000", "(P0.any) ", "(M1,16)", "<0;1,0>", refused(7)),
        ("03ff0000000c", "(!P0) ", "(M2,8)", "<8;8,1>", done),
        ("03ff0000000b", "(!P0) ", "(M2,8)", "<8;8,1>", refused(17)),
        (
            "03ff0000000b",
            "(!P0) ",
            "(M2_NM,8)",
            "<8;8,1>",
            refused(17),
        ),
        // No predicate.
        ("03ff00000001", "", "(M1,16)", "<0;1,0>", refused(7)),
        ("03ff00000007", "(P1) ", "(M1,8)", "<8;8,1>", refused(5)),
        (
            "03ff00000008",
            "(P0.any) ",
            "(M2,32)",
            "<8;8,1>",
            refused(8),
        ),
        (
            "03ff00000007",
            "(P0.any) ",
            "(M1,8)",
            "<8;0,1>",
            refused(17),
        ),
        (
            "03ff00000007",
            "(!P0.all) ",
            "(M2,4)",
            "<4;4,1>",
            refused(17),
        ),
    ] {
        let text = format!("{pred}SHL {exec} v1(0,0)<1> v0(0,0){region} 0x1:uw");
        assert_eq!(answer_with(frame, &text), expected, "{frame} {text}");
    }
}

#[test]
fn a_send() {
    let text = "(P0.any) raw_send (M1,8) 0x0 1 0 0x0:ud v0.0 v0.0";
    assert_eq!(answer_with("03ff00000007", text), answer(17, 0, 0));
    // v0 is too short.
    assert_eq!(answer_with("03ff00000008", text), answer(7, 0, 0));
}

/// The lines of a case file, those of the bench's output, and the verdict.
#[test]
fn whole_cases() {
    let digits = "010102030405060708090a0b0c0d0e0f10";
    let unshifted = format!("{digits}{}", "00".repeat(16));
    let shifted = format!("{digits}020406080a0c0e10121416181a1c1e20");
    let zeros = |kind: &str| format!("{kind}{}", "00".repeat(32));
    let all_over_16 = |frame: &str| {
        let kernel = "07240400400001000000000200000000006602050201000000";
        let tables = "020400001000\n020410001000\n06ffff0000";
        format!("{unshifted}\n{tables}\n{frame}\n{kernel}\n")
    };
    let output = |answer: &str, registers: &str| {
        let marks = zeros("08");
        format!("{answer}\n{registers}\n050000000000000000\n{marks}\n0a\n")
    };
    let without_surface = format!(
        "{}\n020000000400\n020010000400\n060f000000\n03ff00000003\n077802002000020000000500000000000000000001000000\n",
        zeros("01")
    );
    let (refused, done) = ("4011000000000000", "4000010018000000");
    for (input, output, line) in [
        // The customer's case: all over 16 channels of 8 bits.
        (
            all_over_16("03ff00000008"),
            output(refused, &unshifted),
            "17 0 0\n",
        ),
        // An old frame, no lane on, as before.
        (
            all_over_16("03ff000000"),
            output(done, &unshifted),
            "0 1 24\n",
        ),
        // 16 elements, all on.
        (
            all_over_16("03ffff000010"),
            output(done, &shifted),
            "0 1 24\n",
        ),
        // Before the missing surface's 5.
        (without_surface, output(refused, &zeros("01")), "17 0 0\n"),
    ] {
        let text = |bytes: Vec<u8>| String::from_utf8(bytes).unwrap();
        assert_eq!(text(bench(input.as_bytes())), output);
        assert_eq!(text(verdict(input.as_bytes())), line);
    }
}

/// "a bad count is 13", used or not, at every place of the table.
#[test]
fn every_count() {
    for count in 0..=255 {
        let expected = match count {
            1..=32 => Ok(()),
            _ => Err(13),
        };
        for place in 0..3 {
            let mut case = stage();
            case.predicates.insert(place, Predicate { bits: 7, count });
            assert_eq!(sizes::check(&case), expected, "{count}");
            // Named by the kernel.
            let dst = general(UB, 0, 0, destination_region(1));
            let one = immediate(0, 1);
            let named = shl(0, place as u16 | 0x2000, &dst, &one, &one);
            let number = run_on(&mut case, &[named]).number;
            assert_eq!(number, expected.err().unwrap_or_default(), "{count}");
        }
    }
}

/// "frame 03 takes a further count byte, and an old four-byte frame means 32"
#[test]
fn frames() {
    let predicates = |file: &str| read_case(file.as_bytes()).map(|case| case.predicates);
    let record = |bits, count| Predicate { bits, count };
    assert_eq!(predicates("0301020304"), Ok(vec![record(0x0403_0201, 32)]));
    assert_eq!(
        predicates("030102030405\n0300000000\n0300000000ff"),
        Ok(vec![record(0x0403_0201, 5), record(0, 32), record(0, 255)])
    );
    for bytes in (0..4).chain(6..10) {
        let frame = format!("03{}", "01".repeat(bytes));
        assert_eq!(predicates(&frame), Err(1), "{frame}");
        // 14 comes before the 13 of a bad count in an earlier line.
        assert_eq!(predicates(&format!("0300000000ff\n{frame}")), Err(2));
    }
}

/// Every way of naming predicate 2: bit by bit, any and all, inverse or not.
const HOW: [u16; 6] = [0x0002, 0x2002, 0x4002, 0x8002, 0xa002, 0xc002];

/// The stage with predicate 2 of so many elements.
fn with_count(count: u8) -> Case {
    let mut case = stage();
    let bits = 0x5a5a_f00f;
    case.predicates.push(Predicate { bits, count });
    case
}

/// An instruction of each kind, good but for the predicate.
fn drafts(exec: u8, pred: u16) -> Vec<(u8, Draft)> {
    let (one, address) = (immediate(0, 1), immediate_uq(0x1000));
    let dst = general(UB, 0, 0, destination_region(1));
    let mut drafts = vec![
        (0, shl(exec, pred, &dst, &one, &one)),
        (0, gather(exec, pred, 2, 0, &one, &raw(UD, 0), &raw(F, 0))),
        (9, raw_send(exec, pred, 1, 1, &one, &raw(UD, 0), &raw(F, 0))),
    ];
    if [3, 4].contains(&(exec & 7)) {
        let scattered = scatter(exec, pred, 1, &address, &raw(UQ, 0), &raw(UD, 0));
        drafts.push((0, scattered));
    }
    drafts
}

/// 17 stands exactly when 8 does not and offset + ExecSize is over the count: alike under NM, any, all and inverse, and
/// with lanes off.
#[test]
fn every_exec_byte_and_count() {
    for exec in (0..=255u8).filter(|exec| exec & 15 < 6) {
        let end = 4 * u32::from((exec >> 4) & 7) + (1 << (exec & 7));
        for count in 1..=32u8 {
            let pred = HOW[usize::from(count) % 6];
            for (good, draft) in drafts(exec, pred) {
                let expected = match end {
                    33.. => 8,
                    _ if end > u32::from(count) => 17,
                    _ => good,
                };
                let mut case = with_count(count);
                case.execution_mask = if count % 2 == 0 { 0 } else { u32::MAX };
                let number = run_on(&mut case, &[draft]).number;
                assert_eq!(number, expected, "exec {exec:02x} count {count}");
            }
        }
        // A word of 0 names none, however short predicate 0 is.
        for (good, draft) in drafts(exec, 0) {
            let mut case = stage();
            case.predicates[0].count = 1;
            let expected = if end > 32 { 8 } else { good };
            assert_eq!(run_on(&mut case, &[draft]).number, expected);
        }
    }
}

/// Every way of naming a predicate, at the count and one past: M2 and M2_NM of size 8 need 12.
#[test]
fn every_way_of_naming() {
    for pred in HOW {
        for exec in [0x13, 0x93] {
            for (good, draft) in drafts(exec, pred) {
                let number = |count| run_on(&mut with_count(count), &[draft.clone()]).number;
                assert_eq!(number(11), 17, "{pred:04x}");
                assert_eq!(number(12), good, "{pred:04x}");
            }
        }
    }
}

/// "directly after the predicate's 5": 8 and that 5 stand before 17, the surface's 5 and every operand's numbers behind it,
/// and so do 9, 10, 11 and 12.
#[test]
fn the_order() {
    let one = immediate(0, 1);
    let good = general(UB, 0, 0, destination_region(1));
    let of = |exec, pred, dst: &Operand, src: &Operand| shl(exec, pred, dst, src, &one);
    let number = |draft: Draft| run_on(&mut with_count(7), &[draft]).number;
    assert_eq!(number(of(0x03, 2, &good, &one)), 17);
    assert_eq!(number(of(0x73, 2, &good, &one)), 8);
    assert_eq!(number(of(0x03, 3, &good, &one)), 5);

    let missing = general(NO_VARIABLE, 0, 0, destination_region(1));
    let source = |region| general(UB, 0, 0, region);
    for dst in [
        missing,
        general(F, 0, 0, destination_region(1)),
        general(UB, 0, 0, destination_region(8)),
        general(UB, 0, 0, destination_region(0)),
        general(UB, 0, 0, 0x0255),
        general(UB, 255, 0, destination_region(1)),
    ] {
        assert_ne!(number(of(0x03, 0, &dst, &one)), 0);
        assert_eq!(number(of(0x03, 2, &dst, &one)), 17);
    }
    for src in [
        immediate(7, 0),
        source(source_region(8, 0, 1)),
        source(source_region(8, 16, 1)),
    ] {
        assert_ne!(number(of(0x03, 0, &good, &src)), 0);
        assert_eq!(number(of(0x03, 2, &good, &src)), 17);
    }
    // No surface 1; a scalar's region.
    let gathered = |pred, surface, offset: &Operand| {
        gather(0x03, pred, 2, surface, offset, &raw(UD, 0), &raw(F, 0))
    };
    let wrong = general(UD, 0, 0, 0x0255);
    for (surface, offset) in [(1, &one), (0, &wrong), (1, &wrong)] {
        assert_ne!(number(gathered(0, surface, offset)), 0);
        assert_eq!(number(gathered(2, surface, offset)), 17);
    }
    let sent = |pred| raw_send(0x03, pred, 1, 1, &one, &raw(UD, 0), &raw(F, 0));
    assert_eq!([number(sent(0)), number(sent(2))], [9, 17]);
    // Outside the window, unaligned, and with a tainted element offset too.
    for (address, taint, other) in [(0x2000, 0, 12), (0x1001, 0, 11), (0x1001, 1, 10)] {
        let address = immediate_uq(address);
        for (pred, expected) in [(0, other), (2, 17)] {
            let scattered = scatter(0x03, pred, 1, &address, &raw(UQ, 0), &raw(UD, 0));
            let mut case = with_count(7);
            case.register_taint[start(UQ)] = taint;
            assert_eq!(run_on(&mut case, &[scattered]).number, expected);
        }
    }
    // Decoding comes first.
    let reserved = number(of(0x03, 0x6002, &good, &one));
    assert_eq!(reserved, 3);
}

/// "Earlier instructions stand."
#[test]
fn in_the_middle_of_a_kernel() {
    let one = immediate(0, 1);
    let dst = general(UB, 0, 0, destination_region(1));
    let shift = |exec| shl(exec, 0x8002, &dst, &one, &one);
    let mut case = with_count(8);
    case.predicates[2].bits = 0xff00;
    let answered = run_on(
        &mut case,
        &[shift(0x02), shift(0x03), shift(0x04), shift(0)],
    );
    assert_eq!(answered, answer(17, 2, 46));
    assert_eq!(
        case.registers[start(UB)..start(UB) + 9],
        [2, 2, 2, 2, 2, 2, 2, 2, 0]
    );
}

/// "Whatever is not refused keeps its enabled channels": any and all are over the ExecSize bits, not over the count's.
#[test]
fn lanes_as_before() {
    let written = |pred: u16, bits: u32, count: u8| {
        let mut case = stage();
        case.predicates.push(Predicate { bits, count });
        let one = immediate(0, 1);
        let dst = general(UB, 0, 0, destination_region(1));
        let draft = shl(0x13, pred, &dst, &one, &immediate(0, 0));
        assert_eq!(run_on(&mut case, &[draft]).number, 0);
        let lane = |lane: usize| u32::from(case.registers[start(UB) + lane]) << lane;
        (0..8).map(lane).sum::<u32>()
    };
    // M2 of size 8: bits 4 to 11.
    for count in 12..=32 {
        for others in [0, 0xffff_f00f, 0x0000_f000, 0x0000_000f, 0x8000_0000] {
            assert_eq!(written(0x0002, 0x05a0 | others, count), 0x5a);
            assert_eq!(written(0x8002, 0x05a0 | others, count), 0xa5);
            assert_eq!(written(0x2002, others, count), 0);
            assert_eq!(written(0x2002, 0x0800 | others, count), 0xff);
            assert_eq!(written(0x4002, 0x0ff0 | others, count), 0xff);
            assert_eq!(written(0x4002, 0x07f0 | others, count), 0);
        }
    }
}

/// "no bit at or past the count matters"
#[test]
fn bits_past_the_count() {
    let generator = Generator::new(31, None);
    let mut changed = 0;
    for index in 0..1500 {
        let file = generator.case(index).file;
        let Ok(mut case) = read_case(&file) else {
            continue;
        };
        let before = bench(&file);
        for predicate in &mut case.predicates {
            let past = u64::from(u32::MAX) << predicate.count.min(32);
            predicate.bits ^= past as u32;
            changed += u64::from(predicate.count < 32);
        }
        assert_eq!(bench(&write_case(&case)), before);
    }
    assert!(changed > 1000, "{changed}");
}

/// A frame of four bytes and one of five with 32 are the same.
#[test]
fn frames_of_32() {
    let generator = Generator::new(32, None);
    let (mut four, mut five) = (0, 0);
    for index in 0..1500 {
        let file = generator.case(index).file;
        let other = |line: &[u8]| match (line.starts_with(b"03"), line.len(), line) {
            (true, 10, _) => {
                four += 1;
                [line, b"20"].concat()
            }
            (true, 12, [frame @ .., b'2', b'0']) => {
                five += 1;
                frame.to_vec()
            }
            _ => line.to_vec(),
        };
        let lines: Vec<Vec<u8>> = file.split(|byte| *byte == 0x0a).map(other).collect();
        assert_eq!(bench(&lines.join(&0x0a)), bench(&file));
    }
    assert!(four > 300 && five > 300, "{four} {five}");
}
