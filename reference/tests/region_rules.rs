//! Document 02, request 2: which region rule, at which operand, and the pair that 11 and 12 carry.

mod common;

use common::*;
use reference::assemble::*;
use reference::assembled::assembled;
use reference::bench::{answer as answer_to, bench};
use reference::refusal::Detail;
use reference::run::Answer;
use reference::verdict::verdict;

/// Document 01's whole case without its kernel and taint.
const D: &str = "\
010100020003000400050006000700080000000000000000000000000000000000
020200000800
020210000800
060f000000
";

/// The answer to a kernel of one line of text behind some lines of a case file.
fn answer_with(lines: &str, text: &str) -> Answer {
    let kernel = assembled(text.as_bytes()).concat();
    assert!(!kernel.starts_with('!'), "{text}: {kernel}");
    answer_to(format!("{lines}07{kernel}\n").as_bytes())
}

/// A number and the operand that it names, if it names one.
fn named(number: u8, place: usize) -> Answer {
    let detail = match place {
        0 => Detail::None,
        _ => Detail::Operand(place),
    };
    Answer {
        detail,
        ..answer(number, 0, 0)
    }
}

/// A destination's region, a source's, the number, and the operand's place where the number names one.
const REGIONS: &[(&str, &str, u8, usize)] = &[
    ("<1>", "<8;0,1>", 20, 2),
    ("<1>", "<8;32,1>", 20, 2),
    ("<1>", "<8;32,8>", 20, 2),
    ("<1>", "<n;32,1>", 20, 2),
    ("<1>", "<8;8,8>", 21, 2),
    ("<1>", "<8;16,8>", 21, 2),
    ("<1>", "<8;n,8>", 21, 2),
    ("<8>", "<8;8,1>", 21, 1),
    ("<n;8,8>", "<8;8,1>", 21, 1),
    ("<8;n,32>", "<8;0,1>", 21, 1),
    ("<1>", "<8;16,1>", 22, 2),
    ("<1>", "<n;16,1>", 22, 2),
    ("<0>", "<8;8,1>", 23, 1),
    ("<n;8,0>", "<8;8,1>", 23, 1),
    ("<1>", "<n;8,1>", 24, 2),
    ("<1>", "<8;n,1>", 24, 2),
    ("<1>", "<8;8,n>", 24, 2),
    ("<8;n,1>", "<8;8,1>", 24, 1),
    ("<n;0,1>", "<8;8,1>", 24, 1),
    ("<n;32,1>", "<8;0,1>", 24, 1),
    ("<n;16,1>", "<8;8,1>", 24, 1),
    ("<n;n,n>", "<8;8,1>", 24, 1),
    ("<8;8,1>", "<8;0,1>", 24, 1),
    ("<1>", "<32;1,4>", 7, 0),
    ("<2>", "<8;8,1>", 7, 0),
];

#[test]
fn regions_of_shl() {
    for (dst, src, number, place) in REGIONS {
        let text = format!("SHL (M1,8) v1(0,0){dst} v0(0,0){src} 0x1:uw");
        assert_eq!(answer_with(D, &text), named(*number, *place), "{text}");
    }
    let text = "SHL (M1,8) v1(0,0)<1> v0(0,0)<8;8,0> 0x1:uw";
    assert_eq!(answer_with(D, text), answer(0, 1, 24));
}

#[test]
fn other_kernels() {
    for (text, number, place) in [
        ("SHL (M1,8) v1(0,0)<1> v0(0,0)<8;8,1> v0(0,0)<8;0,1>", 20, 3),
        ("SHL (M1,8) v1(0,0)<1> v0(0,0)<8;0,1> 0x1:f", 20, 2),
        ("SHL (M1,1) v1(0,0)<1> v0(0,0)<0;2,1> 0x1:uw", 22, 2),
        ("SHL (M1,8) v9(0,0)<0> v0(0,0)<8;8,1> 0x1:uw", 5, 0),
        ("SHL (M1,8) v1(9,9)<0> v0(0,0)<8;8,1> 0x1:uw", 23, 1),
        ("raw_send (M1,1) 0x0 1 0 v0(0,0)<8;8,1> v0.0 v0.0", 4, 0),
    ] {
        assert_eq!(answer_with(D, text), named(number, place), "{text}");
    }
}

/// Element offsets in v0 (UQ at 0, 8 elements), v1 UD over the same bytes, base 0; the offsets, EM, the memory's length,
/// channels, mask, and the number with its channel and lane.
#[test]
fn pairs_of_a_scatter() {
    let table: &[(&[u64], u32, usize, &str, Answer)] = &[
        (&[0, 16, 32], 0x07, 36, "RA (M1,8)", pair(12, 3, 2)),
        (&[0, 16, 32], 0x0700, 36, "RA (M3,8)", pair(12, 3, 2)),
        (&[0, 16, 32], 0x07, 48, "RA (M1,8)", answer(0, 1, 26)),
        (&[0, 16, 32, 48], 0x0f, 40, "RA (M1,8)", pair(12, 0, 3)),
        (&[0, 1, 400], 0x07, 36, "RA (M1,8)", pair(11, 0, 1)),
        (&[400, 1], 0x03, 36, "BA (M1,8)", pair(11, 2, 1)),
        (&[400, 1], 0x01, 36, "BA (M1,8)", pair(12, 2, 0)),
        (&[0, 1, 400], 0x05, 36, "RA (M1,8)", pair(12, 0, 2)),
        (&[u64::MAX - 3], 0x01, 4, "G (M1,8)", answer(0, 1, 26)),
        (&[u64::MAX - 3], 0x01, 4, "RG (M1,8)", pair(12, 0, 0)),
        // Lane 0 goes out by channel 3, lane 1 by channel 0 already, lane 2 too.
        (&[24, 36, 36], 0x07, 36, "RA (M1,8)", pair(12, 0, 1)),
        // 12 in the first pairs, 11 in the last lane.
        (&[400, 400, 2], 0x07, 36, "GA (M1,8)", pair(11, 1, 2)),
        // Channels 1 and 3 alone: rank 1 is channel 3.
        (&[0, 24], 0x03, 36, "GA (M1,8)", pair(12, 3, 1)),
    ];
    for (offsets, mask, memory, how, expected) in table {
        let mut registers = [0; 64];
        for (at, offset) in offsets.iter().enumerate() {
            registers[8 * at..8 * at + 8].copy_from_slice(&offset.to_le_bytes());
        }
        let hex = |bytes: &[u8]| {
            let digits = bytes.iter().map(|byte| format!("{byte:02x}"));
            digits.collect::<String>()
        };
        let lines = format!(
            "01{}\n020b00000800\n020000001000\n05{}\n06{}\n",
            hex(&registers),
            hex(&vec![0; 8 + memory]),
            hex(&mask.to_le_bytes())
        );
        let text = format!("SVM_SCATTER4_SCALED.{how} 0x0:uq v0.0 v1.0");
        assert_eq!(answer_with(&lines, &text), *expected, "{offsets:?} {how}");
    }
}

fn pair(number: u8, channel: u64, lane: u64) -> Answer {
    Answer {
        detail: Detail::Pair { channel, lane },
        ..answer(number, 0, 0)
    }
}

/// A case file's lines, the bench's output and the verdict. "The 40 line keeps its form."
#[test]
fn whole_cases() {
    let zeros = |kind: &str, bytes: usize| format!("{kind}{}\n", "00".repeat(bytes));
    let left =
        "010100020003000400050006000700080002000400060008000000000000000000\n050000000000000000\n";
    let second = format!(
        "{D}07240300000001000000000200000000005502050201000000240300000001000000000100000000005502050201000000\n"
    );
    let second_output = format!("4017010018000000\n{left}{}0a\n", zeros("08", 32));

    let gathered = format!(
        "{}020000000400\n020010000400\n0411223344\n060f000000\n07780200000002000000000000000055020000000001000000\n",
        zeros("01", 32)
    );
    let gathered_output = format!(
        "4019000000000000\n{}050000000000000000\n{}0a\n",
        zeros("01", 32),
        zeros("08", 32)
    );

    let registers = format!(
        "0100000000000000001000000000000000200000000000000000{}\n",
        "00".repeat(39)
    );
    let memory = zeros("050000000000000000", 36);
    let scattered = format!(
        "{registers}020b00000800\n020000001000\n{memory}0607000000\n074e07030000090000050b00000000000000000000000001000000\n"
    );
    let scattered_output = format!(
        "400c000000000000\n{registers}{memory}{}{}",
        zeros("08", 64),
        zeros("0a", 36)
    );

    for (input, output, line) in [
        (second, second_output, "23 1 24 operand 1\n"),
        (gathered, gathered_output, "25 0 0 operand 1\n"),
        (scattered, scattered_output, "12 0 0 channel 3 lane 2\n"),
    ] {
        let text = |bytes: Vec<u8>| String::from_utf8(bytes).unwrap();
        assert_eq!(text(bench(input.as_bytes())), output);
        assert_eq!(text(verdict(input.as_bytes())), line);
    }
}

/// The values of the region codes 0 to 7; Null is nothing.
const VALUES: [Option<u16>; 8] = [
    None,
    Some(0),
    Some(1),
    Some(2),
    Some(4),
    Some(8),
    Some(16),
    Some(32),
];

/// The answer to a SHL on the stage with a region word at one of its operands, the others good.
fn at_operand(place: usize, exec_code: u8, word: u16) -> Answer {
    let mut operands = [
        general(UB, 0, 0, destination_region(1)),
        immediate(0, 1),
        immediate(0, 1),
    ];
    operands[place - 1] = general(UB, 0, 0, word);
    let draft = shl(exec_code, 0, &operands[0], &operands[1], &operands[2]);
    run_on(&mut stage(), &[draft])
}

/// Every region word at every operand with every ExecSize. "Nothing that was accepted is refused now", nor the other way
/// round: 20 to 24 stand exactly where document 01 gave 6.
#[test]
fn every_region_word() {
    for place in 1..=3 {
        for exec_code in 0..6 {
            for codes in 0..512 {
                let [v, w, h] = [codes % 8, codes / 8 % 8, codes / 64];
                let [vertical, width, horizontal] = [v, w, h].map(|code| VALUES[code]);
                let word = (v | w << 4 | h << 8) as u16;
                let answered = at_operand(place, exec_code, word);
                // Document 01: "Width 1, 2, 4, 8 or 16 and at most ExecSize; V 0, 1, 2, 4, 8, 16 or 32; H 0, 1, 2 or
                // 4; no Null. Destination: H 1, 2 or 4, the other two Null."
                let was_right = match (vertical, width, horizontal) {
                    (None, None, Some(1 | 2 | 4)) if place == 1 => true,
                    (Some(_), Some(width @ (1 | 2 | 4 | 8 | 16)), Some(0 | 1 | 2 | 4)) => {
                        place != 1 && width <= 1 << exec_code
                    }
                    _ => false,
                };
                if was_right {
                    assert!([0, 7].contains(&answered.number), "{word:04x}");
                    assert_eq!(answered.detail, Detail::None);
                } else {
                    assert!((20..=24).contains(&answered.number), "{word:04x}");
                    assert_eq!(answered.detail, Detail::Operand(place));
                }
            }
        }
    }
}

/// The single faults of a field at a source or at the destination: number, the field's lowest bit, its code.
fn faults(place: usize, exec_code: u8) -> Vec<(u8, u16, u16)> {
    let mut faults = Vec::new();
    if place == 1 {
        faults.extend([(21, 8, 5), (21, 8, 6), (21, 8, 7), (23, 8, 1), (24, 8, 0)]);
        faults.extend((1..8).map(|code| (24, 0, code)));
        faults.extend((1..8).map(|code| (24, 4, code)));
    } else {
        faults.extend([(20, 4, 1), (20, 4, 7), (21, 8, 5), (21, 8, 6), (21, 8, 7)]);
        faults.extend([(24, 0, 0), (24, 4, 0), (24, 8, 0)]);
        // Code 2 is width 1, code 6 is 16.
        faults.extend((u16::from(exec_code) + 3..=6).map(|code| (22, 4, code)));
    }
    faults
}

/// Every pair of faults in two fields of one operand gives the number that comes first, and each alone its own.
#[test]
fn two_faults_in_one_operand() {
    for place in 1..=3 {
        for exec_code in 0..6 {
            let good = if place == 1 { 0x0200 } else { SCALAR_REGION };
            let set = |word: u16, shift: u16, code: u16| word & !(15 << shift) | code << shift;
            let faults = faults(place, exec_code);
            for (number, shift, code) in &faults {
                let word = set(good, *shift, *code);
                assert_eq!(at_operand(place, exec_code, word), named(*number, place));
                for (other, other_shift, other_code) in &faults {
                    if other_shift == shift {
                        continue;
                    }
                    let word = set(word, *other_shift, *other_code);
                    let first = *number.min(other);
                    assert_eq!(at_operand(place, exec_code, word), named(first, place));
                }
            }
        }
    }
}

/// The first operand at fault stands, whatever the numbers; a wrong region stands before a later operand's 5 and 4, and
/// behind an earlier one's 7.
#[test]
fn faults_in_two_operands() {
    let dst = |word| general(UB, 0, 0, word);
    let src = |word| general(UB, 0, 0, word);
    let number = |dst: &Operand, src0: &Operand, src1: &Operand| {
        run_on(&mut stage(), &[shl(3, 0, dst, src0, src1)])
    };
    let good = dst(0x0200);
    let width_0 = src(source_region(8, 0, 1));
    let stride_8 = src(source_region(8, 8, 8));
    assert_eq!(number(&dst(0x0255), &width_0, &width_0), named(24, 1));
    assert_eq!(number(&good, &stride_8, &width_0), named(21, 2));
    assert_eq!(number(&good, &width_0, &stride_8), named(20, 2));
    assert_eq!(number(&good, &width_0, &width_0), named(20, 2));
    assert_eq!(number(&good, &immediate(0, 1), &width_0), named(20, 3));
    for later in [general(NO_VARIABLE, 0, 0, 0x0255), immediate(7, 0)] {
        assert_eq!(number(&good, &width_0, &later), named(20, 2));
    }
    let outside = general(UB, 255, 0, 0x0200);
    assert_eq!(number(&outside, &width_0, &width_0), answer(7, 0, 0));
    // Outside as well, its region comes first.
    let both = general(UB, 255, 0, 0x0100);
    assert_eq!(number(&both, &width_0, &width_0), named(23, 1));
}

/// "a scalar's region is judged by 25 alone", whatever is wrong; "surfaces not counted".
#[test]
fn every_region_word_of_a_scalar() {
    for codes in 0..512u16 {
        let word = codes % 8 | (codes / 8 % 8) << 4 | (codes / 64) << 8;
        for (draft, good) in [
            (
                gather(
                    0x03,
                    0,
                    2,
                    0,
                    &general(UD, 0, 0, word),
                    &raw(UD, 0),
                    &raw(F, 0),
                ),
                answer(0, 1, 24),
            ),
            (
                scatter(
                    0x03,
                    0,
                    1,
                    &general(UQ, 0, 0, word),
                    &raw(UQ, 0),
                    &raw(F, 0),
                ),
                pair(12, 0, 0),
            ),
            (
                raw_send(
                    0x03,
                    0,
                    1,
                    1,
                    &general(UD, 0, 0, word),
                    &raw(UD, 0),
                    &raw(F, 0),
                ),
                answer(9, 0, 0),
            ),
        ] {
            let expected = match word {
                0x0121 => good,
                _ => named(25, 1),
            };
            assert_eq!(run_on(&mut stage(), &[draft]), expected, "{word:04x}");
        }
    }
}

/// Each lane and channel of a scatter of 16 lanes, the mask's offset not added, lanes that are off not counted.
#[test]
fn every_pair() {
    for channels in 1..16u8 {
        let lowest = u64::from(channels.trailing_zeros());
        for lane in 0..16u64 {
            for (exec, on) in [(0x04, 1 << lane), (0x44, 1 << (lane + 16)), (0x84, 0)] {
                for (offset, number) in [(0x40, 12), (0x42, 11)] {
                    let mut case = stage();
                    case.execution_mask = on;
                    // The other lanes are at the window's start.
                    let mut offsets = [0; 16];
                    offsets[lane as usize] = offset;
                    put_uq(&mut case, start(UQ), &offsets);
                    let address = immediate_uq(case.base);
                    let draft = scatter(exec, 0, channels, &address, &raw(UQ, 0), &raw(UD, 0));
                    let answered = run_on(&mut case, &[draft]);
                    assert_eq!(answered, pair(number, lowest, lane));
                }
            }
        }
    }
}

/// "name the operand" is said of 20 to 25, "Likewise" of 11 and 12: 4, 5, 7, 8, 9 and 10 carry nothing.
#[test]
fn the_others_carry_nothing() {
    let good = general(UB, 0, 0, 0x0200);
    let one = immediate(0, 1);
    let source = |index, row| general(index, row, 0, source_region(8, 8, 1));
    let mut case = stage();
    case.register_taint[start(UQ)] = 1;
    let sent = raw_send(0x03, 0, 1, 1, &one, &raw(UD, 0), &raw(UD, 0));
    let address = immediate_uq(0x1001);
    for (number, draft) in [
        (4, shl(3, 0, &good, &source(F, 0), &one)),
        (5, shl(3, 0, &good, &source(NO_VARIABLE, 0), &one)),
        (7, shl(3, 0, &good, &source(UB, 255), &one)),
        (8, shl(0x15, 0, &good, &one, &one)),
        (9, sent),
        (10, scatter(0x03, 0, 1, &address, &raw(UQ, 0), &raw(UD, 0))),
    ] {
        assert_eq!(run_on(&mut case.clone(), &[draft]), answer(number, 0, 0));
    }
}
