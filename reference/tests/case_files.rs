//! The bench program's lines: what is a bad line (14), what is absent, 14 before 13, and the output.

use reference::bench::bench;
use reference::case::{Case, Predicate, Variable};
use reference::case_file::read_case;
use reference::case_writer::write_case;
use reference::register_size::RegisterSize;

fn output(input: &str) -> String {
    String::from_utf8(bench(input.as_bytes())).unwrap()
}

/// The output of an answer 14 at a line.
fn bad_line(line: u8) -> String {
    format!("400e0000{line:02x}000000\n")
}

const THIRTEEN: &str = "400d000000000000\n";
const NOTHING: &str = "4000000000000000\n01\n050000000000000000\n08\n0a\n";

/// "absent means empty, base 0, EM 0, marks all 0". Empty input has no line.
#[test]
fn nothing_given() {
    assert_eq!(output(""), NOTHING);
    let same = [
        "01",
        "04",
        "050000000000000000",
        "06ffffffff",
        "07",
        "08",
        "09",
        "0a",
    ];
    for line in same {
        assert_eq!(output(line), NOTHING, "{line}");
        assert_eq!(output(&format!("{line}\n")), NOTHING, "{line}");
    }
}

/// Empty lines: a lone 0x0a, one at the start, in the middle, at the end.
#[test]
fn empty_lines() {
    assert_eq!(output("\n"), bad_line(1));
    assert_eq!(output("\n01\n"), bad_line(1));
    assert_eq!(output("01\n\n"), bad_line(2));
    assert_eq!(output("01\n\n07\n"), bad_line(2));
    assert_eq!(output("01\n07\n\n\n"), bad_line(3));
}

/// Any character but 0-9 and a-f, and an odd number of digits.
#[test]
fn characters() {
    for line in [
        "0", "1", "010", "01a", "01 ", " 01", "01\r", "01 00", "010A", "01fG", "01g0", "010g",
        "0x01", "01/0", "01:0", "01`0", "01@0", "01\t", "#",
    ] {
        assert_eq!(output(line), bad_line(1), "{line:?}");
    }
    assert_eq!(bench(b"01\x00\x00"), bad_line(1).as_bytes());
    assert_eq!(bench(b"\xff\xfe"), bad_line(1).as_bytes());
    assert_eq!(bench(b"07\r\n"), bad_line(1).as_bytes());
}

/// "Anything else": kinds not listed.
#[test]
fn kinds() {
    for kind in 0..=255u8 {
        let line = format!("{kind:02x}");
        let needs_more = [2, 3, 5, 6].contains(&kind);
        let listed = (1..=10).contains(&kind);
        let expected = if listed && !needs_more {
            NOTHING.to_string()
        } else {
            bad_line(1)
        };
        assert_eq!(output(&line), expected, "{line}");
    }
}

/// Lengths: 02 has 5 bytes, 03 has 4 or 5, 06 has 4, 05 has 8 or more.
#[test]
fn lengths() {
    for length in 0..12usize {
        let frame = |kind: &str| format!("{kind}{}", "00".repeat(length));
        // A variable of nothing, in no file, is 13 when the line is good.
        let expected = if length == 5 {
            THIRTEEN.to_string()
        } else {
            bad_line(1)
        };
        assert_eq!(output(&frame("02")), expected);
        let expected = if length == 4 {
            NOTHING.to_string()
        } else {
            bad_line(1)
        };
        assert_eq!(output(&frame("06")), expected);
        // A predicate of no elements is 13.
        let expected = match length {
            4 => NOTHING.to_string(),
            5 => THIRTEEN.to_string(),
            _ => bad_line(1),
        };
        assert_eq!(output(&frame("03")), expected);
        if length < 8 {
            assert_eq!(output(&frame("05")), bad_line(1));
        } else {
            assert!(output(&frame("05")).starts_with("4000"));
        }
    }
}

/// "02, 03, 04 repeat, ...; others once at most".
#[test]
fn once_at_most() {
    for line in [
        "01",
        "050000000000000000",
        "0600000000",
        "07",
        "08",
        "09",
        "0a",
    ] {
        assert_eq!(
            output(&format!("{line}\n04\n{line}\n")),
            bad_line(3),
            "{line}"
        );
    }
    for line in ["0300000000", "04"] {
        assert_eq!(
            output(&format!("{line}\n{line}\n{line}\n")),
            NOTHING,
            "{line}"
        );
    }
}

/// "one over 16,386 characters": at the limit, and one and two past.
#[test]
fn long_lines() {
    let line = |characters: usize| format!("04{}", "0".repeat(characters - 2));
    // 8,192 bytes of a surface are too many for its size, and fit a line.
    assert_eq!(output(&line(16_386)), THIRTEEN);
    assert_eq!(output(&line(16_387)), bad_line(1));
    assert_eq!(output(&line(16_388)), bad_line(1));
    // Eight full surfaces and their marks: the longest line that is of use.
    let mut file = format!("04{}\n", "ab".repeat(1024)).repeat(8);
    file.push_str(&format!("09{}", "01".repeat(8192)));
    assert_eq!(output(&file), NOTHING);
    file.push_str("01");
    assert_eq!(output(&file), bad_line(9));
}

/// "at the first such line and before any 13".
#[test]
fn fourteen_before_thirteen() {
    // One register byte is 13.
    assert_eq!(output("0100\n"), THIRTEEN);
    assert_eq!(output("0100\n07\n0c\n"), bad_line(3));
    assert_eq!(output("0100\n\n0c\n"), bad_line(2));
    // A kernel that would be refused, and a bad line after it.
    assert_eq!(
        output("07ff\n"),
        "4002000000000000\n01\n050000000000000000\n08\n0a\n"
    );
    assert_eq!(output("07ff\nzz"), bad_line(2));
}

/// Tables too long are 13, not 14.
#[test]
fn thirteen() {
    let registers = format!("01{}\n", "00".repeat(32));
    let variables = |n| format!("{registers}{}", "020400000100\n".repeat(n));
    assert!(output(&variables(256)).starts_with("4000000000000000\n01"));
    assert_eq!(output(&variables(257)), THIRTEEN);
    assert_eq!(output(&"0300000000\n".repeat(64)), NOTHING);
    assert_eq!(output(&"0300000000\n".repeat(65)), THIRTEEN);
    assert_eq!(output(&"04\n".repeat(8)), NOTHING);
    assert_eq!(output(&"04\n".repeat(9)), THIRTEEN);
    assert_eq!(output(&format!("01{}", "00".repeat(4128))), THIRTEEN);
    assert_eq!(output(&format!("07{}", "24".repeat(4097))), THIRTEEN);
    assert_eq!(
        output("05ffffffffffffffff00").lines().next(),
        Some("4000000000000000")
    );
    assert_eq!(output("05ffffffffffffffff0000"), THIRTEEN);
}

/// "A marks frame that is absent means zeros; one that is present and of another length (empty
/// included) is 13."
#[test]
fn marks() {
    let zeros = "00".repeat(32);
    let answered = |taint: &str| output(&format!("01{zeros}\n{taint}\n"));
    let good = format!("4000000000000000\n01{zeros}\n050000000000000000\n08{zeros}\n0a\n");
    assert_eq!(output(&format!("01{zeros}\n")), good);
    assert_eq!(answered(&format!("08{zeros}")), good);
    assert_eq!(answered("08"), THIRTEEN);
    assert_eq!(answered(&format!("08{zeros}00")), THIRTEEN);
    assert_eq!(answered("09"), good);
    assert_eq!(answered("0900"), THIRTEEN);
    assert_eq!(answered("0a00"), THIRTEEN);
    // The mark bytes of what is not written come out as they came in.
    let strange = "07".repeat(32);
    let kept = answered(&format!("08{strange}"));
    assert_eq!(kept.lines().nth(3).unwrap(), format!("08{strange}"));
    // Surface marks cover all surfaces in order.
    assert_eq!(output("04aabb\n04cc\n09000102\n"), NOTHING);
    assert_eq!(output("04aabb\n04cc\n090001\n"), THIRTEEN);
}

/// Frames come in any order; the memory comes back with its base.
#[test]
fn any_order_and_memory() {
    let file = "0a0501\n09\n08\n07\n0601020304\n050102030405060708aabb\n0300000000\n";
    let expected = "4000000000000000\n01\n050102030405060708aabb\n08\n0a0501\n";
    assert_eq!(output(file), expected);
}

/// A refusal by the run prints the buffers too: position 23 and one completed.
#[test]
fn refusal_with_buffers() {
    let zeros = "00".repeat(32);
    let shl = "2400000000000000000002050403000000050401000000";
    assert_eq!(shl.len(), 46);
    let file = format!("01{zeros}\n020400000100\n06ff000000\n07{shl}ff\n");
    // UB element 0 becomes 3·2 = 6; the byte ff at position 23 is no opcode.
    let expected = format!(
        "4002010017000000\n0106{}\n050000000000000000\n08{zeros}\n0a\n",
        "00".repeat(31)
    );
    assert_eq!(output(&file), expected);
}

/// What the writer writes, the reader reads.
#[test]
fn written_cases_are_read_back() {
    let case = Case {
        register_size: RegisterSize(0x30),
        kernel: vec![1, 2, 3],
        registers: (0..64).collect(),
        variables: vec![
            Variable {
                type_code: 11,
                start: 0x0102,
                count: 0x0304,
            },
            Variable {
                type_code: 0xff,
                start: 0xffff,
                count: 0,
            },
        ],
        predicates: vec![
            Predicate::of_32(0x0102_0304),
            Predicate {
                bits: 0xffff_0000,
                count: 255,
            },
        ],
        surfaces: vec![vec![], vec![9, 8], vec![7]],
        base: 0x0102_0304_0506_0708,
        memory: vec![0xaa; 5],
        execution_mask: 0x8000_0001,
        register_taint: vec![3; 64],
        surface_taint: vec![0, 1, 2],
        memory_taint: vec![5],
    };
    assert_eq!(read_case(&write_case(&case)), Ok(case.clone()));
    assert_eq!(
        read_case(&write_case(&Case::default())),
        Ok(Case::default())
    );
    let first_lines = "01000102030405060708090a0b0c0d0e0f";
    assert!(write_case(&case).starts_with(first_lines.as_bytes()));
}

/// The longest kernel: 176 shifts of 23 bytes and 2 of 24 are 4,096 bytes, 178 instructions.
#[test]
fn the_longest_kernel() {
    let zeros = "00".repeat(32);
    let short = "2400000000000000000002050401000000050401000000";
    let long = "240000000000000000000200000000002101050401000000";
    assert_eq!((short.len(), long.len()), (46, 48));
    let kernel = format!("{}{}", short.repeat(176), long.repeat(2));
    let file = format!("01{zeros}\n020400000100\n06ff000000\n07{kernel}\n");
    let expected = format!(
        "4000b20000100000\n0108{}\n050000000000000000\n08{zeros}\n0a\n",
        "00".repeat(31)
    );
    // 1·2 = 2 after the short ones, then twice times 2: 8. 178 is 0xb2, 4096 is 0x1000.
    assert_eq!(output(&file), expected);
}
