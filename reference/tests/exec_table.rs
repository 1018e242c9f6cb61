//! The exec byte's table: every line by document 01's words, the program that writes it, and the comparison, which catches
//! every wrong table on exactly its wrong lines.

mod wrong;

use reference::exec_line::exec_line;
use reference::listed::listed;
use std::process::{Command, Output};

const EXEC_TABLE: &str = env!("CARGO_BIN_EXE_exec-table");
const COMPARE: &str = env!("CARGO_BIN_EXE_compare-lines");

fn run(program: &str, arguments: &[&str]) -> Output {
    let mut command = Command::new(program);
    command.args(arguments).output().unwrap()
}

fn text(output: &Output) -> String {
    String::from_utf8(output.stdout.clone()).unwrap()
}

/// "bits 0-2 sizes 1, 2, 4, 8, 16, 32"; "bits 4-7 M1..M8, then M1_NM..M8_NM. Mk and Mk_NM have offset 4(k-1)."
#[test]
fn examples() {
    for (byte, line) in [
        // Codes 0: size 1; M1, M1_NM.
        (0x00, "00 1 0"),
        (0x80, "80 1 0 NM"),
        // Code 4: size 16; 9 is M2_NM: offset 4.
        (0x94, "94 16 4 NM"),
        // Code 3: size 8; 2 is M3: offset 8.
        (0x23, "23 8 8"),
        // Code 5: size 32; M2, M8. 36 and 60 are over 32: a run's 8.
        (0x15, "15 32 4"),
        (0x75, "75 32 28"),
        // Code 4; 15 is M8_NM: offset 28, and 44 is over 32.
        (0xf4, "f4 16 28 NM"),
        // Code 1: size 2; M8. Code 5; M8_NM.
        (0x71, "71 2 28"),
        (0xf5, "f5 32 28 NM"),
        // Codes 6 and 7.
        (0x06, "06 reserved"),
        (0x07, "07 reserved"),
        (0xf6, "f6 reserved"),
        // Bit 3, with codes 0, 4, 6, 7.
        (0x08, "08 reserved"),
        (0x0c, "0c reserved"),
        (0x8e, "8e reserved"),
        (0xff, "ff reserved"),
    ] {
        assert_eq!(exec_line(byte), line);
    }
}

/// All lines, from the masks and sizes to the bytes.
fn papers_table() -> Vec<String> {
    let mut lines: Vec<String> = (0..256)
        .map(|byte| format!("{byte:02x} reserved"))
        .collect();
    for (code, size) in [1, 2, 4, 8, 16, 32].into_iter().enumerate() {
        for k in 1..=8 {
            let offset = 4 * (k - 1);
            // M1 is 0 and M1_NM 8.
            for (mask, kind) in [(k - 1, ""), (k + 7, " NM")] {
                let byte = 16 * mask + code;
                lines[byte] = format!("{byte:02x} {size} {offset}{kind}");
            }
        }
    }
    lines
}

#[test]
fn every_line() {
    let lines: Vec<String> = (0..=255).map(exec_line).collect();
    assert_eq!(lines, papers_table());
    // Six sizes and sixteen masks.
    let reserved = lines.iter().filter(|line| line.ends_with(" reserved"));
    assert_eq!(reserved.count(), 160);
    let no_mask = lines.iter().filter(|line| line.ends_with(" NM"));
    assert_eq!(no_mask.count(), 48);
}

/// A line is the byte in two lower-case hex digits, size and offset in decimal, and NM if so; or the byte and `reserved`.
#[test]
fn the_program() {
    let output = run(EXEC_TABLE, &[]);
    assert!(output.status.success());
    assert!(output.stderr.is_empty());
    let table = text(&output);
    let lines: Vec<&str> = table.split_inclusive('\n').collect();
    assert_eq!(lines.len(), 256);
    for (byte, line) in lines.into_iter().enumerate() {
        let words: Vec<&str> = line.strip_suffix('\n').unwrap().split(' ').collect();
        assert_eq!(words[0], format!("{byte:02x}"));
        let is_number = |word: &str| word.bytes().all(|it| it.is_ascii_digit());
        match words[1..] {
            ["reserved"] => {}
            [size, offset] | [size, offset, "NM"] => {
                assert!(["1", "2", "4", "8", "16", "32"].contains(&size), "{line}");
                assert!(is_number(offset) && !offset.is_empty(), "{line}");
            }
            _ => panic!("{line}"),
        }
    }
    let output = run(EXEC_TABLE, &["00"]);
    assert_eq!(output.status.code(), Some(2));
    assert_eq!(text(&output), "");
    let problem = String::from_utf8(output.stderr).unwrap();
    assert!(problem.starts_with("usage: exec-table"), "{problem}");
}

/// Decoding and the listing split the byte in the same way: `(Mk,size)` or `(Mk_NM,size)`, and 3 for what is reserved.
#[test]
fn the_listing_agrees() {
    for byte in 0..=255 {
        let line = exec_line(byte);
        let kernel = format!("24{byte:02x}000000010000000002050201000000050201000000");
        let listing = listed(kernel.as_bytes());
        let words: Vec<&str> = line.split(' ').collect();
        let expected = match words[1..] {
            [size, offset, ..] => {
                let mask = offset.parse::<u32>().unwrap() / 4 + 1;
                let kind = if words.len() == 4 { "_NM" } else { "" };
                format!("SHL (M{mask}{kind},{size}) v1(0,0)<1> 0x1:uw 0x1:uw")
            }
            _ => "! 3 0".to_string(),
        };
        assert_eq!(listing, [expected], "{line}");
    }
}

fn compare(command: &str, arguments: &[&str]) -> Output {
    let compared = ["exec-bytes", "--command", command];
    run(COMPARE, &[&compared, arguments].concat())
}

fn last_line(output: &Output) -> String {
    text(output).lines().last().unwrap_or_default().to_string()
}

#[test]
fn the_program_passes() {
    let output = compare(EXEC_TABLE, &[]);
    assert_eq!(text(&output), "256 passed, 0 failed\n");
    assert!(output.status.success());
}

/// Each wrong table with the lines that are right, those that are not, and words for one of these.
#[test]
fn wrong_tables_are_caught() {
    for (way, passed, failed, words) in [
        (
            "one-size",
            255,
            1,
            "exec byte 94: first difference: line 149 of the answer, character 5: expected \"94 16 4 NM\\n\", got \"94 17 4 NM\\n\"",
        ),
        ("one-good", 255, 1, "expected \"8e reserved\\n\", got \"8e 1 0\\n\""),
        ("one-reserved", 255, 1, "expected \"f4 16 28 NM\\n\", got \"f4 reserved\\n\""),
        // Every offset, and every one but that of M1 and M1_NM in six sizes.
        ("mask-number", 160, 96, "expected \"00 1 0\\n\", got \"00 1 1\\n\""),
        ("mask-from-0", 172, 84, "expected \"10 1 4\\n\", got \"10 1 1\\n\""),
        // Seven offsets of size 32, three of 16 and one of 8, NM or not.
        ("over-32", 234, 22, "expected \"15 32 4\\n\", got \"15 reserved\\n\""),
        // Four sizes, sixteen masks.
        ("scatter", 192, 64, "expected \"00 1 0\\n\", got \"00 reserved\\n\""),
        // Six sizes with bit 3, sixteen masks; two codes without it.
        ("bit-3", 160, 96, "expected \"08 reserved\\n\", got \"08 1 0\\n\""),
        ("codes-6-and-7", 224, 32, "expected \"06 reserved\\n\", got \"06 4 0\\n\""),
        ("no-nm", 208, 48, "expected \"80 1 0 NM\\n\", got \"80 1 0\\n\""),
        ("nm-of-all", 48, 208, "character 7: expected \"00 1 0\\n\", got \"00 1 0 NM\\n\""),
        // A hundred bytes are two decimal digits.
        ("upper-case", 100, 156, "expected \"0a reserved\\n\", got \"0A reserved\\n\""),
        ("two-spaces", 0, 256, "expected \"00 1 0\\n\", got \"00  1 0\\n\""),
        ("space-behind", 0, 256, "expected \"00 1 0\\n\", got \"00 1 0 \\n\""),
        (
            "last-missing",
            255,
            1,
            "exec byte ff: first difference: the output ends before line 256 of the answer, \"ff reserved\"",
        ),
        ("first-missing", 0, 256, "exec byte 00: first difference: line 1 of the answer"),
        ("last-twice", 256, 1, "behind the last exec byte: got \"ff reserved\\n\""),
        ("empty-line-behind", 256, 1, "behind the last exec byte: got \"\\n\""),
        ("no-last-end", 255, 1, "expected \"ff reserved\\n\", got \"ff reserved\""),
        ("silent", 0, 256, "the output ends before line 1 of the answer, \"00 1 0\""),
    ] {
        let command = format!("{} {way} exec-table", wrong::program());
        let output = compare(&command, &["--show", "300"]);
        assert_eq!(output.status.code(), Some(1), "{way}");
        let last = format!("{passed} passed, {failed} failed");
        assert_eq!(last_line(&output), last, "{way}");
        let report = text(&output);
        assert!(report.contains(words), "{way}: {report}");
        assert_eq!(report.lines().count(), failed + 1, "{way}");
    }
    // Three are shown.
    let output = compare("true", &[]);
    assert_eq!(text(&output).lines().count(), 4);
}

/// Commands that write no table at all.
#[test]
fn other_commands_fail() {
    for (command, words) in [
        ("true", "the output ends before line 1"),
        // Nothing on its standard input.
        ("cat", "the output ends before line 1"),
        ("sleep 9", "exec byte 00: no end within 1 s"),
        ("no-such-program-anywhere", "exec byte 00: cannot start"),
    ] {
        let output = compare(command, &["--timeout", "1"]);
        assert_eq!(output.status.code(), Some(1), "{command}");
        assert_eq!(last_line(&output), "0 passed, 256 failed", "{command}");
        let report = text(&output);
        assert!(report.contains(words), "{command}: {report}");
    }
}

/// A panic of the library is named, and the other lines are judged all the same.
#[test]
fn a_panic_is_named() {
    let arguments = ["panic", "compare-lines", "exec-bytes", "--command"];
    let output = run(wrong::program(), &[&arguments[..], &[EXEC_TABLE]].concat());
    assert_eq!(output.status.code(), Some(1));
    assert_eq!(last_line(&output), "96 passed, 160 failed");
    let named = String::from_utf8(output.stderr).unwrap();
    let named: Vec<&str> = named
        .lines()
        .filter(|line| line.starts_with("compare-lines: "))
        .collect();
    assert_eq!(named.len(), 160);
    assert_eq!(
        named[0],
        "compare-lines: exec byte 06: panic: wrong on purpose"
    );
}

/// The table is not generated: no seed, and no count of lines.
#[test]
fn bad_use() {
    for arguments in [
        &["exec-bytes"][..],
        &["exec-bytes", "--command", " "],
        &["exec-bytes", "--command", "true", "--seed", "1"],
        &["exec-bytes", "--command", "true", "--count", "1"],
        &["exec-bytes", "--command", "true", "--first", "1"],
        &["exec-bytes", "--command", "true", "--whole"],
        &["exec-bytes", "--command", "true", "--show"],
    ] {
        let output = run(COMPARE, arguments);
        assert_eq!(output.status.code(), Some(2), "{arguments:?}");
        assert_eq!(text(&output), "");
        let problem = String::from_utf8(output.stderr).unwrap();
        assert!(problem.contains("compare-lines exec-bytes "), "{problem}");
    }
}
