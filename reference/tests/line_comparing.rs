//! The comparison of lines and its generator: equal answers pass, every wrong program is caught on exactly the lines that
//! it answers wrongly, and a line depends on its seed and index alone.

mod wrong;
#[path = "wrong/lines.rs"]
mod wrong_lines;

use reference::assembled::assembled;
use reference::generate::line_cases::{line_case, LineKind};
use reference::listed::listed;
use reference::programs::LineProgram;
use std::collections::{BTreeMap, BTreeSet};
use std::process::{Command, Output};

const COMPARE: &str = env!("CARGO_BIN_EXE_compare-lines");
const LINES: &str = env!("CARGO_BIN_EXE_lines");
const LISTING: &str = env!("CARGO_BIN_EXE_listing");
const ASSEMBLER: &str = env!("CARGO_BIN_EXE_assembler");

fn compare(kind: &str, command: &str, arguments: &[&str]) -> Output {
    // A backtrace of each panic on purpose would take its time.
    Command::new(COMPARE)
        .env("RUST_BACKTRACE", "0")
        .args([kind, "--command", command])
        .args(arguments)
        .output()
        .unwrap()
}

fn text(output: &Output) -> String {
    String::from_utf8(output.stdout.clone()).unwrap()
}

fn last_line(output: &Output) -> String {
    text(output).lines().last().unwrap_or_default().to_string()
}

#[test]
fn the_programs_pass() {
    for (kind, command) in [("kernels", LISTING), ("texts", ASSEMBLER)] {
        let output = compare(kind, command, &["--seed", "2", "--count", "3500"]);
        assert_eq!(text(&output), "3500 passed, 0 failed\n");
        assert!(output.status.success());
        // A single line, one without its 0x0a among them.
        for first in ["3", "4"] {
            let output = compare(kind, command, &["--first", first, "--count", "1"]);
            assert_eq!(text(&output), "1 passed, 0 failed\n");
        }
    }
}

/// On how many of the first lines of seed 1 two line programs differ.
fn differences(kind: LineKind, count: u64, a: LineProgram, b: LineProgram) -> u64 {
    let differ = |index: &u64| {
        let line = line_case(kind, 1, *index).line;
        a(&line) != b(&line)
    };
    (0..count).filter(differ).count() as u64
}

fn is_caught(kind: LineKind, way: &str, count: u64, words: &str) {
    let (program, right, wrong) = match kind {
        LineKind::Kernels => ("listing", listed as LineProgram, wrong_lines::listing(way)),
        LineKind::Texts => (
            "assembler",
            assembled as LineProgram,
            wrong_lines::assembler(way),
        ),
    };
    let command = format!("{} {way} {program}", wrong::program());
    let count_word = count.to_string();
    let arguments = ["--count", &count_word, "--show", "1000"];
    let output = compare(kind.name(), &command, &arguments);
    assert_eq!(output.status.code(), Some(1), "{way}");
    let failed = differences(kind, count, right, wrong);
    assert!(failed > 0, "{way}");
    let last = format!("{} passed, {failed} failed", count - failed);
    assert_eq!(last_line(&output), last, "{way}");
    let report = text(&output);
    assert!(report.contains(words), "{way}: {report}");
    let reports = report.matches(&format!("seed 1, {} ", kind.name())).count() as u64;
    assert_eq!(reports, failed, "{way}");
    for part in ["\nline:\n", "\nexpected:\n", "\n    1 "] {
        assert!(report.contains(part), "{way}: {part:?}");
    }
}

#[test]
fn wrong_listings_are_caught() {
    for (way, count, words) in [
        ("null-as-0", 150, "expected \"SHL"),
        ("cut-immediate", 300, ":uw"),
        ("room", 300, "got \"! 15 0\\n\""),
        (
            "position-from-1",
            150,
            "character 6: expected \"! 14 0\\n\", got \"! 14 1\\n\"",
        ),
        ("no-nm", 150, "_NM,"),
        ("line-end", 60, " \\n\""),
        ("upper-case", 300, "expected \"! 14 0\\n\""),
        (
            "empty-kernel",
            300,
            "more than the answer is there: got \"\\n\" behind it",
        ),
        ("4096", 500, "got \"! 13 0\\n\""),
        ("no-limit", 1000, "expected \"! 14 0\\n\", got \""),
        ("cut-at-65536", 1000, "expected \"! 14 0\\n\", got \""),
        ("hex-later", 60, "expected \"! 14 0\\n\", got \""),
        ("silent", 40, "the output ends before line 1 of the answer"),
    ] {
        is_caught(LineKind::Kernels, way, count, words);
    }
}

#[test]
fn wrong_assemblers_are_caught() {
    for (way, count, words) in [
        ("braces-of-zeros", 1500, "expected \"! 16 "),
        (
            "column-from-0",
            60,
            "expected \"! 16 1\\n\", got \"! 16 0\\n\"",
        ),
        ("word-start", 60, "expected \"! 16 "),
        ("plain-p0", 1500, "expected \"! 16 4\\n\""),
        ("cut-immediate", 800, "expected \""),
        ("room", 1500, "got \"! 15 0\\n\""),
        ("trailing-space", 1500, "expected \"! 16 "),
        ("three-fields", 1500, "expected \"! 16 "),
        ("upper-case", 1500, "expected \"! 16 "),
        ("scale-lost", 300, "expected \""),
        ("first-108", 1500, "expected \"! 16 109\\n\", got \""),
        ("behind-128", 1500, "expected \"! 16 "),
        ("pieces-of-128", 1500, "behind it"),
        ("silent", 40, "the output ends before line 1 of the answer"),
    ] {
        is_caught(LineKind::Texts, way, count, words);
    }
}

/// The longest line has 108 characters, so that what stands behind the 109th of a text does not matter.
#[test]
fn the_first_109_characters_are_enough() {
    let mut longer = 0;
    for index in 0..20_000 {
        let line = line_case(LineKind::Texts, 1, index).line;
        if line.len() > 109 {
            longer += 1;
            assert_eq!(assembled(&line), assembled(&line[..109]), "{index}");
        }
    }
    assert!(longer > 300, "{longer}");
}

/// Commands that are no such program at all, and one that ends in the middle.
#[test]
fn other_commands_fail() {
    for (command, words) in [
        ("true", "the output ends before line 1 of the answer"),
        ("cat", "first difference: line 1 of the answer, character 1"),
        ("sleep 9", "no end within 1 s"),
        ("no-such-program-anywhere", "cannot start"),
    ] {
        let output = compare("texts", command, &["--count", "2", "--timeout", "1"]);
        assert_eq!(output.status.code(), Some(1));
        assert_eq!(last_line(&output), "0 passed, 2 failed", "{command}");
        let report = text(&output);
        assert!(report.contains(words), "{command}: {report}");
    }
    let command = format!("{} panic assembler", wrong::program());
    let output = compare("texts", &command, &["--count", "30"]);
    let taken = (0..30).filter(|index| {
        let line = line_case(LineKind::Texts, 1, *index).line;
        !assembled(&line).concat().starts_with('!')
    });
    let passed = taken.count();
    let last = format!("{passed} passed, {} failed", 30 - passed);
    assert_eq!(last_line(&output), last);
}

/// Wrong only where lines come together: the program forgets what stands behind its first 16,384 characters.
#[test]
fn wrong_together_is_caught() {
    let folder = env!("CARGO_TARGET_TMPDIR");
    let script = format!("{folder}/forgets.sh");
    std::fs::write(&script, format!("head -c 16384 | {ASSEMBLER}\n")).unwrap();
    let output = compare("texts", &format!("sh {script}"), &["--count", "300"]);
    assert_eq!(output.status.code(), Some(1));
    let report = text(&output);
    assert!(report.contains("wrong only where"), "{report}");
    // Where few are given at once, all is right.
    let output = compare("texts", &format!("sh {script}"), &["--count", "20"]);
    assert_eq!(last_line(&output), "20 passed, 0 failed");
}

#[test]
fn bad_use() {
    for arguments in [
        &[][..],
        &["kernels"],
        &["words", "--command", "true"],
        &["texts", "--command", " "],
        &["texts", "--command", "true", "--count"],
        &["texts", "--command", "true", "--count", "x"],
        &["texts", "--command", "true", "--jobs"],
    ] {
        let output = Command::new(COMPARE).args(arguments).output().unwrap();
        assert_eq!(output.status.code(), Some(2), "{arguments:?}");
        assert_eq!(text(&output), "");
        let problem = String::from_utf8(output.stderr).unwrap();
        assert!(problem.contains("usage: compare-lines "), "{problem}");
    }
    for arguments in [&[][..], &["words"], &["texts", "--count"], &["texts", "-1"]] {
        let output = Command::new(LINES).args(arguments).output().unwrap();
        assert_eq!(output.status.code(), Some(2), "{arguments:?}");
        assert_eq!(text(&output), "");
    }
}

/// A panic of the library is named, and the other lines are judged all the same.
#[test]
fn a_panic_is_named() {
    let arguments = ["panic", "compare-lines", "texts", "--command", ASSEMBLER];
    let output = Command::new(wrong::program())
        .args(arguments)
        .args(["--count", "30"])
        .output()
        .unwrap();
    assert_eq!(output.status.code(), Some(1));
    let refused = (0..30).filter(|index| {
        let line = line_case(LineKind::Texts, 1, *index).line;
        assembled(&line).concat().starts_with('!')
    });
    let names = refused
        .map(|index| format!("compare-lines: panic at seed 1, texts {index}: wrong on purpose"));
    let names: Vec<String> = names.collect();
    let named = String::from_utf8(output.stderr.clone()).unwrap();
    let named: Vec<&str> = named
        .lines()
        .filter(|line| line.starts_with("compare-lines: "))
        .collect();
    assert_eq!(named, names);
    let failed = names.len();
    let last = format!("{} passed, {failed} failed", 30 - failed);
    assert_eq!(last_line(&output), last);
}

fn lines(arguments: &[&str]) -> Vec<u8> {
    let output = Command::new(LINES).args(arguments).output().unwrap();
    assert!(output.status.success());
    output.stdout
}

/// A line depends on its seed and index alone, and has no 0x0a of its own.
#[test]
fn lines_are_determined() {
    for kind in LineKind::ALL {
        let name = kind.name();
        let mut all = Vec::new();
        for index in 40..100 {
            let case = line_case(kind, 5, index);
            assert_eq!(case, line_case(kind, 5, index));
            assert!(!case.line.contains(&0x0a));
            all.extend(case.line);
            all.push(0x0a);
        }
        let from = ["--seed", "5", "--first", "40", "--count", "60"];
        assert_eq!(lines(&[&[name], &from[..]].concat()), all);
        let whole = lines(&[name, "--seed", "5", "--count", "100"]);
        assert!(whole.ends_with(&all));
        let other = lines(&[name, "--seed", "6", "--count", "100"]);
        assert_ne!(whole, other);
    }
}

/// Every kind of line comes, and every answer that there is.
#[test]
fn lines_are_spread() {
    let mut names = BTreeMap::new();
    let mut answers = BTreeMap::new();
    let mut columns = BTreeSet::new();
    let mut read = 0;
    for index in 0..20_000 {
        let case = line_case(LineKind::Kernels, 1, index);
        *names.entry(case.name).or_insert(0) += 1;
        for line in listed(&case.line) {
            let words: Vec<&str> = line.split(' ').collect();
            let answer = match words[0] {
                "!" => words[1].to_string(),
                _ => words[usize::from(line.starts_with('('))][..3].to_string(),
            };
            *answers.entry(answer).or_insert(0) += 1;
        }
        let case = line_case(LineKind::Texts, 1, index);
        *names.entry(case.name).or_insert(0) += 1;
        match reference::read::read(&case.line) {
            Ok(_) => read += 1,
            Err(column) => {
                columns.insert(column);
            }
        }
    }
    assert_eq!(names.len(), 10 + 15);
    // The longest kernels take their time.
    let longest = names.remove("about the longest kernel");
    assert!(longest.is_some_and(|count| (10..40).contains(&count)));
    assert!(names.values().all(|count| *count > 100), "{names:?}");
    // The README has these numbers.
    let (refused, listed): (Vec<_>, Vec<_>) = answers
        .iter()
        .partition(|(answer, _)| answer.parse::<u8>().is_ok());
    let refused: Vec<(&str, u64)> = refused.iter().map(|(n, k)| (n.as_str(), **k)).collect();
    let expected = [
        ("1", 1548),
        ("14", 2244),
        ("2", 980),
        ("3", 2098),
        ("4", 308),
    ];
    assert_eq!(refused, expected);
    assert!(listed
        .iter()
        .map(|(kind, _)| *kind)
        .eq(["GAT", "SHL", "SVM", "raw"].iter()));
    assert!(
        listed.iter().all(|(_, count)| **count > 20_000),
        "{listed:?}"
    );
    assert_eq!(
        listed.iter().map(|(_, count)| **count).sum::<u64>(),
        105_921
    );
    assert_eq!(read, 5532);
    // The longest line has 108 characters.
    assert!(columns.iter().copied().eq(1..=109), "{columns:?}");
}
