//! The program `verdict` and the comparison of verdicts: equal lines pass, and every wrong copy is caught on exactly the
//! cases where it is wrong.

mod wrong;

use reference::batch::{read_entry, write_entry};
use reference::bench::answer;
use reference::difference::verdict_difference;
use reference::generate::mistakes::{Judged, Mistake};
use reference::generate::{Generator, Mode};
use reference::refusal::Detail;
use reference::verdict::verdict;
use std::io::Write;
use std::path::Path;
use std::process::{Command, Output, Stdio};

const COMPARE: &str = env!("CARGO_BIN_EXE_compare");
const VERDICT: &str = env!("CARGO_BIN_EXE_verdict");

fn run(arguments: &[&str], input: &[u8]) -> Output {
    let mut child = Command::new(VERDICT)
        .args(arguments)
        .stdin(Stdio::piped())
        .stdout(Stdio::piped())
        .stderr(Stdio::piped())
        .spawn()
        .unwrap();
    child.stdin.take().unwrap().write_all(input).unwrap();
    child.wait_with_output().unwrap()
}

fn text(output: &Output) -> String {
    String::from_utf8(output.stdout.clone()).unwrap()
}

fn last_line(output: &Output) -> String {
    text(output).lines().last().unwrap_or_default().to_string()
}

/// What names a case, and its verdict: those of the hand-made cases, derived from the papers.
fn by_hand() -> Vec<(String, String)> {
    let hand = Path::new(env!("CARGO_MANIFEST_DIR")).join("hand");
    let lines = std::fs::read_to_string(hand.join("verdicts")).unwrap();
    let split = |line: &str| {
        let (name, verdict) = line.split_once(": ").unwrap();
        (name.to_string(), format!("{verdict}\n"))
    };
    lines.lines().map(split).collect()
}

/// Every hand-made case has its line, and the program writes it.
#[test]
fn hand_made_cases() {
    let hand = Path::new(env!("CARGO_MANIFEST_DIR")).join("hand");
    let by_hand = by_hand();
    for (name, expected) in &by_hand {
        let case = std::fs::read(hand.join(format!("{name}.case"))).unwrap();
        let output = run(&[], &case);
        assert_eq!(text(&output), *expected, "{name}");
        assert!(output.status.success());
    }
    let count = std::fs::read_dir(hand.join("expected")).unwrap().count();
    assert_eq!(by_hand.len(), count);
}

/// The numbers of the 40 line stand on every verdict.
#[test]
fn verdicts_begin_as_the_answer_does() {
    let generator = Generator::new(21, None);
    for index in 0..300 {
        let file = generator.case(index).file;
        let line = reference::bench::bench(&file);
        let bytes = reference::hex::bytes_of(&line[..16]).unwrap();
        let completed = u16::from_le_bytes([bytes[2], bytes[3]]);
        let position = u32::from_le_bytes([bytes[4], bytes[5], bytes[6], bytes[7]]);
        let expected = format!("{} {completed} {position}", bytes[1]);
        let verdict = String::from_utf8(verdict(&file)).unwrap();
        let words: Vec<&str> = verdict.trim_end().split(' ').collect();
        assert_eq!(words[..3].join(" "), expected);
    }
}

#[test]
fn a_batch() {
    let mut batch = Vec::new();
    for case in ["", "07ff", "zz", "0100"] {
        write_entry(&mut batch, case.as_bytes()).unwrap();
    }
    let output = run(&["--batch"], &batch);
    let mut stream = &output.stdout[..];
    for expected in ["0 0 0\n", "2 0 0\n", "14 0 1\n", "13 0 0\n"] {
        let entry = read_entry(&mut stream).unwrap().unwrap();
        assert_eq!(String::from_utf8(entry).unwrap(), expected);
    }
    assert_eq!(read_entry(&mut stream).unwrap(), None);
}

#[test]
fn no_other_arguments() {
    let output = run(&["--no"], b"");
    assert_eq!(output.status.code(), Some(2));
    let problem = String::from_utf8(output.stderr).unwrap();
    assert_eq!(problem, "usage: verdict [--batch]\n");
}

/// Compare the verdicts of a command.
fn compare(command: &str, arguments: &[&str]) -> Output {
    Command::new(COMPARE)
        .args(["--verdicts", "--command", command])
        .args(arguments)
        .output()
        .unwrap()
}

#[test]
fn equal_verdicts_pass() {
    let output = compare(VERDICT, &["--seed", "11", "--count", "100"]);
    assert_eq!(text(&output), "100 passed, 0 failed\n");
    assert!(output.status.success());
    let command = format!("{VERDICT} --batch");
    let output = compare(&command, &["--batch", "--seed", "12", "--count", "1500"]);
    assert_eq!(text(&output), "1500 passed, 0 failed\n");
    assert!(output.status.success());
    let hand = Path::new(env!("CARGO_MANIFEST_DIR")).join("hand");
    let hand = hand.display().to_string();
    let output = compare(VERDICT, &["--folder", &hand]);
    assert_eq!(
        text(&output),
        format!("{} passed, 0 failed\n", by_hand().len())
    );
}

/// A bench is no verdict, nor is a verdict a bench.
#[test]
fn outputs_are_no_verdicts() {
    let bench = env!("CARGO_BIN_EXE_reference");
    let output = compare(bench, &["--count", "20"]);
    assert_eq!(last_line(&output), "0 passed, 20 failed");
    let output = Command::new(COMPARE)
        .args(["--command", VERDICT, "--count", "20"])
        .output()
        .unwrap();
    assert_eq!(last_line(&output), "0 passed, 20 failed");
}

const COUNT: u64 = 1500;

/// Compare a wrong copy on cases with two faults; gives the count that failed, and the report.
fn failed(way: &str) -> (u64, String) {
    let command = format!("{} {way} verdict --batch", wrong::program());
    let count = COUNT.to_string();
    let arguments = ["--batch", "--mode", "two-faults", "--count", &count];
    let output = compare(&command, &arguments);
    assert!(!output.status.success(), "{way}");
    let last = last_line(&output);
    let failed = last.split(' ').nth(2).unwrap().parse().unwrap();
    assert_eq!(last, format!("{} passed, {failed} failed", COUNT - failed));
    (failed, text(&output))
}

/// Every mistake is caught, on exactly the cases where it answers wrongly.
#[test]
fn wrong_copies_are_caught() {
    let generator = Generator::new(1, Some(Mode::TwoFaults));
    let mut shown = vec![0; Mistake::ALL.len()];
    let (mut regions, mut carrying, mut bad_lines) = (0, 0, 0);
    for index in 0..COUNT {
        let file = generator.case(index).file;
        let answer = answer(&file);
        for mistake in Judged::of(&file, &answer).mistakes() {
            shown[mistake as usize] += 1;
        }
        regions += u64::from((20..=25).contains(&answer.number));
        carrying += u64::from(answer.detail != Detail::None);
        bad_lines += u64::from(answer.number == 14);
    }
    for mistake in Mistake::ALL {
        let (failed, report) = failed(&format!("{mistake:?}"));
        assert!(failed > 0, "{mistake:?}");
        assert_eq!(failed, shown[mistake as usize], "{mistake:?}");
        for part in [
            "seed 1, case ",
            "first difference: ",
            "\ncase:\n",
            "\nexpected:\n",
            "\ngot:\n",
        ] {
            assert!(report.contains(part), "{mistake:?}: {part:?}");
        }
    }
    assert!(regions > 0 && carrying > regions && bad_lines > 0);
    assert_eq!(failed("six").0, carrying);
    assert_eq!(failed("nothing-carried").0, carrying);
    assert_eq!(failed("end").0, COUNT);
    assert_eq!(failed("silent").0, COUNT);
}

/// One process for each case, and where the verdicts differ.
#[test]
fn a_wrong_copy_without_a_batch() {
    let command = format!("{} PlaceFrom0 verdict", wrong::program());
    let hand = Path::new(env!("CARGO_MANIFEST_DIR")).join("hand");
    let output = compare(
        &command,
        &["--folder", &hand.display().to_string(), "--show", "99"],
    );
    let names_operand = |line: &(String, String)| line.1.contains(" operand ");
    let failed = by_hand().into_iter().filter(names_operand).count();
    assert!(failed > 0);
    let passed = by_hand().len() - failed;
    assert_eq!(
        last_line(&output),
        format!("{passed} passed, {failed} failed")
    );
    let words =
        "(what it carries): expected \"23 1 24 operand 1\\n\", got \"23 1 24 operand 0\\n\"";
    assert!(text(&output).contains(words), "{}", text(&output));
}

#[test]
fn differences() {
    let difference = |expected: &str, got: &str| {
        verdict_difference(expected.as_bytes(), got.as_bytes()).unwrap_or_default()
    };
    assert_eq!(difference("0 1 24\n", "0 1 24\n"), "");
    for (expected, got, place) in [
        ("20 0 0 operand 2\n", "22 0 0 operand 2\n", "2 (number)"),
        ("0 1 24\n", "0 2 24\n", "3 (completed)"),
        ("0 1 24\n", "0 1 23\n", "6 (position)"),
        ("0 1 24\n", "0 1 24", "7 (position)"),
        ("0 1 24\n", "", "1 (number)"),
        (
            "20 0 0 operand 2\n",
            "20 0 0 operand 1\n",
            "16 (what it carries)",
        ),
        (
            "12 0 0 channel 3 lane 2\n",
            "12 0 0 channel 3 lane 12\n",
            "23 (what it carries)",
        ),
        ("20 0 0 operand 2\n", "20 0 0\n", "7 (position)"),
    ] {
        let words = difference(expected, got);
        let start = format!("first difference: character {place}: ");
        assert!(words.starts_with(&start), "{words}");
    }
}
