//! The comparison: equal outputs pass, every wrong copy is caught, and the report says where.

mod wrong;

use reference::difference::{first_difference, listing};
use reference::generate::size_mistakes::SizeMistake::{self, SecondTaken, WrongLengthAs13};
use reference::generate::{Generator, Mode};
use std::path::{Path, PathBuf};
use std::process::{Command, Output};

const COMPARE: &str = env!("CARGO_BIN_EXE_compare");
const REFERENCE: &str = env!("CARGO_BIN_EXE_reference");
const CASES: &str = env!("CARGO_BIN_EXE_cases");

/// Compare a command.
fn compare(command: &str, arguments: &[&str]) -> Output {
    Command::new(COMPARE)
        .args(["--command", command])
        .args(arguments)
        .output()
        .unwrap()
}

/// The command that answers wrongly in a way.
fn wrong_copy(way: &str) -> String {
    format!("{} {way} reference", wrong::program())
}

fn text(output: &Output) -> String {
    String::from_utf8(output.stdout.clone()).unwrap()
}

fn last_line(output: &Output) -> String {
    text(output).lines().last().unwrap_or_default().to_string()
}

/// A folder of its own for one test, inside the target folder.
fn folder(name: &str) -> PathBuf {
    let folder = Path::new(env!("CARGO_TARGET_TMPDIR")).join(name);
    if folder.exists() {
        std::fs::remove_dir_all(&folder).unwrap();
    }
    std::fs::create_dir_all(&folder).unwrap();
    folder
}

/// Each process gets its own case and its output is judged for that case, one process at a time or several.
#[test]
fn equal_outputs_pass_with_a_process_for_each_case() {
    for jobs in ["1", "2", "7"] {
        let arguments = ["--seed", "11", "--count", "100", "--jobs", jobs];
        let output = compare(REFERENCE, &arguments);
        assert_eq!(text(&output), "100 passed, 0 failed\n");
        assert!(output.status.success());
    }
}

/// More cases than one process takes.
#[test]
fn equal_outputs_pass_in_the_batch_framing() {
    let command = format!("{REFERENCE} --batch");
    let output = compare(&command, &["--batch", "--seed", "12", "--count", "1500"]);
    assert_eq!(text(&output), "1500 passed, 0 failed\n");
    assert!(output.status.success());
}

#[test]
fn a_command_is_needed() {
    for arguments in [&[][..], &["--count", "1"], &["--command", " "]] {
        let output = Command::new(COMPARE).args(arguments).output().unwrap();
        assert_eq!(output.status.code(), Some(2));
        assert_eq!(text(&output), "");
        let problem = String::from_utf8(output.stderr).unwrap();
        assert!(
            problem.contains("usage: compare --command CMD"),
            "{problem}"
        );
    }
}

/// Each wrong copy fails on the cases where its wrongness shows, and on those alone.
#[test]
fn wrong_copies_are_caught() {
    for (way, place) in [
        (
            "number",
            "line 1 (frame 40, the answer: number ub, completed uw, position ud), byte 1",
        ),
        (
            "completed",
            "line 1 (frame 40, the answer: number ub, completed uw, position ud), byte 2",
        ),
        ("taint", "(frame 08, register taint)"),
        ("end", "(frame "),
        (
            "silent",
            "line 1 (frame 40, the answer: number ub, completed uw, position ud), byte 0",
        ),
    ] {
        for batch in [false, true] {
            let mut command = wrong_copy(way);
            let mut arguments = vec!["--count", "60", "--show", "60"];
            if batch {
                command.push_str(" --batch");
                arguments.push("--batch");
            }
            let output = compare(&command, &arguments);
            assert!(!output.status.success(), "{way}");
            let failed: u64 = last_line(&output)
                .split(' ')
                .nth(2)
                .and_then(|count| count.parse().ok())
                .expect("the last line counts");
            assert!(failed > 0, "{way}");
            let report = text(&output);
            assert!(report.contains(place), "{way}: {report}");
            let shown = report.matches("first difference: ").count() as u64;
            assert_eq!(shown, failed, "{way}");
            for part in ["seed 1, case ", "\ncase:\n", "\nexpected:\n", "\ngot:\n"] {
                assert!(report.contains(part), "{way}: {part:?}");
            }
            // Cases whose answer is right are not among them: a wrong number shows only where the right
            // one is not 0, and a wrong end or silence everywhere.
            let everywhere = way == "end" || way == "silent";
            assert_eq!(failed == 60, everywhere, "{way}: {failed}");
        }
    }
}

/// Every mistake of the register size is caught, on exactly the cases where its output is another.
#[test]
fn mistakes_of_the_register_size_are_caught() {
    for (mode, count) in [("near-miss", 1600), ("bad-lines", 150)] {
        let generator = Generator::new(1, Mode::of_name(mode));
        let mut shown = vec![0; SizeMistake::ALL.len()];
        for index in 0..count {
            for mistake in SizeMistake::shown(&generator.case(index).file) {
                shown[mistake as usize] += 1;
            }
        }
        for mistake in SizeMistake::ALL {
            let command = format!("{} --batch", wrong_copy(&format!("{mistake:?}")));
            let count_text = count.to_string();
            let arguments = ["--batch", "--mode", mode, "--count", &count_text];
            let output = compare(&command, &arguments);
            let failed = shown[mistake as usize];
            let last = format!("{} passed, {failed} failed", count - failed);
            assert_eq!(last_line(&output), last, "{mistake:?}, {mode}");
            assert_eq!(output.status.success(), failed == 0);
            // Near misses have no bad line.
            let of_lines = [WrongLengthAs13, SecondTaken].contains(&mistake);
            if of_lines == (mode == "bad-lines") {
                assert!(failed > 0, "{mistake:?}, {mode}");
            }
        }
    }
}

/// Commands that are no bench at all.
#[test]
fn other_commands_fail() {
    for (command, words) in [
        ("true", "got \"\""),
        ("cat", "first difference: line 1"),
        ("sleep 9", "no end within 1 s"),
        ("no-such-program-anywhere", "cannot start"),
    ] {
        let output = compare(command, &["--count", "2", "--timeout", "1"]);
        assert!(!output.status.success());
        assert_eq!(last_line(&output), "0 passed, 2 failed", "{command}");
        assert!(
            text(&output).contains(words),
            "{command}: {}",
            text(&output)
        );
    }
    let output = compare("true", &["--batch", "--count", "2"]);
    assert_eq!(last_line(&output), "0 passed, 2 failed");
}

/// The case files of a folder, in the order of their names, and nothing else that stands there.
#[test]
fn a_folder_of_case_files() {
    let folder = folder("folder_of_cases");
    std::fs::write(folder.join("1-empty.case"), "").unwrap();
    std::fs::write(folder.join("2-bad-line.case"), "01\n\n").unwrap();
    std::fs::write(folder.join("3-no-opcode.case"), "07ff").unwrap();
    std::fs::write(folder.join("1-empty.out"), "").unwrap();
    std::fs::write(folder.join("README.md"), "").unwrap();
    std::fs::write(folder.join("case"), "").unwrap();
    std::fs::create_dir(folder.join("folder.case")).unwrap();
    let path = folder.display().to_string();
    let output = compare(REFERENCE, &["--folder", &path]);
    assert_eq!(text(&output), "3 passed, 0 failed\n");
    let output = compare(&wrong_copy("number"), &["--folder", &path]);
    assert_eq!(last_line(&output), "1 passed, 2 failed");
    let report = text(&output);
    assert!(
        report.starts_with(&format!("{path}/2-bad-line.case\n")),
        "{report}"
    );
    assert!(report.contains("byte 1: expected \"0e\", got \"00\""));
    assert!(report.contains("byte 1: expected \"02\", got \"00\""));
}

#[test]
fn a_folder_without_case_files_is_refused() {
    let folder = folder("folder_without_cases");
    std::fs::write(folder.join("README.md"), "").unwrap();
    std::fs::write(folder.join("1-empty.out"), "").unwrap();
    for path in [folder.clone(), folder.join("nowhere")] {
        let output = compare(REFERENCE, &["--folder", &path.display().to_string()]);
        assert_eq!(output.status.code(), Some(2));
        assert_eq!(text(&output), "");
    }
}

/// Hand-made case files of this package answer what is written down beside them.
#[test]
fn hand_made_case_files() {
    let folder = Path::new(env!("CARGO_MANIFEST_DIR")).join("hand");
    let mut count = 0;
    for entry in std::fs::read_dir(&folder).unwrap() {
        let path = entry.unwrap().path();
        if path.extension().is_none_or(|end| end != "case") {
            continue;
        }
        let case = std::fs::read(&path).unwrap();
        let expected = folder.join("expected").join(path.file_name().unwrap());
        let expected = std::fs::read_to_string(&expected).unwrap();
        let output = String::from_utf8(reference::bench::bench(&case)).unwrap();
        assert_eq!(output, expected, "{}", path.display());
        count += 1;
    }
    assert_eq!(
        count,
        std::fs::read_dir(folder.join("expected")).unwrap().count()
    );
    assert!(count >= 10);
}

/// The generator's program writes the same cases to a folder and to a batch.
#[test]
fn written_cases() {
    let folder = folder("written_cases");
    let path = folder.display().to_string();
    let run = |arguments: &[&str]| Command::new(CASES).args(arguments).output().unwrap();
    let made = run(&["--seed", "2", "--count", "40", "--folder", &path]);
    assert!(text(&made).contains("valid cases that ran all their instructions: "));
    assert!(text(&made).contains("cases not answered as intended: 0"));
    let batch = run(&["--seed", "2", "--count", "40", "--batch"]);
    let mut stream = &batch.stdout[..];
    let mut names: Vec<_> = std::fs::read_dir(&folder)
        .unwrap()
        .map(|entry| entry.unwrap().path())
        .collect();
    names.sort();
    assert_eq!(names.len(), 40);
    for name in names {
        let entry = reference::batch::read_entry(&mut stream).unwrap();
        assert_eq!(entry, Some(std::fs::read(name).unwrap()));
    }
    assert_eq!(reference::batch::read_entry(&mut stream).unwrap(), None);
    let one = run(&["--seed", "2", "--first", "17", "--count", "1", "--print"]);
    assert_eq!(
        one.stdout,
        std::fs::read(folder.join("000017-bad-lines.case")).unwrap()
    );
    let output = compare(REFERENCE, &["--folder", &path]);
    assert_eq!(text(&output), "40 passed, 0 failed\n");
}

#[test]
fn differences() {
    assert_eq!(first_difference(b"4000\n01\n", b"4000\n01\n"), None);
    let difference = first_difference(b"4000\n01aabbcc\n", b"4000\n01aabacc\n").unwrap();
    assert_eq!((difference.line, difference.byte), (2, 2));
    assert_eq!(
        (difference.expected.as_str(), difference.got.as_str()),
        ("bb", "ba")
    );
    assert_eq!(difference.frame, "01, registers");
    // One output ends before the other.
    let difference = first_difference(b"4000\n01\n", b"4000\n").unwrap();
    assert_eq!((difference.line, difference.byte), (2, 0));
    assert_eq!(
        (difference.expected.as_str(), difference.got.as_str()),
        ("01", "")
    );
    let difference = first_difference(b"4000\n", b"4000").unwrap();
    assert_eq!((difference.line, difference.byte), (1, 2));
    assert_eq!(
        (difference.expected.as_str(), difference.got.as_str()),
        ("\\n", "")
    );
    let difference = first_difference(b"4000\n", b"4000\n08\n").unwrap();
    assert_eq!(
        (difference.line, difference.frame),
        (2, "after the last line")
    );
}

#[test]
fn listings() {
    assert_eq!(listing(b"01\n02\n", false), "    1 01\n    2 02\n");
    assert_eq!(
        listing(b"01\r", false),
        "    1 01\\r\n      (the last line has no 0a)\n"
    );
    assert_eq!(listing(b"", false), "      (nothing)\n");
    let long = "0".repeat(200);
    let shortened = format!("    1 {}... (200 characters)\n", "0".repeat(180));
    assert_eq!(listing(format!("{long}\n").as_bytes(), false), shortened);
    assert_eq!(
        listing(format!("{long}\n").as_bytes(), true),
        format!("    1 {long}\n")
    );
}

/// The batch framing: a decimal length, 0x0a, and so many bytes.
#[test]
fn batch_framing() {
    let mut stream = Vec::new();
    reference::batch::write_entry(&mut stream, b"07ff\n").unwrap();
    reference::batch::write_entry(&mut stream, b"").unwrap();
    assert_eq!(stream, b"5\n07ff\n0\n");
    let mut input = &stream[..];
    assert_eq!(
        reference::batch::read_entry(&mut input).unwrap(),
        Some(b"07ff\n".to_vec())
    );
    assert_eq!(
        reference::batch::read_entry(&mut input).unwrap(),
        Some(Vec::new())
    );
    assert_eq!(reference::batch::read_entry(&mut input).unwrap(), None);
    assert!(reference::batch::read_entry(&mut &b"five\n"[..]).is_err());
    assert!(reference::batch::read_entry(&mut &b"5\n07"[..]).is_err());
}
