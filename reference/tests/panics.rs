//! A panic while a case is judged: standard error names the case, the exit status says that something
//! failed, and the other cases are judged all the same.

mod wrong;

use reference::batch::{read_entry, write_entry};
use reference::bench::bench;
use reference::generate::Generator;
use std::io::Write;
use std::path::Path;
use std::process::{Command, Output, Stdio};

const REFERENCE: &str = env!("CARGO_BIN_EXE_reference");
const VERDICT: &str = env!("CARGO_BIN_EXE_verdict");
/// One case of twenty has a bad line, so there are some among these.
const COUNT: u64 = 60;

/// A program whose interpreter panics where the answer is 14.
fn panicking(program: &str, arguments: &[&str]) -> Output {
    let mut command = Command::new(wrong::program());
    command.args(["panic", program]).args(arguments);
    command.output().unwrap()
}

fn is_14(file: &[u8]) -> bool {
    bench(file).starts_with(b"400e")
}

/// What names the cases of seed 1 whose answer is 14.
fn names_of_14() -> Vec<String> {
    let generator = Generator::new(1, None);
    let mut names = Vec::new();
    for index in 0..COUNT {
        let case = generator.case(index);
        if is_14(&case.file) {
            let mode = case.mode.name();
            names.push(format!("seed 1, case {index} ({mode}): {}", case.name));
        }
    }
    assert!(names.len() >= 3, "{names:?}");
    names
}

/// The lines of standard error with which a program names a panic's case.
fn named(output: &Output, program: &str) -> Vec<String> {
    let start = format!("{program}: panic at ");
    let text = String::from_utf8(output.stderr.clone()).unwrap();
    text.lines()
        .filter_map(|line| {
            line.strip_prefix(&start)?
                .strip_suffix(": wrong on purpose")
        })
        .map(str::to_string)
        .collect()
}

#[test]
fn compare_names_the_case_of_a_panic() {
    let names = names_of_14();
    let count = COUNT.to_string();
    let batch = format!("{REFERENCE} --batch");
    for arguments in [
        vec!["--command", REFERENCE, "--count", &count],
        vec!["--verdicts", "--command", VERDICT, "--count", &count],
        vec!["--command", &batch, "--batch", "--count", &count],
    ] {
        let output = panicking("compare", &arguments);
        assert_eq!(output.status.code(), Some(1));
        assert_eq!(named(&output, "compare"), names);
        let failed = names.len() as u64;
        let last = format!("{} passed, {failed} failed", COUNT - failed);
        let text = String::from_utf8(output.stdout).unwrap();
        assert_eq!(text.lines().last(), Some(last.as_str()));
    }
}

#[test]
fn compare_names_the_file_of_a_panic() {
    let folder = Path::new(env!("CARGO_TARGET_TMPDIR")).join("panics");
    std::fs::create_dir_all(&folder).unwrap();
    std::fs::write(folder.join("bad-line.case"), "01\n\n").unwrap();
    std::fs::write(folder.join("no-opcode.case"), "07ff").unwrap();
    let path = folder.display().to_string();
    for (command, batch) in [(REFERENCE, None), ("true", Some("--batch"))] {
        let mut arguments = vec!["--command", command, "--folder", &path];
        arguments.extend(batch);
        let output = panicking("compare", &arguments);
        assert_eq!(output.status.code(), Some(1));
        assert_eq!(named(&output, "compare"), [format!("{path}/bad-line.case")]);
    }
}

#[test]
fn cases_names_the_case_of_a_panic() {
    let count = COUNT.to_string();
    let output = panicking("cases", &["--count", &count]);
    assert_eq!(output.status.code(), Some(1));
    assert_eq!(named(&output, "cases"), names_of_14());
    // The report counts the others.
    let text = String::from_utf8(output.stdout).unwrap();
    assert!(text.contains("cases not answered as intended: 0"), "{text}");
}

/// The entries before the panic have their outputs.
#[test]
fn reference_names_the_entry_of_a_panic() {
    let mut child = Command::new(wrong::program())
        .args(["panic", "reference", "--batch"])
        .stdin(Stdio::piped())
        .stdout(Stdio::piped())
        .stderr(Stdio::piped())
        .spawn()
        .unwrap();
    let mut batch = Vec::new();
    for case in ["", "07ff", "zz", "07"] {
        write_entry(&mut batch, case.as_bytes()).unwrap();
    }
    child.stdin.take().unwrap().write_all(&batch).unwrap();
    let output = child.wait_with_output().unwrap();
    assert_eq!(output.status.code(), Some(1));
    let text = String::from_utf8(output.stderr).unwrap();
    let line = "reference: panic at entry 3 of the batch: wrong on purpose";
    assert!(text.lines().any(|it| it == line), "{text}");
    let mut stream = &output.stdout[..];
    for case in ["", "07ff"] {
        let entry = read_entry(&mut stream).unwrap();
        assert_eq!(entry, Some(bench(case.as_bytes())));
    }
    assert_eq!(read_entry(&mut stream).unwrap(), None);
}
