//! The programs `listing` and `assembler`: lines in, lines out, of any length.

use std::io::Write;
use std::process::{Command, Output, Stdio};

const LISTING: &str = env!("CARGO_BIN_EXE_listing");
const ASSEMBLER: &str = env!("CARGO_BIN_EXE_assembler");
const LINES: &str = env!("CARGO_BIN_EXE_lines");

const SHL: &str = "240300000001000000000200000000005502050201000000";
const SHL_LINE: &str = "SHL (M1,8) v1(0,0)<1> v0(0,0)<8;8,1> 0x1:uw\n";

fn run(program: &str, arguments: &[&str], input: &[u8]) -> Output {
    let mut child = Command::new(program)
        .args(arguments)
        .stdin(Stdio::piped())
        .stdout(Stdio::piped())
        .stderr(Stdio::piped())
        .spawn()
        .unwrap();
    let mut stdin = child.stdin.take().unwrap();
    let input = input.to_vec();
    let writer = std::thread::spawn(move || stdin.write_all(&input));
    let output = child.wait_with_output().unwrap();
    let _ = writer.join().unwrap();
    output
}

fn answer(program: &str, input: impl AsRef<[u8]>) -> String {
    let output = run(program, &[], input.as_ref());
    assert!(output.status.success());
    assert!(output.stderr.is_empty());
    String::from_utf8(output.stdout).unwrap()
}

/// "A line ends in 0x0a, which the last may lack." An empty kernel has no instruction, and so no line.
#[test]
fn lines_of_a_listing() {
    assert_eq!(answer(LISTING, ""), "");
    assert_eq!(answer(LISTING, "\n"), "");
    assert_eq!(answer(LISTING, "\n\n\n"), "");
    assert_eq!(answer(LISTING, SHL), SHL_LINE);
    assert_eq!(answer(LISTING, format!("{SHL}\n")), SHL_LINE);
    let two = [SHL_LINE, SHL_LINE].concat();
    assert_eq!(answer(LISTING, format!("{SHL}{SHL}\n")), two);
    assert_eq!(answer(LISTING, format!("{SHL}\n\n{SHL}")), two);
}

/// The number and the position at which the refused instruction starts; the next line is taken.
#[test]
fn refusals_of_a_listing() {
    let cut = &SHL[..46];
    for (kernel, refusal) in [
        (cut.to_string(), "! 1 0\n".to_string()),
        (format!("{SHL}{cut}"), format!("{SHL_LINE}! 1 24\n")),
        (format!("{SHL}ff{SHL}"), format!("{SHL_LINE}! 2 24\n")),
        ("2406".to_string(), "! 3 0\n".to_string()),
        (format!("{SHL}2403000001"), format!("{SHL_LINE}! 4 24\n")),
    ] {
        assert_eq!(answer(LISTING, &kernel), refusal);
        let then = format!("{kernel}\n{SHL}\n");
        assert_eq!(answer(LISTING, then), format!("{refusal}{SHL_LINE}"));
    }
}

/// 14 with position 0, before anything of the line is listed.
#[test]
fn lines_that_are_no_hex() {
    let upper = SHL.replace("55", "5A");
    for line in [
        "2",
        "2g",
        "0x24",
        "24 ",
        " ",
        "AB",
        "\t",
        "24\r",
        "-1",
        "é",
        upper.as_str(),
    ] {
        let input = format!("{line}\n{SHL}\n{SHL}{line}");
        let listing = format!("! 14 0\n{SHL_LINE}! 14 0\n");
        assert_eq!(answer(LISTING, input), listing, "{line:?}");
    }
    assert_eq!(answer(LISTING, b"\xff\n\0\0\n"), "! 14 0\n! 14 0\n");
}

/// An empty line is a text, and stops short at once.
#[test]
fn lines_of_an_assembler() {
    let line = SHL_LINE.trim_end();
    assert_eq!(answer(ASSEMBLER, ""), "");
    assert_eq!(answer(ASSEMBLER, "\n"), "! 16 1\n");
    assert_eq!(answer(ASSEMBLER, "S\n\n"), "! 16 2\n! 16 1\n");
    assert_eq!(answer(ASSEMBLER, line), format!("{SHL}\n"));
    assert_eq!(answer(ASSEMBLER, SHL_LINE), format!("{SHL}\n"));
    let input = format!("{line}\r\n{line}\n{line} ");
    let expected = format!("! 16 44\n{SHL}\n! 16 44\n");
    assert_eq!(answer(ASSEMBLER, input), expected);
    assert_eq!(answer(ASSEMBLER, b"\0\xff\n\xff"), "! 16 1\n! 16 1\n");
}

/// Many kernels, and their listing back.
#[test]
fn any_length() {
    let kernels = format!("{SHL}\n").repeat(50_000);
    let listing = answer(LISTING, &kernels);
    assert!(listing == SHL_LINE.repeat(50_000));
    assert!(answer(ASSEMBLER, &listing) == kernels);
    let long = " ".repeat(1_000_000);
    assert_eq!(answer(ASSEMBLER, &long), "! 16 1\n");
    assert_eq!(answer(LISTING, &long), "! 14 0\n");
}

/// A kernel has 65,536 bytes at most, 2,730 times 24 and 16; a line of more than 131,072 characters is 14.
#[test]
fn the_longest_kernel() {
    let longest = SHL.repeat(2_730) + &SHL[..32];
    assert_eq!(longest.len(), 131_072);
    let lines = SHL_LINE.repeat(2_730) + "! 1 65520\n";
    assert!(answer(LISTING, &longest) == lines);
    assert!(answer(LISTING, &longest[..131_070]) == lines);
    let then = format!("{longest}\n{SHL}\n{longest}");
    assert!(answer(LISTING, then) == [&lines, SHL_LINE, &lines].concat());
    for more in ["0", "00", " ", &SHL[32..], &longest] {
        let input = format!("{longest}{more}\n{SHL}\n");
        assert_eq!(answer(LISTING, input), format!("! 14 0\n{SHL_LINE}"));
    }
}

/// The generated lines through both programs and back.
#[test]
fn there_and_back() {
    let kernels = run(LINES, &["kernels", "--count", "1000", "--seed", "7"], b"").stdout;
    let listing = answer(LISTING, kernels);
    let good: Vec<&str> = listing.lines().filter(|l| !l.starts_with('!')).collect();
    assert!(good.len() > 2000, "{}", good.len());
    let encodings = answer(ASSEMBLER, good.join("\n"));
    assert_eq!(answer(LISTING, encodings), good.join("\n") + "\n");
}

#[test]
fn no_arguments_are_taken() {
    for program in [LISTING, ASSEMBLER] {
        let output = run(program, &["--help"], b"");
        assert_eq!(output.status.code(), Some(2));
        assert!(output.stdout.is_empty());
        let words = String::from_utf8(output.stderr).unwrap();
        assert!(words.starts_with("usage: "), "{words}");
        assert_eq!(words.lines().count(), 1);
    }
}
