//! Verdicts that are wrong on purpose: the mistakes that the report counts, by their names in the code, and others.

use reference::bench::answer;
use reference::generate::mistakes::{Judged, Mistake};
use reference::programs::Interpreter;
use reference::refusal::Detail;
use reference::verdict::{line_of, verdict as right};
use std::sync::OnceLock;

/// An interpreter has no room for the way.
static MISTAKE: OnceLock<Mistake> = OnceLock::new();

/// A verdict that is wrong in a way.
pub fn verdict(way: &str) -> Interpreter {
    match way {
        "six" => six,
        "nothing-carried" => nothing_carried,
        "end" => |case| right(case).strip_suffix(b"\n").unwrap().to_vec(),
        "silent" => |_| Vec::new(),
        "panic" => panics_at_14,
        _ => {
            let named = |it: &Mistake| format!("{it:?}") == way;
            let mistake = Mistake::ALL.into_iter().find(named);
            let mistake = mistake.unwrap_or_else(|| panic!("no way {way:?} of being wrong"));
            MISTAKE.set(mistake).unwrap();
            |case| mistaken(case, *MISTAKE.get().unwrap())
        }
    }
}

fn mistaken(case: &[u8], mistake: Mistake) -> Vec<u8> {
    let judged = Judged::of(case, &answer(case));
    line_of(&mistake.answer(&judged))
}

/// As before request 2.
fn six(case: &[u8]) -> Vec<u8> {
    let mut answer = answer(case);
    if (20..=25).contains(&answer.number) {
        answer.number = 6;
    }
    answer.detail = Detail::None;
    line_of(&answer)
}

fn nothing_carried(case: &[u8]) -> Vec<u8> {
    let mut answer = answer(case);
    answer.detail = Detail::None;
    line_of(&answer)
}

/// Right, but for the cases with a bad line.
pub fn panics_at_14(case: &[u8]) -> Vec<u8> {
    let line = right(case);
    assert!(!line.starts_with(b"14 "), "wrong on purpose");
    line
}
