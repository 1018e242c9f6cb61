//! The mistakes that request 3 of document 02 invites: what a program answers that reads a predicate's frame otherwise, or
//! asks something else of its count.

use super::mistakes::Mistake;
use crate::case::{Case, Predicate};
use crate::case_file::read_case;
use crate::decode::decode;
use crate::instruction::{Instruction, GATHER, RAW_SEND};
use crate::number::{
    self, BAD_LINE, DONE, NOT_IN_WINDOW, OVER_COUNT, SIZES, TAINTED_ADDRESS, UNALIGNED,
};
use crate::refusal::Detail;
use crate::run::{run, Answer};
use crate::sizes;

/// A case file with predicates.
pub struct Counted {
    answer: Answer,
    /// Nothing where a line is bad.
    case: Option<Case>,
    /// Whether a frame 03 before the first bad line has four bytes.
    four_bytes: bool,
    /// The first line with a frame 03 of five bytes, and the first one with a bad count.
    five_bytes: Option<usize>,
    bad_count: Option<usize>,
}

impl Counted {
    pub fn of(file: &[u8], answer: &Answer) -> Option<Counted> {
        let good_lines = match answer.number {
            BAD_LINE => answer.position - 1,
            _ => usize::MAX,
        };
        let mut counted = Counted {
            answer: *answer,
            case: None,
            four_bytes: false,
            five_bytes: None,
            bad_count: None,
        };
        let lines = file.split(|byte| *byte == 0x0a).take(good_lines);
        let mut has_predicate = false;
        for (line, text) in (1..).zip(lines) {
            let Some(body) = text.strip_prefix(b"03") else {
                continue;
            };
            has_predicate = true;
            match &body[8..] {
                b"" => counted.four_bytes = true,
                count => {
                    counted.five_bytes.get_or_insert(line);
                    let count = std::str::from_utf8(count).unwrap();
                    let count = u8::from_str_radix(count, 16).unwrap();
                    if is_bad(count) {
                        counted.bad_count.get_or_insert(line);
                    }
                }
            }
        }
        counted.case = read_case(file).ok();
        has_predicate.then_some(counted)
    }
}

fn is_bad(count: u8) -> bool {
    count == 0 || count > 32
}

fn refused(number: u8, position: usize) -> Answer {
    Answer {
        number,
        completed: 0,
        position,
        detail: Detail::None,
    }
}

impl Mistake {
    /// What it answers to a file with predicates; nothing if it is no mistake of request 3, or cannot show.
    pub fn of_counted(self, counted: &Counted) -> Option<Answer> {
        let at_line = |line: usize| refused(BAD_LINE, line);
        match self {
            Mistake::BadCountAs14 => return counted.bad_count.map(at_line),
            Mistake::FiveBytesAs14 => return counted.five_bytes.map(at_line),
            _ => {}
        }
        let case = counted.case.as_ref()?;
        match self {
            Mistake::FourBytesAs0 => counted.four_bytes.then_some(refused(SIZES, 0)),
            Mistake::NoElements => self.lets_through(case, |count| count == 0),
            Mistake::Over32Elements => self.lets_through(case, |count| count > 32),
            Mistake::CountIgnored
            | Mistake::SizeAlone
            | Mistake::AtTheCount
            | Mistake::Before8
            | Mistake::BeforePredicate
            | Mistake::AfterSurface
            | Mistake::AfterOperands
            | Mistake::NotUnderNm
            | Mistake::NotOfSend
            | Mistake::LanesOnOnly
            | Mistake::WithoutPredicate
            | Mistake::AnyAndAllOnly
            | Mistake::CutDown
                if counted.answer.number != SIZES =>
            {
                Some(self.run(case))
            }
            _ => None,
        }
    }

    /// The answer where some bad counts are no 13, if there are such and nothing else is one.
    fn lets_through(self, case: &Case, lets: fn(u8) -> bool) -> Option<Answer> {
        let bad = |it: &&Predicate| is_bad(it.count);
        let all_pass = case.predicates.iter().filter(bad).all(|it| lets(it.count));
        let there = case.predicates.iter().any(|it| lets(it.count));
        let good_otherwise = sizes::check(&with_32(case)).is_ok();
        (there && all_pass && good_otherwise).then(|| self.run(case))
    }

    /// A run with its own test of counts, instruction by instruction.
    fn run(self, case: &Case) -> Answer {
        let mut left = with_32(case);
        let (mut completed, mut position) = (0, 0);
        while position < case.kernel.len() {
            let rest = &case.kernel[position..];
            let decoded = decode(rest, 0);
            left.kernel = match decoded.number {
                DONE => decoded.part.to_vec(),
                _ => rest.to_vec(),
            };
            let answer = match decoded.number {
                DONE => self.tested(case, &mut left, &decoded.instruction),
                _ => run(&mut left),
            };
            if answer.number != DONE {
                return Answer {
                    completed,
                    position,
                    ..answer
                };
            }
            completed += 1;
            position += decoded.part.len();
        }
        Answer {
            completed,
            ..refused(DONE, position)
        }
    }

    /// Run one instruction on what is left of the case, where every predicate has 32 elements and so none gives 17.
    fn tested(self, case: &Case, left: &mut Case, it: &Instruction) -> Answer {
        let named = it.has_predicate() || self == Mistake::WithoutPredicate;
        let count = match case.predicates.get(it.predicate_id()) {
            Some(predicate) => u64::from(predicate.count),
            None if self == Mistake::BeforePredicate => 0,
            None => u64::MAX,
        };
        if !named || !self.is_over(case, it, count) {
            return run(left);
        }
        let seventeen = refused(OVER_COUNT, 0);
        let lacks_surface = it.opcode == GATHER && usize::from(it.surface) >= case.surfaces.len();
        match self {
            Mistake::Before8 => seventeen,
            _ if it.mask_end() > 32 => run(left),
            Mistake::AfterSurface if lacks_surface => run(left),
            Mistake::AfterOperands => match run(&mut left.clone()) {
                later if is_after_operands(later.number) => seventeen,
                earlier => earlier,
            },
            Mistake::CutDown if combine(it) != 0 => run_cut_down(left, it, count),
            _ => seventeen,
        }
    }

    /// What it asks in the place of "offset plus ExecSize over the count".
    fn is_over(self, case: &Case, it: &Instruction, count: u64) -> bool {
        let end = it.mask_end();
        let over = end > count;
        match self {
            Mistake::CountIgnored => false,
            Mistake::SizeAlone => it.exec_size() > count,
            Mistake::AtTheCount => end >= count,
            Mistake::NotUnderNm => over && !it.no_mask(),
            Mistake::NotOfSend => over && it.opcode != RAW_SEND,
            Mistake::AnyAndAllOnly => over && combine(it) != 0,
            Mistake::LanesOnOnly => {
                let on = |bit: u64| it.no_mask() || (case.execution_mask >> bit) & 1 == 1;
                (count.max(it.mask_offset())..end.min(32)).any(on)
            }
            _ => over,
        }
    }
}

/// "13-14 none/any/all/reserved"
fn combine(it: &Instruction) -> u16 {
    (it.pred >> 13) & 3
}

/// Run an instruction whose any or all does not see the bits at and past the count.
fn run_cut_down(left: &mut Case, it: &Instruction, count: u64) -> Answer {
    let below = ((1u64 << count) - 1) as u32;
    let id = it.predicate_id();
    let bits = left.predicates[id].bits;
    left.predicates[id].bits = match combine(it) {
        1 => bits & below,
        _ => bits | !below,
    };
    let answer = run(left);
    left.predicates[id].bits = bits;
    answer
}

fn with_32(case: &Case) -> Case {
    let mut case = case.clone();
    for predicate in &mut case.predicates {
        predicate.count = 32;
    }
    case
}

fn is_after_operands(number: u8) -> bool {
    [
        DONE,
        number::RAW_SEND,
        TAINTED_ADDRESS,
        UNALIGNED,
        NOT_IN_WINDOW,
    ]
    .contains(&number)
}
