//! All the ways in which a text can be read as the start of a printed line, followed side by side.
//!
//! A way is a place in the text and the instruction as far as it was read up to there. Each part of a line moves every
//! way on and drops the ways that it does not fit. A way never takes a character after which it could not be finished:
//! a word's rest finishes a word, a number takes a digit only if a number of its range starts so, and after each part
//! comes some text for the next. So the longest start of the text that any way has taken is the longest start of the
//! text with which some printed line starts.

use crate::instruction::Instruction;
use std::ops::RangeInclusive;

#[derive(Clone)]
struct Way {
    at: usize,
    instruction: Instruction,
}

#[derive(Clone)]
pub struct Ways<'a> {
    text: &'a [u8],
    ways: Vec<Way>,
    /// The length of the longest start of the text that a way has taken, ways that were dropped since included.
    reached: usize,
}

impl<'a> Ways<'a> {
    /// One way, with nothing read.
    pub fn start(text: &'a [u8]) -> Ways<'a> {
        let way = Way {
            at: 0,
            instruction: Instruction::default(),
        };
        Ways {
            text,
            ways: vec![way],
            reached: 0,
        }
    }

    /// The same text and reach, without a way.
    fn without_ways(&self) -> Ways<'a> {
        Ways {
            text: self.text,
            ways: Vec::new(),
            reached: self.reached,
        }
    }

    /// What the ways that end with the text have read: every line has one reading, so there is one such way at most.
    /// Else the column: "the first column, from 1, where none goes on so, the one after its end if it stops short".
    pub fn end(self) -> Result<Instruction, usize> {
        let length = self.text.len();
        match self.ways.iter().find(|way| way.at == length) {
            Some(way) => Ok(way.instruction),
            None => Err(self.reached + 1),
        }
    }

    /// Every way goes on with each of the parts.
    pub fn either(self, parts: &[&dyn Fn(Ways<'a>) -> Ways<'a>]) -> Ways<'a> {
        let mut all = self.without_ways();
        for part in parts {
            let those = part(self.clone());
            all.reached = all.reached.max(those.reached);
            all.ways.extend(those.ways);
        }
        all
    }

    /// Every way goes on as it is, or with the part.
    pub fn perhaps(self, part: &dyn Fn(Ways<'a>) -> Ways<'a>) -> Ways<'a> {
        self.either(&[&|ways| ways, part])
    }

    /// Put what was read into every way's instruction.
    pub fn set(mut self, set: impl Fn(&mut Instruction)) -> Ways<'a> {
        for way in &mut self.ways {
            set(&mut way.instruction);
        }
        self
    }

    /// Exactly these characters.
    pub fn word(self, word: &str) -> Ways<'a> {
        self.one_of(&[(word, ())], |_, ()| ())
    }

    /// One of some words, each with its code.
    pub fn one_of<T: Copy>(
        self,
        words: &[(&str, T)],
        set: impl Fn(&mut Instruction, T),
    ) -> Ways<'a> {
        let mut next = self.without_ways();
        for way in &self.ways {
            for (word, code) in words {
                let rest = &self.text[way.at..];
                let same = rest.iter().zip(word.bytes()).take_while(|(a, b)| **a == *b);
                let at = way.at + same.count();
                next.reached = next.reached.max(at);
                if at == way.at + word.len() {
                    let mut way = Way { at, ..way.clone() };
                    set(&mut way.instruction, *code);
                    next.ways.push(way);
                }
            }
        }
        next
    }

    /// A number of a range in its base, without a sign and without leading zeros.
    pub fn number(
        self,
        base: u32,
        range: RangeInclusive<u64>,
        set: impl Fn(&mut Instruction, u64),
    ) -> Ways<'a> {
        let mut next = self.without_ways();
        for way in &self.ways {
            let mut value = 0;
            for (k, character) in self.text[way.at..].iter().enumerate() {
                let Some(digit) = digit(*character, base) else {
                    break;
                };
                // A further digit stands behind a 0.
                if k > 0 && value == 0 {
                    break;
                }
                value = value * u128::from(base) + u128::from(digit);
                if !some_start_so(value, base, &range) {
                    break;
                }
                let at = way.at + k + 1;
                next.reached = next.reached.max(at);
                // A number may end after each of its digits; what follows decides.
                let whole = u64::try_from(value).ok().filter(|it| range.contains(it));
                if let Some(whole) = whole {
                    let mut way = Way { at, ..way.clone() };
                    set(&mut way.instruction, whole);
                    next.ways.push(way);
                }
            }
        }
        next
    }
}

/// Digits are decimal or lower-case hex.
fn digit(character: u8, base: u32) -> Option<u32> {
    let digit = char::from(character).to_digit(base)?;
    (!character.is_ascii_uppercase()).then_some(digit)
}

/// Whether some number of the range starts with the digits of a value. Nothing but 0 itself starts with a 0.
fn some_start_so(value: u128, base: u32, range: &RangeInclusive<u64>) -> bool {
    let (low, high) = (u128::from(*range.start()), u128::from(*range.end()));
    if value == 0 {
        return low == 0;
    }
    // The numbers that start so and have no further digit, one further digit, and so on.
    let base = u128::from(base);
    let (mut first, mut last) = (value, value);
    while first <= high {
        if low <= last {
            return true;
        }
        (first, last) = (first * base, last * base + (base - 1));
    }
    false
}
