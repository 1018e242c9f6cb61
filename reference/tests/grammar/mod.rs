//! What a printed line is, as one pattern, and whether a text begins one: written for the tests, by another method than
//! the reader's. A pattern is derived by each character of a text in turn; what is left of it is what may follow.
#![allow(dead_code)]

use std::rc::Rc;

/// The texts that fit. No pattern is made that fits no text, but `Nothing` itself.
pub enum Pattern {
    /// No text at all.
    Nothing,
    /// The empty text.
    End,
    /// One character of these.
    One(&'static [u8]),
    Then(Rc<Pattern>, Rc<Pattern>),
    Or(Rc<Pattern>, Rc<Pattern>),
}

use Pattern::*;

fn then(a: Rc<Pattern>, b: Rc<Pattern>) -> Rc<Pattern> {
    match (&*a, &*b) {
        (Nothing, _) | (_, Nothing) => Rc::new(Nothing),
        (End, _) => b,
        _ => Rc::new(Then(a, b)),
    }
}

fn or(a: Rc<Pattern>, b: Rc<Pattern>) -> Rc<Pattern> {
    match (&*a, &*b) {
        (Nothing, _) => b,
        (_, Nothing) => a,
        _ => Rc::new(Or(a, b)),
    }
}

/// Whether the empty text fits.
pub fn may_end(pattern: &Pattern) -> bool {
    match pattern {
        Nothing | One(_) => false,
        End => true,
        Then(a, b) => may_end(a) && may_end(b),
        Or(a, b) => may_end(a) || may_end(b),
    }
}

/// What may follow a character.
pub fn after(pattern: &Pattern, character: u8) -> Rc<Pattern> {
    match pattern {
        Nothing | End => Rc::new(Nothing),
        One(these) if these.contains(&character) => Rc::new(End),
        One(_) => Rc::new(Nothing),
        Then(a, b) => {
            let inside = then(after(a, character), b.clone());
            match may_end(a) {
                true => or(inside, after(b, character)),
                false => inside,
            }
        }
        Or(a, b) => or(after(a, character), after(b, character)),
    }
}

/// A text that fits.
pub fn some_text(pattern: &Pattern) -> Vec<u8> {
    match pattern {
        Nothing => panic!("no text fits"),
        End => Vec::new(),
        One(these) => vec![these[0]],
        Then(a, b) => [some_text(a), some_text(b)].concat(),
        Or(a, _) => some_text(a),
    }
}

/// What may follow the longest start of a text that begins some line, and the length of that start.
pub fn longest_start(line: &Rc<Pattern>, text: &[u8]) -> (Rc<Pattern>, usize) {
    let mut left = line.clone();
    for (length, character) in text.iter().enumerate() {
        let next = after(&left, *character);
        if matches!(*next, Nothing) {
            return (left, length);
        }
        left = next;
    }
    (left, text.len())
}

/// A pattern spelled as a text: `[` and `]` around alternatives, `|` between them, `?` behind what may be absent, `#` for
/// a decimal digit, `@` for one that is not 0, `%` and `^` likewise for hex. All other characters are themselves.
fn pattern(spelled: &str) -> Rc<Pattern> {
    let mut rest = spelled.as_bytes();
    let pattern = alternatives(&mut rest);
    assert!(rest.is_empty(), "{spelled}");
    pattern
}

fn alternatives(rest: &mut &[u8]) -> Rc<Pattern> {
    let first = sequence(rest);
    match rest.first() {
        Some(b'|') => {
            *rest = &rest[1..];
            or(first, alternatives(rest))
        }
        _ => first,
    }
}

fn sequence(rest: &mut &[u8]) -> Rc<Pattern> {
    let Some((character, behind)) = rest.split_first() else {
        return Rc::new(End);
    };
    let mut item = match character {
        b'|' | b']' => return Rc::new(End),
        b'[' => {
            *rest = behind;
            let inside = alternatives(rest);
            assert_eq!(rest[0], b']');
            inside
        }
        b'#' => Rc::new(One(b"0123456789")),
        b'@' => Rc::new(One(b"123456789")),
        b'%' => Rc::new(One(b"0123456789abcdef")),
        b'^' => Rc::new(One(b"123456789abcdef")),
        other => Rc::new(One(vec![*other].leak())),
    };
    *rest = &rest[1..];
    if rest.first() == Some(&b'?') {
        *rest = &rest[1..];
        item = or(item, Rc::new(End));
    }
    then(item, sequence(rest))
}

/// The printed lines, as document 02's request 1 and the pages' Text lines give them.
pub fn line() -> Rc<Pattern> {
    // 1 to 255, 1 to 65535 and 1 to 4095, by their first digits.
    let ub1 = "@|@#|1##|2[0|1|2|3|4]#|25[0|1|2|3|4|5]";
    let uw1 = "@|@#|@##|@###|[1|2|3|4|5]####|6[0|1|2|3|4]###|65[0|1|2|3|4]##|655[0|1|2]#|6553[0|1|2|3|4|5]";
    let id1 = "@|@#|@##|[1|2|3]###|40[0|1|2|3|4|5|6|7|8]#|409[0|1|2|3|4|5]";
    let (ub, uw, id) = (
        format!("[0|{ub1}]"),
        format!("[0|{uw1}]"),
        format!("[0|{id1}]"),
    );
    let hex = |digits: usize| {
        format!(
            "0x[0|^{}{}]",
            "[%".repeat(digits - 1),
            "]?".repeat(digits - 1)
        )
    };
    let (ud, uq) = (hex(8), hex(16));
    let pred = format!("[([P[{id1}]|P{id}.any|P{id}.all|!P{id}|!P{id}.any|!P{id}.all]) ]?");
    let mask = "M[1|2|3|4|5|6|7|8][_NM]?";
    let exec = format!("({mask},[1|2|4|8|16|32])");
    let scatter_exec = format!("({mask},[8|16])");
    let (f, number) = ("[n|0|1|2|4|8|16|32]", "[0|1|2|4|8|16|32]");
    let origin = format!("v{uw}({ub},{ub})");
    let source = format!("[{origin}<{f};{f},{f}>|{ud}:[ud|d|uw|w|ub|b|f]|{uq}:uq]");
    let dst = format!("{origin}<[{number}|{number};{f},{f}|n;{number},{f}|n;n,n]>");
    let raw = format!("v{uw}.{uw}");
    let letters = "[RG?B?A?|GB?A?|BA?|A]";
    let shl = format!("SHL {exec} {dst} {source} {source}");
    let both = format!("[ {{[[{ub1}],{uw}|0,[{uw1}]]}}]?");
    let gather = format!("GATHER_SCALED.[1|2|4] {exec} T{ub} {source} {raw} {raw}{both}");
    let scale = format!("[ {{[{uw1}]}}]?");
    let scatter =
        format!("SVM_SCATTER4_SCALED.{letters} {scatter_exec} {source} {raw} {raw}{scale}");
    let num_src = "[@|1[0|1|2|3|4|5]]";
    let num_dst = "[#|1[0|1|2|3|4|5|6]]";
    let send = format!("raw_sendc? {exec} {ud} {num_src} {num_dst} {source} {raw} {raw}");
    pattern(&format!("{pred}[{shl}|{gather}|{scatter}|{send}]"))
}
