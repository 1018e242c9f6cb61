//! Words for a reader: names of files, reasons, amounts, and what a number means.

use std::io;

/// What each number of an answer means, as `./bench` says it.
pub struct Meanings(Vec<(u8, String)>);

impl Meanings {
    /// A line each, `NUMBER WORDS`; a line without words is a number that is not given.
    pub fn from_lines(lines: &str) -> Meanings {
        let meanings = lines.lines().filter_map(|line| {
            let (number, words) = line.split_once(' ')?;
            (!words.is_empty()).then_some((number.parse().ok()?, words.to_string()))
        });
        Meanings(meanings.collect())
    }

    pub fn of(&self, number: u8) -> &str {
        let found = self.0.iter().find(|(known, _)| *known == number);
        found.map_or("no number of the bench", |(_, words)| words)
    }
}

/// A name as it can stand in a line: what cannot be seen is written as `\n` or `\x07`, a backslash as two.
pub fn shown(name: &[u8]) -> String {
    let mut text = String::new();
    for chunk in name.utf8_chunks() {
        for character in chunk.valid().chars() {
            match character {
                '\\' => text.push_str("\\\\"),
                '\n' => text.push_str("\\n"),
                '\t' => text.push_str("\\t"),
                _ if is_hidden(character) => {
                    let mut bytes = [0; 4];
                    for byte in character.encode_utf8(&mut bytes).bytes() {
                        text.push_str(&format!("\\x{byte:02x}"));
                    }
                }
                _ => text.push(character),
            }
        }
        for byte in chunk.invalid() {
            text.push_str(&format!("\\x{byte:02x}"));
        }
    }
    text
}

/// Control characters, and those that turn the direction of a line.
fn is_hidden(character: char) -> bool {
    character.is_control()
        || matches!(character, '\u{2028}'..='\u{202e}' | '\u{2066}'..='\u{2069}' | '\u{200e}' | '\u{200f}' | '\u{feff}')
}

/// The system's reason without its number.
pub fn reason(error: &io::Error) -> String {
    let text = error.to_string();
    match text.find(" (os error") {
        Some(end) => text[..end].to_string(),
        None => text,
    }
}

/// `1 byte`, `1,025 bytes`.
pub fn amount(count: usize, noun: &str) -> String {
    format!(
        "{} {noun}{}",
        grouped(count),
        if count == 1 { "" } else { "s" }
    )
}

/// `1,025`.
pub fn grouped(count: usize) -> String {
    let digits = count.to_string();
    let mut text = String::new();
    for (index, digit) in digits.chars().enumerate() {
        if index > 0 && (digits.len() - index).is_multiple_of(3) {
            text.push(',');
        }
        text.push(digit);
    }
    text
}

#[cfg(test)]
mod tests {
    use super::*;

    #[test]
    fn names_are_one_line() {
        assert_eq!(shown(b"a b/c.case"), "a b/c.case");
        assert_eq!(shown("prix-\u{e9}.case".as_bytes()), "prix-\u{e9}.case");
        assert_eq!(shown(b"a\nb\\c\x1b\xff"), "a\\nb\\\\c\\x1b\\xff");
        assert_eq!(shown("a\u{202e}b".as_bytes()), "a\\xe2\\x80\\xaeb");
    }

    #[test]
    fn amounts() {
        assert_eq!(amount(1, "byte"), "1 byte");
        assert_eq!(amount(0, "byte"), "0 bytes");
        assert_eq!(amount(1025, "byte"), "1,025 bytes");
        assert_eq!(grouped(1_000_000), "1,000,000");
    }

    #[test]
    fn meanings() {
        let meanings = Meanings::from_lines("0 done\n6 \n7 an element outside");
        assert_eq!(meanings.of(0), "done");
        assert_eq!(meanings.of(6), "no number of the bench");
        assert_eq!(meanings.of(7), "an element outside");
    }
}
