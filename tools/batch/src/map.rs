//! The map of a register file: 32 bytes a row, variables outlined, doubtful bytes hatched, differing ones red.

use std::fmt::Write;

use crate::answer::Buffers;
use crate::case::{CaseFile, Variable};

const ROW: usize = 32;

/// A row is its first byte and its bytes, in characters of one width: the script of the page finds the byte below the pointer by them, and
/// what it tells by `data-v`, the variables, and `data-c`, the card's bytes where they differ. Classes of bytes: x differs, d is doubtful, m has
/// another mark.
pub fn map(case: &CaseFile, bench: &Buffers, card: Option<&Buffers>) -> String {
    let map = Map {
        variables: &case.variables,
        register_size: case.register_size,
        bench,
        card,
    };
    let length = bench.registers.len();
    let variables: Vec<_> = case
        .variables
        .iter()
        .map(|of| format!("{} {} {}", of.kind.name(), of.start, of.count))
        .collect();
    let mut html = format!("<div class=map data-v=\"{}\">\n", variables.join(","));
    let mut row = 0;
    while row < length {
        let rows = (row..length).step_by(ROW);
        let quiet = rows.take_while(|&row| map.is_quiet(row)).count();
        if quiet > 1 {
            let end = (row + quiet * ROW).min(length);
            let _ = writeln!(
                html,
                "<div>{row} to {}: in no variable, nothing to show</div>",
                end - 1
            );
            row = end;
            continue;
        }
        map.write_row(row, &mut html);
        row += ROW;
    }
    html.push_str("</div>\n");
    html
}

struct Map<'a> {
    variables: &'a [Variable],
    register_size: usize,
    bench: &'a Buffers,
    card: Option<&'a Buffers>,
}

impl Map<'_> {
    /// The card's byte, where it is another.
    fn other_byte(&self, byte: usize) -> Option<u8> {
        let card = self.card?.registers.get(byte).copied();
        card.filter(|card| *card != self.bench.registers[byte])
    }

    fn is_doubtful(&self, byte: usize) -> bool {
        is_marked(self.bench, byte).unwrap_or(false)
    }

    fn has_other_mark(&self, byte: usize) -> bool {
        let card = self.card.and_then(|card| is_marked(card, byte));
        card.is_some_and(|card| card != self.is_doubtful(byte))
    }

    fn end_of(&self, row: usize) -> usize {
        (row + ROW).min(self.bench.registers.len())
    }

    fn is_quiet(&self, row: usize) -> bool {
        let end = self.end_of(row);
        let is_bare = |variable: &Variable| variable.end() <= row || variable.start >= end;
        self.variables.iter().all(is_bare) && (row..end).all(|byte| self.class(byte).is_empty())
    }

    fn class(&self, byte: usize) -> &'static str {
        let differs = self.other_byte(byte).is_some();
        match (differs, self.is_doubtful(byte), self.has_other_mark(byte)) {
            (false, false, false) => "",
            (false, false, true) => "m",
            (false, true, false) => "d",
            (false, true, true) => "\"d m\"",
            (true, false, false) => "x",
            (true, false, true) => "\"x m\"",
            (true, true, false) => "\"x d\"",
            (true, true, true) => "\"x d m\"",
        }
    }

    fn write_row(&self, row: usize, html: &mut String) {
        let end = self.end_of(row);
        html.push_str("<p");
        if row > 0 && self.starts_register(row) {
            html.push_str(" class=r");
        }
        let others: Vec<_> = (row..end)
            .filter_map(|byte| Some(format!("{byte}:{:02x}", self.other_byte(byte)?)))
            .collect();
        if !others.is_empty() {
            let _ = write!(html, " data-c=\"{}\"", others.join(" "));
        }
        let _ = write!(html, ">{row:4}  ");
        let mut first = row;
        while first < end {
            let class = self.class(first);
            let stretch = (first..end).take_while(|&byte| self.class(byte) == class);
            let next = first + stretch.count();
            let bytes: Vec<_> = self.bench.registers[first..next]
                .iter()
                .map(|byte| format!("{byte:02x}"))
                .collect();
            let bytes = bytes.join(" ");
            if class.is_empty() {
                html.push_str(&bytes);
            } else {
                let _ = write!(html, "<i class={class}>{bytes}</i>");
            }
            if next < end {
                html.push(' ');
            }
            first = next;
        }
        for (number, variable) in self.variables.iter().enumerate() {
            self.write_outline(number, variable, row, html);
        }
        html.push_str("</p>\n");
    }

    /// Registers of more than a row stand apart.
    fn starts_register(&self, row: usize) -> bool {
        self.register_size > ROW && row.is_multiple_of(self.register_size)
    }

    /// The rectangle of a variable that begins in a row: l its first byte there, w its bytes, h its rows and g the gaps between registers in
    /// it. A variable of whole rows and a part of one has two.
    fn write_outline(&self, number: usize, variable: &Variable, row: usize, html: &mut String) {
        let (start, end) = (variable.start, variable.end());
        let begins = (row..row + ROW).contains(&start);
        let last = (end - 1) / ROW * ROW;
        let whole_end = if end.is_multiple_of(ROW) { end } else { last };
        let (from, to) = if begins && end <= row + ROW {
            (start, end)
        } else if begins {
            (start, whole_end)
        } else if row == last && whole_end != end && start < row {
            (row, end)
        } else {
            return;
        };
        let rows = (to - row).div_ceil(ROW);
        let width = if rows > 1 { ROW } else { to - from };
        let inner = (1..rows).filter(|index| self.starts_register(row + index * ROW));
        let mut place = format!("--l:{};--w:{width}", from - row);
        if rows > 1 {
            let _ = write!(place, ";--h:{rows};--g:{}", inner.count());
        }
        let _ = write!(html, "<s class=v{} style={place}></s>", number % 6);
    }
}

fn is_marked(buffers: &Buffers, byte: usize) -> Option<bool> {
    let mark = buffers.register_marks.as_ref()?.get(byte)?;
    Some(*mark != 0)
}

#[cfg(test)]
mod tests {
    use super::*;

    fn buffers(registers: Vec<u8>, marks: Vec<u8>) -> Buffers {
        Buffers {
            registers,
            base: 0,
            memory: Vec::new(),
            register_marks: Some(marks),
            memory_marks: Some(Vec::new()),
        }
    }

    #[test]
    fn bytes_of_each_kind() {
        let case = CaseFile::read(b"020200000200").unwrap();
        let mut marks = vec![0; 32];
        marks[2] = 1;
        let bench = buffers(vec![1; 32], marks.clone());
        let mut registers = vec![1; 32];
        registers[3] = 2;
        registers[31] = 3;
        marks[2] = 0;
        let card = buffers(registers, marks);
        let between = ["01"; 27].join(" ");
        assert_eq!(
            map(&case, &bench, Some(&card)),
            format!(
                "<div class=map data-v=\"UW 0 2\">\n\
                 <p data-c=\"3:02 31:03\">   0  01 01 <i class=\"d m\">01</i> <i class=x>01</i> {between} <i class=x>01</i>\
                 <s class=v0 style=--l:0;--w:4></s></p>\n</div>\n"
            )
        );
    }

    #[test]
    fn rows_with_nothing_to_show_are_one() {
        let case = CaseFile::read(b"020200000200").unwrap();
        let html = map(&case, &buffers(vec![0; 256], vec![0; 256]), None);
        assert_eq!(html.matches("<p").count(), 1);
        assert!(html.contains("<div>32 to 255: in no variable, nothing to show</div>"));
    }

    #[test]
    fn outlines() {
        // 40 words of 64-byte registers: two rows, and 16 bytes of a third.
        let case = CaseFile::read(b"020200002800\n0b40\n02040a000200").unwrap();
        let html = map(&case, &buffers(vec![0; 128], vec![0; 128]), None);
        let outlines: Vec<_> = html
            .match_indices("<s ")
            .map(|(at, _)| &html[at..])
            .collect();
        assert!(outlines[0].starts_with("<s class=v0 style=--l:0;--w:32;--h:2;--g:0></s>"));
        assert!(outlines[1].starts_with("<s class=v1 style=--l:10;--w:2></s>"));
        assert!(outlines[2].starts_with("<s class=v0 style=--l:0;--w:16></s>"));
        assert_eq!(outlines.len(), 3);
        assert_eq!(html.matches("<p class=r>  64").count(), 1);
    }
}
