//! The bench's answer beside a card's: what differs, by variable and address, and what of it is doubtful anyway.

use std::collections::BTreeSet;

use crate::answer::{Answer, Buffers, Head};
use crate::case::{CaseFile, Variable};
use crate::hex;
use crate::words::amount;

#[derive(Debug, Default)]
pub struct Comparison {
    /// The line 40 of the bench and of the card, where they differ.
    pub heads: Option<(Head, Head)>,
    /// What needs a writer, a line each.
    pub lines: Vec<String>,
    /// What stands in bytes that the bench marks doubtful, a line each.
    pub doubtful: Vec<String>,
    pub counts: Counts,
}

#[derive(Debug, Default, Clone, Copy, PartialEq, Eq)]
pub struct Counts {
    /// Numbers of the line 40.
    pub head: usize,
    /// Lengths, a base, buffers that one of the two lacks.
    pub shape: usize,
    pub register_bytes: usize,
    pub memory_bytes: usize,
    pub marks: usize,
    pub doubtful_bytes: usize,
    /// Bytes of registers and memory that both have.
    pub compared: usize,
}

impl Counts {
    /// What needs a writer.
    pub fn differences(&self) -> usize {
        self.head + self.shape + self.register_bytes + self.memory_bytes + self.marks
    }

    pub fn equal(&self) -> usize {
        self.compared - self.register_bytes - self.memory_bytes - self.doubtful_bytes
    }
}

pub fn compare(case: &CaseFile, bench: &Answer, card: &Answer) -> Comparison {
    let mut found = Comparison::default();
    if bench.head != card.head {
        let (a, b) = (bench.head, card.head);
        found.heads = Some((a, b));
        found.counts.head = usize::from(a.number != b.number)
            + usize::from(a.completed != b.completed)
            + usize::from(a.position != b.position);
    }
    match (&bench.buffers, &card.buffers) {
        (Some(bench), Some(card)) => compare_buffers(case, bench, card, &mut found),
        (None, None) => {}
        (Some(_), None) => found.tell_shape("the card's answer has no registers and no memory"),
        (None, Some(_)) => {
            found.tell_shape("the card's answer has registers and memory, the bench's none")
        }
    }
    found
}

impl Comparison {
    fn tell_shape(&mut self, text: &str) {
        self.counts.shape += 1;
        self.lines.push(text.to_string());
    }

    /// A line of some bytes, told where it belongs; in both places if a part is doubtful and a part is not.
    fn tell(&mut self, text: String, bytes: impl Iterator<Item = usize>, buffer: &Buffer) {
        let differing: Vec<_> = bytes.filter(|&byte| buffer.differs(byte)).collect();
        let doubtful = differing.iter().filter(|&&byte| buffer.is_doubtful(byte));
        let doubtful = doubtful.count();
        if doubtful == 0 {
            self.lines.push(text);
        } else if doubtful == differing.len() {
            self.doubtful.push(text);
        } else {
            self.lines.push(format!("{text}, in part doubtful"));
            self.doubtful.push(format!("{text}, in part"));
        }
    }
}

/// One buffer of both answers, as far as both have it.
struct Buffer<'a> {
    bench: &'a [u8],
    card: &'a [u8],
    marks: &'a [u8],
}

impl<'a> Buffer<'a> {
    fn of(bench: &'a [u8], card: &'a [u8], marks: &'a Option<Vec<u8>>) -> Buffer<'a> {
        let length = bench.len().min(card.len());
        Buffer {
            bench: &bench[..length],
            card: &card[..length],
            marks: marks.as_deref().unwrap_or_default(),
        }
    }

    fn differs(&self, byte: usize) -> bool {
        self.bench[byte] != self.card[byte]
    }

    fn is_doubtful(&self, byte: usize) -> bool {
        self.marks.get(byte).is_some_and(|&mark| mark != 0)
    }

    fn differing(&self) -> impl Iterator<Item = usize> + '_ {
        (0..self.bench.len()).filter(|&byte| self.differs(byte))
    }

    /// How many differing bytes are clean, and how many doubtful.
    fn count(&self) -> (usize, usize) {
        let doubtful = self.differing().filter(|&byte| self.is_doubtful(byte));
        let doubtful = doubtful.count();
        (self.differing().count() - doubtful, doubtful)
    }

    /// Both values of some bytes, as hex numbers.
    fn values(&self, first: usize, length: usize) -> String {
        let value = |bytes: &[u8]| {
            let number = hex::number(&bytes[first..first + length]);
            format!("0x{number:0width$x}", width = 2 * length)
        };
        format!("bench {}, card {}", value(self.bench), value(self.card))
    }
}

fn compare_buffers(case: &CaseFile, bench: &Buffers, card: &Buffers, found: &mut Comparison) {
    let lengths = [
        ("registers", bench.registers.len(), card.registers.len()),
        ("memory", bench.memory.len(), card.memory.len()),
    ];
    for (name, ours, theirs) in lengths {
        if ours != theirs {
            found.tell_shape(&format!(
                "{name}: bench {}, card {}",
                amount(ours, "byte"),
                amount(theirs, "byte")
            ));
        }
    }
    if bench.base != card.base {
        let (ours, theirs) = (bench.base, card.base);
        found.tell_shape(&format!(
            "the memory's base: bench {ours:#x}, card {theirs:#x}"
        ));
    }
    let registers = Buffer::of(&bench.registers, &card.registers, &bench.register_marks);
    let memory = Buffer::of(&bench.memory, &card.memory, &bench.memory_marks);
    found.counts.compared = registers.bench.len() + memory.bench.len();
    let (clean, doubtful) = registers.count();
    found.counts.register_bytes = clean;
    found.counts.doubtful_bytes = doubtful;
    let (clean, doubtful) = memory.count();
    found.counts.memory_bytes = clean;
    found.counts.doubtful_bytes += doubtful;
    tell_registers(&case.variables, &registers, found);
    tell_memory(bench.base, &memory, found);
    let register_name = |first, last| register_place(&case.variables, first, last);
    tell_marks(
        &bench.register_marks,
        &card.register_marks,
        register_name,
        found,
    );
    let memory_name = |first, last| memory_place(bench.base, first, last);
    tell_marks(&bench.memory_marks, &card.memory_marks, memory_name, found);
}

/// What is told of the registers, by its first byte: elements by variable, and bytes that no variable has.
#[derive(PartialEq, Eq, PartialOrd, Ord)]
struct Piece {
    first: usize,
    variable: Option<usize>,
    element: usize,
}

fn tell_registers(variables: &[Variable], buffer: &Buffer, found: &mut Comparison) {
    let mut pieces = BTreeSet::new();
    for byte in buffer.differing() {
        let mut is_covered = false;
        for (variable, of) in variables.iter().enumerate() {
            let Some(element) = of.element_at(byte) else {
                continue;
            };
            let first = of.place(element);
            if first + of.kind.size() <= buffer.bench.len() {
                is_covered = true;
                pieces.insert(Piece {
                    first,
                    variable: Some(variable),
                    element,
                });
            }
        }
        if !is_covered {
            pieces.insert(Piece {
                first: byte,
                variable: None,
                element: 0,
            });
        }
    }
    for piece in pieces {
        let first = piece.first;
        let Some(number) = piece.variable else {
            let values = buffer.values(first, 1);
            let text = format!("byte {first}, in no variable: {values}");
            found.tell(text, first..=first, buffer);
            continue;
        };
        let kind = variables[number].kind;
        let bytes = first..first + kind.size();
        let text = format!(
            "{} {} at byte {first}: bench {}, card {}",
            element_name(number, piece.element),
            kind.name(),
            kind.value(&buffer.bench[bytes.clone()]),
            kind.value(&buffer.card[bytes.clone()])
        );
        found.tell(text, bytes, buffer);
    }
}

pub fn element_name(variable: usize, element: usize) -> String {
    format!("v{variable}[{element}]")
}

/// Dwords where all four bytes are there and the address is a multiple of 4, bytes elsewhere.
fn tell_memory(base: u64, buffer: &Buffer, found: &mut Comparison) {
    let length = buffer.bench.len();
    let mut told = 0;
    for byte in buffer.differing() {
        if byte < told {
            continue;
        }
        let into = (base.wrapping_add(byte as u64) % 4) as usize;
        let is_dword = byte >= into && byte - into + 4 <= length;
        let (first, size) = if is_dword {
            (byte - into, 4)
        } else {
            (byte, 1)
        };
        told = first + size;
        let address = base.wrapping_add(first as u64);
        let text = format!("memory {address:#x}: {}", buffer.values(first, size));
        found.tell(text, first..told, buffer);
    }
}

/// Marks that one of the two has and the other has not, in stretches. A card without marks has nothing to compare.
fn tell_marks(
    bench: &Option<Vec<u8>>,
    card: &Option<Vec<u8>>,
    place: impl Fn(usize, usize) -> String,
    found: &mut Comparison,
) {
    let (Some(bench), Some(card)) = (bench, card) else {
        return;
    };
    let state = |byte: usize| match (bench.get(byte), card.get(byte)) {
        (Some(&ours), Some(&theirs)) if (ours == 0) != (theirs == 0) => Some(ours != 0),
        _ => None,
    };
    let mut first = 0;
    while first < bench.len() {
        let Some(ours) = state(first) else {
            first += 1;
            continue;
        };
        let mut end = first + 1;
        while end < bench.len() && state(end) == Some(ours) {
            end += 1;
        }
        found.counts.marks += end - first;
        let place = place(first, end - 1);
        found.lines.push(if ours {
            format!("mark of {place}: bench doubtful, card not")
        } else {
            format!("mark of {place}: bench not doubtful, card doubtful")
        });
        first = end;
    }
}

/// `byte 18 (v1[1])`, `bytes 18 to 21 (v1[1] to v1[2], v3[0])`.
fn register_place(variables: &[Variable], first: usize, last: usize) -> String {
    let mut names = Vec::new();
    for (number, variable) in variables.iter().enumerate() {
        let mut elements = (first..=last).filter_map(|byte| variable.element_at(byte));
        let Some(from) = elements.next() else {
            continue;
        };
        let to = elements.next_back().unwrap_or(from);
        names.push(if from == to {
            element_name(number, from)
        } else {
            format!(
                "{} to {}",
                element_name(number, from),
                element_name(number, to)
            )
        });
    }
    let names = if names.is_empty() {
        "in no variable".to_string()
    } else {
        names.join(", ")
    };
    if first == last {
        format!("byte {first} ({names})")
    } else {
        format!("bytes {first} to {last} ({names})")
    }
}

fn memory_place(base: u64, first: usize, last: usize) -> String {
    let address = |byte: usize| base.wrapping_add(byte as u64);
    if first == last {
        format!("memory {:#x}", address(first))
    } else {
        format!("memory {:#x} to {:#x}", address(first), address(last))
    }
}

#[cfg(test)]
mod tests {
    use super::*;

    const HEAD: &str = "4000010018000000\n";

    fn answer(text: &str) -> Answer {
        Answer::read(text.as_bytes(), true).unwrap()
    }

    fn of(case: &str, bench: &str, card: &str) -> Comparison {
        let case = CaseFile::read(case.as_bytes()).unwrap();
        compare(
            &case,
            &answer(&format!("{HEAD}{bench}")),
            &answer(&format!("{HEAD}{card}")),
        )
    }

    const BASE: &str = "\n050010000000000000";

    #[test]
    fn every_variable_that_lies_there() {
        let case = "020300000100\n020400000300\n020000000100";
        let found = of(
            case,
            &format!("0100ff0000aa{BASE}\n"),
            &format!("0100fe0000ab{BASE}\n"),
        );
        assert_eq!(
            found.lines,
            [
                "v0[0] W at byte 0: bench -256 (0xff00), card -512 (0xfe00)",
                "v2[0] UD at byte 0: bench 65280 (0x0000ff00), card 65024 (0x0000fe00)",
                "v1[1] UB at byte 1: bench 255 (0xff), card 254 (0xfe)",
                "byte 4, in no variable: bench 0xaa, card 0xab",
            ]
        );
        assert_eq!(found.counts.register_bytes, 2);
        assert_eq!(found.counts.equal(), 3);
    }

    #[test]
    fn doubtful_bytes_stand_apart() {
        let found = of(
            "020200000200",
            &format!("0111223344{BASE}\n0801000001\n0a\n"),
            &format!("0112233344{BASE}\n"),
        );
        let text = "v0[0] UW at byte 0: bench 8721 (0x2211), card 8978 (0x2312)";
        assert_eq!(found.lines, [format!("{text}, in part doubtful")]);
        assert_eq!(found.doubtful, [format!("{text}, in part")]);
        let found = of(
            "020200000200",
            &format!("0111223344{BASE}\n0800000001\n0a\n"),
            &format!("0111223345{BASE}\n"),
        );
        assert!(found.lines.is_empty());
        assert_eq!(found.counts.differences(), 0);
        assert_eq!(
            found.doubtful,
            ["v0[1] UW at byte 2: bench 17459 (0x4433), card 17715 (0x4533)"]
        );
    }

    #[test]
    fn memory_by_dwords_and_bytes() {
        let bench = "01\n050210000000000000aabb1122334455\n";
        let card = "01\n050210000000000000abbb1123334456\n";
        assert_eq!(
            of("", bench, card).lines,
            [
                "memory 0x1002: bench 0xaa, card 0xab",
                "memory 0x1004: bench 0x44332211, card 0x44332311",
                "memory 0x1008: bench 0x55, card 0x56",
            ]
        );
    }

    #[test]
    fn marks_only_where_the_card_has_them() {
        let bench = format!("0111223344{BASE}aa\n0801010000\n0a00\n");
        let none = format!("0111223344{BASE}aa\n");
        assert_eq!(of("", &bench, &none).counts.differences(), 0);
        let other = format!("0111223344{BASE}aa\n0800000007\n0a01\n");
        let found = of("020200000200", &bench, &other);
        assert_eq!(
            found.lines,
            [
                "mark of bytes 0 to 1 (v0[0]): bench doubtful, card not",
                "mark of byte 3 (v0[1]): bench not doubtful, card doubtful",
                "mark of memory 0x1000: bench not doubtful, card doubtful",
            ]
        );
        assert_eq!(found.counts.marks, 4);
        // Two marks of other values both say doubtful.
        let same = format!("0111223344{BASE}aa\n0807020000\n0a00\n");
        assert_eq!(of("", &bench, &same).counts.differences(), 0);
    }

    #[test]
    fn other_shapes() {
        let found = of(
            "",
            &format!("011122{BASE}\n"),
            "0112\n05002000000000000000\n",
        );
        assert_eq!(
            found.lines,
            [
                "registers: bench 2 bytes, card 1 byte",
                "memory: bench 0 bytes, card 1 byte",
                "the memory's base: bench 0x1000, card 0x2000",
                "byte 0, in no variable: bench 0x11, card 0x12",
            ]
        );
        let case = CaseFile::read(b"").unwrap();
        let none = answer("400d000000000000\n");
        let some = answer(&format!("{HEAD}01{BASE}\n"));
        let found = compare(&case, &some, &none);
        assert_eq!(
            found.lines,
            ["the card's answer has no registers and no memory"]
        );
        assert_eq!(found.counts.head, 3);
        assert_eq!(compare(&case, &none, &some).counts.shape, 1);
        assert_eq!(compare(&case, &none, &none).counts.differences(), 0);
    }
}
