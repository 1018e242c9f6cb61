//! Printing and reading as a whole, over generated instructions: the two undo each other, printing refuses as the encoder
//! does, and refusals leave the buffer as it was.

use reference::encode::{encode, encoding};
use reference::generate::instructions::{bytes, faulty, good, longest};
use reference::generate::line_cases::{line_case, LineKind};
use reference::generate::random::Random;
use reference::instruction::Instruction;
use reference::print::{print, print_into};
use reference::read::{read, read_into, Refusal};
use std::collections::{BTreeMap, HashMap};

fn instructions(seed: u64, count: u64) -> impl Iterator<Item = Instruction> {
    (0..count).map(move |index| {
        let mut random = Random::new(seed, index);
        match random.below(20) {
            0 => longest(&mut random),
            _ => good(&mut random),
        }
    })
}

/// "Print then read gives the same bytes".
#[test]
fn print_then_read() {
    for instruction in instructions(21, 20_000) {
        let line = print(&instruction).unwrap();
        assert_eq!(read(line.as_bytes()), Ok(instruction), "{line}");
        assert!(line.len() <= 108 && encoding(&instruction).unwrap().len() <= 31);
        assert!(line.is_ascii() && !line.contains("  ") && line.trim() == line);
    }
}

/// "each instruction ... has one printed line": no two share one.
#[test]
fn no_two_share_a_line() {
    let mut met = HashMap::new();
    for instruction in instructions(22, 20_000) {
        let line = print(&instruction).unwrap();
        let other = *met.entry(line).or_insert(instruction);
        assert_eq!(other, instruction);
    }
}

/// A text that is read is the line of what it gives.
#[test]
fn read_then_print() {
    let mut taken = 0;
    for index in 0..20_000 {
        let text = line_case(LineKind::Texts, 23, index).line;
        if let Ok(instruction) = read(&text) {
            assert_eq!(print(&instruction).unwrap().as_bytes(), text);
            taken += 1;
        }
    }
    assert!(taken > 3000, "{taken}");
}

/// "printing refuses fields as the encoder does", whatever the room; then 15, by the line's length.
#[test]
fn printing_refuses_as_the_encoder() {
    let mut numbers = BTreeMap::new();
    for index in 0..20_000 {
        let instruction = faulty(&mut Random::new(24, index));
        let encoded = encode(&instruction, &mut [0; 31]).map(|_| ());
        assert_eq!(print(&instruction).map(|_| ()), encoded);
        *numbers.entry(encoded).or_insert(0) += 1;
        for room in [0, 20, 108] {
            let mut buffer = vec![0x55; room];
            let printed = print_into(&instruction, &mut buffer);
            match print(&instruction) {
                Err(number) => assert_eq!(printed, Err(number)),
                Ok(line) if room < line.len() => assert_eq!(printed, Err(15)),
                Ok(line) => {
                    assert_eq!(printed, Ok(line.len()));
                    assert_eq!(&buffer[..line.len()], line.as_bytes());
                    buffer[..line.len()].fill(0x55);
                }
            }
            assert_eq!(buffer, vec![0x55; room]);
        }
    }
    // A field that the kind of instruction lacks was changed where nothing is refused.
    for answer in [Ok(()), Err(2), Err(3), Err(4)] {
        assert!(numbers[&answer] > 500, "{numbers:?}");
    }
    assert_eq!(numbers.len(), 4);
}

/// Exactly enough room, one byte too little, and more than enough.
#[test]
fn rooms() {
    for instruction in instructions(25, 2_000) {
        let line = print(&instruction).unwrap();
        let bytes = encoding(&instruction).unwrap();
        let mut buffer = vec![0x55; line.len() - 1];
        assert_eq!(print_into(&instruction, &mut buffer), Err(15));
        assert_eq!(buffer, vec![0x55; line.len() - 1]);
        let mut buffer = vec![0x55; bytes.len() - 1];
        let refusal = read_into(line.as_bytes(), &mut buffer);
        assert_eq!(refusal, Err(Refusal::ShortBuffer));
        assert_eq!(buffer, vec![0x55; bytes.len() - 1]);
        for more in [0, 9] {
            let mut buffer = vec![0x55; line.len() + more];
            assert_eq!(print_into(&instruction, &mut buffer), Ok(line.len()));
            assert_eq!(&buffer[..line.len()], line.as_bytes());
            assert_eq!(buffer[line.len()..], vec![0x55; more]);
            let mut buffer = vec![0x55; bytes.len() + more];
            let length = read_into(line.as_bytes(), &mut buffer);
            assert_eq!(length, Ok(bytes.len()));
            assert_eq!(buffer[..bytes.len()], bytes);
            assert_eq!(buffer[bytes.len()..], vec![0x55; more]);
        }
    }
}

/// The generator's own bytes are those of the encoder.
#[test]
fn generated_bytes() {
    for instruction in instructions(26, 2_000) {
        assert_eq!(encoding(&instruction), Ok(bytes(&instruction)));
    }
}
