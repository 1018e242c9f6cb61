//! Show: "that part of one of those two buffers, or refuses with 7 and an empty part exactly when it
//! runs over the end".

use reference::show::{show, Buffer};

const REGISTERS: [u8; 6] = [10, 11, 12, 13, 14, 15];
const MEMORY: [u8; 4] = [20, 21, 22, 23];

fn shown(buffer: Buffer, start: usize, length: usize) -> (u8, Vec<u8>) {
    let (number, part) = show(&REGISTERS, &MEMORY, buffer, start, length);
    (number, part.to_vec())
}

#[test]
fn parts() {
    assert_eq!(shown(Buffer::Registers, 0, 6), (0, REGISTERS.to_vec()));
    assert_eq!(shown(Buffer::Registers, 2, 3), (0, vec![12, 13, 14]));
    assert_eq!(shown(Buffer::Memory, 1, 3), (0, vec![21, 22, 23]));
    assert_eq!(shown(Buffer::Memory, 0, 0), (0, vec![]));
}

/// The end itself may be shown, with no bytes.
#[test]
fn at_the_end() {
    assert_eq!(shown(Buffer::Registers, 6, 0), (0, vec![]));
    assert_eq!(shown(Buffer::Registers, 6, 1), (7, vec![]));
    assert_eq!(shown(Buffer::Registers, 7, 0), (7, vec![]));
    assert_eq!(shown(Buffer::Memory, 4, 0), (0, vec![]));
    assert_eq!(shown(Buffer::Memory, 5, 0), (7, vec![]));
    // Good in the registers, over the end of memory.
    assert_eq!(shown(Buffer::Registers, 2, 4).0, 0);
    assert_eq!(shown(Buffer::Memory, 2, 4), (7, vec![]));
}

/// Sums are exact: nothing wraps.
#[test]
fn sums_are_exact() {
    assert_eq!(shown(Buffer::Registers, usize::MAX, 2), (7, vec![]));
    assert_eq!(shown(Buffer::Registers, 2, usize::MAX), (7, vec![]));
    assert_eq!(shown(Buffer::Memory, usize::MAX, usize::MAX), (7, vec![]));
}
