//! Numbers 10, 11 and 12: the addresses of a scatter, enabled pairs alone, in that order.

mod common;

use common::*;
use reference::assemble::*;
use reference::case::Case;
use reference::run::Answer;

/// Size 8, channel R unless others are named, address 0x1000, element offsets as given.
fn scattered(case: &mut Case, channels: u8, address: &Operand, offsets: &[u64]) -> Answer {
    put_uq(case, start(UQ), offsets);
    let draft = scatter(0x03, 0, channels, address, &raw(UQ, 0), &raw(UD, 0));
    run_on(case, &[draft])
}

fn number(channels: u8, address: u64, offsets: &[u64]) -> u8 {
    scattered(&mut stage(), channels, &immediate_uq(address), offsets).number
}

/// 10: each byte of an enabled lane's element offset; any non-zero taint byte counts.
#[test]
fn tainted_element_offsets() {
    for byte in 0..64 {
        for taint in [1, 2, 0x80, 0xff] {
            let mut case = stage();
            case.register_taint[start(UQ) + byte] = taint;
            let answered = scattered(&mut case, 1, &immediate_uq(0x1000), &[0; 8]);
            assert_eq!(answered, answer(10, 0, 0));
            // With the lane off it does not matter.
            let mut case = stage();
            case.register_taint[start(UQ) + byte] = taint;
            case.execution_mask = !(1 << (byte / 8));
            let answered = scattered(&mut case, 1, &immediate_uq(0x1000), &[0; 8]);
            assert_eq!(answered, answer(0, 1, 26));
        }
    }
    // The element after the last lane does not matter.
    let mut case = stage();
    case.register_taint[start(UQ) + 64] = 1;
    let answered = scattered(&mut case, 1, &immediate_uq(0x1000), &[0; 8]);
    assert_eq!(answered.number, 0);
}

/// 10: a tainted byte of a General Address, when any lane is on.
#[test]
fn tainted_address() {
    // The address stands in element 31 of the variable, row 7 column 3, bytes 248 to 255.
    let address = general(UQ, 7, 3, SCALAR_REGION);
    for byte in 248..256 {
        for (mask, number) in [(0xff, 10), (0x80, 10), (0x00, 0), (0xffff_ff00, 0)] {
            let mut case = stage();
            put_uq(&mut case, start(UQ) + 248, &[0x1000]);
            case.register_taint[start(UQ) + byte] = 1;
            case.execution_mask = mask;
            assert_eq!(scattered(&mut case, 1, &address, &[0; 8]).number, number);
        }
    }
    let mut case = stage();
    put_uq(&mut case, start(UQ) + 248, &[0x1000]);
    case.register_taint[start(UQ) + 247] = 1;
    assert_eq!(scattered(&mut case, 1, &address, &[0; 8]).number, 0);
}

/// 10 is not asked of the data: "Scattered bytes carry their marks."
#[test]
fn tainted_data_are_no_matter() {
    let mut case = stage();
    case.register_taint[start(UD)] = 7;
    let offsets = [0, 4, 8, 12, 16, 20, 24, 28];
    let answered = scattered(&mut case, 1, &immediate_uq(0x1000), &offsets);
    assert_eq!(answered.number, 0);
    assert_eq!(case.memory_taint[0..5], [1, 0, 0, 0, 0]);
    // The register's own mark byte stays as it was lent.
    assert_eq!(case.register_taint[start(UD)], 7);
}

/// 11: of the sum, whatever its parts and the base are.
#[test]
fn unaligned() {
    for (address, offset, expected) in [
        (0x1000, 0, 0),
        (0x1001, 0, 11),
        (0x1002, 0, 11),
        (0x1003, 0, 11),
        (0x1000, 1, 11),
        (0x1001, 3, 0),
        (0x0fff, 1, 0),
        (0x1002, 1, 11),
        (0x0fff, 2, 11),
    ] {
        assert_eq!(number(1, address, &[offset; 8]), expected);
    }
    // Base 0x1001: its first byte is no multiple of 4, and the first good address is base + 3.
    for (address, expected) in [(0x1001, 11), (0x1004, 0), (0x1000, 12)] {
        let mut case = stage();
        case.base = 0x1001;
        let answered = scattered(&mut case, 1, &immediate_uq(address), &[0; 8]);
        assert_eq!(answered.number, expected);
    }
    // Only enabled lanes are asked.
    let mut case = stage();
    case.execution_mask = 0x7f;
    let answered = scattered(
        &mut case,
        1,
        &immediate_uq(0x1000),
        &[0, 0, 0, 0, 0, 0, 0, 1],
    );
    assert_eq!(answered.number, 0);
}

/// 12: below the window, over its end, and by an enabled channel alone.
#[test]
fn outside_the_window() {
    assert_eq!(number(0b0001, 0x0ffc, &[0; 8]), 12);
    assert_eq!(number(0b0001, 0x103c, &[0; 8]), 0);
    assert_eq!(number(0b0001, 0x1040, &[0; 8]), 12);
    // Channel A goes 12 bytes further.
    assert_eq!(number(0b1000, 0x1030, &[0; 8]), 0);
    assert_eq!(number(0b1000, 0x1034, &[0; 8]), 12);
    assert_eq!(number(0b0111, 0x1034, &[0; 8]), 0);
    // Channel A alone, from below the window into it: "Only enabled pairs are tested".
    assert_eq!(number(0b1000, 0x0ff4, &[0; 8]), 0);
    assert_eq!(number(0b1001, 0x0ff4, &[0; 8]), 12);
    // A window of three bytes holds no dword, an empty one neither.
    for length in [0, 3] {
        let mut case = stage();
        case.memory.truncate(length);
        case.memory_taint.truncate(length);
        let answered = scattered(&mut case, 1, &immediate_uq(0x1000), &[0; 8]);
        assert_eq!(answered.number, 12);
    }
    // A window that ends inside a dword: bytes 0x1000 to 0x1005.
    for (address, expected) in [(0x1000, 0), (0x1004, 12)] {
        let mut case = stage();
        case.memory.truncate(6);
        case.memory_taint.truncate(6);
        let answered = scattered(&mut case, 1, &immediate_uq(address), &[0; 8]);
        assert_eq!(answered.number, expected);
    }
}

/// "address + element offset + 4c modulo 2^64", with a window up to 2^64 and one from 0.
#[test]
fn addresses_wrap() {
    let top = 0u64.wrapping_sub(64);
    for (base, address, offset, channels, expected) in [
        // The last dword of the window that ends at 2^64.
        (top, u64::MAX - 3, 0, 0b0001, 0),
        // Channel 1 wraps to 0, which is not in it.
        (top, u64::MAX - 3, 0, 0b0010, 12),
        // The same wrap into a window from 0.
        (0, u64::MAX - 3, 0, 0b0010, 0),
        (0, u64::MAX - 3, 0, 0b0011, 12),
        // Address and element offset wrap together.
        (0, u64::MAX, 1, 0b0001, 0),
        (0, u64::MAX, 61, 0b0001, 0),
        (0, u64::MAX, 65, 0b0001, 12),
        (0, u64::MAX, 2, 0b0001, 11),
        (top, u64::MAX, u64::MAX - 2, 0b0001, 0),
    ] {
        let mut case = stage();
        case.base = base;
        let answered = scattered(&mut case, channels, &immediate_uq(address), &[offset; 8]);
        assert_eq!(answered.number, expected, "{base:x} {address:x} {offset:x}");
    }
}

/// "10 over all lanes; 11 over all; 12 over all": the number does not depend on which lane comes first.
#[test]
fn the_order_of_the_three() {
    for flip in [false, true] {
        let order = |mut offsets: [u64; 8]| {
            if flip {
                offsets.reverse();
            }
            offsets
        };
        // One lane outside, one odd: 11.
        let offsets = order([0x100, 0, 0, 0, 0, 0, 0, 1]);
        assert_eq!(number(1, 0x1000, &offsets), 11);
        // One outside alone: 12.
        let offsets = order([0x100, 0, 0, 0, 0, 0, 0, 0]);
        assert_eq!(number(1, 0x1000, &offsets), 12);
        // One outside, one odd, one tainted: 10.
        let mut case = stage();
        case.register_taint[start(UQ) + 8 * 3] = 1;
        let offsets = order([0x100, 0, 0, 0, 0, 0, 0, 1]);
        let answered = scattered(&mut case, 1, &immediate_uq(0x1000), &offsets);
        assert_eq!(answered.number, 10);
    }
}

/// A refused scatter writes nothing, though its first pairs were good.
#[test]
fn refused_scatters_write_nothing() {
    for bad in [1, 0x100] {
        let mut case = stage();
        put(&mut case, start(UD), &[1; 32]);
        let offsets = [0, 4, 8, 12, 16, 20, 24, bad];
        let answered = scattered(&mut case, 1, &immediate_uq(0x1000), &offsets);
        assert_ne!(answered.number, 0);
        assert_eq!(case.memory, [0; 64]);
    }
}
