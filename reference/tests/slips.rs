//! Document 01's "Slips we have seen": each test fails for an interpreter that makes the slip.

mod common;

use common::*;
use reference::assemble::*;
use reference::case::Predicate;

/// Slip 1: "Testing alignment lane by lane before asking about doubt, so the number depends on a
/// doubtful byte." Lane 0 is odd, lane 7 is tainted: 10, and the same for every value of the tainted
/// byte.
#[test]
fn doubt_is_asked_about_before_alignment() {
    for doubtful in [0u8, 1, 2, 4, 0xff] {
        let mut case = stage();
        let mut offsets = [0u64; 8];
        offsets[0] = 1;
        put_uq(&mut case, start(UQ), &offsets);
        // The lowest byte of lane 7's element offset.
        put(&mut case, start(UQ) + 56, &[doubtful]);
        case.register_taint[start(UQ) + 56] = 1;
        let draft = scatter(0x03, 0, 1, &immediate_uq(0x1000), &raw(UQ, 0), &raw(UD, 0));
        assert_eq!(run_on(&mut case, &[draft]), answer(10, 0, 0));
    }
}

/// Slip 2: "any and all taken over EM's channels only." With EM 0x01 the slip would see the bit of
/// lane 0 alone.
#[test]
fn any_and_all_do_not_look_at_the_mask() {
    // Predicate bits 0x80: any over eight is true, all over eight is false. Predicate bits 0x01: all
    // over EM's one channel would be true, all over eight is false.
    for (bits, pred, lane_0_on) in [
        (0x80, 0x2000, true),
        (0x80, 0xa000, false),
        (0x01, 0x4000, false),
        (0x01, 0xc000, true),
        (0xff, 0x4000, true),
        (0xff, 0xc000, false),
    ] {
        let mut case = stage();
        case.execution_mask = 0x01;
        case.predicates = vec![Predicate::of_32(bits)];
        let draft = shl(
            0x03,
            pred,
            &general(UB, 0, 0, destination_region(1)),
            &immediate(0, 3),
            &immediate(0, 1),
        );
        assert_eq!(run_on(&mut case, &[draft]), answer(0, 1, 23));
        let written = if lane_0_on { 6 } else { 0 };
        assert_eq!(
            case.registers[start(UB)],
            written,
            "bits {bits:x} pred {pred:x}"
        );
        assert_eq!(case.registers[start(UB) + 1], 0);
    }
}

/// Slip 3: "Scatter data indexed by channel number instead of by enabled channels so far." Channel 3
/// alone takes dword 0, where the slip would take dword 24.
#[test]
fn scatter_data_follow_the_enabled_channels() {
    let mut case = stage();
    put(&mut case, start(UD), &[1, 2, 3, 4]);
    put(&mut case, start(UD) + 4 * 24, &[9, 9, 9, 9]);
    case.execution_mask = 0x01;
    let draft = scatter(
        0x03,
        0,
        0b1000,
        &immediate_uq(0x1000),
        &raw(UQ, 0),
        &raw(UD, 0),
    );
    assert_eq!(run_on(&mut case, &[draft]), answer(0, 1, 26));
    assert_eq!(case.memory[12..16], [1, 2, 3, 4]);
    assert_eq!(case.memory[0..12], [0; 12]);
}

/// The same slip with size 16: channels 0 and 2 take dwords 0-15 and 16-31.
#[test]
fn the_next_enabled_channel_starts_at_dword_16_for_size_16() {
    let mut case = stage();
    put(&mut case, start(UD) + 4 * 15, &[5, 0, 0, 0]);
    put(&mut case, start(UD) + 4 * 31, &[6, 0, 0, 0]);
    case.execution_mask = 1 << 15;
    let draft = scatter(
        0x04,
        0,
        0b0101,
        &immediate_uq(0x1000),
        &raw(UQ, 0),
        &raw(UD, 0),
    );
    assert_eq!(run_on(&mut case, &[draft]), answer(0, 1, 26));
    assert_eq!(case.memory[0..12], [5, 0, 0, 0, 0, 0, 0, 0, 6, 0, 0, 0]);
}
