//! The mistakes that the report counts: each shows where it answers wrongly and not beside it.

mod common;

use common::*;
use reference::assemble::*;
use reference::assembled::assembled;
use reference::bench::answer as answer_to;
use reference::case::Case;
use reference::case_writer::write_case;
use reference::generate::mistakes::{Judged, Mistake, Mistake::*};
use reference::generate::size_mistakes::{SizeMistake, SizeMistake::*};
use reference::refusal::Detail;

/// The mistakes that show on a case, apart from two that show wherever an operand is named. It has no predicates.
fn shown(case: &mut Case, draft: Draft) -> Vec<Mistake> {
    case.kernel = draft.bytes();
    case.predicates.clear();
    let file = write_case(case);
    let answer = answer_to(&file);
    let mut mistakes = Judged::of(&file, &answer).mistakes();
    let names_operand = matches!(answer.detail, Detail::Operand(_));
    let everywhere = [PlaceFrom0, PlaceOverFields];
    for mistake in everywhere {
        assert_eq!(mistakes.contains(&mistake), names_operand);
    }
    mistakes.retain(|it| !everywhere.contains(it));
    mistakes
}

/// Of a SHL with these region words; a source without one is an immediate.
fn of_shl(exec_code: u8, dst: u16, src0: Option<u16>, src1: Option<u16>) -> Vec<Mistake> {
    let source = |word: Option<u16>| match word {
        Some(word) => general(UB, 0, 0, word),
        None => immediate(0, 1),
    };
    let dst = general(UB, 0, 0, dst);
    let draft = shl(exec_code, 0, &dst, &source(src0), &source(src1));
    shown(&mut stage(), draft)
}

/// A word with Nulls, by its codes.
fn codes(vertical: u16, width: u16, horizontal: u16) -> u16 {
    vertical | width << 4 | horizontal << 8
}

#[test]
fn mistakes_of_a_source() {
    let of = |word| of_shl(3, 0x0200, Some(word), None);
    let nothing: [Mistake; 0] = [];
    assert_eq!(of(source_region(8, 8, 1)), nothing);
    assert_eq!(of(source_region(8, 0, 1)), nothing);
    assert_eq!(of(source_region(8, 8, 8)), nothing);
    assert_eq!(of(source_region(8, 16, 1)), nothing);
    assert_eq!(of(source_region(8, 16, 8)), [WidthBeforeStride]);
    assert_eq!(of(source_region(8, 32, 1)), [Width32Over]);
    assert_eq!(of(source_region(8, 32, 8)), [Width32Over]);
    // <n;16,1>, <n;32,1>, <8;n,8>
    assert_eq!(of(codes(0, 6, 2)), [NullsFirst]);
    assert_eq!(of(codes(0, 7, 2)), [NullsFirst, Width32Over]);
    assert_eq!(of(codes(5, 0, 5)), [NullsFirst, NullIs0]);
    // <8;n,1>, <n;8,1>
    assert_eq!(of(codes(5, 0, 2)), [NullIs0]);
    assert_eq!(of(codes(0, 5, 2)), nothing);
    // Width 32 is not over an ExecSize of 32.
    let of_32 = of_shl(5, 0x0200, Some(source_region(8, 32, 1)), None);
    assert_eq!(of_32, nothing);
}

#[test]
fn mistakes_of_a_destination() {
    let of = |word| of_shl(3, word, None, None);
    let nothing: [Mistake; 0] = [];
    // <8>, <0>, <n;n,n>
    assert_eq!(of(0x0500), nothing);
    assert_eq!(of(0x0100), nothing);
    assert_eq!(of(0x0000), [NullIs0]);
    // <n;8,1>, <n;0,1>, <n;16,1>, <n;32,1>
    assert_eq!(of(codes(0, 5, 2)), nothing);
    assert_eq!(of(codes(0, 1, 2)), [DestinationWidthBy20]);
    assert_eq!(of(codes(0, 6, 2)), [DestinationWidthBy22]);
    assert_eq!(
        of(codes(0, 7, 2)),
        [DestinationWidthBy20, DestinationWidthBy22]
    );
    // <n;16,8> is 21 before 22, <n;16,0> is 22 before 23, <8;n,0> is 23 before 24.
    assert_eq!(of(codes(0, 6, 5)), [NullsFirst]);
    assert_eq!(of(codes(0, 6, 1)), [NullsFirst, DestinationWidthBy22]);
    assert_eq!(of(codes(5, 0, 1)), [NullsFirst]);
}

#[test]
fn mistakes_of_two_operands() {
    let of = |dst, src0, src1| of_shl(3, dst, Some(src0), Some(src1));
    let good = source_region(8, 8, 1);
    let width_0 = source_region(8, 0, 1);
    let stride_8 = source_region(8, 8, 8);
    let nothing: [Mistake; 0] = [];
    assert_eq!(of(0x0500, good, good), nothing);
    assert_eq!(of(0x0500, width_0, good), [RuleByRule, LastOperand]);
    assert_eq!(of(0x0200, width_0, stride_8), [LastOperand]);
    assert_eq!(of(0x0200, stride_8, stride_8), [LastOperand]);
    assert_eq!(of(0x0100, stride_8, width_0), [RuleByRule, LastOperand]);
}

#[test]
fn mistakes_of_a_scalar() {
    let of = |word: u16| {
        let offset = general(UD, 0, 0, word);
        let address = general(UQ, 0, 0, word);
        let gathered = gather(3, 0, 2, 0, &offset, &raw(UD, 0), &raw(F, 0));
        let scattered = scatter(3, 0, 1, &address, &raw(UQ, 0), &raw(F, 0));
        let sent = raw_send(3, 0, 1, 1, &offset, &raw(UD, 0), &raw(F, 0));
        [gathered, scattered, sent].map(|draft| shown(&mut stage(), draft))
    };
    // A region that SHL takes, and one that it does not.
    assert_eq!(
        of(source_region(8, 8, 1)),
        [vec![SurfaceCounted], vec![], vec![]]
    );
    let by_rules = vec![ScalarByShlRules];
    let both = vec![ScalarByShlRules, SurfaceCounted];
    assert_eq!(of(0x0200), [both, by_rules.clone(), by_rules]);
}

/// Of a scatter of eight lanes with these element offsets; the window has 64 bytes.
fn of_scatter(exec: u8, mask: u32, channels: u8, offsets: &[u64]) -> Vec<Mistake> {
    let mut case = stage();
    case.execution_mask = mask;
    put_uq(&mut case, start(UQ), offsets);
    let address = immediate_uq(case.base);
    let draft = scatter(exec, 0, channels, &address, &raw(UQ, 0), &raw(UD, 0));
    shown(&mut case, draft)
}

#[test]
fn mistakes_of_pairs() {
    let of = |channels, offsets: &[u64]| of_scatter(0x03, 0xff, channels, offsets);
    let nothing: [Mistake; 0] = [];
    assert_eq!(of(1, &[]), nothing);
    // One pair alone offends, and lane 1 goes out by both channels.
    assert_eq!(of(1, &[0, 64]), nothing);
    assert_eq!(of(3, &[0, 60]), nothing);
    assert_eq!(of(3, &[0, 64]), [LastPair]);
    assert_eq!(of(1, &[64, 0, 64]), [LastPair]);
    // Lane 0 by channel 1, lane 2 by channel 0 and 1.
    assert_eq!(of(3, &[60, 0, 64]), [LaneOutside, LastPair]);
    // Channel 3 is the second of two, and the first of one.
    assert_eq!(of(0b1001, &[0, 52]), [ChannelRank]);
    assert_eq!(of(0b1000, &[0, 52]), [ChannelRank]);
    // 11 behind 12, and 12 behind 11.
    assert_eq!(of(1, &[64, 1]), [PairByPair]);
    assert_eq!(of(1, &[1, 64]), nothing);
    // M3, and a lane off before lane 1.
    let m3 = of_scatter(0x23, 0xff00, 1, &[0, 64]);
    assert_eq!(m3, [LanePlusOffset]);
    assert_eq!(of_scatter(0x03, 0xfe, 1, &[0, 64]), [LaneRank]);
    let both = of_scatter(0x23, 0xfe00, 1, &[0, 1]);
    assert_eq!(both, [LanePlusOffset, LaneRank]);
}

#[test]
fn mistakes_of_other_numbers() {
    let nothing: [Mistake; 0] = [];
    let dst = |index, row| general(index, row, 0, 0x0200);
    let one = immediate(0, 1);
    let of = |exec, dst: &Operand| shown(&mut stage(), shl(exec, 0, dst, &one, &one));
    assert_eq!(of(3, &dst(F, 0)), [OthersCarry]);
    assert_eq!(of(3, &dst(NO_VARIABLE, 0)), [OthersCarry]);
    assert_eq!(of(3, &dst(UB, 255)), [OthersCarry]);
    assert_eq!(of(0x15, &dst(UB, 0)), nothing);
    let mut case = stage();
    case.register_taint[start(UQ)] = 1;
    let address = immediate_uq(case.base);
    let draft = scatter(3, 0, 1, &address, &raw(UQ, 0), &raw(UD, 0));
    assert_eq!(shown(&mut case, draft), [OthersCarry]);
}

/// On a register of bytes, two variables of 16, EM ff, with lines before and a kernel of one line of text.
fn on_bytes(lines: &str, text: &str) -> Vec<Mistake> {
    let kernel = assembled(text.as_bytes()).concat();
    assert!(!kernel.starts_with('!'), "{text}: {kernel}");
    let registers = "00".repeat(32);
    let file =
        format!("{lines}\n01{registers}\n020400001000\n020410001000\n06ff000000\n07{kernel}\n");
    Judged::of(file.as_bytes(), &answer_to(file.as_bytes())).mistakes()
}

/// Of a shift with a predicate's frame.
fn of_frame(frame: &str, pred: &str, exec: &str) -> Vec<Mistake> {
    on_bytes(
        frame,
        &format!("{pred}SHL {exec} v1(0,0)<1> v0(0,0)<0;1,0> 0x1:uw"),
    )
}

#[test]
fn mistakes_of_counts() {
    let five = FiveBytesAs14;
    let of = of_frame;
    // 9 elements are enough, 8 are just enough, 7 are too few; EM has lane 7 on.
    assert_eq!(of("03ff00000009", "(P0.any) ", "(M1,8)"), [five]);
    assert_eq!(
        of("03ff00000008", "(P0.any) ", "(M1,8)"),
        [AtTheCount, five]
    );
    assert_eq!(
        of("03ff00000007", "(P0.any) ", "(M1,8)"),
        [OthersCarry, CountIgnored, CutDown, five]
    );
    assert_eq!(
        of("03ff00000007", "(!P0) ", "(M1,8)"),
        [OthersCarry, CountIgnored, AnyAndAllOnly, five]
    );
    // M2 needs 12, and EM has none of lanes 11 and up on.
    assert_eq!(
        of("03ff0000000b", "(P0.all) ", "(M2,8)"),
        [
            OthersCarry,
            CountIgnored,
            SizeAlone,
            LanesOnOnly,
            CutDown,
            five
        ]
    );
    assert_eq!(
        of("03ff0000000b", "(P0.all) ", "(M2_NM,8)"),
        [
            OthersCarry,
            CountIgnored,
            SizeAlone,
            NotUnderNm,
            CutDown,
            five
        ]
    );
    // No predicate, no such predicate, 8.
    assert_eq!(of("03ff00000008", "", "(M1,8)"), [five]);
    assert_eq!(of("03ff00000007", "", "(M1,8)"), [WithoutPredicate, five]);
    assert_eq!(
        of("03ff00000001", "(P1) ", "(M1,8)"),
        [OthersCarry, BeforePredicate, five]
    );
    assert_eq!(of("03ff00000020", "(!P0) ", "(M2,32)"), [Before8, five]);
    // Four bytes: 32.
    assert_eq!(of("03ff000000", "(!P0) ", "(M1,8)"), [FourBytesAs0]);
    assert_eq!(
        of("03ff000000", "(!P0) ", "(M5_NM,16)"),
        [AtTheCount, FourBytesAs0]
    );
}

#[test]
fn mistakes_of_counts_and_other_tests() {
    let five = FiveBytesAs14;
    let of = |frame, text| on_bytes(frame, text);
    // The operands are bytes, no UD: 4.
    let gathered = "(!P0) GATHER_SCALED.4 (M1_NM,8) T0 0x0:ud v0.0 v1.0";
    let both = [
        OthersCarry,
        CountIgnored,
        AfterSurface,
        AfterOperands,
        NotUnderNm,
        AnyAndAllOnly,
        five,
    ];
    assert_eq!(of("03ff00000007", gathered), both);
    let with_surface = both.into_iter().filter(|it| *it != AfterSurface);
    assert_eq!(
        of("03ff00000007\n0400", gathered),
        with_surface.collect::<Vec<_>>()
    );
    assert_eq!(
        of(
            "03ff00000007",
            "(P0.any) SHL (M1,8) v9(0,0)<1> 0x1:uw 0x1:uw"
        ),
        [OthersCarry, CountIgnored, AfterOperands, CutDown, five]
    );
    // v0 is too short for a register.
    assert_eq!(
        of(
            "03ff00000007",
            "(P0.any) raw_send (M1,8) 0x0 1 0 0x0:ud v0.0 v0.0"
        ),
        [
            OthersCarry,
            CountIgnored,
            AfterOperands,
            NotOfSend,
            CutDown,
            five
        ]
    );
}

#[test]
fn mistakes_of_bad_counts() {
    let five = FiveBytesAs14;
    let all = of_frame;
    let none = |frame| all(frame, "", "(M1,8)");
    let named = |frame| all(frame, "(!P0) ", "(M1,8)");
    assert_eq!(none("03ff00000000"), [NoElements, BadCountAs14, five]);
    assert_eq!(named("03ff00000000"), [NoElements, BadCountAs14, five]);
    assert_eq!(none("03ff00000021"), [Over32Elements, BadCountAs14, five]);
    assert_eq!(named("03ff000000ff"), [Over32Elements, BadCountAs14, five]);
    // Both kinds, another 13, a bad line behind.
    assert_eq!(none("03ff00000000\n03ff00000021"), [BadCountAs14, five]);
    assert_eq!(none("03ff00000000\n0801"), [BadCountAs14, five]);
    assert_eq!(none("03ff00000000\nzz"), [BadCountAs14, five]);
    assert_eq!(none("03ff00000020\nzz"), [five]);
    assert_eq!(none("zz\n03ff00000000"), [] as [Mistake; 0]);
    // Where 13 stands already.
    assert_eq!(none("03ff000000\n0801"), [] as [Mistake; 0]);
}

/// On zeros with variables, EM ffffffff, 16 bytes of memory, lines before and a kernel of one line of text.
fn of_sizes(lines: &str, bytes: usize, variables: &[&str], text: &str) -> Vec<SizeMistake> {
    let kernel = assembled(text.as_bytes()).concat();
    assert!(!kernel.starts_with('!'), "{text}: {kernel}");
    let registers = "00".repeat(bytes);
    let memory = "00".repeat(24);
    let variables: String = variables.iter().map(|it| format!("02{it}\n")).collect();
    let file = format!("{lines}01{registers}\n{variables}05{memory}\n06ffffffff\n07{kernel}\n");
    SizeMistake::shown(file.as_bytes())
}

#[test]
fn mistakes_of_the_register_size() {
    let everywhere = [TurnedRound, NotKnown];
    let of = |bytes, variables: &[&str], text| {
        let mut mistakes = of_sizes("0b40\n", bytes, variables, text);
        mistakes.retain(|it| !everywhere.contains(it));
        mistakes
    };
    let nothing: [SizeMistake; 0] = [];
    // UD at 0 ×16 and ×48.
    let shift = "SHL (M1,8) v0(0,0)<1> v0(0,0)<8;8,1> 0x1:uw";
    assert_eq!(of(64, &["0000001000"], shift), nothing);
    let variables = ["0000003000"];
    // Bytes 0 to 115, 36 to 151, row 1, row 2, and row 3 outside.
    let spread = "SHL (M1,8) v0(0,0)<1> v0(0,0)<0;8,4> 0x1:uw";
    assert_eq!(of(192, &variables, spread), [TwoRegistersBy32]);
    let too_far = "SHL (M1,8) v0(0,0)<1> v0(0,9)<0;8,4> 0x1:uw";
    assert_eq!(of(192, &variables, too_far), nothing);
    let written = "SHL (M1,8) v0(1,0)<1> 0x1:uw 0x1:uw";
    assert_eq!(of(192, &variables, written), [RowsOf32]);
    let outside = "SHL (M1,8) v0(3,0)<1> 0x1:uw 0x1:uw";
    assert_eq!(of(192, &variables, outside), [RowsOf32]);
    // RAW_SEND of 32 bytes; a scatter of 16 dwords, and of 24 that are all zeros.
    let send = "raw_send (M1,1) 0x0 1 0 0x0:ud v0.0 v0.0";
    assert_eq!(of(64, &["0000000800"], send), [RawSendBy32]);
    let scatter = "SVM_SCATTER4_SCALED.RG (M1,8) 0x0:uq v0.0 v1.0";
    let with = |data| of(192, &["0b00000800", data], scatter);
    assert_eq!(with("0040001000"), [Stride8, Stride8InNeed]);
    assert_eq!(with("0040001800"), nothing);
    // 13: a file of 96 bytes, a variable at byte 32, and one that is 13 by 32 alone.
    assert_eq!(of(96, &[], shift), [FileBy32]);
    assert_eq!(of(128, &["0020001000"], shift), [PlacingBy32]);
    assert_eq!(of(64, &["0010000800"], shift), [PlacingBy32]);
    let long = of(4160, &["0000001000"], shift);
    assert_eq!(long, [LimitDoubled]);
    assert_eq!(of(4128, &["0000001000"], shift), nothing);
}

#[test]
fn mistakes_of_the_frame() {
    let variables = ["0010000800"];
    let shift = "SHL (M1,8) v0(0,0)<1> v0(0,0)<8;8,1> 0x1:uw";
    // Before the variable, and behind it.
    assert_eq!(
        of_sizes("0b40\n", 64, &variables, shift),
        [PlacingBy32, TurnedRound, NotKnown]
    );
    assert_eq!(
        of_sizes("0220000000\n0b40\n", 64, &variables, shift),
        [] as [SizeMistake; 0]
    );
    assert_eq!(
        of_sizes("020010000800\n0b40\n", 64, &variables, shift),
        [PlacingBy32, PlacedWhenRead, TurnedRound, NotKnown]
    );
    let of = |file: &str| SizeMistake::shown(file.as_bytes());
    assert_eq!(of(""), [] as [SizeMistake; 0]);
    assert_eq!(of("0b20"), [NotKnown]);
    assert_eq!(of("0b30"), [WrongByteAs14, Size48, OtherAs32, NotKnown]);
    assert_eq!(of("0b31"), [WrongByteAs14, OtherAs32, NotKnown]);
    assert_eq!(of("0b30\n0100"), [WrongByteAs14, NotKnown]);
    assert_eq!(of("0b30\nzz"), [WrongByteAs14, NotKnown]);
    assert_eq!(of("zz\n0b30"), [] as [SizeMistake; 0]);
    assert_eq!(of("0b"), [WrongLengthAs13]);
    assert_eq!(of("0b4000\n0100"), [WrongLengthAs13]);
    assert_eq!(of("0b4000\nzz"), [WrongLengthAs13]);
    assert_eq!(of("0b4"), [] as [SizeMistake; 0]);
    assert_eq!(of("0b40\n0b40"), [SecondTaken, NotKnown]);
    assert_eq!(of("0b20\n0b40\nzz"), [SecondTaken, NotKnown]);
    // 96 bytes: good without a frame.
    assert_eq!(of(&format!("01{}", "00".repeat(96))), [AbsentIs64]);
}
