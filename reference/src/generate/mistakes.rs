//! The mistakes that requests 2 and 3 of document 02 invite, made on purpose. The report counts the cases on which each
//! shows, and the tests see that the comparison catches it.

use super::length_mistakes::Counted;
use super::region_mistakes::Refused;
use crate::run::Answer;

#[derive(Clone, Copy, Debug, PartialEq, Eq, PartialOrd, Ord)]
pub enum Mistake {
    /// 22 is tested before 21.
    WidthBeforeStride,
    /// 24 is tested before 20 to 23.
    NullsFirst,
    /// A width of 32 is 22 where it is over ExecSize.
    Width32Over,
    /// A destination's width is judged by 20.
    DestinationWidthBy20,
    /// A destination's width is judged by 22.
    DestinationWidthBy22,
    /// Null counts as 0.
    NullIs0,
    /// 20 to 24 on a scalar.
    ScalarByShlRules,
    /// Each rule over all operands, then the next rule.
    RuleByRule,
    /// The last operand at fault is named.
    LastOperand,
    /// The place counts from 0.
    PlaceFrom0,
    /// The place counts all fields, from the opcode on.
    PlaceOverFields,
    /// The surface counts among the places.
    SurfaceCounted,
    /// The lane loop stands outside the channel loop.
    LaneOutside,
    /// The last offending pair is handed back.
    LastPair,
    /// 11 and 12 are tested pair by pair: 12 of an early pair comes before 11 of a late one.
    PairByPair,
    /// The lane with the mask's offset added.
    LanePlusOffset,
    /// The lane's rank among those that are on.
    LaneRank,
    /// The channel's rank among the enabled ones.
    ChannelRank,
    /// A place on 4, 5, 7 and 17, a pair on 10.
    OthersCarry,
    /// 17 is never given.
    CountIgnored,
    /// ExecSize alone is held against the count.
    SizeAlone,
    /// 17 where offset + ExecSize is the count.
    AtTheCount,
    /// 17 is tested before 8.
    Before8,
    /// 17 is tested before the predicate's 5: one that is not there has no elements.
    BeforePredicate,
    /// 17 is tested after the surface's 5.
    AfterSurface,
    /// 17 is tested after the operands.
    AfterOperands,
    /// 17 is left out under NM.
    NotUnderNm,
    /// 17 is left out for RAW_SEND.
    NotOfSend,
    /// 17 only where a lane of EM lies at or past the count.
    LanesOnOnly,
    /// 17 by predicate 0 where the pred word is 0.
    WithoutPredicate,
    /// 17 for any and all only.
    AnyAndAllOnly,
    /// any and all over the bits below the count, and no 17.
    CutDown,
    /// A count of 0 is let through.
    NoElements,
    /// A count over 32 is let through.
    Over32Elements,
    /// A bad count is 14, at its line.
    BadCountAs14,
    /// A frame of four bytes has count 0.
    FourBytesAs0,
    /// A frame of five bytes is 14.
    FiveBytesAs14,
}

impl Mistake {
    pub const ALL: [Mistake; 37] = [
        Mistake::WidthBeforeStride,
        Mistake::NullsFirst,
        Mistake::Width32Over,
        Mistake::DestinationWidthBy20,
        Mistake::DestinationWidthBy22,
        Mistake::NullIs0,
        Mistake::ScalarByShlRules,
        Mistake::RuleByRule,
        Mistake::LastOperand,
        Mistake::PlaceFrom0,
        Mistake::PlaceOverFields,
        Mistake::SurfaceCounted,
        Mistake::LaneOutside,
        Mistake::LastPair,
        Mistake::PairByPair,
        Mistake::LanePlusOffset,
        Mistake::LaneRank,
        Mistake::ChannelRank,
        Mistake::OthersCarry,
        Mistake::CountIgnored,
        Mistake::SizeAlone,
        Mistake::AtTheCount,
        Mistake::Before8,
        Mistake::BeforePredicate,
        Mistake::AfterSurface,
        Mistake::AfterOperands,
        Mistake::NotUnderNm,
        Mistake::NotOfSend,
        Mistake::LanesOnOnly,
        Mistake::WithoutPredicate,
        Mistake::AnyAndAllOnly,
        Mistake::CutDown,
        Mistake::NoElements,
        Mistake::Over32Elements,
        Mistake::BadCountAs14,
        Mistake::FourBytesAs0,
        Mistake::FiveBytesAs14,
    ];

    pub fn name(self) -> &'static str {
        match self {
            Mistake::WidthBeforeStride => "22 before 21",
            Mistake::NullsFirst => "24 before 20 to 23",
            Mistake::Width32Over => "width 32 as 22",
            Mistake::DestinationWidthBy20 => "destination's width judged by 20",
            Mistake::DestinationWidthBy22 => "destination's width judged by 22",
            Mistake::NullIs0 => "Null taken as 0",
            Mistake::ScalarByShlRules => "20 to 24 on a scalar",
            Mistake::RuleByRule => "each rule over all operands",
            Mistake::LastOperand => "last operand at fault",
            Mistake::PlaceFrom0 => "place from 0",
            Mistake::PlaceOverFields => "place over all fields",
            Mistake::SurfaceCounted => "surface counted",
            Mistake::LaneOutside => "lane loop outside channel loop",
            Mistake::LastPair => "last offending pair",
            Mistake::PairByPair => "12 of an early pair before 11",
            Mistake::LanePlusOffset => "lane plus offset",
            Mistake::LaneRank => "lane's rank",
            Mistake::ChannelRank => "channel's rank",
            Mistake::OthersCarry => "4, 5, 7, 10, 17 carry something",
            Mistake::CountIgnored => "17 never",
            Mistake::SizeAlone => "ExecSize alone over the count",
            Mistake::AtTheCount => "17 at the count itself",
            Mistake::Before8 => "17 before 8",
            Mistake::BeforePredicate => "17 before the predicate's 5",
            Mistake::AfterSurface => "17 after the surface's 5",
            Mistake::AfterOperands => "17 after the operands",
            Mistake::NotUnderNm => "no 17 under NM",
            Mistake::NotOfSend => "no 17 of RAW_SEND",
            Mistake::LanesOnOnly => "17 for lanes that EM has on only",
            Mistake::WithoutPredicate => "17 with pred word 0",
            Mistake::AnyAndAllOnly => "17 for any and all only",
            Mistake::CutDown => "any and all cut down to the count",
            Mistake::NoElements => "count 0 let through",
            Mistake::Over32Elements => "count over 32 let through",
            Mistake::BadCountAs14 => "bad count as 14",
            Mistake::FourBytesAs0 => "four bytes as count 0",
            Mistake::FiveBytesAs14 => "five bytes as 14",
        }
    }

    /// What a program with it answers.
    pub fn answer(self, judged: &Judged) -> Answer {
        let by_count = judged.counted.as_ref().and_then(|it| self.of_counted(it));
        let by_refusal = || judged.refused.as_ref().map(|it| self.of_refused(it));
        by_count.or_else(by_refusal).unwrap_or(judged.answer)
    }
}

/// A case file and the right answer to it, as the mistakes are judged by them.
pub struct Judged {
    answer: Answer,
    /// Nothing where no mistake of request 2 can show.
    refused: Option<Refused>,
    /// Nothing where no mistake of request 3 can show.
    counted: Option<Counted>,
}

impl Judged {
    pub fn of(file: &[u8], answer: &Answer) -> Judged {
        Judged {
            answer: *answer,
            refused: Refused::of(file, answer),
            counted: Counted::of(file, answer),
        }
    }

    /// The mistakes that show.
    pub fn mistakes(&self) -> Vec<Mistake> {
        let shows = |mistake: &Mistake| mistake.answer(self) != self.answer;
        Mistake::ALL.into_iter().filter(shows).collect()
    }
}
