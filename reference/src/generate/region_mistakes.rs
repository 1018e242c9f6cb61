//! The mistakes that request 2 of document 02 invites: what a program with one of them answers to a case that is refused.

use super::mistakes::Mistake;
use crate::case::Case;
use crate::case_file::read_case;
use crate::decode::decode;
use crate::element;
use crate::fields::Role;
use crate::instruction::{Instruction, GATHER, SHL, SVM};
use crate::lanes::lanes_on;
use crate::number::{
    NOT_ALLOWED, NOT_IN_TABLE, NOT_IN_WINDOW, NULL, OUTSIDE, OVER_COUNT, SCALAR_REGION,
    TAINTED_ADDRESS, UNALIGNED, WIDTH_0_OR_32, WIDTH_OVER_EXEC_SIZE,
};
use crate::refusal::Detail;
use crate::region::{first_broken, width_0_or_32, width_over_exec_size, Region, Rule, RULES};
use crate::run::{run, Answer};

impl Mistake {
    /// The rules that it has in the place of 20 to 24.
    fn rules(self) -> Vec<Rule> {
        let [width, stride, over, zero, null] = RULES;
        match self {
            Mistake::WidthBeforeStride => vec![width, over, stride, zero, null],
            Mistake::NullsFirst => vec![null, width, stride, over, zero],
            Mistake::Width32Over => {
                let width: Rule = (WIDTH_0_OR_32, |it| {
                    width_0_or_32(it) && !width_over_exec_size(it)
                });
                vec![width, stride, over, zero, null]
            }
            Mistake::DestinationWidthBy20 => {
                let width: Rule = (WIDTH_0_OR_32, |it| matches!(it.width, Some(0 | 32)));
                vec![width, stride, over, zero, null]
            }
            Mistake::DestinationWidthBy22 => {
                let over: Rule = (WIDTH_OVER_EXEC_SIZE, |it| it.width > Some(it.exec_size));
                vec![width, stride, over, zero, null]
            }
            _ => RULES.to_vec(),
        }
    }

    /// What it answers in the place of the right answer to a refused case.
    pub fn of_refused(self, refused: &Refused) -> Answer {
        let right = refused.answer;
        let (number, detail) = match right.detail {
            Detail::None => (right.number, self.carried_by_others(right.number)),
            Detail::Operand(_) if right.number == SCALAR_REGION => self.scalar(refused),
            Detail::Operand(place) => self.regions(refused, place),
            Detail::Pair { .. } => self.pairs(refused),
        };
        Answer {
            number,
            detail,
            ..right
        }
    }

    fn carried_by_others(self, number: u8) -> Detail {
        match number {
            NOT_ALLOWED | NOT_IN_TABLE | OUTSIDE | OVER_COUNT if self == Mistake::OthersCarry => {
                Detail::Operand(1)
            }
            TAINTED_ADDRESS if self == Mistake::OthersCarry => Detail::Pair {
                channel: 0,
                lane: 0,
            },
            _ => Detail::None,
        }
    }

    /// In the place of 25.
    fn scalar(self, refused: &Refused) -> (u8, Detail) {
        let it = &refused.instruction;
        let region = Region::of(it.scalar.region, Role::Source, it.exec_size());
        let number = match self {
            Mistake::ScalarByShlRules => first_broken(&RULES, &region).unwrap_or(SCALAR_REGION),
            _ => SCALAR_REGION,
        };
        let place = match self {
            Mistake::PlaceFrom0 => 0,
            Mistake::PlaceOverFields => 1 + fields_before_operands(it),
            Mistake::SurfaceCounted if it.opcode == GATHER => 2,
            _ => 1,
        };
        (number, Detail::Operand(place))
    }

    /// In the place of 20 to 24 at an operand.
    fn regions(self, refused: &Refused, place: usize) -> (u8, Detail) {
        let regions = refused.regions();
        let rules = self.rules();
        let first = |place: usize| {
            let (_, region) = regions.iter().find(|(p, _)| *p == place).unwrap();
            match self {
                Mistake::NullIs0 => first_broken(&rules, &nulls_as_0(region)).unwrap_or(NULL),
                _ => first_broken(&rules, region).unwrap(),
            }
        };
        let place = match self {
            Mistake::RuleByRule => {
                let broken = |rule: &Rule| regions.iter().find(|(_, region)| (rule.1)(region));
                rules.iter().find_map(broken).unwrap().0
            }
            Mistake::LastOperand => {
                let broken = |region| first_broken(&rules, region).is_some();
                let last = regions.iter().rfind(|(_, region)| broken(region));
                last.unwrap().0
            }
            _ => place,
        };
        let named = match self {
            Mistake::PlaceFrom0 => place - 1,
            Mistake::PlaceOverFields => place + fields_before_operands(&refused.instruction),
            _ => place,
        };
        (first(place), Detail::Operand(named))
    }

    /// In the place of 11 or 12.
    fn pairs(self, refused: &Refused) -> (u8, Detail) {
        let mut pairs = refused.pairs();
        match self {
            Mistake::LaneOutside => pairs.sort_by_key(|pair| (pair.lane, pair.channel)),
            Mistake::LastPair => pairs.reverse(),
            _ => {}
        }
        let number = refused.answer.number;
        let offends = |pair: &&Pair| match (self, number) {
            (Mistake::PairByPair, _) => pair.unaligned || pair.outside,
            (_, UNALIGNED) => pair.unaligned,
            _ => pair.outside,
        };
        let pair = pairs.iter().find(offends).unwrap();
        let number = match self {
            Mistake::PairByPair if !pair.unaligned => NOT_IN_WINDOW,
            _ => number,
        };
        let channel = match self {
            Mistake::ChannelRank => pair.channel_rank,
            _ => pair.channel,
        };
        let lane = match self {
            Mistake::LanePlusOffset => pair.lane + refused.instruction.mask_offset(),
            Mistake::LaneRank => pair.lane_rank,
            _ => pair.lane,
        };
        (number, Detail::Pair { channel, lane })
    }
}

/// How many fields of the pages' Format tables stand before the first operand.
fn fields_before_operands(instruction: &Instruction) -> usize {
    match instruction.opcode {
        // Opcode, Exec_size, Pred.
        SHL => 3,
        // Opcode, sub-opcode, Exec_size, Pred, Channels, Scale.
        SVM => 6,
        // Opcode, Exec_size, Pred, Block_size, Num_blocks, Scale, Surface, or as many of RAW_SEND.
        _ => 7,
    }
}

/// A source's width of Null becomes 0, a destination's stride of Null too.
fn nulls_as_0(region: &Region) -> Region {
    let or_0 = |field: Option<u64>| field.or(Some(0));
    match region.role {
        Role::Source => Region {
            vertical: or_0(region.vertical),
            width: or_0(region.width),
            horizontal: or_0(region.horizontal),
            ..*region
        },
        Role::Destination => Region {
            horizontal: or_0(region.horizontal),
            ..*region
        },
    }
}

/// A refused instruction, and the case as it meets it.
pub struct Refused {
    case: Case,
    instruction: Instruction,
    answer: Answer,
}

/// An enabled channel-and-lane pair, and how it offends.
struct Pair {
    channel: u64,
    lane: u64,
    /// How many enabled channels, and how many lanes that are on, stand below it.
    channel_rank: u64,
    lane_rank: u64,
    unaligned: bool,
    outside: bool,
}

impl Refused {
    /// What a mistake is judged by, `answer` being the answer to the file; nothing where no mistake can show.
    pub fn of(file: &[u8], answer: &Answer) -> Option<Refused> {
        let others = [
            NOT_ALLOWED,
            NOT_IN_TABLE,
            OUTSIDE,
            OVER_COUNT,
            TAINTED_ADDRESS,
        ];
        if answer.detail == Detail::None && !others.contains(&answer.number) {
            return None;
        }
        let mut case = read_case(file).ok()?;
        if answer.detail != Detail::None {
            // A refusal changes nothing, so the run leaves what the refused instruction meets.
            run(&mut case);
        }
        let instruction = decode(&case.kernel, answer.position).instruction;
        Some(Refused {
            case,
            instruction,
            answer: *answer,
        })
    }

    /// The regions of SHL's General operands, with their places.
    pub fn regions(&self) -> Vec<(usize, Region)> {
        let it = &self.instruction;
        let operands = [
            (1, Role::Destination, it.dst),
            (2, Role::Source, it.src0),
            (3, Role::Source, it.src1),
        ];
        operands
            .into_iter()
            .filter(|(_, _, operand)| it.opcode == SHL && !operand.is_immediate())
            .map(|(place, role, operand)| (place, Region::of(operand.region, role, it.exec_size())))
            .collect()
    }

    /// A scatter's enabled pairs, channels outside, lanes inside.
    fn pairs(&self) -> Vec<Pair> {
        let it = &self.instruction;
        let on = lanes_on(&self.case, it);
        let address = element::scalar(&self.case, &it.scalar, self.case.register_size.bytes()).bits;
        let lanes = (0..it.exec_size()).filter(|lane| on[*lane as usize]);
        let channels = (0..4).filter(|channel| (it.channels >> channel) & 1 == 1);
        let mut pairs = Vec::new();
        for (channel_rank, channel) in (0..).zip(channels) {
            for (lane_rank, lane) in (0..).zip(lanes.clone()) {
                let offset = element::raw(&self.case, &it.element_offset, lane).bits;
                let to = address.wrapping_add(offset).wrapping_add(4 * channel);
                // The place in the window; what lies below it comes out as very large.
                let place = to.wrapping_sub(self.case.base);
                let room = (self.case.memory.len() as u64).saturating_sub(3);
                pairs.push(Pair {
                    channel,
                    lane,
                    channel_rank,
                    lane_rank,
                    unaligned: to % 4 != 0,
                    outside: place >= room,
                });
            }
        }
        pairs
    }
}
