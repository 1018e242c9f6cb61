//! The mistakes that request 5 of document 02 invites, made on purpose. Some of them change what is written and not the
//! answer, so each is a whole program: a case file in, its output out.

use crate::bench::{bad_line, bench, bench_of, only};
use crate::case::Case;
use crate::case_file::{read_case, LONGEST_LINE};
use crate::hex;
use crate::number::SIZES;
use crate::register_size::{Followers, RegisterSize};
use crate::run::{run, run_kernel, Answer, BROKEN_SIZES};
use crate::sizes;

#[derive(Clone, Copy, Debug, PartialEq, Eq, PartialOrd, Ord)]
pub enum SizeMistake {
    /// max(ExecSize, 8) with registers of 64 bytes, where the data are read and where they are asked for.
    Stride8,
    /// The same in one of the two.
    Stride8InData,
    Stride8InNeed,
    /// The two-register rule by 32.
    TwoRegistersBy32,
    /// A row of 32 bytes.
    RowsOf32,
    /// A variable's placing by 32.
    PlacingBy32,
    /// RAW_SEND's lengths by 32.
    RawSendBy32,
    /// The file's multiple by 32.
    FileBy32,
    /// The file's limit doubled.
    LimitDoubled,
    /// A variable judged when its line is read: by 32 where 0b comes later.
    PlacedWhenRead,
    /// A wrong byte of 0b as 14, at its line.
    WrongByteAs14,
    /// Size 48 accepted.
    Size48,
    /// Any other byte of 0b taken as 32.
    OtherAs32,
    /// 64 where no 0b is there.
    AbsentIs64,
    /// 0b20 and 0b40 taken the other way round.
    TurnedRound,
    /// 0b without a byte, or of several, as 13.
    WrongLengthAs13,
    /// A second 0b takes the place of the first.
    SecondTaken,
    /// 0b not known: 14 at its line.
    NotKnown,
}

use SizeMistake::*;

impl SizeMistake {
    pub const ALL: [SizeMistake; 18] = [
        Stride8,
        Stride8InData,
        Stride8InNeed,
        TwoRegistersBy32,
        RowsOf32,
        PlacingBy32,
        RawSendBy32,
        FileBy32,
        LimitDoubled,
        PlacedWhenRead,
        WrongByteAs14,
        Size48,
        OtherAs32,
        AbsentIs64,
        TurnedRound,
        WrongLengthAs13,
        SecondTaken,
        NotKnown,
    ];

    pub fn name(self) -> &'static str {
        match self {
            Stride8 => "max(ExecSize, 8) with 64-byte registers",
            Stride8InData => "the same in the data alone",
            Stride8InNeed => "the same in the need alone",
            TwoRegistersBy32 => "two registers by 32",
            RowsOf32 => "a row of 32 bytes",
            PlacingBy32 => "placing by 32",
            RawSendBy32 => "RAW_SEND's lengths by 32",
            FileBy32 => "the file's multiple by 32",
            LimitDoubled => "the file's limit doubled",
            PlacedWhenRead => "a variable judged when it is read",
            WrongByteAs14 => "a wrong byte of 0b as 14",
            Size48 => "size 48 accepted",
            OtherAs32 => "another byte of 0b as 32",
            AbsentIs64 => "64 without 0b",
            TurnedRound => "0b20 and 0b40 turned round",
            WrongLengthAs13 => "a wrong length of 0b as 13",
            SecondTaken => "a second 0b taken",
            NotKnown => "0b not known",
        }
    }

    /// The mistakes that show on a case file.
    pub fn shown(file: &[u8]) -> Vec<SizeMistake> {
        let right = bench(file);
        let shows = |it: &SizeMistake| it.output(file).is_some_and(|output| output != right);
        SizeMistake::ALL.into_iter().filter(shows).collect()
    }

    /// What a program with it writes.
    pub fn bench(self, file: &[u8]) -> Vec<u8> {
        self.output(file).unwrap_or_else(|| bench(file))
    }

    /// The same; nothing where it cannot show.
    fn output(self, file: &[u8]) -> Option<Vec<u8>> {
        let frames = Frames::of(file);
        match (self, read_case(file)) {
            (WrongByteAs14, _) => frames.wrong_byte.map(|line| only(&bad_line(line))),
            (NotKnown, _) => frames.first.map(|line| only(&bad_line(line))),
            (WrongLengthAs13, Err(line)) if frames.wrong_length == Some(line) => {
                let others = without(file, line);
                Some(match read_case(&others) {
                    Ok(_) => only(&BROKEN_SIZES),
                    Err(later) => only(&bad_line(later + 1)),
                })
            }
            (SecondTaken, Err(line)) if frames.second == Some(line) => {
                let others = without(file, frames.first?);
                Some(match read_case(&others) {
                    Ok(case) => bench_of(case, run),
                    Err(later) => only(&bad_line(later + 1)),
                })
            }
            (_, Ok(case)) => self.of_case(case, &frames),
            _ => None,
        }
    }

    /// What it writes for a case of good lines.
    fn of_case(self, mut case: Case, frames: &Frames) -> Option<Vec<u8>> {
        let size = case.register_size;
        let of_64 = size == RegisterSize::OF_64;
        let mut followers = Followers::of(size);
        let other = match self {
            Size48 if size == RegisterSize(48) => None,
            OtherAs32 if !size.is_good() => Some(RegisterSize::OF_32),
            AbsentIs64 if frames.first.is_none() => Some(RegisterSize::OF_64),
            TurnedRound if frames.first.is_some() && of_64 => Some(RegisterSize::OF_32),
            TurnedRound if frames.first.is_some() && size.is_good() => Some(RegisterSize::OF_64),
            PlacedWhenRead if of_64 => return Some(placed_when_read(case, frames)),
            _ if of_64 && self.leaves_behind(&mut followers) => None,
            _ => return None,
        };
        case.register_size = other.unwrap_or(size);
        Some(match other {
            Some(_) => bench_of(case, run),
            None => bench_of(case, |case| run_with(case, &followers, sizes::check_by)),
        })
    }

    /// Change what it leaves at 32, or else it is no such mistake.
    fn leaves_behind(self, followers: &mut Followers) -> bool {
        match self {
            Stride8 => (followers.scatter_data, followers.scatter_need) = (32, 32),
            Stride8InData => followers.scatter_data = 32,
            Stride8InNeed => followers.scatter_need = 32,
            TwoRegistersBy32 => followers.two_registers = 32,
            RowsOf32 => followers.rows = 32,
            PlacingBy32 => followers.placing = 32,
            RawSendBy32 => followers.raw_send = 32,
            FileBy32 => followers.file = 32,
            LimitDoubled => followers.largest_file = 8192,
            _ => return false,
        }
        true
    }
}

/// The variables before 0b are judged by 32, those behind it by 64.
fn placed_when_read(case: Case, frames: &Frames) -> Vec<u8> {
    let before = frames.variables_before;
    let followers = Followers::of(case.register_size);
    bench_of(case, |case| {
        run_with(case, &followers, |case, followers| {
            let early = Case {
                variables: case.variables[..before].to_vec(),
                ..case.clone()
            };
            let late = Case {
                variables: case.variables[before..].to_vec(),
                ..case.clone()
            };
            let by_32 = Followers {
                placing: 32,
                ..*followers
            };
            // More variables than there may be are wrong all the same.
            let all = case.variables.len() <= 256;
            sizes::check_by(&early, &by_32)?;
            sizes::check_by(&late, followers)?;
            all.then_some(()).ok_or(SIZES)
        })
    })
}

/// A run with its own judgement of the sizes. Data that are not asked for may lie behind the file: there are zeros.
fn run_with(
    case: &mut Case,
    followers: &Followers,
    check: impl Fn(&Case, &Followers) -> Result<(), u8>,
) -> Answer {
    if check(case, followers).is_err() {
        return BROKEN_SIZES;
    }
    let length = case.registers.len();
    case.registers.resize(length + 128, 0);
    case.register_taint.resize(length + 128, 0);
    let answer = run_kernel(case, followers);
    case.registers.truncate(length);
    case.register_taint.truncate(length);
    answer
}

/// The lines of kind 0b, by their numbers from 1. None behind the first bad line counts.
#[derive(Default)]
struct Frames {
    first: Option<usize>,
    /// One byte that is no size.
    wrong_byte: Option<usize>,
    /// The first one, and not of one byte.
    wrong_length: Option<usize>,
    /// One byte again.
    second: Option<usize>,
    /// How many variables stand before the first.
    variables_before: usize,
}

impl Frames {
    fn of(file: &[u8]) -> Frames {
        let bad = read_case(file).err().unwrap_or(usize::MAX);
        let mut frames = Frames::default();
        let lines = file.split(|byte| *byte == 0x0a).take(bad);
        for (number, line) in (1..).zip(lines) {
            if frames.first.is_none() && line.starts_with(b"02") {
                frames.variables_before += 1;
            }
            let Some(body) = line.strip_prefix(b"0b") else {
                continue;
            };
            let bytes = if line.len() <= LONGEST_LINE {
                hex::bytes_of(body)
            } else {
                None
            };
            match (frames.first, bytes.as_deref()) {
                (None, Some([0x20 | 0x40])) => {}
                (None, Some([_])) => frames.wrong_byte = Some(number),
                (None, Some(_)) => frames.wrong_length = Some(number),
                (Some(_), Some([_])) => frames.second = Some(number),
                _ => {}
            }
            frames.first.get_or_insert(number);
        }
        frames
    }
}

/// The file without a line.
fn without(file: &[u8], number: usize) -> Vec<u8> {
    let lines: Vec<&[u8]> = file.split_inclusive(|byte| *byte == 0x0a).collect();
    let others = (1..).zip(lines).filter(|(n, _)| *n != number);
    others.flat_map(|(_, line)| line.to_vec()).collect()
}
