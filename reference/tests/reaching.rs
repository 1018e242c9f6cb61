//! The report's rare places: each is seen where a case reaches it and not seen beside it, and the fixed seed
//! reaches all of them. It names every operand that a number can name, has every pair of faults in one operand, hands
//! back every channel and lane, has every exec byte in every instruction and predicates about as long as it needs, both
//! register sizes with all their edges, and shows every mistake.

mod common;

use common::*;
use reference::assemble::*;
use reference::bench::answer as answer_to;
use reference::case::{Case, Variable};
use reference::case_file::read_case;
use reference::case_writer::write_case;
use reference::decode::decode;
use reference::generate::exec_reach::Fate;
use reference::generate::mistakes::Mistake;
use reference::generate::reach::{completed, reached, Place};
use reference::generate::region_mistakes::Refused;
use reference::generate::report::Report;
use reference::generate::size_mistakes::SizeMistake;
use reference::generate::size_reach::{sized_edges, Choice, OTHERS};
use reference::generate::{Generator, Mode};
use reference::instruction::Instruction;
use reference::refusal::Detail;
use reference::region::RULES;
use reference::register_size::RegisterSize;
use reference::run::Answer;
use std::collections::BTreeSet;

fn places_of_file(file: &[u8]) -> Vec<Place> {
    reached(file, &answer_to(file))
}

fn places(case: &mut Case, drafts: &[Draft]) -> Vec<Place> {
    case.kernel = kernel(drafts);
    places_of_file(&write_case(case))
}

/// A stage with the largest register file, and its number of a variable that is all of it, in dwords.
fn largest_stage() -> (Case, u16) {
    let mut case = stage();
    case.registers.resize(4096, 0);
    case.register_taint.resize(4096, 0);
    case.variables.push(Variable {
        type_code: 0,
        start: 0,
        count: 1024,
    });
    let index = case.variables.len() as u16 - 1;
    (case, index)
}

#[test]
fn rows() {
    let (mut case, whole) = largest_stage();
    let good = immediate(0, 1);
    let dst = general(UD, 0, 0, destination_region(1));
    let of_row = |row| general(whole, row, 0, SCALAR_REGION);
    let source = |row| shl(0, 0, &dst, &of_row(row), &good);
    let count = |row| shl(0, 0, &dst, &good, &of_row(row));
    let destination = |row| {
        let dst = general(whole, row, 0, destination_region(1));
        shl(0, 0, &dst, &good, &good)
    };
    let offset = |row| gather(0, 0, 0, 0, &of_row(row), &raw(UD, 0), &raw(UD, 0));
    for (last, next, far) in [
        (source(127), source(128), source(255)),
        (count(127), count(128), count(255)),
        (destination(127), destination(128), destination(255)),
        (offset(127), offset(128), offset(255)),
    ] {
        let accepted = places(&mut case.clone(), &[last.clone()]);
        assert_eq!(accepted, [Place::LastRowOf32Completed]);
        for over in [next, far] {
            assert_eq!(
                places(&mut case.clone(), &[over.clone()]),
                [Place::RowBehindLastOutside]
            );
            assert_eq!(
                places(&mut case.clone(), &[last.clone(), over]),
                [Place::LastRowOf32Completed, Place::RowBehindLastOutside]
            );
        }
    }
    // Refused by an earlier test, here 8: M8 and size 8.
    let over_32 = shl(0x73, 0, &dst, &of_row(128), &good);
    let found = places(&mut case.clone(), &[over_32.clone()]);
    assert_eq!(found, [Place::RowBehindLastRefusedBefore]);
    // Not decoded, not reached, or row 127 in an instruction that is refused.
    case.kernel = source(128).bytes();
    case.kernel.pop();
    assert_eq!(places_of_file(&write_case(&case)), []);
    let refused = shl(0x73, 0, &dst, &good, &good);
    assert_eq!(places(&mut case.clone(), &[refused, source(128)]), []);
    assert_eq!(
        places(&mut case, &[shl(0x73, 0, &dst, &of_row(127), &good)]),
        []
    );
    // Of 64 bytes the last row is 63.
    case.register_size = RegisterSize::OF_64;
    let of_64 = |row| places(&mut case.clone(), &[source(row)]);
    assert_eq!(of_64(62), []);
    assert_eq!(of_64(63), [Place::LastRowOf64Completed]);
    assert_eq!(of_64(64), [Place::RowBehindLastOutside]);
    assert_eq!(of_64(127), [Place::RowBehindLastOutside]);
}

#[test]
fn bad_lines_behind_line_255() {
    let file = |good: usize| ["04\n".repeat(good), "zz\n".to_string()].concat();
    assert_eq!(places_of_file(file(254).as_bytes()), []);
    assert_eq!(places_of_file(file(255).as_bytes()), [Place::LineOver255]);
    assert_eq!(places_of_file(file(300).as_bytes()), [Place::LineOver255]);
    // As many good lines: nine surfaces or more are 13.
    assert_eq!(places_of_file("04\n".repeat(300).as_bytes()), []);
}

/// A scatter of eight lanes under a mask, with the element offsets of some lanes unaligned and of some tainted.
fn scatter_places(unaligned: &[usize], tainted: &[usize], mask: u32) -> Vec<Place> {
    let mut case = stage();
    case.execution_mask = mask;
    for lane in unaligned {
        put(&mut case, start(UQ) + 8 * lane, &[2]);
    }
    for lane in tainted {
        case.register_taint[start(UQ) + 8 * lane + 3] = 0x80;
    }
    let draft = scatter(0x03, 0, 2, &immediate_uq(0x1000), &raw(UQ, 0), &raw(UD, 0));
    places(&mut case, &[draft])
}

#[test]
fn slip_1() {
    let slips = [Place::UnalignedBeforeTainted];
    assert_eq!(scatter_places(&[0], &[7], 0xff), slips);
    assert_eq!(scatter_places(&[3], &[3], 0xff), slips);
    assert_eq!(scatter_places(&[3, 6], &[4, 5], 0xff), slips);
    // A tainted lane that is off does not come before, nor does an unaligned one.
    assert_eq!(scatter_places(&[3], &[2, 4], 0xfb), slips);
    assert_eq!(scatter_places(&[2], &[4], 0xfb), []);
    // 10 and 10: a program that asks lane by lane meets the tainted one first.
    assert_eq!(scatter_places(&[4], &[3], 0xff), []);
    // 10 alone, 11 alone, neither.
    assert_eq!(scatter_places(&[], &[3], 0xff), []);
    assert_eq!(scatter_places(&[3], &[], 0xff), []);
    assert_eq!(scatter_places(&[3], &[4], 0x08), []);
    assert_eq!(scatter_places(&[3], &[4], 0x00), []);
}

/// The scatter is judged by what the instructions before it left: a shift by 0 takes the taint along.
#[test]
fn slip_1_behind_another_instruction() {
    let mut case = stage();
    case.variables.push(Variable {
        type_code: 0,
        start: start(UQ) as u16,
        count: 16,
    });
    let halves = case.variables.len() as u16 - 1;
    put(&mut case, start(UD), &[1]);
    case.register_taint[start(UD)] = 1;
    let move_there = shl(
        0,
        0,
        &general(halves, 0, 0, destination_region(1)),
        &general(UD, 0, 0, SCALAR_REGION),
        &immediate(0, 0),
    );
    let scatter = scatter(0x03, 0, 1, &immediate_uq(0x1000), &raw(UQ, 0), &raw(UD, 0));
    assert_eq!(places(&mut case.clone(), &[scatter.clone()]), []);
    assert_eq!(
        places(&mut case, &[move_there, scatter]),
        [Place::UnalignedBeforeTainted]
    );
}

/// 177 instructions of 23 bytes and one of 24 are 4,095 bytes.
#[test]
fn the_last_byte_of_the_largest_kernel() {
    let dst = general(UB, 0, 0, destination_region(1));
    let general_source = general(UB, 0, 0, SCALAR_REGION);
    let short = shl(0, 0, &dst, &immediate(0, 1), &immediate(0, 1)).bytes();
    let long = shl(0, 0, &dst, &general_source, &immediate(0, 1)).bytes();
    assert_eq!((short.len(), long.len()), (23, 24));
    let mut case = stage();
    for (last, place) in [
        (Some(0x24), Some(Place::LastByteOfLargestKernel)),
        (Some(0xff), Some(Place::LastByteOfLargestKernel)),
        // The end of a kernel of 4,095 bytes is no refusal.
        (None, None),
    ] {
        case.kernel = [short.repeat(177), long.clone()].concat();
        case.kernel.extend(last);
        let found = places_of_file(&write_case(&case));
        assert_eq!(found, Vec::from_iter(place));
    }
    // One byte less before the refused one: position 4,094 of 4,095 bytes.
    case.kernel = [short.repeat(178), vec![0x24]].concat();
    assert_eq!(places_of_file(&write_case(&case)), []);
    // As many bytes, refused before the last one.
    case.kernel = [short.repeat(178), vec![0xff, 0xff]].concat();
    assert_eq!(case.kernel.len(), 4096);
    assert_eq!(places_of_file(&write_case(&case)), []);
}

/// What the fixed seed has besides what its report counts.
#[derive(Default)]
struct Seen {
    /// The opcodes of instructions refused with 25.
    scalars: BTreeSet<u8>,
    /// The place of a refused operand, and two rules that its region breaks.
    pairs_of_faults: BTreeSet<(usize, u8, u8)>,
    /// Whether Src0 was taken or named by 20 to 24, its width's code, the code of ExecSize.
    widths: BTreeSet<(bool, u16, u8)>,
    /// The opcodes of instructions refused with 17, and how their predicates are named: mask kind, upper bits of the word.
    short_opcodes: BTreeSet<u8>,
    short_ways: BTreeSet<(bool, u16)>,
    /// Whether an instruction was taken or refused with 17, its exec byte without NM, and its predicate's count.
    counts: BTreeSet<(bool, u8, u8)>,
    /// 11 or 12 with its channel, and with its lane.
    channels: BTreeSet<(u8, u64)>,
    lanes: BTreeSet<(u8, u64)>,
}

impl Seen {
    fn add(&mut self, file: &[u8], answer: &Answer) {
        let Ok(case) = read_case(file) else {
            return;
        };
        for it in completed(&case.kernel, answer.position) {
            if it.opcode == 0x24 && !it.src0.is_immediate() {
                self.width(true, &it);
            }
            self.count(true, &case, &it);
        }
        if answer.number == 17 {
            let it = decode(&case.kernel, answer.position).instruction;
            self.short_opcodes.insert(it.opcode);
            self.short_ways.insert((it.no_mask(), it.pred >> 13));
            self.count(false, &case, &it);
        }
        match answer.detail {
            Detail::None => {}
            Detail::Pair { channel, lane } => {
                self.channels.insert((answer.number, channel));
                self.lanes.insert((answer.number, lane));
            }
            Detail::Operand(_) if answer.number == 25 => {
                self.scalars.insert(case.kernel[answer.position]);
            }
            Detail::Operand(place) => {
                if place == 2 {
                    self.width(false, &decode(&case.kernel, answer.position).instruction);
                }
                let regions = Refused::of(file, answer).unwrap().regions();
                let (_, region) = regions.iter().find(|(p, _)| *p == place).unwrap();
                let broken = |number: &u8| {
                    let rule = RULES.iter().find(|rule| rule.0 == *number);
                    (rule.unwrap().1)(region)
                };
                for first in (20..=24).filter(broken) {
                    for second in (first + 1..=24).filter(broken) {
                        self.pairs_of_faults.insert((place, first, second));
                    }
                }
            }
        }
    }

    fn count(&mut self, taken: bool, case: &Case, it: &Instruction) {
        if it.has_predicate() {
            let count = case.predicates[it.predicate_id()].count;
            self.counts.insert((taken, it.exec & 0x7f, count));
        }
    }

    fn width(&mut self, taken: bool, it: &Instruction) {
        let width = (it.src0.region >> 4) & 15;
        self.widths.insert((taken, width, it.exec & 7));
    }
}

/// Each place in one case of a hundred; the last row in several.
#[test]
fn the_fixed_seed_reaches_the_rare_places() {
    let generator = Generator::new(1, None);
    let mut report = Report::default();
    let mut seen = Seen::default();
    for index in 0..20_000 {
        let case = generator.case(index);
        let answer = answer_to(&case.file);
        report.add(&case, &answer);
        seen.add(&case.file, &answer);
    }
    assert_eq!(report.unintended, Vec::<String>::new());
    assert!(!report.answered.contains_key(&6));
    for mistake in Mistake::ALL {
        let count = report.shown_by(mistake);
        assert!(count >= 15, "{}: {count}", mistake.name());
    }

    let named: Vec<_> = report.named.keys().copied().collect();
    let of_operands = [
        (20, [2, 3].to_vec()),
        (21, [1, 2, 3].to_vec()),
        (22, [2, 3].to_vec()),
        (23, [1].to_vec()),
        (24, [1, 2, 3].to_vec()),
        (25, [1].to_vec()),
    ];
    let expected: Vec<_> = of_operands
        .iter()
        .flat_map(|(number, places)| places.iter().map(|place| (*number, *place)))
        .collect();
    assert_eq!(named, expected);
    assert!(report.named.values().all(|count| *count >= 20));
    // Gather, scatter and RAW_SEND.
    assert_eq!(seen.scalars, [0x4e, 0x5d, 0x78].into());

    let of_destination = [(21, 24), (23, 24)].map(|(a, b)| (1, a, b));
    let of_source = [(20, 21), (20, 22), (20, 24), (21, 22), (21, 24), (22, 24)];
    let mut pairs_of_faults = BTreeSet::from(of_destination);
    for place in [2, 3] {
        pairs_of_faults.extend(of_source.map(|(a, b)| (place, a, b)));
    }
    assert_eq!(seen.pairs_of_faults, pairs_of_faults);

    // Every width up to ExecSize is taken, and every other one is refused.
    for exec_code in 0..6 {
        for width in 0..8 {
            let right = (2..=u16::from(exec_code) + 2).contains(&width) && width <= 6;
            let there = (right, width, exec_code);
            assert!(seen.widths.contains(&there), "{there:?}");
        }
    }
    // 17 by each instruction, under NM or not, in every way of naming a predicate.
    assert_eq!(seen.short_opcodes, [0x24, 0x4e, 0x5d, 0x78].into());
    for way in [0, 1, 2, 4, 5, 6] {
        assert!(seen.short_ways.contains(&(false, way)), "{way}");
        assert!(seen.short_ways.contains(&(true, way)), "{way}");
    }
    // Every offset and ExecSize with just as many elements, one more, and one less.
    for exec in (0..0x80u8).filter(|exec| exec & 15 < 6) {
        let end = 4 * (exec >> 4) + (1 << (exec & 7));
        for count in (1..=32).filter(|_| end <= 32) {
            let there = (count >= end, exec, count);
            let near = end.abs_diff(count) <= 1;
            assert!(!near || seen.counts.contains(&there), "{there:?}");
        }
    }
    // Of 96 good exec bytes 74 keep to 32: eight offsets for 1, 2 and 4, seven for 8, five for 16, one for 32, NM or not.
    // A scatter takes those of 8 and 16, and the other 64 are reserved there.
    for (opcode, expected) in [
        (0x24, [74, 22, 160]),
        (0x78, [74, 22, 160]),
        (0x4e, [24, 8, 160 + 64]),
        (0x5d, [74, 22, 160]),
    ] {
        let met = Fate::ALL.map(|fate| report.exec_bytes(opcode, fate));
        assert_eq!(met, expected, "{opcode:02x}");
    }
    for number in [11, 12] {
        for channel in 0..4 {
            assert!(seen.channels.contains(&(number, channel)));
        }
        for lane in 0..16 {
            assert!(seen.lanes.contains(&(number, lane)));
        }
    }

    for place in [
        Place::RowBehindLastOutside,
        Place::LineOver255,
        Place::UnalignedBeforeTainted,
        Place::LastByteOfLargestKernel,
    ] {
        let count = report.count_of(place);
        assert!(count >= 200, "{}: {count}", place.name());
    }
    for place in [
        Place::RowBehindLastRefusedBefore,
        Place::LastRowOf32Completed,
        Place::LastRowOf64Completed,
    ] {
        let count = report.count_of(place);
        assert!(count >= 10, "{}: {count}", place.name());
    }

    // Both register sizes in every mode that has good lines, 32 with a frame and without; other sizes and every edge.
    for mode in Mode::ALL {
        let sized = Choice::ALL.map(|choice| report.sized(mode, choice));
        let all: u64 = sized.iter().sum();
        let [absent, of_32, of_64, _, not_read_of_64, not_read] = sized;
        if mode == Mode::BadLines {
            assert_eq!(all, not_read_of_64 + not_read);
            assert!(not_read_of_64 >= all / 4);
            continue;
        }
        assert!(absent >= all / 10 && of_32 >= all / 10, "{mode:?}");
        assert!(of_64 >= all / 4, "{mode:?}");
    }
    for (_, names) in sized_edges() {
        for edge in names {
            assert!(report.with_edge(&edge) >= 5, "{edge}");
        }
    }
    for edge in OTHERS {
        assert!(report.with_edge(edge) >= 20, "{edge}");
    }
    for mistake in SizeMistake::ALL {
        let count = report.shown_by_size(mistake);
        assert!(count >= 5, "{}: {count}", mistake.name());
    }
}
