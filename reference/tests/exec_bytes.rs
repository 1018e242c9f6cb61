//! Exec bytes in what is generated: the report sees which instruction meets which of them, one round of the mode
//! `exec-bytes` has them all, a wrong entry for one of them shows, and kernels and texts for listing have the good ones.

mod common;

use common::*;
use reference::assemble::*;
use reference::bench::answer as answer_to;
use reference::case::Case;
use reference::case_file::read_case;
use reference::case_writer::write_case;
use reference::decode::decode;
use reference::generate::exec_reach::{met, Fate, Meeting};
use reference::generate::line_cases::{line_case, LineKind};
use reference::generate::{Generator, Mode};
use reference::hex::bytes_of;
use reference::listed::LONGEST_KERNEL;
use reference::read::read;
use reference::run::{run, Answer};
use std::collections::BTreeSet;

fn met_by_file(file: &[u8]) -> Vec<(Meeting, Fate)> {
    met(file, &answer_to(file))
}

fn met_on_stage(kernel: Vec<u8>) -> Vec<(Meeting, Fate)> {
    let mut case = stage();
    case.kernel = kernel;
    met_by_file(&write_case(&case))
}

#[test]
fn what_is_met() {
    let (one, dst) = (immediate(0, 1), general(UB, 0, 0, destination_region(1)));
    let shifted = |exec| shl(exec, 0, &dst, &one, &one).bytes();
    let gathered = gather(0x82, 0, 2, 0, &one, &raw(UD, 0), &raw(F, 0)).bytes();
    let scattered = |exec| {
        let address = immediate_uq(0x1000);
        scatter(exec, 0, 1, &address, &raw(UQ, 0), &raw(UD, 0)).bytes()
    };
    let sent = |exec| raw_send(exec, 0, 1, 1, &one, &raw(UD, 0), &raw(F, 0)).bytes();
    let taken = |opcode, exec| ((opcode, exec), Fate::Taken);
    assert_eq!(met_on_stage(vec![]), []);
    assert_eq!(
        met_on_stage([shifted(0x23), gathered.clone(), scattered(0x44)].concat()),
        [taken(0x24, 0x23), taken(0x78, 0x82), taken(0x4e, 0x44)]
    );
    // 9: nothing else is wrong.
    let sends = [shifted(0x05), sent(0xf1), shifted(0x00)].concat();
    assert_eq!(met_on_stage(sends), [taken(0x24, 0x05), taken(0x5d, 0xf1)]);
    // 8, and 3 by the exec byte, which may be the last.
    let over = |opcode, exec| [((opcode, exec), Fate::Over32)];
    assert_eq!(met_on_stage(shifted(0x15)), over(0x24, 0x15));
    assert_eq!(met_on_stage(scattered(0xf4)), over(0x4e, 0xf4));
    assert_eq!(met_on_stage(sent(0x73)), over(0x5d, 0x73));
    let reserved = |opcode, exec| [((opcode, exec), Fate::Reserved)];
    assert_eq!(met_on_stage(vec![0x24, 0x8e]), reserved(0x24, 0x8e));
    assert_eq!(met_on_stage(vec![0x78, 0x06]), reserved(0x78, 0x06));
    assert_eq!(met_on_stage(vec![0x4e, 7, 0x08]), reserved(0x4e, 0x08));
    assert_eq!(met_on_stage(vec![0x5d, 1, 0xff]), reserved(0x5d, 0xff));
    // A scatter's size; and in a shift, where it is good, 1.
    assert_eq!(met_on_stage(vec![0x4e, 7, 0x05]), reserved(0x4e, 0x05));
    assert_eq!(met_on_stage(vec![0x24, 0x05]), []);
    // Not reached: cut before it, another opcode, sub-opcode or modifier.
    for kernel in [
        &[0x24][..],
        &[0x4e, 7],
        &[0x25, 6],
        &[0x4e, 8, 6],
        &[0x5d, 2, 6],
    ] {
        assert_eq!(met_on_stage(kernel.to_vec()), [], "{kernel:02x?}");
    }
    // 3 and 7 by what comes behind it.
    let with_pred = shl(0x03, 0x1000, &dst, &one, &one).bytes();
    assert_eq!(met_on_stage(with_pred), []);
    let outside = general(UB, 255, 0, destination_region(1));
    assert_eq!(met_on_stage(shl(0x03, 0, &outside, &one, &one).bytes()), []);
    // 13 and 14.
    let mut case = stage();
    case.kernel = shifted(0x23);
    let mut file = write_case(&case);
    assert_eq!(met_by_file(&file), [taken(0x24, 0x23)]);
    file.extend(b"0000\n");
    assert_eq!(met_by_file(&file), []);
    case.registers.pop();
    assert_eq!(met_by_file(&write_case(&case)), []);
}

/// What becomes of an exec byte, by document 01.
fn fate(opcode: u8, exec: u8) -> Fate {
    let sizes = [1, 2, 4, 8, 16, 32];
    let size = match sizes.get(usize::from(exec & 7)) {
        Some(size) if exec & 8 == 0 => *size,
        _ => return Fate::Reserved,
    };
    // "scatter 8 and 16 only"
    if opcode == 0x4e && size != 8 && size != 16 {
        return Fate::Reserved;
    }
    match 4 * (exec / 16 % 8) + size {
        0..=32 => Fate::Taken,
        _ => Fate::Over32,
    }
}

/// A round is 1,024 cases, and each is about the one combination that its number names.
#[test]
fn a_round_has_every_exec_byte_with_every_instruction() {
    for seed in [1, 2] {
        let generator = Generator::new(seed, Some(Mode::ExecBytes));
        let mut about = BTreeSet::new();
        for index in 0..1024 {
            let file = generator.case(index).file;
            let all = met_by_file(&file);
            let ((opcode, exec), found) = *all.last().unwrap();
            assert_eq!(found, fate(opcode, exec), "{opcode:02x} {exec:02x}");
            about.insert((opcode, exec));
        }
        assert_eq!(about.len(), 4 * 256);
    }
}

/// Where the exec bytes of a kernel stand, up to that of the first instruction that decoding refuses.
fn exec_places(kernel: &[u8]) -> Vec<usize> {
    let mut places = Vec::new();
    let mut position = 0;
    while position < kernel.len() {
        match &kernel[position..] {
            [0x24 | 0x78, _, ..] => places.push(position + 1),
            [0x4e, 7, _, ..] | [0x5d, 0 | 1, _, ..] => places.push(position + 2),
            _ => {}
        }
        match decode(kernel, position).part.len() {
            0 => break,
            length => position += length,
        }
    }
    places
}

/// The answer to a case, and the case that the run leaves, without its kernel.
fn left(mut case: Case) -> (Answer, Case) {
    let answer = run(&mut case);
    case.kernel.clear();
    (answer, case)
}

/// A table whose entry for one byte is the entry of another gives, on some case of the mode in the fixed seed, another
/// output: it is a program that meets the other byte where the one stands. Runs cannot tell two bytes apart that are
/// always 8; a scatter can if the size of only one of them is a scatter's.
#[test]
fn a_wrong_entry_shows() {
    let good = |byte: &u8| fate(0x24, *byte) != Fate::Reserved;
    // All that an entry may say, reserved being one of them.
    let entries: Vec<u8> = (0..=255).filter(good).chain([0x06]).collect();
    let mut pairs = BTreeSet::new();
    for byte in 0..=255 {
        for entry in &entries {
            let both_reserved = !good(&byte) && !good(entry);
            let always_8 = |byte| fate(0x24, byte) == Fate::Over32;
            let both_8 = always_8(byte) && always_8(*entry);
            let told_by_scatter = fate(0x4e, byte) != fate(0x4e, *entry);
            if byte != *entry && !both_reserved && (!both_8 || told_by_scatter) {
                pairs.insert((byte, *entry));
            }
        }
    }
    // 96 good bytes as 95 others or reserved, 160 reserved ones as 96; but for 22 that are 8: 8 of a scatter's sizes among
    // themselves, and 14 others.
    assert_eq!(pairs.len(), 96 * 96 + 160 * 96 - 8 * 7 - 14 * 13);

    let generator = Generator::new(1, None);
    for index in (0..20_000).filter(|index| matches!(index % 20, 6 | 7)) {
        let generated = generator.case(index);
        assert_eq!(generated.mode, Mode::ExecBytes);
        let case = read_case(&generated.file).unwrap();
        let places = exec_places(&case.kernel);
        let right = left(case.clone());
        let bytes: BTreeSet<u8> = places.iter().map(|at| case.kernel[*at]).collect();
        for byte in bytes {
            let open: Vec<_> = pairs.range((byte, 0)..=(byte, 255)).copied().collect();
            for (_, entry) in open {
                let mut wrong = case.clone();
                for at in places.iter().filter(|at| case.kernel[**at] == byte) {
                    wrong.kernel[*at] = entry;
                }
                if left(wrong) != right {
                    pairs.remove(&(byte, entry));
                }
            }
        }
    }
    assert_eq!(pairs, BTreeSet::new());
}

/// Kernels for listing have every good exec byte and some reserved ones in every instruction, and texts every mask and size.
#[test]
fn lines_have_every_good_exec_byte() {
    let mut listed = BTreeSet::new();
    let mut refused = BTreeSet::new();
    let mut read_back = BTreeSet::new();
    for index in 0..20_000 {
        let line = line_case(LineKind::Kernels, 1, index).line;
        let kernel = bytes_of(&line).filter(|it| it.len() <= LONGEST_KERNEL);
        let kernel = kernel.unwrap_or_default();
        let mut position = 0;
        for at in exec_places(&kernel) {
            let meeting = (kernel[position], kernel[at]);
            let decoded = decode(&kernel, position);
            if fate(meeting.0, meeting.1) == Fate::Reserved {
                assert_eq!(decoded.number, 3);
                refused.insert(meeting);
            } else if decoded.number == 0 {
                listed.insert(meeting);
            }
            position += decoded.part.len();
        }
        let text = line_case(LineKind::Texts, 1, index).line;
        if let Ok(it) = read(&text) {
            read_back.insert((it.opcode, it.exec));
        }
    }
    let mut good = BTreeSet::new();
    for opcode in [0x24, 0x78, 0x4e, 0x5d] {
        let is_good = |exec: &u8| fate(opcode, *exec) != Fate::Reserved;
        good.extend((0..=255).filter(is_good).map(|exec| (opcode, exec)));
        let some = refused.iter().filter(|it| it.0 == opcode).count();
        assert!(some >= 40, "{opcode:02x}: {some}");
    }
    assert_eq!(listed, good);
    assert_eq!(read_back, good);
}
