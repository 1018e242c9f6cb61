//! Request 5 of document 02, "Cards with 64-byte registers": each rule that follows the size, with 32 and with 64, and the
//! frame 0b. Answers are number, completed, position.

mod common;

use common::*;
use reference::assemble::*;
use reference::assembled::assembled;
use reference::bench::{answer as answer_to, bench};
use reference::case::{Case, Variable};
use reference::case_file::read_case;
use reference::case_writer::write_case;
use reference::register_size::*;
use reference::run::Answer;
use reference::sizes;

const SIZES: [RegisterSize; 2] = [RegisterSize::OF_32, RegisterSize::OF_64];

/// Zeros with some variables, EM ffffffff, 16 zero bytes of memory at base 0 and a kernel of one line of text.
fn file(bytes: usize, variables: &[&str], text: &str) -> String {
    let kernel = assembled(text.as_bytes()).concat();
    assert!(!kernel.starts_with('!'), "{text}: {kernel}");
    let variables: String = variables.iter().map(|it| format!("02{it}\n")).collect();
    let memory = "00".repeat(8 + 16);
    format!(
        "01{}\n{variables}06ffffffff\n05{memory}\n07{kernel}\n",
        "00".repeat(bytes)
    )
}

/// The answers without 0b40, with 0b20, and with 0b40 before and behind.
fn answers(file: &str) -> [Answer; 4] {
    let to = |file: String| answer_to(file.as_bytes());
    [
        to(file.to_string()),
        to(format!("0b20\n{file}")),
        to(format!("0b40\n{file}")),
        to(format!("{file}0b40\n")),
    ]
}

fn assert_answers(file: &str, of_32: Answer, of_64: Answer) {
    assert_eq!(answers(file), [of_32, of_32, of_64, of_64], "{file}");
}

/// The same lines without and with 0b40.
#[test]
fn the_same_lines_with_each_size() {
    let done = |length| answer(0, 1, length);
    let refused = |number| answer(number, 0, 0);
    let shl_of_16 = "SHL (M1,16) v1(0,0)<1> v0(0,0)<32;8,2> 0x1:uw";
    let shl_of_8 = "SHL (M1,8) v1(0,0)<1> v0(0,8)<0;8,4> 0x1:uw";
    let row_2 = "SHL (M1,1) v1(0,0)<1> v0(2,0)<0;1,0> 0x0:uw";
    let send_1_0 = "raw_send (M1,1) 0x0 1 0 0x0:ud v0.0 v1.0";
    let send_1_1 = "raw_send (M1,1) 0x0 1 1 0x0:ud v0.0 v1.0";
    let scatter_8 = "SVM_SCATTER4_SCALED.RG (M1,8) 0x0:uq v0.0 v1.0";
    let scatter_16 = "SVM_SCATTER4_SCALED.RG (M1,16) 0x0:uq v0.0 v1.0";
    for (bytes, variables, text, of_32, of_64) in [
        (
            128,
            ["0200004000", "0200001000"],
            shl_of_16,
            refused(7),
            done(24),
        ),
        (
            192,
            ["0000003000", "0000000800"],
            shl_of_8,
            refused(7),
            refused(7),
        ),
        (
            128,
            ["0000002000", "007c000100"],
            row_2,
            done(24),
            refused(7),
        ),
        (
            128,
            ["0000000800", "0040000800"],
            send_1_0,
            refused(9),
            refused(7),
        ),
        (
            128,
            ["0000001000", "0040000800"],
            send_1_1,
            refused(9),
            refused(7),
        ),
        (
            128,
            ["0b00000800", "0040001000"],
            scatter_8,
            done(26),
            refused(7),
        ),
        (
            256,
            ["0b00001000", "0080002000"],
            scatter_16,
            done(26),
            done(26),
        ),
    ] {
        assert_answers(&file(bytes, &variables, text), of_32, of_64);
    }
}

/// Tables alone: a file of so many bytes and one variable or none.
#[test]
fn tables_alone() {
    let of = |bytes: usize, variable: &str| {
        let file = format!("01{}\n{variable}", "00".repeat(bytes));
        answers(&file).map(|it| it.number)
    };
    for (bytes, variable, of_32, of_64) in [
        // UD at 32 ×16, UD at 16 ×8, UB at 31 ×2, UD at 32 ×8, UB at 63 ×2.
        (128, "020020001000\n", 0, 13),
        (128, "020010000800\n", 13, 0),
        (128, "02041f000200\n", 13, 0),
        (128, "020020000800\n", 0, 0),
        (128, "02043f000200\n", 13, 13),
        (96, "", 0, 13),
        (4096, "", 0, 0),
        // No register, one of 32, one of 64; past the limit, which does not double.
        (0, "", 0, 0),
        (32, "", 0, 13),
        (64, "", 0, 0),
        (4064, "", 0, 13),
        (4128, "", 13, 13),
        (4160, "", 13, 13),
        (8192, "", 13, 13),
    ] {
        let numbers = of(bytes, variable);
        assert_eq!(numbers, [of_32, of_32, of_64, of_64], "{bytes} {variable}");
    }
}

/// Lines alone: number and position.
#[test]
fn lines_alone() {
    for (lines, number, position) in [
        ("0b20", 0, 0),
        ("0b40", 0, 0),
        ("0b40\n", 0, 0),
        ("0b30", 13, 0),
        ("0b00", 13, 0),
        ("0b", 14, 1),
        ("0b4000", 14, 1),
        ("0b40\n0b40", 14, 2),
        ("0b20\n0b40", 14, 2),
        ("0b30\nzz", 14, 2),
        ("0b4", 14, 1),
        ("0B40", 14, 1),
        ("0b40\n0b", 14, 2),
        ("0b30\n0b30", 14, 2),
        ("0b30\n0100", 13, 0),
        ("0100\n0b40\n07ff\n0c", 14, 4),
        // The size comes before the kernel's 2, and a good one lets it be.
        ("0b41\n07ff", 13, 0),
        ("0b40\n07ff", 2, 0),
    ] {
        let found = answer_to(lines.as_bytes());
        assert_eq!(found, answer(number, 0, position), "{lines:?}");
    }
    // Every byte but 20 and 40.
    for byte in 0..=255u8 {
        let number = answer_to(format!("0b{byte:02x}").as_bytes()).number;
        let good = byte == 0x20 || byte == 0x40;
        assert_eq!(number, if good { 0 } else { 13 }, "{byte:02x}");
    }
}

/// "absent means 32", and the file is read wherever the frame stands.
#[test]
fn the_frame_is_read() {
    let size_of = |file: &str| read_case(file.as_bytes()).unwrap().register_size;
    assert_eq!(size_of(""), RegisterSize::OF_32);
    assert_eq!(size_of("07ff\n0b40\n06ffffffff"), RegisterSize::OF_64);
    assert_eq!(size_of("0b20\n07ff"), RegisterSize::OF_32);
    assert_eq!(size_of("0bff"), RegisterSize(255));
    let mut case = stage();
    for size in [0, 32, 48, 64, 255] {
        case.register_size = RegisterSize(size);
        assert_eq!(read_case(&write_case(&case)), Ok(case.clone()));
    }
}

/// The three worked cases, whole: input and output.
#[test]
fn worked_cases() {
    let zeros = |bytes: usize| "00".repeat(bytes);
    let dwords = |values: &[u32]| -> String {
        let hex = |value: &u32| value.to_le_bytes().map(|it| format!("{it:02x}")).concat();
        values.iter().map(hex).collect()
    };
    // Over a 32-byte line: 1 to 8 at byte 16, times 16.
    let before = dwords(&[0, 0, 0, 0, 1, 2, 3, 4, 5, 6, 7, 8, 0, 0, 0, 0]);
    let after = dwords(&[0, 0, 0, 0, 16, 32, 48, 64, 80, 96, 112, 128, 0, 0, 0, 0]);
    let lines = format!(
        "01{before}\n020010000800\n06ff000000\n07240300000000000000000200000000005502050204000000\n"
    );
    let expected = format!(
        "4000010018000000\n01{after}\n050000000000000000\n08{}\n0a\n",
        zeros(64)
    );
    assert_eq!(output(&format!("{lines}0b40\n")), expected);
    assert_eq!(output(&lines), "400d000000000000\n");

    // Row 1: 0x22 at byte 64, or 0x11 at byte 32, goes to byte 124.
    let registers = |last: &str| {
        format!(
            "{}11{}22{}{last}000000",
            zeros(32),
            zeros(31),
            zeros(124 - 65)
        )
    };
    let lines = format!(
        "01{}\n020000002000\n02007c000100\n0601000000\n07240000000001000000000200000001002101050200000000\n",
        registers("00")
    );
    let expected = |last| {
        format!(
            "4000010018000000\n01{}\n050000000000000000\n08{}\n0a\n",
            registers(last),
            zeros(128)
        )
    };
    assert_eq!(output(&format!("0b40\n{lines}")), expected("22"));
    assert_eq!(output(&lines), expected("11"));

    // Channels R and B, lane 0 alone: B takes dword 16, 0x100, or dword 8, 0x40.
    let mut registers: Vec<u32> = (0..8).flat_map(|lane| [16 * lane, 0]).collect();
    registers.extend(0x100..0x110);
    let registers = dwords(&registers);
    let lines = format!(
        "01{registers}\n020b00000800\n020000002000\n05{}\n0601000000\n074e07030000050000050b00000000000000000000000001000000\n",
        zeros(20)
    );
    let expected = |b: u32| {
        format!(
            "400001001a000000\n01{registers}\n05{}{}{}\n08{}\n0a{}\n",
            zeros(8),
            dwords(&[0, 0]),
            dwords(&[b]),
            zeros(128),
            zeros(12)
        )
    };
    assert_eq!(output(&format!("0b40\n{lines}")), expected(0x100));
    assert_eq!(output(&lines), expected(0x40));
}

fn output(file: &str) -> String {
    String::from_utf8(bench(file.as_bytes())).unwrap()
}

/// The functions of the size, at both sizes.
#[test]
fn what_follows_the_size() {
    for (size, in_a_row) in [(1, [32, 64]), (2, [16, 32]), (4, [8, 16]), (8, [4, 8])] {
        let of = |it: RegisterSize| elements_in_a_row(it.bytes(), size);
        assert_eq!(SIZES.map(of), in_a_row);
    }
    for (low, high, fits) in [
        (0, 63, [true, true]),
        (0, 64, [false, true]),
        (31, 64, [false, true]),
        (32, 95, [true, true]),
        (32, 96, [false, true]),
        (0, 127, [false, true]),
        (0, 128, [false, false]),
        (63, 128, [false, false]),
        (64, 191, [false, true]),
        (64, 192, [false, false]),
    ] {
        let of = |it: RegisterSize| in_two_registers(it.bytes(), low, high);
        assert_eq!(SIZES.map(of), fits, "{low} to {high}");
    }
    for (start, bytes, placed) in [
        (0, 1, [true, true]),
        (16, 32, [false, true]),
        (32, 32, [true, true]),
        (32, 33, [true, false]),
        (32, 63, [true, false]),
        (32, 64, [true, false]),
        (64, 64, [true, true]),
        (31, 2, [false, true]),
        (63, 2, [false, false]),
        (1, 63, [false, true]),
        (2, 63, [false, false]),
        (0, 128, [true, true]),
        (96, 128, [true, false]),
    ] {
        let of = |it: RegisterSize| is_well_placed(it.bytes(), start, bytes);
        assert_eq!(SIZES.map(of), placed, "{start}, {bytes}");
    }
    for (exec_size, apart) in [(8, [8, 16]), (16, [16, 16])] {
        let of = |it: RegisterSize| channel_stride(it.bytes(), exec_size);
        assert_eq!(SIZES.map(of), apart);
    }
    for (exec_size, channels, needed) in [
        (8, 1, [8, 8]),
        (8, 2, [16, 24]),
        (8, 3, [24, 40]),
        (8, 4, [32, 56]),
        (16, 1, [16, 16]),
        (16, 4, [64, 64]),
    ] {
        let of = |it: RegisterSize| scatter_dwords(it.bytes(), exec_size, channels);
        assert_eq!(SIZES.map(of), needed, "{exec_size}, {channels}");
    }
    assert_eq!(
        SIZES.map(|it| bytes_of_registers(it.bytes(), 15)),
        [480, 960]
    );
    assert_eq!(
        SIZES.map(|it| is_whole_registers(it.bytes(), 96)),
        [true, false]
    );
    let good: Vec<u8> = (0..=255).filter(|it| RegisterSize(*it).is_good()).collect();
    assert_eq!(good, [32, 64]);
}

/// A stage with registers of 64 bytes: its variables start at multiples of 256.
fn stage_of_64() -> Case {
    Case {
        register_size: RegisterSize::OF_64,
        ..stage()
    }
}

/// Each element of the variables tells its byte: row R, column C is byte 64·R + size·C.
#[test]
fn rows_for_every_element_size() {
    for (type_index, size) in [(UD, 4), (UW, 2), (UB, 1)] {
        for row in 0..4u8 {
            let mut case = stage_of_64();
            let first = start(type_index);
            for (k, byte) in case.registers[first..first + 256].iter_mut().enumerate() {
                *byte = k as u8;
            }
            let src = general(type_index, row, 3, SCALAR_REGION);
            let dst = general(B, 0, 0, destination_region(1));
            let draft = shl(0x80, 0, &dst, &src, &immediate(0, 0));
            assert_eq!(run_on(&mut case, &[draft]).number, 0);
            let expected = 64 * usize::from(row) + 3 * size;
            assert_eq!(case.registers[start(B)], expected as u8);
        }
        // Row 4 is byte 256, the variable's end.
        let src = general(type_index, 4, 0, SCALAR_REGION);
        let dst = general(B, 0, 0, destination_region(1));
        let draft = shl(0x80, 0, &dst, &src, &immediate(0, 0));
        assert_eq!(run_on(&mut stage_of_64(), &[draft]).number, 7);
    }
    // UQ: a scatter's address in row 3, column 7, the last of 32.
    let mut case = stage_of_64();
    put_uq(&mut case, start(UQ) + 248, &[0x1004]);
    put(&mut case, start(UD), &[0xab]);
    case.execution_mask = 1;
    let zeros = raw(UQ, 0);
    let of = |row, column| {
        let address = general(UQ, row, column, SCALAR_REGION);
        scatter(0x03, 0, 1, &address, &zeros, &raw(UD, 0))
    };
    assert_eq!(run_on(&mut case, &[of(3, 7)]).number, 0);
    assert_eq!(case.memory[4], 0xab);
    assert_eq!(run_on(&mut case, &[of(3, 8)]).number, 7);
    assert_eq!(run_on(&mut case, &[of(4, 0)]).number, 7);
}

/// Destinations go by the same rows.
#[test]
fn a_destination_in_a_row() {
    let mut case = stage_of_64();
    let dst = general(UW, 2, 1, destination_region(2));
    let draft = shl(0x81, 0, &dst, &immediate(2, 0x1234), &immediate(0, 0));
    assert_eq!(run_on(&mut case, &[draft]).number, 0);
    let at = start(UW) + 2 * 64 + 2;
    assert_eq!(case.registers[at..at + 6], [0x34, 0x12, 0, 0, 0x34, 0x12]);
}

/// Scatter data: the p-th enabled channel's start at dword 16·p with eight lanes and with sixteen.
#[test]
fn scatter_data() {
    for (code, lanes) in [(3u8, 8u64), (4, 16)] {
        for size in SIZES {
            let mut case = stage();
            case.register_size = size;
            case.memory = vec![0; 1024];
            case.memory_taint = vec![0; 1024];
            for dword in 0..64u32 {
                put(
                    &mut case,
                    start(UD) + 4 * dword as usize,
                    &dword.to_le_bytes(),
                );
            }
            let offsets: Vec<u64> = (0..lanes).map(|lane| 16 * lane).collect();
            put_uq(&mut case, start(UQ), &offsets);
            // R, B and A.
            let address = immediate_uq(0x1000);
            let draft = scatter(0x80 | code, 0, 0b1101, &address, &raw(UQ, 0), &raw(UD, 0));
            assert_eq!(run_on(&mut case, &[draft]).number, 0);
            let apart = lanes.max(size.bytes() / 4);
            for lane in 0..lanes {
                for (p, channel) in [0, 2, 3].into_iter().enumerate() {
                    let at = 16 * lane as usize + 4 * channel;
                    let expected = p as u64 * apart + lane;
                    assert_eq!(u64::from(case.memory[at]), expected);
                }
            }
        }
    }
}

/// The data just there and one dword short, all lanes off; and RAW_SEND's registers.
#[test]
fn lengths() {
    let with_variable = |type_code, count, draft: &Draft, size| {
        let mut case = stage();
        case.register_size = size;
        case.execution_mask = 0;
        case.registers.resize(4096, 0);
        case.register_taint.resize(4096, 0);
        case.variables.push(Variable {
            type_code,
            start: 2048,
            count,
        });
        run_on(&mut case, &[draft.clone()]).number
    };
    let numbers = |type_code, count, draft: &Draft| {
        SIZES.map(|size| with_variable(type_code, count, draft, size))
    };
    let scattered = |code, channels| {
        let address = immediate_uq(0x1000);
        scatter(
            code,
            0,
            channels,
            &address,
            &raw(UQ, 0),
            &raw(NO_VARIABLE, 0),
        )
    };
    for (code, channels, count, expected) in [
        (3, 0b0001, 8, [0, 0]),
        (3, 0b0001, 7, [7, 7]),
        (3, 0b0011, 16, [0, 7]),
        (3, 0b0011, 15, [7, 7]),
        (3, 0b1010, 23, [0, 7]),
        (3, 0b1010, 24, [0, 0]),
        (3, 0b1111, 32, [0, 7]),
        (3, 0b1111, 55, [0, 7]),
        (3, 0b1111, 56, [0, 0]),
        (4, 0b0011, 31, [7, 7]),
        (4, 0b0011, 32, [0, 0]),
        (4, 0b1111, 63, [7, 7]),
        (4, 0b1111, 64, [0, 0]),
    ] {
        let draft = scattered(code, channels);
        let found = numbers(0, count, &draft);
        assert_eq!(found, expected, "{code} {channels} {count}");
    }
    let sent = |num_src, num_dst, offset| {
        let it = raw(NO_VARIABLE, offset);
        raw_send(0x83, 0, num_src, num_dst, &immediate(0, 0), &it, &it)
    };
    for (num_src, num_dst, offset, bytes, expected) in [
        (1, 0, 0, 32, [9, 7]),
        (1, 0, 0, 63, [9, 7]),
        (1, 0, 0, 64, [9, 9]),
        (1, 1, 0, 64, [9, 9]),
        (1, 2, 0, 127, [9, 7]),
        (1, 2, 0, 128, [9, 9]),
        (1, 1, 1, 64, [9, 7]),
        (1, 1, 1, 65, [9, 9]),
        (15, 16, 0, 512, [9, 7]),
        (15, 16, 0, 1023, [9, 7]),
        (15, 16, 0, 1024, [9, 9]),
    ] {
        let found = numbers(4, bytes, &sent(num_src, num_dst, offset));
        assert_eq!(found, expected, "{num_src} {num_dst} {offset} {bytes}");
    }
    // For none the offset may be the variable's end, with either size.
    let none = raw_send(
        0x83,
        0,
        1,
        0,
        &immediate(0, 0),
        &raw(UB, 0),
        &raw(NO_VARIABLE, 40),
    );
    assert_eq!(numbers(4, 40, &none), [9, 9]);
    assert_eq!(numbers(4, 39, &none), [7, 7]);
}

/// Gather and the raw operands' alignment do not know the size.
#[test]
fn what_stays() {
    let drafts = [
        gather(0x83, 0, 2, 0, &immediate(0, 3), &raw(UD, 4), &raw(F, 8)),
        gather(0x83, 0, 2, 0, &immediate(0, 3), &raw(UD, 2), &raw(F, 8)),
        gather(0x84, 0, 1, 0, &immediate(0, 3), &raw(UD, 192), &raw(D, 192)),
        gather(0x84, 0, 1, 0, &immediate(0, 3), &raw(UD, 196), &raw(D, 0)),
    ];
    for draft in drafts {
        let [mut of_32, mut of_64] = SIZES.map(|register_size| Case {
            register_size,
            register_taint: (0..2048).map(|k| u8::from(k % 96 == 5)).collect(),
            registers: (0..2048u32)
                .map(|k| (k % 7) as u8 * u8::from(k % 4 == 0))
                .collect(),
            ..stage()
        });
        let answers = [&mut of_32, &mut of_64].map(|case| run_on(case, &[draft.clone()]));
        assert_eq!(answers[0], answers[1]);
        of_64.register_size = RegisterSize::OF_32;
        assert_eq!(of_32, of_64);
    }
}

/// Another size is 13 and changes nothing, whatever else holds; the tables with each good size.
#[test]
fn other_sizes() {
    for size in (0..=255).map(RegisterSize).filter(|it| !it.is_good()) {
        let mut case = Case {
            register_size: size,
            ..stage()
        };
        assert_eq!(sizes::check(&case), Err(13));
        let dst = general(UD, 0, 0, destination_region(1));
        let draft = shl(0x80, 0, &dst, &immediate(0, 1), &immediate(0, 1));
        case.kernel = draft.bytes();
        let before = case.clone();
        assert_eq!(run_on(&mut case, &[draft]), answer(13, 0, 0));
        assert_eq!(case, before);
    }
    assert_eq!(sizes::check(&stage()), Ok(()));
    assert_eq!(sizes::check(&stage_of_64()), Ok(()));
}

/// Marks go through a scatter with the data that the stride picks.
#[test]
fn marks_of_scatter_data() {
    for (size, at) in [(RegisterSize::OF_32, 8), (RegisterSize::OF_64, 16)] {
        let mut case = stage();
        case.register_size = size;
        case.execution_mask = 1;
        case.register_taint[start(UD) + 4 * at] = 7;
        case.register_taint[start(UD) + 4 * at + 3] = 0x80;
        let draft = scatter(
            0x03,
            0,
            0b0011,
            &immediate_uq(0x1000),
            &raw(UQ, 0),
            &raw(UD, 0),
        );
        assert_eq!(run_on(&mut case, &[draft]).number, 0);
        assert_eq!(
            case.memory_taint[..12],
            [0, 0, 0, 0, 1, 0, 0, 1, 0, 0, 0, 0]
        );
    }
}
