//! The worked examples of request 1 of document 02, each derived from the request and the pages: lines, columns, rooms and
//! whole kernels.

use reference::assembled::assembled;
use reference::decode::decode;
use reference::encode::encode;
use reference::hex::{bytes_of, push_hex};
use reference::instruction::Instruction;
use reference::listed::listed;
use reference::print::{print, print_into};
use reference::read::{read, read_into, Refusal};

fn bytes(hex: &str) -> Vec<u8> {
    bytes_of(hex.as_bytes()).unwrap()
}

fn hex(bytes: &[u8]) -> String {
    let mut text = Vec::new();
    push_hex(&mut text, bytes);
    String::from_utf8(text).unwrap()
}

/// The one instruction of a kernel.
fn instruction(hex: &str) -> Instruction {
    let kernel = bytes(hex);
    let decoded = decode(&kernel, 0);
    assert_eq!((decoded.number, decoded.part.len()), (0, kernel.len()));
    decoded.instruction
}

/// Encodings and their lines.
const LINES: [(&str, &str); 14] = [
    (
        "240300000001000000000200000000005502050201000000",
        "SHL (M1,8) v1(0,0)<1> v0(0,0)<8;8,1> 0x1:uw",
    ),
    (
        "249403a0002c010102000300070000005002050201000200",
        "(!P3.any) SHL (M2_NM,16) v300(1,2)<2> v7(0,0)<n;8,1> 0x20001:uw",
    ),
    (
        "240300000001000000050200000000005502050201000000",
        "SHL (M1,8) v1(0,0)<8;n,1> v0(0,0)<8;8,1> 0x1:uw",
    ),
    (
        "240300000001000000550200000000005502050201000000",
        "SHL (M1,8) v1(0,0)<8;8,1> v0(0,0)<8;8,1> 0x1:uw",
    ),
    (
        "240300000001000000000000000000005502050201000000",
        "SHL (M1,8) v1(0,0)<n;n,n> v0(0,0)<8;8,1> 0x1:uw",
    ),
    (
        "2403000000010000000001000000000000000504efbeadde",
        "SHL (M1,8) v1(0,0)<0> v0(0,0)<n;n,n> 0xdeadbeef:ub",
    ),
    (
        "240300000001000000000200000000005502050b0100000002000000",
        "SHL (M1,8) v1(0,0)<1> v0(0,0)<8;8,1> 0x200000001:uq",
    ),
    (
        "2475004000ffffffff0007050700000000050bffffffffffffffff",
        "(P0.all) SHL (M8,32) v65535(255,255)<32> 0x0:f 0xffffffffffffffff:uq",
    ),
    (
        "7803000001010000010500100000000400000005002000",
        "GATHER_SCALED.2 (M1,8) T1 0x10:ud v4.0 v5.32 {1,0}",
    ),
    (
        "7803000000020700000500000000000100000002000000",
        "GATHER_SCALED.4 (M1,8) T0 0x0:ud v1.0 v2.0 {0,7}",
    ),
    (
        "4e072300000a0500050b00100000000000000100000002000000",
        "SVM_SCATTER4_SCALED.GA (M3,8) 0x1000:uq v1.0 v2.0 {5}",
    ),
    (
        "4e07f4ff0f0fffff000300010200000100000002000000",
        "(P4095) SVM_SCATTER4_SCALED.RGBA (M8_NM,16) v3(1,2)<n;n,n> v1.0 v2.0 {65535}",
    ),
    (
        "5d010000001a0000000100000000000021010100080002000000",
        "raw_sendc (M1,1) 0x1a 1 0 v0(0,0)<0;1,0> v1.8 v2.0",
    ),
    (
        "5d00050080000000000f1005070000803f0100080002000000",
        "(!P0) raw_send (M1,32) 0x0 15 16 0x3f800000:f v1.8 v2.0",
    ),
];

const H: &str = "SHL (M1,8) v1(0,0)<1> v0(0,0)<8;8,1> ";
const G: &str = "GATHER_SCALED.4 (M1,8) T0 0x0:ud v1.0 v2.0";
const S: &str = "SVM_SCATTER4_SCALED.R (M1,8) 0x0:uq v1.0 v2.0";

/// What is no line: a front, what follows it, and the column of 16.
const COLUMNS: [(&str, &str, usize); 78] = [
    ("", "", 1),
    ("", "S", 2),
    ("", "shl", 1),
    ("", "SHR (M1,8)", 3),
    ("", "SHL(M1,8)", 4),
    ("", "SHL  (M1,8)", 5),
    ("", "SHL.sat (M1,8)", 4),
    ("", "RAW_SEND (M1,8)", 1),
    ("", "raw_sends", 9),
    ("", "!P3", 1),
    ("", "(P) SHL", 3),
    ("", "(p3) SHL", 2),
    ("", "(P0) SHL", 4),
    ("", "(P00", 4),
    ("", "(P4096)", 6),
    ("", "(P3.an) SHL", 7),
    ("", "(P3.any.all) SHL", 8),
    ("", "(!P0) S", 8),
    ("", "(!P3.any)SHL", 10),
    ("", "(P3) (P4) SHL", 6),
    ("", "SHL (M0,8)", 7),
    ("", "SHL (M9,8)", 7),
    ("", "SHL (M1,3)", 10),
    ("", "SHL (M1,16", 11),
    ("", "SHL (M1,64)", 9),
    ("", "SHL (M1, 8)", 9),
    ("", "SVM_SCATTER4_SCALED.R (M1,1)", 28),
    ("", "SVM_SCATTER4_SCALED.RG (M1,4)", 28),
    ("", "SVM_SCATTER4_SCALED.GR (M1,8)", 22),
    ("", "SVM_SCATTER4_SCALED. (M1,8)", 21),
    ("", "GATHER_SCALED.3", 15),
    ("", "SHL (M1,8) v65536(0,0)<1>", 17),
    ("", "SHL (M1,8) v01(0,0)", 14),
    ("", "SHL (M1,8) v1(256,0)", 17),
    ("", "SHL (M1,8) v1(0, 0)<1>", 17),
    ("", "SHL (M1,8) 0x1:uw", 12),
    ("", "SHL (M1,8) v1(0,0)<3>", 21),
    ("", "SHL (M1,8) v1(0,0)<01>", 21),
    ("", "SHL (M1,8) v1(0,0)<n>", 21),
    ("", "SHL (M1,8) v1(0,0)<n;n,1>", 24),
    ("", "SHL (M1,8) v1(0,0)<n;8", 23),
    ("", "SHL (M1,8) v1(0,0)<1> v0(0,0)<1>", 32),
    (H, "1:uw", 38),
    (H, "é", 38),
    (H, "-0x1:uw", 38),
    (H, "0x:ud", 40),
    (H, "0x00:ud", 41),
    (H, "0x01:uw", 41),
    (H, "0xA:uw", 40),
    (H, "0x1", 41),
    (H, "0x1:UW", 42),
    (H, "0x1:q", 42),
    (H, "0x1:u", 43),
    (H, "0x1:uw ", 44),
    (H, "0x1:uw\n", 44),
    (H, "0x100000000:ud", 51),
    (H, "0x123456789:ud", 51),
    (H, "0x10000000000000000:uq", 56),
    ("", "GATHER_SCALED.4 (M1,8) T256", 27),
    (G, " ", 44),
    (G, "{1,0}", 43),
    (G, " {0,0}", 47),
    (G, " {0,", 47),
    (G, " {01,0}", 46),
    (G, " {1}", 46),
    (G, " {1, 0}", 47),
    (G, " {256,0}", 47),
    (G, " {1,65536}", 51),
    (G, " {1,0}x", 49),
    (S, " {0}", 48),
    (S, " {5,0}", 49),
    ("", "GATHER_SCALED.4 (M1,8) T08", 26),
    ("", "GATHER_SCALED.4 (M1,8) T0 0x0:ud v1.65536", 41),
    ("", "raw_send (M1,8) 0x1A", 20),
    ("", "raw_send (M1,8) 0x123456789", 27),
    ("", "raw_send (M1,8) 0x1a 0 0", 22),
    ("", "raw_send (M1,8) 0x1a 16 0", 23),
    ("", "raw_send (M1,8) 0x1a 1 17", 25),
];

/// Whole kernels and their lines.
const KERNELS: [(&str, &[&str]); 3] = [
    ("2403000000010000000002000000000055020502010000007803000001010000010500100000000400000005002000", &["SHL (M1,8) v1(0,0)<1> v0(0,0)<8;8,1> 0x1:uw", "GATHER_SCALED.2 (M1,8) T1 0x10:ud v4.0 v5.32 {1,0}"]),
    ("4e072300000a0500050b001000000000000001000000020000005d010000001a0000000100000000000021010100080002000000", &["SVM_SCATTER4_SCALED.GA (M3,8) 0x1000:uq v1.0 v2.0 {5}", "raw_sendc (M1,1) 0x1a 1 0 v0(0,0)<0;1,0> v1.8 v2.0"]),
    ("78030000000207000005000000000001000000020000002403000000010000005502000000000055020502010000002475004000ffffffff0007050700000000050bffffffffffffffff", &["GATHER_SCALED.4 (M1,8) T0 0x0:ud v1.0 v2.0 {0,7}", "SHL (M1,8) v1(0,0)<8;8,1> v0(0,0)<8;8,1> 0x1:uw", "(P0.all) SHL (M8,32) v65535(255,255)<32> 0x0:f 0xffffffffffffffff:uq"]),
];

#[test]
fn lines() {
    for (encoding, line) in LINES {
        assert_eq!(print(&instruction(encoding)), Ok(line.to_string()));
        assert_eq!(read(line.as_bytes()), Ok(instruction(encoding)), "{line}");
        assert_eq!(listed(encoding.as_bytes()), [line]);
        assert_eq!(assembled(line.as_bytes()), [encoding]);
    }
}

#[test]
fn columns() {
    for (front, rest, column) in COLUMNS {
        let text = format!("{front}{rest}");
        assert_eq!(read(text.as_bytes()), Err(column), "{text:?}");
        assert_eq!(assembled(text.as_bytes()), [format!("! 16 {column}")]);
        // 16 comes before 15, and the buffer stays.
        let mut buffer = [0x55; 40];
        for room in [0, 40] {
            let refusal = read_into(text.as_bytes(), &mut buffer[..room]).unwrap_err();
            assert_eq!(refusal, Refusal::NoLine(column));
            assert_eq!(refusal.number(), 16);
        }
        assert_eq!(buffer, [0x55; 40]);
    }
}

/// `é` as one byte is no more of a line than as two: columns count bytes.
#[test]
fn columns_count_bytes() {
    let text = [H.as_bytes(), b"\xe9"].concat();
    assert_eq!(read(&text), Err(38));
    assert_eq!(read(b"\xe9"), Err(1));
}

#[test]
fn whole_kernels() {
    for (kernel, lines) in KERNELS {
        assert_eq!(listed(kernel.as_bytes()), lines);
        let parts = lines.iter().map(|line| assembled(line.as_bytes()).concat());
        assert_eq!(parts.collect::<String>(), kernel);
    }
}

/// The first line has 43 characters and 24 bytes.
#[test]
fn rooms() {
    let (encoding, line) = LINES[0];
    let instruction = instruction(encoding);
    for room in 0..43 {
        let mut buffer = vec![0x55; room];
        assert_eq!(print_into(&instruction, &mut buffer), Err(15), "{room}");
        assert_eq!(buffer, vec![0x55; room]);
    }
    for room in [43, 50, 200] {
        let mut buffer = vec![0x55; room];
        assert_eq!(print_into(&instruction, &mut buffer), Ok(43));
        assert_eq!(&buffer[..43], line.as_bytes());
        assert_eq!(buffer[43..], vec![0x55; room - 43]);
    }
    for room in 0..24 {
        let mut buffer = vec![0x55; room];
        let refusal = read_into(line.as_bytes(), &mut buffer).unwrap_err();
        assert_eq!(refusal, Refusal::ShortBuffer, "{room}");
        assert_eq!(refusal.number(), 15);
        assert_eq!(buffer, vec![0x55; room]);
    }
    for room in [24, 31, 100] {
        let mut buffer = vec![0x55; room];
        assert_eq!(read_into(line.as_bytes(), &mut buffer), Ok(24));
        assert_eq!(hex(&buffer[..24]), encoding);
        assert_eq!(buffer[24..], vec![0x55; room - 24]);
    }
    assert_eq!(read_into(b"SHL", &mut []), Err(Refusal::NoLine(4)));
}

/// Into no room, with one field of the first line's instruction changed.
#[test]
fn fields_come_before_room() {
    let changes: [(fn(&mut Instruction), u8); 9] = [
        (|it| it.exec = 0x06, 3),
        (|it| it.pred = 0x1000, 3),
        (|it| it.dst.tag = 0x40, 3),
        (|it| it.dst.tag = 0x01, 4),
        (|it| it.dst.tag = 0x08, 4),
        (|it| it.dst.region = 0x8000, 3),
        (|it| it.src1.immediate_type = 6, 3),
        (|it| it.src1.high = 1, 3),
        (|_| (), 15),
    ];
    for (change, number) in changes {
        let mut changed = instruction(LINES[0].0);
        change(&mut changed);
        assert_eq!(print_into(&changed, &mut []), Err(number));
        assert_eq!(encode(&changed, &mut []), Err(number));
        // With room the field is refused all the same, and the buffer stays.
        let mut buffer = [0x55; 200];
        if number != 15 {
            assert_eq!(print(&changed), Err(number));
            assert_eq!(print_into(&changed, &mut buffer), Err(number));
            assert_eq!(buffer, [0x55; 200]);
        }
    }
}

/// No line is longer than 108 characters, no encoding than 31 bytes.
#[test]
fn the_longest() {
    let line =
        "(!P4095.all) SVM_SCATTER4_SCALED.RGBA (M8_NM,16) v65535(255,255)<32;16,32> v65535.65535 \
                v65535.65535 {65535}";
    assert_eq!(line.len(), 108);
    let scatter = read(line.as_bytes()).unwrap();
    assert_eq!(print(&scatter), Ok(line.to_string()));
    assert_eq!(print_into(&scatter, &mut [0; 108]), Ok(108));
    assert_eq!(print_into(&scatter, &mut [0; 107]), Err(15));
    assert_eq!(read(format!("{line} ").as_bytes()), Err(109));
    let line = "SHL (M1,1) v0(0,0)<0> 0x0:uq 0x0:uq".as_bytes();
    assert_eq!(read_into(line, &mut [0; 31]), Ok(31));
    assert_eq!(read_into(line, &mut [0; 30]), Err(Refusal::ShortBuffer));
}
