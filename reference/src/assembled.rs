//! What the program `assembler` writes for one of its lines: a text in, its encoding in hex out.

use crate::encode::encoding;
use crate::hex::push_hex;
use crate::number::NO_LINE;
use crate::read::read;

/// The encoding in hex, or `! 16 COLUMN`. The line comes in and goes out without its 0x0a.
pub fn assembled(line: &[u8]) -> Vec<String> {
    let answer = match read(line) {
        Ok(instruction) => {
            let bytes = encoding(&instruction).expect("fields that are read are encoded");
            let mut hex = Vec::new();
            push_hex(&mut hex, &bytes);
            String::from_utf8(hex).expect("hex")
        }
        Err(column) => format!("! {NO_LINE} {column}"),
    };
    vec![answer]
}
