//! The batch framing: many case files, or many outputs, in one stream.
//!
//! Each entry is its length in bytes as a decimal number, one 0x0a, and then that many bytes.

use std::io::{self, BufRead, Write};

/// Write one entry.
pub fn write_entry(stream: &mut impl Write, entry: &[u8]) -> io::Result<()> {
    writeln!(stream, "{}", entry.len())?;
    stream.write_all(entry)
}

/// Read one entry, or nothing at the stream's end.
pub fn read_entry(stream: &mut impl BufRead) -> io::Result<Option<Vec<u8>>> {
    let mut head = String::new();
    if stream.read_line(&mut head)? == 0 {
        return Ok(None);
    }
    let length: usize = head
        .trim_end_matches('\n')
        .parse()
        .map_err(|_| io::Error::new(io::ErrorKind::InvalidData, format!("bad length {head:?}")))?;
    let mut entry = vec![0; length];
    stream.read_exact(&mut entry)?;
    Ok(Some(entry))
}
