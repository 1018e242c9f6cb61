//! Lines of lower-case hex, which case files and answers are made of.

/// The bytes of a line, or what is wrong with it.
pub fn bytes(line: &[u8]) -> Result<Vec<u8>, String> {
    if line.is_empty() {
        return Err("empty".to_string());
    }
    if let Some(place) = line.iter().position(|&byte| digit(byte).is_none()) {
        let what = match line[place] {
            b'\r' => "a carriage return",
            b' ' => "a space",
            b'A'..=b'F' => "an upper-case digit",
            _ => "no hex digit",
        };
        return Err(format!("character {} is {what}", place + 1));
    }
    if !line.len().is_multiple_of(2) {
        return Err(format!("{} digits, an odd number", line.len()));
    }
    let pairs = line.chunks_exact(2);
    Ok(pairs
        .filter_map(|pair| Some(16 * digit(pair[0])? + digit(pair[1])?))
        .collect())
}

fn digit(character: u8) -> Option<u8> {
    match character {
        b'0'..=b'9' => Some(character - b'0'),
        b'a'..=b'f' => Some(character - b'a' + 10),
        _ => None,
    }
}

/// Bytes as hex, in their order.
pub fn text(bytes: &[u8]) -> String {
    bytes.iter().map(|byte| format!("{byte:02x}")).collect()
}

/// The number that little-endian bytes spell, of eight at most.
pub fn number(bytes: &[u8]) -> u64 {
    bytes
        .iter()
        .rev()
        .fold(0, |value, &byte| value << 8 | u64::from(byte))
}

#[cfg(test)]
mod tests {
    use super::*;

    #[test]
    fn lines() {
        assert_eq!(bytes(b"0aff"), Ok(vec![10, 255]));
        assert_eq!(bytes(b""), Err("empty".to_string()));
        assert_eq!(bytes(b"0a0"), Err("3 digits, an odd number".to_string()));
        let wrong = |line: &[u8]| bytes(line).unwrap_err();
        assert_eq!(wrong(b"0A"), "character 2 is an upper-case digit");
        assert_eq!(wrong(b"0a\r"), "character 3 is a carriage return");
        assert_eq!(wrong(b"0a 0"), "character 3 is a space");
        assert_eq!(wrong(b"0x"), "character 2 is no hex digit");
    }

    #[test]
    fn numbers() {
        assert_eq!(number(&[]), 0);
        assert_eq!(number(&[0x34, 0x12]), 0x1234);
        assert_eq!(number(&[0xff; 8]), u64::MAX);
        assert_eq!(text(&[0, 0xab]), "00ab");
    }
}
