//! What is wanted of a case file beside its answer: its variables, its kernel and the size of a register.

use crate::hex;

#[derive(Clone, Copy, Debug, PartialEq, Eq)]
pub enum Type {
    Ud,
    D,
    Uw,
    W,
    Ub,
    B,
    F,
    Uq,
}

impl Type {
    fn of(code: u8) -> Option<Type> {
        Some(match code {
            0x00 => Type::Ud,
            0x01 => Type::D,
            0x02 => Type::Uw,
            0x03 => Type::W,
            0x04 => Type::Ub,
            0x05 => Type::B,
            0x07 => Type::F,
            0x0b => Type::Uq,
            _ => return None,
        })
    }

    pub fn size(self) -> usize {
        match self {
            Type::Ub | Type::B => 1,
            Type::Uw | Type::W => 2,
            Type::Ud | Type::D | Type::F => 4,
            Type::Uq => 8,
        }
    }

    pub fn name(self) -> &'static str {
        match self {
            Type::Ud => "UD",
            Type::D => "D",
            Type::Uw => "UW",
            Type::W => "W",
            Type::Ub => "UB",
            Type::B => "B",
            Type::F => "F",
            Type::Uq => "UQ",
        }
    }

    /// An element's value, decimal and in hex, of F in hex alone.
    pub fn value(self, bytes: &[u8]) -> String {
        let number = hex::number(bytes);
        let digits = format!("0x{number:0width$x}", width = 2 * bytes.len());
        match self {
            Type::F => digits,
            Type::B => format!("{} ({digits})", number as u8 as i8),
            Type::W => format!("{} ({digits})", number as u16 as i16),
            Type::D => format!("{} ({digits})", number as u32 as i32),
            _ => format!("{number} ({digits})"),
        }
    }
}

#[derive(Clone, Copy, Debug, PartialEq, Eq)]
pub struct Variable {
    pub kind: Type,
    pub start: usize,
    pub count: usize,
}

impl Variable {
    pub fn end(&self) -> usize {
        self.start + self.count * self.kind.size()
    }

    /// The element that has a byte of the registers.
    pub fn element_at(&self, byte: usize) -> Option<usize> {
        (self.start..self.end())
            .contains(&byte)
            .then(|| (byte - self.start) / self.kind.size())
    }

    /// The first byte of an element.
    pub fn place(&self, element: usize) -> usize {
        self.start + element * self.kind.size()
    }
}

#[derive(Debug, Default)]
pub struct CaseFile {
    pub variables: Vec<Variable>,
    pub kernel: Vec<u8>,
    pub register_size: usize,
}

impl CaseFile {
    /// Of a file that the bench has read as a case: the lines are good ones. Anything else is told.
    pub fn read(text: &[u8]) -> Result<CaseFile, String> {
        let mut case = CaseFile {
            variables: Vec::new(),
            kernel: Vec::new(),
            register_size: 32,
        };
        let lines = text.strip_suffix(b"\n").unwrap_or(text);
        if text.is_empty() {
            return Ok(case);
        }
        for (index, line) in lines.split(|&byte| byte == b'\n').enumerate() {
            let bad = |wrong: String| format!("line {}: {wrong}", index + 1);
            let frame = hex::bytes(line).map_err(bad)?;
            let content = &frame[1..];
            match frame[0] {
                0x02 => {
                    let &[code, a, b, c, d] = content else {
                        return Err(bad("no variable".to_string()));
                    };
                    let kind = Type::of(code).ok_or_else(|| bad("no type".to_string()))?;
                    case.variables.push(Variable {
                        kind,
                        start: usize::from(u16::from_le_bytes([a, b])),
                        count: usize::from(u16::from_le_bytes([c, d])),
                    });
                }
                0x07 => case.kernel = content.to_vec(),
                0x0b => {
                    let &[size] = content else {
                        return Err(bad("no register size".to_string()));
                    };
                    case.register_size = usize::from(size);
                }
                _ => {}
            }
        }
        Ok(case)
    }
}

#[cfg(test)]
mod tests {
    use super::*;

    #[test]
    fn values_in_their_type() {
        assert_eq!(Type::Ub.value(&[0xff]), "255 (0xff)");
        assert_eq!(Type::B.value(&[0xff]), "-1 (0xff)");
        assert_eq!(Type::Uw.value(&[0, 0x80]), "32768 (0x8000)");
        assert_eq!(Type::W.value(&[0, 0x80]), "-32768 (0x8000)");
        assert_eq!(Type::Ud.value(&[255; 4]), "4294967295 (0xffffffff)");
        assert_eq!(Type::D.value(&[254, 255, 255, 255]), "-2 (0xfffffffe)");
        assert_eq!(Type::F.value(&[0, 0, 0x80, 0x3f]), "0x3f800000");
        assert_eq!(
            Type::Uq.value(&[255; 8]),
            "18446744073709551615 (0xffffffffffffffff)"
        );
    }

    #[test]
    fn a_case() {
        let text = b"0100\n020210000800\n0b40\n0724\n020700000100";
        let case = CaseFile::read(text).unwrap();
        assert_eq!(case.register_size, 64);
        assert_eq!(case.kernel, [0x24]);
        assert_eq!(case.variables.len(), 2);
        let variable = case.variables[0];
        assert_eq!((variable.start, variable.end()), (16, 32));
        assert_eq!(variable.element_at(15), None);
        assert_eq!(variable.element_at(19), Some(1));
        assert_eq!(variable.element_at(32), None);
        assert_eq!(variable.place(1), 18);
    }

    #[test]
    fn no_line_is_a_case() {
        assert!(CaseFile::read(b"").unwrap().variables.is_empty());
        assert!(CaseFile::read(b"0x\n").is_err());
    }
}
