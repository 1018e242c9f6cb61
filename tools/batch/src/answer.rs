//! An answer in the bench's output format: the line 40, and the buffers with their marks behind it.

use crate::hex;

/// More bytes than any answer has: registers and memory of 4,096 bytes, in hex, and their marks.
pub const TOO_LONG: u64 = 1 << 16;

/// The line 40.
#[derive(Clone, Copy, Debug, PartialEq, Eq)]
pub struct Head {
    pub number: u8,
    pub completed: u16,
    pub position: u32,
}

impl Head {
    /// 13 and 14: no case was made of the file, and only the line 40 is written.
    pub fn nothing_ran(&self) -> bool {
        matches!(self.number, 13 | 14)
    }

    pub fn hex(&self) -> String {
        let mut bytes = vec![0x40, self.number];
        bytes.extend(self.completed.to_le_bytes());
        bytes.extend(self.position.to_le_bytes());
        hex::text(&bytes)
    }
}

#[derive(Debug, PartialEq, Eq)]
pub struct Answer {
    pub head: Head,
    pub buffers: Option<Buffers>,
}

#[derive(Debug, PartialEq, Eq)]
pub struct Buffers {
    pub registers: Vec<u8>,
    pub base: u64,
    pub memory: Vec<u8>,
    /// A byte each, not 0 where the byte is doubtful.
    pub register_marks: Option<Vec<u8>>,
    pub memory_marks: Option<Vec<u8>>,
}

impl Answer {
    /// Of a card the marks may be missing, the bench writes them.
    pub fn read(text: &[u8], marks_may_be_missing: bool) -> Result<Answer, String> {
        let Some(lines) = text.strip_suffix(b"\n") else {
            return Err(if text.is_empty() {
                "empty".to_string()
            } else {
                let last = text.split(|&byte| byte == b'\n').count();
                format!("cut off: line {last} has no end")
            });
        };
        let mut frames = Vec::new();
        for (index, line) in lines.split(|&byte| byte == b'\n').enumerate() {
            let frame = hex::bytes(line).map_err(|wrong| format!("line {}: {wrong}", index + 1))?;
            frames.push(frame);
        }
        let mut frames = Frames { frames, next: 0 };
        let head = frames.take(0x40).ok_or("line 1: not a line 40")?;
        if head.len() != 7 {
            return Err("line 1: a line 40 has 7 bytes of content".to_string());
        }
        let head = Head {
            number: head[0],
            completed: hex::number(&head[1..3]) as u16,
            position: hex::number(&head[3..7]) as u32,
        };
        if head.nothing_ran() && frames.is_at_end() {
            let buffers = None;
            return Ok(Answer { head, buffers });
        }
        let registers = frames.must_take(0x01)?;
        let mut memory = frames.must_take(0x05)?;
        if memory.len() < 8 {
            return Err(format!("line {}: no base in a line 05", frames.next));
        }
        let base = hex::number(&memory[..8]);
        memory.drain(..8);
        let register_marks = frames.take_marks(0x08, registers.len())?;
        let memory_marks = frames.take_marks(0x0a, memory.len())?;
        if !frames.is_at_end() {
            return Err(format!(
                "line {}: a line {:02x} does not belong there",
                frames.next + 1,
                frames.frames[frames.next][0]
            ));
        }
        if !marks_may_be_missing && (register_marks.is_none() || memory_marks.is_none()) {
            return Err("cut off: the marks are missing".to_string());
        }
        let buffers = Some(Buffers {
            registers,
            base,
            memory,
            register_marks,
            memory_marks,
        });
        Ok(Answer { head, buffers })
    }
}

struct Frames {
    frames: Vec<Vec<u8>>,
    next: usize,
}

impl Frames {
    fn is_at_end(&self) -> bool {
        self.next == self.frames.len()
    }

    /// The content of the next line, if it is of this kind.
    fn take(&mut self, kind: u8) -> Option<Vec<u8>> {
        let frame = self
            .frames
            .get(self.next)
            .filter(|frame| frame[0] == kind)?;
        self.next += 1;
        Some(frame[1..].to_vec())
    }

    fn must_take(&mut self, kind: u8) -> Result<Vec<u8>, String> {
        self.take(kind).ok_or_else(|| {
            if self.is_at_end() {
                format!("cut off: there is no line {kind:02x}")
            } else {
                format!("line {}: not a line {kind:02x}", self.next + 1)
            }
        })
    }

    fn take_marks(&mut self, kind: u8, length: usize) -> Result<Option<Vec<u8>>, String> {
        let marks = self.take(kind);
        match &marks {
            Some(marks) if marks.len() != length => Err(format!(
                "line {}: {} marks for {length} bytes",
                self.next,
                marks.len()
            )),
            _ => Ok(marks),
        }
    }
}

#[cfg(test)]
mod tests {
    use super::*;

    fn wrong(text: &str) -> String {
        Answer::read(text.as_bytes(), true).unwrap_err()
    }

    #[test]
    fn a_whole_answer() {
        let text = b"4005020030000000\n010102\n050010000000000000aabb\n080001\n0a0000\n";
        let answer = Answer::read(text, false).unwrap();
        let head = Head {
            number: 5,
            completed: 2,
            position: 0x30,
        };
        assert_eq!(answer.head, head);
        assert_eq!(head.hex(), "4005020030000000");
        let buffers = answer.buffers.unwrap();
        assert_eq!(buffers.registers, [1, 2]);
        assert_eq!(buffers.base, 0x1000);
        assert_eq!(buffers.memory, [0xaa, 0xbb]);
        assert_eq!(buffers.register_marks, Some(vec![0, 1]));
        assert_eq!(buffers.memory_marks, Some(vec![0, 0]));
    }

    #[test]
    fn marks_may_be_missing() {
        let text = b"4000000000000000\n01\n050000000000000000\n";
        assert!(Answer::read(text, true).is_ok());
        assert!(Answer::read(text, false).is_err());
    }

    #[test]
    fn nothing_ran() {
        let answer = Answer::read(b"400e000002000000\n", false).unwrap();
        assert_eq!((answer.head.number, answer.head.position), (14, 2));
        assert_eq!(answer.buffers, None);
    }

    #[test]
    fn what_is_no_answer() {
        assert_eq!(wrong(""), "empty");
        assert_eq!(wrong("4000"), "cut off: line 1 has no end");
        assert_eq!(wrong("01\n"), "line 1: not a line 40");
        assert_eq!(
            wrong("40000000\n"),
            "line 1: a line 40 has 7 bytes of content"
        );
        let head = "4000000000000000\n";
        assert_eq!(wrong(head), "cut off: there is no line 01");
        assert_eq!(wrong(&format!("{head}05\n")), "line 2: not a line 01");
        assert_eq!(
            wrong(&format!("{head}01\n")),
            "cut off: there is no line 05"
        );
        assert_eq!(
            wrong(&format!("{head}01\n0500\n")),
            "line 3: no base in a line 05"
        );
        let buffers = format!("{head}0100\n050000000000000000\n");
        assert_eq!(
            wrong(&format!("{buffers}08\n")),
            "line 4: 0 marks for 1 bytes"
        );
        assert_eq!(
            wrong(&format!("{buffers}01\n")),
            "line 4: a line 01 does not belong there"
        );
        assert_eq!(wrong(&format!("{buffers}08")), "cut off: line 4 has no end");
        assert_eq!(wrong(&format!("{buffers}\n")), "line 4: empty");
    }
}
