//! "A cursor steps through the kernel field by field"; "numbers are little-endian".

use crate::number::BYTES_END;

pub struct Cursor<'a> {
    kernel: &'a [u8],
    position: usize,
}

impl<'a> Cursor<'a> {
    pub fn new(kernel: &'a [u8], position: usize) -> Cursor<'a> {
        Cursor { kernel, position }
    }

    pub fn position(&self) -> usize {
        self.position
    }

    /// The next `count` bytes as one number; "1 for a field not whole".
    fn number(&mut self, count: usize) -> Result<u32, u8> {
        let mut value: u32 = 0;
        for k in 0..count {
            match self.kernel.get(self.position + k) {
                Some(byte) => value += u32::from(*byte) << (8 * k),
                None => return Err(BYTES_END),
            }
        }
        self.position += count;
        Ok(value)
    }

    pub fn ub(&mut self) -> Result<u8, u8> {
        Ok(self.number(1)? as u8)
    }

    pub fn uw(&mut self) -> Result<u16, u8> {
        Ok(self.number(2)? as u16)
    }

    pub fn ud(&mut self) -> Result<u32, u8> {
        self.number(4)
    }
}
