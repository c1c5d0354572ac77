//! A line as a frame of bytes, read field by field.

/// An answer that a program gives to a line itself.
#[derive(Clone, Copy, Debug, PartialEq, Eq)]
pub enum TurnedDown {
    BeforeFormat = 0x03,
    NoPlace = 0x06,
    BadLine = 0xF0,
    BeyondBuffers = 0xF1,
}

/// The bytes of a line that are not read yet.
pub struct Frame<'a> {
    bytes: &'a [u8],
}

impl<'a> Frame<'a> {
    pub fn new(bytes: &'a [u8]) -> Frame<'a> {
        Frame { bytes }
    }

    pub fn take(&mut self, count: usize) -> Result<&'a [u8], TurnedDown> {
        let (taken, left) = self
            .bytes
            .split_at_checked(count)
            .ok_or(TurnedDown::BadLine)?;
        self.bytes = left;
        Ok(taken)
    }

    /// A number of at most eight bytes.
    pub fn number(&mut self, width: usize) -> Result<u64, TurnedDown> {
        let bytes = self.take(width)?;
        Ok(bytes.iter().fold(0, |n, &byte| n << 8 | u64::from(byte)))
    }

    pub fn byte(&mut self) -> Result<usize, TurnedDown> {
        Ok(self.number(1)? as usize)
    }

    pub fn pair(&mut self) -> Result<usize, TurnedDown> {
        Ok(self.number(2)? as usize)
    }

    pub fn rest(&mut self) -> &'a [u8] {
        std::mem::take(&mut self.bytes)
    }

    /// A frame that goes on behind its last field is a bad one.
    pub fn end(&self) -> Result<(), TurnedDown> {
        if self.bytes.is_empty() {
            Ok(())
        } else {
            Err(TurnedDown::BadLine)
        }
    }
}
