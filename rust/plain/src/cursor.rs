//! Reading of fields inside a part of the file.

use crate::Refusal;

/// The largest number of bytes in a VLQ.
const NUMBER_BYTES: usize = 4;

/// The largest number of bytes in a GUID.
const GUID_BYTES: usize = 19;

/// A reading place in a part of the file.
///
/// The part ends where `bytes` ends. Places are counted from the file's first byte, so that a
/// refusal can name them.
#[derive(Clone, Copy)]
pub struct Cursor<'a> {
    /// The file, up to the end of the part.
    bytes: &'a [u8],
    /// The place of the next byte to be read.
    pub at: usize,
}

impl<'a> Cursor<'a> {
    /// Starts reading at a place of a part that ends where `bytes` ends.
    pub fn new(bytes: &'a [u8], at: usize) -> Self {
        Cursor { bytes, at }
    }

    /// The place after the part's last byte.
    pub fn end(&self) -> usize {
        self.bytes.len()
    }

    /// The number of bytes from the reading place to the part's end.
    pub fn left(&self) -> usize {
        self.end().saturating_sub(self.at)
    }

    /// The bytes from the reading place to the part's end.
    pub fn rest(&self) -> &'a [u8] {
        self.bytes.get(self.at..).unwrap_or_default()
    }

    /// The same reading place in a part that ends earlier.
    pub fn ending_at(&self, end: usize) -> Self {
        Cursor {
            bytes: &self.bytes[..end],
            at: self.at,
        }
    }

    /// Reads a VLQ: refusal 3 for a missing byte, 4 when the fourth byte does not end it. Needless
    /// bytes 80h may stand first.
    #[inline]
    pub fn number(&mut self) -> Result<u64, Refusal> {
        match self.bytes.get(self.at) {
            Some(&byte) if byte < 0x80 => {
                self.at += 1;
                Ok(u64::from(byte))
            }
            _ => self.long_number(),
        }
    }

    /// Reads a VLQ that isn't a single byte.
    fn long_number(&mut self) -> Result<u64, Refusal> {
        let start = self.at;
        let rest = self.rest();
        let mut value = 0;
        for (count, &byte) in rest.iter().take(NUMBER_BYTES).enumerate() {
            value = value << 7 | u64::from(byte & 0x7F);
            if byte < 0x80 {
                self.at = start + count + 1;
                return Ok(value);
            }
        }
        let number = if rest.len() < NUMBER_BYTES { 3 } else { 4 };
        Err(Refusal::at(number, start))
    }

    /// Moves past a four-byte number: refusal 3 when it is cut.
    pub fn four_bytes(&mut self) -> Result<(), Refusal> {
        self.skip(4)
    }

    /// Moves past a plain GUID of sixteen bytes: refusal 3 when it is cut.
    pub fn sixteen_bytes(&mut self) -> Result<(), Refusal> {
        self.skip(16)
    }

    /// Reads a length and the block it counts, which are one field: refusal 3 or 4 at the length.
    ///
    /// The answer reads the block; the reading place moves past it.
    #[inline]
    pub fn block(&mut self) -> Result<Cursor<'a>, Refusal> {
        let start = self.at;
        let length = self.number()? as usize;
        if length > self.left() {
            return Err(Refusal::at(3, start));
        }
        let block = self.ending_at(self.at + length);
        self.at += length;
        Ok(block)
    }

    /// Moves past a manufacturer: one byte, or three when the first is 0.
    pub fn manufacturer(&mut self) -> Result<(), Refusal> {
        let long = self.bytes.get(self.at) == Some(&0);
        self.skip(if long { 3 } else { 1 })
    }

    /// Moves past a GUID: 1 to 19 bytes, ended by the first below 80h.
    pub fn guid(&mut self) -> Result<(), Refusal> {
        let rest = self.rest();
        match rest.iter().take(GUID_BYTES).position(|&byte| byte < 0x80) {
            Some(last) => {
                self.at += last + 1;
                Ok(())
            }
            None if rest.len() < GUID_BYTES => Err(Refusal::at(3, self.at)),
            None => Err(Refusal::at(4, self.at)),
        }
    }

    /// Refuses with 15 when bytes are left between the last field read and the part's end.
    pub fn finish(&self) -> Result<(), Refusal> {
        if self.left() > 0 {
            return Err(Refusal::at(15, self.at));
        }
        Ok(())
    }

    /// Moves past a field of a known size: refusal 3 when it is cut.
    fn skip(&mut self, count: usize) -> Result<(), Refusal> {
        if count > self.left() {
            return Err(Refusal::at(3, self.at));
        }
        self.at += count;
        Ok(())
    }
}
