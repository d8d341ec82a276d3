//! Taking a file apart from the front.

/// What is left to be read. Each method answers `None` where too few bytes are
/// left.
pub struct Reader<'a> {
    pub rest: &'a [u8],
}

impl<'a> Reader<'a> {
    pub fn take(&mut self, length: usize) -> Option<&'a [u8]> {
        if self.rest.len() < length {
            return None;
        }
        let (taken, rest) = self.rest.split_at(length);
        self.rest = rest;
        Some(taken)
    }

    /// A number of up to four bytes, low byte first.
    pub fn number(&mut self, bytes: usize) -> Option<u32> {
        let bytes = self.take(bytes)?;
        Some(bytes.iter().rev().fold(0, |number, &byte| number * 256 + byte as u32))
    }

    pub fn byte(&mut self) -> Option<u8> {
        Some(self.take(1)?[0])
    }

    /// A length in so many bytes, and as many bytes as it says.
    pub fn run(&mut self, length_bytes: usize) -> Option<Vec<u8>> {
        let length = self.number(length_bytes)? as usize;
        Some(self.take(length)?.to_vec())
    }
}
