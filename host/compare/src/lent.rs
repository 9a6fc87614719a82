//! Memory lent to a call, with some around it that is not.

use std::hint::black_box;

/// The bytes on each side that the call has no business with.
const MARGIN: usize = 64;
const FILL: u8 = 0xa5;

/// Bytes to lend, between margins.
pub struct Lent {
    memory: Vec<u8>,
    start: usize,
    length: usize,
}

impl Lent {
    /// A copy of the bytes. The place says at which of sixteen alignments, about,
    /// the copy begins.
    pub fn new(bytes: &[u8], place: u64) -> Lent {
        let start = MARGIN + (place % 16) as usize;
        let mut memory = vec![FILL; start];
        memory.reserve_exact(bytes.len() + MARGIN);
        memory.extend_from_slice(bytes);
        memory.resize(start + bytes.len() + MARGIN, FILL);
        Lent {
            memory,
            start,
            length: bytes.len(),
        }
    }

    pub fn bytes(&self) -> &[u8] {
        &self.memory[self.start..self.start + self.length]
    }

    pub fn bytes_mut(&mut self) -> &mut [u8] {
        &mut self.memory[self.start..self.start + self.length]
    }

    /// Whether the lent bytes are these now, and those around them untouched.
    pub fn is(&self, bytes: &[u8]) -> bool {
        // The compiler may not take for granted that a call left them alone.
        let memory: &[u8] = black_box(&self.memory);
        let (before, rest) = memory.split_at(self.start);
        let (lent, after) = rest.split_at(self.length);
        lent == bytes && before.iter().chain(after).all(|&byte| byte == FILL)
    }
}

#[cfg(test)]
mod tests {
    use super::*;

    #[test]
    fn bytes_lent_and_bytes_around_them_are_looked_at() {
        for place in 0..16 {
            let lent = Lent::new(&[1, 2, 3], place);
            assert!(lent.is(&[1, 2, 3]));
            assert!(!lent.is(&[1, 2]));
            assert!(!lent.is(&[1, 2, 4]));
            for at in 0..lent.memory.len() {
                let mut lent = Lent::new(&[1, 2, 3], place);
                lent.memory[at] ^= 1;
                assert!(!lent.is(&[1, 2, 3]), "byte {at}");
            }
        }
    }
}
