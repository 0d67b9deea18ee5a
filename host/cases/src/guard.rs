//! Buffers between guard bytes.

/// A buffer with guard bytes on both sides. What a function writes outside the
/// part it was lent is seen afterwards.
pub struct Guarded {
    bytes: Vec<u8>,
}

/// How many guard bytes there are on each side.
const GUARD: usize = 64;

/// The content of a guard byte, different from its neighbours.
const fn guard_byte(index: usize) -> u8 {
    0xa5 ^ index as u8
}

impl Guarded {
    /// A buffer with this content.
    pub fn new(content: &[u8]) -> Self {
        let mut guarded = Self { bytes: Vec::new() };
        guarded.set(content);
        guarded
    }

    /// Gives the buffer this content and its length, and new guard bytes.
    pub fn set(&mut self, content: &[u8]) {
        self.bytes.clear();
        self.bytes.extend((0..GUARD).map(guard_byte));
        self.bytes.extend_from_slice(content);
        self.bytes.extend((0..GUARD).map(guard_byte));
    }

    /// The part that is lent.
    pub fn lent(&self) -> &[u8] {
        &self.bytes[GUARD..self.bytes.len() - GUARD]
    }

    /// The part that is lent, to be written.
    pub fn lent_mut(&mut self) -> &mut [u8] {
        let end = self.bytes.len() - GUARD;
        &mut self.bytes[GUARD..end]
    }

    /// Whether all guard bytes are as they were.
    pub fn is_intact(&self) -> bool {
        let as_set = |bytes: &[u8]| (0..GUARD).all(|i| bytes[i] == guard_byte(i));
        as_set(&self.bytes) && as_set(&self.bytes[self.bytes.len() - GUARD..])
    }
}

#[cfg(test)]
mod tests {
    use super::{Guarded, GUARD};

    #[test]
    fn a_write_outside_the_lent_part_is_seen() {
        for (index, intact) in [
            (GUARD - 1, false),
            (GUARD, true),
            (GUARD + 2, true),
            (GUARD + 3, false),
        ] {
            let mut guarded = Guarded::new(&[1, 2, 3]);
            assert_eq!(guarded.lent(), [1, 2, 3]);
            assert!(guarded.is_intact());
            guarded.bytes[index] ^= 1;
            assert_eq!(guarded.is_intact(), intact);
        }
        let mut empty = Guarded::new(&[]);
        assert!(empty.lent_mut().is_empty() && empty.is_intact());
    }
}
