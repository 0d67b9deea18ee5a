//! The resources of a table, and sets of them.

use crate::answer::Answer;

/// Resource records that were found good.
#[derive(Clone, Copy)]
pub struct Resources<'a>(&'a [[u8; 4]]);

impl<'a> Resources<'a> {
    /// Reads resource records, at most 64, or refuses the lowest that has a bad field
    /// with 4.
    pub(crate) fn read(records: &'a [[u8; 4]]) -> Result<Self, Answer> {
        for (r, record) in records.iter().enumerate() {
            if record[0] > 4 || record[1] != 0 {
                return Err(Answer::refused(4, r as u64));
            }
        }
        Ok(Self(records))
    }

    /// All records.
    pub(crate) fn bytes(self) -> &'a [u8] {
        self.0.as_flattened()
    }

    /// How many there are, R.
    pub fn count(self) -> usize {
        self.0.len()
    }

    /// The set of all.
    pub fn all(self) -> u64 {
        match self.0.len() {
            0 => 0,
            count => u64::MAX >> (64 - count),
        }
    }

    /// The deepest sleep state in which resource `r` can be on.
    pub fn system_level(self, r: usize) -> u8 {
        self.0[r][0]
    }

    /// The order of resource `r`: lower is switched on earlier and off later.
    pub fn order(self, r: usize) -> u16 {
        let [_, _, low, high] = self.0[r];
        u16::from_le_bytes([low, high])
    }
}

/// The resource numbers in a set, rising.
pub fn numbers(mut set: u64) -> impl Iterator<Item = usize> {
    std::iter::from_fn(move || {
        let r = set.trailing_zeros() as usize;
        set &= set.wrapping_sub(1);
        (r < 64).then_some(r)
    })
}
