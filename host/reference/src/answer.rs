//! Answers and their form as one number.

/// The answer of a function. Number 0 is done; every other number is a refusal.
#[derive(Clone, Copy, Debug, PartialEq, Eq)]
pub struct Answer {
    /// The answer number, 0 to 21.
    pub number: u8,
    /// The resource or device the answer is about, 0 where there is none.
    pub place: u64,
    /// The number of calls planned, or of bytes that [`crate::write`] or
    /// [`crate::describe`] wrote.
    pub count: u16,
}

impl Answer {
    /// Done, with `count` calls planned or bytes written.
    pub const fn done(count: u16) -> Self {
        Self {
            number: 0,
            place: 0,
            count,
        }
    }

    /// A refusal. It has no calls, and no bytes were written.
    pub const fn refused(number: u8, place: u64) -> Self {
        Self {
            number,
            place,
            count: 0,
        }
    }

    /// Whether nothing was refused.
    pub const fn is_done(self) -> bool {
        self.number == 0
    }

    /// The answer as the C functions give it: number in bits 0 to 7, count in
    /// bits 8 to 23, place in bits 24 to 63. A place has at most 40 bits.
    pub const fn pack(self) -> u64 {
        self.number as u64 | (self.count as u64) << 8 | self.place << 24
    }

    /// The answer read from the number a C function gave.
    pub const fn unpack(packed: u64) -> Self {
        Self {
            number: packed as u8,
            count: (packed >> 8) as u16,
            place: packed >> 24,
        }
    }
}

#[cfg(test)]
mod tests {
    use super::Answer;

    #[test]
    fn fields_have_their_bits() {
        let answer = Answer {
            number: 0x0e,
            place: 0x12_3456_789a,
            count: 0xbcde,
        };
        assert_eq!(answer.pack(), 0x1234_5678_9abc_de0e);
        assert_eq!(Answer::unpack(answer.pack()), answer);
        assert_eq!(Answer::done(33).pack(), 33 << 8);
        assert_eq!(Answer::refused(14, 1).pack(), 14 | 1 << 24);
    }
}
