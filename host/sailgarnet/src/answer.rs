//! Answers, and a sentence for each number.

use std::fmt;

/// The answer of a function. Number 0 is done; every other number is a refusal.
#[derive(Clone, Copy, Debug, PartialEq, Eq, Hash)]
pub struct Answer {
    /// The answer number.
    pub number: u8,
    /// The number of the resource or device the answer is about, 0 where there
    /// is none.
    pub place: u64,
    /// The number of calls planned, or of bytes that `write` or `describe` wrote.
    /// It is 0 for a refusal and for every other function.
    pub count: u16,
}

impl Answer {
    /// The answer read from the number a C function gave: number in bits 0 to
    /// 7, count in bits 8 to 23, place in bits 24 to 63.
    #[inline]
    pub const fn unpack(packed: u64) -> Self {
        Self {
            number: packed as u8,
            count: (packed >> 8) as u16,
            place: packed >> 24,
        }
    }

    /// The answer as a C function gives it. A place has at most 40 bits.
    #[inline]
    pub const fn pack(self) -> u64 {
        self.number as u64 | (self.count as u64) << 8 | self.place << 24
    }

    /// Whether nothing was refused.
    pub const fn is_done(self) -> bool {
        self.number == 0
    }

    /// The length of the plan in bytes.
    pub const fn plan_length(self) -> usize {
        4 * self.count as usize
    }

    /// How many bytes `write` or `describe` wrote; of the latter, in both lists.
    pub const fn bytes_written(self) -> usize {
        self.count as usize
    }

    /// What the number means, `None` for a number that has no meaning.
    pub const fn verdict(self) -> Option<Verdict> {
        Verdict::from_number(self.number)
    }
}

impl fmt::Display for Answer {
    /// One sentence with the number and the place.
    fn fmt(&self, f: &mut fmt::Formatter) -> fmt::Result {
        let Self { number, place, .. } = self;
        let (noun, sentence) = match self.verdict() {
            Some(verdict) => (verdict.place().noun(), verdict.sentence()),
            None => (Place::Nothing.noun(), "an unknown answer."),
        };
        write!(f, "answer {number}, {noun} {place}: {sentence}")
    }
}

/// What the place of an answer counts.
#[derive(Clone, Copy, Debug, PartialEq, Eq, Hash)]
pub enum Place {
    /// The place is 0 and has no meaning.
    Nothing,
    /// The place is a resource number.
    Resource,
    /// The place is a device number.
    Device,
}

impl Place {
    /// What stands before the number of the place in a text.
    const fn noun(self) -> &'static str {
        match self {
            Place::Nothing => "place",
            Place::Resource => "resource",
            Place::Device => "device",
        }
    }
}

/// Makes [`Verdict`] of a table: the number of an answer, its name, what its place
/// counts, and its sentence.
macro_rules! verdicts {
    ($($number:literal $name:ident $place:ident $sentence:literal;)*) => {
        /// The meaning of an answer number. The names of refusals are those of `Reason`
        /// in the proved planner and of the C header.
        #[derive(Clone, Copy, Debug, PartialEq, Eq, Hash)]
        #[repr(u8)]
        pub enum Verdict {
            $(
                #[doc = concat!("Answer ", $number, ": ", $sentence)]
                $name = $number,
            )*
        }

        impl Verdict {
            /// Every verdict, by number.
            pub const ALL: [Verdict; 22] = [$(Verdict::$name),*];

            /// What the place of this answer counts.
            pub const fn place(self) -> Place {
                match self {
                    $(Verdict::$name => Place::$place,)*
                }
            }

            /// The meaning in one sentence. "This resource" and "this device" are the
            /// ones at the place of the answer.
            pub const fn sentence(self) -> &'static str {
                match self {
                    $(Verdict::$name => $sentence,)*
                }
            }
        }
    };
}

verdicts! {
    0 Done Nothing "done.";
    1 NotATable Nothing
        "the table is shorter than 8 bytes, its mark, its version or its byte 7 is wrong, or the \
         version to write is neither 1 nor 2.";
    2 TooMany Nothing
        "the table has more resources or more devices than its version allows: 32 of each in \
         version 1, 64 in version 2.";
    3 WrongLength Nothing
        "the table is not 8 bytes, 4 a resource and, in version 1, 40 a device long, in version 2 \
         64 a device.";
    4 BadResource Resource
        "the record of this resource has a system level above 4, its byte 1 is not zero, or it is \
         cut short.";
    5 BadDevice Device
        "the record of this device has a field with a value that is not allowed, or it is cut \
         short.";
    6 BadObjects Device
        "the objects of this device break a rule: any _PS needs _PS0 and _PS3, any _PR needs _PR0, \
         with both kinds _PS1 is there exactly if _PR1 is and _PS2 exactly if _PR2 is, and _DSW \
         needs _PRW.";
    7 BadState Nothing
        "the state is not 132 bytes long, with a table of version 2 not 264, or a value in it is \
         not allowed.";
    8 Inconsistent Device
        "the state is not consistent: this device is in a state it does not have, is shallower \
         than its parent, is armed for a wake pair that is not legal or shallower than its own \
         state, or, except at bring-up, needs a resource that is off.";
    9 NoRoom Nothing
        "a buffer is too short for what is to be written: for 33 calls, of sleep entry for 1056, \
         with a table of version 2 for 65 and 4160, however few are made, or for the whole table \
         or list of records.";
    10 BadRequest Nothing
        "the kind, the device or a number of the request is out of range, or an unused number is \
         not zero.";
    11 Unsupported Nothing "the device does not have the state asked for.";
    12 Shallower Nothing
        "the state asked for is shallower than the present one and is not D0; a device first goes \
         to D0.";
    13 ParentDeeper Device
        "this device is the parent and is in a deeper state than the one asked for.";
    14 ChildShallower Device
        "this device is a child and is in a shallower state than the one asked for.";
    15 TooDeepToWake Nothing
        "the device is armed, and the state asked for is deeper than its wake state.";
    16 NoWake Nothing
        "the device has no _PRW, or the sleep state is deeper than its _PRW allows.";
    17 WakeUnpowered Nothing
        "a resource of _PRW has a system level below the sleep state, so it is off there.";
    18 BadWakeState Nothing
        "the device cannot wake the system from that device state: it does not have it, the state \
         is outside the range for the sleep state, or it is shallower than the present state.";
    19 NotConforming Nothing
        "the list does not conform: it does not have exactly the calls that are due, each once \
         and in order.";
    20 ArmedForOther Device "this device is armed, and not for the sleep state asked for.";
    21 NoChoice Nothing
        "there are no states for all devices in that sleep state: each must support its state, be \
         at least as deep as now, as its _SxD and as its parent, need no resource that cannot be \
         on there, and if armed be in its wake state.";
}

impl Verdict {
    /// The verdict with this number.
    pub const fn from_number(number: u8) -> Option<Self> {
        if (number as usize) < Self::ALL.len() {
            Some(Self::ALL[number as usize])
        } else {
            None
        }
    }

    /// The answer number.
    pub const fn number(self) -> u8 {
        self as u8
    }
}

#[cfg(test)]
mod tests {
    use super::{Answer, Place, Verdict};

    #[test]
    fn numbers_and_verdicts_go_both_ways() {
        for (number, verdict) in Verdict::ALL.into_iter().enumerate() {
            assert_eq!(usize::from(verdict.number()), number);
            assert_eq!(Verdict::from_number(number as u8), Some(verdict));
        }
        for number in 22..=255 {
            assert_eq!(Verdict::from_number(number), None);
        }
    }

    /// A name in capitals, as the C header writes it.
    fn capitals(name: &str) -> String {
        let mut text = String::from("SAILGARNET");
        for letter in name.chars() {
            if letter.is_uppercase() {
                text.push('_');
            }
            text.extend(letter.to_uppercase());
        }
        text
    }

    /// The lines of a file from the one after `first` to the next with a brace.
    fn block<'a>(file: &'a str, first: &str) -> impl Iterator<Item = &'a str> {
        let (_, rest) = file.split_once(first).expect("the block");
        rest.lines()
            .skip(1)
            .map(str::trim)
            .take_while(|line| !line.starts_with('}'))
            .filter(|line| !line.starts_with("//"))
    }

    #[test]
    fn the_c_header_has_these_names_and_numbers() {
        let header = include_str!("../../../include/sailgarnet.h");
        let found: Vec<String> = block(header, "enum sailgarnet_number")
            .map(|line| line.split(['/', ',']).next().unwrap_or(line).trim().into())
            .collect();
        let expected = Verdict::ALL.map(|verdict| {
            let name = capitals(&format!("{verdict:?}"));
            format!("{name} = {}", verdict.number())
        });
        assert_eq!(found, expected);
    }

    #[test]
    fn the_rules_have_these_names_in_this_order() {
        let rules = include_str!("../../../crates/rules/src/lib.rt");
        let found: Vec<String> = block(rules, "pub enum Reason")
            .map(|line| line.trim_end_matches(',').into())
            .collect();
        // the first has its number beside it, from which the others count
        let found: Vec<String> = found
            .iter()
            .map(|name| name.trim_end_matches(" = 1").into())
            .collect();
        let expected: Vec<String> = Verdict::ALL[1..]
            .iter()
            .map(|verdict| format!("{verdict:?}"))
            .collect();
        assert_eq!(found, expected);
    }

    #[test]
    fn each_number_has_one_sentence_of_its_own() {
        let mut sentences: Vec<&str> = Verdict::ALL.map(Verdict::sentence).to_vec();
        for sentence in &sentences {
            assert_eq!(sentence.find('.'), Some(sentence.len() - 1), "{sentence}");
        }
        sentences.sort_unstable();
        sentences.dedup();
        assert_eq!(sentences.len(), Verdict::ALL.len());
    }

    #[test]
    fn places_are_named() {
        let text = |number| {
            let place = if Verdict::ALL[usize::from(number)].place() == Place::Nothing {
                0
            } else {
                7
            };
            let answer = Answer {
                number,
                place,
                count: 0,
            };
            answer.to_string()
        };
        assert!(text(4).starts_with("answer 4, resource 7: the record"));
        for number in [5, 6, 8, 13, 14, 20] {
            assert!(text(number).contains(", device 7: "));
        }
        for number in [0, 1, 2, 3, 7, 9, 10, 11, 12, 15, 16, 17, 18, 19, 21] {
            assert!(text(number).contains(", place 0: "));
        }
        let unknown = Answer {
            number: 22,
            place: 3,
            count: 0,
        };
        assert_eq!(
            unknown.to_string(),
            "answer 22, place 3: an unknown answer."
        );
    }

    #[test]
    fn an_answer_has_its_bits() {
        let answer = Answer {
            number: 0x0e,
            place: 0x12_3456_789a,
            count: 0xbcde,
        };
        assert_eq!(answer.pack(), 0x1234_5678_9abc_de0e);
        assert_eq!(Answer::unpack(answer.pack()), answer);
        assert_eq!(answer.plan_length(), 4 * 0xbcde);
        assert_eq!(answer.bytes_written(), 0xbcde);
    }
}
