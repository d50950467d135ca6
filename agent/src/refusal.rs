//! Why the library refused a call.

use std::error::Error;
use std::fmt;

/// Why the library refused a call. The call has changed no row.
///
/// The library's tests run in the order in which the variants stand here, and the first that holds
/// is the answer. A call makes the tests of what it is given.
#[derive(Clone, Copy, Debug, PartialEq, Eq, Hash)]
#[non_exhaustive]
#[repr(u32)]
// begin: made by tools/answers.py from answers.toml
pub enum Refusal {
    /// The row of a state does not have exactly its words, 21 for a stream and 12 for an
    /// incremental digest, or it holds a number outside its range, or something in a place not in
    /// use. The state of a generator, which only calls from Rattle take, has a position above 624.
    /// No command takes a state.
    State = 8,
    /// The width w is not 1 to 32; for bytes, not 8, 16 or 32.
    Width = 1,
    /// The code's digits d are 0, or 10^d is more than 2^w: widths 30 to 32 take up to 9 digits,
    /// widths 1 to 3 none.
    Digits = 9,
    /// The seed array has no words, or more than 8.
    Seed = 11,
    /// The kept bits b are 0, or more than the width w.
    Kept = 2,
    /// The digest words n are not 1 to 8.
    Count = 3,
    /// The peers p are not 1 to 16.
    Peers = 10,
    /// The message, or the message row of a load, has more than 65,536 words, for bytes counted
    /// with the closing byte 0x80, in a stream with the words taken before; or a stretch, or the
    /// key row of a load, has more than 65,544. In an edit: the message does not have exactly as
    /// many words as the state counts.
    Long = 4,
    /// The key does not have exactly n words more than the message, for bytes counted with the
    /// closing byte 0x80; for a code, not one word more; for p peers, the keys do not have p times
    /// as many words together. In a stream: the opening key does not have n words, or a push has
    /// more words of one kind than of the other.
    Key = 5,
    /// The place of an edit is not one of the message's words: counted from 0 it is their number or
    /// more.
    Place = 12,
    /// The output has fewer places than the call writes: n, for a code (d+1)/2 bytes rounded down,
    /// for p peers p times n, for an opened stream or incremental digest the 21 or 12 words of its
    /// state. In a match: a row does not have exactly n words.
    Tray = 6,
    /// A word of the message, or of any key, has more than w bits: it is 2^w or more. An edit looks
    /// at the word at the place, the new word and the n + 1 key words under them alone.
    Word = 7,
}

impl Refusal {
    /// Every refusal, in the order of the tests.
    pub const ALL: [Refusal; 12] = [
        Refusal::State,
        Refusal::Width,
        Refusal::Digits,
        Refusal::Seed,
        Refusal::Kept,
        Refusal::Count,
        Refusal::Peers,
        Refusal::Long,
        Refusal::Key,
        Refusal::Place,
        Refusal::Tray,
        Refusal::Word,
    ];

    /// What is wrong, in a few words. The refusal's own text is this and what to do.
    const fn fault(self) -> &'static str {
        match self {
            Refusal::State => "damaged state",
            Refusal::Width => "wrong width",
            Refusal::Digits => "wrong code size",
            Refusal::Seed => "wrong seed size",
            Refusal::Kept => "wrong kept bits",
            Refusal::Count => "wrong digest size",
            Refusal::Peers => "wrong number of peers",
            Refusal::Long => "too long",
            Refusal::Key => "wrong lengths",
            Refusal::Place => "no such place",
            Refusal::Tray => "wrong lengths",
            Refusal::Word => "word too large",
        }
    }

    /// What to do when the library gives it, the first thing first.
    #[must_use]
    pub const fn what_to_do(self) -> &'static str {
        match self {
            Refusal::State => {
                "hand in the whole row that the last accepted call left; where it is lost, open a \
                 new one and start over"
            }
            Refusal::Width => "set words of 1 to 32 bits, or of 8, 16 or 32 bits to digest bytes",
            Refusal::Digits => {
                "ask for 1 to 9 digits, fewer at a width below 30, or set a larger width"
            }
            Refusal::Seed => "give an array of 1 to 8 seed words",
            Refusal::Kept => "keep at least 1 bit and no more than the width",
            Refusal::Count => "ask for 1 to 8 digest words",
            Refusal::Peers => "pair 1 to 16 peers at a time",
            Refusal::Long => "shorten the message, or the row to stretch or load into",
            Refusal::Key => {
                "give a key that goes with the message; check the word count and pair again"
            }
            Refusal::Place => "count the message's words from 0, and name the place of one of them",
            Refusal::Tray => {
                "lend an output with room for the whole digest, code or state, and match rows of \
                 exactly the digest's size; check the word count and pair again"
            }
            Refusal::Word => "check that both ends use one width, and pair again",
        }
    }

    /// When the library gives it, in sentences.
    #[must_use]
    pub const fn given_when(self) -> &'static str {
        match self {
            Refusal::State => {
                "The row of a state does not have exactly its words, 21 for a stream and 12 for an \
                 incremental digest, or it holds a number outside its range, or something in a \
                 place not in use. The state of a generator, which only calls from Rattle take, \
                 has a position above 624. No command takes a state."
            }
            Refusal::Width => "The width w is not 1 to 32; for bytes, not 8, 16 or 32.",
            Refusal::Digits => {
                "The code's digits d are 0, or 10^d is more than 2^w: widths 30 to 32 take up to 9 \
                 digits, widths 1 to 3 none."
            }
            Refusal::Seed => "The seed array has no words, or more than 8.",
            Refusal::Kept => "The kept bits b are 0, or more than the width w.",
            Refusal::Count => "The digest words n are not 1 to 8.",
            Refusal::Peers => "The peers p are not 1 to 16.",
            Refusal::Long => {
                "The message, or the message row of a load, has more than 65,536 words, for bytes \
                 counted with the closing byte 0x80, in a stream with the words taken before; or a \
                 stretch, or the key row of a load, has more than 65,544. In an edit: the message \
                 does not have exactly as many words as the state counts."
            }
            Refusal::Key => {
                "The key does not have exactly n words more than the message, for bytes counted \
                 with the closing byte 0x80; for a code, not one word more; for p peers, the keys \
                 do not have p times as many words together. In a stream: the opening key does not \
                 have n words, or a push has more words of one kind than of the other."
            }
            Refusal::Place => {
                "The place of an edit is not one of the message's words: counted from 0 it is \
                 their number or more."
            }
            Refusal::Tray => {
                "The output has fewer places than the call writes: n, for a code (d+1)/2 bytes \
                 rounded down, for p peers p times n, for an opened stream or incremental digest \
                 the 21 or 12 words of its state. In a match: a row does not have exactly n words."
            }
            Refusal::Word => {
                "A word of the message, or of any key, has more than w bits: it is 2^w or more. An \
                 edit looks at the word at the place, the new word and the n + 1 key words under \
                 them alone."
            }
        }
    }
}
// end: made by tools/answers.py from answers.toml

impl Refusal {
    /// The number that the library answers for this refusal.
    #[must_use]
    pub const fn number(self) -> u32 {
        self as u32
    }

    /// The refusal of that number, if there is one.
    #[must_use]
    pub fn from_number(number: u32) -> Option<Refusal> {
        Refusal::ALL
            .into_iter()
            .find(|refusal| refusal.number() == number)
    }
}

impl fmt::Display for Refusal {
    fn fmt(&self, to: &mut fmt::Formatter<'_>) -> fmt::Result {
        write!(to, "{}: {}", self.fault(), self.what_to_do())
    }
}

impl Error for Refusal {}

#[cfg(test)]
mod tests {
    use super::Refusal;

    #[test]
    fn numbers_and_refusals_go_together() {
        let mut numbers = Refusal::ALL.map(Refusal::number);
        numbers.sort_unstable();
        let last = Refusal::ALL.len() as u32;
        assert!(numbers.into_iter().eq(1..=last), "{numbers:?}");
        for refusal in Refusal::ALL {
            assert_eq!(Refusal::from_number(refusal.number()), Some(refusal));
        }
        for number in [0, last + 1, 99, 100, 101, 256 + 1, u32::MAX] {
            assert_eq!(Refusal::from_number(number), None);
        }
    }

    #[test]
    fn every_text_is_its_own() {
        for one in Refusal::ALL {
            assert!(!one.to_string().is_empty());
            assert!(one.given_when().ends_with('.'));
            for other in Refusal::ALL {
                assert_eq!(one.to_string() == other.to_string(), one == other);
                assert_eq!(one.given_when() == other.given_when(), one == other);
            }
        }
    }

    #[test]
    fn wrong_lengths_say_what_to_do() {
        for refusal in [Refusal::Key, Refusal::Tray] {
            let text = refusal.to_string();
            assert!(text.starts_with("wrong lengths"), "{text}");
            assert!(
                text.ends_with("check the word count and pair again"),
                "{text}"
            );
        }
    }
}
