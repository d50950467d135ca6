//! Digests as values: calls that give one, how it is written and read, and a comparison that looks
//! at every word.

use crate::{Refusal, Settings, MOST_DIGEST_WORDS};
use std::error::Error;
use std::fmt;
use std::hint::black_box;
use std::str::FromStr;

/// A digest of 1 to 8 words.
///
/// It is written as `pairing digest` prints it, eight hexadecimal digits for each word and a space
/// between two, and read back from that. In the text to be read any white space may stand between
/// words, before and after them, as at the end of a line; the digits may be capitals.
///
/// ```
/// use pairing_agent::{Digest, Settings};
///
/// let settings = Settings { width: 8, kept: 8, words: 2 };
/// let digest = settings.digest_words(&[3, 7], &[10, 20, 100, 250])?;
/// assert_eq!(digest.to_string(), "000000ac 000000ff");
///
/// let arrived: Digest = "000000ac 000000ff".parse()?;
/// assert!(digest == arrived);
/// assert_eq!(digest.as_ref(), [0xac, 0xff]);
/// # Ok::<(), Box<dyn std::error::Error>>(())
/// ```
///
/// `==` takes the same time for every two digests: all eight places are compared, those that a
/// digest does not use too, and wherever the first difference stands. The compiler is told not to
/// stop earlier, but nothing proves that it obeys. [`digests_match`](crate::digests_match) gives the
/// same answer for digests of one size, and that answer is proved.
#[derive(Clone, Copy)]
pub struct Digest {
    /// 0 from the digest's size on.
    places: [u32; MOST_DIGEST_WORDS],
    /// 1 to 8.
    count: usize,
}

impl Digest {
    /// The digest's words.
    #[must_use]
    pub fn words(&self) -> &[u32] {
        &self.places[..self.count]
    }
}

impl AsRef<[u32]> for Digest {
    fn as_ref(&self) -> &[u32] {
        self.words()
    }
}

/// The digest that these words are, 1 to 8 of them.
impl TryFrom<&[u32]> for Digest {
    type Error = DigestError;

    fn try_from(words: &[u32]) -> Result<Digest, DigestError> {
        let count = words.len();
        let mut places = [0; MOST_DIGEST_WORDS];
        match places.get_mut(..count) {
            Some(used) if count > 0 => used.copy_from_slice(words),
            _ => return Err(DigestError::Count(count)),
        }
        Ok(Digest { places, count })
    }
}

impl PartialEq for Digest {
    fn eq(&self, other: &Digest) -> bool {
        let mut different = (self.count ^ other.count) as u32;
        for (one, two) in self.places.iter().zip(&other.places) {
            // Unseen by the compiler, what is gathered could still change.
            different = black_box(different | (one ^ two));
        }
        different == 0
    }
}

impl Eq for Digest {}

impl fmt::Display for Digest {
    fn fmt(&self, to: &mut fmt::Formatter<'_>) -> fmt::Result {
        let words = self.words().iter().map(|word| format!("{word:08x}"));
        to.pad(&words.collect::<Vec<_>>().join(" "))
    }
}

impl fmt::Debug for Digest {
    fn fmt(&self, to: &mut fmt::Formatter<'_>) -> fmt::Result {
        write!(to, "Digest({self})")
    }
}

impl FromStr for Digest {
    type Err = DigestError;

    fn from_str(text: &str) -> Result<Digest, DigestError> {
        let mut words = vec![];
        for (place, digits) in text.split_whitespace().enumerate() {
            words.push(word(digits).ok_or(DigestError::Word(place + 1))?);
        }
        Digest::try_from(&words[..])
    }
}

/// The word that eight hexadecimal digits are.
fn word(digits: &str) -> Option<u32> {
    let are_digits = digits.bytes().all(|digit| digit.is_ascii_hexdigit());
    match digits.len() {
        8 if are_digits => u32::from_str_radix(digits, 16).ok(),
        _ => None,
    }
}

/// Why a text or a row of words is no [`Digest`].
#[derive(Clone, Copy, Debug, PartialEq, Eq)]
#[non_exhaustive]
pub enum DigestError {
    /// There are no words, or more than 8: so many.
    Count(usize),
    /// This word of the text, the first being 1, is not eight hexadecimal digits.
    Word(usize),
}

impl fmt::Display for DigestError {
    fn fmt(&self, to: &mut fmt::Formatter<'_>) -> fmt::Result {
        match self {
            DigestError::Count(count) => {
                write!(
                    to,
                    "a digest has 1 to {MOST_DIGEST_WORDS} words, not {count}"
                )
            }
            DigestError::Word(place) => {
                write!(to, "word {place} is not eight hexadecimal digits")
            }
        }
    }
}

impl Error for DigestError {}

/// Calls that give the digest as a value.
impl Settings {
    /// The digest of `message` under `key`, as [`digest_words`](crate::digest_words) writes it.
    ///
    /// # Errors
    ///
    /// Those of `digest_words` but for `Tray`: there is always room.
    pub fn digest_words(&self, message: &[u32], key: &[u32]) -> Result<Digest, Refusal> {
        self.given(|places| crate::digest_words(*self, message, key, places))
    }

    /// The digest of the bytes of `message` under `key`, as [`digest_bytes`](crate::digest_bytes)
    /// writes it.
    ///
    /// ```
    /// let settings = pairing_agent::Settings { width: 8, kept: 8, words: 1 };
    /// let key = [7, 9, 200];
    /// // Each message takes as many first words of one key as it needs.
    /// let digest = |message: &[u8]| {
    ///     let needed = settings.key_words(settings.words_of_bytes(message.len()));
    ///     settings.digest_bytes(message, &key[..needed])
    /// };
    /// assert_eq!(digest(&[])?.to_string(), "00000084");
    /// assert!(digest(&[])? != digest(&[0x11])?);
    /// # Ok::<(), pairing_agent::Refusal>(())
    /// ```
    ///
    /// # Errors
    ///
    /// Those of `digest_bytes` but for `Tray`: there is always room.
    pub fn digest_bytes(&self, message: &[u8], key: &[u32]) -> Result<Digest, Refusal> {
        self.given(|places| crate::digest_bytes(*self, message, key, places))
    }

    /// The digest that the call writes. A call that is accepted has 1 to 8 words and leaves the
    /// places beyond them as they were.
    pub(crate) fn given(
        &self,
        call: impl FnOnce(&mut [u32]) -> Result<(), Refusal>,
    ) -> Result<Digest, Refusal> {
        let mut places = [0; MOST_DIGEST_WORDS];
        call(&mut places)?;
        let count = self.words as usize;
        Ok(Digest { places, count })
    }
}
