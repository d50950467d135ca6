//! A digest of a message that is edited.

use crate::{ffi, written, Digest, Refusal, Settings};
use std::fmt;

/// How many words an incremental digest's state has.
pub const INCREMENTAL_WORDS: usize = 12;

/// An incremental digest: it follows a message of words while single words of it are replaced, and
/// does not digest the whole again.
///
/// ```
/// use pairing_agent::{Incremental, Settings};
///
/// let settings = Settings { width: 8, kept: 8, words: 2 };
/// let (mut message, key) = ([3, 7], [10, 20, 100, 250]);
/// let mut digest = Incremental::open(&settings, &message, &key)?;
/// assert_eq!(digest.read()?.words(), [0xac, 0xff]);
/// // The word at place 0 becomes 4: in the message, and in the digest.
/// digest.edit(&mut message, &key, 0, 4)?;
/// assert_eq!(message, [4, 7]);
/// assert!(digest.read()? == settings.digest_words(&message, &key)?);
/// # Ok::<(), pairing_agent::Refusal>(())
/// ```
///
/// It holds neither message nor key. Its reading is the digest of the message as it is as long as
/// each edit has the key of the opening and nothing else writes the message: a word that is changed
/// in any other way is not seen. A call that is refused changes nothing.
///
/// A label that is edited under a key is not fixed before it, as the rule asks that makes a pairing
/// safe: a pairing takes another key, drawn after the last edit.
///
/// # Its state
///
/// An incremental digest is its state, a row of [`INCREMENTAL_WORDS`] words, which can be kept and
/// restored:
///
/// ```
/// # use pairing_agent::{Incremental, Refusal, Settings};
/// # let settings = Settings { width: 8, kept: 8, words: 2 };
/// # let (mut message, key) = ([3, 7], [10, 20, 100, 250]);
/// # let mut digest = Incremental::open(&settings, &message, &key)?;
/// // The message belongs to it, so both are kept.
/// let (kept, mut kept_message) = (*digest.as_words(), message);
/// digest.edit(&mut message, &key, 0, 4)?;
/// let mut restored = Incremental::from_words(kept);
/// restored.edit(&mut kept_message, &key, 0, 4)?;
/// assert!(restored == digest);
///
/// // Any words can be restored. The library tests them in every call.
/// let none = Incremental::from_words([0; 12]);
/// assert_eq!(none.read(), Err(Refusal::State));
/// # Ok::<(), Refusal>(())
/// ```
///
/// The state holds no key words. Its sums have every bit, of which a reading shows those that are
/// kept, and `{:?}` shows the settings and the count of message words, and nothing else. `==`
/// compares every word of two states: equal ones are answered alike. Unlike that of digests it may
/// stop at a difference.
#[derive(Clone, PartialEq, Eq)]
pub struct Incremental {
    words: [u32; INCREMENTAL_WORDS],
}

impl Incremental {
    /// The digest of `message` under `key`, which has [`Settings::key_words`] words.
    ///
    /// # Errors
    ///
    /// `Width`, `Kept`, `Count`, `Long`, `Key` or `Word`, as the library's tests find.
    pub fn open(settings: &Settings, message: &[u32], key: &[u32]) -> Result<Incremental, Refusal> {
        let mut words = [0; INCREMENTAL_WORDS];
        written(ffi::incremental_open(*settings, message, key, &mut words))?;
        Ok(Incremental { words })
    }

    /// Puts `word` at that place of the message, counted from 0, and corrects the digest by what
    /// the new word gives and the old one gave. No other word of the message is written.
    ///
    /// # Errors
    ///
    /// `State`; `Long` where the message does not have exactly [`Incremental::message_words`] words;
    /// `Key`; `Place` where the place is not below them; `Word` for the word at the place, the new
    /// one, or one of the key words under them, which are those from the place on, one more than
    /// the digest has words. No other word is looked at. Digest and message are then as they were.
    pub fn edit(
        &mut self,
        message: &mut [u32],
        key: &[u32],
        place: usize,
        word: u32,
    ) -> Result<(), Refusal> {
        written(ffi::incremental_edit(
            &mut self.words,
            message,
            key,
            place,
            word,
        ))
    }

    /// The digest of the message as the last edit left it.
    ///
    /// # Errors
    ///
    /// `State`, which no digest gives that was opened, but one made of any words can.
    pub fn read(&self) -> Result<Digest, Refusal> {
        self.settings().given(|places| self.read_into(places))
    }

    /// Writes the digest of the message as the last edit left it into the first places of `out`,
    /// one for each digest word. Places of `out` beyond the digest keep what they held.
    ///
    /// # Errors
    ///
    /// `State` as for [`Incremental::read`], or `Tray`; `out` then holds what it held.
    pub fn read_into(&self, out: &mut [u32]) -> Result<(), Refusal> {
        written(ffi::incremental_read(&self.words, out))
    }

    /// What it was opened with, as the state has it.
    #[must_use]
    pub fn settings(&self) -> Settings {
        let [width, kept, words, ..] = self.words;
        Settings { width, kept, words }
    }

    /// How many words its message has, as the state has it.
    #[must_use]
    pub fn message_words(&self) -> usize {
        self.words[3] as usize
    }

    /// The state's words, counted from 0: the width, the kept bits, the digest words and the
    /// message's words; from 4 on the full-width sums, in eight places. What is not in use is 0.
    #[must_use]
    pub fn as_words(&self) -> &[u32; INCREMENTAL_WORDS] {
        &self.words
    }

    /// The incremental digest of this state. Any words are taken, and nothing is tested here: where
    /// they are no fit state, every call answers `State`. Where they are one that no opening and no
    /// edit left, a reading is what they hold as sums, with the kept bits, and an edit corrects
    /// those.
    #[must_use]
    pub fn from_words(words: [u32; INCREMENTAL_WORDS]) -> Incremental {
        Incremental { words }
    }
}

impl fmt::Debug for Incremental {
    fn fmt(&self, to: &mut fmt::Formatter<'_>) -> fmt::Result {
        to.debug_struct("Incremental")
            .field("settings", &self.settings())
            .field("message_words", &self.message_words())
            .finish_non_exhaustive()
    }
}
