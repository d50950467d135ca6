//! A digest of a message that comes in parts.

use crate::{ffi, written, Digest, Refusal, Settings};
use std::fmt;

/// How many words a stream's state has.
pub const STREAM_WORDS: usize = 21;

/// A stream: the digest of a message of words that comes in parts, each with the key words that
/// follow those given before.
///
/// ```
/// use pairing_agent::{Settings, Stream};
///
/// let settings = Settings { width: 8, kept: 8, words: 2 };
/// let (message, key) = ([3, 7], [10, 20, 100, 250]);
/// // It opens with the first key words, one for each digest word.
/// let mut stream = Stream::open(&settings, &key[..2])?;
/// // A part of the message has as many words as its part of the key.
/// stream.push(&message[..1], &key[2..3])?;
/// assert_eq!(stream.read()?.words(), [0x1e, 0x3d]);
/// stream.push(&message[1..], &key[3..])?;
/// assert!(stream.read()? == settings.digest_words(&message, &key)?);
/// # Ok::<(), pairing_agent::Refusal>(())
/// ```
///
/// A reading is the digest of the words taken so far, however they were cut into parts, and the
/// stream can go on after it. A call that is refused changes nothing.
///
/// # Its state
///
/// A stream is its state, a row of [`STREAM_WORDS`] words, which can be kept and restored:
///
/// ```
/// # use pairing_agent::{Refusal, Settings, Stream};
/// # let settings = Settings { width: 8, kept: 8, words: 2 };
/// # let mut stream = Stream::open(&settings, &[10, 20])?;
/// let kept = *stream.as_words();
/// stream.push(&[3], &[100])?;
/// let mut restored = Stream::from_words(kept);
/// restored.push(&[3], &[100])?;
/// assert!(restored == stream);
///
/// // Any words can be restored. The library tests them in every call.
/// let none = Stream::from_words([0; 21]);
/// assert_eq!(none.read(), Err(Refusal::State));
/// # Ok::<(), Refusal>(())
/// ```
///
/// The state holds the last key words. So what is kept of it is as secret as the key, and `{:?}`
/// shows the settings and the count of words taken, and nothing else. `==` compares every word of
/// two states: equal ones are answered alike. Unlike that of digests it may stop at a difference.
#[derive(Clone, PartialEq, Eq)]
pub struct Stream {
    words: [u32; STREAM_WORDS],
}

impl Stream {
    /// A stream that has taken no words. `key` has the first key words, one for each digest word.
    ///
    /// # Errors
    ///
    /// `Width`, `Kept`, `Count`, `Key` or `Word`, as the library's tests find.
    pub fn open(settings: &Settings, key: &[u32]) -> Result<Stream, Refusal> {
        let mut words = [0; STREAM_WORDS];
        written(ffi::stream_open(*settings, key, &mut words))?;
        Ok(Stream { words })
    }

    /// Takes a part of the message, with as many words of the key. A part may be empty.
    ///
    /// # Errors
    ///
    /// `State`, `Long` where the words taken and these are more than
    /// [`MOST_MESSAGE_WORDS`](crate::MOST_MESSAGE_WORDS), `Key` or `Word`, as the library's tests
    /// find; the stream is then as it was.
    pub fn push(&mut self, message: &[u32], key: &[u32]) -> Result<(), Refusal> {
        written(ffi::stream_push(&mut self.words, message, key))
    }

    /// The digest of the words taken so far.
    ///
    /// # Errors
    ///
    /// `State`, which no stream gives that was opened, but one made of any words can.
    pub fn read(&self) -> Result<Digest, Refusal> {
        self.settings().given(|places| self.read_into(places))
    }

    /// Writes the digest of the words taken so far into the first places of `out`, one for each
    /// digest word. Places of `out` beyond the digest keep what they held.
    ///
    /// # Errors
    ///
    /// `State` as for [`Stream::read`], or `Tray`; `out` then holds what it held.
    pub fn read_into(&self, out: &mut [u32]) -> Result<(), Refusal> {
        written(ffi::stream_read(&self.words, out))
    }

    /// What it was opened with, as the state has it.
    #[must_use]
    pub fn settings(&self) -> Settings {
        let [width, kept, words, ..] = self.words;
        Settings { width, kept, words }
    }

    /// How many message words it has taken, as the state has it.
    #[must_use]
    pub fn taken(&self) -> usize {
        self.words[3] as usize
    }

    /// The state's words, counted from 0: the width, the kept bits, the digest words and the words
    /// taken; from 4 on the full-width sums, in eight places; from 12 on the last key words, in
    /// eight places; at 20 nothing yet. What is not in use is 0.
    #[must_use]
    pub fn as_words(&self) -> &[u32; STREAM_WORDS] {
        &self.words
    }

    /// The stream of this state. Any words are taken, and nothing is tested here: where they are no
    /// fit state, every call answers `State`. Where they are one that no stream had, a reading is
    /// what they hold as sums, with the kept bits, and the digest of no message.
    #[must_use]
    pub fn from_words(words: [u32; STREAM_WORDS]) -> Stream {
        Stream { words }
    }
}

impl fmt::Debug for Stream {
    fn fmt(&self, to: &mut fmt::Formatter<'_>) -> fmt::Result {
        to.debug_struct("Stream")
            .field("settings", &self.settings())
            .field("taken", &self.taken())
            .finish_non_exhaustive()
    }
}
