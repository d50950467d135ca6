//! Safe calls into the proved pairing library.
//!
//! Nothing is tested here. The library tests every call itself, and its answer decides: each
//! function turns that number into a `Result`. A message that comes in parts is digested by a
//! [`Stream`], one whose words are edited by an [`Incremental`].
//!
//! ```
//! use pairing_agent::{Digest, Settings};
//! use std::{fs::File, io::Read};
//!
//! let settings = Settings { width: 32, kept: 32, words: 2 };
//! let (sent, arrived) = ("depot 7, scanner 0451", "depot 7, scanner 0457");
//! // Both labels are fixed, so the key is drawn: two words more than a label makes.
//! let mut bytes = vec![0; 4 * settings.key_words(settings.words_of_bytes(sent.len()))];
//! File::open("/dev/urandom")?.read_exact(&mut bytes)?;
//! let words = bytes.chunks(4).map(|word| u32::from_le_bytes(word.try_into().unwrap()));
//! let key: Vec<u32> = words.collect();
//! let scanner = settings.digest_bytes(sent.as_bytes(), &key)?;
//! let depot = settings.digest_bytes(arrived.as_bytes(), &key)?;
//! // The scanner shows its digest as text. What the depot reads there is not what it has.
//! let read: Digest = scanner.to_string().parse()?;
//! assert!(read == scanner && read != depot);
//! # Ok::<(), Box<dyn std::error::Error>>(())
//! ```
//!
//! # What makes a pairing safe
//!
//! 1. Draw the key after both labels are fixed.
//! 2. Keep it secret until then.
//! 3. Use it once.
//! 4. Every retry is another chance for two different labels to match.
//!
//! The counts below are over all keys, for two given labels; they say nothing of labels that were
//! made to suit a key. Under a key that is known beforehand such a label can be searched for, which
//! takes about half a second for a digest of one word of 32 bits.
//!
//! MT19937, which stretches a seed, is not a cryptographic generator. It need not be one: the key is
//! public by the time that a digest is made (Nguyen and Roscoe, section 2). But a seed of s words
//! makes at most 2^(32·s) keys, and no count is proved for those. The counts are for keys that are
//! drawn whole.
//!
//! # What is proved, and of which keys
//!
//! Every answer and every row is proved to be the one that the definitions give. So are two counts
//! over all keys of t + n words drawn uniformly: how many make two different messages of one length
//! agree, at most 2^(w·t + n + n·(w−b)) of 2^(w·(t+n)); and how many give a message with a word
//! that is not 0 each digest, exactly 2^(w·t + n·(w−b)). Codes of d digits have a third: two
//! different messages of t words share one under at most (2F + 1)·2^(w·t + 1) keys of t + 1 words,
//! where F is (2^w − 1) div 10^d. Length is in words.
//! Bytes are closed, so the first count holds of different bytes of any lengths: over all keys of
//! T + n words, where both make at most T words and each is digested under as many first words of
//! the key as it needs, at most 2^(w·T + n + n·(w−b)) make them agree. Of several peers, each
//! row is the digest under one peer's key alone, so each peer has these counts. What a stream reads
//! is the digest of the words that it has taken, however they were cut. What an incremental digest
//! reads is the digest of its message after any edits under one key, if nothing else writes the
//! message.

#![deny(unsafe_code)]
#![deny(missing_docs)]

mod code;
mod digest;
#[allow(unsafe_code)]
#[doc(hidden)]
pub mod ffi;
mod incremental;
mod refusal;
mod settings;
mod stream;

pub use code::{code_bytes, code_text, MOST_CODE_BYTES, MOST_CODE_DIGITS};
pub use digest::{Digest, DigestError};
pub use incremental::{Incremental, INCREMENTAL_WORDS};
pub use refusal::Refusal;
pub use settings::Settings;
pub use stream::{Stream, STREAM_WORDS};

/// The most words of a message, for bytes counted with the closing byte.
pub const MOST_MESSAGE_WORDS: usize = 65_536;

/// The most words of a key, and so of a stretch: those for the longest message and digest.
pub const MOST_KEY_WORDS: usize = 65_544;

/// The most words of a seed array.
pub const MOST_SEED_WORDS: usize = 8;

/// The most words of a digest.
pub const MOST_DIGEST_WORDS: usize = 8;

/// The most peers of one call.
pub const MOST_PEERS: usize = 16;

/// Writes the digest of `message` under `key` into the first places of `out`, one for each digest
/// word.
///
/// The key has [`Settings::key_words`] words. Places of `out` beyond the digest keep what they held.
///
/// ```
/// use pairing_agent::{digest_words, digests_match, Settings};
///
/// // The key has two words more than the message, one for each digest word.
/// let settings = Settings { width: 8, kept: 8, words: 2 };
/// let mut digest = [0; 2];
/// digest_words(settings, &[3, 7], &[10, 20, 100, 250], &mut digest)?;
/// assert_eq!(digest, [0xac, 0xff]);
/// assert!(digests_match(settings.words, &digest, &[0xac, 0xff])?);
/// # Ok::<(), pairing_agent::Refusal>(())
/// ```
///
/// # Errors
///
/// `Width`, or `Kept` to `Word`, as the library's tests find; `out` then holds what it held.
pub fn digest_words(
    settings: Settings,
    message: &[u32],
    key: &[u32],
    out: &mut [u32],
) -> Result<(), Refusal> {
    written(ffi::digest_words(settings, message, key, out))
}

/// Writes the digest of the words that the bytes of `message` make into the first places of `out`,
/// one for each digest word.
///
/// The width is 8, 16 or 32. The byte 0x80 closes the message, also one of no bytes, so that zero
/// bytes at its end count. Closed, it fills words with the first byte lowest, and zero bytes fill
/// up the last, which makes [`Settings::words_of_bytes`] words. Key and `out` as for words.
///
/// ```
/// use pairing_agent::{digest_bytes, Settings};
///
/// // Under the key 1 0 a digest word is the message word itself.
/// let settings = Settings { width: 32, kept: 32, words: 1 };
/// let mut digest = [0];
/// digest_bytes(settings, &[5], &[1, 0], &mut digest)?;
/// assert_eq!(digest, [0x0000_8005]);
/// digest_bytes(settings, &[5, 0], &[1, 0], &mut digest)?;
/// assert_eq!(digest, [0x0080_0005]);
/// # Ok::<(), pairing_agent::Refusal>(())
/// ```
///
/// Two labels of different length share one key, each taking the first words that it needs:
///
/// ```
/// use pairing_agent::{digest_bytes, digests_match, Settings};
///
/// let settings = Settings { width: 8, kept: 8, words: 1 };
/// let key = [7, 9, 200];
/// let mut digests = [[0], [0]];
/// for (message, digest) in [&[][..], &[0x11]].into_iter().zip(&mut digests) {
///     let needed = settings.key_words(settings.words_of_bytes(message.len()));
///     digest_bytes(settings, message, &key[..needed], digest)?;
/// }
/// assert_eq!(digests, [[0x84], [0x5b]]);
/// assert!(!digests_match(1, &digests[0], &digests[1])?);
/// # Ok::<(), pairing_agent::Refusal>(())
/// ```
///
/// # Errors
///
/// `Width`, or `Kept` to `Word`, as the library's tests find; `out` then holds what it held.
pub fn digest_bytes(
    settings: Settings,
    message: &[u8],
    key: &[u32],
    out: &mut [u32],
) -> Result<(), Refusal> {
    written(ffi::digest_bytes(settings, message, key, out))
}

/// Writes the code of `message` under `key`, for people to read aloud, into the first
/// [`code_bytes`] places of `out`.
///
/// The code is the last `digits` decimal digits of the one-word digest with every bit kept, leading
/// zeros included. It is packed two digits to a byte, the higher one in the upper half, with a zero
/// digit before an odd number of them; [`code_text`] reads it. The key has one word more than the
/// message. Places of `out` beyond the code keep what they held.
///
/// ```
/// use pairing_agent::{code_text, digest_code};
///
/// // The digest is 255, and its last two digits are 55.
/// let mut code = [0; 1];
/// digest_code(8, 2, &[255], &[255, 255], &mut code)?;
/// assert_eq!(code, [0x55]);
/// assert_eq!(code_text(2, &code).as_deref(), Some("55"));
/// # Ok::<(), pairing_agent::Refusal>(())
/// ```
///
/// # Errors
///
/// `Width`, `Digits`, or `Long` to `Word`, as the library's tests find; `out` then holds what it
/// held.
pub fn digest_code(
    width: u32,
    digits: u32,
    message: &[u32],
    key: &[u32],
    out: &mut [u8],
) -> Result<(), Refusal> {
    written(ffi::digest_code(width, digits, message, key, out))
}

/// Writes the digests of `message` under the keys of `peers` peers into the first places of `out`:
/// row after row, one for each peer.
///
/// The keys lie end to end in `keys`, each of [`Settings::key_words`] words. Row i is the digest
/// that [`digest_words`] writes under key i alone, and of the other keys only a word that is too
/// large can reach it, by refusing the call for all: both are proved. Places of `out` beyond the
/// rows keep what they held.
///
/// The lengths of single keys are not seen here. Where two of them are wrong and make up for each
/// other, each key begins in another's words: hand on only keys that have been measured.
///
/// ```
/// use pairing_agent::{digest_peers, Settings};
///
/// // Two peers, a message of two words, and a key of three for each.
/// let settings = Settings { width: 8, kept: 8, words: 1 };
/// let keys = [[10, 20, 100], [20, 100, 250]].concat();
/// let mut digests = [0; 2];
/// digest_peers(settings, 2, &[3, 7], &keys, &mut digests)?;
/// assert_eq!(digests, [0xac, 0xff]);
/// # Ok::<(), pairing_agent::Refusal>(())
/// ```
///
/// # Errors
///
/// `Width`, or `Kept` to `Word` with `Peers` after `Count`, as the library's tests find; `out` then
/// holds what it held.
pub fn digest_peers(
    settings: Settings,
    peers: u32,
    message: &[u32],
    keys: &[u32],
    out: &mut [u32],
) -> Result<(), Refusal> {
    written(ffi::digest_peers(settings, peers, message, keys, out))
}

/// Fills the whole of `key` with words of `width` bits, each the upper bits of the next output of
/// MT19937 made new from `seed`: the output divided by 2^(32−w), rounded down.
///
/// ```
/// // The first outputs of seed 5489 are 0xd091bb5c and 0x22ae9ef6.
/// let mut key = [0; 2];
/// pairing_agent::stretch(8, 5489, &mut key)?;
/// assert_eq!(key, [0xd0, 0x22]);
/// # Ok::<(), pairing_agent::Refusal>(())
/// ```
///
/// So each word is below 2^w, and no digest of that width refuses such a key as `Word`. Below width
/// 32 both ends need 0.5 or later: before it the words were others.
///
/// The counts over all keys are not proved for keys made so: there are at most 2^32 of them.
///
/// # Errors
///
/// `Width`, or `Long` for more than [`MOST_KEY_WORDS`]; `key` then holds what it held.
pub fn stretch(width: u32, seed: u32, key: &mut [u32]) -> Result<(), Refusal> {
    written(ffi::stretch(width, seed, key))
}

/// Fills the whole of `key` as [`stretch`] does, from MT19937 made new from an array of seed words
/// by its published initialisation by array.
///
/// ```
/// // The array, and the first of its outputs, that the generator's authors publish.
/// let mut key = [0; 3];
/// pairing_agent::stretch_array(32, &[0x123, 0x234, 0x345, 0x456], &mut key)?;
/// assert_eq!(key, [1_067_595_299, 955_945_823, 477_289_528]);
/// # Ok::<(), pairing_agent::Refusal>(())
/// ```
///
/// An array of one word is not the plain seed of that word: both ends need the same kind. Arrays of
/// different lengths can make one generator, as 2 and 2, 1 do: agree on the length too.
///
/// The counts over all keys are not proved for keys made so: from arrays of k words there are at
/// most 2^(32·k) of them.
///
/// # Errors
///
/// `Width`, `Seed` for no words or more than [`MOST_SEED_WORDS`], or `Long` for more than
/// [`MOST_KEY_WORDS`]; `key` then holds what it held.
pub fn stretch_array(width: u32, seed: &[u32], key: &mut [u32]) -> Result<(), Refusal> {
    written(ffi::stretch_array(width, seed, key))
}

/// Fills the whole of `key`, then the whole of `message` from the outputs that follow, by the rule
/// of [`stretch`]: a load for a test bench, which the same seed makes again.
///
/// ```
/// // The first outputs of seed 5489 are 0xd091bb5c, 0x22ae9ef6 and 0xe7e1faee.
/// let (mut key, mut message) = ([0; 2], [0; 1]);
/// pairing_agent::load(16, 5489, &mut key, &mut message)?;
/// assert_eq!((key, message), ([0xd091, 0x22ae], [0xe7e1]));
/// # Ok::<(), pairing_agent::Refusal>(())
/// ```
///
/// So `key` is the row that [`stretch`] makes of the seed, and both rows end to end are one longer
/// row of outputs. Neither length need go with the other; a digest of n words takes a key of n
/// words more than the message.
///
/// # Errors
///
/// `Width`, or `Long` for a key of more than [`MOST_KEY_WORDS`] or a message of more than
/// [`MOST_MESSAGE_WORDS`]; both rows then hold what they held.
pub fn load(width: u32, seed: u32, key: &mut [u32], message: &mut [u32]) -> Result<(), Refusal> {
    written(ffi::load(width, seed, key, message))
}

/// Fills the whole of `key` and of `message` as [`load`] does, from MT19937 made new as
/// [`stretch_array`] makes it.
///
/// ```
/// use pairing_agent::{digest_words, load_array, Settings};
///
/// let settings = Settings { width: 32, kept: 32, words: 1 };
/// let (mut key, mut message) = ([0; 2], [0; 1]);
/// load_array(settings.width, &[0x123, 0x234, 0x345, 0x456], &mut key, &mut message)?;
/// assert_eq!((key, message), ([1_067_595_299, 955_945_823], [477_289_528]));
/// // The load is fit to be digested.
/// digest_words(settings, &message, &key, &mut [0])?;
/// # Ok::<(), pairing_agent::Refusal>(())
/// ```
///
/// # Errors
///
/// `Width`, `Seed` as for [`stretch_array`], or `Long` as for [`load`]; both rows then hold what
/// they held.
pub fn load_array(
    width: u32,
    seed: &[u32],
    key: &mut [u32],
    message: &mut [u32],
) -> Result<(), Refusal> {
    written(ffi::load_array(width, seed, key, message))
}

/// Whether two digests of `words` words agree at every place.
///
/// # Errors
///
/// `Count`, or `Tray` where either row is not `words` words.
pub fn digests_match(words: u32, first: &[u32], second: &[u32]) -> Result<bool, Refusal> {
    match ffi::digests_match(words, first, second) {
        100 => Ok(true),
        101 => Ok(false),
        number => Err(refused(number)),
    }
}

/// The version of the library that is linked, as a number: 10,000 times the major version, 100 times
/// the minor one and the patch. It is this crate's: the build looks, and fails on another.
///
/// ```
/// // 0.9.0 or later.
/// assert!(pairing_agent::version() >= 900);
/// ```
#[must_use]
pub fn version() -> u32 {
    ffi::version()
}

/// The answer of a call that writes a row: 0, or a refusal.
fn written(number: u32) -> Result<(), Refusal> {
    match number {
        0 => Ok(()),
        number => Err(refused(number)),
    }
}

/// The refusal of that number. The library is proved to answer no other, so another means that
/// some other library was linked, and nothing it answers can be used.
fn refused(number: u32) -> Refusal {
    Refusal::from_number(number)
        .unwrap_or_else(|| panic!("{number} is no answer of the proved pairing library"))
}
