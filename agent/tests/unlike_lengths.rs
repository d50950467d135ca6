//! Byte messages of unlike length under one key: each is digested under as many first words of it as
//! it needs. The counts are made with the library's own calls, over all keys.

#![forbid(unsafe_code)]

mod common;

use common::calls::settings;
use common::paper::{self, words_of_bytes, WIDTHS_OF_BYTES};
use common::random::Random;
use pairing_agent::{ffi, Settings};

/// The bound at width 8 with every bit kept, one digest word and two message words.
const BOUND: u32 = 1 << (8 * 2 + 1);

/// The message's digest under the first words of the key, as many as it needs.
fn digest(settings: Settings, message: &[u8], key: &[u32]) -> Vec<u32> {
    let needed = settings.key_words(settings.words_of_bytes(message.len()));
    let mut out = vec![0; settings.words as usize];
    let number = ffi::digest_bytes(settings, message, &key[..needed], &mut out);
    assert_eq!(number, 0, "{settings:?}, {} bytes", message.len());
    out
}

/// The digest of words, which must be accepted.
fn digest_words(settings: Settings, message: &[u32], key: &[u32]) -> Vec<u32> {
    let mut out = vec![0; settings.words as usize];
    let number = ffi::digest_words(settings, message, key, &mut out);
    assert_eq!(number, 0, "{settings:?}, {} words", message.len());
    out
}

fn filled_up(mut words: Vec<u32>, to: usize) -> Vec<u32> {
    words.resize(to, 0);
    words
}

fn key(w: u32, words: usize, random: &mut Random) -> Vec<u32> {
    (0..words).map(|_| random.word() >> (32 - w)).collect()
}

/// How many keys of three words, at width 8 with every bit kept and one digest word, make the two
/// messages match. One of one byte makes two words, one of no bytes makes one.
fn matching_keys(first: &[u8], second: &[u8]) -> u32 {
    let settings = settings(8, 8, 1);
    let mut rows = [[0], [0]];
    let mut count = 0;
    for number in 0..1 << 24 {
        let key = [number >> 16, number >> 8 & 255, number & 255];
        for (message, row) in [first, second].into_iter().zip(&mut rows) {
            let key = &key[..message.len() + 2];
            assert_eq!(ffi::digest_bytes(settings, message, key, row), 0);
        }
        match ffi::digests_match(1, &rows[0], &rows[1]) {
            100 => count += 1,
            answer => assert_eq!(answer, 101),
        }
    }
    count
}

/// Counts over all keys. They make the same few calls millions of times, so `make test-memory` leaves
/// them out.
mod all_keys {
    use super::{matching_keys, BOUND};

    /// The count of the program `run_lengths` for one message, with a call for each key.
    #[test]
    fn no_byte_and_one() {
        assert_eq!(matching_keys(&[], &[0x11]), 65_536);
    }

    /// The same for every message.
    #[test]
    #[ignore = "takes minutes"]
    fn no_byte_and_each_one() {
        for byte in 0..=255 {
            assert_eq!(matching_keys(&[], &[byte]), 65_536, "byte {byte}");
        }
    }

    /// Messages of one length come nearer to the bound, which is the same for them.
    #[test]
    fn two_messages_of_one_byte() {
        let count = matching_keys(&[1], &[0x11]);
        assert_eq!(count, 126_976);
        assert!(count <= BOUND);
    }
}

/// A message has under its first words of a key the digest that its words, filled up with zero
/// words, have under the whole key: in the library, and by the implementation beside it.
#[test]
fn first_words_of_one_key() {
    let mut random = Random::new(17);
    let mut messages = 0;
    for w in WIDTHS_OF_BYTES {
        for n in 1..=8 {
            for bytes in (0..=9).chain([63, 64, 255, 256, 1_023, 1_024]) {
                let b = 1 + random.below(w as usize) as u32;
                let settings = settings(w, b, n);
                let message: Vec<u8> = (0..bytes).map(|_| random.byte()).collect();
                let words = words_of_bytes(w, &message);
                let most = words.len() + random.below(20);
                let key = key(w, settings.key_words(most), &mut random);
                let filled = filled_up(words, most);
                let found = digest(settings, &message, &key);
                assert_eq!(found, digest_words(settings, &filled, &key));
                let due = paper::digest_words(settings, &filled, &key, &vec![0; n as usize]);
                assert_eq!((due.answer, due.out), (0, found), "w {w}, {bytes} bytes");
                messages += 1;
            }
        }
    }
    println!("first_words_of_one_key: {messages} messages");
}

/// Words that are not closed: 5 and 5 0 agree under every common key. Closed bytes do not.
#[test]
fn five_and_five_zero() {
    let mut random = Random::new(18);
    for w in 3..=32 {
        for n in 1..=8 {
            let settings = settings(w, w, n);
            let key = key(w, settings.key_words(2), &mut random);
            let shorter = digest_words(settings, &[5], &key[..settings.key_words(1)]);
            assert_eq!(shorter, digest_words(settings, &[5, 0], &key), "w {w}");
        }
    }
    for w in WIDTHS_OF_BYTES {
        let settings = settings(w, w, 1);
        // Under the key 1 1 0 a digest is the sum of the words.
        let both = [&[5][..], &[5, 0]].map(|message| digest(settings, message, &[1, 1, 0, 0]));
        assert_ne!(both[0], both[1], "w {w}");
    }
}

/// Under the key's last words in place of its first, a message of no bytes and one of a zero byte
/// would agree at width 8 under every key.
#[test]
fn last_words_of_one_key() {
    let mut random = Random::new(19);
    let settings = settings(8, 8, 1);
    let mut agreeing = 0;
    for _ in 0..1_000 {
        let key = key(8, 3, &mut random);
        let none = digest(settings, &[], &key[1..]);
        let zero = digest(settings, &[0], &key);
        assert_eq!(none, zero, "key {key:?}");
        agreeing += u32::from(digest(settings, &[], &key) == zero);
    }
    // Under its first words they agree under one key in 256.
    assert!(agreeing < 50, "{agreeing} of 1000 keys");
}
