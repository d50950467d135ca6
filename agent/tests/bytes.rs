//! How bytes become words: every length and place, how they are closed, and every alignment. The
//! edges that both digests share are in edges.rs.

#![forbid(unsafe_code)]

mod common;

use common::calls::{settings, Call, Digest};
use common::paper::{words_made, words_of_bytes, MOST_WORDS, WIDTHS_OF_BYTES};
use common::part::Part;
use common::random::Random;
use pairing_agent::{digest_bytes, ffi, Refusal};

/// A call that is accepted and keeps every bit, of that many message bytes.
fn fit(w: u32, n: u32, bytes: usize) -> Digest<u8> {
    Digest::fit(settings(w, w, n), bytes)
}

fn answer(call: &Digest<u8>) -> u32 {
    call.check(&mut Random::new(7))
}

/// The digest of those bytes under the call's key, which must be accepted.
fn digest(call: &Digest<u8>, message: &[u8]) -> Vec<u32> {
    let mut out = vec![0; call.settings.words as usize];
    let number = ffi::digest_bytes(call.settings, message, &call.key, &mut out);
    assert_eq!(number, 0, "{}", call.sizes());
    out
}

#[test]
fn every_length_count_and_kept() {
    let mut random = Random::new(8);
    let mut calls = 0;
    for w in WIDTHS_OF_BYTES {
        for bytes in 0..=40 {
            for n in 1..=8 {
                for b in 1..=w {
                    let mut call = Digest::<u8>::fit(settings(w, b, n), bytes);
                    let beyond = random.below(3);
                    call.out = random.row(n as usize + beyond);
                    assert_eq!(call.check(&mut random), 0);
                    calls += 1;
                }
            }
        }
    }
    println!("every_length_count_and_kept: {calls} calls");
}

/// The word at that place of as many as the bytes make, as the library has it.
///
/// Under a key that is 1 there and 0 elsewhere a digest word is that word. The 1 also stands next
/// to the word before, but the high half of that product is 0.
fn word_seen(w: u32, bytes: &[u8], place: usize, words: usize) -> u32 {
    let mut key = vec![0; words + 1];
    key[place] = 1;
    let mut out = [0xdead_beef];
    let number = ffi::digest_bytes(settings(w, w, 1), bytes, &key, &mut out);
    assert_eq!(number, 0, "w {w}, {} bytes", bytes.len());
    out[0]
}

/// The words that the library makes of the bytes.
fn words_seen(w: u32, bytes: &[u8]) -> Vec<u32> {
    let words = words_made(w, bytes.len());
    (0..words)
        .map(|place| word_seen(w, bytes, place, words))
        .collect()
}

#[test]
fn words_of_the_bytes() {
    let bytes = [0x81, 0x92, 0xa3, 0xb4];
    assert_eq!(words_seen(8, &bytes[..1]), [0x81, 0x80]);
    assert_eq!(words_seen(8, &bytes[..2]), [0x81, 0x92, 0x80]);
    assert_eq!(words_seen(16, &bytes[..1]), [0x8081]);
    assert_eq!(words_seen(16, &bytes[..2]), [0x9281, 0x0080]);
    assert_eq!(words_seen(16, &bytes[..3]), [0x9281, 0x80a3]);
    assert_eq!(words_seen(16, &bytes), [0x9281, 0xb4a3, 0x0080]);
    assert_eq!(words_seen(32, &bytes[..1]), [0x0000_8081]);
    assert_eq!(words_seen(32, &bytes[..2]), [0x0080_9281]);
    assert_eq!(words_seen(32, &bytes[..3]), [0x80a3_9281]);
    assert_eq!(words_seen(32, &bytes), [0xb4a3_9281, 0x0000_0080]);
    for w in WIDTHS_OF_BYTES {
        assert_eq!(words_seen(w, &[]), [0x80], "w {w}");
    }
}

/// No bytes are the one word 0x80, so their key has 1 + n words.
#[test]
fn no_bytes() {
    // 0x80·3 + (0x80·2 div 256) = 385, which is 0x81 modulo 256.
    let mut out = [0];
    let result = digest_bytes(settings(8, 8, 1), &[], &[3, 2], &mut out);
    assert_eq!((result, out), (Ok(()), [0x81]));
    for w in WIDTHS_OF_BYTES {
        for n in 1..=8 {
            let call = fit(w, n, 0);
            assert_eq!(call.key.len(), 1 + n as usize);
            assert_eq!(answer(&call), 0, "w {w}, n {n}");
            let mut of_word = vec![0; n as usize];
            let number = ffi::digest_words(call.settings, &[0x80], &call.key, &mut of_word);
            assert_eq!((number, digest(&call, &[])), (0, of_word), "w {w}, n {n}");
            for words in [0, n as usize, 2 + n as usize] {
                let mut call = call.clone();
                call.key.resize(words, 1);
                assert_eq!(answer(&call), 5, "w {w}, n {n}, key of {words}");
            }
        }
    }
}

/// Where bytes fill their last word, the closing one has a word of its own.
#[test]
fn a_full_last_word() {
    for w in WIDTHS_OF_BYTES {
        for full in 1..=12 {
            let call = fit(w, 2, full * u8::parts_in_a_word(w));
            let words = words_seen(w, &call.message);
            assert_eq!(words.len(), full + 1, "w {w}");
            assert_eq!(words[full], 0x80, "w {w}, {full} full words");
            assert_eq!(answer(&call), 0);
            // As long as it would be without that word.
            let mut short = call;
            short.key.truncate(full + 2);
            assert_eq!(answer(&short), 5, "w {w}, {full} full words");
        }
    }
}

#[test]
fn a_byte_at_every_place() {
    for w in WIDTHS_OF_BYTES {
        for bytes in 1..=40 {
            let mut call = fit(w, 2, bytes);
            for place in 0..bytes {
                call.message.fill(0);
                call.message[place] = 0xff;
                assert_eq!(answer(&call), 0, "w {w}, {bytes} bytes, place {place}");
            }
        }
    }
}

/// A message with zero bytes added is another one: under the same key its digest is another, or
/// it has more words and needs a longer key.
#[test]
fn zero_bytes_at_the_end_count() {
    for w in WIDTHS_OF_BYTES {
        for bytes in 0..=40 {
            let mut call = fit(w, 8, bytes);
            let of_message = digest(&call, &call.message);
            for length in bytes + 1..=bytes + 9 {
                call.message.push(0);
                let same_words = words_made(w, length) == words_made(w, bytes);
                let due = if same_words { 0 } else { 5 };
                assert_eq!(answer(&call), due, "w {w}, {bytes} of {length}");
                if same_words {
                    let of_longer = digest(&call, &call.message);
                    assert_ne!(of_longer, of_message, "w {w}, {bytes} of {length}");
                }
            }
        }
    }
}

/// Endings that look like a closing byte, like what fills up the last word, or like both: a message
/// with one has other words than without.
#[test]
fn endings_that_look_closed() {
    let endings: [&[u8]; 10] = [
        &[0x80],
        &[0],
        &[0, 0],
        &[0, 0, 0],
        &[0, 0, 0, 0],
        &[0x80, 0],
        &[0x80, 0, 0],
        &[0x80, 0, 0, 0],
        &[0x80, 0x80],
        &[0, 0x80],
    ];
    for w in WIDTHS_OF_BYTES {
        for bytes in 0..=20 {
            let without = fit(w, 3, bytes).message;
            for ending in endings {
                let mut call = fit(w, 3, bytes + ending.len());
                call.message = [&without[..], ending].concat();
                assert_eq!(answer(&call), 0, "w {w}, {bytes} and {ending:x?}");
                let words = words_seen(w, &call.message);
                let due = words_of_bytes(w, &call.message);
                assert_eq!(words, due, "w {w}, {bytes} and {ending:x?}");
                assert_ne!(
                    words,
                    words_seen(w, &without),
                    "w {w}, {bytes}, {ending:x?}"
                );
            }
        }
    }
}

/// Messages of as many words as the library decodes at a time, of one fewer and one more, at every
/// fill of the last word.
#[test]
fn around_the_blocks() {
    for w in WIDTHS_OF_BYTES {
        let in_a_word = u8::parts_in_a_word(w);
        for words in [64, 256, 512, 1024].map(|block| block - 1..=block + 2) {
            for bytes in words.start() * in_a_word..words.end() * in_a_word {
                for n in [1, 8] {
                    assert_eq!(answer(&fit(w, n, bytes)), 0, "w {w}, n {n}, {bytes} bytes");
                }
            }
        }
    }
}

/// The library's two digests agree, refusals included.
#[test]
fn as_the_word_digest_of_the_words() {
    for w in WIDTHS_OF_BYTES {
        let settings = settings(w, w - 3, 5);
        let most = u8::most(w);
        for bytes in (0..=40).chain([most - 1, most, most + 1]) {
            let mut call = Digest::<u8>::fit(settings, bytes);
            let words = words_of_bytes(w, &call.message);
            for extra in [0, 1] {
                call.key.resize(words.len() + 5 + extra, 1);
                let (mut of_bytes, mut of_words) = ([9; 6], [9; 6]);
                assert_eq!(
                    ffi::digest_bytes(settings, &call.message, &call.key, &mut of_bytes),
                    ffi::digest_words(settings, &words, &call.key, &mut of_words),
                    "w {w}, {bytes} bytes"
                );
                assert_eq!(of_bytes, of_words, "w {w}, {bytes} bytes");
            }
        }
    }
}

/// Bytes may stand anywhere: a word of them need not be aligned.
#[test]
fn at_every_alignment() {
    for w in WIDTHS_OF_BYTES {
        for bytes in [0, 1, 2, 3, 4, 5, 31, 32, 33, 1000] {
            let call = fit(w, 3, bytes);
            let due = digest(&call, &call.message);
            let mut room = vec![0xff; bytes + 64];
            for start in 0..64 {
                room.fill(0xff);
                room[start..start + bytes].copy_from_slice(&call.message);
                let out = digest(&call, &room[start..start + bytes]);
                assert_eq!(out, due, "w {w}, {bytes} from {start}");
            }
        }
    }
}

/// 65,536 words pass, the closing byte's among them, and a byte more makes one more.
#[test]
fn the_longest_messages() {
    // So many bytes and the closing one fill 65,536 words: it is the last word's highest byte.
    for (w, bytes, last) in [
        (8, 65_535, 0x80),
        (16, 131_071, 0x8000),
        (32, 262_143, 0x8000_0000),
    ] {
        let mut call = fit(w, 1, bytes);
        assert_eq!(call.key.len(), 65_537, "w {w}");
        assert_eq!(answer(&call), 0, "w {w}, {bytes} bytes");
        let zeros = vec![0; bytes];
        assert_eq!(word_seen(w, &zeros, 65_535, 65_536), last, "w {w}");
        // Under the key for the most words, and under one of its own length.
        call.message.push(0);
        assert_eq!(answer(&call), 4, "w {w}, {bytes} bytes and one");
        call.key.push(0);
        assert_eq!(answer(&call), 4, "w {w}, {bytes} bytes and one");
    }
}

/// Long counts words and not bytes: as many as are too many at one width pass at the next.
#[test]
fn long_counts_words() {
    assert_eq!(answer(&fit(8, 1, 65_536)), 4);
    assert_eq!(answer(&fit(16, 1, 65_536)), 0);
    assert_eq!(answer(&fit(16, 1, 131_072)), 4);
    assert_eq!(answer(&fit(32, 1, 131_072)), 0);
}

/// A width that only words have is refused before all else.
#[test]
fn a_width_of_words() {
    let number = ffi::digest_bytes(settings(7, 0, 0), &[], &[], &mut []);
    assert_eq!(number, 1);
}

#[test]
fn results() {
    let mut out = [3; 2];
    let result = digest_bytes(settings(24, 8, 2), &[1], &[1, 2, 3], &mut out);
    assert_eq!(result, Err(Refusal::Width));
    let result = digest_bytes(settings(16, 8, 2), &[1, 2, 3], &[1, 2, 3, 4, 5], &mut out);
    assert_eq!(result, Err(Refusal::Key));
    assert_eq!(out, [3; 2]);
    let result = digest_bytes(settings(16, 8, 2), &[1, 2, 3], &[1, 0, 0, 0], &mut out);
    assert_eq!((result, out), (Ok(()), [1, 0]));
}

/// Lengths of messages in bytes: short ones, and around the most words.
fn lengths(w: u32) -> impl Iterator<Item = usize> {
    let most = MOST_WORDS * w as usize / 8;
    (0..=40).chain(most - 5..=most + 5)
}

#[test]
fn settings_count_the_words_of_bytes() {
    for w in WIDTHS_OF_BYTES {
        for bytes in lengths(w).chain([usize::MAX - 4, usize::MAX - 1, usize::MAX]) {
            let words = settings(w, w, 3).words_of_bytes(bytes);
            assert_eq!(words, words_made(w, bytes), "w {w}, {bytes} bytes");
        }
    }
    for w in [0, 1, 7, 9, 24, 31, 33, 64, u32::MAX] {
        for bytes in [0, 1, 40, usize::MAX] {
            assert_eq!(settings(w, 1, 3).words_of_bytes(bytes), 0, "w {w}");
        }
    }
}

#[test]
fn settings_count_the_words_of_a_key() {
    for n in [0, 1, 3, 8, 9, u32::MAX] {
        for words in lengths(8).chain([usize::MAX - 3, usize::MAX]) {
            let due = words as u128 + u128::from(n);
            let due = usize::try_from(due).unwrap_or(usize::MAX);
            for w in [0, 7, 8, 33, u32::MAX] {
                let number = settings(w, 1, n).key_words(words);
                assert_eq!(number, due, "n {n}, {words} words");
            }
        }
    }
}

/// The library takes a key of as many words as the settings count, and no other.
#[test]
fn settings_count_as_the_library_does() {
    for w in WIDTHS_OF_BYTES {
        let settings = settings(w, w, 3);
        for bytes in lengths(w) {
            let words = settings.words_of_bytes(bytes);
            let key = vec![0; settings.key_words(words) + 1];
            let number = |key: &[u32]| {
                let message = vec![0xff; bytes];
                ffi::digest_bytes(settings, &message, key, &mut [0; 3])
            };
            let due = if words > MOST_WORDS { [4, 4] } else { [0, 5] };
            let numbers = [number(&key[1..]), number(&key)];
            assert_eq!(numbers, due, "w {w}, {bytes} bytes");
        }
    }
}

/// The words of the settings are those of the independent implementation.
#[test]
fn closed_words_are_those_of_the_paper() {
    let mut random = Random::new(30);
    for w in WIDTHS_OF_BYTES {
        for length in lengths(w) {
            let mut bytes: Vec<u8> = (0..length).map(|_| random.byte()).collect();
            // Endings that look like the closing.
            for end in [&[][..], &[0x80], &[0x80, 0], &[0, 0, 0, 0]] {
                let kept = length.saturating_sub(end.len());
                bytes.truncate(kept);
                bytes.extend(&end[..length - kept]);
                let words = settings(w, w, 1).closed_words(&bytes);
                assert!(words == words_of_bytes(w, &bytes), "w {w}, {length} bytes");
                let counted = settings(w, w, 1).words_of_bytes(length);
                assert_eq!(words.len(), counted, "w {w}, {length} bytes");
            }
        }
    }
    // No bytes fill the words of another width.
    for w in (0..=40).filter(|w| !WIDTHS_OF_BYTES.contains(w)) {
        assert_eq!(settings(w, 1, 1).closed_words(b"depot"), [], "w {w}");
    }
}

/// Their digest is the digest of the bytes.
#[test]
fn closed_words_have_the_digest_of_the_bytes() {
    for w in WIDTHS_OF_BYTES {
        for n in 1..=8 {
            for bytes in lengths(w) {
                let call = fit(w, n, bytes);
                let words = call.settings.closed_words(&call.message);
                let mut of_words = vec![0; n as usize];
                let number = ffi::digest_words(call.settings, &words, &call.key, &mut of_words);
                let due = if words.len() > MOST_WORDS { 4 } else { 0 };
                assert_eq!(number, due, "w {w}, n {n}, {bytes} bytes");
                if due == 0 {
                    let of_bytes = digest(&call, &call.message);
                    assert_eq!(of_words, of_bytes, "w {w}, n {n}, {bytes} bytes");
                }
            }
        }
    }
}
