//! Digests as values: what the calls give, how they are written and read, and their equality.

#![forbid(unsafe_code)]

mod common;

use common::random::Random;
use pairing_agent::{digest_bytes, digest_words, digests_match, Digest, DigestError};
use pairing_agent::{Refusal, Settings, MOST_DIGEST_WORDS};

fn digest(words: &[u32]) -> Digest {
    Digest::try_from(words).unwrap()
}

/// So many words of that width.
fn words(random: &mut Random, count: usize, width: u32) -> Vec<u32> {
    let upper = |word: u32| word >> (32 - width);
    random.row(count).into_iter().map(upper).collect()
}

/// Rows of every size, the smallest and the largest words among them.
fn rows() -> Vec<Vec<u32>> {
    let mut random = Random::new(7);
    let mut rows = vec![];
    for size in 1..=MOST_DIGEST_WORDS {
        rows.extend([vec![0; size], vec![1; size], vec![u32::MAX; size]]);
        rows.extend((0..20).map(|_| random.row(size)));
    }
    rows
}

#[test]
fn from_and_to_slices() {
    for row in rows() {
        let digest = digest(&row);
        assert_eq!(digest.words(), row);
        assert_eq!(AsRef::<[u32]>::as_ref(&digest), row);
    }
    for size in [0, 9, 10, 1000] {
        let error = Digest::try_from(&vec![0; size][..]).unwrap_err();
        assert_eq!(error, DigestError::Count(size));
    }
}

#[test]
fn written_as_the_command_line_prints_it() {
    assert_eq!(digest(&[0xac]).to_string(), "000000ac");
    let two = digest(&[0, u32::MAX]);
    assert_eq!(two.to_string(), "00000000 ffffffff");
    assert_eq!(format!("{two:?}"), "Digest(00000000 ffffffff)");
    assert_eq!(
        format!("{two:>20}|{two:<20}|"),
        "   00000000 ffffffff|00000000 ffffffff   |"
    );
}

#[test]
fn read_back() {
    for row in rows() {
        let digest = digest(&row);
        let text = digest.to_string();
        assert_eq!(text.parse(), Ok(digest));
        assert_eq!(text.to_uppercase().parse(), Ok(digest));
        assert_eq!(
            format!("\t{}\r\n", text.replace(' ', " \n ")).parse(),
            Ok(digest)
        );
    }
}

#[test]
fn texts_that_are_no_digest() {
    for (text, due) in [
        ("", DigestError::Count(0)),
        (" \n", DigestError::Count(0)),
        (
            "00000000 00000000 00000000 00000000 00000000 00000000 00000000 00000000 00000000",
            DigestError::Count(9),
        ),
        ("ac", DigestError::Word(1)),
        ("0000000ac", DigestError::Word(1)),
        ("0x0000ac", DigestError::Word(1)),
        ("+00000ac", DigestError::Word(1)),
        ("-00000ac", DigestError::Word(1)),
        ("0000_0ac", DigestError::Word(1)),
        ("000000ag", DigestError::Word(1)),
        ("000000a", DigestError::Word(1)),
        ("000000\u{e9}", DigestError::Word(1)),
        ("0000000\u{ff11}", DigestError::Word(1)),
        ("000000ac,000000ff", DigestError::Word(1)),
        ("000000ac000000ff", DigestError::Word(1)),
        ("000000ac ff", DigestError::Word(2)),
        ("000000ac 000000ff no match", DigestError::Word(3)),
    ] {
        assert_eq!(text.parse::<Digest>(), Err(due), "{text:?}");
    }
    assert_eq!(
        DigestError::Count(9).to_string(),
        "a digest has 1 to 8 words, not 9"
    );
    assert_eq!(
        DigestError::Word(2).to_string(),
        "word 2 is not eight hexadecimal digits"
    );
}

/// Every single bit of every word makes another digest, and `digests_match` says the same.
#[test]
fn every_bit_counts() {
    for row in rows() {
        let size = row.len() as u32;
        let one = digest(&row);
        assert!(one == digest(&row));
        assert_eq!(digests_match(size, &row, one.words()), Ok(true));
        for bit in 0..32 * row.len() {
            let mut other = row.clone();
            other[bit / 32] ^= 1 << (bit % 32);
            let two = digest(&other);
            assert!(one != two, "bit {bit} of {one}");
            assert_eq!(digests_match(size, one.words(), two.words()), Ok(false));
        }
    }
}

/// Differences that cancel each other in a sum or an exclusive or.
#[test]
fn differences_do_not_cancel() {
    for (one, two) in [
        ([1, 0], [0, 1]),
        ([1, 1], [0, 0]),
        ([u32::MAX, 1], [0, 0]),
        ([5, 7], [7, 5]),
    ] {
        assert!(digest(&one) != digest(&two));
        assert_eq!(digests_match(2, &one, &two), Ok(false));
    }
}

/// Two digests of different size are different, also where the longer one goes on in zeros. There
/// `digests_match` refuses.
#[test]
fn sizes_count() {
    for size in 1..MOST_DIGEST_WORDS {
        for longer in size + 1..=MOST_DIGEST_WORDS {
            let (one, two) = (digest(&vec![0; size]), digest(&vec![0; longer]));
            assert!(one != two, "{size} and {longer}");
            assert!(two != one, "{longer} and {size}");
            let refused = digests_match(size as u32, one.words(), two.words());
            assert_eq!(refused, Err(Refusal::Tray));
        }
    }
}

/// The calls give what those with an output write.
#[test]
fn calls_give_what_is_written() {
    let mut random = Random::new(11);
    for count in 1..=MOST_DIGEST_WORDS {
        for width in [8, 16, 32] {
            let settings = Settings {
                width,
                kept: width - 1,
                words: count as u32,
            };
            for size in 0..20 {
                let mut out = vec![0; count];
                let message = words(&mut random, size, width);
                let key = words(&mut random, settings.key_words(size), width);
                digest_words(settings, &message, &key, &mut out).unwrap();
                assert_eq!(settings.digest_words(&message, &key), Ok(digest(&out)));
                let bytes: Vec<u8> = (0..size).map(|_| random.byte()).collect();
                let key = words(
                    &mut random,
                    settings.key_words(settings.words_of_bytes(size)),
                    width,
                );
                digest_bytes(settings, &bytes, &key, &mut out).unwrap();
                assert_eq!(settings.digest_bytes(&bytes, &key), Ok(digest(&out)));
            }
        }
    }
}

#[test]
fn calls_are_refused() {
    let fit = Settings {
        width: 8,
        kept: 8,
        words: 2,
    };
    let (message, key) = ([3, 7], [10, 20, 100, 250]);
    for (settings, due) in [
        (Settings { width: 0, ..fit }, Refusal::Width),
        (Settings { kept: 9, ..fit }, Refusal::Kept),
        (Settings { words: 0, ..fit }, Refusal::Count),
        (Settings { words: 9, ..fit }, Refusal::Count),
        (
            Settings {
                words: u32::MAX,
                ..fit
            },
            Refusal::Count,
        ),
        (Settings { words: 3, ..fit }, Refusal::Key),
        (
            Settings {
                width: 7,
                kept: 7,
                ..fit
            },
            Refusal::Word,
        ),
    ] {
        assert_eq!(settings.digest_words(&message, &key), Err(due));
    }
    assert_eq!(fit.digest_bytes(&[3, 7], &key), Err(Refusal::Key));
    let odd = Settings { width: 9, ..fit };
    assert_eq!(odd.digest_bytes(&[3], &key), Err(Refusal::Width));
}
