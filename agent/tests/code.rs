//! The code: worked ones, every number of digits, the edges of each test, the order of the tests,
//! and how many keys two messages share a code under.

#![forbid(unsafe_code)]

mod common;

use common::calls::{settings, Call, Code};
use common::faults::Faults;
use common::paper::most_digits;
use common::random::Random;
use pairing_agent::{digest_code, ffi, Refusal};

/// Numbers that are far too many digits. 10 to the power of many of them is 0 modulo 2^64.
const FAR_TOO_MANY: [u32; 8] = [64, 65, 256, 257, 1 << 16, 1 << 31, u32::MAX - 1, u32::MAX];

fn answer(call: &Code) -> u32 {
    call.check(&mut Random::new(13))
}

/// The code, written into a row that has two bytes more than it needs.
fn code(w: u32, d: u32, message: &[u32], key: &[u32]) -> Vec<u8> {
    let bytes = d.div_ceil(2) as usize;
    let call = Code {
        width: w,
        digits: d,
        message: message.to_vec(),
        key: key.to_vec(),
        out: vec![0xee; bytes + 2],
    };
    assert_eq!(answer(&call), 0, "w {w}, d {d}");
    let mut out = call.out;
    assert_eq!(digest_code(w, d, message, key, &mut out), Ok(()));
    assert_eq!(out.split_off(bytes), [0xee; 2], "w {w}, d {d}");
    out
}

/// The code of a digest. Under a key of that number and 0 it is the digest of the message 1.
fn code_of(w: u32, d: u32, digest: u32) -> Vec<u8> {
    code(w, d, &[1], &[digest, 0])
}

/// The number that a code's digits are.
fn number_in(code: &[u8]) -> u64 {
    code.iter().fold(0, |number, byte| {
        let (high, low) = (byte / 16, byte % 16);
        assert!(high < 10 && low < 10, "{code:x?}");
        number * 100 + u64::from(high) * 10 + u64::from(low)
    })
}

/// The digest is 255.
#[test]
fn worked_case() {
    assert_eq!(code(8, 2, &[255], &[255, 255]), [0x55]);
}

/// The digests of cases A and C are 5 and 172.
#[test]
fn codes_of_the_worked_digests() {
    assert_eq!(code(8, 1, &[1], &[5, 200]), [0x05]);
    assert_eq!(code(8, 2, &[1], &[5, 200]), [0x05]);
    assert_eq!(code(8, 1, &[3, 7], &[10, 20, 100]), [0x02]);
    assert_eq!(code(8, 2, &[3, 7], &[10, 20, 100]), [0x72]);
}

/// The digest of case E is 4,294,967,295.
#[test]
fn every_number_of_digits() {
    let codes: [&[u8]; 9] = [
        &[0x05],
        &[0x95],
        &[0x02, 0x95],
        &[0x72, 0x95],
        &[0x06, 0x72, 0x95],
        &[0x96, 0x72, 0x95],
        &[0x04, 0x96, 0x72, 0x95],
        &[0x94, 0x96, 0x72, 0x95],
        &[0x02, 0x94, 0x96, 0x72, 0x95],
    ];
    let most = u32::MAX;
    for (d, due) in (1..).zip(codes) {
        assert_eq!(code(32, d, &[most], &[most, most]), due, "d {d}");
    }
}

#[test]
fn leading_zeros() {
    assert_eq!(code_of(32, 9, 0), [0, 0, 0, 0, 0]);
    assert_eq!(code_of(32, 9, 7), [0, 0, 0, 0, 0x07]);
    assert_eq!(code_of(32, 8, 70), [0, 0, 0, 0x70]);
    assert_eq!(code_of(32, 6, 12_000_345), [0x00, 0x03, 0x45]);
    assert_eq!(code_of(32, 5, 12_000_345), [0x00, 0x03, 0x45]);
    assert_eq!(code_of(32, 9, 1_000_000_000), [0, 0, 0, 0, 0]);
    assert_eq!(code_of(32, 9, 1_020_000_000), [0, 0x20, 0, 0, 0]);
}

/// Digests next to the powers of ten, their multiples and the largest word.
#[test]
fn digests_around_the_powers_of_ten() {
    for d in 1..=9 {
        for power in (0..=9).map(|e| 10u32.pow(e)) {
            let near = (1..=4).flat_map(|times| {
                let multiple = power * times;
                [multiple - 1, multiple, multiple + 1]
            });
            for digest in near.chain([u32::MAX - 1, u32::MAX]) {
                let number = number_in(&code_of(32, d, digest));
                assert_eq!(number, u64::from(digest) % 10u64.pow(d), "d {d}");
            }
        }
    }
}

#[test]
fn every_digest_of_small_widths() {
    for w in 4..=12 {
        for d in 1..=most_digits(w) {
            for digest in 0..1 << w {
                let number = number_in(&code_of(w, d, digest));
                assert_eq!(number, u64::from(digest) % 10u64.pow(d), "w {w}, d {d}");
            }
        }
    }
}

/// The library's code is the last digits of its own digest of one word.
#[test]
fn as_the_digest_of_one_word() {
    let mut random = Random::new(15);
    for w in 4..=32 {
        for d in 1..=most_digits(w) {
            for words in [0, 1, 2, 3, 7, 33, 1_000] {
                let mut call = Code::fit(w, d, words);
                for place in &mut call.key {
                    *place = random.word() >> (32 - w);
                }
                let mut digest = [0];
                let number =
                    ffi::digest_words(settings(w, w, 1), &call.message, &call.key, &mut digest);
                assert_eq!(number, 0);
                let code = number_in(&code(w, d, &call.message, &call.key));
                let due = u64::from(digest[0]) % 10u64.pow(d);
                assert_eq!(code, due, "w {w}, d {d}, {words} words");
            }
        }
    }
}

#[test]
fn width() {
    for w in (0..=40).chain([64, 128, 256, 1 << 16, 1 << 31, u32::MAX]) {
        for d in [0, 1, 2, 9, 10, u32::MAX] {
            let mut call = Code::fit(4, 1, 3);
            (call.width, call.digits) = (w, d);
            call.out.resize(5, 0xee);
            let is_width = answer(&call) == 1;
            assert_eq!(is_width, !(1..=32).contains(&w), "w {w}, d {d}");
        }
    }
}

#[test]
fn digits() {
    for w in 1..=32 {
        for d in (0..=40).chain(FAR_TOO_MANY) {
            let power = 10u128.checked_pow(d);
            let passes = d > 0 && power.is_some_and(|power| power <= 1 << w);
            let mut call = Code::fit(w, 1, 3);
            call.digits = d;
            call.out.resize(20, 0xee);
            assert_eq!(answer(&call), if passes { 0 } else { 9 }, "w {w}, d {d}");
        }
    }
}

/// The widths from which on a code can have so many digits, by the powers of two next to 10^d:
/// 16, 128, 1,024, 16,384, 131,072, 1,048,576, 16,777,216, 134,217,728 and 1,073,741,824.
#[test]
fn the_first_width_of_each_number_of_digits() {
    for (d, first) in (1..).zip([4, 7, 10, 14, 17, 20, 24, 27, 30]) {
        for w in 1..=32 {
            let due = if w < first { 9 } else { 0 };
            assert_eq!(answer(&Code::fit(w, d, 2)), due, "w {w}, d {d}");
        }
    }
}

/// Digits come after Width and before all else.
#[test]
fn digits_beside_other_faults() {
    for d in [0, 10].into_iter().chain(FAR_TOO_MANY) {
        for w in [0, 33, u32::MAX] {
            let mut call = Code::fit(32, 6, 3);
            (call.width, call.digits) = (w, d);
            assert_eq!(answer(&call), 1, "w {w}, d {d}");
        }
        let mut call = Code::fit(31, 6, 65_537);
        call.digits = d;
        assert_eq!(answer(&call), 9, "a long message, d {d}");
        call.key.clear();
        assert_eq!(answer(&call), 9, "and no key, d {d}");
        call.out.clear();
        assert_eq!(answer(&call), 9, "and no output, d {d}");
        call.message.fill(u32::MAX);
        assert_eq!(answer(&call), 9, "and too large words, d {d}");
    }
}

/// 65,536 words pass, and one more is too many.
#[test]
fn long() {
    for (w, d) in [(4, 1), (8, 2), (31, 9), (32, 6), (32, 9)] {
        for words in [65_535, 65_536] {
            assert_eq!(answer(&Code::fit(w, d, words)), 0, "w {w}, {words} words");
        }
        for words in [65_537, 65_538, 131_072] {
            let mut call = Code::fit(w, d, words);
            assert_eq!(answer(&call), 4, "w {w}, {words} words");
            // With a key for the most words as well.
            call.key.truncate(65_537);
            assert_eq!(answer(&call), 4, "w {w}, {words} words");
        }
    }
}

#[test]
fn largest_sums() {
    for w in [4, 8, 16, 31, 32] {
        let mut call = Code::fit(w, most_digits(w), 65_536);
        let largest = u32::MAX >> (32 - w);
        call.message.fill(largest);
        call.key.fill(largest);
        assert_eq!(answer(&call), 0, "w {w}");
    }
}

/// One word more than the message, whatever its length.
#[test]
fn key() {
    for (w, d) in [(4, 1), (16, 4), (32, 6)] {
        for words in [0usize, 1, 2, 5, 65_535, 65_536] {
            let near = words.saturating_sub(1)..words + 10;
            for length in near.chain([0, 2 * words + 2]) {
                let mut call = Code::fit(w, d, words);
                call.key.resize(length, 1);
                let due = if length == words + 1 { 0 } else { 5 };
                assert_eq!(answer(&call), due, "{words} words, key of {length}");
            }
        }
    }
}

/// A byte for two digits, and one for a digit left over. Bytes beyond keep what they held.
#[test]
fn tray() {
    let mut random = Random::new(16);
    for (d, bytes) in (1..).zip([1, 1, 2, 2, 3, 3, 4, 4, 5]) {
        for places in 0..=bytes + 9 {
            for words in [0, 1, 4] {
                let mut call = Code::fit(32, d, words);
                call.out = (0..places).map(|_| random.byte()).collect();
                let due = if places < bytes { 6 } else { 0 };
                assert_eq!(call.check(&mut random), due, "d {d}, {places} bytes");
            }
        }
    }
}

/// The rows of a call: message and key.
fn rows(call: &mut Code) -> [&mut Vec<u32>; 2] {
    [&mut call.message, &mut call.key]
}

#[test]
fn word_at_every_place() {
    for w in 4..32 {
        for words in (0..=8).chain([33]) {
            let call = Code::fit(w, most_digits(w), words);
            for (row, places) in [words, words + 1].into_iter().enumerate() {
                for place in 0..places {
                    for (word, due) in [((1 << w) - 1, 0), (1 << w, 7), (u32::MAX, 7)] {
                        let mut call = call.clone();
                        rows(&mut call)[row][place] = word;
                        let number = answer(&call);
                        assert_eq!(number, due, "w {w}, {word} in row {row}, place {place}");
                    }
                }
            }
        }
    }
}

#[test]
fn word_at_the_ends_of_the_longest_rows() {
    for w in [4, 16, 31] {
        let call = Code::fit(w, 1, 65_536);
        for (row, last) in [65_535, 65_536].into_iter().enumerate() {
            for place in [0, 1, 32_767, last - 1, last] {
                let mut call = call.clone();
                rows(&mut call)[row][place] = 1 << w;
                assert_eq!(answer(&call), 7, "w {w}, row {row}, place {place}");
            }
        }
    }
}

/// The digest of no words is 0.
#[test]
fn no_words() {
    for (w, d, bytes) in [(4, 1, 1), (8, 2, 1), (32, 5, 3), (32, 6, 3), (32, 9, 5)] {
        assert_eq!(code(w, d, &[], &[7]), vec![0; bytes], "w {w}, d {d}");
    }
}

/// Literals that have no allocation.
#[test]
fn empty_rows() {
    assert_eq!(ffi::digest_code(8, 1, &[], &[], &mut []), 5);
    assert_eq!(ffi::digest_code(8, 0, &[], &[], &mut []), 9);
    assert_eq!(ffi::digest_code(3, 1, &[], &[], &mut []), 9);
    assert_eq!(ffi::digest_code(0, 0, &[], &[], &mut []), 1);
    assert_eq!(ffi::digest_code(8, 1, &[], &[7], &mut []), 6);
    assert_eq!(ffi::digest_code(8, 1, &[7], &[], &mut []), 5);
}

/// The answers of the faults of `faulty`, in the order of the tests.
const ORDER: [Refusal; 6] = [
    Refusal::Width,
    Refusal::Digits,
    Refusal::Long,
    Refusal::Key,
    Refusal::Tray,
    Refusal::Word,
];

/// A call of three digits or more at that width but for its faults, 0 to 5.
fn faulty(width: u32, faults: Faults) -> Code {
    let most = most_digits(width);
    let words = faults.pick(2, 5, 65_537, 65_600);
    let mut call = Code {
        width: faults.pick(0, width, 33, 0),
        digits: faults.pick(1, most, most + 1, 0),
        message: vec![1; words],
        key: vec![1; faults.pick(3, words + 1, words, words + 2)],
        out: vec![0xee; faults.pick(4, 5, 1, 0)],
    };
    let row = faults.pick(5, None, Some(0), Some(1));
    if let Some(row) = row {
        *rows(&mut call)[row].last_mut().unwrap() = 1 << width;
    }
    call
}

/// Every set of faults: the answer is the first of them in the order of the tests.
#[test]
fn order_of_the_tests() {
    for width in [10, 16, 31] {
        for faults in Faults::every_set(6) {
            let first = faults.first().map(|fault| ORDER[fault as usize]);
            let due = first.map_or(0, Refusal::number);
            let number = answer(&faulty(width, faults));
            assert_eq!(number, due, "width {width}, {faults:?}");
        }
    }
}

#[test]
fn results_name_the_refusals() {
    for (fault, refusal) in (0..).zip(ORDER) {
        let call = faulty(16, Faults::only(fault));
        let mut out = call.out.clone();
        let Code { width, digits, .. } = call;
        let result = digest_code(width, digits, &call.message, &call.key, &mut out);
        assert_eq!((result, out), (Err(refusal), call.out));
    }
}

/// For each pair of different one-word messages, the keys under which they have one code.
fn keys_that_agree(w: u32, d: u32) -> Vec<u32> {
    let words = 1u32 << w;
    let pairs: Vec<_> = (0..words)
        .flat_map(|first| (first + 1..words).map(move |second| (first as usize, second as usize)))
        .collect();
    let mut agree = vec![0; pairs.len()];
    for key in (0..words * words).map(|key| [key / words, key % words]) {
        let codes: Vec<_> = (0..words)
            .map(|message| {
                let mut out = [0];
                assert_eq!(ffi::digest_code(w, d, &[message], &key, &mut out), 0);
                out
            })
            .collect();
        for (agree, (first, second)) in agree.iter_mut().zip(&pairs) {
            *agree += u32::from(codes[*first] == codes[*second]);
        }
    }
    agree
}

/// The proved bound is (2F + 1)·2^(w·t + 1), F being (2^w - 1) div 10^d.
#[test]
fn keys_that_agree_are_within_the_bound() {
    for (w, d) in [(4, 1), (5, 1), (6, 1), (7, 1), (7, 2)] {
        let quotient = (2u32.pow(w) - 1) / 10u32.pow(d);
        let bound = (2 * quotient + 1) * 2u32.pow(w + 1);
        let counts = keys_that_agree(w, d);
        let largest = counts.iter().max().unwrap();
        println!("keys_that_agree: w {w}, d {d}: {largest} at most, bound {bound}");
        assert!(*largest <= bound, "w {w}, d {d}: {largest}");
    }
}
