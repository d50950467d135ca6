//! The worked digests, and all calls of the smallest sizes.

#![forbid(unsafe_code)]

mod common;

use common::calls::{settings, Call, Digest, Match};
use common::random::Random;
use pairing_agent::{digest_bytes, digest_words, digests_match};

/// The digest, in a row that has one place more than it needs.
fn worked(w: u32, b: u32, n: u32, message: &[u32], key: &[u32]) -> Vec<u32> {
    let call = Digest {
        settings: settings(w, b, n),
        message: message.to_vec(),
        key: key.to_vec(),
        out: vec![0x5555_5555; n as usize + 1],
    };
    assert_eq!(call.check(&mut Random::new(1)), 0);
    let mut out = call.out;
    let result = digest_words(call.settings, message, key, &mut out);
    assert_eq!(result, Ok(()));
    assert_eq!(out.pop(), Some(0x5555_5555));
    out
}

#[test]
fn case_a() {
    assert_eq!(worked(8, 8, 1, &[1], &[5, 200]), [0x05]);
}

#[test]
fn case_b() {
    assert_eq!(worked(8, 8, 1, &[255], &[255, 255]), [0xff]);
}

#[test]
fn case_c() {
    assert_eq!(worked(8, 8, 2, &[3, 7], &[10, 20, 100, 250]), [0xac, 0xff]);
}

#[test]
fn case_d() {
    assert_eq!(worked(8, 4, 2, &[3, 7], &[10, 20, 100, 250]), [0x0c, 0x0f]);
}

#[test]
fn case_e() {
    let most = u32::MAX;
    assert_eq!(worked(32, 32, 1, &[most], &[most, most]), [most]);
}

#[test]
fn case_f() {
    assert_eq!(worked(8, 8, 1, &[], &[7]), [0]);
}

/// Bytes 01 02 03, closed by 80, are at width 16 the words 0x0201 0x8003.
#[test]
fn case_h() {
    let mut random = Random::new(12);
    for n in 1..=8 {
        for b in 1..=16 {
            let key: Vec<u32> = random.row(2 + n).iter().map(|k| k >> 16).collect();
            let settings = settings(16, b, n as u32);
            let digest = worked(16, b, n as u32, &[0x0201, 0x8003], &key);
            let mut out = random.row(n);
            let result = digest_bytes(settings, &[0x01, 0x02, 0x03], &key, &mut out);
            assert_eq!((result, out), (Ok(()), digest));
        }
    }
}

/// All keys of two words below 4.
fn keys() -> impl Iterator<Item = [u32; 2]> {
    (0..16).map(|k| [k / 4, k % 4])
}

#[test]
fn case_i() {
    let agreeing = keys().filter(|key| {
        let one = worked(2, 2, 1, &[1], key);
        let three = worked(2, 2, 1, &[3], key);
        digests_match(1, &one, &three).unwrap()
    });
    assert_eq!(agreeing.count(), 6);
}

#[test]
fn case_j() {
    for digest in 0..4 {
        let giving = keys().filter(|key| worked(2, 2, 1, &[3], key) == [digest]);
        assert_eq!(giving.count(), 4);
    }
}

/// Every row of that many words below 2^w.
fn rows(w: u32, words: u32) -> impl Iterator<Item = Vec<u32>> {
    (0..1u32 << (w * words)).map(move |r| (0..words).map(|i| (r >> (w * i)) % (1 << w)).collect())
}

#[test]
fn all_calls_of_the_smallest_sizes() {
    let mut random = Random::new(2);
    let mut calls = 0;
    for (w, t, n) in [
        (1, 3, 1),
        (1, 3, 2),
        (1, 2, 4),
        (2, 1, 1),
        (2, 1, 2),
        (2, 2, 1),
        (3, 1, 1),
    ] {
        for b in 1..=w {
            for message in rows(w, t) {
                for key in rows(w, t + n) {
                    let call = Digest {
                        settings: settings(w, b, n),
                        message: message.clone(),
                        key,
                        out: random.row(n as usize),
                    };
                    assert_eq!(call.check(&mut random), 0);
                    calls += 1;
                }
            }
        }
    }
    println!("all_calls_of_the_smallest_sizes: {calls} calls");
}

#[test]
fn a_difference_at_any_place_and_bit_is_no_match() {
    let mut random = Random::new(3);
    for n in 1..=8 {
        let first = random.row(n as usize);
        let mut call = Match {
            words: n,
            second: first.clone(),
            first,
        };
        assert_eq!(call.check(&mut random), 100);
        for place in 0..n as usize {
            for bit in 0..32 {
                call.second[place] ^= 1 << bit;
                assert_eq!(call.check(&mut random), 101);
                call.second[place] ^= 1 << bit;
            }
        }
    }
}

#[test]
fn a_row_matches_itself() {
    let row = Random::new(4).row(8);
    for n in 1..=8 {
        assert_eq!(digests_match(n as u32, &row[..n], &row[..n]), Ok(true));
    }
}
