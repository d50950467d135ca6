//! Peers: worked digests, every number of peers and digest words, the edges of each test, the order
//! of the tests, and what one peer's key is to another's row.

#![forbid(unsafe_code)]

mod common;

use common::calls::{settings, Call, Peers};
use common::cases;
use common::faults::Faults;
use common::random::Random;
use pairing_agent::{digest_peers, ffi, Refusal, Settings};

/// Message lengths, odd and even: the library takes the words in pairs, and an odd last one alone.
const LENGTHS: [usize; 14] = [0, 1, 2, 3, 5, 30, 31, 32, 33, 34, 63, 64, 65, 129];

fn answer(call: &Peers) -> u32 {
    call.check(&mut Random::new(21))
}

fn fit(w: u32, n: u32, p: u32, words: usize) -> Peers {
    Peers::fit(settings(w, w, n), p, words)
}

/// The rows that the library writes.
fn rows(call: &Peers) -> Vec<Vec<u32>> {
    let mut out = call.out.clone();
    let number = ffi::digest_peers(
        call.settings,
        call.peers,
        &call.message,
        &call.keys,
        &mut out,
    );
    assert_eq!(number, 0, "{}", call.sizes());
    out.chunks(call.settings.words as usize)
        .map(<[u32]>::to_vec)
        .collect()
}

/// Case C's key at width 8 has the digest words 172 and 255: of its first three words, and of the
/// three that start at its second.
#[test]
fn worked_case() {
    let key = [10, 20, 100, 250];
    let keys = [&key[..3], &key[1..]].concat();
    let mut out = [9; 3];
    let result = digest_peers(settings(8, 8, 1), 2, &[3, 7], &keys, &mut out);
    assert_eq!((result, out), (Ok(()), [172, 255, 9]));
    // The same peer twice, both digest words.
    let mut out = [9; 5];
    let result = digest_peers(settings(8, 8, 2), 2, &[3, 7], &key.repeat(2), &mut out);
    assert_eq!((result, out), (Ok(()), [172, 255, 172, 255, 9]));
}

#[test]
fn every_number_of_peers_and_digest_words() {
    for w in [1, 8, 31, 32] {
        for n in 1..=8 {
            for p in 1..=16 {
                for words in LENGTHS {
                    let mut call = fit(w, n, p, words);
                    call.out.extend([7, 8, 9]);
                    assert_eq!(answer(&call), 0, "{}", call.sizes());
                }
            }
        }
    }
}

/// Row i is the library's own word digest under key i.
#[test]
fn rows_are_the_word_digests() {
    for (w, b) in [
        (1, 1),
        (7, 3),
        (8, 8),
        (16, 9),
        (31, 31),
        (32, 17),
        (32, 32),
    ] {
        for n in 1..=8 {
            for (p, words) in [(1, 32), (2, 3), (5, 65), (15, 64), (16, 1_001)] {
                let call = Peers::fit(settings(w, b, n), p, words);
                for (key, row) in call.key_rows().zip(rows(&call)) {
                    let mut digest = vec![0; n as usize];
                    let number = ffi::digest_words(call.settings, &call.message, key, &mut digest);
                    assert_eq!((number, digest), (0, row), "{}", call.sizes());
                }
            }
        }
    }
}

/// Accepted or refused, a call of one peer is answered and written as the word digest's is.
#[test]
fn one_peer_has_the_word_digest() {
    let mut random = Random::new(22);
    for _ in 0..100_000 {
        let call = cases::digest::<u32>(&mut random, 20);
        let mut outs = [call.out.clone(), call.out.clone()];
        let [alone, peer] = &mut outs;
        let due = ffi::digest_words(call.settings, &call.message, &call.key, alone);
        let number = ffi::digest_peers(call.settings, 1, &call.message, &call.key, peer);
        assert_eq!(number, due, "{}", call.sizes());
        assert_eq!(outs[0], outs[1], "{}", call.sizes());
    }
}

#[test]
fn settings_out_of_range() {
    for w in [0, 33, 64, u32::MAX] {
        for p in [0, 1, 17] {
            let mut call = fit(8, 1, 1, 3);
            (call.settings.width, call.peers) = (w, p);
            assert_eq!(answer(&call), 1, "w {w}, p {p}");
        }
    }
    for b in [0, 9, u32::MAX] {
        let mut call = fit(8, 2, 3, 3);
        call.settings.kept = b;
        assert_eq!(answer(&call), 2, "b {b}");
    }
    for n in [0, 9, 257, u32::MAX] {
        let mut call = fit(8, 2, 3, 3);
        call.settings.words = n;
        assert_eq!(answer(&call), 3, "n {n}");
    }
}

#[test]
fn peers() {
    for p in 0..=40 {
        for words in [0, 3, 33] {
            let call = fit(8, 2, p, words);
            let due = if (1..=16).contains(&p) { 0 } else { 10 };
            assert_eq!(answer(&call), due, "p {p}");
        }
    }
    // The keys of so many could not be lent; Peers is tested before them.
    for p in [17, 256, 257, 1 << 16, 1 << 31, u32::MAX - 15, u32::MAX] {
        let mut call = fit(8, 2, 1, 3);
        call.peers = p;
        assert_eq!(answer(&call), 10, "p {p}");
    }
}

/// 65,536 words pass, and one more is too many.
#[test]
fn long() {
    for (n, p) in [(1, 1), (8, 2), (3, 16)] {
        for words in [65_535, 65_536] {
            assert_eq!(answer(&fit(16, n, p, words)), 0, "{words} words");
        }
        let mut call = fit(16, n, p, 65_537);
        assert_eq!(answer(&call), 4, "65,537 words");
        // With keys for the most words as well, and with none.
        call.keys.truncate(p as usize * (65_536 + n as usize));
        assert_eq!(answer(&call), 4);
        call.keys.clear();
        assert_eq!(answer(&call), 4);
    }
}

#[test]
fn largest_sums() {
    for w in [1, 8, 31, 32] {
        for (n, p) in [(8, 16), (1, 16), (8, 1)] {
            let mut call = fit(w, n, p, 65_536);
            let largest = u32::MAX >> (32 - w);
            call.message.fill(largest);
            call.keys.fill(largest);
            assert_eq!(answer(&call), 0, "w {w}, n {n}, p {p}");
        }
    }
}

/// p·(t + n) words, and no other number.
#[test]
fn key() {
    for (n, p) in [(1, 1), (1, 16), (8, 1), (3, 5), (8, 16)] {
        for words in [0, 1, 5, 33] {
            let call = fit(16, n, p, words);
            let due = call.keys.len();
            let each = words + n as usize;
            // One word off, one key off, one key alone, no word for a digest, none.
            let others = [
                due - 1,
                due + 1,
                due - each,
                due + each,
                each,
                p as usize * words,
                0,
            ];
            for length in others.into_iter().filter(|length| *length != due) {
                let mut call = call.clone();
                call.keys.resize(length, 1);
                assert_eq!(answer(&call), 5, "{}", call.sizes());
            }
        }
    }
}

/// Places beyond the rows keep what they held.
#[test]
fn tray() {
    let mut random = Random::new(23);
    for n in 1..=8 {
        for p in 1..=16 {
            let due = n as usize * p as usize;
            for places in [
                0,
                n as usize - 1,
                due - 1,
                due,
                due + 1,
                due + n as usize,
                200,
            ] {
                let mut call = fit(8, n, p, 3);
                call.out = random.row(places);
                let refusal = if places < due { 6 } else { 0 };
                assert_eq!(call.check(&mut random), refusal, "n {n}, p {p}, {places}");
            }
        }
    }
}

/// A word at every place of the message and of every key, its last words included.
#[test]
fn word_at_every_place() {
    for (w, n, p, words) in [(4, 1, 16, 3), (8, 8, 3, 33), (16, 3, 5, 64), (31, 2, 2, 1)] {
        let call = fit(w, n, p, words);
        for place in 0..words + call.keys.len() {
            for (word, due) in [((1 << w) - 1, 0), (1 << w, 7), (u32::MAX, 7)] {
                let mut call = call.clone();
                let spot = match place.checked_sub(words) {
                    None => &mut call.message[place],
                    Some(place) => &mut call.keys[place],
                };
                *spot = word;
                assert_eq!(answer(&call), due, "{word} at {place}, {}", call.sizes());
            }
        }
    }
}

#[test]
fn word_at_the_ends_of_the_longest_keys() {
    let call = fit(16, 8, 16, 65_536);
    let each = 65_544;
    for peer in [0, 7, 15] {
        for place in [0, 32_767, 65_535, 65_536, 65_543] {
            let mut call = call.clone();
            call.keys[peer * each + place] = 1 << 16;
            assert_eq!(answer(&call), 7, "peer {peer}, place {place}");
        }
    }
}

/// Literals that have no allocation.
#[test]
fn empty_rows() {
    let empty = |w, b, n, p| ffi::digest_peers(settings(w, b, n), p, &[], &[], &mut []);
    assert_eq!(empty(8, 8, 1, 1), 5);
    assert_eq!(empty(8, 8, 1, 0), 10);
    assert_eq!(empty(8, 8, 1, 17), 10);
    assert_eq!(empty(8, 8, 0, 0), 3);
    assert_eq!(empty(8, 0, 0, 0), 2);
    assert_eq!(empty(0, 0, 0, 0), 1);
    let number = ffi::digest_peers(settings(8, 8, 1), 2, &[], &[7, 7], &mut []);
    assert_eq!(number, 6);
}

/// No words have digests of zero under any keys.
#[test]
fn no_words() {
    for n in 1..=8 {
        for p in 1..=16 {
            let zeros = vec![vec![0; n as usize]; p as usize];
            assert_eq!(rows(&fit(32, n, p, 0)), zeros, "n {n}, p {p}");
        }
    }
}

/// The answers of the faults of `faulty`, in the order of the tests.
const ORDER: [Refusal; 8] = [
    Refusal::Width,
    Refusal::Kept,
    Refusal::Count,
    Refusal::Peers,
    Refusal::Long,
    Refusal::Key,
    Refusal::Tray,
    Refusal::Word,
];

/// A call of two peers at that width but for its faults, 0 to 7.
fn faulty(width: u32, faults: Faults) -> Peers {
    let w = faults.pick(0, width, 33, 0);
    let b = faults.pick(1, width, 0, width + 26);
    // A count of 0, or no peer, has no tray that is too small, nor any key word.
    let n = faults.pick(2, 2, 9, 0);
    let p = faults.pick(3, 2, 17, 0);
    let words = faults.pick(4, 5, 65_537, 65_600);
    // Of too many peers, no more keys are lent: they are not looked at.
    let due = p.min(2) * (words + n);
    let mut call = Peers {
        settings: settings(w, b, n as u32),
        peers: p as u32,
        message: vec![1; words],
        keys: vec![1; faults.pick(5, due, due.saturating_sub(1), due + 1)],
        out: vec![0xdead_beef; faults.pick(6, p * n, (p * n).saturating_sub(1), 0)],
    };
    let [message, last] = faults.pick(7, [false; 2], [true, false], [false, true]);
    if message {
        *call.message.last_mut().unwrap() = 1 << width;
    }
    if let (true, Some(word)) = (last, call.keys.last_mut()) {
        *word = 1 << width;
    }
    call
}

/// Every set of faults: the answer is the first of them in the order of the tests. What is due is
/// found by the independent implementation, and beside it by the list, where each fault of the set
/// can be had together.
#[test]
fn order_of_the_tests() {
    let mut random = Random::new(24);
    for faults in Faults::every_set(8) {
        let call = faulty(16, faults);
        let due = call.due();
        let made = call.make(&due, &mut random);
        assert!(made.wrong.is_empty(), "{}", call.report(&made, &due));
        if call.settings.words != 0 && call.peers != 0 {
            let first = faults.first().map(|fault| ORDER[fault as usize]);
            assert_eq!(due.answer, first.map_or(0, Refusal::number), "{faults:?}");
        }
    }
}

#[test]
fn results_name_the_refusals() {
    for (fault, refusal) in (0..).zip(ORDER) {
        let call = faulty(16, Faults::only(fault));
        let mut out = call.out.clone();
        let result = digest_peers(
            call.settings,
            call.peers,
            &call.message,
            &call.keys,
            &mut out,
        );
        assert_eq!((result, out), (Err(refusal), call.out));
    }
}

/// Replaces every key but one by random words below 2^w: the row of that one stays.
#[test]
fn other_keys_do_not_reach_a_row() {
    let mut random = Random::new(25);
    for (w, n, p, words) in [
        (8, 1, 2, 4),
        (16, 8, 16, 33),
        (32, 3, 7, 200),
        (1, 2, 16, 64),
    ] {
        let call = fit(w, n, p, words);
        let before = rows(&call);
        let each = words + n as usize;
        for (peer, row) in before.iter().enumerate() {
            let mut other = call.clone();
            for (place, word) in other.keys.iter_mut().enumerate() {
                if place / each != peer {
                    *word = random.word() >> (32 - w);
                }
            }
            assert_eq!(answer(&other), 0);
            assert_eq!(rows(&other)[peer], *row, "{}", call.sizes());
        }
    }
}

/// Two slices of the right length are answered alike, or one has a word of 2^w or more, is refused
/// for it, and the other is accepted.
#[test]
fn a_key_reaches_the_answer_in_one_way() {
    let mut random = Random::new(26);
    let mut reached = 0;
    for _ in 0..50_000 {
        let mut call = cases::peers(&mut random, 1_000);
        let Settings { width, words, .. } = call.settings;
        let due = call.peers as usize * (call.message.len() + words as usize);
        if call.peers > 16 || words > 8 || due > 10_000 {
            continue;
        }
        let slice = |random: &mut Random| -> Vec<u32> {
            let large = random.once_in(2);
            let word = |_| match large && random.once_in(due.max(1)) {
                true => random.word(),
                false => random.word() & ((1u64 << width.min(32)) - 1) as u32,
            };
            (0..due).map(word).collect()
        };
        let slices = [slice(&mut random), slice(&mut random)];
        let answers = slices.clone().map(|keys| {
            call.keys = keys;
            answer(&call)
        });
        if answers[0] != answers[1] {
            let fits = slices.map(|keys| {
                let fits = |word: &u32| u64::from(*word) < 1 << width;
                keys.iter().all(fits)
            });
            assert_ne!(fits[0], fits[1]);
            assert_eq!(answers, fits.map(|fits| if fits { 0 } else { 7 }));
            reached += 1;
        }
    }
    println!("a_key_reaches_the_answer_in_one_way: in {reached} calls");
    assert!(reached > 1_000);
}

/// A word that is too large in one key leaves every row unwritten.
#[test]
fn one_key_refuses_the_call_for_all() {
    for peer in 0..16 {
        let mut call = fit(8, 2, 16, 5);
        call.keys[peer * 7 + 6] = 256;
        let mut out = call.out.clone();
        let result = digest_peers(call.settings, 16, &call.message, &call.keys, &mut out);
        assert_eq!(result, Err(Refusal::Word), "peer {peer}");
        assert_eq!(out, call.out, "peer {peer}");
    }
}
