//! Many random calls of each entry, accepted and refused, against the independent implementations.

#![forbid(unsafe_code)]

mod common;

use common::calls::Call;
use common::random::Random;
use common::{cases, from_environment};
use std::collections::BTreeMap;

/// Long rows are as rare as `cases` has them by itself.
const RARE: usize = 1;

/// How many calls of each entry. Valgrind's run sets fewer.
fn all_calls() -> u64 {
    from_environment("PAIRING_RANDOM_CALLS", 200_000)
}

/// Those of an entry that is the stretch but for its seed or its rows, and takes longer.
fn fewer_calls() -> u64 {
    all_calls() / 4
}

fn tally<C: Call>(seed: u64, possible: &[u32], draw: impl Fn(&mut Random) -> C) {
    tally_of(all_calls(), seed, possible, draw);
}

/// Makes the calls and reports how often each answer was seen; each possible one must be.
fn tally_of<C: Call>(calls: u64, seed: u64, possible: &[u32], draw: impl Fn(&mut Random) -> C) {
    let entry = C::ENTRY;
    let mut random = Random::new(seed);
    let mut seen = BTreeMap::new();
    for number in possible {
        seen.insert(*number, 0);
    }
    for _ in 0..calls {
        let answer = draw(&mut random).check(&mut random);
        *seen.entry(answer).or_insert(0) += 1;
    }
    println!("{entry}: {calls} random calls from seed {seed}");
    for (answer, times) in &seen {
        println!("{entry}: answer {answer:3} seen {times:6} times");
    }
    assert_eq!(seen.len(), possible.len(), "an answer that is not possible");
    for (answer, times) in seen {
        assert!(times > 0, "answer {answer} was never seen");
    }
}

#[test]
fn digest_words() {
    tally(20_250_301, &[0, 1, 2, 3, 4, 5, 6, 7], |random| {
        cases::digest::<u32>(random, RARE)
    });
}

#[test]
fn digest_bytes() {
    tally(20_250_303, &[0, 1, 2, 3, 4, 5, 6, 7], |random| {
        cases::digest::<u8>(random, RARE)
    });
}

#[test]
fn digest_code() {
    tally(20_250_305, &[0, 1, 4, 5, 6, 7, 9], |random| {
        cases::code(random, RARE)
    });
}

/// The rows of several peers are longer, so the long ones are rarer.
#[test]
fn digest_peers() {
    tally(20_250_306, &[0, 1, 2, 3, 4, 5, 6, 7, 10], |random| {
        cases::peers(random, 8 * RARE)
    });
}

#[test]
fn stream_open() {
    tally(20_250_310, &[0, 1, 2, 3, 5, 6, 7], cases::stream_open);
}

#[test]
fn stream_push() {
    tally(20_250_311, &[0, 4, 5, 7, 8], |random| {
        cases::stream_push(random, RARE)
    });
}

#[test]
fn stream_read() {
    tally(20_250_312, &[0, 6, 8], cases::stream_read);
}

#[test]
fn stretch() {
    tally(20_250_304, &[0, 1, 4], |random| {
        cases::stretch::<u32>(random, RARE)
    });
}

#[test]
fn stretch_array() {
    tally_of(fewer_calls(), 20_250_307, &[0, 1, 4, 11], |random| {
        cases::stretch::<Vec<u32>>(random, RARE)
    });
}

#[test]
fn load() {
    tally_of(fewer_calls(), 20_250_308, &[0, 1, 4], |random| {
        cases::load::<u32>(random, RARE)
    });
}

#[test]
fn load_array() {
    tally_of(fewer_calls(), 20_250_309, &[0, 1, 4, 11], |random| {
        cases::load::<Vec<u32>>(random, RARE)
    });
}

#[test]
fn digests_match() {
    tally(20_250_302, &[3, 6, 100, 101], cases::digests_match);
}
