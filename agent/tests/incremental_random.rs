//! Many random calls of each entry of an incremental digest, accepted and refused, against the independent implementations.

#![forbid(unsafe_code)]

#[path = "edits/mod.rs"]
mod common;

use common::calls::Call;
use common::random::Random;
use common::{cases, from_environment};
use std::collections::BTreeMap;

/// Long rows are as rare as `cases` has them by itself.
const RARE: usize = 1;

/// How many calls of each entry. Valgrind's run sets fewer.
fn all_calls() -> u64 {
    from_environment("PAIRING_RANDOM_CALLS", 200_000)
}

fn tally<C: Call>(seed: u64, possible: &[u32], draw: impl Fn(&mut Random) -> C) {
    tally_of(all_calls(), seed, possible, draw);
}

/// Makes the calls and reports how often each answer was seen; each possible one must be.
fn tally_of<C: Call>(calls: u64, seed: u64, possible: &[u32], draw: impl Fn(&mut Random) -> C) {
    let entry = C::ENTRY;
    let mut random = Random::new(seed);
    let mut seen = BTreeMap::new();
    for number in possible {
        seen.insert(*number, 0);
    }
    for _ in 0..calls {
        let answer = draw(&mut random).check(&mut random);
        *seen.entry(answer).or_insert(0) += 1;
    }
    println!("{entry}: {calls} random calls from seed {seed}");
    for (answer, times) in &seen {
        println!("{entry}: answer {answer:3} seen {times:6} times");
    }
    assert_eq!(seen.len(), possible.len(), "an answer that is not possible");
    for (answer, times) in seen {
        assert!(times > 0, "answer {answer} was never seen");
    }
}

/// The longest rows are the word digest's to try, so they are rarer here.
#[test]
fn incremental_open() {
    tally(20_250_314, &[0, 1, 2, 3, 4, 5, 6, 7], |random| {
        cases::incremental_open(random, 8 * RARE)
    });
}

#[test]
fn incremental_edit() {
    tally(20_250_315, &[0, 4, 5, 7, 8, 12], |random| {
        cases::incremental_edit(random, RARE)
    });
}

#[test]
fn incremental_read() {
    tally(20_250_316, &[0, 6, 8], cases::incremental_read);
}
