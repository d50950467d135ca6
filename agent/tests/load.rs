//! The load against an independent MT19937, from plain seeds and from arrays: its rows beside the
//! stretch's, and the edges.

#![forbid(unsafe_code)]

mod common;

use common::calls::{settings, Call, Digest, Load};
use common::faults::Faults;
use common::of_both_seeds;
use common::random::Random;
use common::seed::Seed;
use pairing_agent::{ffi, Refusal};

of_both_seeds! {
    every_width_and_length
    key_and_message_are_one_stretch
    longest_rows
    long
    width
    rows_are_kept
    empty_rows
    a_load_is_digested
}

const MOST_KEY: usize = 65_544;
const MOST_MESSAGE: usize = 65_536;

/// Seeds of each kind.
trait Tried: Seed {
    fn tried() -> Vec<Self>;
}

impl Tried for u32 {
    fn tried() -> Vec<u32> {
        vec![0, 1, 5_489, 0x8000_0000, u32::MAX]
    }
}

impl Tried for Vec<u32> {
    /// Of the least and the most words, and of some between.
    fn tried() -> Vec<Vec<u32>> {
        let mut random = Random::new(20);
        let any = [1, 2, 5, 8].map(|words| random.row(words));
        let ends = [vec![0], vec![0; 8], vec![u32::MAX; 8]];
        any.into_iter().chain(ends).collect()
    }
}

fn answer(width: u32, seed: &impl Seed, key_words: usize, message_words: usize) -> u32 {
    let mut random = Random::new(key_words as u64);
    let call = Load {
        width,
        seed: seed.clone(),
        key: random.row(key_words),
        message: random.row(message_words),
    };
    call.check(&mut random)
}

/// The rows of an accepted call.
fn loaded<S: Seed>(w: u32, seed: &S, key: usize, message: usize) -> [Vec<u32>; 2] {
    let mut rows = [key, message].map(|words| vec![0xdead_beef; words]);
    let [key, message] = &mut rows;
    assert_eq!(S::LOAD_NUMBER(w, seed.words(), key, message), 0);
    rows
}

fn every_width_and_length<S: Tried>() {
    for seed in S::tried() {
        for w in 1..=32 {
            for key_words in [0, 1, 623, 624, 625, 1_249] {
                for message_words in [0, 1, 2, 622, 623, 624] {
                    assert_eq!(answer(w, &seed, key_words, message_words), 0);
                }
            }
        }
    }
}

/// Wherever the key ends: within a block of 624 outputs, and on its edge.
fn key_and_message_are_one_stretch<S: Tried>() {
    for seed in S::tried() {
        for w in [1, 13, 32] {
            let mut whole = [0; 2_000];
            assert_eq!(S::STRETCH_NUMBER(w, seed.words(), &mut whole), 0);
            for cut in [0, 1, 300, 623, 624, 625, 1_247, 1_248, 1_249, 2_000] {
                let [key, message] = loaded(w, &seed, cut, 2_000 - cut);
                assert!(key == whole[..cut], "{seed:?}, w {w}, key of {cut}");
                assert!(message == whole[cut..], "{seed:?}, w {w}, key of {cut}");
            }
        }
    }
}

fn longest_rows<S: Tried>() {
    for seed in S::tried() {
        for w in [1, 8, 31, 32] {
            assert_eq!(answer(w, &seed, MOST_KEY, MOST_MESSAGE), 0, "w {w}");
        }
    }
}

fn long<S: Tried>() {
    let seed = &S::tried()[1];
    for (key_words, message_words, due) in [
        (MOST_KEY, 0, 0),
        (MOST_KEY + 1, 0, 4),
        (2 * MOST_KEY, 0, 4),
        (0, MOST_MESSAGE, 0),
        (0, MOST_MESSAGE + 1, 4),
        (0, MOST_KEY, 4),
        (MOST_KEY + 1, MOST_MESSAGE, 4),
        (MOST_KEY, MOST_MESSAGE + 1, 4),
        (MOST_KEY + 1, MOST_MESSAGE + 1, 4),
    ] {
        for w in [1, 8, 32] {
            let number = answer(w, seed, key_words, message_words);
            assert_eq!(number, due, "w {w}, {key_words} and {message_words}");
        }
    }
}

/// Width comes before Long.
fn width<S: Tried>() {
    let seed = &S::tried()[1];
    for w in [0, 33, 34, 64, 256, 1 << 16, u32::MAX] {
        for (key_words, message_words) in [
            (0, 0),
            (3, 2),
            (MOST_KEY + 1, 2),
            (3, MOST_MESSAGE + 1),
            (MOST_KEY + 1, MOST_MESSAGE + 1),
        ] {
            assert_eq!(answer(w, seed, key_words, message_words), 1, "w {w}");
        }
    }
}

/// `check` has seen this too; here it is spelled out.
fn rows_are_kept<S: Tried>() {
    let seed = &S::tried()[1];
    for (w, key_words, message_words, due) in [
        (0, 3, 2, 1),
        (33, 3, 2, 1),
        (32, MOST_KEY + 1, 2, 4),
        (32, 3, MOST_MESSAGE + 1, 4),
    ] {
        let mut rows = [key_words, message_words].map(|words| vec![0xdead_beef; words]);
        let [key, message] = &mut rows;
        assert_eq!(S::LOAD_NUMBER(w, seed.words(), key, message), due);
        assert!(rows.concat().iter().all(|word| *word == 0xdead_beef));
    }
}

/// A row of no words takes no output.
fn empty_rows<S: Tried>() {
    for seed in S::tried() {
        let [_, alone] = loaded(32, &seed, 0, 9);
        let [key, none] = loaded(32, &seed, 9, 0);
        assert_eq!((key, none), (alone, vec![]));
        let empty = |w| S::LOAD_NUMBER(w, seed.words(), &mut [], &mut []);
        assert_eq!([0, 1, 32, 33].map(empty), [1, 0, 0, 1]);
    }
}

/// Both rows are fit for the width, up to the most words of both.
fn a_load_is_digested<S: Tried>() {
    let seed = &S::tried()[1];
    for w in 1..=32 {
        for (t, n) in [(0, 1), (1, 8), (623, 3), (65_536, 8)] {
            let mut call = Digest::<u32>::fit(settings(w, w, n), t);
            [call.key, call.message] = loaded(w, seed, t + n as usize, t);
            assert_eq!(call.check(&mut Random::new(21)), 0, "w {w}, t {t}");
        }
    }
}

#[test]
fn sizes_of_an_array() {
    for words in (0..=20).chain([624, MOST_KEY + 1]) {
        let due = if (1..=8).contains(&words) { 0 } else { 11 };
        for (key_words, message_words) in [(0, 0), (4, 0), (0, 3), (700, 699)] {
            let number = answer(32, &vec![7; words], key_words, message_words);
            assert_eq!(number, due, "{words} words");
        }
    }
}

/// A call but for its faults: 0 in the width, 1 in the seed, 2 in the length of either row.
fn faulty(faults: Faults) -> Load<Vec<u32>> {
    Load {
        width: faults.pick(0, 16, 33, 0),
        seed: vec![7; faults.pick(1, 8, 9, 0)],
        key: vec![0xdead_beef; faults.pick(2, MOST_KEY, MOST_KEY + 1, 2)],
        message: vec![0xdead_beef; faults.pick(2, MOST_MESSAGE, 1, MOST_MESSAGE + 1)],
    }
}

/// Every set of faults: the first that is tested is the answer.
#[test]
fn order_of_the_tests_of_an_array() {
    for faults in Faults::every_set(3) {
        let due = faults.first().map_or(0, |fault| [1, 11, 4][fault as usize]);
        let number = faulty(faults).check(&mut Random::new(22));
        assert_eq!(number, due, "{faults:?}");
    }
}

#[test]
fn results_name_the_refusals() {
    let refusals = [Refusal::Width, Refusal::Seed, Refusal::Long];
    for (fault, refusal) in (0..).zip(refusals) {
        let call = faulty(Faults::only(fault));
        let (mut key, mut message) = (call.key.clone(), call.message.clone());
        let result = pairing_agent::load_array(call.width, &call.seed, &mut key, &mut message);
        assert_eq!(result, Err(refusal));
        assert!(key == call.key && message == call.message, "{refusal:?}");
    }
    let (mut key, mut message) = (vec![3; MOST_KEY], vec![3; MOST_MESSAGE + 1]);
    let mut load = |w, words| pairing_agent::load(w, 7, &mut key, &mut message[..words]);
    assert_eq!(load(33, MOST_MESSAGE + 1), Err(Refusal::Width));
    assert_eq!(load(32, MOST_MESSAGE + 1), Err(Refusal::Long));
    assert_eq!(load(32, MOST_MESSAGE), Ok(()));
    assert_eq!(message[MOST_MESSAGE], 3);
}

/// Of seed 5489, and of the array that the generator's authors chose.
#[test]
fn published_outputs() {
    let (mut key, mut message) = ([0; 2], [0; 1]);
    assert_eq!(ffi::load(32, 5_489, &mut key, &mut message), 0);
    assert_eq!((key, message), ([0xd091_bb5c, 0x22ae_9ef6], [0xe7e1_faee]));
    let array = [0x123, 0x234, 0x345, 0x456];
    assert_eq!(ffi::load_array(32, &array, &mut key, &mut message), 0);
    assert_eq!(
        (key, message),
        ([1_067_595_299, 955_945_823], [477_289_528])
    );
}
