//! The stretch against an independent MT19937: plain seeds and arrays, widths and lengths, and the
//! edges.

#![forbid(unsafe_code)]

mod common;

use common::calls::{settings, Call, Digest, Stretch};
use common::faults::Faults;
use common::mt19937::Generator;
use common::random::Random;
use common::seed::Seed;
use pairing_agent::{ffi, Refusal};

/// The most words of a stretch.
const MOST: usize = 65_544;

/// Around each refill, and the ends.
const LENGTHS: [usize; 11] = [0, 1, 2, 623, 624, 625, 1_247, 1_248, 1_249, MOST - 1, MOST];

/// Seeds at the ends of the range, and ones that are in use.
const SEEDS: [u32; 8] = [
    0,
    1,
    2,
    5_489,
    19_650_218,
    0x7fff_ffff,
    0x8000_0000,
    u32::MAX,
];

fn answer(width: u32, seed: impl Seed, words: usize) -> u32 {
    let mut random = Random::new(words as u64);
    let out = random.row(words);
    Stretch { width, seed, out }.check(&mut random)
}

/// The row of an accepted call.
fn stretched<S: Seed>(w: u32, seed: S, words: usize) -> Vec<u32> {
    let mut out = vec![0xdead_beef; words];
    assert_eq!(S::STRETCH_NUMBER(w, seed.words(), &mut out), 0);
    out
}

#[test]
fn every_width_and_length() {
    let mut random = Random::new(9);
    let mut calls = 0;
    for w in 1..=32 {
        for words in LENGTHS {
            for seed in SEEDS.into_iter().chain([random.word(), random.word()]) {
                assert_eq!(answer(w, seed, words), 0);
                calls += 1;
            }
        }
    }
    println!("every_width_and_length: {calls} calls");
}

#[test]
fn many_seeds() {
    let mut random = Random::new(10);
    let small = 0..5_000;
    let one_bit = (0..32).flat_map(|bit| [1 << bit, !(1 << bit)]);
    let any: Vec<u32> = random.row(5_000);
    let mut calls = 0;
    for seed in small.chain(one_bit).chain(any) {
        let w = 1 + random.below(32) as u32;
        let words = 600 + random.below(700);
        assert_eq!(answer(w, seed, words), 0);
        calls += 1;
    }
    println!("many_seeds: {calls} calls");
}

#[test]
fn every_short_length() {
    for words in 0..=1_300 {
        assert_eq!(answer(32, 4_357, words), 0);
        assert_eq!(answer(7, 4_357, words), 0);
    }
}

/// The C++ standard fixes this output.
#[test]
fn output_10_000_of_seed_5489() {
    assert_eq!(stretched(32, 5_489, 10_000)[9_999], 4_123_659_995);
    let mut generator = Generator::new(5_489);
    let last = (0..10_000).map(|_| generator.next()).last();
    assert_eq!(last, Some(4_123_659_995));
}

#[test]
fn a_shorter_row_is_the_start_of_a_longer_one() {
    let longest = stretched(32, 77, MOST);
    for words in LENGTHS {
        assert!(stretched(32, 77, words) == longest[..words]);
    }
}

#[test]
fn narrower_words_are_the_upper_bits() {
    let whole = stretched(32, 78, 2_000);
    for w in 1..32 {
        let upper: Vec<u32> = whole.iter().map(|word| word >> (32 - w)).collect();
        assert!(stretched(w, 78, 2_000) == upper, "w {w}");
    }
}

/// In binary, an output and the digits that each width takes of it, the first ones.
#[test]
fn a_word_of_w_bits_is_the_first_w_binary_digits() {
    let output = format!("{:032b}", 4_123_659_995u32);
    for w in 1..=32 {
        let last = stretched(w, 5_489, 10_000)[9_999];
        assert_eq!(
            format!("{last:0w$b}", w = w as usize),
            output[..w as usize],
            "w {w}"
        );
    }
}

#[test]
fn long() {
    for w in [1, 8, 16, 31, 32] {
        for (words, due) in [
            (MOST - 1, 0),
            (MOST, 0),
            (MOST + 1, 4),
            (MOST + 2, 4),
            (2 * MOST, 4),
        ] {
            assert_eq!(answer(w, 5, words), due, "w {w}, {words} words");
        }
    }
}

/// `check` has seen this too; here it is spelled out.
#[test]
fn a_row_that_is_too_long_is_not_touched() {
    let mut out = vec![0xdead_beef; MOST + 1];
    assert_eq!(ffi::stretch(32, 5_489, &mut out), 4);
    assert!(out.iter().all(|word| *word == 0xdead_beef));
}

#[test]
fn width() {
    for w in [0, 33, 34, 40, 64, 65, 256, 1 << 16, 1 << 31, u32::MAX] {
        for words in [0, 1, 2, 625, MOST] {
            assert_eq!(answer(w, 6, words), 1, "w {w}, {words} words");
        }
    }
    for w in 1..=32 {
        assert_eq!(answer(w, 6, 3), 0, "w {w}");
    }
}

#[test]
fn width_before_long() {
    for w in [0, 33, u32::MAX] {
        for words in [MOST + 1, MOST + 2, 2 * MOST] {
            assert_eq!(answer(w, 6, words), 1, "w {w}, {words} words");
        }
    }
}

#[test]
fn empty_row() {
    assert_eq!(ffi::stretch(1, 0, &mut []), 0);
    assert_eq!(ffi::stretch(32, 0, &mut []), 0);
    assert_eq!(ffi::stretch(0, 0, &mut []), 1);
    assert_eq!(ffi::stretch(33, 0, &mut []), 1);
}

/// The digest takes a stretched row as its key, up to the most words of both.
#[test]
fn a_stretched_row_is_a_key() {
    let mut random = Random::new(11);
    for w in 1..=32 {
        for t in [0, 1, 623, 65_536] {
            let mut call = Digest::<u32>::fit(settings(w, w, 8), t);
            call.key = stretched(w, random.word(), t + 8);
            assert_eq!(call.check(&mut random), 0, "w {w}, t {t}");
        }
    }
}

#[test]
fn results_name_the_refusals() {
    let mut row = vec![3; MOST + 1];
    assert_eq!(pairing_agent::stretch(0, 1, &mut row), Err(Refusal::Width));
    assert_eq!(pairing_agent::stretch(33, 1, &mut row), Err(Refusal::Width));
    assert_eq!(pairing_agent::stretch(32, 1, &mut row), Err(Refusal::Long));
    assert!(row.iter().all(|word| *word == 3));
    assert_eq!(pairing_agent::stretch(32, 1, &mut row[1..]), Ok(()));
    assert_eq!(row[0], 3);
}

/// The array whose outputs the generator's authors publish.
const PUBLISHED: [u32; 4] = [0x123, 0x234, 0x345, 0x456];

/// The first and the last of the thousand that are published.
#[test]
fn published_outputs_of_an_array() {
    let mut generator = Generator::by_array(&PUBLISHED);
    let independent = (0..1_000).map(|_| generator.next() as u32).collect();
    for row in [stretched(32, PUBLISHED.to_vec(), 1_000), independent] {
        assert_eq!(row[..3], [1_067_595_299, 955_945_823, 477_289_528]);
        assert_eq!(row[997..], [2_416_995_901, 1_397_735_321, 3_460_025_646]);
    }
}

/// Arrays of every size: of zeros, of all bits set, of the highest bit, and of any words.
fn arrays() -> Vec<Vec<u32>> {
    let mut random = Random::new(12);
    let mut arrays = vec![];
    for words in 1..=8 {
        let alike = [0, u32::MAX, 0x8000_0000].map(|word| vec![word; words]);
        arrays.extend(alike);
        arrays.push(random.row(words));
    }
    arrays
}

#[test]
fn every_width_and_length_of_arrays() {
    for array in arrays() {
        for w in 1..=32 {
            for words in [0, 1, 2, 623, 624, 625, 1_249] {
                assert_eq!(answer(w, array.clone(), words), 0);
            }
        }
        for words in [MOST - 1, MOST] {
            assert_eq!(answer(32, array.clone(), words), 0);
        }
    }
}

#[test]
fn many_arrays() {
    let mut random = Random::new(14);
    for _ in 0..5_000 {
        let array = 1 + random.below(8);
        let array = random.row(array);
        let w = 1 + random.below(32) as u32;
        assert_eq!(answer(w, array, 600 + random.below(700)), 0);
    }
}

/// Both kinds remain, and every word of an array counts, at its place.
#[test]
fn arrays_and_plain_seeds_are_told_apart() {
    let mut rows = vec![];
    for seed in SEEDS {
        rows.push(stretched(32, seed, 4));
        rows.push(stretched(32, vec![seed], 4));
    }
    for array in [&[1, 5][..], &[5, 1], &[1, 5, 0], &[0, 1, 5], &[1, 5, 1, 5]] {
        rows.push(stretched(32, array.to_vec(), 4));
    }
    for array in arrays().into_iter().filter(|array| array.len() > 1) {
        rows.push(stretched(32, array, 4));
    }
    let all = rows.len();
    rows.sort_unstable();
    rows.dedup();
    assert_eq!(rows.len(), all);
}

/// The published filling adds each word and its place in the array, and then begins again: 2 1 adds
/// 2 at every step, as 2 alone does.
#[test]
fn arrays_that_add_alike_are_one_seed() {
    let row = stretched(32, vec![2, 1, 0, u32::MAX], 700);
    for array in [vec![2], vec![2, 1], vec![2, 1, 0]] {
        assert!(stretched(32, array, 700) == row);
    }
}

#[test]
fn sizes_of_an_array() {
    for words in (0..=20).chain([623, 624, 625, MOST, MOST + 1]) {
        let due = if (1..=8).contains(&words) { 0 } else { 11 };
        for places in [0, 1, 700] {
            assert_eq!(answer(32, vec![7; words], places), due, "{words} words");
        }
    }
}

/// A call but for its faults: 0 in the width, 1 in the seed, 2 in the row's length.
fn faulty(faults: Faults) -> Stretch<Vec<u32>> {
    Stretch {
        width: faults.pick(0, 16, 33, 0),
        seed: vec![7; faults.pick(1, 8, 9, 0)],
        out: vec![0xdead_beef; faults.pick(2, MOST, MOST + 1, 2 * MOST)],
    }
}

/// Every set of faults: the first that is tested is the answer.
#[test]
fn order_of_the_tests_of_an_array() {
    for faults in Faults::every_set(3) {
        let due = faults.first().map_or(0, |fault| [1, 11, 4][fault as usize]);
        let number = faulty(faults).check(&mut Random::new(15));
        assert_eq!(number, due, "{faults:?}");
    }
}

#[test]
fn empty_rows_of_an_array() {
    assert_eq!(ffi::stretch_array(1, &[0], &mut []), 0);
    assert_eq!(ffi::stretch_array(32, &[], &mut []), 11);
    assert_eq!(ffi::stretch_array(0, &[], &mut []), 1);
}

#[test]
fn results_of_an_array_name_the_refusals() {
    let refusals = [Refusal::Width, Refusal::Seed, Refusal::Long];
    for (fault, refusal) in (0..).zip(refusals) {
        let Stretch { width, seed, out } = faulty(Faults::only(fault));
        let mut row = out.clone();
        let result = pairing_agent::stretch_array(width, &seed, &mut row);
        assert_eq!((result, row == out), (Err(refusal), true));
    }
}
