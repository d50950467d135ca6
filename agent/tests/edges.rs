//! The edges of every test of a call, and the order of the tests. What both digests do alike is
//! one function over the parts of a message, run for words and for bytes.

#![forbid(unsafe_code)]

mod common;

use common::calls::{settings, Call, Digest, Match};
use common::faults::Faults;
use common::of_both_digests;
use common::paper::WIDTHS_OF_BYTES;
use common::part::Part;
use common::random::Random;
use pairing_agent::{digests_match, ffi, Refusal};
use std::collections::BTreeSet;

of_both_digests! {
    width
    width_0_with_b_0
    kept
    kept_9_at_width_8
    count
    long
    largest_sums
    key
    key_of_the_wrong_kind_of_length
    tray
    word_256_at_width_8
    word_at_every_width
    word_at_every_place
    word_at_the_ends_of_the_longest_rows
    empty_rows
    order_of_the_tests
    results_name_the_refusals
}

/// A call that is accepted, of that many message parts.
fn fit<P: Part>(w: u32, b: u32, n: u32, parts: usize) -> Digest<P> {
    Digest::fit(settings(w, b, n), parts)
}

fn answer<P: Part>(call: &Digest<P>) -> u32 {
    call.check(&mut Random::new(5))
}

/// Those of the widths at which such messages are digested.
fn fit_among<P: Part>(widths: &[u32]) -> Vec<u32> {
    let mut fit = P::widths();
    fit.retain(|w| widths.contains(w));
    fit
}

fn width<P: Part>() {
    let fit_widths = P::widths();
    for w in (0..=40).chain([64, 128, 256, 1 << 16, 1 << 31, u32::MAX]) {
        for fit_width in &fit_widths {
            for parts in [0, 1, 3, 6] {
                let mut call = fit::<P>(*fit_width, 1, 1, parts);
                call.settings.width = w;
                let number = answer(&call);
                assert_eq!(number == 1, !fit_widths.contains(&w), "w {w}");
                assert!(number == 0 || w != *fit_width, "w {w}, {parts} parts");
            }
        }
    }
}

fn width_0_with_b_0<P: Part>() {
    let mut call = fit::<P>(8, 8, 1, 3);
    (call.settings.width, call.settings.kept) = (0, 0);
    assert_eq!(answer(&call), 1);
}

fn kept<P: Part>() {
    for w in P::widths() {
        for b in (0..=40).chain([w + 32, u32::MAX]) {
            for parts in [3, 7] {
                let mut call = fit::<P>(w, 1, 2, parts);
                call.settings.kept = b;
                let due = if b == 0 || b > w { 2 } else { 0 };
                assert_eq!(answer(&call), due, "w {w}, b {b}, {parts} parts");
            }
        }
    }
}

fn kept_9_at_width_8<P: Part>() {
    assert_eq!(answer(&fit::<P>(8, 9, 1, 3)), 2);
}

fn count<P: Part>() {
    for w in P::widths() {
        for parts in [3, 7] {
            for n in 0..=9 {
                let due = if n == 0 || n == 9 { 3 } else { 0 };
                assert_eq!(answer(&fit::<P>(w, w, n, parts)), due, "w {w}, n {n}");
            }
            // The key of such a count could not be lent; the count is tested before it.
            for n in [257, 1 << 16, u32::MAX] {
                let mut call = fit::<P>(w, w, 1, parts);
                call.settings.words = n;
                assert_eq!(answer(&call), 3, "w {w}, n {n}");
            }
        }
    }
}

/// 65,536 words pass, and a part more is a word more.
fn long<P: Part>() {
    for w in WIDTHS_OF_BYTES {
        let word = P::parts_in_a_word(w);
        let most = P::most(w);
        let fit_lengths = [65_535, 65_536, most - word, most - 1, most];
        let fit_lengths = BTreeSet::from(fit_lengths.map(|parts| parts.min(most)));
        let too_long = BTreeSet::from([most + 1, most + word, most + word + 1, 2 * most]);
        for n in [1, 8] {
            for parts in &fit_lengths {
                assert_eq!(answer(&fit::<P>(w, w, n, *parts)), 0, "w {w}, {parts}");
            }
            for parts in &too_long {
                let mut call = fit::<P>(w, w, n, *parts);
                assert_eq!(answer(&call), 4, "w {w}, {parts} parts");
                // With a key for the most words as well.
                call.key.truncate(65_536 + n as usize);
                assert_eq!(answer(&call), 4, "w {w}, {parts} parts");
            }
        }
    }
}

fn largest_sums<P: Part>() {
    for w in fit_among::<P>(&[1, 8, 16, 31, 32]) {
        for lacking in 0..P::parts_in_a_word(w) {
            let mut call = fit::<P>(w, w, 8, P::most(w) - lacking);
            fill_with_the_largest(&mut call);
            assert_eq!(answer(&call), 0, "w {w}, {lacking} lacking");
        }
    }
}

fn fill_with_the_largest<P: Part>(call: &mut Digest<P>) {
    let w = call.settings.width;
    call.message.fill(P::largest(w));
    call.key.fill(u32::MAX >> (32 - w));
}

fn key<P: Part>() {
    for w in WIDTHS_OF_BYTES {
        for n in 1..=8 {
            for parts in [0, 1, 2, 3, 4, 5, 8, 9, 65_535, 65_536] {
                let call = fit::<P>(w, w / 2 + 1, n, parts.min(P::most(w)));
                let mut short = call.clone();
                short.key.pop();
                assert_eq!(answer(&short), 5, "one short at w {w}, n {n}, {parts}");
                let mut long = call;
                long.key.push(1);
                assert_eq!(answer(&long), 5, "one long at w {w}, n {n}, {parts}");
            }
        }
    }
}

fn key_of_the_wrong_kind_of_length<P: Part>() {
    for parts in [6, 9] {
        let words = P::words_made(16, parts);
        // As many words as parts, with n and without; the message's words alone, and one more
        // whatever n is, and n - 1 more; n alone; none.
        let lengths = [parts + 3, parts, words, words + 1, words + 2, 3, 0];
        for length in BTreeSet::from(lengths) {
            let mut call = fit::<P>(16, 16, 3, parts);
            call.key.resize(length, 1);
            let due = if length == words + 3 { 0 } else { 5 };
            assert_eq!(answer(&call), due, "{parts} parts, {length} words");
        }
    }
}

fn tray<P: Part>() {
    for w in WIDTHS_OF_BYTES {
        for n in 1..=8 {
            for places in 0..=n as usize + 9 {
                for parts in [4, 6] {
                    let mut call = fit::<P>(w, 8, n, parts);
                    call.out = vec![0xdead_beef; places];
                    let due = if places < n as usize { 6 } else { 0 };
                    assert_eq!(answer(&call), due, "w {w}, n {n}, {places} places");
                }
            }
        }
    }
}

/// The rows in which a word can be too large, as their numbers and lengths.
fn rows<P: Part>(call: &Digest<P>) -> Vec<(usize, usize)> {
    let mut call = call.clone();
    let rows = P::rows_of_words(&mut call).into_iter();
    rows.map(|row| row.len()).enumerate().collect()
}

/// The answer with that word at that place of that row.
fn answer_with<P: Part>(word: u32, row: usize, place: usize, call: &Digest<P>) -> u32 {
    let mut call = call.clone();
    P::rows_of_words(&mut call)[row][place] = word;
    answer(&call)
}

/// Tries the largest fit word and larger ones at that place of that row.
fn check_word<P: Part>(row: usize, place: usize, call: &Digest<P>) {
    let w = call.settings.width;
    for (word, due) in [((1 << w) - 1, 0), (1 << w, 7), (u32::MAX, 7)] {
        let number = answer_with(word, row, place, call);
        let sizes = call.sizes();
        assert_eq!(number, due, "{word} in row {row}, place {place}: {sizes}");
    }
}

fn word_256_at_width_8<P: Part>() {
    let call = fit::<P>(8, 8, 1, 3);
    for (row, _) in rows(&call) {
        assert_eq!(answer_with(255, row, 1, &call), 0, "row {row}");
        assert_eq!(answer_with(256, row, 1, &call), 7, "row {row}");
    }
}

fn word_at_every_width<P: Part>() {
    for w in P::widths() {
        let mut call = fit::<P>(w, w, 2, 9);
        if w < 32 {
            for (row, length) in rows(&call) {
                check_word(row, length - 1, &call);
            }
        }
        fill_with_the_largest(&mut call);
        assert_eq!(answer(&call), 0, "w {w}");
    }
}

fn word_at_every_place<P: Part>() {
    for w in [8, 16] {
        for n in 1..=8 {
            for parts in (0..=20).chain([33]) {
                let mut call = fit::<P>(w, w, n, parts);
                call.message.fill(P::largest(w));
                for (row, length) in rows(&call) {
                    (0..length).for_each(|place| check_word(row, place, &call));
                }
            }
        }
    }
}

fn word_at_the_ends_of_the_longest_rows<P: Part>() {
    for w in fit_among::<P>(&[8, 16, 31]) {
        let call = fit::<P>(w, w, 8, P::most(w));
        for (row, length) in rows(&call) {
            let early = [0, 1, 32_767, 65_534, 65_535].into_iter();
            for place in early.chain(65_536..length) {
                let number = answer_with(1 << w, row, place, &call);
                assert_eq!(number, 7, "w {w}, row {row}, place {place}");
            }
        }
    }
}

/// Of words alone: no bytes are still a word, the closing one's.
#[test]
fn no_words() {
    for w in [1, 8, 16, 32] {
        for n in 1..=8 {
            let call = fit::<u32>(w, 1, n, 0);
            assert_eq!(answer(&call), 0);
            let mut out = [7; 8];
            let number = ffi::digest_words(call.settings, &[], &call.key, &mut out);
            let zeros = n as usize;
            assert_eq!((number, &out[..zeros]), (0, &[0; 8][..zeros]));
            assert!(out[zeros..].iter().all(|word| *word == 7));
        }
    }
}

/// The same empty row for message and key, and literals that have no allocation.
fn empty_rows<P: Part>() {
    let empty = |w, b, n| P::NUMBER(settings(w, b, n), &[], &[], &mut []);
    assert_eq!(empty(8, 8, 1), 5);
    assert_eq!(empty(8, 8, 0), 3);
    assert_eq!(empty(8, 0, 0), 2);
    assert_eq!(empty(0, 0, 0), 1);
    let key = &[7; 2][..P::words_made(8, 0) + 1];
    assert_eq!(P::NUMBER(settings(8, 8, 1), &[], key, &mut []), 6);
    let message = [P::of_bits(7)];
    assert_eq!(P::NUMBER(settings(8, 8, 1), &message, &[], &mut []), 5);
}

/// What differs between the faulty calls of the two digests.
trait Faulty: Part {
    fn unfit_width(width: u32) -> u32;

    /// The place of an unfit word that is not the key's last.
    fn early_word(call: &mut Digest<Self>) -> &mut u32;
}

impl Faulty for u32 {
    fn unfit_width(_: u32) -> u32 {
        33
    }

    fn early_word(call: &mut Digest<u32>) -> &mut u32 {
        call.message.last_mut().unwrap()
    }
}

impl Faulty for u8 {
    /// A width that is fit for words only.
    fn unfit_width(width: u32) -> u32 {
        width + 1
    }

    fn early_word(call: &mut Digest<u8>) -> &mut u32 {
        &mut call.key[0]
    }
}

/// A call at that width but for its faults, 0 to 6.
fn faulty<P: Faulty>(width: u32, faults: Faults) -> Digest<P> {
    let w = faults.pick(0, width, P::unfit_width(width), 0);
    let b = faults.pick(1, width, 0, width + 26);
    // A count of 0 has no tray that is too small, so the other form leaves that fault out.
    let n = faults.pick(2, 3, 9, 0);
    let many = 65_600 * P::parts_in_a_word(width);
    let parts = faults.pick(3, 5, P::most(width) + 1, many);
    let due = P::words_made(width, parts) + n;
    let words = faults.pick(4, due, due - 1, due + 1);
    let places = faults.pick(5, n, n.saturating_sub(1), 0);
    let mut call = Digest {
        settings: settings(w, b, n as u32),
        message: vec![P::largest(width); parts],
        key: vec![1; words],
        out: vec![0xdead_beef; places],
    };
    let [early, last] = faults.pick(6, [false; 2], [true, false], [false, true]);
    if early {
        *P::early_word(&mut call) = 1 << width;
    }
    if last {
        *call.key.last_mut().unwrap() = 1 << width;
    }
    call
}

/// Every set of faults: the answer is the least of their numbers.
fn order_of_the_tests<P: Faulty>() {
    let mut seen = [0; 8];
    for width in [8, 16] {
        for faults in Faults::every_set(7) {
            let due = faults.first().map_or(0, |fault| fault + 1);
            let number = answer(&faulty::<P>(width, faults));
            assert_eq!(number, due, "width {width}, {faults:?}");
            seen[number as usize] += 1;
        }
    }
    let entry = P::ENTRY;
    println!("order_of_the_tests of {entry}: answers 0 to 7 were seen {seen:?} times");
}

fn results_name_the_refusals<P: Faulty>() {
    use Refusal::{Count, Kept, Key, Long, Tray, Width, Word};
    let refusals = [Width, Kept, Count, Long, Key, Tray, Word];
    for (fault, refusal) in (0..).zip(refusals) {
        let call = faulty::<P>(8, Faults::only(fault));
        let mut out = call.out.clone();
        let result = P::RESULT(call.settings, &call.message, &call.key, &mut out);
        assert_eq!((result, out), (Err(refusal), call.out));
    }
}

fn match_answer(words: u32, first: &[u32], second: &[u32]) -> u32 {
    let call = Match {
        words,
        first: first.to_vec(),
        second: second.to_vec(),
    };
    call.check(&mut Random::new(6))
}

#[test]
fn match_count() {
    for n in 1..=8 {
        let row = vec![9; n as usize];
        assert_eq!(match_answer(n, &row, &row), 100, "n {n}");
    }
    for n in [0, 9] {
        let row = vec![9; n as usize];
        assert_eq!(match_answer(n, &row, &row), 3, "n {n}");
    }
    for n in [257, 1 << 16, u32::MAX] {
        assert_eq!(match_answer(n, &[9], &[9]), 3, "n {n}");
    }
}

#[test]
fn match_tray() {
    for n in 1..=8u32 {
        for first in 0..=10 {
            for second in 0..=10 {
                let fits = first == n as usize && second == n as usize;
                let due = if fits { 100 } else { 6 };
                let number = match_answer(n, &vec![4; first], &vec![4; second]);
                assert_eq!(number, due, "n {n}, rows of {first} and {second}");
            }
        }
    }
}

#[test]
fn order_of_the_match_tests() {
    for n in [0, 9, u32::MAX] {
        for first in 0..=10 {
            for second in 0..=10 {
                assert_eq!(match_answer(n, &vec![4; first], &vec![5; second]), 3);
            }
        }
    }
    // Too few or too many places come before any difference in the words.
    assert_eq!(match_answer(2, &[1, 2, 3], &[7, 8, 9]), 6);
    assert_eq!(match_answer(3, &[1, 2], &[7, 8]), 6);
}

#[test]
fn match_of_empty_rows() {
    assert_eq!(ffi::digests_match(1, &[], &[]), 6);
    assert_eq!(ffi::digests_match(0, &[], &[]), 3);
}

#[test]
fn match_results_name_the_refusals() {
    assert_eq!(digests_match(9, &[], &[]), Err(Refusal::Count));
    assert_eq!(digests_match(1, &[1], &[]), Err(Refusal::Tray));
    assert_eq!(digests_match(1, &[1], &[1]), Ok(true));
    assert_eq!(digests_match(1, &[1], &[2]), Ok(false));
}
