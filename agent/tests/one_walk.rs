//! What one walk over a whole message must not miss: a word at the end of a turn or of a block, the
//! test of any word of message or key, a sum that wraps. Each is run for words and for bytes.

#![forbid(unsafe_code)]

mod common;

use common::calls::{settings, Call, Digest};
use common::of_both_digests;
use common::paper::WIDTHS_OF_BYTES;
use common::part::Part;
use common::random::Random;
use std::mem::replace;
use std::ops::RangeInclusive;

of_both_digests! {
    every_length_and_count
    one_word_too_large
    every_word_fits_width_32
    sums_that_wrap
}

/// Those of these widths at which such messages are digested.
fn widths<P: Part>() -> Vec<u32> {
    let mut widths = P::widths();
    widths.retain(|w| [1, 7, 8, 16, 31, 32].contains(w));
    widths
}

/// Message lengths in words: the shortest, and around the shortest block.
fn short() -> impl Iterator<Item = usize> {
    (0..=9).chain(around(64))
}

/// Message lengths in words around longer blocks.
fn long() -> impl Iterator<Item = usize> {
    [256, 512, 1024].into_iter().flat_map(around)
}

fn around(words: usize) -> RangeInclusive<usize> {
    words - 1..=words + 1
}

/// Calls that are accepted and keep every bit, with places beyond the digest: one for each number
/// of parts that makes so many words. Bytes never make none.
fn fit<P: Part>(w: u32, n: u32, words: usize) -> impl Iterator<Item = Digest<P>> {
    let most = words * P::parts_in_a_word(w);
    let parts = most.saturating_sub(P::parts_in_a_word(w))..=most;
    let parts = parts.filter(move |parts| P::words_made(w, *parts) == words);
    parts.map(move |parts| {
        let mut call = Digest::fit(settings(w, w, n), parts);
        call.out = Random::new(13).row(n as usize + 3);
        call
    })
}

fn answer<P: Part>(call: &Digest<P>) -> u32 {
    call.check(&mut Random::new(14))
}

fn every_length_and_count<P: Part>() {
    for w in widths::<P>() {
        for words in short()
            .chain(long())
            .chain(around(2048))
            .chain(around(4096))
        {
            for n in 1..=8 {
                for call in fit::<P>(w, n, words) {
                    assert_eq!(answer(&call), 0, "{}", call.sizes());
                }
            }
        }
    }
}

/// The same answer is due with that word at each place of message and key, one at a time.
fn at_every_place<P: Part>(word: u32, due: u32, mut call: Digest<P>) {
    for row in 0..P::rows_of_words(&mut call).len() {
        for place in 0..P::rows_of_words(&mut call)[row].len() {
            let fit = replace(&mut P::rows_of_words(&mut call)[row][place], word);
            let number = answer(&call);
            let sizes = call.sizes();
            assert_eq!(number, due, "{word} in row {row}, place {place}: {sizes}");
            P::rows_of_words(&mut call)[row][place] = fit;
        }
    }
}

fn refused_at_every_place<P: Part>(w: u32, n: u32, words: usize) {
    for mut call in fit::<P>(w, n, words) {
        at_every_place(1 << w, 7, call.clone());
        at_every_place(u32::MAX, 7, call.clone());
        // All at once but the key's last n: no test may let the same bits cancel.
        for row in P::rows_of_words(&mut call) {
            row[..words].fill(1 << w);
        }
        let due = if words == 0 { 0 } else { 7 };
        assert_eq!(answer(&call), due, "all too large: {}", call.sizes());
    }
}

/// A word that is too large is found wherever it stands, the key's last n places among them.
fn one_word_too_large<P: Part>() {
    for w in widths::<P>().into_iter().filter(|w| *w < 32) {
        for words in short() {
            (1..=8).for_each(|n| refused_at_every_place::<P>(w, n, words));
        }
    }
    for words in long() {
        refused_at_every_place::<P>(16, 8, words);
    }
}

fn every_word_fits_width_32<P: Part>() {
    for words in short() {
        for n in [1, 2, 8] {
            for call in fit::<P>(32, n, words) {
                at_every_place(u32::MAX, 0, call);
            }
        }
    }
}

/// At width 32 both sums of 64 bits wrap.
fn sums_that_wrap<P: Part>() {
    for w in WIDTHS_OF_BYTES {
        for n in 1..=8 {
            let mut call = Digest::<P>::fit(settings(w, w, n), P::most(w));
            call.message.fill(P::largest(w));
            call.key.fill(u32::MAX >> (32 - w));
            assert_eq!(answer(&call), 0, "{}", call.sizes());
        }
    }
}
