//! Random calls of each entry, accepted and refused.
//!
//! `rare` makes long rows that many times rarer, for tests that make more calls.

use super::calls::{self, Code, Digest, Load, Match, Peers, Stretch};
use super::paper;
use super::part::Part;
use super::random::Random;
use super::seed::Seed;
use super::states::{Kind, Read};
use super::{incremental, incremental_calls, stream, stream_calls};
use pairing_agent::{Incremental, Settings, Stream};
use std::mem::size_of;

/// Whether a call may have faults. A third of the calls have none; the others have each fault by
/// itself with some chance, so that several come together.
#[derive(Clone, Copy)]
struct Faults(bool);

impl Faults {
    fn random(random: &mut Random) -> Faults {
        Faults(!random.once_in(3))
    }

    /// Whether a call has a fault that every so many faulty ones have.
    fn once_in(self, times: usize, random: &mut Random) -> bool {
        self.0 && random.once_in(times)
    }
}

/// What the two digests draw each in its own way.
pub trait Drawn: Part {
    fn fit_width(random: &mut Random) -> u32;
    fn unfit_width(random: &mut Random) -> u32;
}

impl Drawn for u32 {
    /// The widths in use, more often.
    fn fit_width(random: &mut Random) -> u32 {
        match random.below(8) {
            0 => 8,
            1 => 16,
            2 | 3 => 32,
            _ => 1 + random.below(32) as u32,
        }
    }

    fn unfit_width(random: &mut Random) -> u32 {
        outside(random, 33)
    }
}

impl Drawn for u8 {
    fn fit_width(random: &mut Random) -> u32 {
        [8, 16, 32][random.below(3)]
    }

    /// Not 8, 16 or 32, but often fit for words.
    fn unfit_width(random: &mut Random) -> u32 {
        let w = match random.below(6) {
            0 => 0,
            1 => 33,
            2 => [7, 9, 15, 17, 24, 31, 64][random.below(7)],
            3 => random.word(),
            _ => 1 + random.below(40) as u32,
        };
        match w {
            8 | 16 | 32 => w + 1,
            _ => w,
        }
    }
}

/// A call of the digest of words or of bytes.
pub fn digest<P: Drawn>(random: &mut Random, rare: usize) -> Digest<P> {
    let faults = Faults::random(random);
    let fit_width = P::fit_width(random);
    let settings = settings::<P>(random, faults, fit_width);
    // A count of words that can be lent, whatever the settings say.
    let n = settings.words.min(20) as usize;
    with_rows(random, faults, rare, settings, fit_width, |t| t + n, n)
}

/// A call of the peers' digests.
pub fn peers(random: &mut Random, rare: usize) -> Peers {
    let faults = Faults::random(random);
    let fit_width = u32::fit_width(random);
    let settings = settings::<u32>(random, faults, fit_width);
    let peers = if faults.once_in(6, random) {
        outside(random, 17)
    } else {
        1 + random.below(16) as u32
    };
    // As many as can be lent, whatever the numbers say.
    let n = settings.words.min(20) as usize;
    let p = peers.min(20) as usize;
    let key_words = |t| p * (t + n);
    let rows = with_rows(random, faults, rare, settings, fit_width, key_words, p * n);
    Peers {
        settings,
        peers,
        message: rows.message,
        keys: rows.key,
        out: rows.out,
    }
}

fn settings<P: Drawn>(random: &mut Random, faults: Faults, fit_width: u32) -> Settings {
    let width = if faults.once_in(6, random) {
        P::unfit_width(random)
    } else {
        fit_width
    };
    Settings {
        width,
        kept: kept(random, faults, width),
        words: count(random, faults),
    }
}

/// A call with those settings. But for the faults, its rows are fit at the fit width: the key has so
/// many words for so many of the message, and so many places are written.
fn with_rows<P: Drawn>(
    random: &mut Random,
    faults: Faults,
    rare: usize,
    settings: Settings,
    fit_width: u32,
    key_words: impl Fn(usize) -> usize,
    written: usize,
) -> Digest<P> {
    let width = settings.width;
    let parts = message_length::<P>(random, faults, rare, fit_width);
    let words = P::words_made(fit_width, parts);
    let key_words = key_length(random, faults, [key_words(words), key_words(parts)]);
    // Often the same for both rows, so that largest words meet.
    let style = random.below(8);
    let key_style = [style, random.below(8)][random.below(2)];
    let message = words_below(random, P::bits(width), parts, style);
    let mut call = Digest {
        settings,
        message: message.into_iter().map(P::of_bits).collect(),
        key: words_below(random, width, key_words, key_style),
        out: output(random, faults, written),
    };
    for row in P::rows_of_words(&mut call) {
        if faults.once_in(3, random) {
            spoil(random, width, row);
        }
    }
    call
}

fn kept(random: &mut Random, faults: Faults, width: u32) -> u32 {
    if faults.once_in(6, random) {
        outside(random, width.saturating_add(1))
    } else if width == 0 || random.once_in(3) {
        width
    } else {
        1 + random.below(width.min(32) as usize) as u32
    }
}

fn count(random: &mut Random, faults: Faults) -> u32 {
    if faults.once_in(6, random) {
        outside(random, 9)
    } else {
        1 + random.below(8) as u32
    }
}

/// Mostly short; around the limit now and then.
fn message_length<P: Part>(random: &mut Random, faults: Faults, rare: usize, width: u32) -> usize {
    let word = P::parts_in_a_word(width);
    if faults.once_in(120 * rare, random) {
        P::most(width) + 1 + random.below(3 * word)
    } else if random.once_in(4_000 * rare) {
        P::most(width) - random.below(3 * word)
    } else if random.once_in(10 * rare) {
        random.below(1_200 / size_of::<P>())
    } else {
        random.below(24 * word)
    }
}

/// The due length, or another: now and then one that takes parts for words.
fn key_length(random: &mut Random, faults: Faults, [due, of_parts]: [usize; 2]) -> usize {
    if !faults.once_in(5, random) {
        due
    } else if of_parts != due && random.once_in(8) {
        of_parts
    } else {
        other_length(random, due)
    }
}

/// As long as the digest or longer; too short in a fault.
fn output(random: &mut Random, faults: Faults, due: usize) -> Vec<u32> {
    let places = if faults.once_in(5, random) {
        random.below(due.max(1))
    } else if random.once_in(2) {
        due
    } else {
        due + random.below(12)
    };
    random.row(places)
}

/// A call of the code, at a width that has one but for the faults.
pub fn code(random: &mut Random, rare: usize) -> Code {
    let faults = Faults::random(random);
    let fit_width = u32::fit_width(random).max(4);
    let width = if faults.once_in(8, random) {
        u32::unfit_width(random)
    } else if faults.once_in(12, random) {
        1 + random.below(3) as u32
    } else {
        fit_width
    };
    let most = paper::most_digits(fit_width);
    let digits = if faults.once_in(6, random) {
        outside(random, most + 1)
    } else {
        1 + random.below(most as usize) as u32
    };
    // As many bytes as can be lent, whatever the digits are.
    let bytes = digits.div_ceil(2).min(20) as usize;
    let settings = calls::settings(width, width, 1);
    let rows = with_rows::<u32>(random, faults, rare, settings, fit_width, |t| t + 1, bytes);
    Code {
        width,
        digits,
        message: rows.message,
        key: rows.key,
        out: rows.out.into_iter().map(|word| word as u8).collect(),
    }
}

/// A call that opens a stream.
pub fn stream_open(random: &mut Random) -> stream_calls::Open {
    let faults = Faults::random(random);
    let fit_width = u32::fit_width(random);
    let settings = settings::<u32>(random, faults, fit_width);
    // A count of words that can be lent, whatever the settings say.
    let n = settings.words.min(20) as usize;
    let words = key_length(random, faults, [n, n]);
    let style = random.below(8);
    let mut key = words_below(random, settings.width, words, style);
    if faults.once_in(3, random) {
        spoil(random, settings.width, &mut key);
    }
    stream_calls::Open {
        settings,
        key,
        state: output(random, faults, stream::STATE_WORDS),
    }
}

/// A call that pushes, onto a state that need not come from any calls.
pub fn stream_push(random: &mut Random, rare: usize) -> stream_calls::Push {
    let faults = Faults::random(random);
    let (mut state, width) = fit_stream(random);
    let left = paper::MOST_WORDS - state[3] as usize;
    let mut words = message_length::<u32>(random, faults, rare, width);
    if !faults.once_in(4, random) {
        words = words.min(left);
    }
    let key_words = key_length(random, faults, [words, words]);
    let style = random.below(8);
    let mut message = words_below(random, width, words, style);
    let mut key = words_below(random, width, key_words, style);
    for row in [&mut message, &mut key] {
        if faults.once_in(6, random) {
            spoil(random, width, row);
        }
    }
    damage(random, faults, &mut state);
    stream_calls::Push {
        state,
        message,
        key,
    }
}

/// A call that reads a stream whose state need not come from any calls.
pub fn stream_read(random: &mut Random) -> Read<Stream> {
    let (state, _) = fit_stream(random);
    read(random, state)
}

/// A call that reads that state, unless it has faults.
fn read<S: Kind>(random: &mut Random, mut state: Vec<u32>) -> Read<S> {
    let faults = Faults::random(random);
    let out = output(random, faults, state[2] as usize);
    damage(random, faults, &mut state);
    Read::new(&state, out)
}

/// A stream's state that is fit, often with almost all words taken, and its width.
fn fit_stream(random: &mut Random) -> (Vec<u32>, u32) {
    let taken = any_count(random);
    let (mut state, width) = fit_sums(random, taken);
    state.extend(eight_places(random, width, state[2]));
    state.push(0);
    (state, width)
}

/// A count of message words, often almost the most.
fn any_count(random: &mut Random) -> usize {
    match random.below(4) {
        0 => 0,
        1 => paper::MOST_WORDS - random.below(40),
        _ => random.below(paper::MOST_WORDS + 1),
    }
}

/// What states of sums share, fit, with that count; and the width.
fn fit_sums(random: &mut Random, count_of_words: usize) -> (Vec<u32>, u32) {
    let width = u32::fit_width(random);
    let n = count(random, Faults(false));
    let mut state = vec![width, kept(random, Faults(false), width), n];
    state.push(count_of_words as u32);
    state.extend(eight_places(random, width, n));
    (state, width)
}

/// Eight places of a state, n of them in use.
fn eight_places(random: &mut Random, width: u32, n: u32) -> Vec<u32> {
    let style = random.below(8);
    let mut words = words_below(random, width, n as usize, style);
    words.resize(8, 0);
    words
}

/// A call that opens an incremental digest.
pub fn incremental_open(random: &mut Random, rare: usize) -> incremental_calls::Open {
    let faults = Faults::random(random);
    let fit_width = u32::fit_width(random);
    let settings = settings::<u32>(random, faults, fit_width);
    // A count of words that can be lent, whatever the settings say.
    let n = settings.words.min(20) as usize;
    let places = incremental::STATE_WORDS;
    let rows = with_rows(random, faults, rare, settings, fit_width, |t| t + n, places);
    incremental_calls::Open {
        settings,
        message: rows.message,
        key: rows.key,
        state: rows.out,
    }
}

/// A call that edits, under a state that need not come from any calls.
pub fn incremental_edit(random: &mut Random, rare: usize) -> incremental_calls::Edit {
    let faults = Faults::random(random);
    let words = message_length::<u32>(random, Faults(false), rare, 32);
    let (mut state, width) = fit_sums(random, words);
    let n = state[2] as usize;
    let message_words = match faults.once_in(8, random) {
        true => other_length(random, words),
        false => words,
    };
    let key_words = key_length(random, faults, [words + n, message_words + n]);
    let style = random.below(8);
    let mut message = words_below(random, width, message_words, style);
    let mut key = words_below(random, width, key_words, style);
    let mut word = words_below(random, width, 1, style);
    let place = place_of(random, faults, words);
    // Anywhere, where it is mostly not looked at; and where it is.
    for row in [&mut message, &mut key, &mut word] {
        if faults.once_in(8, random) {
            spoil(random, width, row);
        }
    }
    if let (true, Some(part)) = (faults.once_in(8, random), key.get_mut(place..)) {
        let part_words = part.len().min(n + 1);
        spoil(random, width, &mut part[..part_words]);
    }
    damage(random, faults, &mut state);
    incremental_calls::Edit {
        state,
        message,
        key,
        place,
        word: word[0],
    }
}

/// A place of a message of so many words, its ends more often; in a fault one past them, which may be
/// one of them modulo a power of two.
fn place_of(random: &mut Random, faults: Faults, words: usize) -> usize {
    if words == 0 || faults.once_in(8, random) {
        return match random.below(6) {
            0..=2 => words,
            3 => usize::MAX - random.below(20),
            4 => (1 << (16 + random.below(47))) + random.below(words.max(1)),
            _ => words + random.below(20),
        };
    }
    match random.below(4) {
        0 => 0,
        1 => words - 1,
        _ => random.below(words),
    }
}

/// A call that reads an incremental digest whose state need not come from any calls.
pub fn incremental_read(random: &mut Random) -> Read<Incremental> {
    let words = any_count(random);
    let (state, _) = fit_sums(random, words);
    read(random, state)
}

/// In a fault alters the state at one place, or makes the row longer or shorter.
fn damage(random: &mut Random, faults: Faults, state: &mut Vec<u32>) {
    if faults.once_in(4, random) {
        alter(random, state);
    }
    if faults.once_in(10, random) {
        let words = other_length(random, state.len());
        state.resize_with(words, || random.word());
    }
}

/// Another number at one place of a state, which may still be fit.
pub fn alter(random: &mut Random, state: &mut [u32]) {
    let place = random.below(state.len());
    state[place] = match random.below(6) {
        0 => 0,
        1 => random.below(40) as u32,
        2 => 65_500 + random.below(60) as u32,
        3 => random.word(),
        _ => 1 << random.below(32),
    };
}

/// What the two kinds of seeds draw each in its own way.
pub trait DrawnSeed: Seed {
    fn drawn(random: &mut Random) -> Self;
}

impl DrawnSeed for u32 {
    fn drawn(random: &mut Random) -> u32 {
        match random.below(8) {
            0 => random.below(20) as u32,
            1 => u32::MAX - random.below(20) as u32,
            2 => 1 << random.below(32),
            _ => random.word(),
        }
    }
}

impl DrawnSeed for Vec<u32> {
    /// Now and then of no words or too many; often of words at the ends of the range.
    fn drawn(random: &mut Random) -> Vec<u32> {
        let words = if random.once_in(6) {
            // As many as can be lent.
            outside(random, 9).min(700) as usize
        } else {
            1 + random.below(8)
        };
        let style = random.below(8);
        words_below(random, 32, words, style)
    }
}

/// A call of the stretch, from a plain seed or an array.
pub fn stretch<S: DrawnSeed>(random: &mut Random, rare: usize) -> Stretch<S> {
    let words = filled_length(random, rare, 65_544);
    Stretch {
        width: filled_width(random),
        seed: S::drawn(random),
        out: random.row(words),
    }
}

/// A call of the load, from a plain seed or an array.
pub fn load<S: DrawnSeed>(random: &mut Random, rare: usize) -> Load<S> {
    let key_words = filled_length(random, rare, 65_544);
    let message_words = filled_length(random, rare, paper::MOST_WORDS);
    Load {
        width: filled_width(random),
        seed: S::drawn(random),
        key: random.row(key_words),
        message: random.row(message_words),
    }
}

fn filled_width(random: &mut Random) -> u32 {
    if random.once_in(6) {
        outside(random, 33)
    } else {
        1 + random.below(32) as u32
    }
}

/// Most rows are short; some stand around a refill, a few around the longest.
fn filled_length(random: &mut Random, rare: usize, most: usize) -> usize {
    if random.once_in(300 * rare) {
        most + 1 + random.below(3)
    } else if random.once_in(1_500 * rare) {
        most - random.below(3)
    } else if random.once_in(3 * rare) {
        match random.below(10) {
            0..=2 => 622 + random.below(5),
            3..=5 => 1_246 + random.below(5),
            _ => random.below(2_000),
        }
    } else {
        random.below(40)
    }
}

/// Half of the rows that can be matched differ: in all words, in one, or in one bit.
pub fn digests_match(random: &mut Random) -> Match {
    let words = if random.once_in(8) {
        outside(random, 9)
    } else {
        1 + random.below(8) as u32
    };
    let mut length = || match random.below(8) {
        0 => other_length(random, words.min(20) as usize),
        _ => words.min(20) as usize,
    };
    let lengths = [length(), length()];
    let first = random.row(lengths[0]);
    let mut second = first.clone();
    second.resize_with(lengths[1], || random.word());
    if !second.is_empty() {
        let place = random.below(second.len());
        match random.below(6) {
            0 => second = random.row(lengths[1]),
            1 => second[place] = random.word(),
            2 => second[place] ^= 1 << random.below(32),
            _ => {}
        }
    }
    Match {
        words,
        first,
        second,
    }
}

/// 0, or a number from `first` on, its neighbours more often.
fn outside(random: &mut Random, first: u32) -> u32 {
    match random.below(6) {
        0 | 1 => 0,
        2 | 3 => first,
        4 => first.saturating_add(random.below(40) as u32),
        _ => first.max(random.word()),
    }
}

/// A length near the due one that is not it, or any short one.
fn other_length(random: &mut Random, due: usize) -> usize {
    match random.below(6) {
        0 | 1 => due.saturating_sub(1),
        2 | 3 => due + 1,
        4 => 0,
        _ => random.below(40),
    }
}

/// Words below 2^w: all the largest, all 0, or any with many at the ends of the range.
fn words_below(random: &mut Random, w: u32, words: usize, style: usize) -> Vec<u32> {
    let most = match w {
        0 => 0,
        1..=31 => (1 << w) - 1,
        _ => u32::MAX,
    };
    (0..words)
        .map(|_| match style {
            0 => most,
            1 => 0,
            2 | 3 => match random.below(4) {
                0 => most,
                1 => 0,
                2 => most - most / 2,
                _ => random.word() & most,
            },
            _ => random.word() & most,
        })
        .collect()
}

/// Words of that width, many at the ends of the range; in one row of ten a power of two that may be
/// too large.
pub fn drawn_words(width: u32, words: usize, random: &mut Random) -> Vec<u32> {
    let most = ((1u64 << width.min(32)) - 1) as u32;
    let mut row: Vec<u32> = (0..words)
        .map(|_| match random.below(7) {
            0 => 0,
            1 => most,
            _ => random.word() & most,
        })
        .collect();
    if words > 0 && random.once_in(10) {
        row[random.below(words)] = 1 << random.below(32);
    }
    row
}

/// Makes one word 2^w or more, where there is such a word; the row's ends more often.
fn spoil(random: &mut Random, w: u32, row: &mut [u32]) {
    if w >= 32 || row.is_empty() {
        return;
    }
    let place = match random.below(4) {
        0 => 0,
        1 => row.len() - 1,
        _ => random.below(row.len()),
    };
    row[place] = match random.below(3) {
        0 => 1 << w,
        1 => (1 << w) | random.word(),
        _ => u32::MAX,
    };
}
