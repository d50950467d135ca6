//! Random runs of streams: an opening, then pushes and readings, refused ones among them, and calls
//! on states that were altered. After each call the run's own state is held to the digest of its
//! whole message.

#![forbid(unsafe_code)]

mod common;

use common::calls::{settings, Call};
use common::cases;
use common::from_environment;
use common::random::Random;
use common::stream::{self, STATE_WORDS};
use common::stream_calls::{Open, Push, Read};
use pairing_agent::Settings;
use std::collections::{BTreeMap, BTreeSet};

/// How many runs whose opening is accepted. Valgrind's run sets fewer.
fn all_runs() -> u64 {
    from_environment("PAIRING_RANDOM_CALLS", 200_000) / 10
}

/// What the runs of a series have in common.
#[derive(Clone, Copy)]
struct Series {
    /// The digest words, if not any.
    words: Option<u32>,
    /// The shortest and the longest part.
    part: [usize; 2],
    /// The words that each stream is said to have taken at its opening.
    taken: u32,
}

/// Short parts, parts longer than a state's key words at eight digest words, longer ones; and the
/// same near the most words.
const SERIES: [Series; 6] = [
    Series {
        words: None,
        part: [0, 40],
        taken: 0,
    },
    Series {
        words: None,
        part: [0, 40],
        taken: 65_400,
    },
    Series {
        words: Some(8),
        part: [9, 100],
        taken: 0,
    },
    Series {
        words: Some(8),
        part: [9, 100],
        taken: 65_000,
    },
    Series {
        words: None,
        part: [0, 700],
        taken: 0,
    },
    Series {
        words: None,
        part: [0, 700],
        taken: 62_000,
    },
];

/// How often each entry gave each answer, and the lengths of long parts that were taken at eight
/// digest words.
#[derive(Default)]
struct Tally {
    seen: BTreeMap<(&'static str, u32), u64>,
    long_parts: BTreeSet<usize>,
}

impl Tally {
    /// The answer and the row that the call leaves, having checked that the library leaves it.
    fn make<C: Call<Place = u32>>(&mut self, call: &C, random: &mut Random) -> (u32, Vec<u32>) {
        let due = call.due();
        let made = call.make(&due, random);
        assert!(made.wrong.is_empty(), "{}", call.report(&made, &due));
        *self.seen.entry((C::ENTRY, due.answer)).or_insert(0) += 1;
        (due.answer, due.out)
    }
}

/// A run's state, and all its words since the opening.
struct Run {
    series: Series,
    settings: Settings,
    state: Vec<u32>,
    message: Vec<u32>,
    key: Vec<u32>,
}

impl Run {
    /// A whole run. Says whether a stream was opened.
    fn go(series: Series, tally: &mut Tally, random: &mut Random) -> bool {
        let width = random.below(34) as u32;
        let kept = random.below(width as usize + 2) as u32;
        let words = series.words.unwrap_or(random.below(10) as u32);
        let settings = settings(width, kept, words);
        let key_words = match random.once_in(8) {
            true => random.below(10),
            false => words as usize,
        };
        let places = match random.once_in(10) {
            true => random.below(STATE_WORDS),
            false => STATE_WORDS + random.below(5),
        };
        let call = Open {
            settings,
            key: drawn_words(width, key_words, random),
            state: random.row(places),
        };
        let (answer, row) = tally.make(&call, random);
        if answer != 0 {
            // There is no stream; the row is called all the same.
            call_on(&row, 8, series, tally, random);
            return false;
        }
        let mut run = Run {
            series,
            settings,
            state: row[..STATE_WORDS].to_vec(),
            message: vec![],
            key: call.key,
        };
        run.state[3] = series.taken;
        for _ in 0..5 + random.below(16) {
            run.step(tally, random);
            run.check_whole();
        }
        true
    }

    /// A call on the run's own state, or on one that is altered and then thrown away.
    fn step(&mut self, tally: &mut Tally, random: &mut Random) {
        if random.once_in(8) {
            let mut state = self.state.clone();
            match random.once_in(6) {
                true => state.resize_with(random.below(25), || 0),
                false => cases::alter(random, &mut state),
            }
            call_on(&state, self.settings.width, self.series, tally, random);
        } else if random.once_in(5) {
            tally.make(&drawn_read(&self.state, random), random);
        } else {
            let call = drawn_push(&self.state, self.settings.width, self.series, random);
            let (answer, state) = tally.make(&call, random);
            if answer == 0 {
                self.take(call, tally);
            }
            self.state = state;
        }
    }

    fn take(&mut self, call: Push, tally: &mut Tally) {
        let words = call.message.len();
        if self.settings.words == 8 && words > 8 {
            tally.long_parts.insert(words);
        }
        self.message.extend(call.message);
        self.key.extend(call.key);
    }

    /// The state is what the whole message so far gives.
    fn check_whole(&self) {
        let Settings { width, words, .. } = self.settings;
        let n = words as usize;
        let sums = stream::digest(settings(width, width, words), &self.message, &self.key);
        assert_eq!(self.state[4..4 + n], sums);
        assert_eq!(self.state[12..12 + n], self.key[self.key.len() - n..]);
        let taken = self.series.taken as usize + self.message.len();
        assert_eq!(self.state[3] as usize, taken);
    }
}

/// Any call on that state, whose outcome is checked and dropped. The words are drawn for that width.
fn call_on(state: &[u32], width: u32, series: Series, tally: &mut Tally, random: &mut Random) {
    if random.once_in(3) {
        tally.make(&drawn_read(state, random), random);
    } else {
        tally.make(&drawn_push(state, width, series, random), random);
    }
}

fn drawn_push(state: &[u32], width: u32, series: Series, random: &mut Random) -> Push {
    let [shortest, longest] = series.part;
    let mut part = || shortest + random.below(longest - shortest + 1);
    let (words, other) = (part(), part());
    let key_words = if random.once_in(8) { other } else { words };
    Push {
        state: state.to_vec(),
        message: drawn_words(width, words, random),
        key: drawn_words(width, key_words, random),
    }
}

fn drawn_read(state: &[u32], random: &mut Random) -> Read {
    let places = random.below(13);
    Read {
        state: state.to_vec(),
        out: random.row(places),
    }
}

/// Words of that width, many at the ends of the range; in one row of ten a power of two that may be
/// too large.
fn drawn_words(width: u32, words: usize, random: &mut Random) -> Vec<u32> {
    let most = ((1u64 << width.min(32)) - 1) as u32;
    let mut row: Vec<u32> = (0..words)
        .map(|_| match random.below(7) {
            0 => 0,
            1 => most,
            _ => random.word() & most,
        })
        .collect();
    if words > 0 && random.once_in(10) {
        row[random.below(words)] = 1 << random.below(32);
    }
    row
}

#[test]
fn runs() {
    let mut random = Random::new(20_250_313);
    let mut tally = Tally::default();
    let mut series = SERIES.into_iter().cycle();
    let mut opened = 0;
    while opened < all_runs() {
        let series = series.next().unwrap();
        opened += u64::from(Run::go(series, &mut tally, &mut random));
    }
    println!("{opened} runs");
    for ((entry, answer), times) in &tally.seen {
        println!("{entry}: answer {answer} seen {times:6} times");
    }
    let seen: Vec<_> = tally.seen.into_keys().collect();
    let due = [
        ("stream_open", &[0, 1, 2, 3, 5, 6, 7][..]),
        ("stream_push", &[0, 4, 5, 7, 8]),
        ("stream_read", &[0, 6, 8]),
    ];
    let due = due.map(|(entry, answers)| answers.iter().map(move |answer| (entry, *answer)));
    assert!(due.into_iter().flatten().eq(seen), "an answer is missing");
    // Every length from one past the key words of a state on.
    assert!((9..=100).all(|words| tally.long_parts.contains(&words)));
}
