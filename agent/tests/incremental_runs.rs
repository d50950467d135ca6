//! Random runs of incremental digests: an opening, then edits and readings, refused ones among them,
//! and calls on states that were altered. After each call the run's own state is held to the sums of
//! its whole message, which the test edits for itself.

#![forbid(unsafe_code)]

#[path = "edits/mod.rs"]
mod common;

use common::calls::settings;
use common::cases::{self, drawn_words};
use common::from_environment;
use common::incremental::{self, STATE_WORDS};
use common::incremental_calls::{Edit, Open};
use common::paper::MOST_WORDS;
use common::random::Random;
use common::states::{Read, Tally};
use pairing_agent::{Incremental, Settings};

/// How many runs whose opening is accepted. Valgrind's run sets fewer.
fn all_runs() -> u64 {
    from_environment("PAIRING_RANDOM_CALLS", 200_000) / 10
}

/// Of so many runs one has about the most words, and is not opened where it has more.
const LONG_RUNS: u64 = 1_000;

/// A run's state, and the message and the key that it is of.
struct Run {
    settings: Settings,
    state: Vec<u32>,
    message: Vec<u32>,
    key: Vec<u32>,
}

impl Run {
    /// A whole run with a message of so many words. Says whether it was opened.
    fn go(words: usize, tally: &mut Tally, random: &mut Random) -> bool {
        let width = random.below(34) as u32;
        let kept = random.below(width as usize + 2) as u32;
        let settings = settings(width, kept, random.below(10) as u32);
        let key_words = near(words + settings.words as usize, random);
        let places = near(STATE_WORDS, random);
        let call = Open {
            settings,
            message: drawn_words(width, words, random),
            key: drawn_words(width, key_words, random),
            state: random.row(places),
        };
        let (answer, row) = tally.make(&call, random);
        let mut run = Run {
            settings,
            state: row[..row.len().min(STATE_WORDS)].to_vec(),
            message: call.message,
            key: call.key,
        };
        if answer != 0 {
            // Nothing was opened; the row is called all the same.
            run.call_on(&run.state, tally, random);
            return false;
        }
        run.check_whole();
        for _ in 0..5 + random.below(16) {
            run.step(tally, random);
            run.check_whole();
        }
        true
    }

    /// A call on the run's own state, or on one that is altered and then thrown away.
    fn step(&mut self, tally: &mut Tally, random: &mut Random) {
        if random.once_in(8) {
            let mut state = self.state.clone();
            match random.once_in(6) {
                true => state.resize(random.below(25), 0),
                false => cases::alter(random, &mut state),
            }
            self.call_on(&state, tally, random);
        } else if random.once_in(5) {
            tally.make(&drawn_read(&self.state, random), random);
        } else {
            let call = self.drawn_edit(&self.state, random);
            let (answer, left) = tally.make(&call, random);
            let (state, message) = left.split_at(STATE_WORDS);
            self.state = state.to_vec();
            if answer == 0 {
                assert_eq!(message[call.place], call.word);
                self.message[call.place] = call.word;
            }
        }
    }

    /// Any call on that state, whose outcome is checked and dropped.
    fn call_on(&self, state: &[u32], tally: &mut Tally, random: &mut Random) {
        if random.once_in(3) {
            tally.make(&drawn_read(state, random), random);
        } else {
            tally.make(&self.drawn_edit(state, random), random);
        }
    }

    /// An edit of the run's message at any place, its ends more often.
    fn drawn_edit(&self, state: &[u32], random: &mut Random) -> Edit {
        let words = self.message.len();
        let place = match random.below(8) {
            0 => 0,
            1 => words.saturating_sub(1),
            2 => [words, words + 1, usize::MAX, 1 << 32][random.below(4)],
            _ => random.below(words.max(1)),
        };
        Edit {
            state: state.to_vec(),
            message: self.lent(&self.message, random),
            key: self.lent(&self.key, random),
            place,
            word: drawn_words(self.settings.width, 1, random)[0],
        }
    }

    /// A row of the run as it is lent: now and then a word shorter or longer, or with a word that is
    /// too large, which most edits do not look at.
    fn lent(&self, row: &[u32], random: &mut Random) -> Vec<u32> {
        let mut row = row.to_vec();
        row.resize(near(row.len(), random), 0);
        let width = self.settings.width as usize;
        if !row.is_empty() && width < 32 && random.once_in(8) {
            let place = random.below(row.len());
            row[place] = 1 << (width + random.below(32 - width));
        }
        row
    }

    /// The state is what the whole message gives.
    fn check_whole(&self) {
        let Settings { width, kept, words } = self.settings;
        let numbers = [width, kept, words, self.message.len() as u32];
        let sums = incremental::sums(width, words, &self.message, &self.key);
        let unused = vec![0; 8 - words as usize];
        assert_eq!(self.state, [&numbers[..], &sums, &unused].concat());
    }
}

/// That length, or once in eight a word less or more.
fn near(length: usize, random: &mut Random) -> usize {
    match random.below(16) {
        0 => length.saturating_sub(1),
        1 => length + 1,
        _ => length,
    }
}

fn drawn_read(state: &[u32], random: &mut Random) -> Read<Incremental> {
    let places = random.below(13);
    Read::new(state, random.row(places))
}

#[test]
fn runs() {
    let mut random = Random::new(20_250_317);
    let mut tally = Tally::default();
    let mut opened = 0;
    while opened < all_runs() {
        let words = match opened % LONG_RUNS {
            0 => [MOST_WORDS - 1, MOST_WORDS, MOST_WORDS + 1][random.below(3)],
            run => random.below([40, 40, 40, 300][run as usize % 4]),
        };
        opened += u64::from(Run::go(words, &mut tally, &mut random));
    }
    println!("{opened} runs");
    tally.report([
        ("incremental_edit", &[0, 4, 5, 7, 8, 12]),
        ("incremental_open", &[0, 1, 2, 3, 4, 5, 6, 7]),
        ("incremental_read", &[0, 6, 8]),
    ]);
}
