//! Calls of each entry, checked against the independent implementations.

use super::lent::{Lent, Place};
use super::mt19937;
use super::paper::{self, Outcome};
use super::part::Part;
use super::random::Random;
use super::seed::Seed;
use pairing_agent::{ffi, Refusal, Settings};
use std::fmt::Debug;

/// A call of one entry.
pub trait Call: Debug {
    /// The entry's name.
    const ENTRY: &'static str;

    /// What the output is made of.
    type Place: Debug;

    /// What the call must answer and leave, by the implementations beside this file.
    fn due(&self) -> Outcome<Self::Place>;

    /// Makes the call as a number, on rows between guards.
    fn number(&self, due: &Outcome<Self::Place>, random: &mut Random) -> Made;

    /// Makes the call as a result, on rows of their own allocations, whose ends valgrind sees.
    fn result(&self, due: &Outcome<Self::Place>) -> Made;

    /// The call's numbers, and how long its rows are.
    fn sizes(&self) -> String;

    /// Makes the call twice and compares its answers and every row with what is due.
    fn make(&self, due: &Outcome<Self::Place>, random: &mut Random) -> Made {
        let mut made = self.number(due, random);
        // The safe call panics at a number that is no answer.
        if made.answer == due.answer {
            let wrong = self.result(due).wrong.into_iter();
            made.wrong
                .extend(wrong.map(|name| name + " of the safe call"));
        }
        made
    }

    /// What was wrong, and the start of what the entry was called with.
    fn report(&self, made: &Made, due: &Outcome<Self::Place>) -> String {
        let text = format!(
            "{}: wrong {}, with {}; answer {}, due {due:x?}, {self:x?}",
            Self::ENTRY,
            made.wrong.join(" and "),
            self.sizes(),
            made.answer
        );
        text.chars().take(600).collect()
    }

    /// Makes the call twice and returns its answer, having checked the answers and every row.
    fn check(&self, random: &mut Random) -> u32 {
        let due = self.due();
        let made = self.make(&due, random);
        assert!(made.wrong.is_empty(), "{}", self.report(&made, &due));
        made.answer
    }
}

/// What came of a call: its answer, and the names of what was wrong.
pub struct Made {
    pub answer: u32,
    pub wrong: Vec<String>,
}

impl Made {
    /// `rows` says of each row whether it is as it must be.
    pub fn new<P>(answer: u32, due: &Outcome<P>, rows: &[(&str, bool)]) -> Made {
        let answered = [("answer", answer == due.answer)];
        let wrong = answered.iter().chain(rows).filter(|(_, right)| !right);
        Made {
            answer,
            wrong: wrong.map(|(name, _)| (*name).to_owned()).collect(),
        }
    }
}

/// The number that stands for a result.
pub fn number_of(result: Result<(), Refusal>) -> u32 {
    result.map_or_else(Refusal::number, |()| 0)
}

pub fn boxed<P: Place>(row: &[P]) -> Box<[P]> {
    row.into()
}

/// The rows of a call that digests a message.
pub struct Rows<'a, M, O> {
    pub message: &'a [M],
    pub key: &'a [u32],
    pub out: &'a [O],
}

impl<M: Place, O: Place> Rows<'_, M, O> {
    pub fn number(
        &self,
        due: &Outcome<O>,
        random: &mut Random,
        call: impl FnOnce(&[M], &[u32], &mut [O]) -> u32,
    ) -> Made {
        let message = Lent::new(self.message, random);
        let key = Lent::new(self.key, random);
        let mut out = Lent::new(self.out, random);
        let answer = call(message.row(), key.row(), out.row_mut());
        let rows = [
            ("output", out.is_now(&due.out)),
            ("message", message.is_as_lent()),
            ("key", key.is_as_lent()),
        ];
        Made::new(answer, due, &rows)
    }

    pub fn result(
        &self,
        due: &Outcome<O>,
        call: impl FnOnce(&[M], &[u32], &mut [O]) -> Result<(), Refusal>,
    ) -> Made {
        let message = boxed(self.message);
        let key = boxed(self.key);
        let mut out = boxed(self.out);
        let result = call(&message, &key, &mut out);
        let rows = [
            ("output", *out == *due.out),
            ("message", *message == *self.message),
            ("key", *key == *self.key),
        ];
        Made::new(number_of(result), due, &rows)
    }

    pub fn sizes(&self) -> String {
        format!(
            "message of {}, key of {}, output of {}",
            self.message.len(),
            self.key.len(),
            self.out.len()
        )
    }
}

/// Width, kept bits and digest words, in the paper's order.
pub fn settings(w: u32, b: u32, n: u32) -> Settings {
    Settings {
        width: w,
        kept: b,
        words: n,
    }
}

/// A call of the digest of words or of bytes.
#[derive(Clone, Debug)]
pub struct Digest<P> {
    pub settings: Settings,
    pub message: Vec<P>,
    pub key: Vec<u32>,
    pub out: Vec<u32>,
}

impl<P: Part> Digest<P> {
    /// A call that is accepted, of that many message parts.
    pub fn fit(settings: Settings, parts: usize) -> Digest<P> {
        let w = settings.width;
        let n = settings.words as usize;
        let mut random = Random::new(u64::from(w) + 100 * parts as u64);
        let message = (0..parts).map(|_| P::of_bits(random.word() >> (32 - P::bits(w))));
        Digest {
            settings,
            message: message.collect(),
            key: (0..P::words_made(w, parts) + n)
                .map(|_| random.word() >> (32 - w))
                .collect(),
            out: vec![0xdead_beef; n],
        }
    }

    fn rows(&self) -> Rows<'_, P, u32> {
        Rows {
            message: &self.message,
            key: &self.key,
            out: &self.out,
        }
    }
}

impl<P: Part> Call for Digest<P> {
    const ENTRY: &'static str = P::ENTRY;
    type Place = u32;

    fn due(&self) -> Outcome {
        P::DUE(self.settings, &self.message, &self.key, &self.out)
    }

    fn number(&self, due: &Outcome, random: &mut Random) -> Made {
        self.rows().number(due, random, |message, key, out| {
            P::NUMBER(self.settings, message, key, out)
        })
    }

    fn result(&self, due: &Outcome) -> Made {
        self.rows().result(due, |message, key, out| {
            P::RESULT(self.settings, message, key, out)
        })
    }

    fn sizes(&self) -> String {
        format!("{:?}, {}", self.settings, self.rows().sizes())
    }
}

/// A call of the code.
#[derive(Clone, Debug)]
pub struct Code {
    pub width: u32,
    pub digits: u32,
    pub message: Vec<u32>,
    pub key: Vec<u32>,
    pub out: Vec<u8>,
}

impl Code {
    /// A call that is accepted, of that many message words.
    pub fn fit(width: u32, digits: u32, words: usize) -> Code {
        let Digest { message, key, .. } = Digest::fit(settings(width, width, 1), words);
        Code {
            width,
            digits,
            message,
            key,
            out: vec![0xee; digits.div_ceil(2) as usize],
        }
    }

    fn rows(&self) -> Rows<'_, u32, u8> {
        Rows {
            message: &self.message,
            key: &self.key,
            out: &self.out,
        }
    }
}

impl Call for Code {
    const ENTRY: &'static str = "digest_code";
    type Place = u8;

    fn due(&self) -> Outcome<u8> {
        paper::digest_code(self.width, self.digits, &self.message, &self.key, &self.out)
    }

    fn number(&self, due: &Outcome<u8>, random: &mut Random) -> Made {
        self.rows().number(due, random, |message, key, out| {
            ffi::digest_code(self.width, self.digits, message, key, out)
        })
    }

    fn result(&self, due: &Outcome<u8>) -> Made {
        self.rows().result(due, |message, key, out| {
            pairing_agent::digest_code(self.width, self.digits, message, key, out)
        })
    }

    fn sizes(&self) -> String {
        let Code { width, digits, .. } = self;
        format!("width {width}, {digits} digits, {}", self.rows().sizes())
    }
}

/// A call of the peers' digests.
#[derive(Clone, Debug)]
pub struct Peers {
    pub settings: Settings,
    pub peers: u32,
    pub message: Vec<u32>,
    pub keys: Vec<u32>,
    pub out: Vec<u32>,
}

impl Peers {
    /// A call that is accepted, of that many peers and message words.
    pub fn fit(settings: Settings, peers: u32, words: usize) -> Peers {
        let n = settings.words as usize;
        let mut random = Random::new(u64::from(settings.width) + 100 * words as u64);
        let mut row = |words| -> Vec<u32> {
            let word = |_| random.word() >> (32 - settings.width);
            (0..words).map(word).collect()
        };
        Peers {
            settings,
            peers,
            message: row(words),
            keys: row(peers as usize * (words + n)),
            out: vec![0xdead_beef; peers as usize * n],
        }
    }

    /// The keys one by one.
    pub fn key_rows(&self) -> impl Iterator<Item = &[u32]> {
        let n = self.settings.words as usize;
        self.keys.chunks(self.message.len() + n)
    }

    fn rows(&self) -> Rows<'_, u32, u32> {
        Rows {
            message: &self.message,
            key: &self.keys,
            out: &self.out,
        }
    }
}

impl Call for Peers {
    const ENTRY: &'static str = "digest_peers";
    type Place = u32;

    fn due(&self) -> Outcome {
        let Peers { message, keys, .. } = self;
        paper::digest_peers(self.settings, self.peers, message, keys, &self.out)
    }

    fn number(&self, due: &Outcome, random: &mut Random) -> Made {
        self.rows().number(due, random, |message, keys, out| {
            ffi::digest_peers(self.settings, self.peers, message, keys, out)
        })
    }

    fn result(&self, due: &Outcome) -> Made {
        self.rows().result(due, |message, keys, out| {
            pairing_agent::digest_peers(self.settings, self.peers, message, keys, out)
        })
    }

    fn sizes(&self) -> String {
        let Peers {
            settings, peers, ..
        } = self;
        format!("{settings:?}, {peers} peers, {}", self.rows().sizes())
    }
}

/// The rows of a call that fills them from a seed. A stretch fills no message.
struct Filled<'a> {
    seed: &'a [u32],
    key: &'a [u32],
    message: &'a [u32],
}

impl Filled<'_> {
    fn number(
        &self,
        due: &Outcome,
        random: &mut Random,
        call: impl FnOnce(&[u32], &mut [u32], &mut [u32]) -> u32,
    ) -> Made {
        let seed = Lent::new(self.seed, random);
        let mut key = Lent::new(self.key, random);
        let mut message = Lent::new(self.message, random);
        let answer = call(seed.row(), key.row_mut(), message.row_mut());
        let (due_key, due_message) = due.out.split_at(self.key.len());
        let rows = [
            ("key", key.is_now(due_key)),
            ("message", message.is_now(due_message)),
            ("seed", seed.is_as_lent()),
        ];
        Made::new(answer, due, &rows)
    }

    fn result(
        &self,
        due: &Outcome,
        call: impl FnOnce(&[u32], &mut [u32], &mut [u32]) -> Result<(), Refusal>,
    ) -> Made {
        let seed = boxed(self.seed);
        let mut key = boxed(self.key);
        let mut message = boxed(self.message);
        let result = call(&seed, &mut key, &mut message);
        let (due_key, due_message) = due.out.split_at(self.key.len());
        let rows = [
            ("key", *key == *due_key),
            ("message", *message == *due_message),
            ("seed", *seed == *self.seed),
        ];
        Made::new(number_of(result), due, &rows)
    }

    fn sizes(&self) -> String {
        format!(
            "seed of {}, key of {}, message of {}",
            self.seed.len(),
            self.key.len(),
            self.message.len()
        )
    }
}

/// A call of the stretch, from a plain seed or an array.
#[derive(Clone, Debug)]
pub struct Stretch<S> {
    pub width: u32,
    pub seed: S,
    pub out: Vec<u32>,
}

impl<S: Seed> Stretch<S> {
    fn rows(&self) -> Filled<'_> {
        Filled {
            seed: self.seed.words(),
            key: &self.out,
            message: &[],
        }
    }
}

impl<S: Seed> Call for Stretch<S> {
    const ENTRY: &'static str = S::STRETCH;
    type Place = u32;

    fn due(&self) -> Outcome {
        mt19937::stretch(self.width, &self.seed, &self.out)
    }

    fn number(&self, due: &Outcome, random: &mut Random) -> Made {
        self.rows().number(due, random, |seed, out, _| {
            S::STRETCH_NUMBER(self.width, seed, out)
        })
    }

    fn result(&self, due: &Outcome) -> Made {
        self.rows()
            .result(due, |seed, out, _| S::STRETCH_RESULT(self.width, seed, out))
    }

    fn sizes(&self) -> String {
        format!("width {}, {}", self.width, self.rows().sizes())
    }
}

/// A call of the load, from a plain seed or an array.
#[derive(Clone, Debug)]
pub struct Load<S> {
    pub width: u32,
    pub seed: S,
    pub key: Vec<u32>,
    pub message: Vec<u32>,
}

impl<S: Seed> Load<S> {
    fn rows(&self) -> Filled<'_> {
        Filled {
            seed: self.seed.words(),
            key: &self.key,
            message: &self.message,
        }
    }
}

impl<S: Seed> Call for Load<S> {
    const ENTRY: &'static str = S::LOAD;
    type Place = u32;

    fn due(&self) -> Outcome {
        mt19937::load(self.width, &self.seed, &self.key, &self.message)
    }

    fn number(&self, due: &Outcome, random: &mut Random) -> Made {
        self.rows().number(due, random, |seed, key, message| {
            S::LOAD_NUMBER(self.width, seed, key, message)
        })
    }

    fn result(&self, due: &Outcome) -> Made {
        self.rows().result(due, |seed, key, message| {
            S::LOAD_RESULT(self.width, seed, key, message)
        })
    }

    fn sizes(&self) -> String {
        format!("width {}, {}", self.width, self.rows().sizes())
    }
}

/// A call of the match.
#[derive(Clone, Debug)]
pub struct Match {
    pub words: u32,
    pub first: Vec<u32>,
    pub second: Vec<u32>,
}

impl Call for Match {
    const ENTRY: &'static str = "digests_match";
    type Place = u32;

    fn due(&self) -> Outcome {
        Outcome {
            answer: paper::match_answer(self.words, &self.first, &self.second),
            out: vec![],
        }
    }

    fn number(&self, due: &Outcome, random: &mut Random) -> Made {
        let first = Lent::new(&self.first, random);
        let second = Lent::new(&self.second, random);
        let answer = ffi::digests_match(self.words, first.row(), second.row());
        let rows = [
            ("first row", first.is_as_lent()),
            ("second row", second.is_as_lent()),
        ];
        Made::new(answer, due, &rows)
    }

    fn result(&self, due: &Outcome) -> Made {
        let first = boxed(&self.first);
        let second = boxed(&self.second);
        let number = match pairing_agent::digests_match(self.words, &first, &second) {
            Ok(true) => 100,
            Ok(false) => 101,
            Err(refusal) => refusal.number(),
        };
        let rows = [
            ("first row", *first == self.first),
            ("second row", *second == self.second),
        ];
        Made::new(number, due, &rows)
    }

    fn sizes(&self) -> String {
        let Match {
            words,
            first,
            second,
        } = self;
        format!(
            "{words} words, rows of {} and {}",
            first.len(),
            second.len()
        )
    }
}
