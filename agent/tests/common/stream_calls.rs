//! Calls of a stream's entries, checked against the stream by brute force.
//!
//! The entries take rows of any length. A `Stream` has a row of the right one: its calls are made
//! where they can be.

use super::calls::{boxed, number_of, Call, Made, Rows};
use super::lent::Lent;
use super::paper::Outcome;
use super::random::Random;
use super::stream::{self, STATE_WORDS};
use pairing_agent::{ffi, Refusal, Settings, Stream};

/// The stream of a row, if it has the right length; boxed, so that valgrind sees its ends.
fn restored(row: &[u32]) -> Option<Box<Stream>> {
    let words = row.try_into().ok()?;
    Some(Box::new(Stream::from_words(words)))
}

/// What there is to check where no `Stream` can be made of a row: nothing.
fn no_stream(due: &Outcome) -> Made {
    Made::new(due.answer, due, &[])
}

/// A call that opens a stream, in a row that holds any words.
#[derive(Clone, Debug)]
pub struct Open {
    pub settings: Settings,
    pub key: Vec<u32>,
    pub state: Vec<u32>,
}

impl Open {
    fn rows(&self) -> Rows<'_, u32, u32> {
        Rows {
            message: &[],
            key: &self.key,
            out: &self.state,
        }
    }
}

impl Call for Open {
    const ENTRY: &'static str = "stream_open";
    type Place = u32;

    fn due(&self) -> Outcome {
        stream::open(self.settings, &self.key, &self.state)
    }

    fn number(&self, due: &Outcome, random: &mut Random) -> Made {
        self.rows().number(due, random, |_, key, state| {
            ffi::stream_open(self.settings, key, state)
        })
    }

    /// `Stream::open` has a row of its own, so what is due may be another answer.
    fn result(&self, _: &Outcome) -> Made {
        let due = stream::open(self.settings, &self.key, &[0; STATE_WORDS]);
        let key = boxed(&self.key);
        let opened = Stream::open(&self.settings, &key);
        let is_due = |stream: &Stream| due.answer == 0 && stream.as_words()[..] == due.out;
        let rows = [
            ("state", opened.as_ref().map_or(due.answer != 0, is_due)),
            ("key", *key == self.key),
        ];
        Made::new(number_of(opened.map(|_| ())), &due, &rows)
    }

    fn sizes(&self) -> String {
        format!("{:?}, {}", self.settings, self.rows().sizes())
    }
}

/// A call that pushes a part.
#[derive(Clone, Debug)]
pub struct Push {
    pub state: Vec<u32>,
    pub message: Vec<u32>,
    pub key: Vec<u32>,
}

impl Push {
    fn rows(&self) -> Rows<'_, u32, u32> {
        Rows {
            message: &self.message,
            key: &self.key,
            out: &self.state,
        }
    }
}

impl Call for Push {
    const ENTRY: &'static str = "stream_push";
    type Place = u32;

    fn due(&self) -> Outcome {
        stream::push(&self.state, &self.message, &self.key)
    }

    fn number(&self, due: &Outcome, random: &mut Random) -> Made {
        self.rows().number(due, random, |message, key, state| {
            ffi::stream_push(state, message, key)
        })
    }

    fn result(&self, due: &Outcome) -> Made {
        let Some(mut stream) = restored(&self.state) else {
            return no_stream(due);
        };
        self.rows().result(due, |message, key, state| {
            let result = stream.push(message, key);
            state.copy_from_slice(stream.as_words());
            result
        })
    }

    fn sizes(&self) -> String {
        self.rows().sizes()
    }
}

/// A call that reads.
#[derive(Clone, Debug)]
pub struct Read {
    pub state: Vec<u32>,
    pub out: Vec<u32>,
}

impl Read {
    /// Whether the digest as a value is the one that is written where there is room.
    fn is_value(&self, value: Result<pairing_agent::Digest, Refusal>) -> bool {
        let due = stream::read(&self.state, &[0; 8]);
        match value {
            Ok(digest) => due.answer == 0 && *digest.words() == due.out[..self.state[2] as usize],
            Err(refusal) => refusal.number() == due.answer,
        }
    }
}

impl Call for Read {
    const ENTRY: &'static str = "stream_read";
    type Place = u32;

    fn due(&self) -> Outcome {
        stream::read(&self.state, &self.out)
    }

    fn number(&self, due: &Outcome, random: &mut Random) -> Made {
        let state = Lent::new(&self.state, random);
        let mut out = Lent::new(&self.out, random);
        let answer = ffi::stream_read(state.row(), out.row_mut());
        let rows = [
            ("output", out.is_now(&due.out)),
            ("state", state.is_as_lent()),
        ];
        Made::new(answer, due, &rows)
    }

    fn result(&self, due: &Outcome) -> Made {
        let Some(stream) = restored(&self.state) else {
            return no_stream(due);
        };
        let mut out = boxed(&self.out);
        let result = stream.read_into(&mut out);
        let rows = [
            ("output", *out == *due.out),
            ("state", stream.as_words()[..] == self.state),
            ("digest", self.is_value(stream.read())),
        ];
        Made::new(number_of(result), due, &rows)
    }

    fn sizes(&self) -> String {
        let Read { state, out } = self;
        format!("state of {}, output of {}", state.len(), out.len())
    }
}
