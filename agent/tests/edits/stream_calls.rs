//! Calls of a stream's entries, checked against the stream by brute force.

use super::calls::{boxed, Call, Made, Rows};
use super::paper::Outcome;
use super::random::Random;
use super::states::{kind, no_value, opened, Kind};
use super::stream::{self, STATE_WORDS};
use pairing_agent::{ffi, Settings, Stream};

kind!(Stream, "stream_read", stream::read, ffi::stream_read);

/// A call that opens a stream, in a row that holds any words.
#[derive(Clone, Debug)]
pub struct Open {
    pub settings: Settings,
    pub key: Vec<u32>,
    pub state: Vec<u32>,
}

impl Open {
    fn rows(&self) -> Rows<'_, u32, u32> {
        Rows {
            message: &[],
            key: &self.key,
            out: &self.state,
        }
    }
}

impl Call for Open {
    const ENTRY: &'static str = "stream_open";
    type Place = u32;

    fn due(&self) -> Outcome {
        stream::open(self.settings, &self.key, &self.state)
    }

    fn number(&self, due: &Outcome, random: &mut Random) -> Made {
        self.rows().number(due, random, |_, key, state| {
            ffi::stream_open(self.settings, key, state)
        })
    }

    /// `Stream::open` has a row of its own, so what is due may be another answer.
    fn result(&self, _: &Outcome) -> Made {
        let due = stream::open(self.settings, &self.key, &[0; STATE_WORDS]);
        let key = boxed(&self.key);
        let stream = Stream::open(&self.settings, &key);
        opened(stream, &due, &[("key", *key == self.key)])
    }

    fn sizes(&self) -> String {
        format!("{:?}, {}", self.settings, self.rows().sizes())
    }
}

/// A call that pushes a part.
#[derive(Clone, Debug)]
pub struct Push {
    pub state: Vec<u32>,
    pub message: Vec<u32>,
    pub key: Vec<u32>,
}

impl Push {
    fn rows(&self) -> Rows<'_, u32, u32> {
        Rows {
            message: &self.message,
            key: &self.key,
            out: &self.state,
        }
    }
}

impl Call for Push {
    const ENTRY: &'static str = "stream_push";
    type Place = u32;

    fn due(&self) -> Outcome {
        stream::push(&self.state, &self.message, &self.key)
    }

    fn number(&self, due: &Outcome, random: &mut Random) -> Made {
        self.rows().number(due, random, |message, key, state| {
            ffi::stream_push(state, message, key)
        })
    }

    fn result(&self, due: &Outcome) -> Made {
        let Some(mut stream) = Stream::restored(&self.state) else {
            return no_value(due);
        };
        self.rows().result(due, |message, key, state| {
            let result = stream.push(message, key);
            state.copy_from_slice(stream.as_words());
            result
        })
    }

    fn sizes(&self) -> String {
        self.rows().sizes()
    }
}
