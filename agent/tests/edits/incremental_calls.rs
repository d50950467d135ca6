//! Calls of an incremental digest's entries, checked against the incremental digest by brute force.

use super::calls::{boxed, Call, Made, Rows, TwoWritten};
use super::incremental::{self, STATE_WORDS};
use super::paper::Outcome;
use super::random::Random;
use super::states::{kind, no_value, opened, Kind};
use pairing_agent::{ffi, Incremental, Settings};

kind!(
    Incremental,
    "incremental_read",
    incremental::read,
    ffi::incremental_read
);

/// A call that opens an incremental digest, in a row that holds any words.
#[derive(Clone, Debug)]
pub struct Open {
    pub settings: Settings,
    pub message: Vec<u32>,
    pub key: Vec<u32>,
    pub state: Vec<u32>,
}

impl Open {
    fn rows(&self) -> Rows<'_, u32, u32> {
        Rows {
            message: &self.message,
            key: &self.key,
            out: &self.state,
        }
    }
}

impl Call for Open {
    const ENTRY: &'static str = "incremental_open";
    type Place = u32;

    fn due(&self) -> Outcome {
        incremental::open(self.settings, &self.message, &self.key, &self.state)
    }

    fn number(&self, due: &Outcome, random: &mut Random) -> Made {
        self.rows().number(due, random, |message, key, state| {
            ffi::incremental_open(self.settings, message, key, state)
        })
    }

    /// `Incremental::open` has a row of its own, so what is due may be another answer.
    fn result(&self, _: &Outcome) -> Made {
        let due = incremental::open(self.settings, &self.message, &self.key, &[0; STATE_WORDS]);
        let (message, key) = (boxed(&self.message), boxed(&self.key));
        let digest = Incremental::open(&self.settings, &message, &key);
        let read = [
            ("message", *message == self.message),
            ("key", *key == self.key),
        ];
        opened(digest, &due, &read)
    }

    fn sizes(&self) -> String {
        format!("{:?}, {}", self.settings, self.rows().sizes())
    }
}

/// A call that edits. What it leaves is the row of the state, and then the message.
#[derive(Clone, Debug)]
pub struct Edit {
    pub state: Vec<u32>,
    pub message: Vec<u32>,
    pub key: Vec<u32>,
    pub place: usize,
    pub word: u32,
}

impl Edit {
    fn rows(&self) -> TwoWritten<'_> {
        TwoWritten {
            read: ("key", &self.key),
            written: [("state", &self.state), ("message", &self.message)],
        }
    }
}

impl Call for Edit {
    const ENTRY: &'static str = "incremental_edit";
    type Place = u32;

    fn due(&self) -> Outcome {
        incremental::edit(&self.state, &self.message, &self.key, self.place, self.word)
    }

    fn number(&self, due: &Outcome, random: &mut Random) -> Made {
        self.rows().number(due, random, |key, state, message| {
            ffi::incremental_edit(state, message, key, self.place, self.word)
        })
    }

    fn result(&self, due: &Outcome) -> Made {
        let Some(mut digest) = Incremental::restored(&self.state) else {
            return no_value(due);
        };
        self.rows().result(due, |key, state, message| {
            let result = digest.edit(message, key, self.place, self.word);
            state.copy_from_slice(digest.as_words());
            result
        })
    }

    fn sizes(&self) -> String {
        let Edit { place, word, .. } = self;
        format!("{}, place {place}, word {word}", self.rows().sizes())
    }
}
