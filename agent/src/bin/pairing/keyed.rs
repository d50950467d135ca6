//! What the commands share that take a message and a key.

use crate::args::{missing, Args};
use crate::ending::{usage, Answer, Failure};
use crate::seed::{Seed, Source};
use crate::{input, refused};
use pairing_agent::Refusal;
use std::ffi::OsStr;

/// What their help says of the key, which is so much longer than the message.
macro_rules! key_help {
    ($longer:literal) => {
        concat!(
            $crate::seed::seed_help!(
                "stretch the key from this seed, as long as the message needs it:"
            ),
            "  --key FILE   take the key from a file of numbers, separated by white space;
               it has ",
            $longer,
            " more than the message; - is standard input
"
        )
    };
}
pub(crate) use key_help;

/// A call that takes a key, with all but the key.
pub trait Keyed {
    fn width(&self) -> u32;

    /// How many words the key has.
    fn key_words(&self) -> usize;

    /// What is printed of the call under that key.
    fn text(&self, key: &[u32]) -> Result<String, Refusal>;

    /// The refusal with the figures of the call under that key.
    fn refused(&self, refusal: Refusal, key: &[u32]) -> Failure;
}

/// Where the key comes from.
pub enum Key<'a> {
    Seed(Source<'a>),
    File(&'a OsStr),
}

impl<'a> Key<'a> {
    /// The key that the arguments give, beside the message's file.
    pub fn given(args: &'a Args, message: &OsStr) -> Result<Key<'a>, Failure> {
        let key = match (Source::given(args)?, args.value("--key")) {
            (Some(seed), None) => Key::Seed(seed),
            (None, Some(file)) => Key::File(file),
            (None, None) => return Err(missing("--seed or --key")),
            (Some(_), Some(_)) => return Err(usage("only one of --seed and --key can be given")),
        };
        if message == "-" && key.is_standard_input() {
            return Err(usage(
                "only one of message, seed and key can be standard input",
            ));
        }
        Ok(key)
    }

    /// The answer of the call under the key.
    pub fn answer(self, call: &impl Keyed) -> Result<Answer, Failure> {
        let key = self.read(call)?;
        let text = call.text(&key);
        let text = text.map_err(|refusal| call.refused(refusal, &key))?;
        Ok(Answer::accepted(text + "\n"))
    }

    fn is_standard_input(&self) -> bool {
        match self {
            Key::Seed(Source::File(file)) | Key::File(file) => *file == "-",
            Key::Seed(Source::Argument(_)) => false,
        }
    }

    fn read(self, call: &impl Keyed) -> Result<Vec<u32>, Failure> {
        match self {
            Key::Seed(seed) => stretched(call, &seed.read()?),
            Key::File(file) => input::numbers(file),
        }
    }
}

/// The key for the call, from the seed.
///
/// A key has a word at least, so a first call under an empty one is refused: with a test that comes
/// before Key, as it would be under any key, or else with Key. Then settings and message are fit,
/// and the key's length is known. The seed is tested by a stretch of no words; of both refusals the
/// one whose test comes first is told.
fn stretched(call: &impl Keyed, seed: &Seed) -> Result<Vec<u32>, Failure> {
    let width = call.width();
    let found = [call.text(&[]).err(), seed.stretch(width, &mut []).err()];
    let first = Refusal::ALL
        .into_iter()
        .take_while(|refusal| *refusal != Refusal::Key)
        .find(|refusal| found.contains(&Some(*refusal)));
    let mut key = match first {
        Some(Refusal::Seed) => return Err(refused::seed(seed)),
        Some(refusal) => return Err(call.refused(refusal, &[])),
        None => vec![0; call.key_words()],
    };
    seed.stretch(width, &mut key)
        .map_err(|refusal| call.refused(refusal, &[]))?;
    Ok(key)
}
