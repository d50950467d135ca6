//! A message, of bytes or of words.

use crate::args::{missing, Args};
use crate::digest::one_word;
use crate::ending::{content, Failure};
use crate::input;
use pairing_agent::{Refusal, Settings};
use std::borrow::Cow;
use std::ffi::{OsStr, OsString};

pub enum Message {
    Bytes(Vec<u8>),
    Words(Vec<u32>),
}

impl Message {
    pub fn read_bytes(file: &OsStr) -> Result<Message, Failure> {
        input::bytes(file).map(Message::Bytes)
    }

    pub fn read_words(file: &OsStr) -> Result<Message, Failure> {
        input::numbers(file).map(Message::Words)
    }

    pub fn digest(&self, settings: Settings, key: &[u32], out: &mut [u32]) -> Result<(), Refusal> {
        match self {
            Message::Bytes(bytes) => pairing_agent::digest_bytes(settings, bytes, key, out),
            Message::Words(words) => pairing_agent::digest_words(settings, words, key, out),
        }
    }

    /// Its words, for a call that takes only words. The width must be one that bytes fill; the
    /// library is asked, by a digest without a key. Its later tests are left to the call itself.
    pub fn in_words(&self, width: u32) -> Result<Cow<'_, [u32]>, Refusal> {
        let settings = one_word(width);
        match self {
            Message::Bytes(bytes) => match self.digest(settings, &[], &mut []) {
                Err(Refusal::Width) => Err(Refusal::Width),
                _ => Ok(settings.closed_words(bytes).into()),
            },
            Message::Words(words) => Ok(words.into()),
        }
    }

    /// Its words where they were given, and may be too large; those that bytes make never are.
    pub fn given_words(&self) -> &[u32] {
        match self {
            Message::Bytes(_) => &[],
            Message::Words(words) => words,
        }
    }

    /// Its length in words.
    pub fn words(&self, settings: Settings) -> usize {
        match self {
            Message::Bytes(bytes) => settings.words_of_bytes(bytes.len()),
            Message::Words(words) => words.len(),
        }
    }
}

/// The file of a message: a row of words, or after `--label` bytes.
pub enum Source<'a> {
    Numbers(&'a OsStr),
    Bytes(&'a OsStr),
}

/// What the help of a command says of both.
macro_rules! source_help {
    () => {
        "  FILE         the message, as a file of numbers; - is standard input
  --label FILE
               take the message from a file of any bytes, closed as in 'pairing
               digest'; the width is then 8, 16 or 32
"
    };
}
pub(crate) use source_help;

impl<'a> Source<'a> {
    /// The one that is given, and the operands that are left.
    pub fn given(args: &'a Args) -> Result<(Source<'a>, &'a [OsString]), Failure> {
        match (args.value("--label"), args.all_operands()) {
            (Some(file), rest) => Ok((Source::Bytes(file), rest)),
            (None, [file, rest @ ..]) => Ok((Source::Numbers(file), rest)),
            (None, []) => Err(missing("FILE or --label")),
        }
    }

    pub fn file(&self) -> &'a OsStr {
        match self {
            Source::Numbers(file) | Source::Bytes(file) => file,
        }
    }

    pub fn read(&self) -> Result<Message, Failure> {
        match self {
            Source::Numbers(file) => Message::read_words(file).map_err(or_bytes),
            Source::Bytes(file) => Message::read_bytes(file),
        }
    }
}

/// A file that is not of numbers may well be of bytes.
fn or_bytes(failure: Failure) -> Failure {
    match failure {
        Failure::Content(text) => content(format!("{text}; for a label write --label FILE")),
        other => other,
    }
}
