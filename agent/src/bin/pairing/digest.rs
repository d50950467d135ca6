//! `pairing digest` and `pairing digest-words`.

use crate::args::Args;
use crate::ending::{Answer, Failure};
use crate::keyed::{key_help, Key, Keyed};
use crate::message::Message;
use crate::refused;
use crate::rule::rule_help;
use pairing_agent::{Refusal, Settings, MOST_DIGEST_WORDS};
use std::ffi::OsStr;

pub const OPTIONS: &[&str] = &["--width", "--kept", "--words", "--seed", "--key"];

/// What the help of both commands says of their options after the width.
macro_rules! options_help {
    () => {
        concat!(size_help!(), key_help!("N words"))
    };
}

/// What the help of a command says of the digest's size.
macro_rules! size_help {
    () => {
        "  --kept B     low bits kept of each digest word, 1 to W; W if not given
  --words N    digest words, 1 to 8; 1 if not given
"
    };
}
pub(crate) use size_help;

pub const BYTES_HELP: &str = concat!(
    "The digest of a file's bytes.

Usage: pairing digest [--width W] [--kept B] [--words N] (--seed S | --key FILE) FILE

  --width W    bits of a word: 8, 16 or 32; 32 if not given
",
    options_help!(),
    "  FILE         the message; - is standard input

The byte 0x80 closes the message, also an empty one, so that zero bytes at its
end count. Closed, it fills words with the first byte lowest, and zero bytes
fill up the last word: of 32 bits, 7 bytes are 2 words, and 8 bytes are 3.
Prints the digest words, each as eight hexadecimal digits.
",
    rule_help!()
);

pub const WORDS_HELP: &str = concat!(
    "The digest of a row of words.

Usage: pairing digest-words [--width W] [--kept B] [--words N]
                            (--seed S | --key FILE) FILE

  --width W    bits of a word, 1 to 32; 32 if not given
",
    options_help!(),
    "  FILE         the message, as a file of numbers; - is standard input

Prints the digest words, each as eight hexadecimal digits.
",
    rule_help!()
);

struct Digest {
    settings: Settings,
    message: Message,
}

impl Keyed for Digest {
    fn width(&self) -> u32 {
        self.settings.width
    }

    fn key_words(&self) -> usize {
        self.settings.key_words(self.message.words(self.settings))
    }

    fn text(&self, key: &[u32]) -> Result<String, Refusal> {
        // Room for the largest digest, so that the output is never too short.
        let mut out = [0; MOST_DIGEST_WORDS];
        self.message.digest(self.settings, key, &mut out)?;
        Ok(text(&out[..self.settings.words as usize]))
    }

    fn refused(&self, refusal: Refusal, key: &[u32]) -> Failure {
        refused::digest(refusal, self.settings, &self.message, key)
    }
}

/// A digest as it is printed.
pub fn text(digest: &[u32]) -> String {
    let words = digest.iter().map(|word| format!("{word:08x}"));
    words.collect::<Vec<_>>().join(" ")
}

pub fn bytes(args: Args) -> Result<Answer, Failure> {
    run(&args, Message::read_bytes)
}

pub fn words(args: Args) -> Result<Answer, Failure> {
    run(&args, Message::read_words)
}

/// The settings that the options give.
pub fn settings(args: &Args) -> Result<Settings, Failure> {
    let width = args.number("--width")?.unwrap_or(32);
    Ok(Settings {
        width,
        kept: args.number("--kept")?.unwrap_or(width),
        words: args.number("--words")?.unwrap_or(1),
    })
}

/// The settings of one digest word with every bit kept.
pub fn one_word(width: u32) -> Settings {
    Settings {
        width,
        kept: width,
        words: 1,
    }
}

fn run(args: &Args, read: fn(&OsStr) -> Result<Message, Failure>) -> Result<Answer, Failure> {
    let settings = settings(args)?;
    let [file] = args.operands(["FILE"])?;
    let key = Key::given(args, file)?;
    let message = read(file)?;
    key.answer(&Digest { settings, message })
}
