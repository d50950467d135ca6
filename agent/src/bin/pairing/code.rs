//! `pairing code`.

use crate::args::{too_many, Args};
use crate::digest::one_word;
use crate::ending::{usage, Answer, Failure};
use crate::keyed::{key_help, Key, Keyed};
use crate::message::{source_help, Message, Source};
use crate::refused;
use crate::rule::rule_help;
use pairing_agent::{Refusal, MOST_CODE_BYTES};

pub const OPTIONS: &[&str] = &["--width", "--digits", "--seed", "--key", "--label"];

pub const HELP: &str = concat!(
    "The code of a row of words or of a label: decimal digits to be read aloud.

Usage: pairing code [--width W] [--digits D] (--seed S | --key FILE)
                    (FILE | --label FILE)

  --width W    bits of a word, 1 to 32; 32 if not given
  --digits D   digits of the code, 1 to 9, and 10^D is at most 2^W, so that
               widths 1 to 3 have no code; 6 if not given
",
    key_help!("one word"),
    source_help!(),
    "
Prints the last D decimal digits of the one-word digest, all W bits kept, zeros
in front included: in groups of three, but four at the end as two and two.

Two different messages of t words have one code under at most
(2F + 1)*2^(W*t + 1) of all keys of t + 1 words, F being (2^W - 1) / 10^D rounded
down. This is proved for keys drawn uniformly, and not for stretched ones. Of two
labels it holds where both make t words.
",
    rule_help!()
);

struct Code {
    width: u32,
    digits: u32,
    message: Message,
}

impl Keyed for Code {
    fn width(&self) -> u32 {
        self.width
    }

    fn key_words(&self) -> usize {
        let settings = one_word(self.width);
        settings.key_words(self.message.words(settings))
    }

    fn text(&self, key: &[u32]) -> Result<String, Refusal> {
        // Room for the longest code, so that the output is never too short.
        let mut out = [0; MOST_CODE_BYTES];
        let message = self.message.in_words(self.width)?;
        pairing_agent::digest_code(self.width, self.digits, &message, key, &mut out)?;
        let text = pairing_agent::code_text(self.digits, &out);
        Ok(text.expect("the library writes decimal digits"))
    }

    fn refused(&self, refusal: Refusal, key: &[u32]) -> Failure {
        refused::code(refusal, self.width, self.digits, &self.message, key)
    }
}

pub fn run(args: Args) -> Result<Answer, Failure> {
    let width = args.number("--width")?.unwrap_or(32);
    let digits = args.number("--digits")?.unwrap_or(6);
    let source = match Source::given(&args)? {
        (source, []) => source,
        (Source::Bytes(_), _) => {
            return Err(usage("only one of FILE and --label can be given"));
        }
        (Source::Numbers(_), [extra, ..]) => return Err(too_many(extra)),
    };
    let key = Key::given(&args, source.file())?;
    let message = source.read()?;
    key.answer(&Code {
        width,
        digits,
        message,
    })
}
