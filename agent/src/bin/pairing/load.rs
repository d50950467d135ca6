//! `pairing load`.

use crate::args::{self, Args};
use crate::ending::{usage, Answer, Failure};
use crate::output::{self, Outputs};
use crate::seed::{seed_help, Source};
use crate::stretch::{lent, lines};
use crate::{place, refused};
use std::ffi::OsStr;

pub const OPTIONS: &[&str] = &["--width", "--seed", "--key-to", "--message-to"];

pub const HELP: &str = concat!(
    "A load for a test bench: a key row, then a message row, from one seed.

Usage: pairing load [--width W] --seed S --key-to FILE --message-to FILE
                    KEY_COUNT MESSAGE_COUNT

  --width W    bits of a word, 1 to 32; 32 if not given
",
    seed_help!("make both rows from this seed:"),
    "  --key-to FILE
               write the key row into this file
  --message-to FILE
               write the message row into this file
  KEY_COUNT    how many key words, up to 65544
  MESSAGE_COUNT
               how many message words, up to 65536
One of the files can be standard output, as -. Both are written whole or not at
all: new files are made beside them and renamed, and keep the permissions.

Writes a word a line, as 'pairing stretch' prints it: a file for --key, and one for
the message of 'pairing digest-words'. The key row is the stretch of the seed, and
the message row is made of the outputs that follow. The same seed makes the same
load again.
"
);

pub fn run(args: Args) -> Result<Answer, Failure> {
    let width = args.number("--width")?.unwrap_or(32);
    let seed = Source::needed(&args)?;
    let files = [
        args.needed_value("--key-to")?,
        args.needed_value("--message-to")?,
    ];
    let [key_words, message_words] = args.operands(["KEY_COUNT", "MESSAGE_COUNT"])?;
    let key_words = args::number("KEY_COUNT", key_words)?;
    let message_words = args::number("MESSAGE_COUNT", message_words)?;
    if place::same(files[0], files[1]) {
        return Err(one_place(files));
    }
    let seed = seed.read()?;
    let (mut key, mut message) = (lent(key_words), lent(message_words));
    seed.load(width, &mut key, &mut message)
        .map_err(|refusal| refused::load(refusal, width, &seed, key_words, message_words))?;
    Outputs::open(&files)?.write(&[&lines(&key), &lines(&message)])?;
    Ok(Answer::accepted(""))
}

fn one_place(files: [&OsStr; 2]) -> Failure {
    let [first, second] = files.map(output::name);
    usage(match first == second {
        true => format!("only one of the rows can go to {first}"),
        false => format!("only one of the rows can go to {first}, and {second} is the same"),
    })
}
