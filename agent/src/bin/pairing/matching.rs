//! `pairing match`.

use crate::args::Args;
use crate::ending::{usage, Answer, Failure};
use crate::number::digest_word;
use crate::show::shown;
use crate::{input, refused};
use std::ffi::OsStr;
use std::path::Path;

pub const HELP: &str = "\
Whether two digests agree at every place.

Usage: pairing match --words N FIRST SECOND

  --words N    digest words, 1 to 8
  FIRST        a digest: its words, separated by commas or white space,
  SECOND       or @FILE for a file that holds them; @- is standard input

A word is eight hexadecimal digits, as 'pairing digest' prints it, or a
hexadecimal number after 0x: 000000ac,000000ff and 0xac,0xff are one digest.
Decimal numbers are not taken here, since they could be mistaken for such words.

Prints 'match' with exit status 0, or 'no match' with exit status 1.
";

pub fn run(args: Args) -> Result<Answer, Failure> {
    let [first, second] = args.operands(["FIRST", "SECOND"])?;
    if first == "@-" && second == "@-" {
        return Err(usage("only one digest can be standard input"));
    }
    // Who forgets the @ may well have forgotten --words, and is told of the @ first.
    let (first, second) = (Given::of(first)?, Given::of(second)?);
    let words = args.needed_number("--words")?;
    let (first, second) = (first.read()?, second.read()?);
    let agree = pairing_agent::digests_match(words, &first, &second)
        .map_err(|refusal| refused::digests_match(refusal, words, &first, &second))?;
    Ok(if agree {
        Answer::accepted("match\n")
    } else {
        Answer::no_match()
    })
}

/// The digest that an operand gives: its words, or a file of them.
enum Given<'a> {
    Words(Vec<u32>),
    File(&'a OsStr),
}

impl<'a> Given<'a> {
    fn of(operand: &'a OsStr) -> Result<Given<'a>, Failure> {
        match input::at_file(operand) {
            Some(file) => Ok(Given::File(file)),
            None => input::words(&operand.to_string_lossy(), apart)
                .map(|word| digest_word(word).map_err(|why| usage(why + &or_a_file(operand))))
                .collect::<Result<_, _>>()
                .map(Given::Words),
        }
    }

    fn read(self) -> Result<Vec<u32>, Failure> {
        match self {
            Given::Words(words) => Ok(words),
            Given::File(file) => input::row(file, apart, digest_word),
        }
    }
}

/// What to write if the operand, which is no digest, is a file or looks like one.
fn or_a_file(operand: &OsStr) -> String {
    let text = operand.to_string_lossy();
    let like_a_digest = |letter: char| letter.is_ascii_hexdigit() || letter == 'x' || apart(letter);
    match Path::new(operand).is_file() || !text.chars().all(like_a_digest) {
        true => format!("; for a file write @{}", shown(operand)),
        false => String::new(),
    }
}

fn apart(letter: char) -> bool {
    letter == ',' || letter.is_whitespace()
}
