//! `pairing words`.

use crate::args::Args;
use crate::digest::one_word;
use crate::ending::{Answer, Failure};
use crate::message::Message;
use crate::refused;
use pairing_agent::Refusal;

pub const HELP: &str = "\
The words that a file's bytes make, for the commands that take words.

Usage: pairing words [--width W] FILE

  --width W    bits of a word: 8, 16 or 32; 32 if not given
  FILE         the label, of any bytes; - is standard input

The byte 0x80 closes the label, as in 'pairing digest': the digest of these words
is the digest of the bytes. They are made by this command and not by the library,
which is tested and not proved. Prints them on one line, each as 0x and eight
hexadecimal digits: a message for 'digest-words', 'code' and 'peers' at the same
width. 'code' and 'peers' also take a label at once, with --label.
";

pub fn run(args: Args) -> Result<Answer, Failure> {
    let width = args.number("--width")?.unwrap_or(32);
    let [file] = args.operands(["FILE"])?;
    let message = Message::read_bytes(file)?;
    let settings = one_word(width);
    // The library's word on a digest without a key: of all its tests only Key must fail.
    match message.digest(settings, &[], &mut []) {
        Ok(()) | Err(Refusal::Key) => {}
        Err(refusal) => return Err(refused::digest(refusal, settings, &message, &[])),
    }
    let words = message.in_words(width);
    let words = words.map_err(|refusal| refused::digest(refusal, settings, &message, &[]))?;
    Ok(Answer::accepted(line(&words)))
}

fn line(words: &[u32]) -> String {
    let words: Vec<_> = words.iter().map(|word| format!("0x{word:08x}")).collect();
    words.join(" ") + "\n"
}
