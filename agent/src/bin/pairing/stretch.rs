//! `pairing stretch`.

use crate::args::{self, Args};
use crate::ending::{Answer, Failure};
use crate::refused;
use crate::rule::rule_help;
use crate::seed::{seed_help, Source};

pub const HELP: &str = concat!(
    "Key words from a seed: of each output of MT19937 the upper W bits.

Usage: pairing stretch [--width W] --seed S COUNT

  --width W    bits of a word, 1 to 32; 32 if not given
",
    seed_help!("stretch the key from this seed:"),
    "  COUNT        how many words, up to 65544

Prints a word a line, as 0x and eight hexadecimal digits: a file for --key.

The counts over all keys are proved for keys of t + n words drawn uniformly, for a
message of t words and a digest of n; a stretched key is one of at most 2^32, from
arrays of k words one of at most 2^(32*k), and no count is proved for those.
",
    rule_help!(),
    "
MT19937 is no cryptographic generator, and need not be one: the key is public once
the digest is made, and is used for no other.
"
);

/// The longest row that is lent. The library refuses it as it does any longer one.
const LONGEST: u32 = 1 << 20;

pub fn run(args: Args) -> Result<Answer, Failure> {
    let width = args.number("--width")?.unwrap_or(32);
    let seed = Source::needed(&args)?;
    let [count] = args.operands(["COUNT"])?;
    let count = args::number("COUNT", count)?;
    let mut key = lent(count);
    let seed = seed.read()?;
    seed.stretch(width, &mut key)
        .map_err(|refusal| refused::stretch(refusal, width, &seed, count))?;
    Ok(Answer::accepted(lines(&key)))
}

/// A row of so many words to lend, or of as many as are lent.
pub fn lent(words: u32) -> Vec<u32> {
    vec![0; words.min(LONGEST) as usize]
}

/// The row as it is printed: a word a line.
pub fn lines(row: &[u32]) -> String {
    row.iter().map(|word| format!("0x{word:08x}\n")).collect()
}
