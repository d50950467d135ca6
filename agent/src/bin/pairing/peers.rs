//! `pairing peers`.

use crate::args::{self, Args};
use crate::digest::{self, size_help};
use crate::ending::{usage, Answer, Failure};
use crate::message::{source_help, Message, Source};
use crate::rule::rule_help;
use crate::{input, refused};
use pairing_agent::{Refusal, Settings, MOST_DIGEST_WORDS, MOST_PEERS};
use std::ffi::{OsStr, OsString};

pub const OPTIONS: &[&str] = &["--width", "--kept", "--words", "--seeds", "--label"];

pub const HELP: &str = concat!(
    "The digests of one row of words, or of a label, under the keys of up to 16 peers.

Usage: pairing peers [--width W] [--kept B] [--words N]
                     (FILE | --label FILE) (KEY... | --seeds SEEDS)

  --width W    bits of a word, 1 to 32; 32 if not given
",
    size_help!(),
    "  --seeds SEEDS
               stretch a key for each peer from its seed in this file of numbers
",
    source_help!(),
    "  KEY          a peer's key, as a file of numbers; it has N words more than the
               message; 1 to 16 of them
One of the files can be standard input, as -.

Prints a line for each peer, in the order of the keys: its digest words, each as
eight hexadecimal digits, as 'pairing digest-words' prints them under its key
alone. No other peer's key changes them; a key that is not fit refuses the call
for all.
",
    rule_help!()
);

/// A call for peers, with all but their number and keys.
struct Peers {
    settings: Settings,
    message: Message,
}

impl Peers {
    /// Each peer's digest, as the library writes them in one call.
    fn digests(&self, peers: usize, keys: &[u32]) -> Result<Vec<u32>, Refusal> {
        // Room for the most peers and digest words, so that the output is never too short.
        let mut out = vec![0; MOST_PEERS * MOST_DIGEST_WORDS];
        let number = u32::try_from(peers).unwrap_or(u32::MAX);
        let message = self.message.in_words(self.settings.width)?;
        pairing_agent::digest_peers(self.settings, number, &message, keys, &mut out)?;
        out.truncate(peers * self.settings.words as usize);
        Ok(out)
    }

    /// The digests under keys of their own lengths. The library sees the length of all together: where
    /// that is right though a key's own is not, it is asked about that key alone.
    fn digests_of(&self, keys: &[Vec<u32>]) -> Result<Vec<u32>, Failure> {
        let answer = self.digests(keys.len(), &keys.concat());
        let words = self.key_words();
        let unlike = keys.iter().find(|key| key.len() != words);
        let answer = match (answer, unlike) {
            (Ok(_) | Err(Refusal::Word), Some(key)) => self.digests(1, key),
            (answer, _) => answer,
        };
        answer.map_err(|refusal| self.refused(refusal, keys))
    }

    /// How many words each key has.
    fn key_words(&self) -> usize {
        self.settings.key_words(self.message.words(self.settings))
    }

    /// A key for each seed. A first call without keys is refused: with a test that comes before Key,
    /// as it would be under any keys, or else with Key, and then the keys' length is known.
    fn stretched(&self, seeds: &[u32]) -> Result<Vec<Vec<u32>>, Failure> {
        match self.digests(seeds.len(), &[]) {
            Ok(_) | Err(Refusal::Key) => {}
            Err(refusal) => {
                return Err(refused::peers(
                    refusal,
                    self.settings,
                    seeds.len(),
                    &self.message,
                    &[],
                ))
            }
        }
        let key = |seed: &u32| {
            let mut key = vec![0; self.key_words()];
            pairing_agent::stretch(self.settings.width, *seed, &mut key)
                .map_err(|refusal| self.refused(refusal, &[]))?;
            Ok(key)
        };
        seeds.iter().map(key).collect()
    }

    fn refused(&self, refusal: Refusal, keys: &[Vec<u32>]) -> Failure {
        refused::peers(refusal, self.settings, keys.len(), &self.message, keys)
    }
}

pub fn run(args: Args) -> Result<Answer, Failure> {
    let settings = digest::settings(&args)?;
    let (source, keys) = Source::given(&args)?;
    let seeds = args.value("--seeds");
    let sources = [Some(source.file()), seeds].into_iter().flatten();
    one_standard_input(sources.chain(keys.iter().map(OsString::as_os_str)))?;
    match (seeds, keys) {
        (None, []) => return Err(args::missing("KEY or --seeds")),
        (Some(_), [_, ..]) => return Err(usage("only one of --seeds and KEY can be given")),
        _ => {}
    }
    let call = Peers {
        settings,
        message: source.read()?,
    };
    let keys = match seeds {
        Some(seeds) => call.stretched(&input::numbers(seeds)?)?,
        None => keys
            .iter()
            .map(|key| input::numbers(key))
            .collect::<Result<_, _>>()?,
    };
    let digests = call.digests_of(&keys)?;
    let lines = digests
        .chunks(settings.words as usize)
        .map(|row| digest::text(row) + "\n");
    Ok(Answer::accepted(lines.collect::<String>()))
}

fn one_standard_input<'a>(files: impl Iterator<Item = &'a OsStr>) -> Result<(), Failure> {
    match files.filter(|file| *file == "-").count() {
        0 | 1 => Ok(()),
        _ => Err(usage(
            "only one of message, seeds and keys can be standard input",
        )),
    }
}
