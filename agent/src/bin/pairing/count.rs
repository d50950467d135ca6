//! `pairing count`: 003's count at seven bits, and the same at other small widths.

use crate::args::Args;
use crate::digest::one_word;
use crate::ending::{usage, Answer, Failure};
use crate::output::{self, Outputs};
use crate::show::thousands;
use crate::{histogram, picture, place, refused};
use pairing_agent::Refusal;
use std::collections::BTreeMap;
use std::ffi::OsStr;
use std::io::IsTerminal;

pub const HELP: &str = "\
The largest count of keys under which two different messages have one digest.

Usage: pairing count --width W [--svg FILE]

  --width W    bits of a word, 1 to 10
  --svg FILE   also draw the histogram into this file, which is written whole or
               not at all; - is standard output, and then the picture alone is
               printed

Takes every pair of different one-word messages and every key, with one digest
word and all W bits kept. Prints the largest count, the first pair that reaches
it, how many pairs do, the proved bound, from width 2 on the count that is
proved of one pair, and how many pairs have each count. Width 8 takes about a
second, width 10 about a minute.
";

/// The largest width that is counted.
const WIDEST: u32 = 10;

/// What 003 reports at this width, in keys: 1.875 * 2^-7 of 2^14.
const REPORTED: (u32, u32) = (7, 240);

pub fn run(args: Args) -> Result<Answer, Failure> {
    let w = args.needed_number("--width")?;
    let [] = args.operands([])?;
    if !(1..=WIDEST).contains(&w) {
        return Err(usage(not_counted(w)));
    }
    let printed = OsStr::new("-");
    let files = match args.value("--svg") {
        None => vec![printed],
        Some(svg) if place::same(svg, printed) => vec![svg],
        Some(svg) => vec![svg, printed],
    };
    // Opened before the count, so that a file that cannot be written costs no wait.
    let outputs = Outputs::open(&files)?;
    let count = Count::run(w).map_err(|refusal| refused::width(refusal, w))?;
    let text = count.summary() + "\n" + &histogram::draw(&count.pairs_at);
    match args.value("--svg") {
        None => outputs.write(&[&text])?,
        // Where standard output has the picture, there is no place for the text.
        Some(_) => outputs.write(&[&picture::draw(&count), &text])?,
    }
    Ok(Answer::accepted(""))
}

/// The digest of a one-word message, computed by the proved library.
fn digest(w: u32, message: u32, key: [u32; 2]) -> Result<u32, Refusal> {
    let mut out = [0];
    pairing_agent::digest_words(one_word(w), &[message], &key, &mut out)?;
    Ok(out[0])
}

/// Why a width is not counted.
fn not_counted(w: u32) -> String {
    let why = match w {
        1..=32 => cost(w),
        _ => "a word has 1 to 32 bits".into(),
    };
    let w = thousands(w);
    format!("width {w} is not counted, only widths 1 to {WIDEST} are: {why}")
}

/// What the count would take.
fn cost(w: u32) -> String {
    const DIGESTS_A_SECOND: f64 = 20e6;
    let hours = 2f64.powi(3 * w as i32) / DIGESTS_A_SECOND / 3600.0;
    let time = if hours < 1.0 {
        format!("{:.0} minutes", hours * 60.0)
    } else if hours < 48.0 {
        format!("{hours:.0} hours")
    } else if hours < 24.0 * 730.0 {
        format!("{:.0} days", hours / 24.0)
    } else if hours < 24.0 * 365e6 {
        format!("{:.0} years", hours / 24.0 / 365.0)
    } else {
        format!("{:.0e} years", hours / 24.0 / 365.0)
    };
    format!(
        "every message under every key makes 2^{} digests, about {time} of work and a table of \
         2^{} counts; the bound is proved for every width",
        3 * w,
        2 * w
    )
}

/// The count at one width, over all pairs of different one-word messages and all keys.
pub struct Count {
    pub w: u32,
    /// The most keys under which a pair agrees.
    pub largest: u32,
    /// The first pair with so many.
    pub first: (u32, u32),
    /// For each count of agreeing keys, how many pairs have it.
    pub pairs_at: BTreeMap<u32, u32>,
}

impl Count {
    fn run(w: u32) -> Result<Count, Refusal> {
        let words = 1u32 << w;
        let place = |a: u32, b: u32| (a * words + b) as usize;
        let mut agreeing = vec![0u32; place(words - 1, words - 1) + 1];
        // The messages with each digest, under one key.
        let mut with_digest = vec![Vec::new(); words as usize];
        let mut progress = Progress::start();
        for first_key_word in 0..words {
            progress.show(first_key_word, words);
            for second_key_word in 0..words {
                with_digest.iter_mut().for_each(Vec::clear);
                for message in 0..words {
                    let digest = digest(w, message, [first_key_word, second_key_word])?;
                    let others = &mut with_digest[digest as usize];
                    for &other in others.iter() {
                        agreeing[place(other, message)] += 1;
                    }
                    others.push(message);
                }
            }
        }
        progress.end();

        let mut count = Count {
            w,
            largest: 0,
            first: (0, 1),
            pairs_at: BTreeMap::new(),
        };
        for a in 0..words {
            for b in a + 1..words {
                let keys = agreeing[place(a, b)];
                *count.pairs_at.entry(keys).or_insert(0) += 1;
                if keys > count.largest {
                    (count.largest, count.first) = (keys, (a, b));
                }
            }
        }
        Ok(count)
    }

    /// All pairs of different messages.
    pub fn pairs(&self) -> u32 {
        self.pairs_at.values().sum()
    }

    /// The pairs with the largest count.
    pub fn reached(&self) -> u32 {
        self.pairs_at[&self.largest]
    }

    /// All keys of two words.
    pub fn keys(&self) -> u32 {
        1 << (2 * self.w)
    }

    /// The proved bound, 2^(w*t + n + n*(w - b)), at t = 1, n = 1, b = w.
    pub fn bound(&self) -> u32 {
        1 << (self.w + 1)
    }

    /// The pair whose count is proved; a word of one bit is too narrow for it.
    pub fn tight(&self) -> Option<TightPair> {
        (self.w > 1).then_some(TightPair { w: self.w })
    }

    /// What 003 reports at this width, in keys.
    pub fn reported(&self) -> Option<u32> {
        (self.w == REPORTED.0).then_some(REPORTED.1)
    }

    fn summary(&self) -> String {
        let mut text = format!(
            "width {w}, kept {w}, one digest word, one-word messages: \
             {pairs} pair{s} of different messages, {keys} keys\n\
             largest count of keys under which a pair agrees: {largest}\n\
             first pair that reaches it: {first} and {second}\n\
             pairs that reach it: {reached}\n\
             bound: {bound}\n",
            w = self.w,
            pairs = self.pairs(),
            s = if self.pairs() == 1 { "" } else { "s" },
            keys = self.keys(),
            largest = self.largest,
            first = self.first.0,
            second = self.first.1,
            reached = self.reached(),
            bound = self.bound()
        );
        if let Some(tight) = self.tight() {
            text += &format!(
                "proved of 1 and {}: 2^{} - 2^{} = {}\n",
                tight.second(),
                tight.w + 1,
                tight.h(),
                tight.keys()
            );
        }
        if let Some(reported) = self.reported() {
            text += &format!("003 reports: {reported}, as 1.875 * 2^-7 of all keys\n");
        }
        text
    }
}

/// The messages 1 and 1 + 2^h, h being half the width, rounded up: `PairCount` in
/// crates/theory_digest/specs/TightPair.antt.
pub struct TightPair {
    pub w: u32,
}

impl TightPair {
    pub fn h(&self) -> u32 {
        self.w.div_ceil(2)
    }

    pub fn second(&self) -> u32 {
        1 + (1 << self.h())
    }

    /// The keys under which they agree, as proved.
    pub fn keys(&self) -> u32 {
        (1 << (self.w + 1)) - (1 << self.h())
    }
}

/// A line on standard error that says how far the count is, if that is a terminal.
struct Progress {
    terminal: bool,
    shown: Option<u32>,
}

impl Progress {
    fn start() -> Progress {
        Progress {
            terminal: std::io::stderr().is_terminal(),
            shown: None,
        }
    }

    fn show(&mut self, done: u32, all: u32) {
        let percent = done * 100 / all;
        if self.terminal && self.shown != Some(percent) {
            self.shown = Some(percent);
            output::tell(&format!("\rcounting: {percent} % of the keys"));
        }
    }

    /// Takes the line away.
    fn end(self) {
        if self.terminal {
            output::tell("\r\x1b[K");
        }
    }
}
