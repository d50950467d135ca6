//! `pairing explain`.

use crate::args::{self, Args};
use crate::ending::{usage, Answer, Failure};
use crate::show::shown;
use pairing_agent::Refusal;
use std::ffi::OsStr;

pub const HELP: &str = "\
What an answer means, when it is given, and what to do.

Usage: pairing explain ANSWER

  ANSWER    its number, 0 accepted, a refusal's, 100 match, 101 no match; or its
            word, as 'Key' for 5, in capital letters or small ones
";

/// An answer with its word, when it is given, and what to do.
struct Explained {
    number: u32,
    word: String,
    given: &'static str,
    advice: &'static str,
}

pub fn run(args: Args) -> Result<Answer, Failure> {
    let [asked] = args.operands(["ANSWER"])?;
    let text = asked.to_string_lossy();
    let by_number = text.starts_with(|letter: char| letter.is_ascii_digit());
    let found = match by_number {
        true => {
            let number = args::number("ANSWER", asked)?;
            all().find(|answer| answer.number == number)
        }
        false => all().find(|answer| plain(&answer.word) == plain(&text)),
    };
    let answer = found.ok_or_else(|| no_answer(asked))?;
    let Explained { number, word, .. } = answer;
    let (given, advice) = (answer.given, answer.advice);
    Ok(Answer::accepted(format!(
        "{number} {word}\nGiven when: {given}\nWhat to do: {advice}\n"
    )))
}

/// A word without what people write it with in one place or the other: capitals, the space of two
/// words, and what stands before it in C.
fn plain(word: &str) -> String {
    let word = word.to_lowercase().replace([' ', '-', '_'], "");
    word.strip_prefix("pairing").unwrap_or(&word).into()
}

fn all() -> impl Iterator<Item = Explained> {
    let others = [
        // begin: made by tools/answers.py from answers.toml
        (
            0,
            "Accepted",
            "The call is fit, and its output is written.",
            "use the output",
        ),
        (
            100,
            "Match",
            "The two digests agree at every place.",
            "go on with the pairing",
        ),
        (
            101,
            "No match",
            "The two digests, of n words each, differ at some place.",
            "issue no network key; compare the labels and pair again with a fresh key",
        ),
        // end: made by tools/answers.py from answers.toml
    ];
    let others = others.map(|(number, word, given, advice)| Explained {
        number,
        word: word.into(),
        given,
        advice,
    });
    let refusals = Refusal::ALL.map(|refusal| Explained {
        number: refusal.number(),
        word: format!("{refusal:?}"),
        given: refusal.given_when(),
        advice: refusal.what_to_do(),
    });
    others.into_iter().chain(refusals)
}

fn no_answer(asked: &OsStr) -> Failure {
    let largest = Refusal::ALL.map(Refusal::number).into_iter().max();
    let largest = largest.unwrap_or_default();
    usage(format!(
        "'{}' is no answer of the library: those are 0 to {largest}, 100 and 101, and their words",
        shown(asked)
    ))
}
