//! The figures of a call that the library refused: what was given, and what is taken.
//!
//! The library has decided; this only describes the call.

use crate::digest::one_word;
use crate::ending::Failure;
use crate::input::MOST_BYTES;
use crate::message::Message;
use crate::seed::Seed;
use crate::show::{counted, thousands};
use pairing_agent::{Refusal, Settings, MOST_PEERS, MOST_SEED_WORDS};
use pairing_agent::{MOST_DIGEST_WORDS, MOST_KEY_WORDS, MOST_MESSAGE_WORDS};

const WIDTHS: &str = "1 to 32";
const WIDTHS_FOR_BYTES: &str = "8, 16 or 32";

pub fn digest(refusal: Refusal, settings: Settings, message: &Message, key: &[u32]) -> Failure {
    let Settings { width, kept, words } = settings;
    let figures = match refusal {
        Refusal::Width => Some(width_figures(width, widths(message))),
        Refusal::Kept => Some(kept_figures(kept, width)),
        Refusal::Count => Some(count_figures(words)),
        Refusal::Long => Some(long_figures(message, settings)),
        Refusal::Key => Some(key_figures(message.words(settings), words, key.len())),
        Refusal::Word => word_figures(message.given_words(), width, key),
        _ => None,
    };
    Failure::Refused(refusal, figures)
}

pub fn peers(
    refusal: Refusal,
    settings: Settings,
    peers: usize,
    message: &Message,
    keys: &[Vec<u32>],
) -> Failure {
    let Settings { width, kept, words } = settings;
    let figures = match refusal {
        Refusal::Width => Some(width_figures(width, widths(message))),
        Refusal::Kept => Some(kept_figures(kept, width)),
        Refusal::Count => Some(count_figures(words)),
        Refusal::Peers => Some(format!("{}; 1 to {MOST_PEERS}", counted(peers, "peer"))),
        Refusal::Long => Some(long_figures(message, settings)),
        Refusal::Key => key_of_a_peer_figures(settings, message.words(settings), keys),
        Refusal::Word => word_of_a_peer_figures(message.given_words(), width, keys),
        _ => None,
    };
    Failure::Refused(refusal, figures)
}

pub fn code(refusal: Refusal, width: u32, digits: u32, message: &Message, key: &[u32]) -> Failure {
    let settings = one_word(width);
    let figures = match refusal {
        Refusal::Width => Some(width_figures(width, widths(message))),
        Refusal::Digits => Some(digits_figures(digits, width)),
        Refusal::Long => Some(long_figures(message, settings)),
        Refusal::Key => Some(key_figures(message.words(settings), 1, key.len())),
        Refusal::Word => word_figures(message.given_words(), width, key),
        _ => None,
    };
    Failure::Refused(refusal, figures)
}

pub fn stretch(refusal: Refusal, width: u32, seed: &Seed, words: u32) -> Failure {
    let long = at_most(words as usize, "words", MOST_KEY_WORDS);
    from_seed(refusal, width, seed, long)
}

pub fn load(
    refusal: Refusal,
    width: u32,
    seed: &Seed,
    key_words: u32,
    message_words: u32,
) -> Failure {
    let long = match key_words as usize {
        words if words > MOST_KEY_WORDS => at_most(words, "key words", MOST_KEY_WORDS),
        _ => most_words(message_words as usize),
    };
    from_seed(refusal, width, seed, long)
}

/// A call that fills rows from a seed, with its figures if a row is too long.
fn from_seed(refusal: Refusal, given: u32, from: &Seed, long: String) -> Failure {
    match refusal {
        Refusal::Seed => seed(from),
        Refusal::Long => Failure::Refused(refusal, Some(long)),
        _ => width(refusal, given),
    }
}

/// A call in which the seed array is wrong.
pub fn seed(given: &Seed) -> Failure {
    let words = counted(given.words(), "seed word");
    let figures = format!("{words}; 1 to {MOST_SEED_WORDS}");
    Failure::Refused(Refusal::Seed, Some(figures))
}

/// A call in which only the width can still be wrong.
pub fn width(refusal: Refusal, given: u32) -> Failure {
    let figures = (refusal == Refusal::Width).then(|| width_figures(given, WIDTHS));
    Failure::Refused(refusal, figures)
}

pub fn digests_match(refusal: Refusal, words: u32, first: &[u32], second: &[u32]) -> Failure {
    let figures = match refusal {
        Refusal::Count => Some(count_figures(words)),
        Refusal::Tray => {
            let first = thousands(first.len());
            let second = counted(second.len(), "word");
            Some(format!(
                "rows of {first} and {second}; each must have {words}"
            ))
        }
        _ => None,
    };
    Failure::Refused(refusal, figures)
}

fn widths(message: &Message) -> &'static str {
    match message {
        Message::Bytes(_) => WIDTHS_FOR_BYTES,
        Message::Words(_) => WIDTHS,
    }
}

fn width_figures(width: u32, widths: &str) -> String {
    format!("the width is {}; it must be {widths}", thousands(width))
}

fn kept_figures(kept: u32, width: u32) -> String {
    let kept = thousands(kept);
    format!("{kept} bits kept; 1 to {width} at width {width}")
}

fn digits_figures(digits: u32, width: u32) -> String {
    // The most digits: the largest d with 10^d at most 2^w.
    let passing = match (1u64 << width).ilog10() {
        0 => "no number of digits passes".into(),
        1 => "only 1 passes".into(),
        most => format!("1 to {most}"),
    };
    let digits = counted(digits as usize, "digit");
    format!("{digits}; {passing} at width {width}")
}

fn count_figures(words: u32) -> String {
    format!(
        "{} digest words; 1 to {MOST_DIGEST_WORDS}",
        thousands(words)
    )
}

fn long_figures(message: &Message, settings: Settings) -> String {
    match message {
        Message::Bytes(bytes) => most_bytes(bytes.len(), settings.width),
        Message::Words(words) => most_words(words.len()),
    }
}

/// The closing byte has a place in the last word that may be there.
fn most_bytes(bytes: usize, width: u32) -> String {
    let bound = match bytes == MOST_BYTES {
        true => "at least ",
        false => "",
    };
    let most = MOST_MESSAGE_WORDS * (width as usize / 8) - 1;
    let figures = at_most(bytes, "bytes", most);
    format!("{bound}{figures} at width {width}")
}

fn most_words(words: usize) -> String {
    at_most(words, "message words", MOST_MESSAGE_WORDS)
}

fn at_most(number: usize, things: &str, most: usize) -> String {
    let (number, most) = (thousands(number), thousands(most));
    format!("{number} {things}; at most {most}")
}

fn key_figures(message_words: usize, digest_words: u32, key_words: usize) -> String {
    format!(
        "a key of {}; a message of {} and a digest of {digest_words} take {}",
        counted(key_words, "word"),
        thousands(message_words),
        thousands(message_words + digest_words as usize)
    )
}

/// The first key of another length than the others should have.
fn key_of_a_peer_figures(settings: Settings, words: usize, keys: &[Vec<u32>]) -> Option<String> {
    let due = settings.key_words(words);
    let place = keys.iter().position(|key| key.len() != due)?;
    let figures = key_figures(words, settings.words, keys[place].len());
    Some(format!("peer {}: {figures}", place + 1))
}

/// The first word that is too large, of the message or else of the key.
fn word_figures(message: &[u32], width: u32, key: &[u32]) -> Option<String> {
    [("message", message), ("key", key)]
        .into_iter()
        .find_map(|(row, words)| too_large(row, words, width))
}

/// The same of the message or else of the first key that has one.
fn word_of_a_peer_figures(message: &[u32], width: u32, keys: &[Vec<u32>]) -> Option<String> {
    let in_keys = || {
        keys.iter().enumerate().find_map(|(place, key)| {
            let figures = too_large("key", key, width)?;
            Some(format!("peer {}: {figures}", place + 1))
        })
    };
    too_large("message", message, width).or_else(in_keys)
}

fn too_large(row: &str, words: &[u32], width: u32) -> Option<String> {
    let most = (1u64 << width) - 1;
    let place = words.iter().position(|&word| u64::from(word) > most)?;
    Some(format!(
        "{row} word {} is {}; at most {} at width {width}",
        thousands(place + 1),
        thousands(words[place]),
        thousands(most)
    ))
}
