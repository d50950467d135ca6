//! The incremental digest by brute force, written from the document and independent of the proved
//! code: no sum is corrected word by word. An opening sums over the whole message; an edit sums over
//! the whole message before it and over the whole message after it, and adds the difference.

use super::paper::{Outcome, MOST_WORDS};
use super::stream::{digest, fits, reading, refused, settings_answer};
use pairing_agent::Settings;

/// The words of a state's row.
pub const STATE_WORDS: usize = 12;

/// The sums of a whole message, with every bit.
pub fn sums(width: u32, words: u32, message: &[u32], key: &[u32]) -> Vec<u32> {
    let kept = width;
    digest(Settings { width, kept, words }, message, key)
}

/// The opening as a whole call. What it leaves is the row.
pub fn open(settings: Settings, message: &[u32], key: &[u32], row: &[u32]) -> Outcome {
    let answer = open_answer(settings, message, key, row.len());
    let mut out = row.to_vec();
    if answer == 0 {
        let Settings { width, kept, words } = settings;
        let numbers = [width, kept, words, message.len() as u32];
        let mut state = [&numbers[..], &sums(width, words, message, key)].concat();
        state.resize(STATE_WORDS, 0);
        out[..STATE_WORDS].copy_from_slice(&state);
    }
    Outcome { answer, out }
}

fn open_answer(settings: Settings, message: &[u32], key: &[u32], places: usize) -> u32 {
    let Settings { width, kept, words } = settings;
    match settings_answer(width, kept, words) {
        0 if message.len() > MOST_WORDS => 4,
        0 if key.len() != message.len() + words as usize => 5,
        0 if places < STATE_WORDS => 6,
        0 if !fits(width, message) || !fits(width, key) => 7,
        answer => answer,
    }
}

fn is_fit(row: &[u32]) -> bool {
    if row.len() != STATE_WORDS || settings_answer(row[0], row[1], row[2]) != 0 {
        return false;
    }
    let (used, unused) = row[4..].split_at(row[2] as usize);
    row[3] as usize <= MOST_WORDS && fits(row[0], used) && unused.iter().all(|&sum| sum == 0)
}

/// The edit as a whole call. What it leaves is the row of the state, and then the message.
pub fn edit(row: &[u32], message: &[u32], key: &[u32], place: usize, word: u32) -> Outcome {
    let answer = edit_answer(row, message, key, place, word);
    if answer != 0 {
        return refused(answer, &[row, message].concat());
    }
    let (w, n) = (row[0], row[2]);
    let mut after = message.to_vec();
    after[place] = word;
    let [old, new] = [message, &after].map(|message| sums(w, n, message, key));
    let mut state = row.to_vec();
    for (sum, (old, new)) in state[4..].iter_mut().zip(old.into_iter().zip(new)) {
        let size = 1u64 << w;
        *sum = ((u64::from(*sum) + u64::from(new) + size - u64::from(old)) % size) as u32;
    }
    Outcome {
        answer,
        out: [state, after].concat(),
    }
}

fn edit_answer(row: &[u32], message: &[u32], key: &[u32], place: usize, word: u32) -> u32 {
    if !is_fit(row) {
        return 8;
    }
    let (w, n, t) = (row[0], row[2] as usize, row[3] as usize);
    if message.len() != t {
        return 4;
    }
    if key.len() != t + n {
        return 5;
    }
    if place >= t {
        return 12;
    }
    let looked_at = [&[message[place], word][..], &key[place..=place + n]];
    match fits(w, &looked_at.concat()) {
        true => 0,
        false => 7,
    }
}

/// The reading as a whole call.
pub fn read(row: &[u32], out: &[u32]) -> Outcome {
    match is_fit(row) {
        true => reading(row[1], &row[4..4 + row[2] as usize], out),
        false => refused(8, out),
    }
}
