//! The stream of words by brute force, written from the document and independent of the proved
//! code: a state takes one message word at a time and moves its key words on by one. Beside it
//! stands the digest of a whole message, the sum over all words.

use super::paper::Outcome;
use pairing_agent::Settings;

/// The words of a state's row.
pub const STATE_WORDS: usize = 21;

const MOST_WORDS: u64 = 65_536;

/// 003, equation 2: the one-word digest, key words by their place.
fn one_word(w: u32, message: &[u32], key: &[u32]) -> u32 {
    let mut sum: u128 = 0;
    for (j, &m) in message.iter().enumerate() {
        sum += m as u128 * key[j] as u128 + ((m as u128 * key[j + 1] as u128) >> w);
    }
    (sum % (1 << w)) as u32
}

/// The digest of a whole message.
pub fn digest(settings: Settings, message: &[u32], key: &[u32]) -> Vec<u32> {
    let Settings { width, kept, words } = settings;
    (0..words as usize)
        .map(|i| (one_word(width, message, &key[i..]) as u64 % (1 << kept)) as u32)
        .collect()
}

/// A state as the document has it, and the row's last place, which nothing uses yet.
struct State {
    width: u32,
    kept: u32,
    n: u32,
    taken: u32,
    sums: [u32; 8],
    keys: [u32; 8],
    last: u32,
}

impl State {
    /// The state that a row of the right length is.
    fn of_row(row: &[u32]) -> Option<State> {
        if row.len() != STATE_WORDS {
            return None;
        }
        Some(State {
            width: row[0],
            kept: row[1],
            n: row[2],
            taken: row[3],
            sums: row[4..12].try_into().unwrap(),
            keys: row[12..20].try_into().unwrap(),
            last: row[20],
        })
    }

    fn row(&self) -> Vec<u32> {
        let numbers = [self.width, self.kept, self.n, self.taken];
        [&numbers[..], &self.sums, &self.keys, &[self.last]].concat()
    }

    fn unfit(&self) -> bool {
        if settings_answer(self.width, self.kept, self.n) != 0 || self.taken as u64 > MOST_WORDS {
            return true;
        }
        let used = self.n as usize;
        !fits(self.width, &self.keys[..used])
            || !fits(self.width, &self.sums[..used])
            || self.keys[used..].iter().any(|&x| x != 0)
            || self.sums[used..].iter().any(|&x| x != 0)
            || self.last != 0
    }

    /// One message word over the held key words and the next one, which then moves in.
    fn take(&mut self, m: u32, k: u32) {
        let n = self.n as usize;
        let mut window = [0; 9];
        window[..n].copy_from_slice(&self.keys[..n]);
        window[n] = k;
        for i in 0..n {
            let [low, high] = [window[i], window[i + 1]].map(|k| m as u128 * k as u128);
            let sum = self.sums[i] as u128 + low + (high >> self.width);
            self.sums[i] = (sum % (1 << self.width)) as u32;
        }
        self.keys[..n].copy_from_slice(&window[1..=n]);
        self.taken += 1;
    }
}

pub fn fits(w: u32, words: &[u32]) -> bool {
    words.iter().all(|&x| (x as u64) < 1u64 << w)
}

/// Tests 1 to 3.
pub fn settings_answer(w: u32, b: u32, n: u32) -> u32 {
    if !(1..=32).contains(&w) {
        1
    } else if b == 0 || b > w {
        2
    } else if !(1..=8).contains(&n) {
        3
    } else {
        0
    }
}

/// The opening as a whole call. What it leaves is the row.
pub fn open(settings: Settings, key: &[u32], row: &[u32]) -> Outcome {
    let answer = open_answer(settings, key, row.len());
    let mut out = row.to_vec();
    if answer == 0 {
        let mut state = State {
            width: settings.width,
            kept: settings.kept,
            n: settings.words,
            taken: 0,
            sums: [0; 8],
            keys: [0; 8],
            last: 0,
        };
        state.keys[..key.len()].copy_from_slice(key);
        out[..STATE_WORDS].copy_from_slice(&state.row());
    }
    Outcome { answer, out }
}

fn open_answer(settings: Settings, key: &[u32], places: usize) -> u32 {
    let Settings { width, kept, words } = settings;
    match settings_answer(width, kept, words) {
        0 if key.len() as u64 != words as u64 => 5,
        0 if places < STATE_WORDS => 6,
        0 if !fits(width, key) => 7,
        answer => answer,
    }
}

/// The push as a whole call. What it leaves is the row of the state.
pub fn push(row: &[u32], message: &[u32], key: &[u32]) -> Outcome {
    let Some(mut state) = State::of_row(row).filter(|state| !state.unfit()) else {
        return refused(8, row);
    };
    if state.taken as u64 + message.len() as u64 > MOST_WORDS {
        return refused(4, row);
    }
    if message.len() != key.len() {
        return refused(5, row);
    }
    if !fits(state.width, message) || !fits(state.width, key) {
        return refused(7, row);
    }
    for (&m, &k) in message.iter().zip(key) {
        state.take(m, k);
    }
    Outcome {
        answer: 0,
        out: state.row(),
    }
}

/// The reading as a whole call.
pub fn read(row: &[u32], out: &[u32]) -> Outcome {
    match State::of_row(row).filter(|state| !state.unfit()) {
        Some(state) => reading(state.kept, &state.sums[..state.n as usize], out),
        None => refused(8, out),
    }
}

/// The reading of these sums, of a state that is fit.
pub fn reading(kept: u32, sums: &[u32], out: &[u32]) -> Outcome {
    if out.len() < sums.len() {
        return refused(6, out);
    }
    let mut out = out.to_vec();
    for (place, sum) in out.iter_mut().zip(sums) {
        *place = (*sum as u64 % (1 << kept)) as u32;
    }
    Outcome { answer: 0, out }
}

pub fn refused(answer: u32, row: &[u32]) -> Outcome {
    Outcome {
        answer,
        out: row.to_vec(),
    }
}
