//! What the library must answer, written from the paper's equations and the table of answers, in
//! whole numbers of 128 bits and with no eye to speed. It shares nothing with the library but the
//! names of the settings.

use pairing_agent::Settings;

/// The most words of a message.
pub const MOST_WORDS: usize = 65_536;

/// The widths at which bytes fill words.
pub const WIDTHS_OF_BYTES: [u32; 3] = [8, 16, 32];

/// What a call leaves: its answer, and the output row, of words but for a code.
#[derive(Debug, PartialEq, Eq)]
pub struct Outcome<P = u32> {
    pub answer: u32,
    pub out: Vec<P>,
}

/// The word digest as a whole call.
pub fn digest_words(settings: Settings, message: &[u32], key: &[u32], out: &[u32]) -> Outcome {
    let answer = digest_answer(settings, message, key, out.len());
    let mut out = out.to_vec();
    if answer == 0 {
        for i in 1..=settings.words as usize {
            out[i - 1] = digest_word(settings, i, message, key);
        }
    }
    Outcome { answer, out }
}

fn digest_answer(settings: Settings, message: &[u32], key: &[u32], places: usize) -> u32 {
    let n = settings.words as usize;
    match settings_answer(settings) {
        0 => rows_answer(settings.width, message, key, [message.len() + n, n], places),
        refusal => refusal,
    }
}

/// The tests of the settings, 1 to 3.
fn settings_answer(settings: Settings) -> u32 {
    let Settings { width, kept, words } = settings;
    if width == 0 || width > 32 {
        return 1;
    }
    if kept == 0 || kept > width {
        return 2;
    }
    if words == 0 || words > 8 {
        return 3;
    }
    0
}

/// The tests of the rows, 4 to 7, of a call at a fit width. The key has so many words, and so many
/// places are written.
fn rows_answer(
    w: u32,
    message: &[u32],
    key: &[u32],
    [key_words, written]: [usize; 2],
    places: usize,
) -> u32 {
    if message.len() > MOST_WORDS {
        return 4;
    }
    if key.len() != key_words {
        return 5;
    }
    if places < written {
        return 6;
    }
    let size = two_to(w);
    for word in message.iter().chain(key) {
        if u128::from(*word) >= size {
            return 7;
        }
    }
    0
}

/// The digests of p peers as a whole call: those of each peer's own part of the keys, end to end.
pub fn digest_peers(
    settings: Settings,
    p: u32,
    message: &[u32],
    keys: &[u32],
    out: &[u32],
) -> Outcome {
    let answer = peers_answer(settings, p, message, keys, out.len());
    let mut out = out.to_vec();
    if answer == 0 {
        let mut digests = vec![];
        for key in keys.chunks(message.len() + settings.words as usize) {
            for i in 1..=settings.words as usize {
                digests.push(digest_word(settings, i, message, key));
            }
        }
        out[..digests.len()].copy_from_slice(&digests);
    }
    Outcome { answer, out }
}

fn peers_answer(settings: Settings, p: u32, message: &[u32], keys: &[u32], places: usize) -> u32 {
    match settings_answer(settings) {
        0 if p == 0 || p > 16 => 10,
        0 => {
            let (n, p) = (settings.words as usize, p as usize);
            let lengths = [p * (message.len() + n), p * n];
            rows_answer(settings.width, message, keys, lengths, places)
        }
        refusal => refusal,
    }
}

/// The byte digest as a whole call: but for the width, the digest of the words that the bytes make.
pub fn digest_bytes(settings: Settings, message: &[u8], key: &[u32], out: &[u32]) -> Outcome {
    if !WIDTHS_OF_BYTES.contains(&settings.width) {
        return Outcome {
            answer: 1,
            out: out.to_vec(),
        };
    }
    let words = words_of_bytes(settings.width, message);
    digest_words(settings, &words, key, out)
}

/// The bytes, the byte that closes them, and zero bytes until the last word is full; then words of
/// them with the first byte lowest.
pub fn words_of_bytes(w: u32, bytes: &[u8]) -> Vec<u32> {
    let in_a_word = w as usize / 8;
    let mut closed = [bytes, &[0x80]].concat();
    while closed.len() % in_a_word != 0 {
        closed.push(0);
    }
    let mut words = vec![0; closed.len() / in_a_word];
    for (i, byte) in closed.iter().enumerate() {
        words[i / in_a_word] += u32::from(*byte) * 256u32.pow((i % in_a_word) as u32);
    }
    words
}

/// How many words that many bytes and the closing one make; the most of a `usize` where it cannot
/// hold them.
pub fn words_made(w: u32, bytes: usize) -> usize {
    let closed = bytes as u128 + 1;
    let words = closed.div_ceil(u128::from(w) / 8);
    usize::try_from(words).unwrap_or(usize::MAX)
}

/// The code as a whole call.
pub fn digest_code(w: u32, d: u32, message: &[u32], key: &[u32], out: &[u8]) -> Outcome<u8> {
    let answer = code_answer(w, d, message, key, out.len());
    let mut out = out.to_vec();
    if answer == 0 {
        let code = packed(d as usize, one_word(w, message, key));
        out[..code.len()].copy_from_slice(&code);
    }
    Outcome { answer, out }
}

fn code_answer(w: u32, d: u32, message: &[u32], key: &[u32], places: usize) -> u32 {
    if w == 0 || w > 32 {
        return 1;
    }
    if d == 0 || d > most_digits(w) {
        return 9;
    }
    let bytes = d.div_ceil(2) as usize;
    rows_answer(w, message, key, [message.len() + 1, bytes], places)
}

/// The most digits of a code: 10^d is not above 2^w. Widths 1 to 3 have none.
pub fn most_digits(w: u32) -> u32 {
    let fits = |d: &u32| 10u128.pow(*d) <= two_to(w);
    (1..=32).take_while(fits).last().unwrap_or(0)
}

/// The last d decimal digits of the number as they are written, with a zero before an odd d. Two
/// of them written as one hexadecimal number are a byte.
fn packed(d: usize, number: u128) -> Vec<u8> {
    let written = format!("{number:0>40}");
    let mut digits = written[written.len() - d..].to_string();
    if d % 2 == 1 {
        digits.insert(0, '0');
    }
    let byte = |place| u8::from_str_radix(&digits[place..place + 2], 16).unwrap();
    (0..digits.len()).step_by(2).map(byte).collect()
}

/// The match as a whole call.
pub fn match_answer(n: u32, first: &[u32], second: &[u32]) -> u32 {
    if n == 0 || n > 8 {
        return 3;
    }
    if first.len() != n as usize || second.len() != n as usize {
        return 6;
    }
    if first == second {
        100
    } else {
        101
    }
}

/// Digest word i, counted from 1 (section 5.3), its low b bits (equation 5).
fn digest_word(settings: Settings, i: usize, message: &[u32], key: &[u32]) -> u32 {
    let t = message.len();
    let word = one_word(settings.width, message, &key[i - 1..t + i]) % two_to(settings.kept);
    u32::try_from(word).unwrap()
}

/// The digest of one word (equation 2), under a key of one word more than the message.
fn one_word(w: u32, message: &[u32], key: &[u32]) -> u128 {
    assert_eq!(key.len(), message.len() + 1);
    let size = two_to(w);
    let mut sum = 0;
    for (i, m) in message.iter().enumerate() {
        let m = u128::from(*m);
        let low = m * u128::from(key[i]);
        let high = m * u128::from(key[i + 1]) / size;
        sum = (sum + low + high) % size;
    }
    sum
}

fn two_to(e: u32) -> u128 {
    2u128.pow(e)
}
