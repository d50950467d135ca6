//! The count of byte messages of unlike length by brute force, written from the documents and independent of the proved
//! code.
//!
//! At width 8 a byte is a word, and a closed message has the word 0x80 after its bytes. Its digest under a key is the sum
//! over its words of m_j*k_j + floor(m_j*k_{j+1} / 2^8), modulo 2^8. For each message of one byte, and every one of the 2^24
//! keys of three words, compare its digest with that of the message of no bytes, which reads the first two words.

const WORDS: u32 = 1 << 8;
const CLOSING: u32 = 0x80;

fn digest(message: &[u32], key: &[u32]) -> u32 {
    assert_eq!(key.len(), message.len() + 1);
    let sum: u32 = (0..message.len())
        .map(|j| message[j] * key[j] + message[j] * key[j + 1] / WORDS)
        .sum();
    sum % WORDS
}

/// How many keys give the message of no bytes and the message of this byte one digest.
fn agreeing_keys(byte: u32) -> u32 {
    let mut count = 0;
    for k1 in 0..WORDS {
        for k2 in 0..WORDS {
            let none = digest(&[CLOSING], &[k1, k2]);
            for k3 in 0..WORDS {
                count += u32::from(digest(&[byte, CLOSING], &[k1, k2, k3]) == none);
            }
        }
    }
    count
}

fn report() -> String {
    let counts: Vec<_> = (0..WORDS).map(agreeing_keys).collect();
    let largest = *counts.iter().max().unwrap();
    let first = counts.iter().position(|&count| count == largest).unwrap();
    let reached = counts.iter().filter(|&&count| count == largest).count();
    // 2^(w*T + n + n*(w - b)) at w = b = 8, n = 1, T = 2.
    let bound = 1 << (8 * 2 + 1);
    format!(
        "width 8, kept 8, one digest word: the label of no bytes and each of {} labels of one byte, {} keys\n\
         largest count of keys under which the two match: {largest}\n\
         first label that reaches it: {first}\n\
         labels that reach it: {reached}\n\
         bound: {bound}\n",
        counts.len(),
        WORDS * WORDS * WORDS,
    )
}

#[test]
fn the_program_writes_what_brute_force_finds() {
    assert_eq!(include_str!("../crates/run_lengths/stdout"), report());
}
