//! The seven-bit counts by brute force, written from the documents and independent of the proved code.
//!
//! A one-word message m under the key k1, k2 has the digest (m*k1 + floor(m*k2 / 2^7)) mod 2^7; its code of d digits is
//! that modulo 10^d, as packed decimal. For every pair of different messages, and every one of the 2^14 keys, count the
//! keys that give both one digest, or one code.

const WIDTH: u32 = 7;
const WORDS: u32 = 1 << WIDTH;

fn digest(m: u32, k1: u32, k2: u32) -> u32 {
    (m * k1 + m * k2 / WORDS) % WORDS
}

/// What the two ends compare: the digest where d is 0, else the bytes of the code of d digits, as one number.
fn compared(digest: u32, d: u32) -> u32 {
    if d == 0 {
        return digest;
    }
    // Two digits a byte, leading zeros, one more zero before an odd d: decimal digits that are read as hexadecimal.
    let digits = (d + d % 2) as usize;
    let number = format!("{:0digits$}", digest % 10u32.pow(d));
    u32::from_str_radix(&number, 16).unwrap()
}

/// What the message gives under each key.
fn under_all_keys(m: u32, d: u32) -> Vec<u32> {
    (0..WORDS * WORDS)
        .map(|key| compared(digest(m, key / WORDS, key % WORDS), d))
        .collect()
}

fn agreeing_keys(a: &[u32], b: &[u32]) -> usize {
    a.iter().zip(b).filter(|(x, y)| x == y).count()
}

fn bound(d: u32) -> u32 {
    if d == 0 {
        // 2^(w*t + n + n*(w - b)) at t = 1, n = 1, b = w.
        return 1 << (WIDTH + 1);
    }
    // (2F + 1)*2^(w*t + 1) at t = 1, F = (2^w - 1) div 10^d.
    (2 * ((WORDS - 1) / 10u32.pow(d)) + 1) << (WIDTH + 1)
}

fn report(d: u32) -> String {
    let values: Vec<_> = (0..WORDS).map(|m| under_all_keys(m, d)).collect();
    let mut pairs = 0;
    let mut largest = 0;
    let mut first = (0, 0);
    let mut reached = 0;
    for a in 0..values.len() {
        for b in a + 1..values.len() {
            let count = agreeing_keys(&values[a], &values[b]);
            pairs += 1;
            if count > largest {
                largest = count;
                first = (a, b);
                reached = 0;
            }
            if count == largest {
                reached += 1;
            }
        }
    }
    let compared = match d {
        0 => format!("kept {WIDTH}, one digest word"),
        1 => "code of 1 digit".to_string(),
        _ => format!("code of {d} digits"),
    };
    format!(
        "width {WIDTH}, {compared}, one-word messages: \
         {pairs} pairs of different messages, {} keys\n\
         largest count of keys under which a pair agrees: {largest}\n\
         first pair that reaches it: {} and {}\n\
         pairs that reach it: {reached}\n\
         bound: {}\n",
        WORDS * WORDS,
        first.0,
        first.1,
        bound(d)
    )
}

#[test]
fn the_program_writes_what_brute_force_finds() {
    let lines: String = (0..=2).map(report).collect();
    assert_eq!(include_str!("../crates/run_pairs/stdout"), lines);
}
