//! Counts at small widths, and their pictures.

use crate::run::{accepted, bad_usage, Scratch};
use std::collections::BTreeMap;
use std::fs;

/// The counts by brute force: for every pair, every key.
fn counts(w: u32) -> Vec<((u32, u32), u32)> {
    let words = 1 << w;
    let digest = |m: u32, k: u32| (m * (k / words) + m * (k % words) / words) % words;
    let agreeing = |a, b| {
        (0..words * words)
            .filter(|&k| digest(a, k) == digest(b, k))
            .count()
    };
    let mut counts = Vec::new();
    for a in 0..words {
        for b in a + 1..words {
            counts.push(((a, b), agreeing(a, b) as u32));
        }
    }
    counts
}

/// The line on the pair whose count is proved, with the number that brute force finds; none where
/// there is no such pair.
fn tight_line(w: u32, counts: &[((u32, u32), u32)]) -> String {
    let h = w.div_ceil(2);
    let second = 1 + (1 << h);
    match counts.iter().find(|(pair, _)| *pair == (1, second)) {
        Some((_, count)) => format!("proved of 1 and {second}: 2^{} - 2^{h} = {count}\n", w + 1),
        None => String::new(),
    }
}

/// How many pairs have each count, as the histogram shows them.
fn drawn(histogram: &str) -> BTreeMap<u32, u32> {
    let pairs_at = |line: &str| {
        let columns: Vec<_> = line.split_whitespace().collect();
        assert!(columns[2].chars().all(|letter| letter == '#'), "{line}");
        (columns[0].parse().unwrap(), columns[1].parse().unwrap())
    };
    histogram.lines().skip(1).map(pairs_at).collect()
}

#[test]
fn counts_are_those_of_brute_force() {
    for w in 1..=5 {
        let counts = counts(w);
        let largest = counts.iter().map(|(_, count)| *count).max().unwrap();
        let reaching: Vec<_> = counts
            .iter()
            .filter(|(_, count)| *count == largest)
            .collect();
        let (a, b) = reaching[0].0;
        let due = format!(
            "width {w}, kept {w}, one digest word, one-word messages: \
             {} pair{} of different messages, {} keys\n\
             largest count of keys under which a pair agrees: {largest}\n\
             first pair that reaches it: {a} and {b}\n\
             pairs that reach it: {}\n\
             bound: {}\n{}\n",
            counts.len(),
            if w == 1 { "" } else { "s" },
            1 << (2 * w),
            reaching.len(),
            2 << w,
            tight_line(w, &counts)
        );
        let out = accepted(&["count", "--width", &w.to_string()], b"");
        assert!(out.starts_with(&due), "{out}");

        let mut pairs_at = BTreeMap::new();
        for (_, count) in &counts {
            *pairs_at.entry(*count).or_insert(0) += 1;
        }
        assert_eq!(drawn(&out[due.len()..]), pairs_at, "width {w}");
    }
}

/// The largest counts of widths 1 to 8 and the first pairs that reach them, found elsewhere; from
/// width 2 on it is the proved pair that does.
#[test]
fn no_pair_has_more_than_the_proved_one() {
    let found = [
        (2, (0, 1)),
        (6, (1, 3)),
        (12, (1, 5)),
        (28, (1, 5)),
        (56, (1, 9)),
        (120, (1, 9)),
        (240, (1, 17)),
        (496, (1, 17)),
    ];
    for (w, (largest, (a, b))) in (1..).zip(found) {
        let out = accepted(&["count", "--width", &w.to_string()], b"");
        let counted = format!("pair agrees: {largest}\nfirst pair that reaches it: {a} and {b}\n");
        assert!(out.contains(&counted), "{out}");
        let proved = out.lines().find(|line| line.starts_with("proved of "));
        let same = proved.map(|line| {
            line.starts_with(&format!("proved of {a} and {b}: "))
                && line.ends_with(&format!(" = {largest}"))
        });
        assert_eq!(same, (w > 1).then_some(true), "{out}");
    }
}

#[test]
fn seven_bits_are_as_proved_and_as_drawn() {
    let svg = Scratch::new("seven-bits.svg", "");
    let out = accepted(&["count", "--width", "7", "--svg", svg.path()], b"");
    // The program's first lines are on digests; those after them are on codes.
    let lines = include_str!("../../../crates/run_pairs/stdout").split_inclusive('\n');
    let proved: String = lines.take(5).collect();
    assert!(out.starts_with(&proved), "{out}");
    assert!(
        out[proved.len()..].starts_with("proved of 1 and 17: 2^8 - 2^4 = 240\n003 reports: 240,"),
        "{out}"
    );
    let committed = include_str!("../../../docs/seven-bits.svg");
    assert!(
        fs::read_to_string(&svg.0).unwrap() == committed,
        "docs/seven-bits.svg is not what pairing count draws"
    );
}

#[test]
fn a_wide_count_is_grouped() {
    let out = accepted(&["count", "--width", "8"], b"");
    let rows: Vec<_> = out
        .lines()
        .skip_while(|line| !line.is_empty())
        .skip(2)
        .collect();
    assert!(rows.len() > 10 && rows.len() <= 40, "{out}");
    let mut pairs = 0;
    for row in rows {
        let columns: Vec<_> = row.split_whitespace().collect();
        assert_eq!(columns[1], "to", "{row}");
        pairs += columns[3].parse::<u32>().unwrap();
    }
    assert_eq!(pairs, 256 * 255 / 2);
}

#[test]
fn pictures_of_every_small_width() {
    for w in 1..=6u32 {
        let svg = Scratch::new(&format!("count-{w}.svg"), "");
        accepted(
            &["count", "--width", &w.to_string(), "--svg", svg.path()],
            b"",
        );
        let text = fs::read_to_string(&svg.0).unwrap();
        assert!(
            text.starts_with("<svg ") && text.ends_with("</svg>\n"),
            "{text}"
        );
        assert!(
            text.contains(&format!(">proved bound {}<", 2 << w)),
            "{text}"
        );
        let marked = if w == 1 { 0 } else { 1 };
        assert_eq!(text.matches("<circle ").count(), marked, "{text}");
        assert_eq!(text.matches(", proved<").count(), marked, "{text}");
        assert!(!text.contains("NaN") && !text.contains("inf"), "{text}");
        assert!(!text.contains("003"), "{text}");
    }
}

/// Every other width ends alike, with the command's own limit and what stands against it.
#[test]
fn a_width_that_is_not_counted() {
    let no_word = "a word has 1 to 32 bits";
    for (w, shown, why) in [
        ("0", "0", no_word),
        (
            "11",
            "11",
            "every message under every key makes 2^33 digests",
        ),
        (
            "16",
            "16",
            "every message under every key makes 2^48 digests",
        ),
        (
            "32",
            "32",
            "every message under every key makes 2^96 digests",
        ),
        ("33", "33", no_word),
        ("4294967295", "4,294,967,295", no_word),
    ] {
        let why = format!("width {shown} is not counted, only widths 1 to 10 are: {why}");
        bad_usage(&why, &["count", "--width", w], b"");
    }
}
