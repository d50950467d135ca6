//! Peers.

use crate::run::{accepted, refused, Scratch};
use pairing_agent::Refusal;

/// Case C: the digest words are 172 and 255, under the key's first three words and its last three.
#[test]
fn worked_peers() {
    let [first, second] = keys("peers-worked", ["10 20 100", "20 100 250"]);
    let message = Scratch::new("peers-worked-message", "3\n0x7\n");
    let args = ["peers", "--width", "8", "-", first.path(), second.path()];
    assert_eq!(accepted(&args, b"3 7"), "000000ac\n000000ff\n");
    // The message as a file, options last, and a key from standard input.
    let args = [
        "peers",
        message.path(),
        "-",
        second.path(),
        "--width=8",
        "--words=1",
    ];
    assert_eq!(accepted(&args, b"10 20 100"), "000000ac\n000000ff\n");
    // The other way round, and four bits kept.
    let args = ["peers", "--kept", "4", "--width", "8", "-"];
    let args = [&args[..], &[second.path(), first.path()]].concat();
    assert_eq!(accepted(&args, b"3 7"), "0000000f\n0000000c\n");
}

/// Each line is what `digest-words` prints under that key alone.
#[test]
fn lines_are_the_digests_of_each_key() {
    let seeds: Vec<u32> = (40..56).collect();
    for (w, n, words) in [("5", "1", 0), ("13", "3", 9), ("32", "8", 70)] {
        let message = "6 ".repeat(words);
        let settings = ["--width", w, "--words", n];
        let mut due = String::new();
        let keys = seeds.iter().map(|seed| {
            let seed = seed.to_string();
            let alone = [&["digest-words"], &settings[..], &["--seed", &seed, "-"]].concat();
            due += &accepted(&alone, message.as_bytes());
            let count = (words + n.parse::<usize>().unwrap()).to_string();
            let args = ["stretch", "--width", w, "--seed", &seed, &count];
            Scratch::new(&format!("peers-alone-{seed}"), accepted(&args, b""))
        });
        let keys: Vec<Scratch> = keys.collect();
        let files = keys.iter().map(Scratch::path);
        let args: Vec<&str> = ["peers", "-"]
            .into_iter()
            .chain(settings)
            .chain(files)
            .collect();
        assert_eq!(accepted(&args, message.as_bytes()), due, "width {w}");
        // A seed stands for its stretched key.
        let row: String = seeds.iter().map(|seed| format!("{seed}\n")).collect();
        let row = Scratch::new("peers-seeds", row);
        let args = [&["peers", "-", "--seeds", row.path()], &settings[..]].concat();
        assert_eq!(accepted(&args, message.as_bytes()), due, "width {w}");
    }
}

/// The arguments of a call with those options, whose message is standard input.
fn with<'a>(options: &[&'a str], keys: &'a [Scratch]) -> Vec<&'a str> {
    let files = keys.iter().map(Scratch::path);
    let options = options.iter().copied();
    ["peers", "-"]
        .into_iter()
        .chain(options)
        .chain(files)
        .collect()
}

/// A file for each row, whose names begin so.
fn keys<const N: usize>(name: &str, rows: [&str; N]) -> [Scratch; N] {
    std::array::from_fn(|place| Scratch::new(&format!("{name}-{place}"), rows[place]))
}

#[test]
fn refusals_of_settings() {
    let two = keys("peers-two", ["1 2", "3 4"]);
    for (option, refusal, figures) in [
        (
            "--width=33",
            Refusal::Width,
            "the width is 33; it must be 1 to 32",
        ),
        (
            "--kept=0",
            Refusal::Kept,
            "0 bits kept; 1 to 32 at width 32",
        ),
        ("--words=9", Refusal::Count, "9 digest words; 1 to 8"),
    ] {
        refused(refusal, figures, &with(&[option], &two), b"5");
    }
    let seventeen = keys("peers-many", ["1 2"; 17]);
    let figures = "17 peers; 1 to 16";
    refused(Refusal::Peers, figures, &with(&[], &seventeen), b"5");
    // Count comes before Peers, and Peers before Long and Key.
    let figures_of_count = "0 digest words; 1 to 8";
    let args = with(&["--words", "0"], &seventeen);
    refused(Refusal::Count, figures_of_count, &args, b"5");
    let long = "5 ".repeat(65_537);
    let args = with(&[], &seventeen);
    refused(Refusal::Peers, figures, &args, long.as_bytes());
    refused(Refusal::Peers, figures, &args, b"5 5");
    // Seeds are counted alike.
    for (row, figures) in [("", "0 peers"), (&"7 ".repeat(17), "17 peers")] {
        let row = Scratch::new("peers-refused-seeds", row);
        let figures = format!("{figures}; 1 to 16");
        let args = ["peers", "--seeds", row.path(), "-"];
        refused(Refusal::Peers, &figures, &args, b"5");
    }
    // Before a key is stretched, the settings and the message are tested.
    let row = Scratch::new("peers-refused-seeds", "7 8");
    let args = ["peers", "--width", "0", "--seeds", row.path(), "-"];
    refused(
        Refusal::Width,
        "the width is 0; it must be 1 to 32",
        &args,
        b"5",
    );
    let args = ["peers", "--seeds", row.path(), "-"];
    let figures = "65,537 message words; at most 65,536";
    refused(Refusal::Long, figures, &args, long.as_bytes());
}

/// Also where the keys' lengths together are right: a word too many in one, too few in another.
#[test]
fn every_key_is_measured() {
    let due = "a message of 2 and a digest of 1 take 3";
    for (rows, figures) in [
        (["1 2", "3 4 5", "6 7 8"], "peer 1: a key of 2 words"),
        (["1 2 3", "4 5 6", "7 8 9 9"], "peer 3: a key of 4 words"),
        (["1 2 3", "4 5 6 7", "8 9"], "peer 2: a key of 4 words"),
        (["1 2", "3 4 5 6", "7 8 9"], "peer 1: a key of 2 words"),
        (["1 2 3 4 5 6 7 8 9", "", ""], "peer 1: a key of 9 words"),
    ] {
        let rows = keys("peers-measured", rows);
        let figures = format!("{figures}; {due}");
        refused(Refusal::Key, &figures, &with(&[], &rows), b"5 6");
        // Key comes before Word.
        let args = with(&["--width", "3"], &rows);
        refused(Refusal::Key, &figures, &args, b"5 6");
        refused(Refusal::Key, &figures, &args, b"5 8");
    }
}

#[test]
fn refusals_of_words() {
    let rows = keys("peers-words", ["1 2", "3 4", "5 8"]);
    let args = with(&["--width", "3"], &rows);
    let figures = "peer 3: key word 2 is 8; at most 7 at width 3";
    refused(Refusal::Word, figures, &args, b"7");
    let figures = "message word 1 is 9; at most 7 at width 3";
    refused(Refusal::Word, figures, &args, b"9");
    let args = with(&["--width", "4"], &rows);
    assert_eq!(accepted(&args, b"7").lines().count(), 3);
}
