//! Bytes as words, and the commands that take both.

use crate::run::{accepted, bad_content, refused, Scratch};
use pairing_agent::Refusal;

const WIDTHS: [&str; 3] = ["8", "16", "32"];

/// Messages around the ends of words, with bytes that are no text and zeros at the end.
const MESSAGES: [&[u8]; 9] = [
    b"",
    b"a",
    b"abc",
    b"abcd",
    b"abcde",
    b"depot 7, gate B, scanner 0451",
    b"\0\0\0\0",
    b"\x80",
    b"\xff\xfe\r\n \xc3(\0",
];

#[test]
fn words_of_bytes() {
    for (w, bytes, due) in [
        ("32", &b"depot 7"[..], "0x6f706564 0x80372074\n"),
        ("32", b"", "0x00000080\n"),
        ("32", b"abcd", "0x64636261 0x00000080\n"),
        ("16", b"abc", "0x00006261 0x00008063\n"),
        ("16", b"ab", "0x00006261 0x00000080\n"),
        ("8", b"a\0", "0x00000061 0x00000000 0x00000080\n"),
    ] {
        let file = Scratch::new("words-bytes", bytes);
        let args = ["words", "--width", w];
        assert_eq!(accepted(&[&args[..], &["-"]].concat(), bytes), due);
        assert_eq!(accepted(&[&args[..], &[file.path()]].concat(), b""), due);
    }
    // The width is 32 if none is given.
    assert_eq!(accepted(&["words", "-"], b"a"), "0x00008061\n");
}

/// The words are a message with the digest of the bytes.
#[test]
fn words_have_the_digest_of_the_bytes() {
    for w in WIDTHS {
        for bytes in MESSAGES {
            let words = accepted(&["words", "--width", w, "-"], bytes);
            assert_eq!(words.lines().count(), 1);
            let settings = ["--width", w, "--words", "3", "--seed", "9", "-"];
            let digest =
                |command, message: &[u8]| accepted(&[&[command], &settings[..]].concat(), message);
            let of_words = digest("digest-words", words.as_bytes());
            assert_eq!(of_words, digest("digest", bytes), "{w}, {bytes:?}");
        }
    }
}

#[test]
fn code_and_peers_take_bytes() {
    let seeds = Scratch::new("bytes-seeds", "9\n10\n");
    for w in WIDTHS {
        for bytes in MESSAGES {
            let words = accepted(&["words", "--width", w, "-"], bytes);
            let file = Scratch::new("bytes", bytes);
            let code = ["code", "--width", w, "--digits", "2", "--seed", "9"];
            let peers = [
                "peers",
                "--width",
                w,
                "--words",
                "2",
                "--seeds",
                seeds.path(),
            ];
            for args in [&code[..], &peers] {
                let due = accepted(&[args, &["-"]].concat(), words.as_bytes());
                let of_file = accepted(&[args, &["--label", file.path()]].concat(), b"");
                assert_eq!(of_file, due, "{args:?}, {bytes:?}");
                let of_input = accepted(&[args, &["--label=-"]].concat(), bytes);
                assert_eq!(of_input, due, "{args:?}, {bytes:?}");
            }
            // Each peer's line is the digest of the bytes.
            let digests = ["9", "10"].map(|seed| {
                let args = ["digest", "--width", w, "--words", "2", "--seed", seed, "-"];
                accepted(&args, bytes)
            });
            let args = [&peers[..], &["--label", file.path()]].concat();
            assert_eq!(accepted(&args, b""), digests.concat());
        }
    }
    // With keys of their own.
    let key = Scratch::new("bytes-key", "1 0 0");
    let args = ["peers", "--label=-", key.path(), key.path()];
    assert_eq!(accepted(&args, b"abcd"), "64636261\n64636261\n");
}

/// The width comes first, then the tests of the command, in their order.
#[test]
fn refusals_of_bytes() {
    let seeds = Scratch::new("bytes-refused-seeds", "9");
    let with_seeds = ["--seeds", seeds.path(), "--label=-"];
    let long = vec![7; 65_536];
    for w in ["0", "1", "24", "31", "33"] {
        let width = format!("--width={w}");
        let figures = format!("the width is {w}; it must be 8, 16 or 32");
        for args in [
            &["words", &width, "-"][..],
            &["code", &width, "--digits=0", "--seed=,", "--label=-"],
            &[&["peers", &width, "--kept=0"], &with_seeds[..]].concat(),
        ] {
            refused(Refusal::Width, &figures, args, b"abc");
            refused(Refusal::Width, &figures, args, &long);
        }
    }
    let figures = "65,536 bytes; at most 65,535 at width 8";
    for args in [
        &["words", "--width=8", "-"][..],
        &["code", "--width=8", "--digits=1", "--seed=1", "--label=-"],
        &[&["peers", "--width=8"], &with_seeds[..]].concat(),
    ] {
        refused(Refusal::Long, figures, args, &long);
        accepted(args, &long[1..]);
    }
    let args = ["code", "--width=8", "--digits=3", "--seed=1", "--label=-"];
    let figures = "3 digits; 1 to 2 at width 8";
    refused(Refusal::Digits, figures, &args, &long);
    let key = Scratch::new("bytes-refused-key", "1 2 3");
    let args = ["code", "--key", key.path(), "--label=-"];
    let figures = "a key of 3 words; a message of 3 and a digest of 1 take 4";
    refused(Refusal::Key, figures, &args, b"12345678");
    let args = ["peers", "--label=-", key.path()];
    refused(
        Refusal::Key,
        &format!("peer 1: {figures}"),
        &args,
        b"12345678",
    );
}

/// What is no row of words may be bytes.
#[test]
fn bytes_in_the_place_of_words() {
    let why = "; for a label write --label FILE\n";
    let seeds = Scratch::new("bytes-place-seeds", "9");
    for bytes in [&b"depot 7, gate B"[..], b"\xff\xfe", b"\xc3(", b"1 2 x"] {
        let file = Scratch::new("bytes-place", bytes);
        bad_content(why, &["code", "--seed", "1", file.path()], b"");
        bad_content(why, &["peers", "--seeds", seeds.path(), file.path()], b"");
        // A key is none.
        let run = crate::run::pairing(&["code", "--key", file.path(), "-"]);
        assert_eq!(run.status, 65);
        assert!(!run.err.contains("--label"), "{}", run.err);
    }
}
