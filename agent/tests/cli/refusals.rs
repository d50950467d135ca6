//! Calls that the library refuses, and the figures of each.

use crate::run::{accepted, refused, Scratch};
use pairing_agent::Refusal;

/// The largest number that can be given, and how figures write it.
const MOST: &str = "4294967295";
const MOST_SHOWN: &str = "4,294,967,295";

#[test]
fn refusals_of_settings() {
    for (command, widths) in [("digest", "8, 16 or 32"), ("digest-words", "1 to 32")] {
        let with = |more: &[&'static str]| [&[command, "--seed", "1", "-"], more].concat();
        for (w, shown) in [("0", "0"), ("33", "33"), ("0xffffffff", MOST_SHOWN)] {
            let figures = format!("the width is {shown}; it must be {widths}");
            refused(Refusal::Width, &figures, &with(&["--width", w]), b"");
        }
        for (w, b, shown) in [
            ("8", "0", "0"),
            ("8", "9", "9"),
            ("16", "17", "17"),
            ("32", "33", "33"),
            ("32", MOST, MOST_SHOWN),
        ] {
            let figures = format!("{shown} bits kept; 1 to {w} at width {w}");
            let args = with(&["--width", w, "--kept", b]);
            refused(Refusal::Kept, &figures, &args, b"");
        }
        for (n, shown) in [("0", "0"), ("9", "9"), (MOST, MOST_SHOWN)] {
            let figures = format!("{shown} digest words; 1 to 8");
            refused(Refusal::Count, &figures, &with(&["--words", n]), b"");
        }
        // The first test that holds is the answer.
        let args = with(&["--width", "0", "--kept", "0"]);
        let figures = format!("the width is 0; it must be {widths}");
        refused(Refusal::Width, &figures, &args, b"");
        let args = with(&["--kept", "0", "--words", "0"]);
        let figures = "0 bits kept; 1 to 32 at width 32";
        refused(Refusal::Kept, figures, &args, b"");
    }
    for w in ["1", "7", "9", "15", "17", "24", "31"] {
        let args = ["digest", "--width", w, "--seed", "1", "-"];
        let figures = format!("the width is {w}; it must be 8, 16 or 32");
        refused(Refusal::Width, &figures, &args, b"abc");
    }
}

#[test]
fn refusals_of_a_length() {
    // The closing byte is the last of 65,536 words.
    for (w, most, figures) in [
        ("8", 65_535, "65,536 bytes; at most 65,535 at width 8"),
        ("16", 131_071, "131,072 bytes; at most 131,071 at width 16"),
        ("32", 262_143, "262,144 bytes; at most 262,143 at width 32"),
    ] {
        refused(
            Refusal::Long,
            figures,
            &["words", "--width", w, "-"],
            &vec![7; most + 1],
        );
        for n in ["1", "8"] {
            let args = ["digest", "--width", w, "--words", n, "--seed", "1", "-"];
            let digest = accepted(&args, &vec![7; most]);
            assert_eq!(digest.split_whitespace().count().to_string(), n);
            refused(Refusal::Long, figures, &args, &vec![7; most + 1]);
        }
    }
    let figures = "65,537 message words; at most 65,536";
    let words = ["digest-words", "--width", "3", "--words", "8"];
    let args = [&words[..], &["--seed", "1", "-"]].concat();
    accepted(&args, "7 ".repeat(65_536).as_bytes());
    let long = "7 ".repeat(65_537);
    refused(Refusal::Long, figures, &args, long.as_bytes());
    // Kept comes before Long.
    let args = ["digest", "--kept", "0", "--seed", "1", "-"];
    let figures = "0 bits kept; 1 to 32 at width 32";
    refused(Refusal::Kept, figures, &args, &vec![7; 300_000]);
}

#[test]
fn a_message_longer_than_is_read() {
    // 2^24 bytes are read.
    for (w, most) in [("8", "65,535"), ("16", "131,071"), ("32", "262,143")] {
        let figures = format!("at least 16,777,216 bytes; at most {most} at width {w}");
        let args = ["digest", "--width", w, "--seed", "1", "-"];
        refused(Refusal::Long, &figures, &args, &vec![7; 20_000_000]);
    }
    // One byte less is a length that is known.
    let figures = "16,777,215 bytes; at most 65,535 at width 8";
    let args = ["digest", "--width", "8", "--seed", "1", "-"];
    refused(Refusal::Long, figures, &args, &vec![7; (1 << 24) - 1]);
}

#[test]
fn refusals_of_a_key() {
    for (key, words) in [
        ("", "0 words"),
        ("10 20 100", "3 words"),
        ("10 20 100 250 1", "5 words"),
        ("256", "1 word"),
    ] {
        let figures = format!("a key of {words}; a message of 2 and a digest of 2 take 4");
        let key = Scratch::new(&format!("key-of-{}", key.len()), key);
        let settings = ["--width", "8", "--words", "2", "--key", key.path(), "-"];
        // A byte and the one that closes it.
        let args = [&["digest"], &settings[..]].concat();
        refused(Refusal::Key, &figures, &args, &[3]);
        let args = [&["digest-words"], &settings[..]].concat();
        refused(Refusal::Key, &figures, &args, b"3 256");
    }
    // Eight bytes are two words of 32 bits, and the closing byte makes a third.
    let key = Scratch::new("key-of-bytes", "1 2 3");
    let figures = "a key of 3 words; a message of 3 and a digest of 1 take 4";
    let args = ["digest", "--key", key.path(), "-"];
    refused(Refusal::Key, figures, &args, b"12345678");
    // The longest key that is refused for its length alone.
    let key = Scratch::new("key-long", "1 ".repeat(65_545));
    let figures = "a key of 65,545 words; a message of 65,536 and a digest of 8 take 65,544";
    let args = ["digest", "--words", "8", "--key", key.path(), "-"];
    refused(Refusal::Key, figures, &args, &vec![7; 262_143]);
}

#[test]
fn refusals_of_a_word() {
    let key = Scratch::new("key-too-large", "10 20 100 256");
    let settings = ["--width", "8", "--words", "2", "--key", key.path(), "-"];
    let figures = "key word 4 is 256; at most 255 at width 8";
    let args = [&["digest"], &settings[..]].concat();
    refused(Refusal::Word, figures, &args, &[3]);
    let args = [&["digest-words"], &settings[..]].concat();
    refused(Refusal::Word, figures, &args, b"3 7");
    // The message's comes first.
    let figures = "message word 2 is 300; at most 255 at width 8";
    refused(Refusal::Word, figures, &args, b"3 300");
}

#[test]
fn refusals_of_the_first_word_too_large() {
    for (w, message, figures) in [
        (
            "8",
            "255 256",
            "message word 2 is 256; at most 255 at width 8",
        ),
        (
            "8",
            "0 1 256 257",
            "message word 3 is 256; at most 255 at width 8",
        ),
        ("1", "2", "message word 1 is 2; at most 1 at width 1"),
        (
            "16",
            "0x10000",
            "message word 1 is 65,536; at most 65,535 at width 16",
        ),
        (
            "31",
            "0x7fffffff 0xffffffff",
            "message word 2 is 4,294,967,295; at most 2,147,483,647 at width 31",
        ),
    ] {
        let args = ["digest-words", "--width", w, "--seed", "1", "-"];
        refused(Refusal::Word, figures, &args, message.as_bytes());
    }
    let late = "1 ".repeat(1_233) + "4";
    let figures = "message word 1,234 is 4; at most 3 at width 2";
    let args = ["digest-words", "--width", "2", "--seed", "1", "-"];
    refused(Refusal::Word, figures, &args, late.as_bytes());
}

#[test]
fn refusals_of_a_stretch() {
    for w in ["0", "33"] {
        let args = ["stretch", "--width", w, "--seed", "1", "4"];
        let figures = format!("the width is {w}; it must be 1 to 32");
        refused(Refusal::Width, &figures, &args, b"");
    }
    for (count, shown) in [("65545", "65,545"), (MOST, MOST_SHOWN)] {
        let figures = format!("{shown} words; at most 65,544");
        let args = ["stretch", "--seed", "1", count];
        refused(Refusal::Long, &figures, &args, b"");
        let args = ["stretch", "--width", "0", "--seed", "1", count];
        refused(
            Refusal::Width,
            "the width is 0; it must be 1 to 32",
            &args,
            b"",
        );
    }
}

/// Seed comes before all tests but those of width and digits.
#[test]
fn refusals_of_a_seed() {
    let many = Scratch::new("seed-of-many", "1,\n".repeat(1_000_000));
    let long = "300 ".repeat(65_537);
    for (seed, words) in [
        (",", "0 seed words"),
        ("1,2,3,4,5,6,7,8,9", "9 seed words"),
        ("1,2,3,4,5,6,7,8,9,10,", "10 seed words"),
        (&many.at(), "1,000,000 seed words"),
    ] {
        let figures = format!("{words}; 1 to 8");
        for args in [
            &["stretch", "4"][..],
            &["stretch", "65545"],
            &["digest", "-"],
            &["digest", "--kept", "0", "--words", "9", "-"],
            &["digest-words", "-"],
            &["digest-words", "--width", "2", "-"],
            &["code", "-"],
            &["code", "--width", "4", "--digits", "1", "-"],
        ] {
            let args = [args, &["--seed", seed]].concat();
            refused(Refusal::Seed, &figures, &args, b"300");
            refused(Refusal::Seed, &figures, &args, long.as_bytes());
        }
    }
}

#[test]
fn width_and_digits_come_before_a_seed() {
    for seed in [",", "1,2,3,4,5,6,7,8,9"] {
        for (refusal, figures, args) in [
            (
                Refusal::Width,
                "the width is 24; it must be 8, 16 or 32",
                "digest --width=24",
            ),
            (
                Refusal::Width,
                "the width is 0; it must be 1 to 32",
                "digest-words --width=0",
            ),
            (
                Refusal::Width,
                "the width is 0; it must be 1 to 32",
                "code --width=0",
            ),
            (
                Refusal::Digits,
                "0 digits; 1 to 9 at width 32",
                "code --digits=0",
            ),
        ] {
            let mut args: Vec<_> = args.split(' ').collect();
            args.extend(["--seed", seed, "-"]);
            refused(refusal, figures, &args, b"1");
        }
        let args = ["stretch", "--width", "33", "--seed", seed, "4"];
        refused(
            Refusal::Width,
            "the width is 33; it must be 1 to 32",
            &args,
            b"",
        );
    }
}

#[test]
fn refusals_of_a_match() {
    for (n, shown) in [("0", "0"), ("9", "9"), (MOST, MOST_SHOWN)] {
        let figures = format!("{shown} digest words; 1 to 8");
        let args = ["match", "--words", n, "0x1", "0x1"];
        refused(Refusal::Count, &figures, &args, b"");
    }
    for (first, second, rows) in [
        ("", "", "0 and 0 words"),
        ("0x1", "0x1,0x2", "1 and 2 words"),
        ("0x1,0x2", "0x1", "2 and 1 word"),
        ("0x1,0x2,0x3", "@-", "3 and 2 words"),
    ] {
        let figures = format!("rows of {rows}; each must have 2");
        let args = ["match", "--words", "2", first, second];
        refused(Refusal::Tray, &figures, &args, b"0x1,0x2");
    }
}
