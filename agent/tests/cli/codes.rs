//! Codes.

use crate::run::{accepted, refused, Scratch};
use pairing_agent::Refusal;

/// The arguments of a code of so many digits, of a message from standard input.
fn with_digits<'a>(digits: &'a str, key: &'a str) -> [&'a str; 6] {
    ["code", "--digits", digits, "--key", key, "-"]
}

/// The digest is 255.
#[test]
fn worked_code() {
    let key = Scratch::new("code-worked-key", "255 255");
    let file = Scratch::new("code-worked", "0xff\n");
    let options = ["--width", "8", "--digits", "2", "--key", key.path()];
    let args = [&["code"], &options[..], &["-"]].concat();
    assert_eq!(accepted(&args, b"255"), "55\n");
    // The message as a file; options last, and in the other form.
    let joined: Vec<String> = options.chunks(2).map(|pair| pair.join("=")).collect();
    let mut args = vec!["code", file.path()];
    args.extend(joined.iter().map(String::as_str));
    assert_eq!(accepted(&args, b""), "55\n");
    // The key from standard input.
    let args = [&["code"], &options[..4], &["--key", "-", file.path()]].concat();
    assert_eq!(accepted(&args, b"255 255"), "55\n");
}

/// Under a key of a number and 0 the digest of the message 1 is that number.
#[test]
fn groups_of_digits() {
    let key = Scratch::new("code-groups-key", "123456789 0");
    for (digits, due) in [
        ("1", "9\n"),
        ("2", "89\n"),
        ("3", "789\n"),
        ("4", "67 89\n"),
        ("5", "567 89\n"),
        ("6", "456 789\n"),
        ("7", "345 67 89\n"),
        ("8", "234 567 89\n"),
        ("9", "123 456 789\n"),
    ] {
        let args = with_digits(digits, key.path());
        assert_eq!(accepted(&args, b"1"), due, "{digits} digits");
    }
}

#[test]
fn leading_zeros_are_printed() {
    for (key, digits, due) in [
        ("7 0", "1", "7\n"),
        ("7 0", "4", "00 07\n"),
        ("7 0", "6", "000 007\n"),
        ("7 0", "9", "000 000 007\n"),
        ("1000000 0", "6", "000 000\n"),
        ("1020304050 0", "7", "030 40 50\n"),
    ] {
        let key = Scratch::new("code-zeros-key", key);
        let args = with_digits(digits, key.path());
        assert_eq!(accepted(&args, b"1"), due, "{digits} digits");
    }
    // The digest of no words is 0.
    let key = Scratch::new("code-no-words-key", "77");
    assert_eq!(accepted(&with_digits("3", key.path()), b""), "000\n");
}

/// The digest is 4,294,967,295.
#[test]
fn defaults_are_32_bits_and_6_digits() {
    let key = Scratch::new("code-defaults-key", "0xffffffff 0xffffffff");
    let args = ["code", "--key", key.path(), "-"];
    assert_eq!(accepted(&args, b"0xffffffff"), "967 295\n");
    let args = ["code", "--width", "32", "--digits", "6"];
    let args = [&args[..], &["--key", key.path(), "-"]].concat();
    assert_eq!(accepted(&args, b"0xffffffff"), "967 295\n");
}

/// The digits are the last ones of the digest that `digest-words` prints.
#[test]
fn a_code_is_of_the_digest_of_one_word() {
    for (w, digits) in [("4", 1), ("13", 3), ("31", 9), ("32", 6), ("32", 9)] {
        for message in ["", "3", "1 2 3 4 5 6 7 8 9 10"] {
            let sources = ["--width", w, "--seed", "77", "-"];
            let args = [&["digest-words"], &sources[..]].concat();
            let digest = accepted(&args, message.as_bytes());
            let digest = u64::from_str_radix(digest.trim(), 16).unwrap();
            let count = digits.to_string();
            let args = [&["code", "--digits", &count], &sources[..]].concat();
            let code = accepted(&args, message.as_bytes()).replace([' ', '\n'], "");
            assert_eq!(code.len(), digits, "width {w}, {message}");
            let due = digest % 10u64.pow(digits as u32);
            assert_eq!(code.parse(), Ok(due), "width {w}, {message}");
        }
    }
}

#[test]
fn a_seed_stands_for_its_stretched_key() {
    for (w, digits) in [("4", "1"), ("13", "3"), ("32", "6"), ("32", "9")] {
        for words in [0, 1, 2, 9, 700] {
            let message = "5 ".repeat(words);
            let count = (words + 1).to_string();
            let key = accepted(&["stretch", "--width", w, "--seed", "77", &count], b"");
            let key = Scratch::new("code-seed-key", key);
            let settings = ["code", "--width", w, "--digits", digits, "-"];
            let by_key = [&settings[..], &["--key", key.path()]].concat();
            let by_seed = [&settings[..], &["--seed", "77"]].concat();
            assert_eq!(
                accepted(&by_key, message.as_bytes()),
                accepted(&by_seed, message.as_bytes()),
                "width {w}, {words} words"
            );
        }
    }
}

/// The arguments of a code under a seed.
fn at_width<'a>(w: &'a str, digits: &'a str) -> [&'a str; 8] {
    let [width, count] = ["--width", "--digits"];
    ["code", width, w, count, digits, "--seed", "1", "-"]
}

#[test]
fn refusals_of_settings() {
    for (w, shown) in [("0", "0"), ("33", "33"), ("0xffffffff", "4,294,967,295")] {
        let figures = format!("the width is {shown}; it must be 1 to 32");
        refused(Refusal::Width, &figures, &at_width(w, "6"), b"1");
        // Width comes before Digits.
        refused(Refusal::Width, &figures, &at_width(w, "0"), b"1");
    }
    for (w, digits, figures) in [
        ("32", "0", "0 digits; 1 to 9 at width 32"),
        ("32", "10", "10 digits; 1 to 9 at width 32"),
        ("32", "12", "12 digits; 1 to 9 at width 32"),
        (
            "32",
            "4294967295",
            "4,294,967,295 digits; 1 to 9 at width 32",
        ),
        ("30", "10", "10 digits; 1 to 9 at width 30"),
        ("29", "9", "9 digits; 1 to 8 at width 29"),
        ("20", "7", "7 digits; 1 to 6 at width 20"),
        ("19", "6", "6 digits; 1 to 5 at width 19"),
        ("7", "3", "3 digits; 1 to 2 at width 7"),
        ("6", "2", "2 digits; only 1 passes at width 6"),
        ("4", "0", "0 digits; only 1 passes at width 4"),
        ("3", "1", "1 digit; no number of digits passes at width 3"),
        ("1", "6", "6 digits; no number of digits passes at width 1"),
        ("3", "0", "0 digits; no number of digits passes at width 3"),
    ] {
        refused(Refusal::Digits, figures, &at_width(w, digits), b"1");
    }
    // Digits come before Long and Word.
    let figures = "0 digits; only 1 passes at width 4";
    let long = "16 ".repeat(65_537);
    refused(
        Refusal::Digits,
        figures,
        &at_width("4", "0"),
        long.as_bytes(),
    );
}

#[test]
fn the_default_digits_are_tested_too() {
    let args = ["code", "--width", "16", "--seed", "1", "-"];
    let figures = "6 digits; 1 to 4 at width 16";
    refused(Refusal::Digits, figures, &args, b"1");
}

#[test]
fn refusals_of_rows() {
    let args = ["code", "--seed", "1", "-"];
    let code = accepted(&args, "7 ".repeat(65_536).as_bytes());
    assert_eq!(code.len(), "123 456\n".len());
    let figures = "65,537 message words; at most 65,536";
    refused(
        Refusal::Long,
        figures,
        &args,
        "7 ".repeat(65_537).as_bytes(),
    );

    for (key, words) in [("", "0 words"), ("9", "1 word"), ("9 9 9 9", "4 words")] {
        let figures = format!("a key of {words}; a message of 2 and a digest of 1 take 3");
        let key = Scratch::new("code-refused-key", key);
        refused(
            Refusal::Key,
            &figures,
            &with_digits("6", key.path()),
            b"3 7",
        );
    }

    let figures = "message word 2 is 256; at most 255 at width 8";
    refused(Refusal::Word, figures, &at_width("8", "2"), b"255 256");
    let key = Scratch::new("code-refused-word-key", "255 256");
    let args = ["code", "--width", "8", "--digits", "1", "--key", key.path()];
    let figures = "key word 2 is 256; at most 255 at width 8";
    refused(Refusal::Word, figures, &[&args[..], &["-"]].concat(), b"1");
}
