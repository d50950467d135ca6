//! Matches.

use crate::run::{accepted, bad_content, bad_usage, pairing, Scratch};

#[test]
fn digests_match() {
    let printed = Scratch::new("digest", "000000ac 000000ff\n");
    let lines = Scratch::new("digest-lines", "\u{feff}000000ac,\r\n000000ff\r\n");
    for second in [
        "000000ac,000000ff",
        "0xac,0xff",
        "0xAC 000000FF",
        &printed.at(),
        &lines.at(),
        "@-",
    ] {
        let args = ["match", "--words", "2", "0xac,0xff", second];
        assert_eq!(
            accepted(&args, b"000000ac 000000ff\n"),
            "match\n",
            "{second}"
        );
    }
    for second in ["000000ac,000000fe", "0x80000000,0xff", "0xff,0xac"] {
        let run = pairing(&["match", "--words", "2", "0xac,0xff", second]);
        assert_eq!(
            (run.status, run.out.as_str(), run.err.as_str()),
            (1, "no match\n", "")
        );
    }
    let row = "0x1,0x2,0x3,0x4,0x5,0x6,0x7,0x8";
    assert_eq!(
        accepted(&["match", "--words", "8", row, row], b""),
        "match\n"
    );
}

/// A file without `@`, or what looks like one.
#[test]
fn a_file_is_named_after_a_sign() {
    let file = Scratch::new("sent.digest", "000000ac\n");
    for name in [file.path(), "no/such.digest", "sent.digest", "-"] {
        let why = format!(
            "; for a file write @{}",
            name.chars().take(40).collect::<String>()
        );
        for operands in [[name, "0xac"], ["0xac", name]] {
            bad_usage(
                &why,
                &[&["match", "--words=1"], &operands[..]].concat(),
                b"",
            );
        }
    }
    // That comes before a missing option.
    let args = ["match", "sent.digest", "sent.digest"];
    bad_usage("; for a file write @sent.digest", &args, b"");
    bad_usage("--words", &["match", "0xac", "0xac"], b"");
    let args = ["match", "--words=1", &file.at(), "0xac"];
    assert_eq!(accepted(&args, b""), "match\n");
    // What can only be a number is not taken for a file.
    let run = pairing(&["match", "--words=1", "172", "0xac"]);
    assert!(!run.err.contains("for a file"), "{}", run.err);
}

#[test]
fn match_takes_no_decimal_words() {
    for word in [
        "172",
        "ac",
        "0000000ac",
        "0xg",
        "0x",
        "0x100000000",
        "-1",
        "0xac;0xff",
    ] {
        let shown = format!("'{word}' is ");
        let args = ["match", "--words", "1", "--", word, "0xac"];
        bad_usage(&shown, &args, b"");
        let args = ["match", "--words=1", "0xac", "@-"];
        bad_content(
            &format!("standard input, line 1: {shown}"),
            &args,
            word.as_bytes(),
        );
    }
}
