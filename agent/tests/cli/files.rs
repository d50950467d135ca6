//! Files that cannot be read, and files whose content cannot be used.

use crate::run::{accepted, bad_content, no_access, pairing_with, run, Scratch, PROGRAM};
use std::ffi::OsStr;
use std::os::unix::ffi::OsStrExt;
use std::process::Command;

const WORDS: [&str; 4] = ["digest-words", "--seed", "1", "-"];

#[test]
fn files_that_cannot_be_read_or_written() {
    let folder = env!("CARGO_TARGET_TMPDIR");
    for file in ["no/such/file", "", folder] {
        let at_file = format!("@{file}");
        let reading = format!("cannot read '{file}': ");
        for args in [
            &["digest", "--seed", "1", file][..],
            &["digest-words", "--seed", "1", file],
            &["code", "--seed", "1", file],
            &["digest", "--key", file, "-"],
            &["code", "--key", file, "-"],
            &["digest", "--seed", &at_file, "-"],
            &["stretch", "--seed", &at_file, "1"],
            &[
                "load",
                "--seed",
                &at_file,
                "--key-to=-",
                "--message-to=f",
                "1",
                "1",
            ],
            &["match", "--words", "1", "0x1", &at_file],
            &["words", file],
            &["code", "--seed", "1", "--label", file],
            &["peers", "--seeds", "-", "--label", file],
        ] {
            no_access(&reading, args, b"");
        }
        let writing = format!("cannot write '{file}': ");
        let args = ["count", "--width", "2", "--svg", file];
        no_access(&writing, &args, b"");
        let load = ["load", "--seed", "1", "1", "1", "--key-to", file];
        let args = [&load[..], &["--message-to", "-"]].concat();
        no_access(&writing, &args, b"");
    }
    // A name is shown fit for a terminal.
    let args = ["digest", "--seed", "1", "no/\x1b[31m\n"];
    no_access("cannot read 'no/?[31m?': ", &args, b"");
}

#[test]
fn files_of_any_name() {
    let folder = Scratch::new("any-name", "");
    let mut name = folder.path().as_bytes().to_vec();
    name.extend(b"-\xff");
    let file = Scratch(OsStr::from_bytes(&name).into());
    std::fs::write(&file.0, "0xac").unwrap();
    let named = |before: &[u8]| OsStr::from_bytes(&[before, &name].concat()).to_os_string();
    for (args, last, out) in [
        (&["digest", "--seed", "1"][..], named(b""), ""),
        (&["digest", "-"], named(b"--seed=@"), ""),
        (&["match", "--words=1", "0xac"], named(b"@"), "match\n"),
    ] {
        let ended = run(Command::new(PROGRAM).args(args).arg(last), b"");
        assert_eq!((ended.status, ended.err.as_str()), (0, ""), "{args:?}");
        assert!(ended.out.ends_with(out), "{args:?}");
    }
    // A key of one word goes with no words.
    let ended = run(
        Command::new(PROGRAM)
            .args(["digest-words", "-"])
            .arg(named(b"--key=")),
        b"",
    );
    assert_eq!((ended.status, ended.out.as_str()), (0, "00000000\n"));
}

#[test]
fn files_that_hold_no_text() {
    let to_digest = "holds no text; bytes of any kind go to 'pairing digest'";
    let why = format!("standard input {to_digest}\n");
    bad_content(&why, &WORDS, b"1 \xff 2");
    let large = vec![b' '; 20_000_000];
    let why = "standard input is too large to read: at most 16,777,215 bytes are\n";
    bad_content(why, &WORDS, &large);
    let file = Scratch::new("no-text", b"\xc3(");
    let why = format!("'{}' {to_digest}", file.path());
    bad_content(&why, &["digest", "--key", file.path(), "-"], b"");
    bad_content(&why, &["match", "--words", "1", "0x1", &file.at()], b"");
}

#[test]
fn a_bad_number_is_told_with_its_line() {
    let decimal = "is no number: write decimal, or 0x and hexadecimal digits";
    for (text, line, why) in [
        ("1\n2\nx12\n4", 3, format!("'x12' {decimal}")),
        ("1\r\n2\r\nx12\r\n", 3, format!("'x12' {decimal}")),
        ("1 2\n\n \n3 x12", 4, format!("'x12' {decimal}")),
        ("\u{feff}x12\nx13", 1, format!("'x12' {decimal}")),
        ("x12", 1, format!("'x12' {decimal}")),
        ("1 2 3\n4 00 x\n", 2, "'00' begins with 0: ".into()),
        ("1\n4294967296\n", 2, "'4294967296' is more than ".into()),
        // A mark is skipped at the start alone.
        ("1\n\u{feff}2\n", 2, format!("'\u{feff}2' {decimal}")),
    ] {
        let file = Scratch::new("bad-lines", text);
        let in_file = format!("pairing: '{}', line {line}: {why}", file.path());
        bad_content(&in_file, &["digest", "--key", file.path(), "-"], b"");
        bad_content(&in_file, &["digest-words", "--seed", "1", file.path()], b"");
        bad_content(&in_file, &["code", "--seed", "1", file.path()], b"");
        bad_content(&in_file, &["stretch", "--seed", &file.at(), "1"], b"");
        let in_input = format!("pairing: standard input, line {line}: {why}");
        bad_content(&in_input, &WORDS, text.as_bytes());
    }
}

#[test]
fn a_bad_digest_word_is_told_with_its_line() {
    let digest = "0xac,\r\n000000ff\r\n12\r\n";
    let file = Scratch::new("bad-digest", digest);
    let why = "line 3: '12' is no digest word: write eight hexadecimal digits, or 0x and such";
    let in_file = format!("pairing: '{}', {why}", file.path());
    bad_content(&in_file, &["match", "--words=3", &file.at(), "0x1"], b"");
    let in_input = format!("pairing: standard input, {why}");
    let args = ["match", "--words=3", "0x1", "@-"];
    bad_content(&in_input, &args, digest.as_bytes());
}

#[test]
fn marks_at_the_start_of_a_text() {
    // The key and the message of a worked digest, with UTF-8's mark.
    let key = Scratch::new("marked-key", "\u{feff}10 20\r\n100 250\r\n");
    let settings = ["--width", "8", "--words", "2", "--key", key.path(), "-"];
    let args = [&["digest-words"], &settings[..]].concat();
    assert_eq!(accepted(&args, b"\xef\xbb\xbf3 7"), "000000ac 000000ff\n");

    for text in [&b"\xff\xfe1\0\n\0"[..], b"\xfe\xff\x001\0\n", b"\xff\xfe"] {
        let file = Scratch::new("utf-16", text);
        let why = format!(
            "pairing: '{}' holds UTF-16 text; save it as UTF-8\n",
            file.path()
        );
        bad_content(&why, &["digest", "--key", file.path(), "-"], b"");
        bad_content(&why, &["digest-words", "--seed", "1", file.path()], b"");
        bad_content(&why, &["stretch", "--seed", &file.at(), "1"], b"");
        bad_content(&why, &["match", "--words=1", "0x1", &file.at()], b"");
        bad_content("standard input holds UTF-16 text", &WORDS, text);
    }
}

#[test]
fn what_is_shown_of_a_text_is_fit_to_be_read() {
    bad_content("'1111", &WORDS, "1".repeat(5_000).as_bytes());
    let run = pairing_with(&WORDS, "1".repeat(5_000).as_bytes());
    assert!(run.err.len() < 200, "{}", run.err);
    bad_content("'?[31m'", &WORDS, b"\x1b[31m");
}
