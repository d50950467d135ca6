//! Wrong usage.

use crate::run::{bad_content, bad_usage, pairing, Scratch};

const BAD_NUMBERS: [&str; 19] = [
    "",
    "x",
    "-1",
    "+1",
    "1.0",
    "1e3",
    "1_000",
    "1,2",
    "0x",
    "0xg",
    "0X1",
    "x1",
    "00",
    "010",
    "4294967296",
    "0x100000000",
    "99999999999999999999",
    "\u{663}",
    "0b1",
];

#[test]
fn bad_numbers() {
    for number in BAD_NUMBERS {
        let shown = format!("'{number}'");
        for option in ["--width", "--kept", "--words", "--seed"] {
            // A comma makes a seed an array.
            if option == "--seed" && number.contains(',') {
                continue;
            }
            let option = format!("{option}={number}");
            let mut args = vec!["digest-words", &option, "-"];
            if !option.starts_with("--seed") {
                args.extend(["--seed", "1"]);
            }
            bad_usage(&shown, &args, b"1");
        }
        let digits = format!("--digits={number}");
        bad_usage(&shown, &["code", &digits, "--seed", "1", "-"], b"1");
        bad_usage(&shown, &["stretch", "--seed", "1", "--", number], b"");
        let load = ["load", "--seed=1", "--key-to=-", "--message-to=-", "--"];
        for counts in [[number, "1"], ["1", number]] {
            bad_usage(&shown, &[&load[..], &counts].concat(), b"");
        }
        bad_usage(&shown, &["match", "--words", number, "0x1", "0x1"], b"");
        bad_usage(&shown, &["count", "--width", number], b"");
        bad_usage(&shown, &["explain", "--", number], b"");
        bad_usage(&shown, &["words", "--width", number, "-"], b"");
        if !number.is_empty() {
            let row = format!("1 {number} 2");
            let key = Scratch::new("key-bad-number", &row);
            let args = ["digest-words", "--seed", "1", "-"];
            bad_content(&shown, &args, row.as_bytes());
            bad_content(&shown, &["digest", "--key", key.path(), "-"], b"1");
        }
    }
}

#[test]
fn bad_commands() {
    bad_usage("no command is given", &[], b"");
    bad_usage("hash is no command;", &["hash"], b"");
    bad_usage("--width is no command;", &["--width", "8"], b"");
    bad_usage("?[31m is no command;", &["\x1b[31m"], b"");
    // A near miss names the command.
    for (name, command) in [
        ("word", "words"),
        ("digest-word", "digest-words"),
        ("digest_words", "digest-words"),
        ("Match", "match"),
        ("CODE", "code"),
        ("dig", "digest"),
    ] {
        let why = format!("{name} is no command, but {command} is;");
        bad_usage(&why, &[name, "--words", "2"], b"");
        bad_usage(&why, &["help", name], b"");
    }
}

#[test]
fn bad_arguments() {
    for (why, args) in [
        ("--bits is no option", "digest --bits 8 --seed 1 -"),
        ("-w is no option", "digest -w 8 --seed 1 -"),
        ("--key is no option", "stretch --key k --seed 1 1"),
        ("--seed needs a value", "digest - --seed"),
        ("--seed is given twice", "digest - --seed 1 --seed=1"),
        ("FILE is missing", "digest --seed 1"),
        ("- is one argument too many", "digest --seed 1 - -"),
        ("--seed or --key is missing", "digest -"),
        (
            "only one of --seed and --key",
            "digest-words --seed 1 --key - -",
        ),
        (
            "only one of --seed and --key",
            "digest-words --seed @f --key f -",
        ),
        ("--kept is no option", "code --kept 8 --seed 1 -"),
        ("--words is no option", "code --words 1 --seed 1 -"),
        (
            "--digits is no option",
            "digest-words --digits 6 --seed 1 -",
        ),
        ("--seed or --key is missing", "code -"),
        ("FILE or --label is missing", "code --seed 1"),
        ("2 is one argument too many", "code --seed 1 - 2"),
        ("only one of FILE and --label", "code --seed 1 --label f -"),
        (
            "only one of message, seed and key can be",
            "code --key - --label -",
        ),
        ("FILE or --label is missing", "peers"),
        ("KEY or --seeds is missing", "peers --label -"),
        ("only one of --seeds and KEY", "peers --seeds f --label f k"),
        ("only one of message, seeds and keys", "peers --label - -"),
        ("FILE is missing", "words"),
        ("- is one argument too many", "words - -"),
        ("--seed is no option", "words --seed 1 -"),
        ("KEY or --seeds is missing", "peers -"),
        ("--seed is no option", "peers --seed 1 -"),
        ("only one of --seeds and KEY", "peers --seeds f - k"),
        ("only one of message, seeds and keys", "peers --seeds - -"),
        ("only one of message, seeds and keys", "peers - k -"),
        ("--seed is missing", "stretch 4"),
        ("COUNT is missing", "stretch --seed 1"),
        ("--seed is missing", "load --key-to k --message-to m 2 1"),
        ("--key-to is missing", "load --seed 1 --message-to m 2 1"),
        ("--message-to is missing", "load --seed 1 --key-to k 2 1"),
        (
            "KEY_COUNT is missing",
            "load --seed 1 --key-to k --message-to m",
        ),
        (
            "MESSAGE_COUNT is missing",
            "load --seed 1 --key-to k --message-to m 2",
        ),
        (
            "3 is one argument too many",
            "load --seed 1 --key-to k --message-to m 2 1 3",
        ),
        ("--key is no option", "load --seed 1 --key k 2 1"),
        ("--words is missing", "match 0x1 0x1"),
        ("SECOND is missing", "match --words 1 0x1"),
        (
            "0x3 is one argument too many",
            "match --words 1 0x1 0x2 0x3",
        ),
        ("--width is missing", "count"),
        ("3 is one argument too many", "count --width 2 3"),
        ("ANSWER is missing", "explain"),
        ("nosuch is no command", "help nosuch"),
        ("extra is one argument too many", "help digest extra"),
        ("extra is one argument too many", "--version extra"),
    ] {
        let args: Vec<_> = args.split(' ').collect();
        bad_usage(why, &args, b"");
    }
}

#[test]
fn wrong_usage_says_where_the_help_is() {
    for (command, args) in [
        ("pairing", &[][..]),
        ("pairing", &["hash"]),
        ("pairing", &["help", "hash"]),
        ("pairing digest", &["digest"]),
        ("pairing digest-words", &["digest-words", "--width", "x"]),
        ("pairing code", &["code", "--digits", "x"]),
        ("pairing peers", &["peers", "-"]),
        ("pairing stretch", &["stretch", "--seed", "1"]),
        ("pairing stretch", &["stretch", "--seed", "1,,2", "3"]),
        ("pairing load", &["load", "--seed", "1"]),
        ("pairing match", &["match", "--words=1", "172", "0x1"]),
        ("pairing count", &["count", "--width", "11"]),
        ("pairing words", &["words"]),
    ] {
        let run = pairing(args);
        let end = format!("; see '{command} --help'\n");
        assert!(run.err.ends_with(&end), "{args:?}: {}", run.err);
    }
}
