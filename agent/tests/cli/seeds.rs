//! Seeds: the keys that they stand for, and where they come from.

use crate::run::{accepted, bad_content, bad_usage, no_access, refused, run, Scratch, PROGRAM};
use pairing_agent::Refusal;
use std::process::Command;

#[test]
fn a_seed_stands_for_its_stretched_key() {
    for (w, bytes_in_word) in [(8usize, 1usize), (16, 2), (32, 4)] {
        for n in 1..=8usize {
            for length in [0, 1, 3, 4, 5, 17] {
                let message: Vec<u8> = (0..length).map(|i| (i * 37 + w) as u8).collect();
                // A byte more than the message's closes it.
                let count = (length + 1).div_ceil(bytes_in_word) + n;
                let (w, n, count) = (w.to_string(), n.to_string(), count.to_string());
                let key = accepted(&["stretch", "--width", &w, "--seed", "77", &count], b"");
                let key = Scratch::new(&format!("key-seed-{w}-{n}-{length}"), key);
                let settings = ["digest", "--width", &w, "--words", &n, "-"];
                let by_key = [&settings[..], &["--key", key.path()]].concat();
                let by_seed = [&settings[..], &["--seed", "77"]].concat();
                assert_eq!(
                    accepted(&by_key, &message),
                    accepted(&by_seed, &message),
                    "w {w}, n {n}, {length} bytes"
                );
            }
        }
    }
    // The same for words, at a width that bytes do not have.
    let key = accepted(&["stretch", "--width", "13", "--seed", "0x10", "4"], b"");
    let key = Scratch::new("key-seed-words", key);
    let settings = ["digest-words", "--width", "13", "--words", "2", "-"];
    assert_eq!(
        accepted(
            &[&settings[..], &["--key", key.path()]].concat(),
            b"8191 77"
        ),
        accepted(&[&settings[..], &["--seed", "16"]].concat(), b"8191 77")
    );
}

/// The commands that take a seed, with the rest of their arguments.
fn with_seed<'a>(seed: &'a str, message: &'a str) -> [Vec<&'a str>; 5] {
    let load = ["--key-to", "-", "--message-to", "/dev/null", "3", "3"];
    [
        vec!["stretch", "--seed", seed, "3"],
        [&["load", "--seed", seed], &load[..]].concat(),
        vec!["digest", "--seed", seed, message],
        vec!["digest-words", "--seed", seed, message],
        vec!["code", "--seed", seed, message],
    ]
}

#[test]
fn seeds_from_a_file_and_from_standard_input() {
    let message = Scratch::new("seed-message", "1 2 3");
    let due = with_seed("5489", message.path()).map(|args| accepted(&args, b""));
    assert!(due[0].starts_with("0xd091bb5c\n"), "{}", due[0]);
    for text in [
        "5489",
        "5489\n",
        "\r\n\t 0x1571 \r\n\r\n",
        "\u{feff}5489\n",
        "\n\n0x00001571",
    ] {
        let file = Scratch::new("seed", text);
        for (args, due) in with_seed(&file.at(), message.path()).iter().zip(&due) {
            assert_eq!(&accepted(args, b""), due, "{text:?}");
        }
        for (args, due) in with_seed("@-", message.path()).iter().zip(&due) {
            assert_eq!(&accepted(args, text.as_bytes()), due, "{text:?}");
        }
    }
    // The seed in a file, and the message from standard input.
    let file = Scratch::new("seed-beside", "5489");
    let seed = format!("--seed={}", file.at());
    assert_eq!(accepted(&["digest", &seed, "-"], b"1 2 3"), due[2]);
}

/// A comma makes an array, also of one word, which is not the plain seed. One may close it.
#[test]
fn arrays_from_an_argument_a_file_and_standard_input() {
    let message = Scratch::new("array-message", "1 2 3");
    let by = |seed: &str, input: &[u8]| {
        with_seed(seed, message.path()).map(|args| accepted(&args, input))
    };
    for (array, arguments, texts) in [
        (
            "0x123,0x234,0x345,0x456",
            &["291,564,837,1110", "0x123,564,0x345,1110,"][..],
            &[
                "291,564,837,1110",
                " 0x123 ,\t0x234,0x345 , 0x456\n",
                "291,\r\n564,\r\n837,\r\n1110,\r\n",
                "\u{feff}291\n,564\n,837\n,1110",
            ][..],
        ),
        ("5,", &["0x5,"], &["5,", "5,\n", " 5\n , \n"]),
        (
            "0,0,0,0,0,0,0,0xffffffff",
            &["0,0,0,0,0,0,0,4294967295,"],
            &["0, 0, 0, 0\n, 0, 0, 0, 4294967295"],
        ),
    ] {
        let due = by(array, b"");
        for argument in arguments {
            assert_eq!(by(argument, b""), due, "{argument}");
        }
        for text in texts {
            let file = Scratch::new("array", text);
            assert_eq!(by(&file.at(), b""), due, "{text:?}");
            assert_eq!(by("@-", text.as_bytes()), due, "{text:?}");
        }
    }
    for (array, plain) in by("5,", b"").iter().zip(by("5", b"")) {
        assert_ne!(*array, plain);
    }
}

/// In a file several numbers are an array without commas too, as `od` writes them; a number that
/// stands alone is a plain seed.
#[test]
fn arrays_without_commas() {
    let message = Scratch::new("spaces-message", "1 2 3");
    let by = |seed: &str, input: &[u8]| {
        with_seed(seed, message.path()).map(|args| accepted(&args, input))
    };
    for (array, texts) in [
        ("5489", &["5489", "       5489\n", "\n5489\n\n"][..]),
        ("1,2", &["1 2", "1\n2\n", "\t1\r\n\r\n2\r\n", "\u{feff}1\n2"]),
        ("291,564,837,1110", &["0x123 564\n0x345 1110", "291\n564\n837\n1110\n"]),
        (
            "1,2,3,4,5,6,7,4294967295",
            &["          1          2          3          4\n          5          6          7 4294967295\n"],
        ),
    ] {
        let due = by(array, b"");
        for text in texts {
            let file = Scratch::new("spaces", text);
            assert_eq!(by(&file.at(), b""), due, "{text:?}");
            assert_eq!(by("@-", text.as_bytes()), due, "{text:?}");
        }
    }
    // Nine are too many, with commas and without.
    for text in ["1 2 3 4 5 6 7 8 9", "1\n2\n3\n4\n5\n6\n7\n8\n9\n"] {
        for args in with_seed("@-", message.path()) {
            refused(
                Refusal::Seed,
                "9 seed words; 1 to 8",
                &args,
                text.as_bytes(),
            );
        }
    }
}

/// `od` itself.
#[test]
fn an_array_as_od_writes_it() {
    let bytes: Vec<u8> = (1..=32).collect();
    let file = Scratch::new("od-bytes", bytes);
    let script = "od -An -v -N32 -tu4 \"$1\" | \"$0\" stretch --seed @- 3";
    let mut shell = Command::new("sh");
    let run = run(shell.args(["-c", script, PROGRAM, file.path()]), b"");
    assert_eq!((run.status, run.err.as_str()), (0, ""));
    let words =
        (0..8u32).map(|word| u32::from_le_bytes([1, 2, 3, 4].map(|byte| (4 * word) as u8 + byte)));
    let words: Vec<_> = words.map(|word| word.to_string()).collect();
    let args = ["stretch", "--seed", &words.join(","), "3"];
    // `od` writes the words as this machine has them.
    if cfg!(target_endian = "little") {
        assert_eq!(run.out, accepted(&args, b""));
    }
}

/// The same key by way of a file, for every size of an array.
#[test]
fn an_array_stands_for_its_stretched_key() {
    let message = Scratch::new("array-key-message", "1 2 3");
    for words in 1..=8u32 {
        let array: String = (1..=words).map(|word| format!("{word},")).collect();
        let key = accepted(&["stretch", "--width", "24", "--seed", &array, "4"], b"");
        let key = Scratch::new("array-key", key);
        for command in [&["digest-words"][..], &["code"]] {
            let settings = [command, &["--width", "24", message.path()]].concat();
            let by_key = [&settings[..], &["--key", key.path()]].concat();
            let by_seed = [&settings[..], &["--seed", &array]].concat();
            assert_eq!(accepted(&by_key, b""), accepted(&by_seed, b""), "{array}");
        }
    }
}

#[test]
fn texts_that_are_no_seed() {
    let message = Scratch::new("one-seed-message", "1 2 3");
    let held = |numbers: &str, commas: &str| {
        let seed = "a seed is one number, or several with commas between, or with none";
        format!(" holds {numbers} and {commas}; {seed}\n")
    };
    for (text, why) in [
        ("", held("0 numbers", "0 commas")),
        (" \n\r\n", held("0 numbers", "0 commas")),
        ("\u{feff}", held("0 numbers", "0 commas")),
        ("1, 2 3", held("3 numbers", "1 comma")),
        ("1 2, 3,", held("3 numbers", "2 commas")),
        ("1,,2", held("2 numbers", "2 commas")),
        ("1,\n,\n2", held("2 numbers", "2 commas")),
        (",1", held("1 number", "1 comma")),
        ("1,,", held("1 number", "2 commas")),
        (", ,", held("0 numbers", "2 commas")),
        ("1\nx\n", ", line 2: 'x' is no number".into()),
        ("1,\n2,y,\n", ", line 2: 'y' is no number".into()),
        ("4294967296", ", line 1: '4294967296' is more than".into()),
        ("1,00", ", line 1: '00' begins with 0".into()),
    ] {
        let file = Scratch::new("bad-seed", text);
        for args in with_seed(&file.at(), message.path()) {
            bad_content(&format!("'{}'{why}", file.path()), &args, b"");
        }
        for args in with_seed("@-", message.path()) {
            bad_content(&format!("standard input{why}"), &args, text.as_bytes());
        }
    }
    for args in with_seed("@no/such/file", message.path()) {
        no_access("cannot read 'no/such/file'", &args, b"");
    }
    for args in with_seed("@", message.path()) {
        no_access("cannot read ''", &args, b"");
    }
}

/// In an argument, the same and white space.
#[test]
fn arguments_that_are_no_seed() {
    let message = Scratch::new("argument-message", "1 2 3");
    for (argument, why) in [
        (
            "",
            "--seed: '' holds 0 numbers and 0 commas; a seed is one number",
        ),
        (
            "1,,2",
            "--seed: '1,,2' holds 2 numbers and 2 commas; a seed",
        ),
        (",1", "--seed: ',1' holds 1 number and 1 comma; a seed is"),
        (",,", "--seed: ',,' holds 0 numbers and 2 commas; a seed is"),
        ("1 2", "--seed: '1 2' is no number"),
        ("1, 2", "--seed: ' 2' is no number"),
        ("1,x", "--seed: 'x' is no number"),
        ("1,-2", "--seed: '-2' is no number"),
        ("1,4294967296,", "--seed: '4294967296' is more than"),
    ] {
        for args in with_seed(argument, message.path()) {
            bad_usage(why, &args, b"");
        }
    }
}

#[test]
fn standard_input_is_read_once() {
    for command in ["digest", "digest-words", "code"] {
        for key in ["--seed=@-", "--key=-"] {
            let args = [command, key, "-"];
            bad_usage("only one of message, seed and key", &args, b"1");
        }
    }
    let args = ["match", "--words", "1", "@-", "@-"];
    bad_usage("only one digest can be standard input", &args, b"0x1");
    // What is wrong with the arguments comes before any file.
    bad_usage(
        "FILE is missing",
        &["digest", "--seed", "@no/such/file"],
        b"",
    );
}
