//! Loads.

use crate::run::{accepted, bad_usage, no_access, pairing, refused, Scratch};
use pairing_agent::Refusal;
use std::fs;

/// The arguments of a load into those two files.
fn load<'a>(options: &[&'a str], files: [&'a str; 2], counts: [&'a str; 2]) -> Vec<&'a str> {
    let [key, message] = files;
    let files = ["--key-to", key, "--message-to", message];
    [&["load"], options, &files, &counts].concat()
}

/// Two files that hold something already.
fn files(name: &str) -> [Scratch; 2] {
    ["key", "message"].map(|row| Scratch::new(&format!("{name}-{row}"), "before\n"))
}

fn paths(files: &[Scratch; 2]) -> [&str; 2] {
    [files[0].path(), files[1].path()]
}

fn read(file: &Scratch) -> String {
    fs::read_to_string(&file.0).unwrap()
}

/// The first outputs are published: of seed 5489, and of the array.
#[test]
fn a_load_is_a_key_and_then_a_message() {
    for (options, key, message) in [
        (
            &["--seed", "5489"][..],
            "0xd091bb5c\n0x22ae9ef6\n",
            "0xe7e1faee\n",
        ),
        (
            &["--width", "8", "--seed", "5489"],
            "0x000000d0\n0x00000022\n",
            "0x000000e7\n",
        ),
        (
            &["--seed", "0x123,0x234,0x345,0x456"],
            &format!("{:#010x}\n{:#010x}\n", 1_067_595_299, 955_945_823),
            &format!("{:#010x}\n", 477_289_528),
        ),
    ] {
        // Both rows into files; one to standard output, and the other into its file, which keeps
        // nothing of what it held.
        for (printed, due) in [
            (None, ["", key, message]),
            (Some(0), [key, "before\n", message]),
            (Some(1), [message, key, "before\n"]),
        ] {
            let files = files("load");
            let mut places = paths(&files);
            if let Some(row) = printed {
                places[row] = "-";
            }
            let out = accepted(&load(options, places, ["2", "1"]), b"");
            assert_eq!([out, read(&files[0]), read(&files[1])], due, "{options:?}");
        }
    }
}

#[test]
fn both_rows_are_one_stretch() {
    let files = files("load-one-stretch");
    for seed in ["77", "7,7"] {
        let options = ["--width", "13", "--seed", seed];
        for (key, message) in [("0", "700"), ("624", "76"), ("625", "75"), ("700", "0")] {
            accepted(&load(&options, paths(&files), [key, message]), b"");
            let whole = accepted(&[&["stretch", "700"], &options[..]].concat(), b"");
            let rows = [read(&files[0]), read(&files[1])];
            assert_eq!(rows[0].lines().count().to_string(), key);
            assert_eq!(rows.concat(), whole, "{key} and {message}");
        }
    }
}

/// The files are what `digest-words` takes, and the key is the one that the seed stands for.
#[test]
fn a_load_is_digested() {
    let files = files("load-digested");
    for (seed, key_words) in [("3", "12"), ("3,4,5,6,7,8,9,10", "12")] {
        let settings = ["--width", "20", "--seed", seed];
        accepted(&load(&settings, paths(&files), [key_words, "10"]), b"");
        let [key, message] = paths(&files);
        let digest = ["digest-words", "--words", "2", message];
        let by_key = [&digest[..], &["--width", "20", "--key", key]].concat();
        let by_seed = [&digest[..], &settings].concat();
        assert_eq!(accepted(&by_key, b""), accepted(&by_seed, b""));
    }
}

#[test]
fn the_longest_load() {
    let files = files("load-longest");
    accepted(
        &load(&["--seed", "1"], paths(&files), ["65544", "65536"]),
        b"",
    );
    let lines = [&files[0], &files[1]].map(|file| read(file).lines().count());
    assert_eq!(lines, [65_544, 65_536]);
}

const MOST: &str = "4294967295";

/// Checks the refusal, and that the library was asked before a file was touched.
fn refused_load(refusal: Refusal, figures: &str, options: &str, counts: [&str; 2]) {
    let files = files(&format!("load-refused-{refusal:?}"));
    let options: Vec<_> = options.split(' ').collect();
    let args = load(&options, paths(&files), counts);
    refused(refusal, figures, &args, b"");
    assert_eq!([read(&files[0]), read(&files[1])], ["before\n"; 2]);
    // Nor is one made.
    let none = format!("{}-none", files[0].path());
    refused(refusal, figures, &load(&options, [&none, "-"], counts), b"");
    assert!(fs::metadata(&none).is_err());
}

/// Width comes before Seed and Long.
#[test]
fn refusals_of_a_width() {
    for (w, options) in [
        ("0", "--width=0 --seed=1"),
        ("33", "--width=33 --seed=1,2"),
        ("33", "--seed=, --width=33"),
    ] {
        let figures = format!("the width is {w}; it must be 1 to 32");
        for counts in [["2", "1"], ["65545", "1"], [MOST, MOST]] {
            refused_load(Refusal::Width, &figures, options, counts);
        }
    }
}

/// Seed comes before Long.
#[test]
fn refusals_of_a_seed() {
    for (words, options) in [("0", "--seed=,"), ("9", "--seed=1,2,3,4,5,6,7,8,9")] {
        let figures = format!("{words} seed words; 1 to 8");
        for counts in [["2", "1"], ["65545", "1"], ["2", "65537"], [MOST, MOST]] {
            refused_load(Refusal::Seed, &figures, options, counts);
        }
    }
}

#[test]
fn refusals_of_a_length() {
    for (counts, figures) in [
        (["65545", "1"], "65,545 key words; at most 65,544"),
        (["65545", MOST], "65,545 key words; at most 65,544"),
        (["2", "65537"], "65,537 message words; at most 65,536"),
        (["65544", "65544"], "65,544 message words; at most 65,536"),
        (["0", MOST], "4,294,967,295 message words; at most 65,536"),
    ] {
        for options in ["--seed=1", "--seed=1,2"] {
            refused_load(Refusal::Long, figures, options, counts);
        }
    }
}

#[test]
fn the_rows_go_to_two_places() {
    let file = Scratch::new("load-both", "before\n");
    for (both, name) in [
        ("-", "standard output"),
        (file.path(), &format!("'{}'", file.path())),
    ] {
        let args = load(&["--seed", "1"], [both, both], ["2", "1"]);
        let why = format!("only one of the rows can go to {name}");
        bad_usage(&why, &args, b"");
    }
    assert_eq!(read(&file), "before\n");
}

#[test]
fn rows_that_cannot_be_written() {
    let file = Scratch::new("load-unwritten", "");
    for files in [["/dev/full", file.path()], [file.path(), "/dev/full"]] {
        let why = "cannot write '/dev/full': No space left on device";
        no_access(why, &load(&["--seed", "1"], files, ["2", "1"]), b"");
        // No words need no room.
        accepted(&load(&["--seed", "1"], files, ["0", "0"]), b"");
    }
    // What is printed comes after all that can fail before a file is replaced.
    for files in [["no/such/file", "-"], ["-", "no/such/file"]] {
        let run = pairing(&load(&["--seed", "1"], files, ["2", "1"]));
        assert_eq!((run.status, run.out.as_str()), (74, ""), "{}", run.err);
        let why = "pairing: cannot write 'no/such/file': ";
        assert!(run.err.starts_with(why), "{}", run.err);
    }
}
