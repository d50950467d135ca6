//! Output that cannot be written, input that cannot be read, and the statuses of both.

use crate::run::{no_access, redirected, run, unread, Scratch, PROGRAM};
use std::process::Command;

/// Runs that print something.
const PRINTING: [&[&str]; 10] = [
    &["--help"],
    &["--version"],
    &["help", "digest"],
    &["stretch", "--seed", "1", "65544"],
    &[
        "load",
        "--seed=1,",
        "--key-to=/dev/null",
        "--message-to=-",
        "2",
        "1",
    ],
    &["words", "/dev/null"],
    &["count", "--width", "2"],
    &["explain", "5"],
    &["match", "--words", "1", "0x1", "0x1"],
    &["match", "--words", "1", "0x1", "0x2"],
];

/// A run that is accepted, and has nothing to print.
const SILENT: &[&str] = &["stretch", "--seed", "1", "0"];

/// Checks that the run fails since its output cannot be written, and says so.
fn cannot_write(redirections: &str, args: &[&str], why: &str) {
    let run = redirected(redirections, args);
    assert_eq!(run.status, 74, "{redirections}, {args:?}: {run:?}");
    assert_eq!(
        run.err,
        format!("pairing: cannot write standard output: {why}\n"),
        "{redirections}, {args:?}"
    );
}

#[test]
fn a_closed_output_is_a_failure() {
    for args in PRINTING {
        cannot_write(">&-", args, "it is closed");
        cannot_write("<&- >&-", args, "it is closed");
    }
}

#[test]
fn a_full_or_unwritable_output_is_a_failure() {
    for args in PRINTING {
        cannot_write(">/dev/full", args, "No space left on device (os error 28)");
        // Open, but for reading only.
        cannot_write("1</dev/null", args, "Bad file descriptor (os error 9)");
    }
}

#[test]
fn a_reader_that_left_is_no_matter() {
    for args in PRINTING {
        unread(args);
    }
    // One that leaves in the middle.
    let mut shell = Command::new("bash");
    let script = "\"$0\" \"$@\" | head -n 1; echo ${PIPESTATUS[0]}";
    shell.args(["-c", script, PROGRAM]);
    let ended = run(shell.args(["stretch", "--seed", "5489", "65544"]), b"");
    assert_eq!(ended.err, "");
    assert_eq!(ended.out, "0xd091bb5c\n141\n");
}

#[test]
fn no_output_needs_no_place() {
    for redirections in [">&-", ">/dev/full", "1</dev/null"] {
        let run = redirected(redirections, SILENT);
        assert_eq!((run.status, run.err.as_str()), (0, ""), "{redirections}");
    }
}

#[test]
fn a_null_output_is_no_failure() {
    for redirections in [
        ">/dev/null",
        "1<>/dev/null",
        ">>/dev/null",
        "<&- >/dev/null",
    ] {
        for (place, args) in (1..).zip(PRINTING) {
            let run = redirected(redirections, args);
            // The last is no match.
            let status = i32::from(place == PRINTING.len());
            let ended = (run.status, run.err.as_str());
            assert_eq!(ended, (status, ""), "{redirections}, {args:?}");
        }
    }
}

#[test]
fn a_file_has_the_whole_output() {
    let file = Scratch::new("output", "");
    let words = ["stretch", "--seed", "5489", "2"];
    let run = redirected(&format!(">'{}'", file.path()), &words);
    assert_eq!((run.status, run.err.as_str()), (0, ""));
    let written = std::fs::read_to_string(&file.0).unwrap();
    assert_eq!(written, "0xd091bb5c\n0x22ae9ef6\n");
    // What stands there already stays when the shell appends.
    redirected(&format!(">>'{}'", file.path()), &words);
    let appended = std::fs::read_to_string(&file.0).unwrap();
    assert_eq!(appended, written.repeat(2));
}

#[test]
fn a_full_picture_is_a_failure() {
    no_access(
        "cannot write '/dev/full': No space left on device",
        &["count", "--width", "2", "--svg", "/dev/full"],
        b"",
    );
}

/// A standard error that takes nothing keeps no run from its status.
#[test]
fn statuses_without_standard_error() {
    let bad = Scratch::new("unheard", "x");
    for (status, args) in [
        (0, &["--version"][..]),
        (1, &["match", "--words", "1", "0x1", "0x2"]),
        (2, &["match", "--words", "9", "0x1", "0x2"]),
        (64, &["hash"]),
        (64, &["digest", "--seed", "x", "-"]),
        (65, &["stretch", "--seed", &bad.at(), "1"]),
        (74, &["stretch", "--seed", "@no/such/file", "1"]),
    ] {
        for redirections in ["2>/dev/full", "2>&-", "2</dev/null", "<&- 2>&-"] {
            let run = redirected(redirections, args);
            assert_eq!(run.status, status, "{redirections}, {args:?}");
        }
    }
    for redirections in [">&- 2>&-", ">/dev/full 2>/dev/full", "<&- >&- 2>&-"] {
        let run = redirected(redirections, &["--version"]);
        assert_eq!(run.status, 74, "{redirections}");
    }
}

#[test]
fn a_closed_input_is_not_an_empty_one() {
    for (redirections, why) in [
        ("<&-", "it is closed"),
        ("<&- 2>&1 >/dev/null", "it is closed"),
        ("0>/dev/null", "Bad file descriptor (os error 9)"),
    ] {
        let run = redirected(redirections, &["digest", "--seed", "1", "-"]);
        let message = format!("pairing: cannot read standard input: {why}\n");
        assert_eq!((run.status, run.out + &run.err), (74, message));
    }
    // No bytes are the word 0x80, which is the digest under the key 1 0.
    let key = Scratch::new("key-empty-input", "1 0");
    let run = redirected("</dev/null", &["digest", "--key", key.path(), "-"]);
    assert_eq!((run.status, run.out.as_str()), (0, "00000080\n"));
    // What reads no input needs none.
    let run = redirected("<&-", &["stretch", "--seed", "5489", "1"]);
    assert_eq!((run.status, run.out.as_str()), (0, "0xd091bb5c\n"));
}
