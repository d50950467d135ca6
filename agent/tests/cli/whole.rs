//! Files that are written whole or not at all, and names that stand for one file.

use crate::run::{accepted, bad_usage, no_access, pairing, pairing_with, redirected, unread};
use crate::run::{run, Folder, Run, PROGRAM};
use std::fs::{self, OpenOptions};
use std::os::unix::fs::{symlink, FileTypeExt, PermissionsExt};
use std::process::Command;

/// The arguments of a load into those files.
fn load<'a>(key: &'a str, message: &'a str) -> [&'a str; 9] {
    let [seed, to_key, to_message] = ["--seed", "--key-to", "--message-to"];
    [
        "load", seed, "5489", to_key, key, to_message, message, "2", "1",
    ]
}

/// The rows of that load.
const KEY: &str = "0xd091bb5c\n0x22ae9ef6\n";
const MESSAGE: &str = "0xe7e1faee\n";

const BEFORE: &str = "before\n";

/// What the shell's script leaves, run in the folder with the program and its arguments.
fn in_shell(folder: &Folder, script: &str, args: &[&str]) -> Run {
    let mut shell = Command::new("sh");
    shell.current_dir(folder.path("."));
    run(shell.args(["-c", script, PROGRAM]).args(args), b"")
}

/// A folder with the file `old`, and names that lead to it and to the file `new`, which is missing.
fn with_links(name: &str) -> Folder {
    let folder = Folder::new(name);
    folder.write("old", BEFORE);
    folder.write("hard-from", BEFORE);
    fs::hard_link(folder.path("hard-from"), folder.path("hard")).unwrap();
    symlink("old", folder.path("link")).unwrap();
    symlink(folder.path("link"), folder.path("link-to-link")).unwrap();
    symlink("new", folder.path("to-new")).unwrap();
    symlink("to-new", folder.path("to-to-new")).unwrap();
    symlink(".", folder.path("here")).unwrap();
    folder
}

#[test]
fn one_file_has_many_names() {
    let folder = with_links("one-file");
    let listing = folder.listing();
    for names in [
        &[
            "old",
            "./old",
            "link",
            "link-to-link",
            "here/old",
            "here/link",
        ][..],
        &["hard", "hard-from", "here/hard"],
        &[
            "new",
            "./new",
            "to-new",
            "to-to-new",
            "here/new",
            "here/to-new",
        ],
    ] {
        for one in names {
            for other in names {
                let paths = [one, other].map(|name| folder.path(name));
                let args = load(&paths[0], &paths[1]);
                let why = format!("only one of the rows can go to '{}'", paths[0]);
                bad_usage(&why, &args, b"");
                if one != other {
                    bad_usage(&format!(", and '{}' is the same;", paths[1]), &args, b"");
                }
            }
        }
    }
    assert_eq!(folder.read("old"), BEFORE);
    assert_eq!(folder.listing(), listing);
    // Names in the folder from which the program runs.
    for [one, other] in [["old", "./old"], ["new", "./new"], ["to-new", "new"]] {
        let run = in_shell(&folder, "exec \"$0\" \"$@\"", &load(one, other));
        assert_eq!(run.status, 64, "{one}, {other}");
    }
    assert_eq!(folder.listing(), listing);
}

#[test]
fn standard_output_has_many_names() {
    let folder = Folder::new("standard-output");
    let file = folder.path("out");
    let to_file = format!(">'{file}'");
    let names = ["-", "/dev/stdout", "/dev/fd/1", "/proc/self/fd/1"];
    for one in names {
        for other in names {
            let args = load(one, other);
            bad_usage("only one of the rows can go to ", &args, b"");
            assert_eq!(redirected(&to_file, &args).status, 64, "{one}, {other}");
        }
        // The file to which the shell sends it.
        for args in [load(one, &file), load(&file, one)] {
            assert_eq!(redirected(&to_file, &args).status, 64, "{one}");
        }
        // It takes one row, wherever it leads; what stands there stays when the shell appends.
        assert_eq!(accepted(&load(one, "/dev/null"), b""), KEY, "{one}");
        assert_eq!(accepted(&load("/dev/null", one), b""), MESSAGE, "{one}");
        folder.write("out", BEFORE);
        let run = redirected(&format!(">>'{file}'"), &load(one, "/dev/null"));
        assert_eq!((run.status, run.err.as_str()), (0, ""), "{one}");
        assert_eq!(folder.read("out"), format!("{BEFORE}{KEY}"), "{one}");
    }
}

/// What the null device takes is not kept, so both rows can go there.
#[test]
fn the_null_device_is_no_file() {
    for redirections in [">/dev/null", ">>/dev/null"] {
        for args in [load("-", "/dev/null"), load("/dev/null", "/dev/stdout")] {
            let run = redirected(redirections, &args);
            assert_eq!((run.status, run.err.as_str()), (0, ""), "{redirections}");
        }
    }
}

#[test]
fn a_row_that_cannot_be_written_leaves_the_other_file() {
    let folder = Folder::new("one-row");
    let old = folder.path("old");
    fs::create_dir(folder.path("folder")).unwrap();
    folder.write("old", BEFORE);
    let listing = folder.listing();
    for other in [
        "/nonexist/m",
        "/dev/full",
        "",
        &folder.path("folder"),
        &folder.path("missing/m"),
        &folder.path("missing/"),
        &folder.path("missing/."),
        &folder.path("old/m"),
        &folder.path(&"long".repeat(100)),
    ] {
        let why = format!("cannot write '{other}': ");
        for args in [load(&old, other), load(other, &old)] {
            no_access(&why, &args, b"");
            assert_eq!(folder.read("old"), BEFORE, "{other}");
        }
        // Nor is one made.
        let new = folder.path("new");
        no_access(&why, &load(&new, other), b"");
        assert_eq!(folder.listing(), listing, "{other}");
    }
}

/// Standard output comes before a file is replaced.
#[test]
fn a_row_that_cannot_be_printed_leaves_the_other_file() {
    let folder = Folder::new("printed-row");
    let old = folder.path("old");
    folder.write("old", BEFORE);
    for args in [load(&old, "-"), load("-", &old)] {
        for redirections in [">/dev/full", ">&-", "1</dev/null"] {
            let run = redirected(redirections, &args);
            assert_eq!(run.status, 74, "{redirections}");
            let why = "pairing: cannot write standard output: ";
            assert!(run.err.starts_with(why), "{}", run.err);
        }
        unread(&args);
        assert_eq!(folder.read("old"), BEFORE);
    }
    assert_eq!(folder.listing(), ["old"]);
}

/// The shell allows files of a few blocks, which a longer row does not fit in: it is cut in the middle.
#[test]
fn a_disk_that_is_full_in_the_middle() {
    let folder = Folder::new("full-disk");
    let script = "trap '' XFSZ; ulimit -f 8; exec \"$0\" \"$@\"";
    let files = ["--key-to", "key", "--message-to", "message"];
    for (counts, unwritten) in [(["65544", "1"], "key"), (["1", "65536"], "message")] {
        folder.write("key", BEFORE);
        folder.write("message", BEFORE);
        let args = [&["load", "--seed", "1"], &files[..], &counts].concat();
        let run = in_shell(&folder, script, &args);
        assert_eq!((run.status, run.out.as_str()), (74, ""), "{}", run.err);
        let why = format!("pairing: cannot write '{unwritten}': File too large");
        assert!(run.err.starts_with(&why), "{}", run.err);
        let held = ["key", "message"].map(|name| folder.read(name));
        assert_eq!(held, [BEFORE; 2]);
        assert_eq!(folder.listing(), ["key", "message"]);
    }
}

fn mode(path: &str) -> u32 {
    fs::metadata(path).unwrap().permissions().mode() & 0o7777
}

#[test]
fn permissions_are_kept() {
    let folder = Folder::new("permissions");
    let old = folder.path("old");
    for kept in [0o600, 0o640, 0o604, 0o666, 0o755] {
        folder.write("old", BEFORE);
        fs::set_permissions(&old, fs::Permissions::from_mode(kept)).unwrap();
        accepted(&load(&old, "/dev/null"), b"");
        assert_eq!((folder.read("old").as_str(), mode(&old)), (KEY, kept));
    }
    // A new file has those that a file of the shell has.
    for mask in ["022", "077"] {
        let script = format!("umask {mask}; : >shell; exec \"$0\" \"$@\"");
        let run = in_shell(&folder, &script, &load("/dev/null", "new"));
        assert_eq!((run.status, folder.read("new").as_str()), (0, MESSAGE));
        let [new, shell] = ["new", "shell"].map(|name| folder.path(name));
        assert_eq!(mode(&new), mode(&shell), "{mask}");
        fs::remove_file(&new).unwrap();
        fs::remove_file(&shell).unwrap();
    }
}

/// Where the folder would allow to replace it.
#[test]
fn a_file_that_may_not_be_written_is_not_replaced() {
    let folder = Folder::new("read-only");
    let old = folder.path("old");
    folder.write("old", BEFORE);
    fs::set_permissions(&old, fs::Permissions::from_mode(0o444)).unwrap();
    // Those who may write everything may write this.
    if OpenOptions::new().write(true).open(&old).is_err() {
        let why = format!("cannot write '{old}': Permission denied");
        no_access(&why, &load(&old, "/dev/null"), b"");
        assert_eq!((folder.read("old").as_str(), mode(&old)), (BEFORE, 0o444));
    }
}

#[test]
fn the_file_at_the_end_of_a_link_is_replaced() {
    let folder = with_links("links");
    let listing = folder.listing();
    let [key, message] = ["link-to-link", "to-to-new"].map(|name| folder.path(name));
    accepted(&load(&key, &message), b"");
    assert_eq!(folder.read("old"), KEY);
    assert_eq!(folder.read("new"), MESSAGE);
    for name in ["link", "link-to-link", "to-new", "to-to-new"] {
        assert!(fs::read_link(folder.path(name)).is_ok(), "{name}");
    }
    assert_eq!(folder.listing().len(), listing.len() + 1);
    // Another name of the old file keeps it.
    accepted(&load(&folder.path("hard"), "/dev/null"), b"");
    assert_eq!(
        [folder.read("hard"), folder.read("hard-from")],
        [KEY, BEFORE]
    );
}

/// A pipe with a name is written, and stays a pipe.
#[test]
fn a_pipe_is_written_as_it_is() {
    let folder = Folder::new("pipe");
    let [pipe, file] = ["pipe", "file"].map(|name| folder.path(name));
    assert!(Command::new("mkfifo")
        .arg(&pipe)
        .status()
        .unwrap()
        .success());
    let reader = {
        let pipe = pipe.clone();
        std::thread::spawn(move || fs::read_to_string(pipe).unwrap())
    };
    accepted(&load(&pipe, &file), b"");
    assert_eq!(reader.join().unwrap(), KEY);
    assert_eq!(folder.read("file"), MESSAGE);
    assert!(fs::metadata(&pipe).unwrap().file_type().is_fifo());
    assert_eq!(folder.listing(), ["file", "pipe"]);
}

/// A file that has lost its name can only be written as it stands.
#[test]
fn a_file_without_a_name() {
    let folder = Folder::new("no-name");
    let long = "long before ".repeat(10);
    let script = format!("exec 3<>lost; echo '{long}' >&3; rm lost; \"$0\" \"$@\"; cat /dev/fd/3");
    let run = in_shell(&folder, &script, &load("/dev/fd/3", "/nonexist/m"));
    assert_eq!(run.out, format!("{long}\n"), "{}", run.err);
    let run = in_shell(&folder, &script, &load("/dev/fd/3", "message"));
    assert_eq!((run.out.as_str(), run.err.as_str()), (KEY, ""));
    assert_eq!(folder.listing(), ["message"]);
}

#[test]
fn a_picture_is_written_whole_or_not_at_all() {
    let folder = Folder::new("picture");
    let svg = folder.path("svg");
    folder.write("svg", BEFORE);
    fs::set_permissions(&svg, fs::Permissions::from_mode(0o640)).unwrap();
    let args = ["count", "--width", "2", "--svg", &svg];
    for redirections in [">/dev/full", ">&-"] {
        assert_eq!(redirected(redirections, &args).status, 74);
        assert_eq!(folder.read("svg"), BEFORE);
    }
    unread(&args);
    assert_eq!(folder.read("svg"), BEFORE);
    let text = accepted(&args, b"");
    assert!(text.starts_with("width 2, kept 2, "), "{text}");
    let drawn = folder.read("svg");
    assert!(drawn.starts_with("<svg ") && drawn.ends_with("</svg>\n"));
    assert_eq!((mode(&svg), folder.listing()), (0o640, vec!["svg".into()]));
    // To standard output it goes alone.
    for name in ["-", "/dev/stdout", "/proc/self/fd/1"] {
        let args = ["count", "--width", "2", "--svg", name];
        assert_eq!(accepted(&args, b""), drawn, "{name}");
        let run = redirected(&format!(">'{svg}'"), &args);
        assert_eq!((run.status, folder.read("svg")), (0, drawn.clone()));
    }
    let run = redirected(&format!(">'{svg}'"), &args);
    assert_eq!((run.status, folder.read("svg")), (0, drawn));
}

/// Before the count, which takes a minute at this width.
#[test]
fn a_picture_is_tried_before_the_count() {
    let folder = Folder::new("picture-tried");
    let file = folder.path("missing/svg");
    let args = ["count", "--width", "10", "--svg", &file];
    no_access(&format!("cannot write '{file}': "), &args, b"");
}

/// A seed can come from the file that its row replaces.
#[test]
fn a_row_replaces_the_file_of_its_seed() {
    let folder = Folder::new("own-seed");
    folder.write("seed", "5489\n");
    let seed = folder.path("seed");
    let at = format!("@{seed}");
    let args = ["load", "--seed", &at, "--key-to", &seed, "--message-to=-"];
    let run = pairing_with(&[&args[..], &["2", "1"]].concat(), b"");
    assert_eq!((run.status, run.out.as_str()), (0, MESSAGE));
    assert_eq!(folder.read("seed"), KEY);
}

/// Files of a run with the same number that ended early do not stand in the way.
#[test]
fn what_other_runs_left_is_left() {
    let folder = Folder::new("left");
    let script = "touch .pairing-$$-0 .pairing-$$-1; exec \"$0\" \"$@\"";
    let ended = in_shell(&folder, script, &load("key", "message"));
    assert_eq!((ended.status, ended.err.as_str()), (0, ""));
    assert_eq!([folder.read("key"), folder.read("message")], [KEY, MESSAGE]);
    assert_eq!(folder.listing().len(), 4);
}

/// The library is asked before any place is.
#[test]
fn what_is_refused_tries_nothing() {
    let args = ["load", "--seed=1", "--key-to=/nonexist/k", "--message-to=-"];
    let run = pairing(&[&args[..], &["65545", "1"]].concat());
    assert_eq!((run.status, run.out.as_str()), (2, ""));
}
