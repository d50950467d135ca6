//! Runs of the program, and what they must leave.

use pairing_agent::Refusal;
use std::fs;
use std::io::Write;
use std::os::fd::OwnedFd;
use std::os::unix::net::UnixStream;
use std::path::PathBuf;
use std::process::{Command, Stdio};

pub const PROGRAM: &str = env!("CARGO_BIN_EXE_pairing");

/// What a run left.
#[derive(Debug)]
pub struct Run {
    pub status: i32,
    pub out: String,
    pub err: String,
}

pub fn run(command: &mut Command, input: &[u8]) -> Run {
    let mut child = command
        .stdin(Stdio::piped())
        .stdout(Stdio::piped())
        .stderr(Stdio::piped())
        .spawn()
        .expect("pairing starts");
    // A run that reads no input may have ended by now.
    let _ = child.stdin.take().unwrap().write_all(input);
    let output = child.wait_with_output().expect("pairing ends");
    Run {
        status: output.status.code().expect("pairing exits"),
        out: String::from_utf8(output.stdout).unwrap(),
        err: String::from_utf8(output.stderr).unwrap(),
    }
}

pub fn pairing_with(args: &[&str], input: &[u8]) -> Run {
    run(Command::new(PROGRAM).args(args), input)
}

pub fn pairing(args: &[&str]) -> Run {
    pairing_with(args, b"")
}

/// A run whose streams the shell redirects.
pub fn redirected(redirections: &str, args: &[&str]) -> Run {
    let script = format!("exec \"$0\" \"$@\" {redirections}");
    let mut shell = Command::new("sh");
    run(shell.args(["-c", &script, PROGRAM]).args(args), b"")
}

/// The output of a run that must be accepted.
pub fn accepted(args: &[&str], input: &[u8]) -> String {
    let run = pairing_with(args, input);
    assert_eq!((run.status, run.err.as_str()), (0, ""), "{args:?}");
    run.out
}

/// Checks that the run is refused with this number, its figures and its advice, and prints nothing
/// else.
pub fn refused(refusal: Refusal, figures: &str, args: &[&str], input: &[u8]) {
    let run = pairing_with(args, input);
    let due = format!(
        "pairing: refused with {} {refusal:?}\n{figures}\n{refusal}\n",
        refusal.number()
    );
    assert_eq!((run.status, run.out.as_str()), (2, ""), "{args:?}");
    assert_eq!(run.err, due, "{args:?}");
}

/// Checks that the run fails with this status and one line that has this text, and prints nothing
/// else.
fn failed(status: i32, text: &str, args: &[&str], input: &[u8]) {
    let run = pairing_with(args, input);
    let ended = (run.status, run.out.as_str());
    assert_eq!(ended, (status, ""), "{args:?}: {run:?}");
    assert!(run.err.starts_with("pairing: "), "{args:?}: {}", run.err);
    assert!(run.err.contains(text), "{args:?}: {}", run.err);
    assert_eq!(run.err.lines().count(), 1, "{args:?}: {}", run.err);
}

/// Checks that the arguments are wrong.
pub fn bad_usage(text: &str, args: &[&str], input: &[u8]) {
    failed(64, text, args, input);
}

/// Checks that a file's content cannot be used.
pub fn bad_content(text: &str, args: &[&str], input: &[u8]) {
    failed(65, text, args, input);
}

/// Checks that a file cannot be read or written.
pub fn no_access(text: &str, args: &[&str], input: &[u8]) {
    failed(74, text, args, input);
}

/// Checks that the run ends quietly where nobody reads what it prints.
pub fn unread(args: &[&str]) {
    // The reader has left before the run starts.
    let (reader, output) = UnixStream::pair().expect("two sockets");
    drop(reader);
    let ended = Command::new(PROGRAM)
        .args(args)
        .stdin(Stdio::null())
        .stdout(OwnedFd::from(output))
        .output()
        .expect("pairing ends");
    let err = String::from_utf8(ended.stderr).unwrap();
    assert_eq!(
        (ended.status.code(), err.as_str()),
        (Some(141), ""),
        "{args:?}"
    );
}

/// A folder of one test's own. It lies outside the checkout, in which the prover wants no links: a
/// run that is ended leaves some.
pub struct Folder(PathBuf);

impl Folder {
    pub fn new(name: &str) -> Folder {
        let name = format!("pairing-cli-{name}-{}", std::process::id());
        let path = std::env::temp_dir().join(name);
        // A run that was ended may have left it.
        let _ = fs::remove_dir_all(&path);
        fs::create_dir(&path).expect("the folder is made");
        Folder(path)
    }

    /// The path of a file in it.
    pub fn path(&self, name: &str) -> String {
        format!("{}/{name}", self.0.to_str().unwrap())
    }

    pub fn write(&self, name: &str, content: &str) {
        fs::write(self.path(name), content).expect("the file is written");
    }

    pub fn read(&self, name: &str) -> String {
        fs::read_to_string(self.path(name)).expect("the file is read")
    }

    /// The names of all files in it.
    pub fn listing(&self) -> Vec<String> {
        let files = fs::read_dir(&self.0).expect("the folder is read");
        let mut names: Vec<_> = files
            .map(|file| file.unwrap().file_name().into_string().unwrap())
            .collect();
        names.sort();
        names
    }
}

impl Drop for Folder {
    fn drop(&mut self) {
        let _ = fs::remove_dir_all(&self.0);
    }
}

/// A file of one test's own.
pub struct Scratch(pub PathBuf);

impl Scratch {
    pub fn new(name: &str, content: impl AsRef<[u8]>) -> Scratch {
        let path = PathBuf::from(env!("CARGO_TARGET_TMPDIR")).join(format!("cli-{name}"));
        fs::write(&path, content).expect("the scratch file is written");
        Scratch(path)
    }

    pub fn path(&self) -> &str {
        self.0.to_str().unwrap()
    }

    /// The argument that names the file after `@`.
    pub fn at(&self) -> String {
        format!("@{}", self.path())
    }
}

impl Drop for Scratch {
    fn drop(&mut self) {
        let _ = fs::remove_file(&self.0);
    }
}
