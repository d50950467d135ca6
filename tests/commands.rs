//! Every command that README.md and docs/GUIDE.md show runs as written, in a copy of the repository, and prints what is
//! shown below it. Run from the repository's root, with all crates proved.
//!
//! A fence marked `console` has commands after `$ `, each with its output below, where `...` stands for any lines and no
//! output is shown for a command whose output is not the point. A status other than 0 is shown by `echo $?` after it.
//! Commands in code marks within the text run too, where they stand.

use std::env;
use std::fs;
use std::path::{Path, PathBuf};
use std::process::{Command, Stdio};

const DOCUMENTS: [&str; 2] = ["README.md", "docs/GUIDE.md"];

/// A text in code marks that begins so is a command.
const PROGRAMS: [&str; 5] = ["make ", "pairing ", "rt ", "cargo ", "(cd "];

/// Commands that are not run here, and why. Their targets and programs exist all the same.
const NOT_RUN: [(&str, &str); 6] = [
    ("make test", "this test is a part of it"),
    ("make prove", "proves again what the gate has just proved"),
    ("make figures", "writes docs/CLAIMS.md"),
    ("make bench", "is no test"),
    ("make soak", "takes minutes"),
    ("make test-memory", "takes minutes"),
];

/// What is written to say that a command has ended, before its status.
const END: char = '\u{1e}';

/// A command, its line in the document, and the output shown below it, if any.
#[derive(Debug, PartialEq)]
struct Shown {
    line: usize,
    command: String,
    output: Vec<String>,
}

/// The commands of a document, in order: those of its fences, and the first in code marks of each that no fence has.
fn commands(text: &str) -> Vec<Shown> {
    let (fenced, inline): (Vec<_>, Vec<_>) =
        tokens(text).into_iter().partition(|(fence, _)| *fence);
    let mut all: Vec<Shown> = fenced.into_iter().map(|(_, shown)| shown).collect();
    for (_, shown) in inline {
        if all.iter().all(|known| known.command != shown.command) {
            all.push(shown);
        }
    }
    all.retain(|shown| NOT_RUN.iter().all(|(command, _)| *command != shown.command));
    all.sort_by_key(|shown| shown.line);
    all
}

/// All commands with whether they stand in a fence.
fn tokens(text: &str) -> Vec<(bool, Shown)> {
    let (mut tokens, mut fence, mut prose) = (Vec::<(bool, Shown)>::new(), None, String::new());
    for (line, content) in text.lines().enumerate() {
        if let Some(kind) = content.strip_prefix("```") {
            fence = if fence.is_some() { None } else { Some(kind) };
        } else if fence == Some("console") {
            match (content.strip_prefix("$ "), tokens.last_mut()) {
                (Some(command), _) => tokens.push((true, shown(line, command))),
                (None, Some((_, last))) => last.output.push(content.to_string()),
                (None, None) => panic!("line {}: output before any command", line + 1),
            }
        }
        // what is fenced is no prose; its lines stay as empty ones, so that lines are counted
        let fenced = fence.is_some() || content.starts_with("```");
        prose += if fenced { "" } else { content };
        prose.push('\n');
    }
    let mut line = 0;
    for (i, part) in prose.split('`').enumerate() {
        let command = part.split_whitespace().collect::<Vec<_>>().join(" ");
        if i % 2 == 1 && PROGRAMS.iter().any(|program| command.starts_with(program)) {
            tokens.push((false, shown(line, &command)));
        }
        line += part.matches('\n').count();
    }
    tokens
}

fn shown(line: usize, command: &str) -> Shown {
    Shown {
        line: line + 1,
        command: command.to_string(),
        output: Vec::new(),
    }
}

/// Runs the commands in one shell, which starts in the folder, and returns the output and status of each.
fn run(folder: &Path, commands: &[Shown]) -> Vec<(String, String)> {
    let mut script = String::from("exec 2>&1\n");
    for shown in commands {
        script += &shown.command;
        script += "\n__status=$?; printf '\\036%s\\n' \"$__status\"; (exit \"$__status\")\n";
    }
    let temporary = folder.join("target/scratch");
    fs::create_dir_all(&temporary).unwrap();
    let output = Command::new("bash")
        .args(["-c", &script])
        .current_dir(folder)
        .env("TMPDIR", fs::canonicalize(&temporary).unwrap())
        .env("CARGO_INSTALL_ROOT", fs::canonicalize(&temporary).unwrap())
        .env_remove("MAKEFLAGS")
        .stdin(Stdio::null())
        .output()
        .expect("bash runs");
    let text = String::from_utf8_lossy(&output.stdout).into_owned();
    let mut parts = text.split(END);
    let mut outputs = vec![parts.next().unwrap_or_default().to_string()];
    let mut statuses = Vec::new();
    for part in parts {
        let (status, output) = part.split_once('\n').unwrap_or((part, ""));
        statuses.push(status.to_string());
        outputs.push(output.to_string());
    }
    outputs.into_iter().zip(statuses).collect()
}

/// Whether the lines are those shown, where `...` stands for any lines, none among them.
fn fits(shown: &[String], lines: &[&str]) -> bool {
    match shown {
        [] => lines.is_empty(),
        [any, rest @ ..] if any == "..." => (0..=lines.len()).any(|i| fits(rest, &lines[i..])),
        [first, rest @ ..] => lines.first() == Some(&first.as_str()) && fits(rest, &lines[1..]),
    }
}

/// What went otherwise than a document shows.
fn faults(document: &str, text: &str, folder: &Path) -> Vec<String> {
    let commands = commands(text);
    let ran = run(folder, &commands);
    let mut faults = Vec::new();
    for (i, shown) in commands.iter().enumerate() {
        let place = format!("{document}, line {}: {}", shown.line, shown.command);
        let Some((output, status)) = ran.get(i) else {
            faults.push(format!("{place}\nwas not reached"));
            break;
        };
        let lines: Vec<&str> = output.lines().collect();
        if !shown.output.is_empty() && !fits(&shown.output, &lines) {
            faults.push(format!("{place}\nprinted\n{output}"));
        }
        let status_shown = commands.get(i + 1).map(|next| next.command.as_str()) == Some("echo $?");
        if status != "0" && !status_shown {
            faults.push(format!("{place}\nended with {status}:\n{output}"));
        }
    }
    faults
}

/// The checkout's files but what is built and what the toolchain keeps, and the proved library.
fn sources() -> Vec<PathBuf> {
    let within = |folder: &Path| -> Vec<PathBuf> {
        let entries = fs::read_dir(folder).unwrap();
        entries.map(|entry| entry.unwrap().path()).collect()
    };
    let skipped = |path: &PathBuf| {
        ["./target", "./.git", "./crates"].contains(&path.to_str().unwrap_or_default())
    };
    let mut all = within(".".as_ref());
    all.retain(|path| !skipped(path));
    for folder in within("./crates".as_ref()) {
        let files = within(&folder).into_iter();
        all.extend(files.filter(|path| !path.ends_with("out")));
    }
    all.extend(Some(PathBuf::from("./target/staticlib")).filter(|path| path.exists()));
    all
}

/// A copy of the repository, with the proved library, that the commands may change. It lies outside the checkout, in which
/// the toolchain wants no second copy. What was proved of the crates is not copied: a check there begins with it.
fn copy() -> PathBuf {
    let checkout = env::current_dir().unwrap();
    let checkout = checkout.to_string_lossy().replace('/', "-");
    let copy = env::temp_dir().join(format!("pairing-commands{checkout}"));
    // a run that was ended may have left it
    let _ = fs::remove_dir_all(&copy);
    fs::create_dir(&copy).unwrap();
    for from in sources() {
        let to = copy.join(from.parent().unwrap());
        fs::create_dir_all(&to).unwrap();
        let copied = Command::new("cp").arg("-rp").arg(&from).arg(&to).status();
        assert!(copied.unwrap().success(), "{} is copied", from.display());
    }
    copy
}

#[test]
fn commands_run_as_written() {
    let copy = copy();
    let mut all = Vec::new();
    for document in DOCUMENTS {
        let text = fs::read_to_string(document).unwrap();
        all.extend(faults(document, &text, &copy));
    }
    // one of them installs the command line, and nothing else
    let installed = fs::read_dir(copy.join("target/scratch/bin"));
    let installed = installed.map(|files| files.map(|file| file.unwrap().file_name()));
    let names: Vec<_> = installed.into_iter().flatten().collect();
    fs::remove_dir_all(copy).unwrap();
    assert!(all.is_empty(), "{}", all.join("\n"));
    assert_eq!(names, ["pairing"]);
}

/// What is wrong in a small document whose one fence has these lines.
fn wrong(fence: &str) -> String {
    let text = format!("# Title\n```console\n{fence}\n```\n");
    faults("text", &text, Path::new("target/tests/shown")).join("; ")
}

#[test]
fn what_is_as_shown_is_not_reported() {
    for fence in [
        "$ echo one",
        "$ echo one\none",
        "$ printf 'one\\ntwo\\nthree\\n'\n...\nthree",
        "$ printf 'one\\ntwo\\nthree\\n'\none\n...\n$ echo two >&2\ntwo",
        "$ false\n$ echo $?\n1",
        "$ cd /\n$ pwd\n/",
    ] {
        assert_eq!(wrong(fence), "", "{fence}");
    }
}

#[test]
fn what_is_not_as_shown_is_reported() {
    for (fence, fault) in [
        ("$ echo one\ntwo", "line 3: echo one\nprinted"),
        ("$ echo one\none\ntwo", "line 3: echo one\nprinted"),
        ("$ printf 'one\\ntwo\\n'\none", "printed"),
        ("$ echo one\n...\ntwo", "printed"),
        ("$ true\n$ false", "line 4: false\nended with 1"),
        ("$ false\n$ echo $?\n2", "line 4: echo $?\nprinted"),
        ("$ exit 0\n$ echo two", "was not reached"),
        ("$ no-such-command", "ended with 127"),
    ] {
        assert!(wrong(fence).contains(fault), "{fence}: {}", wrong(fence));
    }
}

#[test]
fn commands_in_the_text_are_found() {
    let text = "`make demo` and `make\ntest`\n```console\n$ make lib\n```\n`make lib`, `pairing help`, `make`, `x`, `pairing help`\n";
    let found: Vec<_> = commands(text)
        .into_iter()
        .map(|shown| (shown.line, shown.command))
        .collect();
    let due = [(1, "make demo"), (4, "make lib"), (6, "pairing help")];
    assert_eq!(
        found,
        due.map(|(line, command)| (line, command.to_string()))
    );
}

/// A command that is not run still has its target in the Makefile.
#[test]
fn targets_exist() {
    let makefile = fs::read_to_string("Makefile").unwrap();
    for (command, _) in NOT_RUN {
        let target = command.strip_prefix("make ").unwrap();
        assert!(makefile.contains(&format!("\n{target}:")), "{command}");
    }
}

/// `make` alone has a line for each target.
#[test]
fn targets_are_listed() {
    let makefile = fs::read_to_string("Makefile").unwrap();
    let targets = makefile.lines().next().unwrap().strip_prefix(".PHONY: ");
    // Below another make it would name its folder.
    let listed = Command::new("make")
        .arg("--no-print-directory")
        .env_remove("MAKEFLAGS")
        .output()
        .unwrap();
    let listed = String::from_utf8(listed.stdout).unwrap();
    let names = listed.lines().map(|line| line.split_whitespace().nth(1));
    assert_eq!(
        names.map(Option::unwrap).collect::<Vec<_>>().join(" "),
        targets.unwrap()
    );
    assert!(listed
        .lines()
        .all(|line| line.split_whitespace().count() > 2));
}
