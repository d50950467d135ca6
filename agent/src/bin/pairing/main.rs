//! The command line of the pairing toolkit.
//!
//! Every digest, code, key, load and match is the proved library's; only the words that bytes make,
//! for the calls that take words, are made beside it. Settings and lengths go to it as they were
//! given, and its answer decides.

#![deny(unsafe_code)]

mod args;
mod code;
mod count;
mod digest;
mod ending;
mod explain;
mod histogram;
mod input;
mod keyed;
mod load;
mod matching;
mod message;
mod number;
mod output;
mod peers;
mod picture;
mod place;
mod refused;
mod rule;
mod seed;
mod show;
// Whether a standard stream is closed can be seen only before Rust's runtime starts, by a C call.
#[allow(unsafe_code)]
mod stdio;
mod stretch;
mod words;

use args::Args;
use ending::{usage, Answer, Failure};
use show::shown;
use std::ffi::{OsStr, OsString};
use std::process::ExitCode;

const HELP: &str = "\
Short digests for pairing, computed by the proved library.

Usage: pairing COMMAND ...

  digest         the digest of a file's bytes
  digest-words   the digest of a row of words
  code           the code of a row of words or a label: digits to be read aloud
  peers          the digests of a row of words or a label under up to 16 peers' keys
  words          the words that a file's bytes make, for the commands that take words
  stretch        key words from a seed
  load           a key row and a message row from a seed, for a test bench
  match          whether two digests agree
  count          the largest count of keys under which two messages agree
  explain        what an answer means, by number or word, and what to do

'pairing COMMAND --help' or 'pairing help COMMAND' describes a command, and
'pairing --version' prints the version.

Numbers are decimal, or hexadecimal after 0x.

Exit status:
   0   accepted, or match
   1   no match
   2   refused by the library; 'pairing explain' says more of a refusal
  64   wrong usage: a command, option or argument that is not taken
  65   a file whose content cannot be used
  74   a file that cannot be read or written, standard output included
 141   standard output is a pipe whose reader left; nothing is said of it
";

const VERSION: &str = concat!("pairing ", env!("CARGO_PKG_VERSION"), "\n");

struct Command {
    name: &'static str,
    help: &'static str,
    options: &'static [&'static str],
    run: fn(Args) -> Result<Answer, Failure>,
}

static COMMANDS: [Command; 10] = [
    Command {
        name: "digest",
        help: digest::BYTES_HELP,
        options: digest::OPTIONS,
        run: digest::bytes,
    },
    Command {
        name: "digest-words",
        help: digest::WORDS_HELP,
        options: digest::OPTIONS,
        run: digest::words,
    },
    Command {
        name: "code",
        help: code::HELP,
        options: code::OPTIONS,
        run: code::run,
    },
    Command {
        name: "peers",
        help: peers::HELP,
        options: peers::OPTIONS,
        run: peers::run,
    },
    Command {
        name: "words",
        help: words::HELP,
        options: &["--width"],
        run: words::run,
    },
    Command {
        name: "stretch",
        help: stretch::HELP,
        options: &["--width", "--seed"],
        run: stretch::run,
    },
    Command {
        name: "load",
        help: load::HELP,
        options: load::OPTIONS,
        run: load::run,
    },
    Command {
        name: "match",
        help: matching::HELP,
        options: &["--words"],
        run: matching::run,
    },
    Command {
        name: "count",
        help: count::HELP,
        options: &["--width", "--svg"],
        run: count::run,
    },
    Command {
        name: "explain",
        help: explain::HELP,
        options: &[],
        run: explain::run,
    },
];

fn main() -> ExitCode {
    let status = match ended(std::env::args_os().skip(1).collect()) {
        Ok(status) => status,
        Err(failure) => {
            output::tell(&failure.message());
            failure.status()
        }
    };
    ExitCode::from(status)
}

/// The status of a run whose answer, if it has one, is printed.
fn ended(mut args: Vec<OsString>) -> Result<u8, Failure> {
    if args.is_empty() {
        return Err(usage("no command is given").see("pairing"));
    }
    let name = args.remove(0);
    let answer = match command(&name) {
        Some(command) => command.answer(args),
        None => about(&name, &args)
            .map(Answer::accepted)
            .map_err(|failure| failure.see("pairing")),
    }?;
    output::print(&answer.text)?;
    Ok(answer.status)
}

fn command(name: &OsStr) -> Option<&'static Command> {
    COMMANDS.iter().find(|command| name == command.name)
}

impl Command {
    fn answer(&self, args: Vec<OsString>) -> Result<Answer, Failure> {
        if Args::ask_for_help(&args) {
            return Ok(Answer::accepted(self.help));
        }
        Args::parse(args, self.options)
            .and_then(self.run)
            .map_err(|failure| failure.see(&format!("pairing {}", self.name)))
    }
}

/// The text that is asked for with a first argument that is no command.
fn about(name: &OsStr, args: &[OsString]) -> Result<&'static str, Failure> {
    match (name.to_str(), args) {
        (Some("--help" | "-h" | "help"), _) => help(args),
        (Some("--version" | "-V"), []) => Ok(VERSION),
        (Some("--version" | "-V"), [extra, ..]) => Err(args::too_many(extra)),
        _ => Err(no_command(name)),
    }
}

fn help(args: &[OsString]) -> Result<&'static str, Failure> {
    match args {
        [] => Ok(HELP),
        [name] => command(name)
            .map(|command| command.help)
            .ok_or_else(|| no_command(name)),
        [_, extra, ..] => Err(args::too_many(extra)),
    }
}

/// Names the shortest command whose name has the given one in it, if there is one.
fn no_command(name: &OsStr) -> Failure {
    let plain = name.to_string_lossy().to_lowercase().replace('_', "-");
    let near = COMMANDS
        .iter()
        .filter(|command| plain.len() > 2 && command.name.contains(&plain))
        .min_by_key(|command| command.name.len());
    let name = shown(name);
    usage(match near {
        Some(command) => format!("{name} is no command, but {} is", command.name),
        None => format!("{name} is no command"),
    })
}
