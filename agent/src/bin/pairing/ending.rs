//! How a command ends: with an answer or a failure, and the exit status of each.

use pairing_agent::Refusal;

/// What a command prints, and its exit status.
pub struct Answer {
    pub text: String,
    pub status: u8,
}

impl Answer {
    pub fn accepted(text: impl Into<String>) -> Answer {
        Answer {
            text: text.into(),
            status: 0,
        }
    }

    pub fn no_match() -> Answer {
        Answer {
            text: "no match\n".into(),
            status: 1,
        }
    }
}

/// Why a command printed nothing.
pub enum Failure {
    /// The library refused the call; with its figures, where there are any.
    Refused(Refusal, Option<String>),
    /// The arguments are not those that the command takes.
    Usage(String),
    /// What a file holds cannot be used.
    Content(String),
    /// A file cannot be read or written.
    Access(String),
    /// Who reads standard output has closed it before its end, and wants no more.
    Unread,
}

impl Failure {
    /// The exit status. Those from 64 on are named EX_USAGE, EX_DATAERR and EX_IOERR in C's
    /// sysexits.h; the last is what a shell gives of a program that the signal SIGPIPE ended.
    pub fn status(&self) -> u8 {
        match self {
            Failure::Refused(..) => 2,
            Failure::Usage(_) => 64,
            Failure::Content(_) => 65,
            Failure::Access(_) => 74,
            Failure::Unread => 141,
        }
    }

    /// What standard error is told.
    pub fn message(&self) -> String {
        match self {
            Failure::Refused(refusal, figures) => {
                let number = refusal.number();
                let figures = figures.as_ref().map(|text| format!("{text}\n"));
                let figures = figures.unwrap_or_default();
                format!("pairing: refused with {number} {refusal:?}\n{figures}{refusal}\n")
            }
            Failure::Usage(text) | Failure::Content(text) | Failure::Access(text) => {
                format!("pairing: {text}\n")
            }
            Failure::Unread => String::new(),
        }
    }

    /// The failure; one of usage says which help there is.
    pub fn see(self, command: &str) -> Failure {
        match self {
            Failure::Usage(text) => usage(format!("{text}; see '{command} --help'")),
            other => other,
        }
    }
}

pub fn usage(text: impl Into<String>) -> Failure {
    Failure::Usage(text.into())
}

pub fn content(text: impl Into<String>) -> Failure {
    Failure::Content(text.into())
}

pub fn access(text: impl Into<String>) -> Failure {
    Failure::Access(text.into())
}
