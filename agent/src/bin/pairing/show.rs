//! How messages show what was given.

use std::ffi::OsStr;
use std::fmt::Display;

/// The text, or its start where it is long, fit for a terminal.
pub fn shown(text: impl AsRef<OsStr>) -> String {
    let text = text.as_ref().to_string_lossy();
    let mut start: String = text.chars().take(40).collect();
    if start.len() < text.len() {
        start.push_str("...");
    }
    without_controls(&start)
}

/// The file's name in quotes.
pub fn quoted(file: &OsStr) -> String {
    format!("'{}'", without_controls(&file.to_string_lossy()))
}

/// The file's name in quotes, or that of the standard stream which `-` is.
pub fn named(file: &OsStr, stream: &str) -> String {
    if file == "-" {
        stream.into()
    } else {
        quoted(file)
    }
}

fn without_controls(text: &str) -> String {
    text.replace(|letter: char| letter.is_control(), "?")
}

/// The number with commas between its thousands.
pub fn thousands(number: impl Display) -> String {
    let digits = number.to_string();
    let mut text = String::new();
    for (i, digit) in digits.chars().enumerate() {
        if i > 0 && (digits.len() - i) % 3 == 0 {
            text.push(',');
        }
        text.push(digit);
    }
    text
}

/// So many of a thing.
pub fn counted(number: usize, thing: &str) -> String {
    let ending = if number == 1 { "" } else { "s" };
    format!("{} {thing}{ending}", thousands(number))
}
