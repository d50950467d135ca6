//! Files and standard input.

use crate::ending::{access, content, Failure};
use crate::number::number;
use crate::show::{named, thousands};
use crate::stdio;
use std::ffi::OsStr;
use std::fs::File;
use std::io::{self, Read};
use std::os::unix::ffi::OsStrExt;

/// The most bytes that are read of a file. A message or key of so many is refused as any longer
/// one is, so nothing hangs on the rest.
pub const MOST_BYTES: usize = 1 << 24;

/// The file of an argument that names one after `@`.
pub fn at_file(argument: &OsStr) -> Option<&OsStr> {
    let file = argument.as_bytes().strip_prefix(b"@");
    file.map(OsStr::from_bytes)
}

/// The file's bytes; `-` is standard input.
pub fn bytes(file: &OsStr) -> Result<Vec<u8>, Failure> {
    read(file).map_err(|error| access(format!("cannot read {}: {error}", name(file))))
}

fn read(file: &OsStr) -> io::Result<Vec<u8>> {
    let opened = if file == "-" {
        stdio::input()
    } else {
        File::open(file)
    };
    let mut bytes = Vec::new();
    opened?.take(MOST_BYTES as u64).read_to_end(&mut bytes)?;
    Ok(bytes)
}

/// The file's text, without a byte-order mark; `-` is standard input.
fn text(file: &OsStr) -> Result<String, Failure> {
    let unfit = |why: &str| Err(content(format!("{} {why}", name(file))));
    let mut bytes = bytes(file)?;
    if bytes.len() == MOST_BYTES {
        let most = thousands(MOST_BYTES - 1);
        return unfit(&format!("is too large to read: at most {most} bytes are"));
    }
    match bytes[..] {
        [0xff, 0xfe, ..] | [0xfe, 0xff, ..] => return unfit("holds UTF-16 text; save it as UTF-8"),
        [0xef, 0xbb, 0xbf, ..] => drop(bytes.drain(..3)),
        _ => {}
    }
    String::from_utf8(bytes)
        .or_else(|_| unfit("holds no text; bytes of any kind go to 'pairing digest'"))
}

/// The numbers that the file holds, separated by white space.
pub fn numbers(file: &OsStr) -> Result<Vec<u32>, Failure> {
    row(file, char::is_whitespace, number)
}

/// The row that the file holds: its words, and what each stands for.
pub fn row(
    file: &OsStr,
    apart: fn(char) -> bool,
    word: fn(&str) -> Result<u32, String>,
) -> Result<Vec<u32>, Failure> {
    let mut row = Vec::new();
    lines(file, |line| {
        for text in words(line, apart) {
            row.push(word(text)?);
        }
        Ok(())
    })?;
    Ok(row)
}

/// Hands on the lines of the file; what is wrong with one is told with its place.
pub fn lines(
    file: &OsStr,
    mut take: impl FnMut(&str) -> Result<(), String>,
) -> Result<(), Failure> {
    for (line, place) in text(file)?.lines().zip(1..) {
        take(line).map_err(|why| {
            let name = name(file);
            content(format!("{name}, line {place}: {why}"))
        })?;
    }
    Ok(())
}

/// The words of a text, between letters that set them apart.
pub fn words(text: &str, apart: fn(char) -> bool) -> impl Iterator<Item = &str> {
    text.split(apart).filter(|word| !word.is_empty())
}

/// How messages call the file.
pub fn name(file: &OsStr) -> String {
    named(file, "standard input")
}
