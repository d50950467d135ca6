//! What the name of an output stands for, and whether two names stand for one file.

use crate::stdio;
use std::ffi::{OsStr, OsString};
use std::fs::{self, Metadata};
use std::io;
use std::os::unix::ffi::OsStrExt;
use std::os::unix::fs::{FileTypeExt, MetadataExt};
use std::path::{Path, PathBuf};

/// Where a text goes.
pub enum Place {
    StandardOutput,
    /// What can only be written as it stands: a device, a pipe, or a file that has no name.
    AsItIs(PathBuf),
    /// A file that a new one replaces.
    Old(PathBuf, Metadata),
    /// A file that is not there yet.
    New(PathBuf),
}

/// The place that the name stands for: `-` is standard output, and so is whatever else leads to the
/// same file. Of a symbolic link it is the place at its end.
pub fn named(name: &OsStr) -> io::Result<Place> {
    if name == "-" || same(name, "-".as_ref()) {
        return Ok(Place::StandardOutput);
    }
    match fs::metadata(name) {
        Ok(found) if found.is_file() => Ok(old(name, found)),
        Ok(_) => Ok(Place::AsItIs(name.into())),
        Err(error) if error.kind() == io::ErrorKind::NotFound => {
            new_file(name, error).map(|(path, _)| Place::New(path))
        }
        Err(error) => Err(error),
    }
}

/// A file that is there, at the end of its links; without a name where they lead elsewhere.
fn old(name: &OsStr, found: Metadata) -> Place {
    let path = fs::canonicalize(name);
    let led = |path: &PathBuf| fs::metadata(path).is_ok_and(|file| of(&file) == of(&found));
    match path.ok().filter(led) {
        Some(path) => Place::Old(path, found),
        None => Place::AsItIs(name.into()),
    }
}

/// Whether both names stand for one file. Under two names the null device is two: it keeps nothing
/// that could be lost.
pub fn same(first: &OsStr, second: &OsStr) -> bool {
    let (one, other) = (identity(first), identity(second));
    let null = fs::metadata("/dev/null").map(|null| of(&null));
    match (one, other) {
        _ if first == second => true,
        (Ok(one), Ok(other)) => one == other && !null.is_ok_and(|null| one == null),
        _ => false,
    }
}

/// What tells files apart, whatever their names.
#[derive(PartialEq)]
enum Identity {
    Device(u64),
    File(u64, u64),
    /// A file that is not there yet: its folder, and its name in it.
    New(Box<Identity>, OsString),
}

fn identity(name: &OsStr) -> io::Result<Identity> {
    if name == "-" {
        return stdio::output()?.metadata().map(|file| of(&file));
    }
    match fs::metadata(name) {
        Err(error) if error.kind() == io::ErrorKind::NotFound => {
            new_file(name, error).map(|(_, identity)| identity)
        }
        found => found.map(|file| of(&file)),
    }
}

fn of(file: &Metadata) -> Identity {
    let kind = file.file_type();
    match kind.is_char_device() || kind.is_block_device() {
        true => Identity::Device(file.rdev()),
        false => Identity::File(file.dev(), file.ino()),
    }
}

/// The path that a file gets which is made at this one: symbolic links to nothing are followed.
fn end_of_links(mut path: PathBuf) -> io::Result<PathBuf> {
    // As many as Linux follows.
    for _ in 0..40 {
        match fs::read_link(&path) {
            Ok(next) => path = split(&path).0.join(next),
            Err(_) => return Ok(path),
        }
    }
    Err(io::Error::new(
        io::ErrorKind::Other,
        "too many symbolic links",
    ))
}

/// The path of a file that is missing and can be made, and what will tell it apart.
fn new_file(name: &OsStr, missing: io::Error) -> io::Result<(PathBuf, Identity)> {
    let path = end_of_links(name.into())?;
    let (folder, last) = split(&path);
    let folder = of(&fs::metadata(folder)?);
    match last.as_bytes() {
        b"" | b"." | b".." => Err(missing),
        _ => {
            let identity = Identity::New(Box::new(folder), last.into());
            Ok((path, identity))
        }
    }
}

/// The folder and the name in it. `Path` has both as well, but takes `new/` and `new/.` for `new`.
pub fn split(path: &Path) -> (&Path, &OsStr) {
    let bytes = path.as_os_str().as_bytes();
    let cut = bytes.iter().rposition(|byte| *byte == b'/');
    let (folder, name) = bytes.split_at(cut.map_or(0, |slash| slash + 1));
    let folder = match folder {
        b"" => b".",
        folder => folder,
    };
    (
        Path::new(OsStr::from_bytes(folder)),
        OsStr::from_bytes(name),
    )
}
