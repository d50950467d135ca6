//! What is written: answers, files and messages.
//!
//! Files are written whole or not at all. Each text goes into a new file beside the old one, and
//! when all are whole, they are renamed. What cannot be renamed, as a pipe or a device, is written
//! before that.

use crate::ending::{access, Failure};
use crate::place::{self, Place};
use crate::show::named;
use crate::stdio;
use std::ffi::OsStr;
use std::fs::{self, File, Metadata, OpenOptions, Permissions};
use std::io::{self, ErrorKind, Write};
use std::os::unix::fs::{fchown, MetadataExt, OpenOptionsExt, PermissionsExt};
use std::path::{Path, PathBuf};

/// Writes the text to standard output. No text is written to any output, even a closed one.
pub fn print(text: &str) -> Result<(), Failure> {
    if text.is_empty() {
        return Ok(());
    }
    let printed = stdio::output().and_then(|output| write(output, text));
    printed.map_err(|error| match error.kind() {
        ErrorKind::BrokenPipe => Failure::Unread,
        _ => cannot_write(&name("-".as_ref()), &error),
    })
}

/// Writes the text into the file, to its end.
fn write(mut file: File, text: &str) -> io::Result<()> {
    file.write_all(text.as_bytes())?;
    stdio::close(file)
}

/// The same, without what the file held, if it is one that holds something.
fn write_anew(file: File, text: &str) -> io::Result<()> {
    if file.metadata()?.is_file() {
        file.set_len(0)?;
    }
    write(file, text)
}

fn cannot_write(name: &str, error: &io::Error) -> Failure {
    access(format!("cannot write {name}: {error}"))
}

/// How messages call the file; `-` is standard output.
pub fn name(file: &OsStr) -> String {
    named(file, "standard output")
}

/// Writes the text to standard error. Where that takes none, the exit status still tells.
pub fn tell(text: &str) {
    let _ = io::stderr().write_all(text.as_bytes());
}

/// Places for several texts, of which all are written or none.
pub struct Outputs(Vec<Output>);

struct Output {
    name: String,
    to: To,
}

/// What stands ready for a text.
enum To {
    StandardOutput,
    Open(File),
    File(Target),
}

impl Outputs {
    /// Opens what is written as it is, and tries whether the files can be replaced; changes nothing.
    pub fn open(files: &[&OsStr]) -> Result<Outputs, Failure> {
        let output = |file: &&OsStr| {
            let name = name(file);
            match To::open(file) {
                Ok(to) => Ok(Output { name, to }),
                Err(error) => Err(cannot_write(&name, &error)),
            }
        };
        files
            .iter()
            .map(output)
            .collect::<Result<_, _>>()
            .map(Outputs)
    }

    /// Writes a text to each place. New files come first, then what is open, then standard output:
    /// where any of them takes no more, no file has been replaced.
    pub fn write(self, texts: &[&str]) -> Result<(), Failure> {
        let (mut ready, mut open, mut printed) = (vec![], vec![], vec![]);
        for (Output { name, to }, text) in self.0.into_iter().zip(texts) {
            match to {
                To::StandardOutput => printed.push(text),
                To::Open(file) => open.push((name, file, text)),
                To::File(target) => match target.fill(text) {
                    Ok(new) => ready.push((name, target, new)),
                    Err(error) => return Err(cannot_write(&name, &error)),
                },
            }
        }
        for (name, file, text) in open {
            write_anew(file, text).map_err(|error| cannot_write(&name, &error))?;
        }
        for text in printed {
            print(text)?;
        }
        replace(&ready)
    }
}

impl To {
    fn open(file: &OsStr) -> io::Result<To> {
        let target = match place::named(file)? {
            Place::StandardOutput => return Ok(To::StandardOutput),
            Place::AsItIs(path) => {
                let file = OpenOptions::new().write(true).open(path)?;
                return Ok(To::Open(file));
            }
            Place::Old(path, old) => {
                // A file that may not be written is not replaced either.
                OpenOptions::new().write(true).open(&path)?;
                let old = Some(old);
                Target { path, old }
            }
            Place::New(path) => Target { path, old: None },
        };
        // Another is made for the text, so that none is left by a run that is ended before it.
        drop(target.beside()?);
        Ok(To::File(target))
    }
}

/// A file that is to be replaced, or made.
struct Target {
    path: PathBuf,
    /// What is known of the file that is there.
    old: Option<Metadata>,
}

impl Target {
    /// The new file with its text.
    fn fill(&self, text: &str) -> io::Result<Beside> {
        let (beside, mut file) = self.beside()?;
        if let Some(old) = &self.old {
            keep_permissions(&file, old)?;
        }
        file.write_all(text.as_bytes())?;
        // The text is on the disk before the new file has the old one's name.
        file.sync_all()?;
        stdio::close(file)?;
        Ok(beside)
    }

    /// A new file beside this one. Nobody but its owner reads it before it has its permissions.
    fn beside(&self) -> io::Result<(Beside, File)> {
        let mut options = OpenOptions::new();
        options.write(true).create_new(true);
        if self.old.is_some() {
            options.mode(0o600);
        }
        let made = Beside::make(&self.path, |path| options.open(path));
        made.map_err(|error| match self.old {
            Some(_) => {
                let why = format!("no new file can be made beside the old one: {error}");
                io::Error::new(error.kind(), why)
            }
            None => error,
        })
    }

    /// The old file under another name, to come back to. None where its file system has no links.
    fn way_back(&self) -> Way {
        match self.old {
            None => Way::Remove,
            Some(_) => match Beside::make(&self.path, |path| fs::hard_link(&self.path, path)) {
                Ok((beside, ())) => Way::Rename(beside),
                Err(_) => Way::None,
            },
        }
    }
}

/// How a file that was replaced comes to hold again what it held.
enum Way {
    Remove,
    Rename(Beside),
    None,
}

impl Way {
    /// Whether the file holds what it held.
    fn back(self, path: &Path) -> bool {
        match self {
            Way::Remove => fs::remove_file(path).is_ok(),
            Way::Rename(old) => fs::rename(&old.0, path).is_ok(),
            Way::None => false,
        }
    }
}

/// Renames the new files over the old ones. Where one cannot be, those before it go back; of one
/// that does not, the message says so.
fn replace(ready: &[(String, Target, Beside)]) -> Result<(), Failure> {
    let mut ways = vec![];
    for (place, (name, target, new)) in ready.iter().enumerate() {
        // After the last nothing can fail.
        let way = match place + 1 == ready.len() {
            true => Way::None,
            false => target.way_back(),
        };
        if let Err(error) = fs::rename(&new.0, &target.path) {
            let mut message = format!("cannot write {name}: {error}");
            for ((name, target, _), way) in ready.iter().zip(ways) {
                if !Way::back(way, &target.path) {
                    message += &format!("; {name} is already new");
                }
            }
            return Err(access(message));
        }
        ways.push(way);
    }
    Ok(())
}

/// A file of this run's own, in the folder of another. It is removed in the end; what has been
/// renamed has that name no more.
struct Beside(PathBuf);

impl Beside {
    /// Makes it under a name that no file has.
    fn make<T>(path: &Path, make: impl Fn(&Path) -> io::Result<T>) -> io::Result<(Beside, T)> {
        let (folder, _) = place::split(path);
        let run = std::process::id();
        let mut number = 0;
        loop {
            let beside = folder.join(format!(".pairing-{run}-{number}"));
            match make(&beside) {
                Ok(made) => return Ok((Beside(beside), made)),
                Err(error) if error.kind() == ErrorKind::AlreadyExists && number < 1_000 => {
                    number += 1;
                }
                Err(error) => return Err(error),
            }
        }
    }
}

impl Drop for Beside {
    fn drop(&mut self) {
        let _ = fs::remove_file(&self.0);
    }
}

/// Gives the new file the permissions of the old one, its group, and its owner where that is
/// allowed. A group that cannot be kept leaves to another no more than everybody has.
fn keep_permissions(new: &File, old: &Metadata) -> io::Result<()> {
    let mut mode = old.mode() & 0o777;
    let made = new.metadata()?;
    if made.gid() != old.gid() && fchown(new, None, Some(old.gid())).is_err() {
        mode &= 0o707 | (mode & 0o007) << 3;
    }
    if made.uid() != old.uid() {
        let _ = fchown(new, Some(old.uid()), None);
    }
    new.set_permissions(Permissions::from_mode(mode))
}

#[cfg(test)]
mod tests {
    use super::{replace, Beside, Target};
    use std::fs;
    use std::path::{Path, PathBuf};

    /// A folder of the test's own.
    fn folder(name: &str) -> PathBuf {
        let path = std::env::temp_dir().join(format!("pairing-{name}-{}", std::process::id()));
        fs::create_dir(&path).unwrap();
        path
    }

    /// A file with a text ready for it.
    fn ready(path: &Path) -> (String, Target, Beside) {
        let target = Target {
            path: path.into(),
            old: fs::metadata(path).ok(),
        };
        let new = target.fill("after\n").unwrap();
        (path.display().to_string(), target, new)
    }

    /// No run of the program can make only the second rename fail.
    #[test]
    fn a_rename_that_fails_takes_the_one_before_it_back() {
        let folder = folder("way-back");
        let [old, new, taken] = ["old", "new", "taken"].map(|name| folder.join(name));
        fs::write(&old, "before\n").unwrap();
        for first in [&old, &new] {
            let both = [ready(first), ready(&taken)];
            fs::create_dir(&taken).unwrap();
            let message = replace(&both).err().unwrap().message();
            let why = format!("pairing: cannot write {}: ", taken.display());
            assert!(message.starts_with(&why), "{message}");
            assert!(!message.contains("already new"), "{message}");
            fs::remove_dir(&taken).unwrap();
        }
        assert_eq!(fs::read_to_string(&old).unwrap(), "before\n");
        // Nothing else is left.
        assert_eq!(fs::read_dir(&folder).unwrap().count(), 1);
        fs::remove_dir_all(&folder).unwrap();
    }
}
