//! Standard input and output as files, and a close that tells of its failure.
//!
//! Rust's runtime opens /dev/null in the place of a standard descriptor that is closed, before
//! `main`: output would be lost without a word, and a message from standard input would be empty.
//! So this looks at the two descriptors before the runtime does. Its own streams also take a
//! descriptor that cannot be written for one that took everything; a file does not.
//!
//! This is the program's one file with `unsafe`: the standard library has no call that closes a
//! file and tells of a failure, and none that runs before its runtime.

use std::ffi::c_int;
use std::fs::File;
use std::io::{self, ErrorKind};
use std::os::fd::{AsFd, BorrowedFd, IntoRawFd};
use std::sync::atomic::{AtomicBool, Ordering};

/// Whether standard input, and standard output, were closed at the start.
static CLOSED: [AtomicBool; 2] = [AtomicBool::new(false), AtomicBool::new(false)];

#[cfg(target_os = "linux")]
mod start {
    use super::{c_int, Ordering, CLOSED};

    /// The command of `fcntl` that reads a descriptor's flags, and changes nothing.
    const F_GETFD: c_int = 1;

    extern "C" {
        fn fcntl(descriptor: c_int, command: c_int, ...) -> c_int;
    }

    /// Functions in this section run before the runtime and `main`.
    #[used]
    #[link_section = ".init_array"]
    static LOOK: extern "C" fn() = look;

    extern "C" fn look() {
        for (descriptor, closed) in (0..).zip(&CLOSED) {
            // SAFETY: `fcntl` is C's own, with its type; this command takes any number and no
            // further argument, touches no memory, and fails where the descriptor is closed.
            let flags = unsafe { fcntl(descriptor, F_GETFD) };
            closed.store(flags < 0, Ordering::Relaxed);
        }
    }
}

pub fn input() -> io::Result<File> {
    file(io::stdin().as_fd(), &CLOSED[0])
}

pub fn output() -> io::Result<File> {
    file(io::stdout().as_fd(), &CLOSED[1])
}

fn file(descriptor: BorrowedFd, closed: &AtomicBool) -> io::Result<File> {
    if closed.load(Ordering::Relaxed) {
        return Err(io::Error::new(ErrorKind::Other, "it is closed"));
    }
    Ok(File::from(descriptor.try_clone_to_owned()?))
}

/// Closes the file. Some file systems tell only now that they had no room for it.
pub fn close(file: File) -> io::Result<()> {
    extern "C" {
        fn close(descriptor: c_int) -> c_int;
    }
    // SAFETY: `close` is C's own, with its type, and the file has given its descriptor up, so it
    // is closed once and nothing uses it afterwards.
    match unsafe { close(file.into_raw_fd()) } {
        0 => Ok(()),
        _ => Err(io::Error::last_os_error()),
    }
}
