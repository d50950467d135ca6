//! The proved library's C entries, as safe functions that answer its numbers.
//!
//! This is the crate's one file with `unsafe`. The library's premises are that pointers and lengths are
//! true and that an output overlaps no other row. Every pointer and length here comes from one
//! slice, and the borrow checker keeps a `&mut` row apart from the others.

use crate::Settings;

/// The entries. A slice is declared as two parameters, its pointer and its length: a Rust slice
/// has no promised form in a C signature.
mod entry {
    extern "C" {
        pub fn pairing_digest_words(
            w: u32,
            b: u32,
            n: u32,
            message: *const u32,
            message_words: usize,
            key: *const u32,
            key_words: usize,
            out: *mut u32,
            out_words: usize,
        ) -> u32;

        pub fn pairing_digest_bytes(
            w: u32,
            b: u32,
            n: u32,
            message: *const u8,
            message_bytes: usize,
            key: *const u32,
            key_words: usize,
            out: *mut u32,
            out_words: usize,
        ) -> u32;

        pub fn pairing_digest_code(
            w: u32,
            d: u32,
            message: *const u32,
            message_words: usize,
            key: *const u32,
            key_words: usize,
            out: *mut u8,
            out_bytes: usize,
        ) -> u32;

        pub fn pairing_digest_peers(
            w: u32,
            b: u32,
            n: u32,
            p: u32,
            message: *const u32,
            message_words: usize,
            keys: *const u32,
            keys_words: usize,
            out: *mut u32,
            out_words: usize,
        ) -> u32;

        pub fn pairing_stream_open(
            w: u32,
            b: u32,
            n: u32,
            key: *const u32,
            key_words: usize,
            state: *mut u32,
            state_words: usize,
        ) -> u32;

        pub fn pairing_stream_push(
            state: *mut u32,
            state_words: usize,
            message: *const u32,
            message_words: usize,
            key: *const u32,
            key_words: usize,
        ) -> u32;

        pub fn pairing_stream_read(
            state: *const u32,
            state_words: usize,
            out: *mut u32,
            out_words: usize,
        ) -> u32;

        pub fn pairing_incremental_open(
            w: u32,
            b: u32,
            n: u32,
            message: *const u32,
            message_words: usize,
            key: *const u32,
            key_words: usize,
            state: *mut u32,
            state_words: usize,
        ) -> u32;

        pub fn pairing_incremental_edit(
            state: *mut u32,
            state_words: usize,
            message: *mut u32,
            message_words: usize,
            key: *const u32,
            key_words: usize,
            place: usize,
            word: u32,
        ) -> u32;

        pub fn pairing_incremental_read(
            state: *const u32,
            state_words: usize,
            out: *mut u32,
            out_words: usize,
        ) -> u32;

        pub fn pairing_stretch(w: u32, seed: u32, out: *mut u32, out_words: usize) -> u32;

        pub fn pairing_stretch_array(
            w: u32,
            seed: *const u32,
            seed_words: usize,
            out: *mut u32,
            out_words: usize,
        ) -> u32;

        pub fn pairing_load(
            w: u32,
            seed: u32,
            key: *mut u32,
            key_words: usize,
            message: *mut u32,
            message_words: usize,
        ) -> u32;

        pub fn pairing_load_array(
            w: u32,
            seed: *const u32,
            seed_words: usize,
            key: *mut u32,
            key_words: usize,
            message: *mut u32,
            message_words: usize,
        ) -> u32;

        pub fn pairing_match(
            n: u32,
            first: *const u32,
            first_words: usize,
            second: *const u32,
            second_words: usize,
        ) -> u32;

        pub fn pairing_version() -> u32;
    }
}

/// An entry that digests a message of words or of bytes, into a digest or into a state.
type Digest<P> = unsafe extern "C" fn(
    w: u32,
    b: u32,
    n: u32,
    message: *const P,
    message_places: usize,
    key: *const u32,
    key_words: usize,
    out: *mut u32,
    out_words: usize,
) -> u32;

/// The number that such an entry answers.
///
/// # Safety
///
/// `entry` asks for nothing but the library's premises: each pointer and length is one row's, and
/// the output overlaps no other.
unsafe fn digest<P>(
    entry: Digest<P>,
    settings: Settings,
    message: &[P],
    key: &[u32],
    out: &mut [u32],
) -> u32 {
    // SAFETY: each pointer and length is one slice's; `out` is borrowed apart from the others.
    unsafe {
        entry(
            settings.width,
            settings.kept,
            settings.words,
            message.as_ptr(),
            message.len(),
            key.as_ptr(),
            key.len(),
            out.as_mut_ptr(),
            out.len(),
        )
    }
}

/// The number that `pairing_digest_words` answers: 0 with the digest in `out`, or a refusal's.
#[must_use]
pub fn digest_words(settings: Settings, message: &[u32], key: &[u32], out: &mut [u32]) -> u32 {
    // SAFETY: it is the library's entry, which asks for nothing but its premises.
    unsafe { digest(entry::pairing_digest_words, settings, message, key, out) }
}

/// The number that `pairing_digest_bytes` answers: 0 with the digest in `out`, or a refusal's.
#[must_use]
pub fn digest_bytes(settings: Settings, message: &[u8], key: &[u32], out: &mut [u32]) -> u32 {
    // SAFETY: it is the library's entry, which asks for nothing but its premises.
    unsafe { digest(entry::pairing_digest_bytes, settings, message, key, out) }
}

/// The number that `pairing_digest_code` answers: 0 with the code in `out`, or a refusal's.
#[must_use]
pub fn digest_code(width: u32, digits: u32, message: &[u32], key: &[u32], out: &mut [u8]) -> u32 {
    // SAFETY: each pointer and length is one slice's; `out` is borrowed apart from the others.
    unsafe {
        entry::pairing_digest_code(
            width,
            digits,
            message.as_ptr(),
            message.len(),
            key.as_ptr(),
            key.len(),
            out.as_mut_ptr(),
            out.len(),
        )
    }
}

/// The number that `pairing_digest_peers` answers: 0 with the digests in `out`, or a refusal's.
#[must_use]
pub fn digest_peers(
    settings: Settings,
    peers: u32,
    message: &[u32],
    keys: &[u32],
    out: &mut [u32],
) -> u32 {
    // SAFETY: each pointer and length is one slice's; `out` is borrowed apart from the others.
    unsafe {
        entry::pairing_digest_peers(
            settings.width,
            settings.kept,
            settings.words,
            peers,
            message.as_ptr(),
            message.len(),
            keys.as_ptr(),
            keys.len(),
            out.as_mut_ptr(),
            out.len(),
        )
    }
}

/// The number that `pairing_stream_open` answers: 0 with the opened state in `state`, or a refusal's.
#[must_use]
pub fn stream_open(settings: Settings, key: &[u32], state: &mut [u32]) -> u32 {
    // SAFETY: each pointer and length is one slice's; `state` is borrowed apart from the key.
    unsafe {
        entry::pairing_stream_open(
            settings.width,
            settings.kept,
            settings.words,
            key.as_ptr(),
            key.len(),
            state.as_mut_ptr(),
            state.len(),
        )
    }
}

/// The number that `pairing_stream_push` answers: 0 with the state after the push in `state`, or a
/// refusal's.
#[must_use]
pub fn stream_push(state: &mut [u32], message: &[u32], key: &[u32]) -> u32 {
    // SAFETY: each pointer and length is one slice's; `state` is borrowed apart from the others.
    unsafe {
        entry::pairing_stream_push(
            state.as_mut_ptr(),
            state.len(),
            message.as_ptr(),
            message.len(),
            key.as_ptr(),
            key.len(),
        )
    }
}

/// The number that `pairing_stream_read` answers: 0 with the digest in `out`, or a refusal's.
#[must_use]
pub fn stream_read(state: &[u32], out: &mut [u32]) -> u32 {
    // SAFETY: each pointer and length is one slice's; `out` is borrowed apart from the state.
    unsafe { entry::pairing_stream_read(state.as_ptr(), state.len(), out.as_mut_ptr(), out.len()) }
}

/// The number that `pairing_incremental_open` answers: 0 with the opened state in `state`, or a
/// refusal's.
#[must_use]
pub fn incremental_open(
    settings: Settings,
    message: &[u32],
    key: &[u32],
    state: &mut [u32],
) -> u32 {
    // SAFETY: it is the library's entry, which asks for nothing but its premises.
    unsafe {
        digest(
            entry::pairing_incremental_open,
            settings,
            message,
            key,
            state,
        )
    }
}

/// The number that `pairing_incremental_edit` answers: 0 with the word in `message` and the state of
/// that message in `state`, or a refusal's.
#[must_use]
pub fn incremental_edit(
    state: &mut [u32],
    message: &mut [u32],
    key: &[u32],
    place: usize,
    word: u32,
) -> u32 {
    // SAFETY: each pointer and length is one slice's; `state` and `message` are borrowed apart from
    // each other and from the key.
    unsafe {
        entry::pairing_incremental_edit(
            state.as_mut_ptr(),
            state.len(),
            message.as_mut_ptr(),
            message.len(),
            key.as_ptr(),
            key.len(),
            place,
            word,
        )
    }
}

/// The number that `pairing_incremental_read` answers: 0 with the digest in `out`, or a refusal's.
#[must_use]
pub fn incremental_read(state: &[u32], out: &mut [u32]) -> u32 {
    // SAFETY: each pointer and length is one slice's; `out` is borrowed apart from the state.
    unsafe {
        entry::pairing_incremental_read(state.as_ptr(), state.len(), out.as_mut_ptr(), out.len())
    }
}

/// The number that `pairing_stretch` answers: 0 with the whole of `out` filled, or a refusal's.
#[must_use]
pub fn stretch(width: u32, seed: u32, out: &mut [u32]) -> u32 {
    // SAFETY: the pointer and the length are one slice's.
    unsafe { entry::pairing_stretch(width, seed, out.as_mut_ptr(), out.len()) }
}

/// The number that `pairing_stretch_array` answers: 0 with the whole of `out` filled, or a
/// refusal's.
#[must_use]
pub fn stretch_array(width: u32, seed: &[u32], out: &mut [u32]) -> u32 {
    // SAFETY: each pointer and length is one slice's; `out` is borrowed apart from the seed.
    unsafe {
        entry::pairing_stretch_array(
            width,
            seed.as_ptr(),
            seed.len(),
            out.as_mut_ptr(),
            out.len(),
        )
    }
}

/// The number that `pairing_load` answers: 0 with the whole of both rows filled, or a refusal's.
#[must_use]
pub fn load(width: u32, seed: u32, key: &mut [u32], message: &mut [u32]) -> u32 {
    // SAFETY: each pointer and length is one slice's; both rows are borrowed apart.
    unsafe {
        entry::pairing_load(
            width,
            seed,
            key.as_mut_ptr(),
            key.len(),
            message.as_mut_ptr(),
            message.len(),
        )
    }
}

/// The number that `pairing_load_array` answers: 0 with the whole of both rows filled, or a
/// refusal's.
#[must_use]
pub fn load_array(width: u32, seed: &[u32], key: &mut [u32], message: &mut [u32]) -> u32 {
    // SAFETY: each pointer and length is one slice's; both rows are borrowed apart, and from the
    // seed.
    unsafe {
        entry::pairing_load_array(
            width,
            seed.as_ptr(),
            seed.len(),
            key.as_mut_ptr(),
            key.len(),
            message.as_mut_ptr(),
            message.len(),
        )
    }
}

/// The number that `pairing_match` answers: 100 for yes, 101 for no, or a refusal's.
#[must_use]
pub fn digests_match(words: u32, first: &[u32], second: &[u32]) -> u32 {
    // SAFETY: each pointer and length is one slice's, and nothing is written.
    unsafe {
        entry::pairing_match(
            words,
            first.as_ptr(),
            first.len(),
            second.as_ptr(),
            second.len(),
        )
    }
}

/// The number that `pairing_version` answers.
#[must_use]
pub fn version() -> u32 {
    // SAFETY: it takes nothing and touches nothing.
    unsafe { entry::pairing_version() }
}
