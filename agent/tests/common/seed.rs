//! The two kinds of seeds: plain ones and arrays.

use super::mt19937::Generator;
use pairing_agent::{ffi, Refusal};
use std::fmt::Debug;

/// A stretch as a number, from a seed's words.
pub type StretchNumber = fn(u32, &[u32], &mut [u32]) -> u32;

/// A stretch as a result.
pub type SafeStretch = fn(u32, &[u32], &mut [u32]) -> Result<(), Refusal>;

/// A load as a number, from a seed's words.
pub type LoadNumber = fn(u32, &[u32], &mut [u32], &mut [u32]) -> u32;

/// A load as a result.
pub type SafeLoad = fn(u32, &[u32], &mut [u32], &mut [u32]) -> Result<(), Refusal>;

/// A seed, and what is its own about the calls that take it.
pub trait Seed: Clone + Debug {
    /// The entries' names, and each in two ways.
    const STRETCH: &'static str;
    const STRETCH_NUMBER: StretchNumber;
    const STRETCH_RESULT: SafeStretch;
    const LOAD: &'static str;
    const LOAD_NUMBER: LoadNumber;
    const LOAD_RESULT: SafeLoad;

    /// Its words, to be lent. A plain seed is handed on as the first.
    fn words(&self) -> &[u32];

    /// Whether it has a number of words that is taken.
    fn is_fit(&self) -> bool;

    /// The independent generator, made new from it.
    fn generator(&self) -> Generator;
}

impl Seed for u32 {
    const STRETCH: &'static str = "stretch";
    const STRETCH_NUMBER: StretchNumber = |w, seed, out| ffi::stretch(w, seed[0], out);
    const STRETCH_RESULT: SafeStretch = |w, seed, out| pairing_agent::stretch(w, seed[0], out);
    const LOAD: &'static str = "load";
    const LOAD_NUMBER: LoadNumber = |w, seed, key, message| ffi::load(w, seed[0], key, message);
    const LOAD_RESULT: SafeLoad =
        |w, seed, key, message| pairing_agent::load(w, seed[0], key, message);

    fn words(&self) -> &[u32] {
        std::slice::from_ref(self)
    }

    fn is_fit(&self) -> bool {
        true
    }

    fn generator(&self) -> Generator {
        Generator::new(*self)
    }
}

impl Seed for Vec<u32> {
    const STRETCH: &'static str = "stretch_array";
    const STRETCH_NUMBER: StretchNumber = ffi::stretch_array;
    const STRETCH_RESULT: SafeStretch = pairing_agent::stretch_array;
    const LOAD: &'static str = "load_array";
    const LOAD_NUMBER: LoadNumber = ffi::load_array;
    const LOAD_RESULT: SafeLoad = pairing_agent::load_array;

    fn words(&self) -> &[u32] {
        self
    }

    fn is_fit(&self) -> bool {
        (1..=8).contains(&self.len())
    }

    fn generator(&self) -> Generator {
        Generator::by_array(self)
    }
}
