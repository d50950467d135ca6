//! The parts of a message: words or bytes.

use super::calls::Digest;
use super::lent::Place;
use super::paper::{self, Outcome};
use pairing_agent::{ffi, Refusal, Settings};
use std::fmt::Debug;

/// A digest as a number.
pub type Number<P> = fn(Settings, &[P], &[u32], &mut [u32]) -> u32;

/// A digest as a result.
pub type Safe<P> = fn(Settings, &[P], &[u32], &mut [u32]) -> Result<(), Refusal>;

/// What a digest must answer and leave.
pub type Due<P> = fn(Settings, &[P], &[u32], &[u32]) -> Outcome;

/// What a message is made of, and what is its own about the digest of such messages.
pub trait Part: Place + Debug {
    /// The entry's name, and its digest in three ways.
    const ENTRY: &'static str;
    const NUMBER: Number<Self>;
    const RESULT: Safe<Self>;
    const DUE: Due<Self>;

    /// The widths at which such messages are digested.
    fn widths() -> Vec<u32>;

    /// How many bits a part has, where a word has `width`.
    fn bits(width: u32) -> u32;

    /// The part that these low bits are.
    fn of_bits(bits: u32) -> Self;

    /// How many words that many parts make.
    fn words_made(width: u32, parts: usize) -> usize;

    /// The rows of a call in which a word can be too large.
    fn rows_of_words(call: &mut Digest<Self>) -> Vec<&mut Vec<u32>>;

    /// How many parts fill a word.
    fn parts_in_a_word(width: u32) -> usize {
        (width / Self::bits(width)) as usize
    }

    /// The part whose bits are all set.
    fn largest(width: u32) -> Self {
        Self::of_bits(u32::MAX >> (32 - Self::bits(width)))
    }

    /// The most parts of a message: one more would make too many words.
    fn most(width: u32) -> usize {
        let fits = |parts: &usize| Self::words_made(width, *parts) <= paper::MOST_WORDS;
        let longest = paper::MOST_WORDS * Self::parts_in_a_word(width);
        (0..=longest).rev().find(fits).unwrap()
    }
}

impl Part for u32 {
    const ENTRY: &'static str = "digest_words";
    const NUMBER: Number<u32> = ffi::digest_words;
    const RESULT: Safe<u32> = pairing_agent::digest_words;
    const DUE: Due<u32> = paper::digest_words;

    fn widths() -> Vec<u32> {
        (1..=32).collect()
    }

    fn bits(width: u32) -> u32 {
        width
    }

    fn of_bits(bits: u32) -> u32 {
        bits
    }

    fn words_made(_: u32, parts: usize) -> usize {
        parts
    }

    fn rows_of_words(call: &mut Digest<u32>) -> Vec<&mut Vec<u32>> {
        vec![&mut call.message, &mut call.key]
    }
}

impl Part for u8 {
    const ENTRY: &'static str = "digest_bytes";
    const NUMBER: Number<u8> = ffi::digest_bytes;
    const RESULT: Safe<u8> = pairing_agent::digest_bytes;
    const DUE: Due<u8> = paper::digest_bytes;

    fn widths() -> Vec<u32> {
        paper::WIDTHS_OF_BYTES.to_vec()
    }

    fn bits(_: u32) -> u32 {
        8
    }

    fn of_bits(bits: u32) -> u8 {
        bits as u8
    }

    fn words_made(width: u32, parts: usize) -> usize {
        paper::words_made(width, parts)
    }

    /// Every byte makes a fit word.
    fn rows_of_words(call: &mut Digest<u8>) -> Vec<&mut Vec<u32>> {
        vec![&mut call.key]
    }
}
