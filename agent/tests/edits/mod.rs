//! What the tests of incremental digests share, and what the others do: `common`, with states of
//! sums in one module for streams and incremental digests.

// Each test file is a program of its own and uses its own part of this.
#![allow(dead_code)]

pub mod calls;
pub mod cases;
#[path = "../common/faults.rs"]
pub mod faults;
pub mod incremental;
pub mod incremental_calls;
#[path = "../common/lent.rs"]
pub mod lent;
#[path = "../common/mt19937.rs"]
pub mod mt19937;
#[path = "../common/paper.rs"]
pub mod paper;
#[path = "../common/part.rs"]
pub mod part;
#[path = "../common/random.rs"]
pub mod random;
#[path = "../common/seed.rs"]
pub mod seed;
pub mod states;
pub mod stream;
pub mod stream_calls;

/// Makes each of these functions over a type a test for one type and a test for another.
#[allow(unused_macros)]
macro_rules! of_both {
    ($one:ident: $first:ty, $other:ident: $second:ty; $($what:ident)*) => {
        mod $one {
            $(#[test] fn $what() { super::$what::<$first>(); })*
        }
        mod $other {
            $(#[test] fn $what() { super::$what::<$second>(); })*
        }
    };
}
#[allow(unused_imports)]
pub(crate) use of_both;

/// The same for functions over the parts of a message: for words and for bytes.
#[allow(unused_macros)]
macro_rules! of_both_digests {
    ($($what:ident)*) => {
        $crate::common::of_both! { words: u32, bytes: u8; $($what)* }
    };
}
#[allow(unused_imports)]
pub(crate) use of_both_digests;

/// The same for functions over the kinds of seeds: for plain ones and for arrays.
#[allow(unused_macros)]
macro_rules! of_both_seeds {
    ($($what:ident)*) => {
        $crate::common::of_both! { plain: u32, array: Vec<u32>; $($what)* }
    };
}
#[allow(unused_imports)]
pub(crate) use of_both_seeds;

/// The number that the environment sets under that name, or else the other.
pub fn from_environment(name: &str, otherwise: u64) -> u64 {
    match std::env::var(name) {
        Ok(number) => number
            .parse()
            .unwrap_or_else(|_| panic!("{name} is no number")),
        Err(_) => otherwise,
    }
}
