//! The command line, run as built.

#![forbid(unsafe_code)]

mod codes;
mod count;
mod digests;
mod explain;
mod files;
mod help;
mod load;
mod matches;
mod output;
mod peers;
mod refusals;
mod run;
mod seeds;
mod stretch;
mod usage;
mod whole;
mod words;
