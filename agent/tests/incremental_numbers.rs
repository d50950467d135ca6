//! The numbers of an incremental digest are the same in the header, in the documents and in the
//! package.

#![forbid(unsafe_code)]

use pairing_agent::{Incremental, Refusal, Settings, INCREMENTAL_WORDS};

const HEADER: &str = include_str!("../../include/pairing.h");

/// The number after this in a text.
fn number_after(text: &str, before: &str) -> usize {
    let (_, rest) = text.split_once(before).expect(before);
    let digits = rest.trim_start().replace('_', "");
    let end = digits.find(|c: char| !c.is_ascii_digit()).unwrap();
    digits[..end].parse().expect(before)
}

/// The size of an incremental digest's state is the header's, and the document's tables of the
/// answers name it.
#[test]
fn the_size_of_a_state_is_the_headers() {
    let size = number_after(HEADER, "#define PAIRING_INCREMENTAL_WORDS");
    assert_eq!(size, INCREMENTAL_WORDS);
    let settings = Settings {
        width: 1,
        kept: 1,
        words: 1,
    };
    let digest = Incremental::open(&settings, &[], &[0]).unwrap();
    assert_eq!(digest.as_words().len(), size);
    for refusal in [Refusal::State, Refusal::Tray] {
        let size = format!(" {size} ");
        assert!(refusal.given_when().contains(&size), "{refusal:?}");
    }
}

/// The lines of the first fence that begins so, without the hidden ones of a documentation test.
fn fenced(text: &str, fence: &str) -> Vec<String> {
    let (_, rest) = text.split_once(&format!("{fence}\n")).expect("a fence");
    let (inside, _) = rest.split_once("```").expect("its end");
    let shown = inside.lines().filter(|line| !line.starts_with("# "));
    shown.map(str::to_string).collect()
}

/// The lines of a source file's documentation, which stand after that sign.
fn documentation(source: &str, sign: &str) -> String {
    let lines = source.lines().filter_map(|line| line.strip_prefix(sign));
    let lines = lines.map(|line| line.strip_prefix(' ').unwrap_or(line));
    lines.collect::<Vec<_>>().join("\n")
}

/// The guide's example of an incremental digest is the type's.
#[test]
fn the_rust_of_the_guide_is_the_types() {
    let guide = include_str!("../../docs/GUIDE.md");
    let (_, section) = guide.split_once("An *incremental digest*").unwrap();
    let page = documentation(include_str!("../src/incremental.rs"), "///");
    let shown = fenced(section, "```rust");
    assert!(shown.len() > 5);
    assert_eq!(shown, fenced(&page, "```"));
}
