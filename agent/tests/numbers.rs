//! Every list of the answers' numbers is the same list: the proved library's enums, the C
//! header, `Refusal`, the README's table and `pairing explain`. One script writes them all; here each
//! is read for itself. So are the limits and the version, and the README's lines of Rust are the
//! crate's.

#![forbid(unsafe_code)]

use pairing_agent::{Refusal, MOST_CODE_BYTES, MOST_CODE_DIGITS, MOST_SEED_WORDS};
use pairing_agent::{Settings, Stream, STREAM_WORDS};
use pairing_agent::{MOST_DIGEST_WORDS, MOST_KEY_WORDS, MOST_MESSAGE_WORDS, MOST_PEERS};
use std::collections::{BTreeMap, BTreeSet};
use std::process::Command;

const RATTLE: &str = include_str!("../../crates/answers/src/lib.rt");
const HEADER: &str = include_str!("../../include/pairing.h");
const README: &str = include_str!("../../README.md");

/// The numbers that `pairing explain` is asked for: all that the table may ever hold, and more.
const ASKED: u32 = 300;

/// Numbers and names as they stand in a list, the names in capitals, as the library writes them.
type List = Vec<(u32, String)>;

fn name(text: &str) -> String {
    text.trim().to_uppercase().replace(' ', "_")
}

/// The first number, which no list calls a refusal.
fn accepted() -> (u32, String) {
    (0, "ACCEPTED".into())
}

/// `Name = 1,`, of the two enums between the marks.
fn of_rattle() -> List {
    let variant = |line: &str| {
        let (variant, number) = line.strip_suffix(',')?.split_once(" = ")?;
        let mut name = String::new();
        for letter in variant.trim().chars() {
            if letter.is_uppercase() && !name.is_empty() {
                name.push('_');
            }
            name.push(letter.to_ascii_uppercase());
        }
        Some((number.parse().unwrap(), name))
    };
    let (_, rest) = RATTLE.split_once("// begin: ").expect("a list");
    let (list, _) = rest.split_once("// end: ").expect("its end");
    list.lines()
        .filter_map(variant)
        .chain([accepted()])
        .collect()
}

/// `PAIRING_NAME = 1,`
fn of_header() -> List {
    let answer = |line: &str| {
        let (name, number) = line.trim().strip_prefix("PAIRING_")?.split_once(" = ")?;
        Some((
            number.trim_end_matches(',').parse().unwrap(),
            name.to_string(),
        ))
    };
    HEADER.lines().filter_map(answer).collect()
}

/// `| 1 | Width | ..`, in the section of the answers.
fn of_readme() -> List {
    let section = README
        .split("\n## ")
        .find(|section| section.starts_with("Answers\n"));
    let row = |line: &str| {
        let mut cells = line.strip_prefix("| ")?.split(" | ");
        Some((cells.next()?.parse().ok()?, name(cells.next()?)))
    };
    section.unwrap().lines().filter_map(row).collect()
}

fn of_refusal() -> List {
    Refusal::ALL
        .into_iter()
        .map(|refusal| (refusal.number(), name(&format!("{refusal:?}"))))
        .collect()
}

/// The first line of what it says: `1 Width`.
fn of_explain() -> List {
    let explained = |number: u32| {
        let output = Command::new(env!("CARGO_BIN_EXE_pairing"))
            .args(["explain", &number.to_string()])
            .output()
            .expect("pairing runs");
        let text = String::from_utf8(output.stdout).unwrap();
        let word = text.lines().next()?.strip_prefix(&format!("{number} "))?;
        output.status.success().then(|| (number, name(word)))
    };
    (0..ASKED).filter_map(explained).collect()
}

/// The same list by number. None stands in it twice.
fn by_number(list: &List) -> BTreeMap<u32, String> {
    let numbers: BTreeMap<u32, String> = list.iter().cloned().collect();
    assert_eq!(numbers.len(), list.len(), "{list:?}");
    numbers
}

/// The refusals of a list, in its order.
fn refusals(list: List) -> List {
    let others = ["ACCEPTED", "MATCH", "NO_MATCH"];
    let is_refusal = |(_, name): &(u32, String)| !others.contains(&name.as_str());
    list.into_iter().filter(is_refusal).collect()
}

#[test]
fn every_list_has_the_same_numbers() {
    let due = by_number(&of_rattle());
    assert_eq!(due[&1], "WIDTH");
    assert_eq!(by_number(&of_header()), due, "include/pairing.h");
    assert_eq!(by_number(&of_readme()), due, "the table in README.md");
    assert_eq!(by_number(&of_explain()), due, "pairing explain");
    let due = by_number(&refusals(of_rattle()));
    assert_eq!(by_number(&of_refusal()), due, "Refusal");
}

/// Each of these lists says that the tests run in its order.
#[test]
fn the_order_of_the_tests_is_the_same() {
    assert_eq!(refusals(of_header()), of_refusal(), "include/pairing.h");
    assert_eq!(refusals(of_readme()), of_refusal(), "README.md");
}

/// The number after this in a text.
fn number_after(text: &str, before: &str) -> usize {
    let (_, rest) = text.split_once(before).expect(before);
    let digits = rest.trim_start().replace('_', "");
    let end = digits.find(|c: char| !c.is_ascii_digit()).unwrap();
    digits[..end].parse().expect(before)
}

#[test]
fn every_limit_is_the_same() {
    let message = number_after(RATTLE, "MOST_MESSAGE: usize =");
    assert_eq!(MOST_MESSAGE_WORDS, message);
    assert_eq!(number_after(HEADER, "#define PAIRING_MOST_WORDS"), message);
    let key = number_after(RATTLE, "MOST_STRETCH: usize =");
    assert_eq!(MOST_KEY_WORDS, key);
    assert_eq!(number_after(HEADER, "#define PAIRING_MOST_KEY_WORDS"), key);
    let digest = number_after(HEADER, "#define PAIRING_MOST_DIGEST_WORDS");
    assert_eq!(MOST_DIGEST_WORDS, digest);
    assert_eq!(key, message + digest);
    let peers = number_after(HEADER, "#define PAIRING_MOST_PEERS");
    assert_eq!(MOST_PEERS, peers);
    let seed = number_after(HEADER, "#define PAIRING_MOST_SEED_WORDS");
    assert_eq!(MOST_SEED_WORDS, seed);
    let digits = number_after(HEADER, "#define PAIRING_MOST_CODE_DIGITS");
    assert_eq!(MOST_CODE_DIGITS as usize, digits);
    let bytes = number_after(HEADER, "#define PAIRING_MOST_CODE_BYTES");
    assert_eq!(MOST_CODE_BYTES, bytes);
    assert_eq!(digits.div_ceil(2), bytes);
}

/// One kind of state is not taken for another: their sizes differ. The document's tables of the
/// answers name the stream's.
#[test]
fn every_size_of_a_state_is_its_own() {
    let names = [
        "STREAM_WORDS",
        "INCREMENTAL_WORDS",
        "PARTS_WORDS",
        "EXCHANGE_BYTES",
    ];
    let sizes = names.map(|name| number_after(HEADER, &format!("#define PAIRING_{name}")));
    assert_eq!(sizes, [STREAM_WORDS, 12, 268, 2_150]);
    assert_eq!(BTreeSet::from(sizes).len(), names.len());
    let settings = Settings {
        width: 1,
        kept: 1,
        words: 1,
    };
    let stream = Stream::open(&settings, &[0]).unwrap();
    assert_eq!(stream.as_words().len(), sizes[0]);
    for refusal in [Refusal::State, Refusal::Tray] {
        let size = format!(" {} ", sizes[0]);
        assert!(refusal.given_when().contains(&size), "{refusal:?}");
    }
}

#[test]
fn the_header_has_the_crates_version() {
    let version = env!("CARGO_PKG_VERSION");
    assert!(HEADER.contains(&format!("#define PAIRING_VERSION \"{version}\"\n")));
    for (name, number) in [
        ("MAJOR", env!("CARGO_PKG_VERSION_MAJOR")),
        ("MINOR", env!("CARGO_PKG_VERSION_MINOR")),
        ("PATCH", env!("CARGO_PKG_VERSION_PATCH")),
    ] {
        let line = format!("#define PAIRING_VERSION_{name} {number}\n");
        assert!(HEADER.contains(&line), "{name}");
    }
}

/// The linked archive's own answer: one that an older `make lib` has left answers another number.
#[test]
fn the_library_has_the_crates_version() {
    let [major, minor, patch] = ["MAJOR", "MINOR", "PATCH"]
        .map(|part| number_after(HEADER, &format!("#define PAIRING_VERSION_{part}")) as u32);
    let due = major * 10_000 + minor * 100 + patch;
    assert_eq!(pairing_agent::version(), due);
    let named = format!("{major}.{minor}.{patch}");
    assert_eq!(named, env!("CARGO_PKG_VERSION"));
    let weights =
        "(PAIRING_VERSION_MAJOR * 10000u + PAIRING_VERSION_MINOR * 100u + PAIRING_VERSION_PATCH)";
    assert_eq!(HEADER.matches(weights).count(), 1);
}

/// The lines of the first fence that begins so, without the hidden ones of a documentation test.
fn fenced(text: &str, fence: &str) -> Vec<String> {
    let (_, rest) = text.split_once(&format!("{fence}\n")).expect("a fence");
    let (inside, _) = rest.split_once("```").expect("its end");
    let shown = inside.lines().filter(|line| !line.starts_with("# "));
    shown.map(str::to_string).collect()
}

/// The README's example is the crate's own, which the documentation tests run.
#[test]
fn the_rust_of_the_readme_is_the_crates() {
    let crate_page = include_str!("../src/lib.rs");
    let page: Vec<&str> = crate_page
        .lines()
        .map_while(|line| line.strip_prefix("//!"))
        .map(|line| line.strip_prefix(' ').unwrap_or(line))
        .collect();
    let shown = fenced(README, "```rust");
    assert!(shown.len() > 10);
    assert_eq!(shown, fenced(&page.join("\n"), "```"));
}
