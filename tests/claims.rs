//! Every path and every name in code marks that docs/CLAIMS.md gives exists, each name in the place given beside it,
//! and every must-fail edit is named there. Every path that the documents beside it give exists. Run from the repository's
//! root.

use std::collections::{BTreeMap, BTreeSet};
use std::fs;
use Token::{Name, Path, Word};

/// A word that starts so is a path. What is built, below target/ and out/, is not looked for.
const FOLDERS: [&str; 7] = [
    "crates/", "agent/", "tests/", "include/", "docs/", "tools/", "bench/",
];

/// Code marks that name nothing of the repository, and what they name.
const OUTSIDE: [(&str, &str); 6] = [
    ("requires", "the language's word for a premise"),
    ("ensures", "the language's word for a promise"),
    ("&[u32]", "a type of the language"),
    ("&[u8]", "a type of the language"),
    ("rt ci", "a command of the toolchain"),
    ("std::mt19937", "C++'s own generator"),
];

/// The documents of which the paths alone are looked for.
const OTHERS: [&str; 4] = [
    "README.md",
    "docs/GUIDE.md",
    "docs/DECISIONS.md",
    "docs/SPEED.md",
];

/// The file that lists the commands of the command line.
const COMMANDS: &str = "agent/src/bin/pairing/main.rs";

/// Each file by its path from the root, with the names that it declares.
#[derive(Default)]
struct Tree(BTreeMap<String, BTreeSet<String>>);

impl Tree {
    fn read(&mut self, folder: &std::path::Path) {
        for entry in fs::read_dir(folder).unwrap() {
            let path = entry.unwrap().path();
            let name = path.strip_prefix(".").unwrap().to_string_lossy();
            let made = path.ends_with("target") || path.ends_with("out");
            if path.is_file() {
                self.add(&name, &String::from_utf8_lossy(&fs::read(&path).unwrap()));
            } else if !made && !name.starts_with('.') {
                self.read(&path);
            }
        }
    }

    fn add(&mut self, path: &str, text: &str) {
        let names = self.0.entry(path.to_string()).or_default();
        names.extend(text.lines().flat_map(|line| declared(path, line)));
    }

    /// The file itself, or the files below a folder; below "" all of them.
    fn below(&self, place: &str) -> Vec<(&String, &BTreeSet<String>)> {
        let start = format!("{}/", place.trim_end_matches('/'));
        let within = |path: &str| place.is_empty() || format!("{path}/").starts_with(&start);
        self.0.iter().filter(|(path, _)| within(path)).collect()
    }

    /// `name`, `start*`, or `of::name`, where `of` is declared in the same file or is its module or crate.
    fn declares(&self, place: &str, name: &str) -> bool {
        let (of, last) = name.rsplit_once("::").unwrap_or(("", name));
        self.below(place).iter().any(|(path, names)| {
            let found = match last.strip_suffix('*') {
                Some(start) => names.iter().any(|name| name.starts_with(start)),
                None => names.contains(last),
            };
            let owner = |of| names.contains(of) || path.split(['/', '.']).any(|part| part == of);
            found && (of.is_empty() || of.split("::").all(owner))
        })
    }

    /// A name declared anywhere, one from outside, or a part of a path, as `specs/` and `Words.antt`.
    fn knows(&self, name: &str) -> bool {
        let part = format!("/{}/", name.trim_end_matches('/'));
        let in_path = |path: &String| format!("/{path}/").contains(&part);
        self.declares("", name)
            || OUTSIDE.iter().any(|(word, _)| *word == name)
            || name.contains(['/', '.']) && self.0.keys().any(in_path)
    }

    /// Declared in the place, or proved there, in the folder of its own name. Commands and other names that no file
    /// declares fit anywhere, and so does any name where no names are read.
    fn fits(&self, name: &str, place: &str) -> bool {
        self.declares(place, name)
            || place.ends_with(&format!("/{name}"))
            || name.contains(' ')
            || !self.declares("", name)
            || self.below(place).iter().all(|(_, names)| names.is_empty())
    }
}

/// The name that a line of a file declares, after `pub` and the like. An edit has its file's name; what can be made is
/// `make NAME`, and a command of the command line `pairing NAME`.
fn declared(path: &str, line: &str) -> Option<String> {
    let skipped = "pub pub(crate) extern \"C\" abbrev unfoldable";
    let mut words =
        (line.split_whitespace()).skip_while(|word| skipped.split(' ').any(|w| w == *word));
    let (first, second) = (words.next()?, words.next().unwrap_or(""));
    let name = match (path.rsplit(['/', '.']).next()?, first, second) {
        // the names in this file are not the repository's
        _ if path == "tests/claims.rs" => return None,
        ("Makefile", ..) => return Some(format!("make {}", line.split_once(':')?.0)),
        ("rs", "name:", _) if path == COMMANDS => return Some(command(second)),
        ("antt", "record", _) => second,
        ("rs", "const", "fn") => words.next()?,
        ("rt" | "rs", "fn" | "const" | "struct" | "enum" | "trait" | "type" | "mod", _) => second,
        ("h", "uint32_t" | "#define", _) => second,
        ("antt", _, ":") | ("h", _, "=") => first,
        ("txt", ..) if path == "crates.txt" => first,
        ("edit", ..) => path.rsplit(['/', '.']).nth(1)?,
        _ => return None,
    };
    Some(name.split(['(', '<', ':', ';']).next()?.to_string())
}

/// The command whose name is quoted so.
fn command(quoted: &str) -> String {
    format!("pairing {}", quoted.trim_matches(['"', ',']))
}

/// A name in code marks, a path in them or not, and any other word or sign.
enum Token<'a> {
    Name(&'a str),
    Path(&'a str),
    Word(&'a str),
}

/// The tokens of a text, each with its line.
fn tokens(text: &str) -> Vec<(usize, Token<'_>)> {
    let apart = |c: char| !c.is_ascii_alphanumeric() && !"_-./".contains(c);
    let (mut tokens, mut line, mut rest) = (Vec::new(), 1, text);
    while let Some(first) = rest.chars().next() {
        let marked = first == '`';
        let inner = rest[marked as usize..].split('`').next().unwrap();
        let run = inner.split(apart).next().unwrap().trim_end_matches('.');
        let length = match marked {
            true => rest.len().min(inner.len() + 2),
            false => run.len().max(first.len_utf8()),
        };
        let (part, after) = rest.split_at(length);
        if FOLDERS.iter().any(|folder| run.starts_with(folder)) {
            tokens.push((line, Path(run)));
        } else if marked && !run.starts_with("target/") {
            tokens.push((line, Name(inner)));
        } else if !part.trim().is_empty() {
            tokens.push((line, Word(part)));
        }
        line += part.matches('\n').count();
        rest = after;
    }
    tokens
}

/// Where a name and the other names of its list must stand: the path or the crate right after them, or right before.
fn place(mut before: &[Token], mut after: &[Token], tree: &Tree) -> Option<String> {
    while let [rest @ .., Name(_), Word("," | "and")] = before {
        before = rest;
    }
    while let [Word("," | "and"), Name(_), rest @ ..] = after {
        after = rest;
    }
    let in_crate =
        |name| Some(format!("crates/{name}")).filter(|place| !tree.below(place).is_empty());
    match (before, after) {
        (_, [Word(":" | "," | "in"), Path(path), ..]) => Some(path.to_string()),
        ([.., Path(path), Word(":" | "(")], _) => Some(path.to_string()),
        ([.., Path(path), Word(")"), Word(":")], _) => Some(path.to_string()),
        (_, [Word("("), Word(name), Word(")"), ..]) => in_crate(name),
        (_, [Word("("), Word(name), Word(","), Word("and"), ..]) => in_crate(name),
        ([.., Word("crate"), Word(name), Word(":")], _) => in_crate(name),
        _ => None,
    }
}

/// All that is wrong in a document, each with its line.
fn faults(text: &str, tree: &Tree) -> Vec<String> {
    let (lines, tokens): (Vec<_>, Vec<_>) = tokens(text).into_iter().unzip();
    let (mut faults, mut named) = (Vec::new(), BTreeSet::new());
    for (i, line) in lines.iter().enumerate() {
        match &tokens[i] {
            Name(name) => {
                let name = name.split_whitespace().collect::<Vec<_>>().join(" ");
                let place = place(&tokens[..i], &tokens[i + 1..], tree).unwrap_or_default();
                if !tree.knows(&name) {
                    faults.push(format!("line {line}: no such name: {name}"));
                } else if !tree.fits(&name, &place) {
                    faults.push(format!("line {line}: not in {place}: {name}"));
                }
                named.insert(name);
            }
            Path(path) if tree.below(path).is_empty() => {
                faults.push(format!("line {line}: no such path: {path}"));
            }
            _ => {}
        }
    }
    for (path, names) in tree.below("crates") {
        if path.ends_with(".edit") && names.is_disjoint(&named) {
            faults.push(format!("not named: {path}"));
        }
    }
    faults
}

#[test]
fn what_the_document_names_exists() {
    let mut tree = Tree::default();
    tree.read(".".as_ref());
    let faults = faults(&fs::read_to_string("docs/CLAIMS.md").unwrap(), &tree);
    assert!(faults.is_empty(), "docs/CLAIMS.md:\n{}", faults.join("\n"));
}

#[test]
fn the_paths_of_the_other_documents_exist() {
    let mut tree = Tree::default();
    tree.read(".".as_ref());
    for document in OTHERS {
        let text = fs::read_to_string(document).unwrap();
        for (line, token) in tokens(&text) {
            let Path(path) = token else { continue };
            let found = !tree.below(path).is_empty();
            assert!(found, "{document}, line {line}: no such path: {path}");
        }
    }
}

/// What is wrong in a text about a small made-up repository, whose edits the first line names.
fn wrong(text: &str) -> String {
    let mut tree = Tree::default();
    for (path, line) in [
        ("Makefile", "test: lib"),
        ("crates.txt", "capi: sums"),
        ("crates/sums/specs/Sum.antt", "-- gone : ℕ"),
        ("crates/sums/specs/Sum.antt", "unfoldable pub one_word : ℕ"),
        ("crates/sums/proofs/Row.antt", "record Row (w : ℕ) : ℕ"),
        ("crates/sums/proofs/Row.antt", "  pub long : ℕ"),
        ("crates/sums/proofs/keep/Answers.antt", "pub returns : goal"),
        ("crates/sums/src/lib.rt", "// fn gone"),
        ("crates/sums/src/lib.rt", "pub struct State {"),
        ("crates/sums/src/lib.rt", "    pub fn new() -> State"),
        ("crates/sums/src/lib.rt", "fn keep(b: u32)"),
        ("crates/sums/must-fail/wrong_shift.edit", "old: gone"),
        ("crates/capi/src/lib.rt", "extern \"C\" fn pairing_match()"),
        ("crates/capi/must-fail/one_row.edit", "old: gone"),
        ("agent/src/lib.rs", "    pub const fn number(self) -> u32 {"),
        ("agent/src/bin/pairing/main.rs", "        name: \"count\","),
        ("include/pairing.h", "    PAIRING_WIDTH = 1,"),
        ("include/pairing.h", "uint32_t pairing_width(uint32_t w);"),
        ("tests/claims.rs", "fn gone()"),
        ("tests/run.c", "int run;"),
    ] {
        tree.add(path, line);
    }
    faults(&format!("`wrong_shift` | `one_row`\n{text}"), &tree).join("; ")
}

#[test]
fn what_exists_is_not_reported() {
    for text in [
        "target/none, `target/none`; tests/run.c. `tests/` (crates/sums), `specs/`",
        "`Row` and `long`: crates/sums/proofs/Row.antt; `keep`: crates/sums/proofs/keep",
        "`State::new`, `sums::keep`, crates/sums/src/lib.rt; `capi`; `number`; `pairing_*`",
        "`pairing_width`, `PAIRING_WIDTH`: include/pairing.h; `pairing_match` (capi)",
        "(crates/sums/must-fail): `wrong_shift`; crate capi: `one_row` | `one_row` (capi, and so on)",
        "`one_word`, tests/run.c; `make\n  test`, `pairing count`, `rt ci`, crates/capi",
    ] {
        assert_eq!(wrong(text), "");
    }
}

#[test]
fn a_missing_path_is_reported() {
    for path in ["crates/sums/specs/Sums.antt", "crates/sum/specs", "bench/"] {
        let fault = format!("line 3: no such path: {path}");
        assert_eq!(wrong(&format!("the file\n{path}, (tests/run.c).")), fault);
        assert_eq!(wrong(&format!("the file\n`{path}`: `one_word`.")), fault);
    }
}

#[test]
fn a_missing_name_is_reported() {
    let names = "gone, keeps, wrong_shifts, make tests, pairing none, State::old, capi::new, paired_*, spec/, Sums.antt";
    for name in names.split(", ") {
        let fault = format!("line 3: no such name: {name}");
        assert_eq!(wrong(&format!("\n`one_word`, `{name}`")), fault);
    }
}

#[test]
fn a_name_in_the_wrong_place_is_reported() {
    let place = "crates/sums/proofs/Row.antt";
    let texts = "`Row`, `keep`, PLACE; `keep`, `Row`: PLACE; `keep` and `Row` in PLACE; \
                 PLACE: `keep`; PLACE (`keep`); (PLACE): `Row`, `keep`";
    for text in texts.split("; ") {
        let fault = format!("line 2: not in {place}: keep");
        assert_eq!(wrong(&text.replace("PLACE", place)), fault);
    }
    let texts =
        "`keep` (capi); `keep`, `one_row` (capi, and sums); crate capi: `one_row` and `keep`";
    for text in texts.split("; ") {
        assert_eq!(wrong(text), "line 2: not in crates/capi: keep");
    }
}

#[test]
fn an_unnamed_edit_is_reported() {
    let mut tree = Tree::default();
    tree.add("crates/sums/must-fail/wrong_shift.edit", "old: gone");
    let fault = "not named: crates/sums/must-fail/wrong_shift.edit";
    assert_eq!(faults("the edit wrong_shift", &tree), [fault]);
    assert_eq!(faults("the edit `wrong_shift`", &tree), [""; 0]);
}
