//! A scanner and a depot pair, through the proved library: once as it should go, once with a label
//! altered on the way, once with a label that is shorter than its key asks for. Then three
//! scanners pair together, a seed is stretched at several widths, two shares are joined into a
//! longer seed, a label is digested in parts, and at last one is edited while its digest is shown.

#![forbid(unsafe_code)]

use pairing_agent::{digest_bytes, digest_peers, digest_words, digests_match};
use pairing_agent::{load_array, stretch, stretch_array};
use pairing_agent::{Incremental, Refusal, Settings, Stream, MOST_SEED_WORDS};

/// What both ends have agreed on.
const SETTINGS: Settings = Settings {
    width: 32,
    kept: 32,
    words: 2,
};

/// What the two ends share. Drawing it is not the toolkit's part; here it is the same in every run.
const SEED: u32 = 0x5eed_2024;

const MESSAGE: &str = "depot 7, gate B, scanner 0451, serial 8C-22-F1-90";

fn main() {
    let Settings { width, words, .. } = SETTINGS;
    println!("A scanner and a depot hold a label and a fresh seed, here {SEED:#x}. Each stretches");
    println!("the seed into a key and digests its label: {words} digest words of {width} bits.");
    println!(
        "Such a key is one of at most 2^32; the counts over all keys are not proved for those."
    );
    for (title, arrived) in arrivals() {
        tell(title, Ok(pairing(&arrived)));
    }
    tell(
        "4. Three scanners pair with a shift leader, who digests for all in one call",
        peers(),
    );
    tell(
        "5. The seed at other widths: a key word is the upper bits of the generator's output",
        widths(),
    );
    tell(
        "6. The ends' shares, joined by xor, are a seed of eight words; a load is made twice",
        shares(),
    );
    tell(
        "7. The label in parts, as a stream: each reading is the digest of the words so far",
        parts(),
    );
    tell(
        "8. The label is edited while it is shown: a word is replaced, and the digest follows",
        edits(),
    );
}

fn tell(title: &str, lines: Result<Vec<String>, Refusal>) {
    println!("\n{title}");
    for line in lines.expect("the calls are fit") {
        println!("   {line}");
    }
}

/// What can happen to the label on the way.
fn arrivals() -> [(&'static str, String); 3] {
    [
        ("1. The label arrives as it was sent", MESSAGE.into()),
        (
            "2. The label is altered on the way",
            MESSAGE.replace("0451", "0457"),
        ),
        (
            "3. A part of the label is lost on the way",
            MESSAGE.replace(", serial 8C-22-F1-90", ""),
        ),
    ]
}

/// One pairing, told line by line: the scanner sends its label, the depot digests what arrives.
fn pairing(arrived: &str) -> Vec<String> {
    let mut lines = vec![
        format!("scanner's label   {MESSAGE}"),
        format!("depot's label     {arrived}"),
    ];
    match enrol(MESSAGE, arrived, &mut lines) {
        Ok(true) => lines.push("agent             match: the network key would be issued".into()),
        Ok(false) => lines.push("agent             no match: no network key".into()),
        Err(refusal) => {
            let number = refusal.number();
            lines.push(format!(
                "agent             refused with {number} {refusal:?}: no network key"
            ));
            lines.push(format!("advice            {refusal}"));
            lines.extend(own_key(MESSAGE, arrived).expect("a label's own key is fit"));
        }
    }
    lines
}

/// Whether the agent would issue the network key.
fn enrol(sent: &str, arrived: &str, lines: &mut Vec<String>) -> Result<bool, Refusal> {
    // The depot expects the label that was sent, so both ends stretch a key for that one's length.
    let key_words = needed(sent);
    let scanner = digest(sent, key_words)?;
    lines.push(format!("scanner's digest  {}", shown(&scanner)));
    let depot = digest(arrived, key_words)?;
    lines.push(format!("depot's digest    {}", shown(&depot)));
    digests_match(SETTINGS.words, &scanner, &depot)
}

/// Why the arrived label was refused, and what each label has under as many first words of one key
/// as it needs: a stretch of fewer words is the first ones of a longer.
fn own_key(sent: &str, arrived: &str) -> Result<Vec<String>, Refusal> {
    let (longer, shorter) = (needed(sent), needed(arrived));
    let digests = [digest(sent, longer)?, digest(arrived, shorter)?];
    let paired = match digests_match(SETTINGS.words, &digests[0], &digests[1])? {
        true => "match",
        false => "no match",
    };
    let own = format!("with the first {shorter}");
    Ok(vec![
        format!("why               the depot's key has {longer} words, as the sent label takes;"),
        format!("                  the one that arrived takes {shorter}"),
        format!("{own:17} its digest is {}: {paired}", shown(&digests[1])),
    ])
}

/// How many key words a message takes.
fn needed(message: &str) -> usize {
    SETTINGS.key_words(SETTINGS.words_of_bytes(message.len()))
}

/// What one end does: stretch the key, digest the message.
fn digest(message: &str, key_words: usize) -> Result<[u32; SETTINGS.words as usize], Refusal> {
    let mut key = vec![0; key_words];
    stretch(SETTINGS.width, SEED, &mut key)?;
    let mut digest = [0; SETTINGS.words as usize];
    digest_bytes(SETTINGS, message.as_bytes(), &key, &mut digest)?;
    Ok(digest)
}

/// The message that several scanners share, of words: depot, gate, shift.
const SHIFT: [u32; 3] = [7, 2, 20_241_116];

/// A seed for each of them.
const PEERS: [u32; 3] = [0x5eed_0451, 0x5eed_0452, 0x5eed_0453];

/// Each scanner digests under its own key; the leader holds the keys of all, and digests once.
fn peers() -> Result<Vec<String>, Refusal> {
    const WORDS: usize = SETTINGS.words as usize;
    let mut keys = [[0; SHIFT.len() + WORDS]; PEERS.len()];
    for (key, seed) in keys.iter_mut().zip(PEERS) {
        stretch(SETTINGS.width, seed, key)?;
    }
    let mut rows = [0; PEERS.len() * WORDS];
    digest_peers(
        SETTINGS,
        PEERS.len() as u32,
        &SHIFT,
        &keys.concat(),
        &mut rows,
    )?;
    let mut lines = vec![];
    for (place, (key, row)) in keys.iter().zip(rows.chunks(WORDS)).enumerate() {
        let mut own = [0; WORDS];
        digest_words(SETTINGS, &SHIFT, key, &mut own)?;
        let paired = match digests_match(SETTINGS.words, &own, row)? {
            true => "match",
            false => "no match",
        };
        let (place, own, row) = (place + 1, shown(&own), shown(row));
        lines.push(format!(
            "scanner {place}         {own}, leader {row}: {paired}"
        ));
    }
    Ok(lines)
}

/// The first key words of the seed, with as many hexadecimal digits as the width has.
fn widths() -> Result<Vec<String>, Refusal> {
    let mut lines = vec![];
    for width in [32, 16, 8, 4] {
        let mut key = [0; 4];
        stretch(width, SEED, &mut key)?;
        let digits = (width / 4) as usize;
        let words = key.map(|word| format!("{:8}", format!("{word:0digits$x}")));
        lines.push(format!(
            "{width:2} bits           {}",
            words.join(" ").trim_end()
        ));
    }
    Ok(lines)
}

/// What each end draws for itself, here the same in every run.
const SHARES: [[u32; MOST_SEED_WORDS]; 2] = [
    [
        0x243f_6a88,
        0x85a3_08d3,
        0x1319_8a2e,
        0x0370_7344,
        0xa409_3822,
        0x299f_31d0,
        0x082e_fa98,
        0xec4e_6c89,
    ],
    [
        0xb7e1_5162,
        0x8aed_2a6a,
        0xbf71_5880,
        0x9cf4_f3c7,
        0x62e7_160f,
        0x38b4_da56,
        0xa784_d904,
        0x5190_cfef,
    ],
];

/// Each end joins its own share with the other's and stretches its key. For a test bench, the same
/// seed makes a load, and makes it again.
fn shares() -> Result<Vec<String>, Refusal> {
    let [scanner, depot] = SHARES;
    let seeds = [joined(scanner, depot), joined(depot, scanner)];
    let mut lines = vec![];
    for (end, seed) in ["scanner's key", "depot's key"].iter().zip(&seeds) {
        let mut key = [0; 4];
        stretch_array(SETTINGS.width, seed, &mut key)?;
        lines.push(format!("{end:17} {}", shown(&key)));
    }
    for (time, seed) in ["load", "load again"].iter().zip(&seeds) {
        let (mut key, mut message) = ([0; 4], [0; 2]);
        load_array(SETTINGS.width, seed, &mut key, &mut message)?;
        let (key, message) = (shown(&key), shown(&message));
        lines.push(format!("{time:17} {key}, message {message}"));
    }
    Ok(lines)
}

fn joined(own: [u32; MOST_SEED_WORDS], other: [u32; MOST_SEED_WORDS]) -> [u32; MOST_SEED_WORDS] {
    std::array::from_fn(|place| own[place] ^ other[place])
}

/// The label's words, closed, five at a time; then the digest of the whole label.
fn parts() -> Result<Vec<String>, Refusal> {
    let message = SETTINGS.closed_words(MESSAGE.as_bytes());
    let mut key = vec![0; needed(MESSAGE)];
    stretch(SETTINGS.width, SEED, &mut key)?;
    let (first, rest) = key.split_at(SETTINGS.words as usize);
    let mut stream = Stream::open(&SETTINGS, first)?;
    let mut lines = vec![];
    for (message, key) in message.chunks(5).zip(rest.chunks(5)) {
        stream.push(message, key)?;
        let (taken, digest) = (stream.taken(), stream.read()?);
        lines.push(format!("after {taken:2} words    {digest}"));
    }
    let whole = SETTINGS.digest_bytes(MESSAGE.as_bytes(), &key)?;
    lines.push(format!("the whole label   {whole}"));
    Ok(lines)
}

/// A digit is typed and taken back. Each time one word of the closed label is replaced.
fn edits() -> Result<Vec<String>, Refusal> {
    let mut message = SETTINGS.closed_words(MESSAGE.as_bytes());
    let mut key = vec![0; needed(MESSAGE)];
    stretch(SETTINGS.width, SEED, &mut key)?;
    let mut digest = Incremental::open(&SETTINGS, &message, &key)?;
    let mut lines = vec![format!("as it was         {}", digest.read()?)];
    let typed = MESSAGE.replace("0451", "0457");
    for (what, label) in [("0457 for 0451", &typed[..]), ("0451 again", MESSAGE)] {
        let words = SETTINGS.closed_words(label.as_bytes());
        for (place, word) in words.into_iter().enumerate() {
            if message[place] != word {
                digest.edit(&mut message, &key, place, word)?;
                lines.push(format!("{what:17} {}", digest.read()?));
            }
        }
        let whole = SETTINGS.digest_bytes(label.as_bytes(), &key)?;
        lines.push(format!("the whole label   {whole}"));
    }
    Ok(lines)
}

fn shown(digest: &[u32]) -> String {
    let words: Vec<_> = digest.iter().map(|word| format!("{word:08x}")).collect();
    words.join(" ")
}

#[test]
fn the_agent_issues_one_key() {
    let told = arrivals().map(|(_, arrived)| pairing(&arrived));
    let agent = told
        .iter()
        .flatten()
        .filter(|line| line.starts_with("agent"));
    assert_eq!(
        agent.collect::<Vec<_>>(),
        [
            "agent             match: the network key would be issued",
            "agent             no match: no network key",
            "agent             refused with 5 Key: no network key",
        ]
    );
    let advice = format!("advice            {}", Refusal::Key);
    assert!(told[2].contains(&advice));
    // Under its own part of the key it has a digest, and another one.
    assert!(told[2]
        .last()
        .is_some_and(|line| line.ends_with("no match")));
}

#[test]
fn every_peer_pairs() {
    let lines = peers().unwrap();
    assert_eq!(lines.len(), PEERS.len());
    assert!(lines.iter().all(|line| line.ends_with(": match")));
}

#[test]
fn narrower_key_words_begin_the_wider_ones() {
    let lines = widths().unwrap();
    let words: Vec<Vec<_>> = lines
        .iter()
        .map(|line| line.split_whitespace().skip(2).collect())
        .collect();
    for (narrow, digits) in words.iter().zip([8, 4, 2, 1]) {
        let due: Vec<_> = words[0].iter().map(|word| &word[..digits]).collect();
        assert_eq!(*narrow, due);
    }
}

#[test]
fn the_shares_make_one_key_and_one_load() {
    let lines = shares().unwrap();
    let words: Vec<_> = lines.iter().map(|line| &line[18..]).collect();
    assert_eq!(words[0], words[1]);
    assert_eq!(words[2], words[3]);
    // The load's key is the ends' key.
    assert!(words[2].starts_with(&format!("{}, message ", words[0])));
}

#[test]
fn the_stream_ends_with_the_whole_labels_digest() {
    let lines = parts().unwrap();
    let digests: Vec<_> = lines.iter().map(|line| &line[18..]).collect();
    let [.., before, last, whole] = digests[..] else {
        panic!("{lines:?}");
    };
    assert_eq!(last, whole);
    assert_ne!(before, last);
}

#[test]
fn the_edited_label_has_its_whole_digest() {
    let lines = edits().unwrap();
    let digests: Vec<_> = lines.iter().map(|line| &line[18..]).collect();
    let [first, edited, whole, back, first_whole] = digests[..] else {
        panic!("{lines:?}");
    };
    assert_eq!([edited, back], [whole, first_whole]);
    assert_eq!(first, back);
    assert_ne!(first, edited);
}
