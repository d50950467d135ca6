//! Ten million random calls through the C interface against independent implementations: for
//! bytes, codes, peers, streams, incremental digests, stretches and loads, others than those that the
//! other tests compare with.
//!
//! Not part of the gate: `make soak-incremental` runs it. It stops after ten minutes and says how far it came.
//! PAIRING_SOAK_CALLS and PAIRING_SOAK_SEED set other numbers.

#![forbid(unsafe_code)]

#[path = "edits/mod.rs"]
mod common;

use common::calls::{settings, Call, Code, Digest, Load, Peers, Stretch};
use common::incremental_calls::{self, Edit};
use common::paper::{self, Outcome};
use common::random::Random;
use common::states::{Kind, Read};
use common::stream_calls::{self, Push};
use common::{cases, from_environment};
use pairing_agent::Settings;
use std::collections::BTreeMap;
use std::io::IsTerminal;
use std::time::{Duration, Instant};

const CALLS: u64 = 10_000_000;
const LONGEST: Duration = Duration::from_secs(600);

/// Mismatches that are shown; the rest are only counted.
const SHOWN: u64 = 10;

/// How many times rarer long rows are here: they take most of the time.
const RARE: usize = 5;

#[test]
#[ignore = "takes minutes; run by make soak-incremental"]
fn soak() {
    let calls = from_environment("PAIRING_SOAK_CALLS", CALLS);
    let seed = from_environment("PAIRING_SOAK_SEED", 1);
    let mut random = Random::new(seed);
    let mut tally = Tally::default();
    let mut made = 0;
    let terminal = std::io::stderr().is_terminal();
    let start = Instant::now();
    while made < calls && start.elapsed() < LONGEST {
        if terminal && made % 100_000 == 0 {
            eprint!("\r{made} of {calls} calls");
        }
        tally.make_a_call(&mut random);
        made += 1;
    }
    if terminal {
        eprint!("\r\x1b[K");
    }

    let seconds = start.elapsed().as_secs();
    println!("\n{made} of {calls} random calls from seed {seed} in {seconds} s");
    println!("{:<16} {:>6} {:>9}", "entry", "answer", "times");
    for ((entry, answer), times) in &tally.seen {
        println!("{entry:<16} {answer:>6} {times:>9}");
    }
    println!("mismatches: {}", tally.mismatches);
    assert_eq!(tally.mismatches, 0);
}

/// How often each entry gave each answer, and how many calls were not as they must be.
#[derive(Default)]
struct Tally {
    seen: BTreeMap<(&'static str, u32), u64>,
    mismatches: u64,
}

impl Tally {
    fn make_a_call(&mut self, random: &mut Random) {
        match random.below(19) {
            12 => {
                let call = cases::peers(random, 8 * RARE);
                self.make(&call, &peers_due(&call), random);
            }
            13..=15 => self.make_a_streams_call(random),
            16..=18 => self.make_an_incremental_call(random),
            0..=3 => {
                let call = cases::digest::<u32>(random, RARE);
                self.make(&call, &call.due(), random);
            }
            4..=6 => {
                let call = cases::digest::<u8>(random, RARE);
                self.make(&call, &bytes_due(&call), random);
            }
            7..=8 => {
                let call = cases::code(random, RARE);
                self.make(&call, &code_due(&call), random);
            }
            9 => self.make_a_filling_call(random),
            _ => {
                let call = cases::digests_match(random);
                self.make(&call, &call.due(), random);
            }
        }
    }

    /// A call of one of a stream's three entries.
    fn make_a_streams_call(&mut self, random: &mut Random) {
        match random.below(3) {
            0 => {
                let call = cases::stream_open(random);
                self.make(&call, &stream_due(&call), random);
            }
            1 => {
                let call = cases::stream_push(random, RARE);
                self.make(&call, &push_due(&call), random);
            }
            _ => {
                let call = cases::stream_read(random);
                self.make(&call, &read_due(&call, 21), random);
            }
        }
    }

    /// A call of one of an incremental digest's three entries.
    fn make_an_incremental_call(&mut self, random: &mut Random) {
        match random.below(3) {
            0 => {
                let call = cases::incremental_open(random, RARE);
                self.make(&call, &incremental_due(&call), random);
            }
            1 => {
                let call = cases::incremental_edit(random, RARE);
                self.make(&call, &edit_due(&call), random);
            }
            _ => {
                let call = cases::incremental_read(random);
                self.make(&call, &read_due(&call, 12), random);
            }
        }
    }

    /// A call of one of the four entries that fill rows from a seed.
    fn make_a_filling_call(&mut self, random: &mut Random) {
        match random.below(4) {
            0 => {
                let call = cases::stretch::<u32>(random, RARE);
                self.make(&call, &stretch_due(&call), random);
            }
            1 => {
                let call = cases::stretch::<Vec<u32>>(random, RARE);
                self.make(&call, &stretch_due(&call), random);
            }
            2 => {
                let call = cases::load::<u32>(random, RARE);
                self.make(&call, &load_due(&call), random);
            }
            _ => {
                let call = cases::load::<Vec<u32>>(random, RARE);
                self.make(&call, &load_due(&call), random);
            }
        }
    }

    fn make<C: Call>(&mut self, call: &C, due: &Outcome<C::Place>, random: &mut Random) {
        let made = call.make(due, random);
        *self.seen.entry((C::ENTRY, made.answer)).or_insert(0) += 1;
        if !made.wrong.is_empty() {
            self.mismatches += 1;
            if self.mismatches <= SHOWN {
                println!("mismatch in {}", call.report(&made, due));
            }
        }
    }
}

/// What the byte digest must leave: the word digest of words that are sums of bytes. The last one
/// has the bytes that fill no word, and 0x80 at the place above them.
fn bytes_due(call: &Digest<u8>) -> Outcome {
    let in_a_word = match call.settings.width {
        8 => 1,
        16 => 2,
        32 => 4,
        _ => return refused(1, &call.out),
    };
    let word = |bytes: &[u8]| -> u32 {
        let places = (0..).map(|i| 256u32.pow(i));
        bytes
            .iter()
            .zip(places)
            .map(|(byte, place)| u32::from(*byte) * place)
            .sum()
    };
    let full = call.message.chunks_exact(in_a_word);
    let left = full.remainder();
    let last = word(left) + 0x80 * 256u32.pow(left.len() as u32);
    let words: Vec<u32> = full.map(word).chain([last]).collect();
    paper::digest_words(call.settings, &words, &call.key, &call.out)
}

/// What a call of peers must leave: the word digests under each key, by a call of its own for each
/// peer. A key that is refused refuses them all, and the words of every key are looked at first.
fn peers_due(call: &Peers) -> Outcome {
    let Peers {
        settings, peers, ..
    } = *call;
    let n = settings.words as usize;
    // The tests of the settings come before all others, and those of the rows after Peers.
    let settings_alone = paper::digest_words(settings, &[], &vec![0; n.min(9)], &vec![0; n.min(9)]);
    if (1..=3).contains(&settings_alone.answer) {
        return refused(settings_alone.answer, &call.out);
    }
    if !(1..=16).contains(&peers) {
        return refused(10, &call.out);
    }
    let words = call.message.len() + n;
    if call.message.len() > paper::MOST_WORDS {
        return refused(4, &call.out);
    }
    if call.keys.len() != peers as usize * words {
        return refused(5, &call.out);
    }
    if call.out.len() < peers as usize * n {
        return refused(6, &call.out);
    }
    let mut out = call.out.clone();
    for (key, row) in call.keys.chunks(words).zip(out.chunks_mut(n)) {
        let digest = paper::digest_words(settings, &call.message, key, row);
        if digest.answer != 0 {
            return refused(digest.answer, &call.out);
        }
        row.copy_from_slice(&digest.out);
    }
    Outcome { answer: 0, out }
}

/// What the code must leave: the digits of the word digest, each found by a division of its own.
fn code_due(call: &Code) -> Outcome<u8> {
    let Code { width, digits, .. } = *call;
    if !(1..=32).contains(&width) {
        return refused(1, &call.out);
    }
    let power = |exponent: u32| 10u64.checked_pow(exponent);
    if digits == 0 || power(digits).map_or(true, |power| power > 2u64.pow(width)) {
        return refused(9, &call.out);
    }
    let bytes = digits.div_ceil(2) as usize;
    let settings = settings(width, width, 1);
    let places = &[0][..usize::from(call.out.len() >= bytes)];
    let digest = paper::digest_words(settings, &call.message, &call.key, places);
    if digest.answer != 0 {
        return refused(digest.answer, &call.out);
    }
    let number = u64::from(digest.out[0]);
    let mut out = call.out.clone();
    out[..bytes].fill(0);
    for place in 0..digits {
        let digit = (number / 10u64.pow(place) % 10) as u8;
        // From the end: even places are lower halves.
        out[bytes - 1 - place as usize / 2] += digit * [1, 16][place as usize % 2];
    }
    Outcome { answer: 0, out }
}

/// What a stream's opening must leave: what an opening of a state with those words does, of no
/// message, with the key words after the sums.
fn stream_due(call: &stream_calls::Open) -> Outcome {
    let mut keys = call.key.clone();
    keys.resize(9, 0);
    open_due(call.settings, [&[], &call.key], &keys, &call.state)
}

/// What an incremental digest's opening must leave. Nothing stands after the sums.
fn incremental_due(call: &incremental_calls::Open) -> Outcome {
    let rows = [&call.message[..], &call.key];
    open_due(call.settings, rows, &[], &call.state)
}

/// What an opening must leave. It is answered as the digest is, with room for that where there is
/// room for the state, and its sums are the digest of all bits.
fn open_due(
    settings: Settings,
    [message, key]: [&[u32]; 2],
    after_sums: &[u32],
    row: &[u32],
) -> Outcome {
    let Settings { width, kept, words } = settings;
    let size = 12 + after_sums.len();
    let places = if row.len() < size { 0 } else { 8 };
    let digest = paper::digest_words(settings, message, key, &[0; 8][..places]);
    if digest.answer != 0 {
        return refused(digest.answer, row);
    }
    let every_bit = Settings {
        kept: width,
        ..settings
    };
    let sums = paper::digest_words(every_bit, message, key, &[0; 8]).out;
    let numbers = [width, kept, words, message.len() as u32];
    Outcome {
        answer: 0,
        out: [&numbers, &sums[..], after_sums, &row[size..]].concat(),
    }
}

/// Whether a row is a state of so many words: settings with which no words have a digest, and at
/// each place a number below the end of its range.
fn is_state(row: &[u32], words: usize) -> bool {
    let [width, kept, n, ..] = *row else {
        return false;
    };
    let no_words = paper::digest_words(settings(width, kept, n), &[], &[], &[]);
    // The key is too short, and it is the first thing that is wrong.
    if row.len() != words || no_words.answer != 5 {
        return false;
    }
    let end_at = |place: usize| match place {
        0..=2 => u64::MAX,
        3 => 65_537,
        4..=11 if place - 4 < n as usize => 2u64.pow(width),
        12..=19 if place - 12 < n as usize => 2u64.pow(width),
        _ => 1,
    };
    (0..)
        .zip(row)
        .all(|(place, word)| u64::from(*word) < end_at(place))
}

/// What a push must leave: it adds the digest of its words alone, with all bits, under the key
/// words held and pushed.
fn push_due(call: &Push) -> Outcome {
    let Push {
        state,
        message,
        key,
    } = call;
    if !is_state(state, 21) {
        return refused(8, state);
    }
    let (width, n) = (state[0], state[2] as usize);
    if message.len() > 65_536 - state[3] as usize {
        return refused(4, state);
    }
    let key = [&state[12..12 + n], key].concat();
    let added = paper::digest_words(settings(width, width, n as u32), message, &key, &[0; 8]);
    if added.answer != 0 {
        return refused(added.answer, state);
    }
    let mut out = state.clone();
    out[3] += message.len() as u32;
    for (sum, added) in out[4..12].iter_mut().zip(added.out) {
        *sum = ((u64::from(*sum) + u64::from(added)) % 2u64.pow(width)) as u32;
    }
    out[12..12 + n].copy_from_slice(&key[key.len() - n..]);
    Outcome { answer: 0, out }
}

/// What an edit must leave: each word is a message by itself, under the key words from the place on,
/// and the state loses the digest of the old one and gains that of the new one.
fn edit_due(call: &Edit) -> Outcome {
    let Edit { state, message, .. } = call;
    let refused = |answer| refused(answer, &[&state[..], message].concat());
    if !is_state(state, 12) {
        return refused(8);
    }
    let (width, n, words) = (state[0], state[2], state[3] as usize);
    if message.len() != words {
        return refused(4);
    }
    if call.key.len() != words + n as usize {
        return refused(5);
    }
    let Some(old) = message.get(call.place) else {
        return refused(12);
    };
    let key = &call.key[call.place..][..n as usize + 1];
    let digest = |word| paper::digest_words(settings(width, width, n), &[word], key, &[0; 8]);
    let [old, new] = [*old, call.word].map(digest);
    if old.answer.max(new.answer) != 0 {
        return refused(old.answer.max(new.answer));
    }
    let mut out = [&state[..], message].concat();
    for (place, (old, new)) in old.out.into_iter().zip(new.out).enumerate() {
        let sum = i64::from(out[4 + place]) - i64::from(old) + i64::from(new);
        out[4 + place] = sum.rem_euclid(2i64.pow(width)) as u32;
    }
    out[12 + call.place] = call.word;
    Outcome { answer: 0, out }
}

/// What a reading of a state of so many words must leave.
fn read_due<S: Kind>(call: &Read<S>, words: usize) -> Outcome {
    let Read { state, out, .. } = call;
    if !is_state(state, words) {
        return refused(8, out);
    }
    let n = state[2] as usize;
    if out.len() < n {
        return refused(6, out);
    }
    let digest = state[4..4 + n].iter();
    let digest = digest.map(|sum| (u64::from(*sum) % 2u64.pow(state[1])) as u32);
    Outcome {
        answer: 0,
        out: digest.chain(out[n..].iter().copied()).collect(),
    }
}

/// What the stretch must leave.
fn stretch_due(call: &Stretch<impl Filling>) -> Outcome {
    filled_due(call.width, &call.seed, [&call.out, &[]])
}

/// What the load must leave: both rows end to end.
fn load_due(call: &Load<impl Filling>) -> Outcome {
    filled_due(call.width, &call.seed, [&call.key, &call.message])
}

/// What key row and message row must be, end to end.
fn filled_due(w: u32, seed: &impl Filling, [key, message]: [&[u32]; 2]) -> Outcome {
    let rows = [key, message].concat();
    let too_long = key.len() > 65_544 || message.len() > 65_536;
    match seed.filling() {
        _ if !(1..=32).contains(&w) => refused(1, &rows),
        None => refused(11, &rows),
        Some(_) if too_long => refused(4, &rows),
        Some(filling) => Outcome {
            answer: 0,
            out: outputs(filling, rows.len())
                .map(|output| (output / 2u64.pow(32 - w)) as u32)
                .collect(),
        },
    }
}

const SIZE: u64 = 2u64.pow(32);

/// The outputs that follow a filling. The generator here is the recurrence over one growing
/// sequence, with no state that is refilled.
fn outputs(mut x: Vec<u64>, count: usize) -> impl Iterator<Item = u64> {
    (0..count).map(move |k| {
        let y = x[k] / 2u64.pow(31) * 2u64.pow(31) + x[k + 1] % 2u64.pow(31);
        let twist = if y % 2 == 1 { 0x9908_b0df } else { 0 };
        let next = x[k + 397] ^ (y / 2) ^ twist;
        x.push(next);
        let mut y = next;
        y ^= y / 2u64.pow(11);
        y ^= (y * 2u64.pow(7) % SIZE) & 0x9d2c_5680;
        y ^= (y * 2u64.pow(15) % SIZE) & 0xefc6_0000;
        y ^ (y / 2u64.pow(18))
    })
}

/// A seed, and the 624 words that it fills the generator with, unless it is refused.
trait Filling {
    fn filling(&self) -> Option<Vec<u64>>;
}

/// A word's bits with its upper two, times the factor.
fn spread(word: u64, factor: u64) -> u64 {
    (word ^ (word / 2u64.pow(30))) * factor % SIZE
}

impl Filling for u32 {
    fn filling(&self) -> Option<Vec<u64>> {
        let mut x = vec![u64::from(*self)];
        while x.len() < 624 {
            x.push((spread(x[x.len() - 1], 1_812_433_253) + x.len() as u64) % SIZE);
        }
        Some(x)
    }
}

impl Filling for Vec<u32> {
    /// Two rows of words over a plain filling, each word from the one before it and from the one
    /// that stood at its place. Each row ends with place 1: the first has come to it again, the
    /// second began after it.
    fn filling(&self) -> Option<Vec<u64>> {
        if self.is_empty() || self.len() > 8 {
            return None;
        }
        let plain = 19_650_218u32.filling()?;
        let mut first = vec![plain[0]];
        for k in 1..=624 {
            let stood = if k < 624 { plain[k] } else { first[1] };
            let j = (k - 1) % self.len();
            let mixed = stood ^ spread(first[k - 1], 1_664_525);
            first.push((mixed + u64::from(self[j]) + j as u64) % SIZE);
        }
        // The last word comes to place 1.
        first.swap_remove(1);
        let mut second = vec![first[1]];
        for place in (2..624).chain([1]) {
            let mixed = first[place] ^ spread(second[second.len() - 1], 1_566_083_941);
            second.push((mixed + SIZE - place as u64) % SIZE);
        }
        second.swap_remove(0);
        second.insert(0, 0x8000_0000);
        Some(second)
    }
}

fn refused<P: Clone>(answer: u32, out: &[P]) -> Outcome<P> {
    Outcome {
        answer,
        out: out.to_vec(),
    }
}
