//! The proved word digest beside Rust loops, the proved byte digest and code beside the word digest
//! of the same words, those of bytes with the closing one, the peers' digests beside as many word
//! digests, a stream beside the word digest, and what calls of short messages and pushes of short
//! parts take, each on one input in one run.
//!
//! Every Rust loop walks once over the message, for all digest words, and tests its words. (a) is a
//! plain indexed loop. The best loop is the faster of (b) and (c), in which neighbouring digest
//! words share a product: two loops that the compiler turns into vector code. The Rust loops are
//! built for the target that the library is built for.

#![forbid(unsafe_code)]

use pairing_agent::{code_bytes, Settings, Stream};
use std::hint::black_box;
use std::time::{Duration, Instant};

/// Message words of each call but the short ones: the most that a digest takes.
const WORDS: usize = 65_536;

/// Rounds of which the fastest and the median count. Each round runs every side once, so that a
/// slow spell of the machine meets them all.
const ROUNDS: usize = 1_000;

fn main() {
    println!("{WORDS} message words, {ROUNDS} rounds; whole calls, tests included.");
    println!(
        "Times: fastest call. Ratios: of the fastest calls, and of the medians in brackets.\n"
    );
    let rows = [32, 16].map(|w| {
        [
            Row::measure::<1>(w),
            Row::measure::<2>(w),
            Row::measure::<4>(w),
            Row::measure::<8>(w),
        ]
    });
    println!("  w  n     library   (a) plain   (b) masks   (c) lanes    million words/s");
    for row in rows.iter().flatten() {
        row.print_times();
    }
    println!();
    for row in rows.iter().flatten() {
        row.print_ratios();
    }

    println!("\nThe same {WORDS} words, as bytes and as words.\n");
    let rows = [8, 16, 32].map(|w| [1, 2, 8].map(|n| BytesRow::measure(w, n)));
    println!("  w  n       bytes       words    million words/s");
    for row in rows.iter().flatten() {
        row.print_times();
    }
    println!();
    for row in rows.iter().flatten() {
        row.print_ratio();
    }

    println!("\nThe code at width 32, {DIGITS} digits, and the digest of the same words at n 1.\n");
    let rows = [WORDS, 1].map(CodeRow::measure);
    println!("  words        code      digest    code / digest");
    for row in &rows {
        row.print();
    }

    println!("\n{PEERS} peers in one call, and {PEERS} word digests under the same keys.\n");
    println!("  words   w  n       peers     digests   peers / digests");
    for (words, w, n) in [
        (WORDS, 32, 1),
        (WORDS, 32, 2),
        (WORDS, 32, 3),
        (WORDS, 32, 4),
        (WORDS, 32, 8),
        (WORDS, 16, 1),
        (WORDS, 16, 8),
        (FEWER, 32, 1),
        (FEWER, 32, 2),
        (FEWER, 32, 8),
        (16, 32, 1),
        (16, 32, 8),
    ] {
        PeersRow::measure(words, w, n).print();
    }

    println!(
        "\nA stream that is opened, takes {WORDS} words in one push and is read, and the digest of"
    );
    println!("the same words.\n");
    let rows = [32, 16].map(|w| [1, 2, 8].map(|n| StreamRow::measure(w, n)));
    println!("  w  n      stream      digest    million words/s");
    for row in rows.iter().flatten() {
        row.print_times();
    }
    println!();
    for row in rows.iter().flatten() {
        row.print_ratio();
    }

    println!(
        "\nShort messages at width 32: the median of {ROUNDS} batches of {BATCH} calls, for one."
    );
    println!("Bytes are as many as the words have; the closing one makes a word more.\n");
    println!("  words  n    of words    of bytes");
    for words in [0, 1, 16] {
        for n in [1, 2, 4, 8] {
            ShortRow::measure(words, n).print();
        }
    }

    println!("\nShort parts pushed at width 32, and a reading: the same medians.\n");
    println!("  words  n        push     reading");
    for words in [0, 1, 16] {
        for n in [1, 8] {
            PushRow::measure(words, n).print();
        }
    }
}

/// How long the calls of one side took.
struct Times {
    fastest: Duration,
    median: Duration,
}

/// Runs every side once a round. Each round begins with another side: the same code was measured a
/// few in a hundred slower as the first of two than as the second.
fn race<const SIDES: usize>(mut sides: [Box<dyn FnMut() + '_>; SIDES]) -> [Times; SIDES] {
    let mut times = [(); SIDES].map(|()| Vec::with_capacity(ROUNDS));
    for round in 0..ROUNDS {
        for side in (0..SIDES).map(|place| (round + place) % SIDES) {
            let start = Instant::now();
            sides[side]();
            times[side].push(start.elapsed());
        }
    }
    times.map(|mut times| {
        times.sort_unstable();
        Times {
            fastest: times[0],
            median: times[ROUNDS / 2],
        }
    })
}

fn print_times(w: u32, n: usize, times: &[Times]) {
    print!("{w:3} {n:2}");
    for times in times {
        print!("  {:7.1} us", times.fastest.as_secs_f64() * 1e6);
    }
    let rate = WORDS as f64 / times[0].fastest.as_secs_f64() / 1e6;
    println!("    {rate:15.0}");
}

/// The ratios of the fastest calls and of the medians.
fn ratios(of: [&Times; 2]) -> [f64; 2] {
    let ratio = |of: [Duration; 2]| of[0].as_secs_f64() / of[1].as_secs_f64();
    [
        ratio(of.map(|times| times.fastest)),
        ratio(of.map(|times| times.median)),
    ]
}

fn print_ratio(w: u32, n: usize, names: &str, of: [&Times; 2]) {
    let [fastest, median] = ratios(of);
    print!("w {w:2}, n {n}: {names:18} {fastest:.2} ({median:.2})");
}

/// That width, every bit kept, and n digest words.
fn settings(w: u32, n: usize) -> Settings {
    Settings {
        width: w,
        kept: w,
        words: n as u32,
    }
}

/// A digest of words: the width, the message, the key, and the output, a place for each word.
type Side = fn(u32, &[u32], &[u32], &mut [u32]);

const LIBRARY: usize = 0;
const PLAIN: usize = 1;
const MASKS: usize = 2;
const LANES: usize = 3;

/// The sides for digests of N words.
fn sides<const N: usize>() -> [Side; 4] {
    [library, plain, masks::<N>, lanes::<N>]
}

fn library(w: u32, message: &[u32], key: &[u32], out: &mut [u32]) {
    pairing_agent::digest_words(settings(w, out.len()), message, key, out)
        .expect("the input is fit");
}

/// (a): no more than the definition, and a test of each word as one would write it.
#[allow(clippy::needless_range_loop)]
fn plain(w: u32, message: &[u32], key: &[u32], out: &mut [u32]) {
    let size = 1u64 << w;
    let n = out.len();
    let mut sums = [0u64; 8];
    for j in 0..message.len() {
        let m = u64::from(message[j]);
        if m >= size || u64::from(key[j]) >= size {
            return;
        }
        for i in 0..n {
            sums[i] = sums[i].wrapping_add(m * u64::from(key[i + j]));
            sums[i] = sums[i].wrapping_add((m * u64::from(key[i + j + 1])) >> w);
        }
    }
    for j in message.len()..key.len() {
        if u64::from(key[j]) >= size {
            return;
        }
    }
    for i in 0..n {
        out[i] = (sums[i] % size) as u32;
    }
}

/// All bits that stand in some word. No branch in the loop.
fn all_bits(words: &[u32]) -> u32 {
    words.iter().fold(0, |bits, word| bits | word)
}

/// Whether a word of these bits is below 2^w.
fn fits(w: u32, bits: u32) -> bool {
    u64::from(bits) < 1 << w
}

/// (b), in the library's own shape: two sums of 64 bits for each digest word, of the products and
/// of those with their low bits masked away, which are shifted once at the end. What wraps at 2^64
/// is a multiple of 2^32 after the shift.
///
/// Two message words a turn, so that the compiler multiplies in vectors without shuffles, and key
/// rows that start a word apart, else it carries key words over from turn to turn. The range test
/// is a loop of its own over each block, which the cache then holds: among the products, it costs
/// more shuffles than it spares loads.
fn masks<const N: usize>(w: u32, message: &[u32], key: &[u32], out: &mut [u32]) {
    const BLOCK: usize = 128;
    let high_bits = !((1u64 << w) - 1);
    let (mut low, mut high) = ([0u64; N], [0u64; N]);
    let t = message.len();
    let mut bits = all_bits(&key[t..]);
    let mut at = 0;
    while at + BLOCK <= t {
        let m: &[u32; BLOCK] = message[at..at + BLOCK].try_into().unwrap();
        let k: [&[u32; BLOCK]; 9] = std::array::from_fn(|i| {
            let from = at + i.min(N);
            key[from..from + BLOCK].try_into().unwrap()
        });
        bits |= all_bits(m) | all_bits(k[0]);
        let mut j = 0;
        while j + 1 < BLOCK {
            let (m0, m1) = (u64::from(m[j]), u64::from(m[j + 1]));
            for i in 0..N {
                low[i] = low[i]
                    .wrapping_add(m0 * u64::from(k[i][j]))
                    .wrapping_add(m1 * u64::from(k[i][j + 1]));
                high[i] = high[i]
                    .wrapping_add((m0 * u64::from(k[i + 1][j])) & high_bits)
                    .wrapping_add((m1 * u64::from(k[i + 1][j + 1])) & high_bits);
            }
            j += 2;
        }
        at += BLOCK;
    }
    for j in at..t {
        let m = u64::from(message[j]);
        bits |= message[j] | key[j];
        for i in 0..N {
            low[i] = low[i].wrapping_add(m * u64::from(key[i + j]));
            high[i] = high[i].wrapping_add((m * u64::from(key[i + j + 1])) & high_bits);
        }
    }
    if !fits(w, bits) {
        return;
    }
    for i in 0..N {
        out[i] = (low[i].wrapping_add(high[i] >> w) % (1 << w)) as u32;
    }
}

/// (c): the halves of each product are added apart, as words of 32 bits, with no mask and one
/// vector addition for both. The lower half is of the sum of its own place, the upper half of the
/// one before. The message is shifted up, so that the halves meet at bit w of the product.
///
/// The products of a block stand in a row of bytes: so the compiler takes two numbers of 64 bits
/// for four of 32 where they lie, in a register.
fn lanes<const N: usize>(w: u32, message: &[u32], key: &[u32], out: &mut [u32]) {
    const BLOCK: usize = 64;
    let up = 32 - w;
    let mut sums = [[0u32; 4]; 9];
    let mut products = [[0u8; 8]; BLOCK];
    let t = message.len();
    let mut bits = all_bits(&key[t..]);
    let mut at = 0;
    while at + BLOCK <= t {
        let m: &[u32; BLOCK] = message[at..at + BLOCK].try_into().unwrap();
        let k = &key[at..at + BLOCK + N];
        bits |= all_bits(m) | all_bits(&k[..BLOCK]);
        for i in 0..=N {
            let k: &[u32; BLOCK] = k[i..i + BLOCK].try_into().unwrap();
            for j in 0..BLOCK {
                products[j] = (u64::from(m[j] << up) * u64::from(k[j])).to_le_bytes();
            }
            for j in 0..BLOCK / 2 {
                let [l0, h0] = halves(products[2 * j]);
                let [l1, h1] = halves(products[2 * j + 1]);
                sums[i][0] = sums[i][0].wrapping_add(l0);
                sums[i][1] = sums[i][1].wrapping_add(h0);
                sums[i][2] = sums[i][2].wrapping_add(l1);
                sums[i][3] = sums[i][3].wrapping_add(h1);
            }
        }
        at += BLOCK;
    }
    for j in at..t {
        bits |= message[j] | key[j];
        for i in 0..=N {
            let product = u64::from(message[j] << up) * u64::from(key[i + j]);
            let [low, high] = halves(product.to_le_bytes());
            sums[i][0] = sums[i][0].wrapping_add(low);
            sums[i][1] = sums[i][1].wrapping_add(high);
        }
    }
    if !fits(w, bits) {
        return;
    }
    for i in 0..N {
        let low = sums[i][0].wrapping_add(sums[i][2]) >> up;
        let high = sums[i + 1][1].wrapping_add(sums[i + 1][3]);
        out[i] = low.wrapping_add(high) & (u32::MAX >> up);
    }
}

/// The lower and the upper half of a product.
fn halves([a, b, c, d, e, f, g, h]: [u8; 8]) -> [u32; 2] {
    [
        u32::from_le_bytes([a, b, c, d]),
        u32::from_le_bytes([e, f, g, h]),
    ]
}

/// What was measured at one width and one count of digest words.
struct Row {
    w: u32,
    n: usize,
    times: [Times; 4],
}

impl Row {
    fn measure<const N: usize>(w: u32) -> Row {
        let (message, key) = input(w, N);
        check::<N>(w, &message, &key);
        let mut digests = [[0; N]; 4];
        let mut places = digests.iter_mut();
        // Each side is a function of its own, as the library's is: not inlined here.
        let times = race(black_box(sides::<N>()).map(|side| -> Box<dyn FnMut()> {
            let (message, key, out) = (&message, &key, places.next().unwrap());
            Box::new(move || {
                side(
                    black_box(w),
                    black_box(message),
                    black_box(key),
                    black_box(out),
                )
            })
        }));
        for digest in &digests {
            assert_eq!(*digest, digests[LIBRARY], "a side computes something else");
        }
        Row { w, n: N, times }
    }

    fn print_times(&self) {
        print_times(self.w, self.n, &self.times);
    }

    fn print_ratios(&self) {
        if self.times[MASKS].fastest < self.times[LANES].fastest {
            self.print_ratio("library / best (b)", MASKS);
        } else {
            self.print_ratio("library / best (c)", LANES);
        }
        self.print_ratio("library / (a)", PLAIN);
    }

    fn print_ratio(&self, names: &str, side: usize) {
        let of = [&self.times[LIBRARY], &self.times[side]];
        print_ratio(self.w, self.n, names, of);
        println!();
    }
}

/// The Rust loops are whole digests: they agree with the library on shorter messages too, and write
/// nothing where a word is too large.
fn check<const N: usize>(w: u32, message: &[u32], key: &[u32]) {
    for words in [0, 1, 2, 63, 64, 65, 127, 128, 129, 1_000] {
        let (message, key) = (&message[..words], &key[..words + N]);
        let mut due = [0; N];
        library(w, message, key, &mut due);
        check_loops(w, message, key, due);
        if w < 32 {
            for place in [0, words / 2, words, words + N - 1] {
                let mut key = key.to_vec();
                key[place] = 1 << w;
                check_loops(w, message, &key, [NOTHING; N]);
            }
            for place in [0, words / 2, words.saturating_sub(1)] {
                let mut message = message.to_vec();
                if let Some(word) = message.get_mut(place) {
                    *word = 1 << w;
                    check_loops(w, &message, key, [NOTHING; N]);
                }
            }
        }
    }
}

/// No word of a digest below width 32, so an output that holds it was not written.
const NOTHING: u32 = u32::MAX;

fn check_loops<const N: usize>(w: u32, message: &[u32], key: &[u32], due: [u32; N]) {
    for side in &sides::<N>()[PLAIN..] {
        let mut out = [NOTHING; N];
        side(w, message, key, &mut out);
        assert_eq!(out, due, "w {w}, {} words: another digest", message.len());
    }
}

/// The byte digest and then the word digest of the same words.
struct BytesRow {
    w: u32,
    n: usize,
    times: [Times; 2],
}

impl BytesRow {
    fn measure(w: u32, n: usize) -> BytesRow {
        let (mut words, key) = input(w, n);
        // The message's bytes leave one place free in the last word, the highest: 0x80 closes them.
        let highest = 1 << (w - 8);
        words[WORDS - 1] = words[WORDS - 1] % highest + 0x80 * highest;
        let mut bytes: Vec<u8> = words
            .iter()
            .flat_map(|word| word.to_le_bytes().into_iter().take(w as usize / 8))
            .collect();
        bytes.pop();
        let (mut of_bytes, mut of_words) = (vec![0; n], vec![1; n]);
        let times = race([
            Box::new(|| {
                let settings = settings(black_box(w), n);
                pairing_agent::digest_bytes(settings, &bytes, &key, black_box(&mut of_bytes))
                    .expect("the input is fit");
            }),
            Box::new(|| library(black_box(w), &words, &key, black_box(&mut of_words))),
        ]);
        assert_eq!(of_bytes, of_words, "the digests differ");
        BytesRow { w, n, times }
    }

    fn print_times(&self) {
        print_times(self.w, self.n, &self.times);
    }

    /// The goal at width 32 is one for the medians: bytes within 10 in a hundred of words.
    fn print_ratio(&self) {
        let of = [&self.times[0], &self.times[1]];
        print_ratio(self.w, self.n, "bytes / words", of);
        match ratios(of) {
            _ if self.w != 32 => println!(),
            [_, median] if median <= 1.1 => println!("  goal (1.1): met"),
            _ => println!("  goal (1.1): missed"),
        }
    }
}

/// The digits of the codes that are measured, as the command line has them by itself.
const DIGITS: u32 = 6;

/// The code and then the word digest of the same words.
struct CodeRow {
    words: usize,
    times: [Times; 2],
}

impl CodeRow {
    /// A turn makes as many calls as have `WORDS` words together: one call of one word is too short
    /// for the clock.
    fn measure(words: usize) -> CodeRow {
        let (message, key) = input(32, 1);
        let (message, key) = (&message[..words], &key[..=words]);
        let (mut code, mut digest) = ([0; code_bytes(DIGITS)], [0]);
        let times = race([
            Box::new(|| {
                for _ in 0..WORDS / words {
                    pairing_agent::digest_code(32, DIGITS, message, key, black_box(&mut code))
                        .expect("the input is fit");
                }
            }),
            Box::new(|| {
                for _ in 0..WORDS / words {
                    library(32, message, key, black_box(&mut digest));
                }
            }),
        ]);
        let digits = code.map(|byte| format!("{byte:02x}")).concat();
        let due = digest[0] % 10u32.pow(DIGITS);
        assert_eq!(digits.parse(), Ok(due), "the code is another's");
        CodeRow { words, times }
    }

    fn print(&self) {
        let [code, digest] = &self.times;
        let calls = (WORDS / self.words) as f64;
        print!("{:7}", self.words);
        for times in [code, digest] {
            print!("  {:7.3} us", times.fastest.as_secs_f64() * 1e6 / calls);
        }
        let [fastest, median] = ratios([code, digest]);
        println!("      {fastest:.2} ({median:.2})");
    }
}

/// Message words of peers whose keys lie farther from a whole number of pages apart than at
/// `WORDS`: there, the places that a turn reads in all keys meet in a few sets of the cache.
const FEWER: usize = 65_000;

/// The most of one call.
const PEERS: usize = pairing_agent::MOST_PEERS;

/// The digests of all peers in one call, and by a word digest for each peer.
struct PeersRow {
    words: usize,
    w: u32,
    n: usize,
    times: [Times; 2],
}

impl PeersRow {
    /// As for codes, a turn of short messages makes more calls than one.
    fn measure(words: usize, w: u32, n: usize) -> PeersRow {
        let (message, _) = input(w, n);
        let message = &message[..words];
        let keys: Vec<u32> = (1..=PEERS as u64)
            .flat_map(|seed| random_words(seed, w, words + n))
            .collect();
        let (mut rows, mut digests) = (vec![0; PEERS * n], vec![1; PEERS * n]);
        let times = race([
            Box::new(|| {
                for _ in 0..Self::calls(words) {
                    let (settings, peers) = (settings(black_box(w), n), PEERS as u32);
                    pairing_agent::digest_peers(
                        settings,
                        peers,
                        message,
                        &keys,
                        black_box(&mut rows),
                    )
                    .expect("the input is fit");
                }
            }),
            Box::new(|| {
                for _ in 0..Self::calls(words) {
                    for (key, row) in keys.chunks(words + n).zip(digests.chunks_mut(n)) {
                        library(black_box(w), message, key, black_box(row));
                    }
                }
            }),
        ]);
        assert_eq!(rows, digests, "the digests differ");
        PeersRow { words, w, n, times }
    }

    fn calls(words: usize) -> usize {
        (1_000 / words).max(1)
    }

    fn print(&self) {
        let [peers, digests] = &self.times;
        print!("{:7}  {:2} {:2}", self.words, self.w, self.n);
        for times in [peers, digests] {
            let calls = Self::calls(self.words) as f64;
            print!("  {:7.1} us", times.fastest.as_secs_f64() * 1e6 / calls);
        }
        let [fastest, median] = ratios([peers, digests]);
        println!("       {fastest:.2} ({median:.2})");
    }
}

/// A stream of one push and then the word digest of the same words.
struct StreamRow {
    w: u32,
    n: usize,
    times: [Times; 2],
}

impl StreamRow {
    fn measure(w: u32, n: usize) -> StreamRow {
        let (words, key) = input(w, n);
        let (mut of_stream, mut of_words) = (vec![0; n], vec![1; n]);
        let times = race([
            Box::new(|| {
                let (first, rest) = key.split_at(n);
                let mut stream =
                    Stream::open(&settings(black_box(w), n), first).expect("the input is fit");
                stream.push(&words, rest).expect("the input is fit");
                stream
                    .read_into(black_box(&mut of_stream))
                    .expect("there is room");
            }),
            Box::new(|| library(black_box(w), &words, &key, black_box(&mut of_words))),
        ]);
        assert_eq!(of_stream, of_words, "the digests differ");
        StreamRow { w, n, times }
    }

    fn print_times(&self) {
        print_times(self.w, self.n, &self.times);
    }

    /// The goal is one for the medians, at one digest word and at eight.
    fn print_ratio(&self) {
        let of = [&self.times[0], &self.times[1]];
        print_ratio(self.w, self.n, "stream / digest", of);
        match ratios(of) {
            _ if self.n == 2 => println!(),
            [_, median] if median <= 1.05 => println!("  goal (1.05): met"),
            _ => println!("  goal (1.05): missed"),
        }
    }
}

/// Calls of a batch: one of a short message is too short for the clock.
const BATCH: usize = 1_000;

/// The word digest of a short message, and the byte digest of its bytes, which are then closed.
struct ShortRow {
    words: usize,
    n: usize,
    times: [Times; 2],
}

impl ShortRow {
    fn measure(words: usize, n: usize) -> ShortRow {
        let (message, key) = input(32, n);
        let (message, closed_key) = (&message[..words], &key[..words + 1 + n]);
        let key = &closed_key[..words + n];
        let bytes: Vec<u8> = message.iter().flat_map(|word| word.to_le_bytes()).collect();
        let (mut of_words, mut of_bytes) = (vec![0; n], vec![0; n]);
        let times = race([
            Box::new(|| {
                for _ in 0..BATCH {
                    library(32, message, key, black_box(&mut of_words));
                }
            }),
            Box::new(|| {
                for _ in 0..BATCH {
                    let out = black_box(&mut of_bytes);
                    pairing_agent::digest_bytes(settings(32, n), &bytes, closed_key, out)
                        .expect("the input is fit");
                }
            }),
        ]);
        ShortRow { words, n, times }
    }

    fn print(&self) {
        print_short(self.words, self.n, &self.times);
    }
}

/// The medians of batches, for one call.
fn print_short(words: usize, n: usize, times: &[Times]) {
    print!("{words:7} {n:2}");
    for times in times {
        print!(
            "  {:7.1} ns",
            times.median.as_secs_f64() * 1e9 / BATCH as f64
        );
    }
    println!();
}

/// A push of a short part, and a reading.
struct PushRow {
    words: usize,
    n: usize,
    times: [Times; 2],
}

impl PushRow {
    /// A batch of pushes starts from the opened stream, so that it never has too many words.
    fn measure(words: usize, n: usize) -> PushRow {
        let (message, key) = input(32, n);
        let (first, rest) = key.split_at(n);
        let (message, key) = (&message[..words], &rest[..words]);
        let opened = Stream::open(&settings(32, n), first).expect("the input is fit");
        let mut whole = opened.clone();
        let mut out = vec![0; n];
        let times = race([
            Box::new(|| {
                let mut stream = opened.clone();
                for _ in 0..BATCH {
                    black_box(&mut stream)
                        .push(message, key)
                        .expect("the input is fit");
                }
                whole = stream;
            }),
            Box::new(|| {
                for _ in 0..BATCH {
                    black_box(&opened)
                        .read_into(black_box(&mut out))
                        .expect("there is room");
                }
            }),
        ]);
        assert_eq!(whole.taken(), BATCH * words, "a push is missing");
        PushRow { words, n, times }
    }

    fn print(&self) {
        print_short(self.words, self.n, &self.times);
    }
}

/// A message and a key of random words below 2^w, the same in every run.
fn input(w: u32, n: usize) -> (Vec<u32>, Vec<u32>) {
    let mut message = random_words(1, w, 2 * WORDS + n);
    let key = message.split_off(WORDS);
    (message, key)
}

/// Random words below 2^w, the same in every run.
fn random_words(seed: u64, w: u32, words: usize) -> Vec<u32> {
    let mut state = seed;
    let word = |_| {
        // A linear congruential generator; its upper half is random enough to multiply.
        state = state
            .wrapping_mul(6_364_136_223_846_793_005)
            .wrapping_add(1);
        (state >> 32) as u32 >> (32 - w)
    };
    (0..words).map(word).collect()
}
