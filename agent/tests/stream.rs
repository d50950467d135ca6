//! Streams: worked readings, every cutting of a short message, the edges of each test and their
//! order, rows of every length, states altered at every place, and a stream as a Rust value.

#![forbid(unsafe_code)]

mod common;

use common::calls::{settings, Call, Digest};
use common::faults::Faults;
use common::paper::{Outcome, MOST_WORDS};
use common::random::Random;
use common::stream::{self, STATE_WORDS};
use common::stream_calls::{Open, Push, Read};
use pairing_agent::{ffi, Refusal, Settings, Stream};

fn answer(call: &impl Call) -> u32 {
    call.check(&mut Random::new(31))
}

/// What the call leaves, having checked that the library leaves it.
fn outcome(call: &impl Call<Place = u32>) -> Outcome {
    answer(call);
    call.due()
}

/// The row that an accepted call leaves.
fn accepted(call: &impl Call<Place = u32>) -> Vec<u32> {
    let outcome = outcome(call);
    assert_eq!(outcome.answer, 0, "{}", call.sizes());
    outcome.out
}

/// A row that holds what no state does.
fn any_words(places: usize) -> Vec<u32> {
    vec![0xdead_beef; places]
}

fn open(settings: Settings, key: &[u32], places: usize) -> Open {
    Open {
        settings,
        key: key.to_vec(),
        state: any_words(places),
    }
}

fn push(state: &[u32], message: &[u32], key: &[u32]) -> Push {
    Push {
        state: state.to_vec(),
        message: message.to_vec(),
        key: key.to_vec(),
    }
}

fn read(state: &[u32], places: usize) -> Read {
    Read {
        state: state.to_vec(),
        out: any_words(places),
    }
}

/// Width, kept bits, digest words and words taken; then the sums and the key words.
fn row(numbers: [u32; 4], sums: &[u32], keys: &[u32]) -> Vec<u32> {
    let mut row = vec![0; STATE_WORDS];
    row[..4].copy_from_slice(&numbers);
    row[4..4 + sums.len()].copy_from_slice(sums);
    row[12..12 + keys.len()].copy_from_slice(keys);
    row
}

/// A fit state of these settings, with that many words taken.
fn fit_state(w: u32, b: u32, n: u32, taken: u32) -> Vec<u32> {
    let mut random = Random::new(u64::from(w) + 100 * u64::from(n));
    let mut words = || -> Vec<u32> { (0..n).map(|_| random.word() >> (32 - w)).collect() };
    row([w, b, n, taken], &words(), &words())
}

/// A fit part of so many words, and its key words.
fn fit_part(w: u32, words: usize) -> [Vec<u32>; 2] {
    let mut random = Random::new(u64::from(w) + 1_000 * words as u64);
    [(); 2].map(|()| (0..words).map(|_| random.word() >> (32 - w)).collect())
}

/// Document 01's case G, and C at its end: the numbers are the document's, the states follow by
/// hand.
#[test]
fn case_g() {
    let opened = accepted(&open(settings(8, 8, 2), &[10, 20], STATE_WORDS));
    assert_eq!(opened, row([8, 8, 2, 0], &[], &[10, 20]));
    assert_eq!(accepted(&read(&opened, 2)), [0, 0]);
    let one = accepted(&push(&opened, &[3], &[100]));
    assert_eq!(one, row([8, 8, 2, 1], &[0x1e, 0x3d], &[20, 100]));
    assert_eq!(accepted(&read(&one, 2)), [0x1e, 0x3d]);
    let two = accepted(&push(&one, &[7], &[250]));
    assert_eq!(two, row([8, 8, 2, 2], &[0xac, 0xff], &[100, 250]));
    assert_eq!(accepted(&read(&two, 3)), [0xac, 0xff, 0xdead_beef]);
    // Both words in one push; and case D, whose sums keep all bits until they are read.
    assert_eq!(accepted(&push(&opened, &[3, 7], &[100, 250])), two);
    let four = accepted(&open(settings(8, 4, 2), &[10, 20], 30));
    let two = accepted(&push(&four[..STATE_WORDS], &[3, 7], &[100, 250]));
    assert_eq!(two, row([8, 4, 2, 2], &[0xac, 0xff], &[100, 250]));
    assert_eq!(accepted(&read(&two, 2)), [0x0c, 0x0f]);
}

/// The lengths of the parts: bit i of `cuts` cuts after word i. With empty parts there is one
/// before each part and one at the end.
fn parts(words: usize, cuts: u32, empty: bool) -> Vec<usize> {
    let mut parts = vec![];
    let mut length = 0;
    for word in 0..words {
        length += 1;
        if word + 1 == words || cuts >> word & 1 == 1 {
            parts.extend(empty.then_some(0));
            parts.push(length);
            length = 0;
        }
    }
    parts.extend(empty.then_some(0));
    parts
}

#[test]
fn parts_of_a_cutting() {
    assert_eq!(parts(4, 0, false), [4]);
    assert_eq!(parts(4, 0b110, false), [2, 1, 1]);
    assert_eq!(parts(4, 0b101, true), [0, 1, 0, 2, 0, 1, 0]);
}

/// Pushes the parts one after the other. At every moment the reading is the digest of the words so
/// far, by the sum over all of them and by the library's word digest.
fn check_cutting(settings: Settings, message: &[u32], key: &[u32], parts: &[usize]) {
    let n = settings.words as usize;
    let mut state = accepted(&open(settings, &key[..n], STATE_WORDS));
    let mut so_far = 0;
    for words in parts {
        let (from, to) = (so_far, so_far + words);
        let part = push(&state, &message[from..to], &key[n + from..n + to]);
        state = accepted(&part);
        so_far = to;
        let (message, key) = (&message[..to], &key[..n + to]);
        let reading = accepted(&read(&state, 8));
        assert_eq!(reading[..n], stream::digest(settings, message, key));
        assert_eq!(reading[n..], any_words(8 - n));
        let mut whole = any_words(8);
        assert_eq!(ffi::digest_words(settings, message, key, &mut whole), 0);
        assert_eq!(reading, whole, "{settings:?}, {parts:?}, to {to}");
    }
    assert_eq!(so_far, message.len());
}

fn check_every_cutting(settings: Settings, message: &[u32], key: &[u32]) {
    for cuts in 0..1 << (message.len() - 1) {
        for empty in [false, true] {
            check_cutting(settings, message, key, &parts(message.len(), cuts, empty));
        }
    }
}

#[test]
fn every_cutting_of_worked_messages() {
    check_every_cutting(
        settings(32, 32, 1),
        &[0xffff_ffff, 0, 0x1234_5678, 0x8000_0000, 0xffff_fffe, 1],
        &[
            0xffff_ffff,
            0xdead_beef,
            0,
            0x7fff_ffff,
            0xfedc_ba98,
            0x89ab_cdef,
            0x1_0001,
        ],
    );
    check_every_cutting(
        settings(8, 5, 2),
        &[3, 7, 255, 0, 128, 91],
        &[10, 20, 100, 250, 255, 1, 77, 254],
    );
    check_every_cutting(
        settings(17, 16, 8),
        &[0x1_ffff, 0x1_0000, 5, 0xabcd, 0x1_fffe, 0x1_5555],
        &[
            1, 0x1_ffff, 0x1234, 0, 0xffff, 0x1_0001, 0x1_aaaa, 0x1_fffd, 0xbeef, 2, 0x1_c0de,
            0x7777, 0x1_ffff, 0x12b,
        ],
    );
}

/// As many words as there are held key words at the most, and more.
#[test]
fn every_cutting_at_every_count() {
    for (w, b) in [(1, 1), (7, 7), (16, 9), (31, 31), (32, 32)] {
        for n in 1..=8 {
            for words in [1, 2, 8] {
                let Digest { message, key, .. } = Digest::<u32>::fit(settings(w, b, n), words);
                check_every_cutting(settings(w, b, n), &message, &key);
            }
        }
    }
    let Digest { message, key, .. } = Digest::<u32>::fit(settings(32, 32, 8), 11);
    check_every_cutting(settings(32, 32, 8), &message, &key);
}

/// One cut at each place of messages longer than a state's key words: the parts before and after
/// are short and long, odd and even.
#[test]
fn one_cut_at_every_place() {
    for w in [8, 32] {
        for n in 1..=8 {
            for words in [9, 17, 40, 67] {
                let Digest { message, key, .. } = Digest::<u32>::fit(settings(w, w, n), words);
                for cut in 0..=words {
                    check_cutting(settings(w, w, n), &message, &key, &[cut, words - cut]);
                }
            }
        }
    }
}

#[test]
fn openings() {
    let pair = [10, 255];
    for (w, b, n, key, due) in [
        (8, 8, 2, &pair[..], 0),
        (0, 8, 2, &pair, 1),
        (33, 8, 2, &pair, 1),
        (0, 0, 0, &[], 1),
        (8, 0, 2, &pair, 2),
        (8, 9, 2, &pair, 2),
        (8, 9, 9, &pair, 2),
        (8, 8, 0, &[], 3),
        (8, 8, 9, &[1, 2, 3, 4, 5, 6, 7, 8, 9], 3),
        (8, 8, 8, &[1, 2, 3, 4, 5, 6, 7, 8], 0),
        (8, 8, 3, &pair, 5),
        (8, 8, 1, &pair, 5),
        (8, 8, 1, &[], 5),
        (8, 8, 1, &[256, 256], 5),
        (8, 8, 2, &[10, 256], 7),
        (8, 8, 2, &[0xffff_ffff, 0], 7),
        (1, 1, 1, &[1], 0),
        (1, 1, 1, &[2], 7),
        (32, 32, 1, &[0xffff_ffff], 0),
    ] {
        let call = open(settings(w, b, n), key, STATE_WORDS);
        assert_eq!(answer(&call), due, "w {w}, b {b}, n {n}, {key:?}");
    }
}

#[test]
fn settings_of_openings() {
    for w in (0..=40).chain([64, 256, 1 << 16, 1 << 31, u32::MAX]) {
        let call = open(settings(w, 1, 1), &[0], STATE_WORDS);
        let due = u32::from(!(1..=32).contains(&w));
        assert_eq!(answer(&call), due, "w {w}");
    }
    for w in 1..=32 {
        for b in (0..=40).chain([w + 32, u32::MAX]) {
            let call = open(settings(w, b, 1), &[0], STATE_WORDS);
            let due = if (1..=w).contains(&b) { 0 } else { 2 };
            assert_eq!(answer(&call), due, "w {w}, b {b}");
        }
    }
    for n in (0..=20).chain([257, 1 << 16, u32::MAX]) {
        for words in 0..=20 {
            let call = open(settings(8, 8, n), &vec![1; words], STATE_WORDS);
            let due = match n {
                1..=8 if words == n as usize => 0,
                1..=8 => 5,
                _ => 3,
            };
            assert_eq!(answer(&call), due, "n {n}, {words} words");
        }
    }
}

/// A word that does not fit at each place of an opening's key.
#[test]
fn word_at_every_place_of_an_opening() {
    for w in 1..32 {
        for n in 1..=8 {
            for place in 0..n as usize {
                for (word, due) in [((1 << w) - 1, 0), (1 << w, 7), (u32::MAX, 7)] {
                    let mut call = open(settings(w, 1, n), &vec![0; n as usize], STATE_WORDS);
                    call.key[place] = word;
                    assert_eq!(answer(&call), due, "w {w}, n {n}, {word} at {place}");
                }
            }
        }
    }
}

const SUMS: [u32; 2] = [255, 1];
const KEYS: [u32; 2] = [10, 20];

#[test]
fn pushes() {
    for (taken, message, key, due) in [
        (0, &[][..], &[][..], 0),
        (0, &[3], &[100], 0),
        (0, &[255], &[255], 0),
        (3, &[256], &[100], 7),
        (3, &[3], &[256], 7),
        (3, &[3], &[], 5),
        (3, &[], &[256], 5),
        (3, &[3, 256], &[100], 5),
        (65_536, &[], &[], 0),
        (65_535, &[3], &[100], 0),
        (65_536, &[3], &[100], 4),
        (65_535, &[3, 256], &[100], 4),
        (65_536, &[3], &[], 4),
        (65_536, &[], &[100], 5),
        (65_534, &[3, 7], &[100, 250], 0),
    ] {
        let call = push(&row([8, 4, 2, taken], &SUMS, &KEYS), message, key);
        assert_eq!(answer(&call), due, "{taken} taken, {message:?}, {key:?}");
    }
}

/// What an empty push leaves is the state as it was, words taken and all.
#[test]
fn empty_pushes() {
    for (w, b, n, taken) in [(8, 4, 2, 3), (1, 1, 1, 0), (32, 32, 8, 65_536)] {
        let state = fit_state(w, b, n, taken);
        assert_eq!(accepted(&push(&state, &[], &[])), state);
    }
}

#[test]
fn readings() {
    let state = row([8, 4, 2, 3], &SUMS, &KEYS);
    for places in 0..=12 {
        let due = if places < 2 { 6 } else { 0 };
        assert_eq!(answer(&read(&state, places)), due, "{places} places");
    }
    assert_eq!(accepted(&read(&state, 2)), [15, 1]);
    for n in 1..=8 {
        for b in [1, 5, 8] {
            let state = fit_state(8, b, n, 9);
            for places in 0..=10 {
                let due = if places < n as usize { 6 } else { 0 };
                assert_eq!(answer(&read(&state, places)), due, "n {n}, {places}");
            }
        }
    }
}

/// States beside a fit one, some of them fit too.
#[test]
fn states() {
    let numbers = |numbers, due| (row(numbers, &SUMS, &KEYS), due);
    let mut last = row([8, 4, 2, 3], &SUMS, &KEYS);
    last[20] = 1;
    for (state, due) in [
        numbers([8, 4, 2, 3], 0),
        numbers([0, 4, 2, 3], 8),
        numbers([33, 4, 2, 3], 8),
        numbers([8, 0, 2, 3], 8),
        numbers([8, 9, 2, 3], 8),
        numbers([8, 4, 0, 3], 8),
        numbers([8, 4, 1, 3], 8),
        numbers([8, 4, 9, 3], 8),
        numbers([8, 4, 8, 3], 0),
        numbers([7, 4, 2, 3], 8),
        numbers([32, 32, 2, 3], 0),
        numbers([8, 4, 2, 65_535], 0),
        numbers([8, 4, 2, 65_537], 8),
        numbers([8, 4, 2, u32::MAX], 8),
        (row([8, 4, 2, 3], &SUMS, &[10, 255]), 0),
        (row([8, 4, 2, 3], &SUMS, &[10, 256]), 8),
        (row([8, 4, 2, 3], &[256, 1], &KEYS), 8),
        (row([8, 4, 2, 3], &SUMS, &[10, 20, 1]), 8),
        (row([8, 4, 2, 3], &SUMS, &[10, 20, 0, 0, 0, 0, 0, 1]), 8),
        (row([8, 4, 2, 3], &[255, 1, 1], &KEYS), 8),
        (row([8, 4, 2, 3], &[255, 1, 0, 0, 0, 0, 0, 1], &KEYS), 8),
        (last, 8),
        (vec![0; STATE_WORDS], 8),
        (vec![u32::MAX; STATE_WORDS], 8),
    ] {
        assert_eq!(answer(&push(&state, &[1], &[1])), due, "{state:?}");
        assert_eq!(answer(&read(&state, 9)), due, "{state:?}");
    }
}

/// Calls that find a fit state of this width with so many words taken at each of their answers.
fn calls_at_each_answer(w: u32, taken: u32, state: &[u32]) -> (Vec<Push>, Vec<Read>) {
    let left = MOST_WORDS - taken as usize;
    let fit = |words| -> [Vec<u32>; 2] { fit_part(w, words) };
    let mut parts = vec![fit(0), fit(left.min(3)), fit(left.min(12))];
    // Long, where few words are left; Key; Word.
    parts.push(fit((left + 1).min(13)));
    parts.push([fit(0)[0].clone(), fit(1)[1].clone()]);
    let mut large = fit(left.min(2));
    large
        .iter_mut()
        .flat_map(|row| row.last_mut())
        .for_each(|word| *word = u32::MAX);
    parts.push(large);
    let pushes = parts.iter().map(|[message, key]| push(state, message, key));
    let reads = [0, 7, 8, 9].map(|places| read(state, places));
    (pushes.collect(), reads.to_vec())
}

/// Every place of a state, in use or not, with every power of two and the edges of every range;
/// each with calls that are answered otherwise where the state is fit.
#[test]
fn states_altered_at_every_place() {
    let edges = [0, 3, 7, 9, 15, 31, 33, 255, 65_535, 65_537, 0x7fff_ffff];
    let powers = (0..32).map(|power| 1 << power);
    let numbers: Vec<u32> = edges.into_iter().chain(powers).chain([u32::MAX]).collect();
    let mut seen = [0u64; 9];
    for (w, b, n, taken) in [
        (1, 1, 1, 0),
        (8, 4, 2, 3),
        (8, 8, 8, 65_536),
        (16, 16, 5, 65_530),
        (31, 2, 7, 9),
        (32, 32, 1, 65_535),
        (32, 17, 8, 0),
    ] {
        let state = fit_state(w, b, n, taken);
        for place in 0..STATE_WORDS {
            for number in &numbers {
                let mut state = state.clone();
                state[place] = *number;
                let (pushes, reads) = calls_at_each_answer(w, taken, &state);
                for call in pushes {
                    seen[answer(&call) as usize] += 1;
                }
                for call in reads {
                    seen[answer(&call) as usize] += 1;
                }
            }
        }
    }
    println!("states_altered_at_every_place: answers 0 to 8 were seen {seen:?} times");
    for due in [0, 4, 5, 6, 7, 8] {
        assert!(seen[due] > 100, "answer {due}");
    }
}

/// Rows of other lengths than a state's, whatever they hold: each begins or ends as a fit state, or
/// holds other words.
#[test]
fn rows_of_every_length() {
    let state = fit_state(8, 8, 2, 3);
    for places in (0..=24).chain([42, 84, 1_000]) {
        let open = open(settings(8, 8, 2), &[10, 20], places);
        let due = if places < STATE_WORDS { 6 } else { 0 };
        let left = outcome(&open);
        assert_eq!(left.answer, due, "{places} places");
        if due == 0 {
            let opened = row([8, 8, 2, 0], &[], &[10, 20]);
            assert_eq!(left.out[..STATE_WORDS], opened);
            assert_eq!(left.out[STATE_WORDS..], any_words(places - STATE_WORDS));
        }
        let mut first = state.clone();
        first.resize(places, 0);
        let mut last = first.clone();
        last.rotate_right(places.saturating_sub(STATE_WORDS));
        for row in [first, last, left.out] {
            let due = if places == STATE_WORDS { 0 } else { 8 };
            assert_eq!(answer(&push(&row, &[1], &[1])), due, "{places} places");
            assert_eq!(answer(&push(&row, &[], &[])), due, "{places} places");
            assert_eq!(answer(&read(&row, 8)), due, "{places} places");
            // The length comes before what else is wrong.
            if due == 8 {
                assert_eq!(answer(&push(&row, &[256], &[])), 8, "{places} places");
                assert_eq!(answer(&read(&row, 0)), 8, "{places} places");
            }
        }
    }
}

/// A part of a fit state's row is none, whatever stands beyond its end.
#[test]
fn part_of_a_states_row() {
    let state = fit_state(8, 8, 2, 3);
    for places in 0..STATE_WORDS {
        let mut row = state.clone();
        assert_eq!(ffi::stream_push(&mut row[..places], &[1], &[1]), 8);
        assert_eq!(row, state, "{places} places");
        let mut out = [9; 2];
        assert_eq!(ffi::stream_read(&row[..places], &mut out), 8);
        assert_eq!(out, [9; 2], "{places} places");
    }
}

/// The words taken and the pushed ones are at most 65,536 together.
#[test]
fn long() {
    for taken in 65_500..=65_540 {
        for words in 0..=40 {
            let [message, key] = fit_part(16, words);
            let mut call = push(&fit_state(16, 16, 3, taken), &message, &key);
            let due = match taken as usize {
                65_537.. => 8,
                taken if taken + words > 65_536 => 4,
                _ => 0,
            };
            assert_eq!(answer(&call), due, "{taken} taken, {words} words");
            // With a key of another length.
            call.key.push(1);
            let due = if due == 0 { 5 } else { due };
            assert_eq!(answer(&call), due, "{taken} taken, {words} words");
        }
    }
    for (taken, words, due) in [
        (0, 65_535, 0),
        (0, 65_536, 0),
        (0, 65_537, 4),
        (1, 65_535, 0),
        (1, 65_536, 4),
        (32_768, 32_768, 0),
        (32_768, 32_769, 4),
        (65_536, 65_536, 4),
        (65_537, 65_536, 8),
        // Their sum has no more than 32 bits of its own.
        (u32::MAX, 1, 8),
    ] {
        for n in [1, 8] {
            let [message, key] = fit_part(32, words);
            let state = fit_state(32, 32, n, taken);
            let call = push(&state, &message, &key);
            assert_eq!(answer(&call), due, "{taken} taken, {words} words");
        }
    }
}

/// The longest message, of words that are the largest, in one part and in many.
#[test]
fn largest_sums() {
    for (w, n) in [(1, 8), (8, 1), (16, 8), (31, 3), (32, 1), (32, 8)] {
        let settings = settings(w, w, n);
        let largest = u32::MAX >> (32 - w);
        let message = vec![largest; MOST_WORDS];
        let key = vec![largest; settings.key_words(MOST_WORDS)];
        let mut digest = any_words(n as usize);
        assert_eq!(ffi::digest_words(settings, &message, &key, &mut digest), 0);
        let (first, rest) = key.split_at(n as usize);
        let opened = accepted(&open(settings, first, STATE_WORDS));
        for part in [MOST_WORDS, 32_767, 4_099, 1_000] {
            let mut state = opened.clone();
            for (message, key) in message.chunks(part).zip(rest.chunks(part)) {
                state = accepted(&push(&state, message, key));
            }
            assert_eq!(state[3] as usize, MOST_WORDS);
            let reading = accepted(&read(&state, n as usize));
            assert_eq!(reading, digest, "w {w}, n {n}, parts of {part}");
            assert_eq!(answer(&push(&state, &[], &[])), 0);
            assert_eq!(answer(&push(&state, &[0], &[0])), 4);
        }
    }
}

/// A word that does not fit at every place of a push.
#[test]
fn word_at_every_place_of_a_push() {
    for (w, n) in [(1, 1), (8, 2), (16, 8), (31, 5)] {
        for words in (1..=20).chain([33, 64, 129]) {
            let [message, key] = fit_part(w, words);
            let call = push(&fit_state(w, w, n, 0), &message, &key);
            for place in 0..words {
                for (word, due) in [((1 << w) - 1, 0), (1 << w, 7), (u32::MAX, 7)] {
                    let [mut message, mut key] = [call.clone(), call.clone()];
                    message.message[place] = word;
                    assert_eq!(answer(&message), due, "w {w}, {word} at {place}");
                    key.key[place] = word;
                    assert_eq!(answer(&key), due, "w {w}, {word} at {place} of the key");
                }
            }
        }
    }
}

/// The same empty row for each, and literals that have no allocation.
#[test]
fn empty_rows() {
    assert_eq!(ffi::stream_open(settings(0, 0, 0), &[], &mut []), 1);
    assert_eq!(ffi::stream_open(settings(8, 0, 0), &[], &mut []), 2);
    assert_eq!(ffi::stream_open(settings(8, 8, 0), &[], &mut []), 3);
    assert_eq!(ffi::stream_open(settings(8, 8, 1), &[], &mut []), 5);
    assert_eq!(ffi::stream_open(settings(8, 8, 1), &[7], &mut []), 6);
    assert_eq!(ffi::stream_push(&mut [], &[], &[]), 8);
    assert_eq!(ffi::stream_read(&[], &mut []), 8);
    let mut state = fit_state(8, 8, 1, 0);
    assert_eq!(ffi::stream_push(&mut state, &[], &[]), 0);
    assert_eq!(ffi::stream_read(&state, &mut []), 6);
}

/// Every set of faults of an opening: the answer is the first in the order of the tests.
#[test]
fn order_of_the_tests_of_an_opening() {
    for faults in Faults::every_set(6) {
        let w = faults.pick(0, 8, 33, 0);
        let b = faults.pick(1, 8, 0, 34);
        let n = faults.pick(2, 2, 9, 0);
        // A key that has a word too much or too few, also for a count out of range.
        let mut key = vec![1; faults.pick(3, n, n + 1, n.saturating_sub(1))];
        let places = faults.pick(4, STATE_WORDS, STATE_WORDS - 1, 0);
        if let (true, Some(word)) = (faults.pick(5, false, true, true), key.last_mut()) {
            *word = 1 << faults.pick(5, 0, 8, 31);
        }
        let call = open(settings(w, b, n as u32), &key, places);
        // A count of 0 has no key that is too short, nor any word.
        if n != 0 {
            let first = faults
                .first()
                .map(|fault| [1, 2, 3, 5, 6, 7][fault as usize]);
            assert_eq!(answer(&call), first.unwrap_or(0), "{faults:?}");
        } else {
            answer(&call);
        }
    }
}

/// Every set of faults of a push, the state's in two forms: its row's length, and a number in it.
#[test]
fn order_of_the_tests_of_a_push() {
    for faults in Faults::every_set(4) {
        let mut state = fit_state(8, 8, 2, 65_530);
        state.truncate(faults.pick(0, STATE_WORDS, STATE_WORDS - 1, STATE_WORDS));
        state[1] = faults.pick(0, 8, 8, 9);
        let words = faults.pick(1, 6, 7, 65_537);
        let mut call = push(&state, &vec![1; words], &vec![1; words]);
        call.key
            .resize(faults.pick(2, words, words - 1, words + 1), 1);
        let [early, last] = faults.pick(3, [false; 2], [true, false], [false, true]);
        if early {
            call.message[0] = 256;
        }
        if last {
            *call.key.last_mut().unwrap() = 256;
        }
        let first = faults.first().map(|fault| [8, 4, 5, 7][fault as usize]);
        assert_eq!(answer(&call), first.unwrap_or(0), "{faults:?}");
    }
}

#[test]
fn order_of_the_tests_of_a_reading() {
    for faults in Faults::every_set(2) {
        let mut state = fit_state(8, 8, 2, 65_536);
        state.resize(faults.pick(0, STATE_WORDS, STATE_WORDS + 1, STATE_WORDS), 0);
        state[3] = faults.pick(0, 65_536, 65_536, 65_537);
        let call = read(&state, faults.pick(1, 2, 1, 0));
        let first = faults.first().map(|fault| [8, 6][fault as usize]);
        assert_eq!(answer(&call), first.unwrap_or(0), "{faults:?}");
    }
}

/// A stream as a Rust value.
mod value {
    use super::*;

    fn opened() -> Stream {
        Stream::open(&settings(8, 4, 2), &[10, 20]).unwrap()
    }

    #[test]
    fn results_name_the_refusals() {
        let open = |w, b, n, key: &[u32]| Stream::open(&settings(w, b, n), key).map(|_| ());
        assert_eq!(open(8, 4, 2, &[10, 20]), Ok(()));
        assert_eq!(open(0, 4, 2, &[10, 20]), Err(Refusal::Width));
        assert_eq!(open(8, 0, 2, &[10, 20]), Err(Refusal::Kept));
        assert_eq!(open(8, 4, 9, &[10, 20]), Err(Refusal::Count));
        assert_eq!(open(8, 4, 2, &[10]), Err(Refusal::Key));
        assert_eq!(open(8, 4, 2, &[10, 256]), Err(Refusal::Word));
        let mut stream = opened();
        let before = stream.clone();
        let long = vec![0; MOST_WORDS + 1];
        assert_eq!(stream.push(&long, &long), Err(Refusal::Long));
        assert_eq!(stream.push(&[1], &[]), Err(Refusal::Key));
        assert_eq!(stream.push(&[1], &[256]), Err(Refusal::Word));
        let mut out = [9];
        assert_eq!(stream.read_into(&mut out), Err(Refusal::Tray));
        assert_eq!((stream, out), (before, [9]));
        let mut none = Stream::from_words([0; STATE_WORDS]);
        assert_eq!(none.push(&[], &[]), Err(Refusal::State));
        assert_eq!(none.read().map(|_| ()), Err(Refusal::State));
        assert_eq!(none.read_into(&mut out), Err(Refusal::State));
        assert_eq!((none.as_words(), out), (&[0; STATE_WORDS], [9]));
    }

    #[test]
    fn what_the_state_has() {
        let mut stream = opened();
        assert_eq!((stream.settings(), stream.taken()), (settings(8, 4, 2), 0));
        stream.push(&[1, 2, 3], &[4, 5, 6]).unwrap();
        assert_eq!((stream.settings(), stream.taken()), (settings(8, 4, 2), 3));
        // As they stand, fit or not.
        let words = std::array::from_fn(|place| u32::MAX - place as u32);
        let stream = Stream::from_words(words);
        let (w, b, n) = (u32::MAX, u32::MAX - 1, u32::MAX - 2);
        assert_eq!(stream.settings(), settings(w, b, n));
        assert_eq!(stream.taken(), u32::MAX as usize - 3);
        assert_eq!(stream.as_words(), &words);
    }

    /// Restored at any moment, it goes on as the stream that was not.
    #[test]
    fn restored() {
        let settings = settings(16, 16, 3);
        let Digest { message, key, .. } = Digest::<u32>::fit(settings, 20);
        let mut stream = Stream::open(&settings, &key[..3]).unwrap();
        for (message, key) in message.chunks(6).zip(key[3..].chunks(6)) {
            let mut restored = Stream::from_words(*stream.as_words());
            assert_eq!(restored, stream);
            restored.push(message, key).unwrap();
            assert_ne!(restored, stream);
            stream.push(message, key).unwrap();
            assert_eq!(restored, stream);
            assert_eq!(restored.read(), stream.read());
        }
        assert_eq!(stream.read(), settings.digest_words(&message, &key));
    }

    /// Every word of two states counts.
    #[test]
    fn equality() {
        let stream = opened();
        for place in 0..STATE_WORDS {
            let mut words = *stream.as_words();
            words[place] ^= 1 << 31;
            assert_ne!(Stream::from_words(words), stream, "place {place}");
        }
    }

    /// Key words and sums are not shown.
    #[test]
    fn shown_for_debugging() {
        let mut words = [987_654_321; STATE_WORDS];
        words[..4].copy_from_slice(&[8, 4, 2, 77]);
        let stream = Stream::from_words(words);
        assert_eq!(
            format!("{stream:?}"),
            "Stream { settings: Settings { width: 8, kept: 4, words: 2 }, taken: 77, .. }"
        );
        assert!(!format!("{stream:#?}").contains("987"));
    }
}
