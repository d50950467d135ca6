//! Incremental digests: worked edits, every edit of short messages, how far an edit reaches, the
//! edges of each test and their order, words that are not looked at, rows of every length, states
//! altered at every place, and an incremental digest as a Rust value.

#![forbid(unsafe_code)]

#[path = "edits/mod.rs"]
mod common;

use common::calls::{settings, Digest};
use common::faults::Faults;
use common::incremental::{sums, STATE_WORDS};
use common::incremental_calls::{Edit, Open};
use common::paper::MOST_WORDS;
use common::random::Random;
use common::states::{accepted, altered, answer, any_words, beside_fit_sums, outcome};
use common::states::{check_equality, check_order_of_a_reading, check_readings, check_shown};
use common::states::{sums_row, Read};
use common::stream;
use pairing_agent::{ffi, Incremental, Refusal, Settings};

fn open(settings: Settings, message: &[u32], key: &[u32], places: usize) -> Open {
    Open {
        settings,
        message: message.to_vec(),
        key: key.to_vec(),
        state: any_words(places),
    }
}

fn edit(state: &[u32], message: &[u32], key: &[u32], place: usize, word: u32) -> Edit {
    Edit {
        state: state.to_vec(),
        message: message.to_vec(),
        key: key.to_vec(),
        place,
        word,
    }
}

fn read(state: &[u32], places: usize) -> Read<Incremental> {
    Read::new(state, any_words(places))
}

/// An edit that is accepted, but for what is done to it: of a fit state of these settings, whose
/// sums are no message's, and of a message of so many words.
fn fit_edit(w: u32, b: u32, n: u32, words: usize, place: usize) -> Edit {
    let mut random = Random::new(u64::from(w) + 100 * words as u64);
    let mut fit = |words| -> Vec<u32> { (0..words).map(|_| random.word() >> (32 - w)).collect() };
    Edit {
        state: sums_row([w, b, n, words as u32], &fit(n as usize)),
        message: fit(words),
        key: fit(words + n as usize),
        place,
        word: fit(1)[0],
    }
}

/// What an accepted edit leaves: the state's row, and the message.
fn edited(call: &Edit) -> [Vec<u32>; 2] {
    let mut state = accepted(call);
    let message = state.split_off(STATE_WORDS);
    [state, message]
}

/// Makes each edit on what the last one left. At every moment the reading is the digest of the
/// message as it is, by the sum over all of it and by the library's word digest.
fn check_edits(settings: Settings, message: &[u32], key: &[u32], edits: &[(usize, u32)]) {
    let n = settings.words as usize;
    let mut state = accepted(&open(settings, message, key, STATE_WORDS));
    let mut message = message.to_vec();
    for (place, word) in edits {
        let mut due = message.clone();
        due[*place] = *word;
        [state, message] = edited(&edit(&state, &message, key, *place, *word));
        assert_eq!(message, due);
        assert_eq!(state[4..4 + n], sums(settings.width, n as u32, &due, key));
        let reading = accepted(&read(&state, 8));
        let mut whole = any_words(8);
        assert_eq!(ffi::digest_words(settings, &message, key, &mut whole), 0);
        assert_eq!(reading, whole, "{settings:?}, place {place}, word {word}");
    }
}

/// Case C of document 01 is opened; what the edits leave follows by hand.
#[test]
fn case_c_edited() {
    let key = [10, 20, 100, 250];
    for (b, readings) in [(8, [[0xac, 0xff], [182, 19], [40, 81]]), (4, CASE_D)] {
        let opened = accepted(&open(settings(8, b, 2), &[3, 7], &key, STATE_WORDS + 3));
        assert_eq!(opened[STATE_WORDS..], any_words(3));
        let opened = &opened[..STATE_WORDS];
        assert_eq!(opened, sums_row([8, b, 2, 2], &[0xac, 0xff]));
        // 3 gave 30 + 0 and 60 + 1; 4 gives 40 + 0 and 80 + 1.
        let [one, message] = edited(&edit(opened, &[3, 7], &key, 0, 4));
        assert_eq!(
            (&one, &message[..]),
            (&sums_row([8, b, 2, 2], &[182, 19]), &[4, 7][..])
        );
        // 7 gave 140 + 2 and 700 + 6; 0 gives nothing.
        let [two, message] = edited(&edit(&one, &message, &key, 1, 0));
        assert_eq!(
            (&two, &message[..]),
            (&sums_row([8, b, 2, 2], &[40, 81]), &[4, 0][..])
        );
        for (state, due) in [opened, &one, &two].into_iter().zip(readings) {
            assert_eq!(accepted(&read(state, 3)), [due[0], due[1], 0xdead_beef]);
        }
    }
}

/// The same with four bits kept, which count on reading alone.
const CASE_D: [[u32; 2]; 3] = [[0x0c, 0x0f], [6, 3], [8, 1]];

/// By hand: an edit that raises one sum by what its products say, and the other by one more. The
/// guide's keystroke, where they say 1 and 128; then case C with the 7 raised by 3, where they say
/// 3·20 + (300 div 256) = 61 and 3·100 + (750 div 256) = 302.
#[test]
fn worked_reach() {
    let key = [1, 128, 0];
    let opened = accepted(&open(settings(8, 8, 2), &[1], &key, STATE_WORDS));
    assert_eq!(opened, sums_row([8, 8, 2, 1], &[1, 128]));
    let [after, message] = edited(&edit(&opened, &[1], &key, 0, 2));
    assert_eq!((after, message), (sums_row([8, 8, 2, 1], &[3, 0]), vec![2]));
    let (opened, key) = (sums_row([8, 8, 2, 2], &[172, 255]), [10, 20, 100, 250]);
    let [after, _] = edited(&edit(&opened, &[3, 7], &key, 1, 10));
    let due = [172 + 61, (255 + 303) % 256];
    assert_eq!(after, sums_row([8, 8, 2, 2], &due));
}

/// A word is raised by c, staying below 2^w: each sum is raised by c·k + (c·k' div 2^w), or by one
/// more. Every word, every c and every two key words of four bits; both occur.
#[test]
fn reach_of_an_edit() {
    let size = 16;
    let mut seen = [0u64; 2];
    for (k, next) in (0..size * size).map(|keys| (keys / size, keys % size)) {
        for (old, new) in (0..size).flat_map(|old| (old..size).map(move |new| (old, new))) {
            let mut state = sums_row([4, 4, 1, 1], &[5]);
            let answer = ffi::incremental_edit(&mut state, &mut [old], &[k, next], 0, new);
            assert_eq!(answer, 0);
            let c = new - old;
            let least = (5 + c * k + c * next / size) % size;
            let more = (state[4] + size - least) % size;
            assert!(more < 2, "{old} to {new}, key words {k} and {next}");
            seen[more as usize] += 1;
        }
    }
    println!(
        "reach_of_an_edit: by no more {} times, by one more {}",
        seen[0], seen[1]
    );
    assert!(seen.iter().all(|times| *times > 1_000), "{seen:?}");
}

/// The same at width 32, for each of eight sums.
#[test]
fn reach_at_the_largest_width() {
    let mut random = Random::new(33);
    for _ in 0..2_000 {
        let key = random.row(9);
        let (one, other) = (random.word(), random.word());
        let (old, new) = (one.min(other), one.max(other));
        let before = accepted(&open(settings(32, 32, 8), &[old], &key, STATE_WORDS));
        let [after, _] = edited(&edit(&before, &[old], &key, 0, new));
        let c = u64::from(new - old);
        for i in 0..8 {
            let [k, next] = [key[i], key[i + 1]].map(u64::from);
            let least = (c.wrapping_mul(k)).wrapping_add((c * next) >> 32) as u32;
            let raised = after[4 + i].wrapping_sub(before[4 + i]);
            assert!(raised.wrapping_sub(least) < 2, "sum {i}, {old} to {new}");
        }
    }
}

/// Every message, key, place and word at the narrowest settings.
#[test]
fn every_edit_of_narrow_words() {
    for (w, n, words) in [(1, 1, 3), (1, 3, 2), (2, 1, 2), (2, 2, 1), (3, 1, 1)] {
        let row_of = |number: u32, words: usize| -> Vec<u32> {
            (0..words)
                .map(|place| number >> (w * place as u32) & ((1 << w) - 1))
                .collect()
        };
        let key_words = words + n as usize;
        for key in (0..1 << (w as usize * key_words)).map(|number| row_of(number, key_words)) {
            for message in (0..1 << (w as usize * words)).map(|number| row_of(number, words)) {
                for place in 0..words {
                    let edits: Vec<_> = (0..1 << w).map(|word| (place, word)).collect();
                    check_edits(settings(w, w, n), &message, &key, &edits);
                }
            }
        }
    }
}

/// Each place of messages that are shorter and longer than the key words of an edit, edited to the
/// ends of the range, to 1 and to any word.
#[test]
fn every_place_at_every_count() {
    for (w, b) in [(1, 1), (7, 7), (16, 9), (31, 31), (32, 32), (32, 1)] {
        for n in 1..=8 {
            for words in [1, 2, 8, 9, 17] {
                let Digest { message, key, .. } = Digest::<u32>::fit(settings(w, b, n), words);
                let largest = u32::MAX >> (32 - w);
                let edits = (0..words).flat_map(|place| {
                    [largest, 0, message[words - 1 - place], 1].map(|word| (place, word))
                });
                check_edits(
                    settings(w, b, n),
                    &message,
                    &key,
                    &edits.collect::<Vec<_>>(),
                );
            }
        }
    }
}

/// An edit to the same word leaves everything as it was, and so do one and its way back. Two edits at
/// different places may be made in either order.
#[test]
fn edits_that_come_to_the_same() {
    for (w, b, n) in [(1, 1, 8), (8, 5, 2), (32, 32, 1), (32, 17, 8)] {
        let call = fit_edit(w, b, n, 12, 3);
        let Edit {
            state,
            message,
            key,
            word,
            ..
        } = &call;
        let same = edited(&edit(state, message, key, 3, message[3]));
        assert_eq!(same, [state.clone(), message.clone()]);
        let [there, changed] = edited(&call);
        let back = edited(&edit(&there, &changed, key, 3, message[3]));
        assert_eq!(back, [state.clone(), message.clone()]);
        let two = [(3, *word), (4, message[0])];
        let [one_way, other_way] = [two, [two[1], two[0]]].map(|edits| {
            edits.into_iter().fold(
                [state.clone(), message.clone()],
                |[state, message], last| edited(&edit(&state, &message, key, last.0, last.1)),
            )
        });
        assert_eq!(one_way, other_way);
    }
}

#[test]
fn openings() {
    let key = [10, 20, 100, 255];
    for (w, b, n, message, key, due) in [
        (8, 8, 2, &[3, 255][..], &key[..], 0),
        (0, 8, 2, &[3, 7], &key, 1),
        (33, 8, 2, &[3, 7], &key, 1),
        (0, 0, 0, &[], &[], 1),
        (8, 0, 2, &[3, 7], &key, 2),
        (8, 9, 9, &[3, 7], &key, 2),
        (8, 8, 0, &[3, 7], &key[..2], 3),
        (8, 8, 9, &[], &[1, 2, 3, 4, 5, 6, 7, 8, 9], 3),
        (8, 8, 8, &[], &[1, 2, 3, 4, 5, 6, 7, 8], 0),
        (8, 8, 2, &[3, 7], &key[..3], 5),
        (8, 8, 1, &[3, 7], &key, 5),
        (8, 8, 2, &[3, 7], &[], 5),
        (8, 8, 2, &[256], &key, 5),
        (8, 8, 2, &[3, 256], &key, 7),
        (8, 8, 2, &[3, 7], &[10, 20, 100, 256], 7),
        (8, 8, 4, &[], &[10, 20, 100, 256], 7),
        (1, 1, 1, &[1], &[1, 1], 0),
        (1, 1, 1, &[2], &[1, 1], 7),
        (32, 32, 1, &[u32::MAX], &[u32::MAX; 2], 0),
    ] {
        let call = open(settings(w, b, n), message, key, STATE_WORDS);
        assert_eq!(
            answer(&call),
            due,
            "w {w}, b {b}, n {n}, {message:?}, {key:?}"
        );
    }
}

#[test]
fn settings_of_openings() {
    let answer = |w, b, n, words| {
        answer(&open(
            settings(w, b, n),
            &[0; 3],
            &vec![0; words],
            STATE_WORDS,
        ))
    };
    for w in (0..=40).chain([64, 256, 1 << 16, 1 << 31, u32::MAX]) {
        let due = u32::from(!(1..=32).contains(&w));
        assert_eq!(answer(w, 1, 1, 4), due, "w {w}");
    }
    for w in 1..=32 {
        for b in (0..=40).chain([w + 32, u32::MAX]) {
            let due = if (1..=w).contains(&b) { 0 } else { 2 };
            assert_eq!(answer(w, b, 1, 4), due, "w {w}, b {b}");
        }
    }
    for n in (0..=20).chain([257, 1 << 16, u32::MAX - 2, u32::MAX]) {
        for words in 0..=20 {
            let due = match n {
                1..=8 if words == n as usize + 3 => 0,
                1..=8 => 5,
                _ => 3,
            };
            assert_eq!(answer(8, 8, n, words), due, "n {n}, {words} words");
        }
    }
}

/// A word that does not fit at each place of an opening's rows.
#[test]
fn word_at_every_place_of_an_opening() {
    for (w, n) in [(1, 1), (8, 2), (16, 8), (31, 5)] {
        for words in (0..=20).chain([33]) {
            let Digest { message, key, .. } = Digest::<u32>::fit(settings(w, 1, n), words);
            let call = open(settings(w, 1, n), &message, &key, STATE_WORDS);
            for (word, due) in [((1 << w) - 1, 0), (1 << w, 7), (u32::MAX, 7)] {
                for place in 0..words {
                    let mut call = call.clone();
                    call.message[place] = word;
                    assert_eq!(answer(&call), due, "w {w}, {word} at {place}");
                }
                for place in 0..key.len() {
                    let mut call = call.clone();
                    call.key[place] = word;
                    assert_eq!(answer(&call), due, "w {w}, {word} at {place} of the key");
                }
            }
        }
    }
}

/// An opening's longest message, and one that is too long.
#[test]
fn long_openings() {
    for (w, n) in [(1, 8), (16, 1), (32, 8)] {
        for (words, due) in [(65_535, 0), (65_536, 0), (65_537, 4), (131_072, 4)] {
            let Digest { message, key, .. } = Digest::<u32>::fit(settings(w, w, n), words);
            let mut call = open(settings(w, w, n), &message, &key, STATE_WORDS);
            let left = outcome(&call);
            assert_eq!(left.answer, due, "{words} words");
            assert!(due != 0 || left.out[3] as usize == words);
            // With a key of another length.
            call.key.pop();
            let due = if due == 0 { 5 } else { due };
            assert_eq!(answer(&call), due, "{words} words");
        }
    }
}

/// The longest message, edited at its ends and within; of words that are the largest too.
#[test]
fn long_edits() {
    for (w, n) in [(1, 8), (16, 1), (32, 8)] {
        for words in [65_535, 65_536] {
            let Digest { message, key, .. } = Digest::<u32>::fit(settings(w, w, n), words);
            let largest = u32::MAX >> (32 - w);
            let edits = [0, 1, 32_768, words - 2, words - 1].map(|place| (place, largest));
            check_edits(settings(w, w, n), &message, &key, &edits);
        }
        let (message, key) = (vec![u32::MAX >> (32 - w); 65_536], u32::MAX >> (32 - w));
        let key = vec![key; 65_536 + n as usize];
        check_edits(
            settings(w, w, n),
            &message,
            &key,
            &[(65_535, 0), (0, 0), (0, 1)],
        );
    }
    for words in [65_535, 65_536, 65_537] {
        for message_words in [65_535, 65_536, 65_537] {
            let mut call = fit_edit(16, 16, 3, words, 65_534);
            call.message.resize(message_words, 1);
            let due = match words {
                65_537 => 8,
                words if words != message_words => 4,
                _ => 0,
            };
            assert_eq!(
                answer(&call),
                due,
                "{words} words, a row of {message_words}"
            );
        }
    }
}

/// Rows of other lengths than the state's count and n more, each pair of lengths.
#[test]
fn lengths_of_an_edit() {
    for words in [1, 2, 5, 9] {
        for n in 1..=8 {
            let call = fit_edit(8, 8, n, words, 0);
            let due_key = words + n as usize;
            for message_words in 0..=words + 2 {
                for key_words in (0..=due_key + 2).chain([message_words + n as usize]) {
                    let mut call = call.clone();
                    call.message.resize(message_words, 1);
                    call.key.resize(key_words, 1);
                    let due = match (message_words == words, key_words == due_key) {
                        (false, _) => 4,
                        (true, false) => 5,
                        (true, true) => 0,
                    };
                    let sizes = format!("{words}, n {n}, rows of {message_words}, {key_words}");
                    assert_eq!(answer(&call), due, "{sizes}");
                }
            }
        }
    }
}

/// Places past the message's end: the next ones, and those that are a place of it modulo a power of
/// two or after an addition that wraps.
#[test]
fn places() {
    for words in [0, 1, 2, 3, 8, 40, 256] {
        for n in [1, 8] {
            let near = (0..=words + 10).chain([255, 256, 257, 65_535, 65_536, 65_537]);
            let powers = (8..64).flat_map(|power| [1 << power, (1usize << power) + 1]);
            let last = (0..12).map(|less| usize::MAX - less);
            for place in near.chain(powers).chain(last) {
                let due = if place < words { 0 } else { 12 };
                let call = fit_edit(16, 16, n, words, place);
                assert_eq!(answer(&call), due, "{words} words, place {place}");
            }
        }
    }
}

/// Without words every place is none, and the state is opened, read and refused for the rest.
#[test]
fn no_words() {
    for n in 1..=8 {
        let key = vec![7; n as usize];
        let opened = accepted(&open(settings(8, 5, n), &[], &key, STATE_WORDS));
        assert_eq!(opened, sums_row([8, 5, n, 0], &[]));
        assert_eq!(accepted(&read(&opened, n as usize)), vec![0; n as usize]);
        for place in [0, 1, 255, 256, 1 << 32, usize::MAX - 8, usize::MAX] {
            assert_eq!(answer(&edit(&opened, &[], &key, place, 0)), 12);
            assert_eq!(answer(&edit(&opened, &[], &key, place, 256)), 12);
        }
        assert_eq!(answer(&edit(&opened, &[1], &key, 0, 0)), 4);
        assert_eq!(answer(&edit(&opened, &[], &[], 0, 0)), 5);
    }
}

/// A word that does not fit, at each place of both rows: an edit looks at the word at its place and
/// at the n + 1 key words from there on, and at no other.
#[test]
fn words_that_are_looked_at() {
    for (w, n) in [(1, 1), (8, 2), (16, 8), (31, 5)] {
        for words in [1, 2, 7, 20] {
            for place in 0..words {
                let call = fit_edit(w, w, n, words, place);
                for (word, due) in [((1 << w) - 1, 0), (1 << w, 7), (u32::MAX, 7)] {
                    let looked_at = |is: bool| if is { due } else { 0 };
                    for other in 0..words {
                        let mut call = call.clone();
                        call.message[other] = word;
                        let due = looked_at(other == place);
                        assert_eq!(answer(&call), due, "w {w}, {word} at {other}, for {place}");
                    }
                    for other in 0..call.key.len() {
                        let mut call = call.clone();
                        call.key[other] = word;
                        let due = looked_at((place..=place + n as usize).contains(&other));
                        assert_eq!(answer(&call), due, "w {w}, key word {other}, for {place}");
                    }
                    let mut call = call.clone();
                    call.word = word;
                    assert_eq!(answer(&call), due, "w {w}, {word} for {place}");
                }
            }
        }
    }
}

/// No word fits but those that are looked at, and the edit goes through.
#[test]
fn only_the_words_looked_at_fit() {
    for n in 1..=8 {
        let mut call = fit_edit(8, 8, n, 30, 11);
        let fit = call.clone();
        call.message.fill(u32::MAX);
        call.key.fill(u32::MAX);
        call.message[11] = fit.message[11];
        let part = 11..=11 + n as usize;
        call.key[part.clone()].copy_from_slice(&fit.key[part]);
        let [state, message] = edited(&call);
        assert_eq!(state, edited(&fit)[0]);
        assert_eq!(message[11], call.word);
    }
}

#[test]
fn readings() {
    let state = sums_row([8, 4, 2, 3], &[255, 1]);
    assert_eq!(accepted(&read(&state, 2)), [15, 1]);
    for n in 1..=8 {
        for (w, b) in [(8, 1), (8, 5), (8, 8), (32, 31), (32, 32)] {
            check_readings::<Incremental>(&fit_edit(w, b, n, 9, 0).state);
        }
    }
}

/// States beside a fit one, some of them fit too.
#[test]
fn states() {
    let more = [(vec![0; STATE_WORDS], 8), (vec![u32::MAX; STATE_WORDS], 8)];
    for (state, due) in beside_fit_sums().into_iter().chain(more) {
        let key = vec![1; 3 + state[2].min(9) as usize];
        let call = edit(&state, &[1, 2, 3], &key, 2, 4);
        assert_eq!(answer(&call), due, "{state:?}");
        assert_eq!(answer(&read(&state, 9)), due, "{state:?}");
    }
}

/// Calls that find a state at each of their answers where it is fit.
fn calls_at_each_answer(state: &[u32], fit: &Edit) -> Vec<Edit> {
    let mut calls = vec![fit.clone(); 6];
    calls[1].message.push(0);
    calls[2].key.pop();
    calls[3].place = fit.message.len();
    calls[4].word = u32::MAX;
    *calls[5].key.last_mut().unwrap() = 1 << 31;
    calls[5].place = fit.message.len() - 1;
    calls
        .iter_mut()
        .for_each(|call| call.state = state.to_vec());
    calls
}

/// States altered at one place, each with calls that are answered otherwise where the state is fit.
#[test]
fn states_altered_at_every_place() {
    let mut seen = [0u64; 13];
    for (w, b, n, words) in [
        (1, 1, 1, 1),
        (8, 4, 2, 3),
        (8, 8, 8, 40),
        (31, 2, 7, 9),
        (32, 32, 1, 64),
    ] {
        let fit = fit_edit(w, b, n, words, words / 2);
        for state in altered(&fit.state) {
            for call in calls_at_each_answer(&state, &fit) {
                seen[answer(&call) as usize] += 1;
            }
            for places in [0, 7, 8, 9] {
                seen[answer(&read(&state, places)) as usize] += 1;
            }
        }
    }
    println!("states_altered_at_every_place: answers 0 to 12 were seen {seen:?} times");
    for due in [0, 4, 5, 6, 7, 8, 12] {
        assert!(seen[due] > 100, "answer {due}");
    }
}

/// Rows of other lengths than a state's, whatever they hold: each begins or ends as a fit state, or
/// holds other words. A stream's row is among them.
#[test]
fn rows_of_every_length() {
    let fit = fit_edit(8, 8, 2, 3, 1);
    for places in (0..=24).chain([36, 84, 1_000]) {
        let open = open(settings(8, 8, 2), &fit.message, &fit.key, places);
        let due = if places < STATE_WORDS { 6 } else { 0 };
        let left = outcome(&open);
        assert_eq!(left.answer, due, "{places} places");
        if due == 0 {
            let beyond = any_words(places - STATE_WORDS);
            assert_eq!(left.out[STATE_WORDS..], beyond);
        }
        let mut first = fit.state.clone();
        first.resize(places, 0);
        let mut last = first.clone();
        last.rotate_right(places.saturating_sub(STATE_WORDS));
        for state in [first, last, left.out] {
            let due = if places == STATE_WORDS { 0 } else { 8 };
            let mut call = Edit {
                state,
                ..fit.clone()
            };
            assert_eq!(answer(&call), due, "{places} places");
            assert_eq!(answer(&read(&call.state, 8)), due, "{places} places");
            // The length comes before what else is wrong.
            if due == 8 {
                call.message.clear();
                assert_eq!(answer(&call), 8, "{places} places");
                assert_eq!(answer(&read(&call.state, 0)), 8, "{places} places");
            }
        }
    }
}

/// One kind of state is not taken for another.
#[test]
fn other_kinds_of_states() {
    let fit = fit_edit(8, 8, 2, 3, 1);
    let stream = stream::open(settings(8, 8, 2), &[10, 20], &[0; stream::STATE_WORDS]);
    assert_eq!(stream.answer, 0);
    let call = Edit {
        state: stream.out.clone(),
        message: vec![],
        key: vec![1, 2],
        ..fit.clone()
    };
    assert_eq!(answer(&call), 8);
    assert_eq!(answer(&read(&stream.out, 2)), 8);
    let mut row = fit.state.clone();
    assert_eq!(ffi::stream_push(&mut row, &[1], &[1]), 8);
    assert_eq!(ffi::stream_read(&row, &mut [0; 2]), 8);
    assert_eq!(row, fit.state);
}

/// A part of a fit state's row is none, whatever stands beyond its end.
#[test]
fn part_of_a_states_row() {
    let Edit {
        state,
        message,
        key,
        ..
    } = fit_edit(8, 8, 2, 3, 1);
    for places in 0..STATE_WORDS {
        let (mut row, mut words) = (state.clone(), message.clone());
        let answer = ffi::incremental_edit(&mut row[..places], &mut words, &key, 1, 9);
        assert_eq!(
            (answer, &row, &words),
            (8, &state, &message),
            "{places} places"
        );
        let mut out = [9; 2];
        assert_eq!(ffi::incremental_read(&row[..places], &mut out), 8);
        assert_eq!(out, [9; 2], "{places} places");
    }
}

/// The same empty row for each, and literals that have no allocation.
#[test]
fn empty_rows() {
    let open = |w, b, n, key: &[u32]| ffi::incremental_open(settings(w, b, n), &[], key, &mut []);
    assert_eq!(open(0, 0, 0, &[]), 1);
    assert_eq!(open(8, 0, 0, &[]), 2);
    assert_eq!(open(8, 8, 0, &[]), 3);
    assert_eq!(open(8, 8, 1, &[]), 5);
    assert_eq!(open(8, 8, 1, &[7]), 6);
    assert_eq!(ffi::incremental_edit(&mut [], &mut [], &[], 0, 0), 8);
    assert_eq!(ffi::incremental_read(&[], &mut []), 8);
    let mut state = sums_row([8, 8, 1, 0], &[9]);
    assert_eq!(ffi::incremental_edit(&mut state, &mut [], &[], 0, 0), 5);
    assert_eq!(ffi::incremental_edit(&mut state, &mut [], &[7], 0, 0), 12);
    assert_eq!(ffi::incremental_read(&state, &mut []), 6);
}

/// Every set of faults of an opening: the answer is the first in the order of the tests.
#[test]
fn order_of_the_tests_of_an_opening() {
    for faults in Faults::every_set(7) {
        let w = faults.pick(0, 8, 33, 0);
        let b = faults.pick(1, 8, 0, 34);
        let n = faults.pick(2, 2, 9, 0);
        let words = faults.pick(3, 5, 65_537, 65_600);
        // A key that has a word too much or too few, also for a count out of range.
        let key_words = faults.pick(4, words + n, words + n + 1, words + n - 1);
        let places = faults.pick(5, STATE_WORDS, STATE_WORDS - 1, 0);
        let mut call = open(
            settings(w, b, n as u32),
            &vec![1; words],
            &vec![1; key_words],
            places,
        );
        let [early, last] = faults.pick(6, [false; 2], [true, false], [false, true]);
        if early {
            *call.message.last_mut().unwrap() = 256;
        }
        if last {
            *call.key.last_mut().unwrap() = u32::MAX;
        }
        let first = faults.first().map_or(0, |fault| fault + 1);
        assert_eq!(answer(&call), first, "{faults:?}");
    }
}

/// Every set of faults of an edit, the state's in two forms: its row's length, and a number in it.
#[test]
fn order_of_the_tests_of_an_edit() {
    for word in 0..4 {
        for faults in Faults::every_set(5) {
            let mut call = fit_edit(8, 8, 2, 9, 4);
            // Before the rows change their lengths, so that there is such a word.
            let too_large = faults.pick(4, 1, 256, u32::MAX);
            match word {
                0 => call.word = too_large,
                1 => call.message[4] = too_large,
                2 => call.key[4] = too_large,
                _ => call.key[6] = too_large,
            }
            call.state
                .truncate(faults.pick(0, STATE_WORDS, STATE_WORDS - 1, STATE_WORDS));
            call.state[1] = faults.pick(0, 8, 8, 9);
            call.message.resize(faults.pick(1, 9, 8, 10), 1);
            call.key.resize(faults.pick(2, 11, 10, 12), 1);
            call.place = faults.pick(3, 4, 9, usize::MAX);
            let first = faults.first().map(|fault| [8, 4, 5, 12, 7][fault as usize]);
            assert_eq!(answer(&call), first.unwrap_or(0), "{faults:?}");
        }
    }
}

#[test]
fn order_of_the_tests_of_a_reading() {
    check_order_of_a_reading::<Incremental>(&sums_row([8, 8, 2, 65_536], &[1, 2]));
}

/// An incremental digest as a Rust value.
mod value {
    use super::*;

    const KEY: [u32; 4] = [10, 20, 100, 250];

    fn opened() -> Incremental {
        Incremental::open(&settings(8, 4, 2), &[3, 7], &KEY).unwrap()
    }

    #[test]
    fn results_name_the_refusals() {
        let open = |w, b, n, message: &[u32], key: &[u32]| {
            Incremental::open(&settings(w, b, n), message, key).map(|_| ())
        };
        let long = vec![0; MOST_WORDS + 1];
        assert_eq!(open(8, 4, 2, &[3, 7], &KEY), Ok(()));
        assert_eq!(open(0, 4, 2, &[3, 7], &KEY), Err(Refusal::Width));
        assert_eq!(open(8, 0, 2, &[3, 7], &KEY), Err(Refusal::Kept));
        assert_eq!(open(8, 4, 9, &[3, 7], &KEY), Err(Refusal::Count));
        assert_eq!(open(8, 4, 2, &long, &KEY), Err(Refusal::Long));
        assert_eq!(open(8, 4, 2, &[3, 7], &KEY[1..]), Err(Refusal::Key));
        assert_eq!(open(8, 4, 2, &[3, 256], &KEY), Err(Refusal::Word));
        let (mut digest, mut message) = (opened(), [3, 7]);
        let before = digest.clone();
        assert_eq!(digest.edit(&mut [3], &KEY, 0, 1), Err(Refusal::Long));
        assert_eq!(
            digest.edit(&mut message, &KEY[1..], 0, 1),
            Err(Refusal::Key)
        );
        assert_eq!(digest.edit(&mut message, &KEY, 2, 1), Err(Refusal::Place));
        assert_eq!(digest.edit(&mut message, &KEY, 0, 256), Err(Refusal::Word));
        let mut out = [9];
        assert_eq!(digest.read_into(&mut out), Err(Refusal::Tray));
        assert_eq!((digest, message, out), (before, [3, 7], [9]));
        let mut none = Incremental::from_words([0; STATE_WORDS]);
        assert_eq!(none.edit(&mut message, &KEY, 0, 1), Err(Refusal::State));
        assert_eq!(none.read().map(|_| ()), Err(Refusal::State));
        assert_eq!(none.read_into(&mut out), Err(Refusal::State));
        assert_eq!(
            (none.as_words(), message, out),
            (&[0; STATE_WORDS], [3, 7], [9])
        );
    }

    #[test]
    fn what_the_state_has() {
        let digest = opened();
        assert_eq!(
            (digest.settings(), digest.message_words()),
            (settings(8, 4, 2), 2)
        );
        // As they stand, fit or not.
        let words = std::array::from_fn(|place| u32::MAX - place as u32);
        let digest = Incremental::from_words(words);
        let (w, b, n) = (u32::MAX, u32::MAX - 1, u32::MAX - 2);
        assert_eq!(digest.settings(), settings(w, b, n));
        assert_eq!(digest.message_words(), u32::MAX as usize - 3);
        assert_eq!(digest.as_words(), &words);
    }

    /// Restored at any moment, it goes on as the digest that was not.
    #[test]
    fn restored() {
        let settings = settings(16, 16, 3);
        let Digest {
            mut message, key, ..
        } = Digest::<u32>::fit(settings, 20);
        let mut digest = Incremental::open(&settings, &message, &key).unwrap();
        for place in 0..20 {
            let mut restored = Incremental::from_words(*digest.as_words());
            assert_eq!(restored, digest);
            let (mut other, word) = (message.clone(), message[place] ^ 1);
            restored.edit(&mut other, &key, place, word).unwrap();
            assert_ne!(restored, digest);
            digest.edit(&mut message, &key, place, word).unwrap();
            assert_eq!((&restored, other), (&digest, message.clone()));
            assert_eq!(restored.read(), digest.read());
        }
        assert_eq!(digest.read(), settings.digest_words(&message, &key));
    }

    #[test]
    fn equality() {
        check_equality(&opened());
    }

    /// The sums, which have bits that no reading shows, are not shown.
    #[test]
    fn shown_for_debugging() {
        let settings = "Settings { width: 8, kept: 4, words: 2 }";
        let due = format!("Incremental {{ settings: {settings}, message_words: 77, .. }}");
        check_shown::<Incremental>(STATE_WORDS, &due);
    }
}
