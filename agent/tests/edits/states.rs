//! What the tests of states share: readings of every kind of state, and calls that are checked one
//! by one or counted.
//!
//! The entries take rows of any length. A state as a Rust value has a row of the right one: its
//! calls are made where they can be.

use super::calls::{boxed, number_of, Call, Made};
use super::faults::Faults;
use super::lent::Lent;
use super::paper::Outcome;
use super::random::Random;
use pairing_agent::{Digest, Refusal};
use std::collections::BTreeMap;
use std::fmt::Debug;
use std::marker::PhantomData;

/// A kind of state, as the Rust value.
pub trait Kind: Debug + Sized {
    /// The entry that reads: its name, what it must leave, and itself.
    const READ: &'static str;
    const READ_DUE: fn(&[u32], &[u32]) -> Outcome;
    const READ_NUMBER: fn(&[u32], &mut [u32]) -> u32;

    /// The value of a row, if it has the right length; boxed, so that valgrind sees its ends.
    fn restored(row: &[u32]) -> Option<Box<Self>>;

    fn row(&self) -> &[u32];
    fn read(&self) -> Result<Digest, Refusal>;
    fn read_into(&self, out: &mut [u32]) -> Result<(), Refusal>;
}

/// Says of a type that it is a kind of state, and which entry reads it.
macro_rules! kind {
    ($kind:ident, $read:literal, $due:path, $number:path) => {
        impl $crate::common::states::Kind for $kind {
            const READ: &'static str = $read;
            const READ_DUE: fn(&[u32], &[u32]) -> Outcome = $due;
            const READ_NUMBER: fn(&[u32], &mut [u32]) -> u32 = $number;

            fn restored(row: &[u32]) -> Option<Box<$kind>> {
                let words = row.try_into().ok()?;
                Some(Box::new($kind::from_words(words)))
            }

            fn row(&self) -> &[u32] {
                self.as_words()
            }

            fn read(&self) -> Result<pairing_agent::Digest, pairing_agent::Refusal> {
                self.read()
            }

            fn read_into(&self, out: &mut [u32]) -> Result<(), pairing_agent::Refusal> {
                self.read_into(out)
            }
        }
    };
}
pub(crate) use kind;

/// What there is to check where a row has no value: nothing.
pub fn no_value(due: &Outcome) -> Made {
    Made::new(due.answer, due, &[])
}

/// An opening as a value, which has a row of its own, and whether each row that it read is as it was.
pub fn opened<S: Kind>(opened: Result<S, Refusal>, due: &Outcome, read: &[(&str, bool)]) -> Made {
    let is_due = |state: &S| due.answer == 0 && state.row() == due.out;
    let state = opened.as_ref().map_or(due.answer != 0, is_due);
    let rows = [&[("state", state)], read].concat();
    Made::new(number_of(opened.map(|_| ())), due, &rows)
}

/// A call that reads a state of that kind.
#[derive(Clone, Debug)]
pub struct Read<S> {
    pub state: Vec<u32>,
    pub out: Vec<u32>,
    kind: PhantomData<S>,
}

impl<S: Kind> Read<S> {
    pub fn new(state: &[u32], out: Vec<u32>) -> Read<S> {
        Read {
            state: state.to_vec(),
            out,
            kind: PhantomData,
        }
    }

    /// Whether the digest as a value is the one that is written where there is room.
    fn is_value(&self, value: Result<Digest, Refusal>) -> bool {
        let due = S::READ_DUE(&self.state, &[0; 8]);
        match value {
            Ok(digest) => due.answer == 0 && *digest.words() == due.out[..self.state[2] as usize],
            Err(refusal) => refusal.number() == due.answer,
        }
    }
}

impl<S: Kind> Call for Read<S> {
    const ENTRY: &'static str = S::READ;
    type Place = u32;

    fn due(&self) -> Outcome {
        S::READ_DUE(&self.state, &self.out)
    }

    fn number(&self, due: &Outcome, random: &mut Random) -> Made {
        let state = Lent::new(&self.state, random);
        let mut out = Lent::new(&self.out, random);
        let answer = S::READ_NUMBER(state.row(), out.row_mut());
        let rows = [
            ("output", out.is_now(&due.out)),
            ("state", state.is_as_lent()),
        ];
        Made::new(answer, due, &rows)
    }

    fn result(&self, due: &Outcome) -> Made {
        let Some(state) = S::restored(&self.state) else {
            return no_value(due);
        };
        let mut out = boxed(&self.out);
        let result = state.read_into(&mut out);
        let rows = [
            ("output", *out == *due.out),
            ("state", state.row() == self.state),
            ("digest", self.is_value(state.read())),
        ];
        Made::new(number_of(result), due, &rows)
    }

    fn sizes(&self) -> String {
        let Read { state, out, .. } = self;
        format!("state of {}, output of {}", state.len(), out.len())
    }
}

/// The call's answer, having checked all that it leaves.
pub fn answer(call: &impl Call) -> u32 {
    call.check(&mut Random::new(31))
}

/// What the call leaves, having checked that the library leaves it.
pub fn outcome(call: &impl Call<Place = u32>) -> Outcome {
    answer(call);
    call.due()
}

/// What an accepted call leaves.
pub fn accepted(call: &impl Call<Place = u32>) -> Vec<u32> {
    let outcome = outcome(call);
    assert_eq!(outcome.answer, 0, "{}", call.sizes());
    outcome.out
}

/// A row that holds what no state does.
pub fn any_words(places: usize) -> Vec<u32> {
    vec![0xdead_beef; places]
}

/// Outputs of every length about the digest's, for a reading of a state that is fit.
pub fn check_readings<S: Kind>(state: &[u32]) {
    let n = state[2] as usize;
    for places in 0..=12 {
        let due = if places < n { 6 } else { 0 };
        let call = Read::<S>::new(state, any_words(places));
        assert_eq!(answer(&call), due, "n {n}, {places} places");
    }
}

/// Every set of faults of a reading, the state's in two forms: its row's length, and a number in it.
pub fn check_order_of_a_reading<S: Kind>(fit: &[u32]) {
    let n = fit[2] as usize;
    for faults in Faults::every_set(2) {
        let mut state = fit.to_vec();
        state.resize(faults.pick(0, fit.len(), fit.len() + 1, fit.len()), 0);
        state[3] = faults.pick(0, fit[3], fit[3], 65_537);
        let call = Read::<S>::new(&state, any_words(faults.pick(1, n, n - 1, 0)));
        let first = faults.first().map(|fault| [8, 6][fault as usize]);
        assert_eq!(answer(&call), first.unwrap_or(0), "{faults:?}");
    }
}

/// Every word of two states counts in `==`.
pub fn check_equality<S: Kind + PartialEq>(state: &S) {
    for place in 0..state.row().len() {
        let mut row = state.row().to_vec();
        assert_eq!(*S::restored(&row).unwrap(), *state);
        row[place] ^= 1 << 31;
        assert_ne!(*S::restored(&row).unwrap(), *state, "place {place}");
    }
}

/// What `{:?}` shows of a state of so many words: the settings 8, 4 and 2, the count 77, and nothing
/// else.
pub fn check_shown<S: Kind>(words: usize, due: &str) {
    let mut row = vec![987_654_321; words];
    row[..4].copy_from_slice(&[8, 4, 2, 77]);
    let state = S::restored(&row).unwrap();
    assert_eq!(format!("{state:?}"), due);
    assert!(!format!("{state:#?}").contains("987"));
}

/// What states of sums share: the settings and a count, and sums in eight places.
pub fn sums_row(numbers: [u32; 4], sums: &[u32]) -> Vec<u32> {
    let mut row = [&numbers[..], sums].concat();
    row.resize(12, 0);
    row
}

/// Such rows beside a fit one of the count 3, some of them fit too, each with 0 or 8.
pub fn beside_fit_sums() -> Vec<(Vec<u32>, u32)> {
    let numbers = |numbers, due| (sums_row(numbers, &[255, 1]), due);
    let sums = |sums: &[u32], due| (sums_row([8, 4, 2, 3], sums), due);
    vec![
        numbers([8, 4, 2, 3], 0),
        numbers([0, 4, 2, 3], 8),
        numbers([33, 4, 2, 3], 8),
        numbers([8, 0, 2, 3], 8),
        numbers([8, 9, 2, 3], 8),
        numbers([8, 4, 0, 3], 8),
        numbers([8, 4, 1, 3], 8),
        numbers([8, 4, 9, 3], 8),
        numbers([8, 4, 3, 3], 0),
        numbers([8, 4, 8, 3], 0),
        numbers([7, 4, 2, 3], 8),
        numbers([9, 4, 2, 3], 0),
        numbers([32, 32, 2, 3], 0),
        numbers([8, 4, 2, 65_537], 8),
        numbers([8, 4, 2, u32::MAX], 8),
        sums(&[256, 1], 8),
        sums(&[255, 256], 8),
        sums(&[255, 1, 1], 8),
        sums(&[255, 1, 0, 0, 0, 0, 0, 1], 8),
        (sums_row([8, 4, 8, 3], &[0, 0, 0, 0, 0, 0, 0, 256]), 8),
        (sums_row([8, 4, 0, 3], &[]), 8),
        (sums_row([0, 0, 2, 3], &[]), 8),
    ]
}

/// Every place of a state, in use or not, with every power of two and the edges of every range.
pub fn altered(state: &[u32]) -> Vec<Vec<u32>> {
    let edges = [0, 3, 7, 9, 15, 31, 33, 255, 65_535, 65_537, 0x7fff_ffff];
    let powers = (0..32).map(|power| 1 << power);
    let mut states = vec![];
    for number in edges.into_iter().chain(powers).chain([u32::MAX]) {
        for place in 0..state.len() {
            let mut state = state.to_vec();
            state[place] = number;
            states.push(state);
        }
    }
    states
}

/// How often each entry gave each answer.
#[derive(Default)]
pub struct Tally(BTreeMap<(&'static str, u32), u64>);

impl Tally {
    /// The answer and what the call leaves, having checked that the library leaves it.
    pub fn make<C: Call<Place = u32>>(&mut self, call: &C, random: &mut Random) -> (u32, Vec<u32>) {
        let due = call.due();
        let made = call.make(&due, random);
        assert!(made.wrong.is_empty(), "{}", call.report(&made, &due));
        *self.0.entry((C::ENTRY, due.answer)).or_insert(0) += 1;
        (due.answer, due.out)
    }

    /// Prints it. Each entry must have given these answers, and none must be missing.
    pub fn report<const ENTRIES: usize>(self, due: [(&'static str, &[u32]); ENTRIES]) {
        for ((entry, answer), times) in &self.0 {
            println!("{entry}: answer {answer} seen {times:6} times");
        }
        let seen: Vec<_> = self.0.into_keys().collect();
        let due = due.map(|(entry, answers)| answers.iter().map(move |answer| (entry, *answer)));
        assert!(due.into_iter().flatten().eq(seen), "an answer is missing");
    }
}
