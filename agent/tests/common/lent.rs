//! Rows between guards.

use super::random::Random;
use std::ops::Range;

/// What a row is made of: words or bytes.
pub trait Place: Copy + PartialEq {
    /// A random value to stand beside a row.
    fn guard(random: &mut Random) -> Self;
}

impl Place for u32 {
    /// The top bit is set, so a range test that looks past the row answers wrongly as well.
    fn guard(random: &mut Random) -> u32 {
        random.word() | 0x8000_0000
    }
}

impl Place for u8 {
    /// Neither 0 nor 0x80, so a last word that is closed or filled up from past the row is wrong as
    /// well.
    fn guard(random: &mut Random) -> u8 {
        random.byte() | 0x81
    }
}

/// A row to lend, with guards before and after it.
pub struct Lent<T> {
    all: Vec<T>,
    at_lending: Vec<T>,
    place: Range<usize>,
}

impl<T: Place> Lent<T> {
    /// The guards before the row vary in number, so that bytes stand at any alignment.
    pub fn new(row: &[T], random: &mut Random) -> Lent<T> {
        let before = 4 + random.below(8);
        let place = before..before + row.len();
        let mut guards = |places| -> Vec<T> { (0..places).map(|_| T::guard(random)).collect() };
        let all = [guards(before), row.to_vec(), guards(9)].concat();
        Lent {
            at_lending: all.clone(),
            all,
            place,
        }
    }

    pub fn row(&self) -> &[T] {
        &self.all[self.place.clone()]
    }

    pub fn row_mut(&mut self) -> &mut [T] {
        &mut self.all[self.place.clone()]
    }

    /// Whether nothing has changed, guards included.
    pub fn is_as_lent(&self) -> bool {
        self.all == self.at_lending
    }

    /// Whether the row is now this one, and the guards are as they were.
    pub fn is_now(&self, row: &[T]) -> bool {
        let Range { start, end } = self.place;
        self.row() == row
            && self.all[..start] == self.at_lending[..start]
            && self.all[end..] == self.at_lending[end..]
    }
}
