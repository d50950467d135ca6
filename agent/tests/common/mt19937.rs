//! What a stretch and a load must answer, written from the scope document's bullets New, Refill and
//! Next, for the bits of an output that a word is from document 02, "Six", and for arrays and loads
//! from its "Seven" and the published initialisation by array; in whole numbers of 64 bits and with
//! no eye to speed. It shares nothing with the library.

use super::paper::{Outcome, MOST_WORDS};
use super::seed::Seed;

/// The stretch as a whole call: a load of no message.
pub fn stretch(w: u32, seed: &impl Seed, out: &[u32]) -> Outcome {
    load(w, seed, out, &[])
}

/// The load as a whole call. What it leaves is key row and message row end to end.
pub fn load(w: u32, seed: &impl Seed, key: &[u32], message: &[u32]) -> Outcome {
    let answer = load_answer(w, seed, key.len(), message.len());
    let mut out = [key, message].concat();
    if answer == 0 {
        let mut generator = seed.generator();
        for word in &mut out {
            *word = u32::try_from(generator.next() / 2u64.pow(32 - w)).unwrap();
        }
    }
    Outcome { answer, out }
}

fn load_answer(w: u32, seed: &impl Seed, key_words: usize, message_words: usize) -> u32 {
    if w == 0 || w > 32 {
        return 1;
    }
    if !seed.is_fit() {
        return 11;
    }
    if key_words > 65_544 || message_words > MOST_WORDS {
        return 4;
    }
    0
}

const TWO_TO_32: u64 = 4_294_967_296;

/// 624 words below 2^32, and a position 0 to 624.
pub struct Generator {
    words: Vec<u64>,
    position: usize,
}

impl Generator {
    pub fn new(seed: u32) -> Generator {
        let mut words = vec![u64::from(seed)];
        for i in 1..624u64 {
            let p = *words.last().unwrap();
            words.push((1_812_433_253 * (p ^ (p >> 30)) + i) % TWO_TO_32);
        }
        Generator {
            words,
            position: 624,
        }
    }

    /// Two rounds over the words of a first filling: 624 steps that add the array's words and their
    /// places in it, then 623 that take the place of the word itself away.
    pub fn by_array(seed: &[u32]) -> Generator {
        let mut generator = Generator::new(19_650_218);
        let mut i = 1;
        for step in 0..624 {
            let j = step % seed.len();
            i = generator.stir(i, 1_664_525, u64::from(seed[j]) + j as u64);
        }
        for _ in 0..623 {
            i = generator.stir(i, 1_566_083_941, TWO_TO_32 - i as u64);
        }
        generator.words[0] = 0x8000_0000;
        generator
    }

    /// Mixes the word before it into word i and adds this. Answers the place of the next step:
    /// after the last word it is 1, and the last word stands before it too.
    fn stir(&mut self, i: usize, factor: u64, added: u64) -> usize {
        let p = self.words[i - 1];
        let mixed = self.words[i] ^ ((p ^ (p >> 30)) * factor % TWO_TO_32);
        self.words[i] = (mixed + added) % TWO_TO_32;
        if i < 623 {
            return i + 1;
        }
        self.words[0] = self.words[623];
        1
    }

    fn refill(&mut self) {
        for i in 0..624 {
            let top = self.words[i] / 0x8000_0000 * 0x8000_0000;
            let low = self.words[(i + 1) % 624] % 0x8000_0000;
            let y = top + low;
            let mut word = self.words[(i + 397) % 624] ^ (y >> 1);
            if y % 2 == 1 {
                word ^= 0x9908_B0DF;
            }
            self.words[i] = word;
        }
        self.position = 0;
    }

    pub fn next(&mut self) -> u64 {
        if self.position == 624 {
            self.refill();
        }
        let mut y = self.words[self.position];
        self.position += 1;
        y ^= y >> 11;
        y ^= ((y << 7) % TWO_TO_32) & 0x9D2C_5680;
        y ^= ((y << 15) % TWO_TO_32) & 0xEFC6_0000;
        y ^= y >> 18;
        y
    }
}
