//! A seed, as an argument or in a file.

use crate::args::{self, Args};
use crate::ending::{content, usage, Failure};
use crate::input;
use crate::number::number;
use crate::show::{counted, shown};
use pairing_agent::Refusal;
use std::ffi::OsStr;

/// What the help of a command says of its seed, after what the seed is for.
macro_rules! seed_help {
    ($what:literal) => {
        concat!(
            "  --seed S     ",
            $what,
            "
               a number, or an array of 1 to 8 numbers with commas between them;
               '5,' is the array of the one number 5, which is not the seed 5;
               @FILE takes the seed from a file, and @- from standard input:
               unlike an argument, those show in no list of processes; there
               an array may also stand without commas, with spaces or one
               number to a line, but a number that stands alone is a plain seed
"
        )
    };
}
pub(crate) use seed_help;

/// A plain seed or an array.
pub enum Seed {
    Plain(u32),
    Array(Vec<u32>),
}

impl Seed {
    /// How many words it has.
    pub fn words(&self) -> usize {
        match self {
            Seed::Plain(_) => 1,
            Seed::Array(words) => words.len(),
        }
    }

    pub fn stretch(&self, width: u32, key: &mut [u32]) -> Result<(), Refusal> {
        match self {
            Seed::Plain(seed) => pairing_agent::stretch(width, *seed, key),
            Seed::Array(seed) => pairing_agent::stretch_array(width, seed, key),
        }
    }

    pub fn load(&self, width: u32, key: &mut [u32], message: &mut [u32]) -> Result<(), Refusal> {
        match self {
            Seed::Plain(seed) => pairing_agent::load(width, *seed, key, message),
            Seed::Array(seed) => pairing_agent::load_array(width, seed, key, message),
        }
    }
}

/// Where a seed comes from.
pub enum Source<'a> {
    Argument(Seed),
    File(&'a OsStr),
}

impl Source<'_> {
    /// The seed's source that the arguments give, if they do.
    pub fn given(args: &Args) -> Result<Option<Source<'_>>, Failure> {
        let Some(value) = args.value("--seed") else {
            return Ok(None);
        };
        Ok(Some(match input::at_file(value) {
            Some(file) => Source::File(file),
            None => Source::Argument(of_argument(&value.to_string_lossy())?),
        }))
    }

    /// The same, where it must be given.
    pub fn needed(args: &Args) -> Result<Source<'_>, Failure> {
        Source::given(args)?.ok_or_else(|| args::missing("--seed"))
    }

    pub fn read(self) -> Result<Seed, Failure> {
        match self {
            Source::Argument(seed) => Ok(seed),
            Source::File(file) => of_file(file),
        }
    }
}

fn of_argument(text: &str) -> Result<Seed, Failure> {
    let mut parts = Parts::default();
    let taken = parts.take(text);
    taken.map_err(|why| usage(format!("--seed: {why}")))?;
    let seed = parts.seed();
    seed.map_err(|why| usage(format!("--seed: '{}' {why} commas between", shown(text))))
}

/// White space may stand around the numbers and commas of a file, or in the place of all commas.
fn of_file(file: &OsStr) -> Result<Seed, Failure> {
    let mut parts = Parts::default();
    input::lines(file, |line| {
        input::words(line, char::is_whitespace).try_for_each(|text| parts.take(text))
    })?;
    if parts.commas == 0 && parts.numbers.len() > 1 {
        return Ok(Seed::Array(parts.numbers));
    }
    let seed = parts.seed();
    seed.map_err(|why| {
        let name = input::name(file);
        content(format!("{name} {why} commas between, or with none"))
    })
}

/// What has been taken of a seed's text.
#[derive(Default)]
struct Parts {
    numbers: Vec<u32>,
    commas: usize,
    /// Whether a number or a comma came where it cannot.
    out_of_turn: bool,
}

impl Parts {
    /// Takes numbers and commas, without white space.
    fn take(&mut self, text: &str) -> Result<(), String> {
        for part in text.split_inclusive(',') {
            let digits = part.strip_suffix(',').unwrap_or(part);
            if !digits.is_empty() {
                self.out_of_turn |= self.commas != self.numbers.len();
                self.numbers.push(number(digits)?);
            }
            if digits.len() < part.len() {
                // A comma follows a number; or it comes first, and then alone.
                let none = self.numbers.is_empty() && self.commas == 0;
                self.out_of_turn |= self.commas >= self.numbers.len() && !none;
                self.commas += 1;
            }
        }
        Ok(())
    }

    /// The seed: one number is a plain one, a comma makes an array. What is wrong ends before how
    /// several numbers stand.
    fn seed(self) -> Result<Seed, String> {
        match (self.out_of_turn, &self.numbers[..], self.commas) {
            (true, ..) | (_, [], 0) => Err(format!(
                "holds {} and {}; a seed is one number, or several with",
                counted(self.numbers.len(), "number"),
                counted(self.commas, "comma")
            )),
            (_, [number], 0) => Ok(Seed::Plain(*number)),
            _ => Ok(Seed::Array(self.numbers)),
        }
    }
}
