//! A command's options and operands.

use crate::ending::{usage, Failure};
use crate::number;
use crate::show::shown;
use std::ffi::{OsStr, OsString};
use std::os::unix::ffi::OsStrExt;

/// What follows a command's name. Options take a value each, as `--width 8` or `--width=8`, and
/// stand anywhere; after `--` everything is an operand.
pub struct Args {
    options: Vec<(&'static str, OsString)>,
    operands: Vec<OsString>,
}

impl Args {
    /// Whether `--help` or `-h` is among them, before any `--`.
    pub fn ask_for_help(args: &[OsString]) -> bool {
        args.iter()
            .take_while(|arg| *arg != "--")
            .any(|arg| arg == "--help" || arg == "-h")
    }

    pub fn parse(args: Vec<OsString>, known: &[&'static str]) -> Result<Args, Failure> {
        let mut parsed = Args {
            options: Vec::new(),
            operands: Vec::new(),
        };
        let mut args = args.into_iter();
        while let Some(arg) = args.next() {
            if arg == "--" {
                parsed.operands.extend(args.by_ref());
            } else if arg.as_bytes().starts_with(b"-") && arg != "-" {
                let (name, value) = parsed.option(&arg, known)?;
                let Some(value) = value.map(OsString::from).or_else(|| args.next()) else {
                    return Err(usage(format!("{name} needs a value")));
                };
                parsed.options.push((name, value));
            } else {
                parsed.operands.push(arg);
            }
        }
        Ok(parsed)
    }

    /// The known option that an argument names, and its value if one follows an equals sign.
    fn option<'a>(
        &self,
        arg: &'a OsStr,
        known: &[&'static str],
    ) -> Result<(&'static str, Option<&'a OsStr>), Failure> {
        let mut parts = arg.as_bytes().splitn(2, |byte| *byte == b'=');
        let given = OsStr::from_bytes(parts.next().unwrap_or_default());
        let Some(name) = known.iter().copied().find(|name| given == *name) else {
            return Err(usage(format!("{} is no option here", shown(given))));
        };
        match self.value(name) {
            Some(_) => Err(usage(format!("{name} is given twice"))),
            None => Ok((name, parts.next().map(OsStr::from_bytes))),
        }
    }

    /// The option's value, if it is given.
    pub fn value(&self, name: &str) -> Option<&OsStr> {
        self.options
            .iter()
            .find(|(given, _)| *given == name)
            .map(|(_, value)| value.as_os_str())
    }

    /// The value of an option that must be given.
    pub fn needed_value(&self, name: &str) -> Result<&OsStr, Failure> {
        self.value(name).ok_or_else(|| missing(name))
    }

    /// The option's value as a number, if it is given.
    pub fn number(&self, name: &str) -> Result<Option<u32>, Failure> {
        self.value(name)
            .map(|value| number(name, value))
            .transpose()
    }

    /// The value of an option that must be given, as a number.
    pub fn needed_number(&self, name: &str) -> Result<u32, Failure> {
        self.number(name)?.ok_or_else(|| missing(name))
    }

    /// All operands.
    pub fn all_operands(&self) -> &[OsString] {
        &self.operands
    }

    /// The operands, which must be those named.
    pub fn operands<const N: usize>(&self, names: [&str; N]) -> Result<[&OsStr; N], Failure> {
        if let Some(name) = names.get(self.operands.len()) {
            return Err(missing(name));
        }
        match self.operands.get(N) {
            Some(extra) => Err(too_many(extra)),
            None => Ok(std::array::from_fn(|i| self.operands[i].as_os_str())),
        }
    }
}

/// The number that an argument holds.
pub fn number(name: &str, value: &OsStr) -> Result<u32, Failure> {
    number::number(&value.to_string_lossy()).map_err(|why| usage(format!("{name}: {why}")))
}

pub fn missing(name: &str) -> Failure {
    usage(format!("{name} is missing"))
}

pub fn too_many(extra: &OsStr) -> Failure {
    usage(format!("{} is one argument too many", shown(extra)))
}
