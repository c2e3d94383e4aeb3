//! The command line of a command, taken apart by what the command takes.

use crate::failure::Failure;
use crate::{moment, text};
use contacts::{KEY_MAX, VALUE_MAX};
use std::ffi::{OsStr, OsString};
use std::ops::RangeInclusive;
use std::os::unix::ffi::{OsStrExt, OsStringExt};
use std::path::Path;

/// An option's name, and what it takes.
pub struct Opt {
    name: &'static str,
    takes_value: bool,
}

/// An option with a value after it, as `--name value` or `--name=value`.
pub const fn valued(name: &'static str) -> Opt {
    Opt { name, takes_value: true }
}

/// An option that is there or not.
pub const fn switch(name: &'static str) -> Opt {
    Opt { name, takes_value: false }
}

/// What a command takes: operands, each of them needed, and options, each at most once.
pub struct Syntax {
    pub operands: &'static [&'static str],
    pub options: &'static [Opt],
}

/// What a command was given.
#[derive(Debug, Default)]
pub struct Arguments {
    operands: Vec<OsString>,
    options: Vec<(&'static str, OsString)>,
}

impl Syntax {
    /// The arguments; none where help is asked for. After `--` all are operands, and `-` is one everywhere.
    pub fn parse(&self, given: Vec<OsString>) -> Result<Option<Arguments>, Failure> {
        let mut arguments = Arguments::default();
        let mut given = given.into_iter();
        while let Some(word) = given.next() {
            match word.as_bytes() {
                b"--help" | b"-h" => return Ok(None),
                b"--" => arguments.operands.extend(given.by_ref()),
                [b'-', _, ..] => self.take_option(&mut arguments, &word, &mut given)?,
                _ => arguments.operands.push(word),
            }
        }
        self.check_operands(&arguments.operands)?;
        Ok(Some(arguments))
    }

    fn take_option(
        &self,
        arguments: &mut Arguments,
        word: &OsStr,
        rest: &mut impl Iterator<Item = OsString>,
    ) -> Result<(), Failure> {
        let (name, joined) = split(word.as_bytes());
        let option = self.option(name)?;
        let value = match (option.takes_value, joined) {
            (true, Some(joined)) => OsString::from_vec(joined.to_vec()),
            (true, None) => rest.next().ok_or_else(|| wrong(format!("{} has no value", option.name)))?,
            (false, Some(_)) => return Err(wrong(format!("{} takes no value", option.name))),
            (false, None) => OsString::new(),
        };
        if arguments.has(option.name) {
            return Err(wrong(format!("{} is given twice", option.name)));
        }
        arguments.options.push((option.name, value));
        Ok(())
    }

    fn option(&self, name: &[u8]) -> Result<&Opt, Failure> {
        self.options.iter().find(|option| option.name.as_bytes() == name).ok_or_else(|| {
            let name = text::shown(name);
            wrong(format!("there is no option {name} here (an argument that begins with - needs -- before it)"))
        })
    }

    fn check_operands(&self, operands: &[OsString]) -> Result<(), Failure> {
        match (self.operands.get(operands.len()), operands.get(self.operands.len())) {
            (Some(missing), _) => Err(wrong(format!("{missing} is missing"))),
            (None, Some(surplus)) => {
                Err(wrong(format!("{} is one argument too many", text::shown(surplus.as_bytes()))))
            }
            (None, None) => Ok(()),
        }
    }
}

/// An option's name, and the value that is joined to it by `=`.
fn split(word: &[u8]) -> (&[u8], Option<&[u8]>) {
    match word.iter().position(|&byte| byte == b'=') {
        Some(at) => (&word[..at], Some(&word[at + 1..])),
        None => (word, None),
    }
}

impl Arguments {
    pub fn has(&self, name: &str) -> bool {
        self.value(name).is_some()
    }

    pub fn value(&self, name: &str) -> Option<&OsStr> {
        self.options.iter().find(|(given, _)| *given == name).map(|(_, value)| value.as_os_str())
    }

    /// An operand's bytes.
    pub fn operand(&self, index: usize) -> &[u8] {
        self.operands[index].as_bytes()
    }

    /// The first operand, as every command has a file for it.
    pub fn path(&self) -> &Path {
        Path::new(&self.operands[0])
    }

    pub fn number(&self, name: &str, range: RangeInclusive<u64>) -> Result<Option<u64>, Failure> {
        self.value(name).map(|value| number(name, value, range)).transpose()
    }

    pub fn choice<T: Copy>(&self, name: &str, choices: &[(&str, T)]) -> Result<Option<T>, Failure> {
        self.value(name).map(|value| choice(name, value, choices)).transpose()
    }

    /// The key that is the second operand.
    pub fn key(&self) -> Result<Vec<u8>, Failure> {
        self.key_of(self.operand(1))
    }

    /// The key that is given so: by its bytes, or with `--hex` in hexadecimal.
    pub fn key_of(&self, given: &[u8]) -> Result<Vec<u8>, Failure> {
        let key = if self.has("--hex") {
            let why = || wrong(format!("the key {} isn't pairs of hexadecimal digits", text::shown(given)));
            text::from_hexadecimal(given).ok_or_else(why)?
        } else {
            given.to_vec()
        };
        match key.len() {
            0 => Err(wrong("the key is empty".to_string())),
            1..=KEY_MAX => Ok(key),
            length => Err(wrong(format!("the key has {length} bytes, and the longest has {KEY_MAX}"))),
        }
    }

    /// The clock to go by: that of `--clock`, or the system's.
    pub fn clock(&self) -> Result<u32, Failure> {
        self.given_clock()?.or_else(moment::now).ok_or_else(|| {
            Failure::Refused("the system's clock isn't between 1970 and 2106; set it, or give --clock".to_string())
        })
    }

    /// The clock of `--clock`. A command that goes by no clock takes one too, and tells a wrong one.
    pub fn given_clock(&self) -> Result<Option<u32>, Failure> {
        self.value("--clock").map(|value| number_u32("--clock", value)).transpose()
    }
}

/// What a command can't do without.
pub fn needed<T>(given: Option<T>, name: &str) -> Result<T, Failure> {
    given.ok_or_else(|| wrong(format!("{name} is missing")))
}

/// A number of 32 bits.
pub fn number_u32(name: &str, given: &OsStr) -> Result<u32, Failure> {
    number(name, given, 0..=u32::MAX.into()).map(|number| u32::try_from(number).expect("in range"))
}

/// A value that a contact can have.
pub fn fitting(value: Vec<u8>) -> Result<Vec<u8>, Failure> {
    if value.len() <= VALUE_MAX {
        Ok(value)
    } else {
        Err(wrong("the value has over 1,024 bytes, which is the most".to_string()))
    }
}

fn number(name: &str, given: &OsStr, range: RangeInclusive<u64>) -> Result<u64, Failure> {
    let digits = given.to_str().filter(|text| text.bytes().all(|byte| byte.is_ascii_digit()));
    digits.and_then(|digits| digits.parse().ok()).filter(|number| range.contains(number)).ok_or_else(|| {
        let (given, least, most) = (text::shown(given.as_bytes()), range.start(), range.end());
        wrong(format!("{name} is {given}, and not a number from {least} to {most}"))
    })
}

fn choice<T: Copy>(name: &str, given: &OsStr, choices: &[(&str, T)]) -> Result<T, Failure> {
    choices.iter().find(|(word, _)| given == *word).map(|(_, choice)| *choice).ok_or_else(|| {
        let words: Vec<&str> = choices.iter().map(|(word, _)| *word).collect();
        wrong(format!("{name} is {}, and not one of {}", text::shown(given.as_bytes()), words.join(", ")))
    })
}

fn wrong(line: String) -> Failure {
    Failure::WrongUse(line)
}
