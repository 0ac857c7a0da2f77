//! The last lines of a report: how the input ended, and lines of numbers.

use crate::text::{put_words, Text};

/// How the input ended.
#[derive(Clone)]
pub enum Input {
    Done { rest: u64 },
    ReadFault,
    Limit { limit: u64 },
    Fault { fault: &'static str, at: u64, found: String },
}

/// What a fault tells as found.
#[derive(Clone, Copy, PartialEq)]
pub enum Found {
    Number,
    Bytes,
    Version,
}

pub const FAULTS: [(&str, (&str, Found)); 13] = [
    ("short-header", ("short-header", Found::Number)),
    ("magic", ("magic", Found::Bytes)),
    ("version", ("version", Found::Version)),
    ("link", ("link", Found::Number)),
    ("length", ("length", Found::Number)),
    ("byte-order", ("byte-order", Found::Bytes)),
    ("block-length", ("block-length", Found::Number)),
    ("trailer", ("trailer", Found::Number)),
    ("section-version", ("section-version", Found::Version)),
    ("interfaces", ("interfaces", Found::Number)),
    ("interface", ("interface", Found::Number)),
    ("captured-length", ("captured-length", Found::Number)),
    ("blocks", ("blocks", Found::Number)),
];

impl Found {
    /// The text has this form.
    pub fn is_in(self, text: &[u8]) -> Option<()> {
        let text = &mut Text::of(text);
        match self {
            Found::Number => text.number(u64::MAX).map(|_| ())?,
            Found::Version => {
                text.number(u64::MAX)?;
                text.word(".")?;
                text.number(u64::MAX)?;
            }
            Found::Bytes => {
                let word = text.up_to_space();
                let is_digit = |byte: &u8| matches!(*byte, b'0'..=b'9' | b'a'..=b'f');
                (word.len() == 8 && word.iter().all(is_digit)).then(|| ())?;
            }
        }
        text.end()
    }
}

impl Input {
    pub fn read(line: &[u8]) -> Option<Self> {
        let text = &mut Text::of(line);
        text.word("input ")?;
        let input = if text.word("done rest ").is_some() {
            Input::Done { rest: text.number(u64::MAX)? }
        } else if text.word("read-fault").is_some() {
            Input::ReadFault
        } else if text.word("limit ").is_some() {
            Input::Limit { limit: text.number(u64::MAX)? }
        } else {
            text.word("fault ")?;
            let (fault, form) = text.one_of(&FAULTS)?;
            text.word(" at ")?;
            let at = text.number(u64::MAX)?;
            text.word(" found ")?;
            let found = text.up_to_space();
            form.is_in(found)?;
            Input::Fault { fault, at, found: String::from_utf8(found.to_vec()).ok()? }
        };
        text.end()?;
        Some(input)
    }

    pub fn put(&self, out: &mut Vec<u8>) {
        out.extend_from_slice(b"input ");
        match self {
            Input::Done { rest } => put_words(out, &[("done rest ", *rest)]),
            Input::ReadFault => out.extend_from_slice(b"read-fault"),
            Input::Limit { limit } => put_words(out, &[("limit ", *limit)]),
            Input::Fault { fault, at, found } => {
                out.extend_from_slice(b"fault ");
                out.extend_from_slice(fault.as_bytes());
                put_words(out, &[(" at ", *at)]);
                out.extend_from_slice(b" found ");
                out.extend_from_slice(found.as_bytes());
            }
        }
        out.push(b'\n');
    }
}

/// The lines of numbers: each word that stands before a number, and the number's name.
pub type Numbers = [(&'static str, &'static str)];
pub const LEAVES: [(&str, &str); 2] = [("leaves ", "leaves"), (" depth ", "depth")];
pub const COUNTS: [(&str, &str); 6] = [
    ("count packets ", "packets"),
    (" calls ", "calls"),
    (" passed ", "passed"),
    (" full ", "full"),
    (" pending ", "pending"),
    (" unbegun ", "unbegun"),
];
pub const STEPS: [(&str, &str); 3] =
    [("steps update ", "update_steps"), (" bound ", "bound"), (" lookup ", "lookup_steps")];

pub fn read_numbers(line: &[u8], form: &Numbers) -> Option<Vec<u64>> {
    let text = &mut Text::of(line);
    let mut numbers = Vec::new();
    for (word, _) in form {
        text.word(word)?;
        numbers.push(text.number(u64::MAX)?);
    }
    text.end()?;
    Some(numbers)
}

pub fn put_numbers(out: &mut Vec<u8>, form: &Numbers, numbers: &[u64]) {
    for ((word, _), number) in form.iter().zip(numbers) {
        put_words(out, &[(word, *number)]);
    }
    out.push(b'\n');
}

pub struct Tail {
    pub leaves: Vec<u64>,
    pub input: Input,
    pub counts: Vec<u64>,
    pub steps: Vec<u64>,
}

impl Tail {
    pub fn put(&self, out: &mut Vec<u8>) {
        put_numbers(out, &LEAVES, &self.leaves);
        self.input.put(out);
        put_numbers(out, &COUNTS, &self.counts);
        put_numbers(out, &STEPS, &self.steps);
    }
}
