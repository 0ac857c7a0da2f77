//! A flat object of JSON (RFC 8259), read from its line. Values that are neither numbers, texts nor lists of numbers
//! are read and left out, so an object may have more fields than are asked for.

use std::borrow::Cow;
use std::cell::Cell;

pub enum Value<'a> {
    Number(u64),
    Text(Cow<'a, str>),
    List(Vec<u64>),
    Other,
}

pub struct Object<'a> {
    fields: Vec<(Cow<'a, str>, Value<'a>)>,
    next: Cell<usize>,
}

impl<'a> Object<'a> {
    /// The object that the line is, if it is one. Of two fields of one name the first counts.
    pub fn read(line: &'a str) -> Option<Self> {
        let mut json = Json { rest: line };
        let mut fields = Vec::with_capacity(20);
        json.sign('{')?;
        if json.sign('}').is_none() {
            loop {
                let name = json.text()?;
                json.sign(':')?;
                let value = json.value(0)?;
                fields.push((name, value));
                if json.sign(',').is_none() {
                    break;
                }
            }
            json.sign('}')?;
        }
        json.skip();
        json.rest.is_empty().then(|| Object { fields, next: Cell::new(0) })
    }

    /// The value of this name. Names are mostly asked for in the order in which they stand.
    fn get(&self, name: &str) -> Option<&Value<'a>> {
        let (next, length) = (self.next.get(), self.fields.len());
        let at = (next..length).chain(0..next).find(|at| self.fields[*at].0 == name)?;
        self.next.set(at + 1);
        Some(&self.fields[at].1)
    }

    pub fn has(&self, name: &str) -> bool {
        self.get(name).is_some()
    }

    pub fn text(&self, name: &str) -> Option<&str> {
        match self.get(name)? {
            Value::Text(text) => Some(text),
            _ => None,
        }
    }

    /// A number, or the decimal digits of one, at most this one.
    pub fn number(&self, name: &str, most: u64) -> Option<u64> {
        let number = match self.get(name)? {
            Value::Number(number) => *number,
            Value::Text(text) if text.bytes().all(|byte| byte.is_ascii_digit()) => text.parse().ok()?,
            _ => return None,
        };
        (number <= most).then(|| number)
    }

    /// A number, if there is a field of this name; else there is none.
    pub fn optional(&self, name: &str) -> Option<Option<u64>> {
        if self.has(name) {
            self.number(name, u64::MAX).map(Some)
        } else {
            Some(None)
        }
    }

    pub fn list(&self, name: &str) -> Option<&[u64]> {
        match self.get(name)? {
            Value::List(values) => Some(values),
            _ => None,
        }
    }

    /// What the text of this name stands for.
    pub fn one_of<T: Copy>(&self, name: &str, words: &[(&str, T)]) -> Option<T> {
        let text = self.text(name)?;
        words.iter().find(|(word, _)| *word == text).map(|(_, it)| *it)
    }
}

struct Json<'a> {
    rest: &'a str,
}

/// How deep a value that is left out may be nested.
const DEEPEST: usize = 64;

impl<'a> Json<'a> {
    fn skip(&mut self) {
        if matches!(self.rest.as_bytes().first(), Some(b' ' | b'\t' | b'\r' | b'\n')) {
            self.rest = self.rest.trim_start_matches(|it| matches!(it, ' ' | '\t' | '\r' | '\n'));
        }
    }

    fn sign(&mut self, sign: char) -> Option<()> {
        self.skip();
        self.rest = self.rest.strip_prefix(sign)?;
        Some(())
    }

    /// A text; it is copied only if a sign of it is escaped.
    fn text(&mut self) -> Option<Cow<'a, str>> {
        self.sign('"')?;
        let plain = self.rest.bytes().position(|it| it == b'"' || it == b'\\' || it < b' ')?;
        let (front, rest) = self.rest.split_at(plain);
        if let Some(rest) = rest.strip_prefix('"') {
            self.rest = rest;
            return Some(Cow::Borrowed(front));
        }
        self.rest = rest;
        let mut text = front.to_string();
        loop {
            let mut signs = self.rest.chars();
            match signs.next()? {
                '"' => {
                    self.rest = signs.as_str();
                    return Some(Cow::Owned(text));
                }
                '\\' => {
                    let sign = signs.next()?;
                    self.rest = signs.as_str();
                    text.push(if sign == 'u' { self.escaped()? } else { escape(sign)? });
                }
                sign if sign >= ' ' => {
                    text.push(sign);
                    self.rest = signs.as_str();
                }
                _ => return None,
            }
        }
    }

    /// The sign of four hexadecimal digits, or of two such numbers for a sign beyond 2^16.
    fn escaped(&mut self) -> Option<char> {
        let first = self.digits()?;
        if !(0xd800..0xdc00).contains(&first) {
            return char::from_u32(first);
        }
        self.rest = self.rest.strip_prefix("\\u")?;
        let second = self.digits()?.checked_sub(0xdc00).filter(|it| *it < 0x400)?;
        char::from_u32(0x10000 + ((first - 0xd800) << 10) + second)
    }

    fn digits(&mut self) -> Option<u32> {
        let digits = self.rest.get(..4).filter(|it| it.bytes().all(|byte| byte.is_ascii_hexdigit()))?;
        self.rest = &self.rest[4..];
        u32::from_str_radix(digits, 16).ok()
    }

    /// A number is taken if it is a whole one without a sign, and left out otherwise.
    fn number(&mut self) -> Option<Value<'a>> {
        let is_part = |it: u8| it.is_ascii_digit() || matches!(it, b'+' | b'-' | b'.' | b'e' | b'E');
        let (number, rest) = self.rest.split_at(self.rest.bytes().take_while(|it| is_part(*it)).count());
        if number.is_empty() {
            return None;
        }
        self.rest = rest;
        let is_whole = number.bytes().all(|byte| byte.is_ascii_digit());
        Some(number.parse().ok().filter(|_| is_whole).map_or(Value::Other, Value::Number))
    }

    fn value(&mut self, depth: usize) -> Option<Value<'a>> {
        self.skip();
        match self.rest.as_bytes().first()? {
            b'"' => self.text().map(Value::Text),
            b'[' => self.items(depth),
            b'{' => self.members(depth),
            b'0'..=b'9' | b'-' => self.number(),
            _ => {
                for word in ["true", "false", "null"] {
                    if let Some(rest) = self.rest.strip_prefix(word) {
                        self.rest = rest;
                        return Some(Value::Other);
                    }
                }
                None
            }
        }
    }

    fn items(&mut self, depth: usize) -> Option<Value<'a>> {
        self.sign('[')?;
        let (mut numbers, mut are_numbers) = (Vec::new(), depth < DEEPEST);
        are_numbers.then(|| ())?;
        if self.sign(']').is_some() {
            return Some(Value::List(numbers));
        }
        loop {
            match self.value(depth + 1)? {
                Value::Number(number) => numbers.push(number),
                _ => are_numbers = false,
            }
            if self.sign(',').is_none() {
                break;
            }
        }
        self.sign(']')?;
        Some(if are_numbers { Value::List(numbers) } else { Value::Other })
    }

    fn members(&mut self, depth: usize) -> Option<Value<'a>> {
        self.sign('{')?;
        (depth < DEEPEST).then(|| ())?;
        if self.sign('}').is_some() {
            return Some(Value::Other);
        }
        loop {
            self.text()?;
            self.sign(':')?;
            self.value(depth + 1)?;
            if self.sign(',').is_none() {
                break;
            }
        }
        self.sign('}')?;
        Some(Value::Other)
    }
}

fn escape(sign: char) -> Option<char> {
    Some(match sign {
        '"' | '\\' | '/' => sign,
        'b' => '\u{8}',
        'f' => '\u{c}',
        'n' => '\n',
        'r' => '\r',
        't' => '\t',
        _ => return None,
    })
}
