//! Text as bytes: a front that is taken word by word, and numbers that are put behind.

/// What is left of a line.
pub struct Text<'a> {
    rest: &'a [u8],
}

impl<'a> Text<'a> {
    pub fn of(rest: &'a [u8]) -> Self {
        Text { rest }
    }

    /// Takes this word, if the text begins with it.
    pub fn word(&mut self, word: &str) -> Option<()> {
        self.rest = self.rest.strip_prefix(word.as_bytes())?;
        Some(())
    }

    /// Takes the first of these words that the text begins with, and gives what it stands for.
    pub fn one_of<T: Copy>(&mut self, words: &[(&str, T)]) -> Option<T> {
        words.iter().find(|(word, _)| self.word(word).is_some()).map(|(_, it)| *it)
    }

    /// Takes a decimal number, at most this one, without leading zeros.
    pub fn number(&mut self, most: u64) -> Option<u64> {
        let digits = self.rest.iter().take_while(|byte| byte.is_ascii_digit()).count();
        let (number, rest) = self.rest.split_at(digits);
        if digits == 0 || digits > 1 && number[0] == b'0' {
            return None;
        }
        let mut value = 0_u64;
        for digit in number {
            value = value.checked_mul(10)?.checked_add(u64::from(digit - b'0'))?;
        }
        self.rest = rest;
        (value <= most).then(|| value)
    }

    /// Takes just so many decimal digits, at most 18, and gives the number that they are.
    pub fn digits(&mut self, count: usize) -> Option<u64> {
        let digits = self.rest.get(..count)?;
        if !digits.iter().all(u8::is_ascii_digit) {
            return None;
        }
        self.rest = &self.rest[count..];
        Some(digits.iter().fold(0, |value, digit| value * 10 + u64::from(digit - b'0')))
    }

    /// Takes this word and the number behind it, if the text begins with the word; else there is none.
    pub fn optional(&mut self, word: &str) -> Option<Option<u64>> {
        match self.word(word) {
            Some(()) => self.number(u64::MAX).map(Some),
            None => Some(None),
        }
    }

    /// Takes a lower-case hexadecimal number of at most four digits, without leading zeros.
    pub fn group(&mut self) -> Option<u16> {
        let is_digit = |byte: &&u8| matches!(**byte, b'0'..=b'9' | b'a'..=b'f');
        let digits = self.rest.iter().take_while(is_digit).count();
        let (number, rest) = self.rest.split_at(digits);
        if digits == 0 || digits > 4 || digits > 1 && number[0] == b'0' {
            return None;
        }
        self.rest = rest;
        let digit = |byte: &u8| u16::from(if *byte < b'a' { byte - b'0' } else { byte - b'a' + 10 });
        Some(number.iter().fold(0, |value, byte| value << 4 | digit(byte)))
    }

    /// Takes all up to the next space, or to the end.
    pub fn up_to_space(&mut self) -> &'a [u8] {
        let (word, rest) = self.rest.split_at(self.rest.iter().take_while(|byte| **byte != b' ').count());
        self.rest = rest;
        word
    }

    pub fn begins_with(&self, word: &str) -> bool {
        self.rest.starts_with(word.as_bytes())
    }

    /// Nothing is left.
    pub fn end(&self) -> Option<()> {
        self.rest.is_empty().then(|| ())
    }
}

/// Puts a number in decimal digits.
pub fn put_number(out: &mut Vec<u8>, mut number: u64) {
    let mut digits = [0; 20];
    let mut first = digits.len();
    loop {
        first -= 1;
        digits[first] = b'0' + (number % 10) as u8;
        number /= 10;
        if number == 0 {
            break;
        }
    }
    out.extend_from_slice(&digits[first..]);
}

/// Puts words and numbers in turn, with nothing between.
pub fn put_words(out: &mut Vec<u8>, parts: &[(&str, u64)]) {
    for (word, number) in parts {
        out.extend_from_slice(word.as_bytes());
        put_number(out, *number);
    }
}
