//! Lines of text: how an input is parted into them, their words, and why one is refused.

use std::io::BufRead;

pub const MOST_INPUT: usize = 16_777_216;
pub const MOST_LINE: usize = 4_096;

/// Why a line is refused.
#[derive(Clone, Copy, Debug, PartialEq, Eq)]
pub enum Why {
    TooMuchInput,
    LineTooLong,
    NotText,
    Missing,
    UnknownWord,
    BadNumber,
    BadHex,
    Trailing,
    HeaderLate,
    BadList,
    NotOurs,
    TooManyEvents,
    NoSuchFrame,
    FrameTooLong,
    SealShort,
}

/// A line that is refused, at a column from 1.
#[derive(Clone, Copy, Debug)]
pub struct LineRefusal {
    pub column: usize,
    pub why: Why,
}

pub fn refused<T>(column: usize, why: Why) -> Result<T, LineRefusal> {
    Err(LineRefusal { column, why })
}

/// The lines of an input, each judged as a line.
pub fn lines(input: &[u8]) -> impl Iterator<Item = Result<&str, LineRefusal>> {
    let mut at = 0;
    std::iter::from_fn(move || {
        let rest = &input[at..];
        if rest.is_empty() {
            return None;
        }
        let window = &rest[..rest.len().min(MOST_LINE + 1)];
        let begin = at;
        // A slice is read without a fault.
        let taken = { window }.skip_until(b'\n').unwrap_or(window.len());
        at += taken;
        let end = (window[taken - 1] == b'\n').then_some(taken - 1);
        Some(judged(window, end, begin))
    })
}

fn judged(window: &[u8], end: Option<usize>, begin: usize) -> Result<&str, LineRefusal> {
    let length = end.unwrap_or(window.len());
    // The newline, or the byte that is too much, or the end of the input.
    let place = begin
        + if length > MOST_LINE {
            MOST_LINE
        } else {
            length
        };
    if place >= MOST_INPUT && (place > MOST_INPUT || end.is_some() || length > MOST_LINE) {
        return refused(1, Why::TooMuchInput);
    }
    if length > MOST_LINE {
        return refused(MOST_LINE + 1, Why::LineTooLong);
    }
    let line = &window[..length];
    let is_bad = |byte: &u8| !(32..=126).contains(byte);
    if line.iter().fold(false, |bad, byte| bad | is_bad(byte)) {
        let bad = line.iter().position(is_bad).unwrap_or(0);
        return refused(bad + 1, Why::NotText);
    }
    Ok(std::str::from_utf8(line).expect("it is ASCII"))
}

/// Whether a line says something.
pub fn says(line: &str) -> bool {
    !line.is_empty() && !line.starts_with('#')
}

/// The words of a line, each with its column.
#[derive(Clone, Debug)]
pub struct Words<'a> {
    line: &'a str,
    at: Option<usize>,
}

impl<'a> Words<'a> {
    pub fn of(line: &'a str) -> Words<'a> {
        Words { line, at: Some(0) }
    }

    /// The next word, if there is one, which may be empty.
    pub fn peek(&self) -> Option<&'a str> {
        let rest = &self.line[self.at?..];
        Some(rest.split_once(' ').map_or(rest, |(word, _)| word))
    }

    pub fn next(&mut self) -> Result<(usize, &'a str), LineRefusal> {
        let Some(at) = self.at else {
            return refused(self.line.len() + 2, Why::Missing);
        };
        let rest = &self.line[at..];
        let word = match rest.as_bytes().iter().position(|byte| *byte == b' ') {
            Some(blank) => {
                self.at = Some(at + blank + 1);
                &rest[..blank]
            }
            None => {
                self.at = None;
                rest
            }
        };
        if word.is_empty() {
            return refused(at + 1, Why::Missing);
        }
        Ok((at + 1, word))
    }

    /// Nothing more may follow.
    pub fn end(&self) -> Result<(), LineRefusal> {
        match self.at {
            Some(at) => refused(at + 1, Why::Trailing),
            None => Ok(()),
        }
    }

    /// The next word as one of these.
    pub fn one_of<T: Copy>(&mut self, known: &[(&str, T)]) -> Result<T, LineRefusal> {
        let (column, word) = self.next()?;
        match known.iter().find(|(name, _)| *name == word) {
            Some((_, value)) => Ok(*value),
            None => refused(column, Why::UnknownWord),
        }
    }

    /// The next word as a number below a limit.
    pub fn number(&mut self, limit: u64) -> Result<u64, LineRefusal> {
        let (column, word) = self.next()?;
        match number(word) {
            Some(value) if value < limit => Ok(value),
            _ => refused(column, Why::BadNumber),
        }
    }

    /// The next word as bytes, which are put into `out`.
    pub fn hex(&mut self, out: &mut Vec<u8>) -> Result<usize, LineRefusal> {
        let (column, word) = self.next()?;
        match unhex(word.as_bytes(), out) {
            Ok(()) => Ok(column),
            Err(place) => refused(column + place, Why::BadHex),
        }
    }
}

/// A decimal number without a leading zero.
pub fn number(word: &str) -> Option<u64> {
    let is_number = !word.is_empty() && word.bytes().all(|byte| byte.is_ascii_digit());
    let is_short = word == "0" || !word.starts_with('0');
    if is_number && is_short {
        word.parse().ok()
    } else {
        None
    }
}

const NO_DIGIT: u8 = 255;

/// The value of each hexadecimal digit.
const DIGITS: [u8; 256] = {
    let mut values = [NO_DIGIT; 256];
    let mut digit = 0;
    while digit < 16 {
        values[b"0123456789abcdef"[digit as usize] as usize] = digit;
        values[b"0123456789ABCDEF"[digit as usize] as usize] = digit;
        digit += 1;
    }
    values
};

/// The bytes of hexadecimal digits; else the place of the first bad one, or that after an odd one.
fn unhex(digits: &[u8], out: &mut Vec<u8>) -> Result<(), usize> {
    out.clear();
    out.resize(digits.len() / 2, 0);
    let mut has_bad = false;
    for (byte, pair) in out.iter_mut().zip(digits.chunks_exact(2)) {
        let (high, low) = (DIGITS[usize::from(pair[0])], DIGITS[usize::from(pair[1])]);
        has_bad |= high | low > 15;
        *byte = high << 4 | low & 15;
    }
    if has_bad || !digits.len().is_multiple_of(2) {
        let bad = digits
            .iter()
            .position(|digit| DIGITS[usize::from(*digit)] == NO_DIGIT);
        return Err(bad.unwrap_or(digits.len()));
    }
    Ok(())
}

/// Two digits of each byte.
const PAIRS: [[u8; 2]; 256] = {
    let mut pairs = [[0; 2]; 256];
    let mut byte = 0;
    while byte < 256 {
        pairs[byte] = [
            b"0123456789abcdef"[byte >> 4],
            b"0123456789abcdef"[byte & 15],
        ];
        byte += 1;
    }
    pairs
};

/// Bytes as hexadecimal digits, or `-` where there are none.
pub fn put_hex(bytes: &[u8], out: &mut Vec<u8>) {
    if bytes.is_empty() {
        out.push(b'-');
    }
    let begin = out.len();
    out.resize(begin + 2 * bytes.len(), 0);
    for (pair, byte) in out[begin..].chunks_exact_mut(2).zip(bytes) {
        pair.copy_from_slice(&PAIRS[usize::from(*byte)]);
    }
}

/// Two digits of each number below 100.
const DECIMALS: [[u8; 2]; 100] = {
    let mut pairs = [[0; 2]; 100];
    let mut number = 0;
    while number < 100 {
        pairs[number as usize] = [b'0' + number / 10, b'0' + number % 10];
        number += 1;
    }
    pairs
};

/// A number in decimal.
pub fn put_number(number: u64, out: &mut Vec<u8>) {
    let (mut digits, mut at, mut rest) = ([0; 20], 20, number);
    while rest >= 10 {
        at -= 2;
        digits[at..at + 2].copy_from_slice(&DECIMALS[(rest % 100) as usize]);
        rest /= 100;
    }
    if rest > 0 || at == 20 {
        at -= 1;
        digits[at] = b'0' + rest as u8;
    }
    out.extend_from_slice(&digits[at..]);
}
