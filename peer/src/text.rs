//! Lines and decimal numbers of the sheets, and the reply that calls give.

use crate::limits;

/// The refusal numbers of the paper, by cause.
pub mod cause {
    pub const TOO_LONG: u32 = 1;
    pub const LINE_FORM: u32 = 2;
    pub const RECORD_ORDER: u32 = 3;
    pub const DECLARED_NAME: u32 = 4;
    pub const FORMULA_FORM: u32 = 5;
    pub const FORMULA_SIZE: u32 = 6;
    pub const RELATION_USE: u32 = 7;
    pub const VARIABLE_SCOPE: u32 = 8;
    pub const ELEMENT_RANGE: u32 = 9;
    pub const REPEATED: u32 = 10;
    pub const PROBLEM_SIZE: u32 = 11;
    pub const SHORT_BUFFER: u32 = 12;
    pub const NO_ACTION: u32 = 13;
    pub const NOT_APPLICABLE: u32 = 14;
    pub const NO_GOAL: u32 = 15;
    pub const KIND_BROKEN: u32 = 16;
    pub const RULE_FALSE: u32 = 17;
    pub const LABEL: u32 = 18;
    pub const TYPE: u32 = 19;
    pub const TOO_MANY_CELLS: u32 = 20;
    pub const NO_PICKS: u32 = 21;
    pub const PDDL: u32 = 22;
    pub const EVERY: u32 = 23;
    pub const NOT_MONOTONE: u32 = 24;
}

/// Why a call did nothing: the cause's number and where it was found.
#[derive(Clone, Copy, Debug, PartialEq, Eq)]
pub struct Refusal {
    pub number: u32,
    pub place: u64,
}

impl Refusal {
    pub fn new(number: u32, place: usize) -> Self {
        Refusal { number, place: place as u64 }
    }
}

/// What checking, reading picks and building give back.
#[derive(Clone, Copy, Debug, PartialEq, Eq)]
pub enum Reply {
    /// The number of steps.
    Accepted(u64),
    Refused(Refusal),
}

impl From<Result<usize, Refusal>> for Reply {
    fn from(result: Result<usize, Refusal>) -> Self {
        match result {
            Ok(count) => Reply::Accepted(count as u64),
            Err(refusal) => Reply::Refused(refusal),
        }
    }
}

/// One line without its end byte, and where it starts in its sheet.
#[derive(Clone, Copy, Debug)]
pub struct Line<'t> {
    pub place: usize,
    pub bytes: &'t [u8],
    /// False only for bytes after the sheet's last end byte.
    pub ended: bool,
}

impl Line<'_> {
    pub fn refuse(&self, number: u32) -> Refusal {
        Refusal::new(number, self.place)
    }

    /// The first field, which says what the line is.
    pub fn word(&self) -> &[u8] {
        let end = self.bytes.iter().position(|&byte| byte == b'\t');
        &self.bytes[..end.unwrap_or(self.bytes.len())]
    }
}

/// Walks a sheet line by line; no line is looked at before its turn.
pub struct Lines<'t> {
    text: &'t [u8],
    at: usize,
}

pub fn lines(text: &[u8]) -> Lines<'_> {
    Lines { text, at: 0 }
}

impl<'t> Iterator for Lines<'t> {
    type Item = Line<'t>;

    fn next(&mut self) -> Option<Line<'t>> {
        let rest = &self.text[self.at..];
        if rest.is_empty() {
            return None;
        }
        let end = rest.iter().position(|&byte| byte == b'\n');
        let length = end.unwrap_or(rest.len());
        let line = Line { place: self.at, bytes: &rest[..length], ended: end.is_some() };
        self.at += length + usize::from(line.ended);
        Some(line)
    }
}

/// Refuses a sheet that is too long, before any of its lines is read.
pub fn limit(text: &[u8]) -> Result<(), Refusal> {
    if text.len() > limits::TEXT {
        return Err(Refusal::new(cause::TOO_LONG, 0));
    }
    Ok(())
}

/// A decimal number: 1 to 7 digits, no zero in front of another digit.
#[inline]
pub fn number(field: &[u8]) -> Option<u32> {
    if field.is_empty() || field.len() > 7 || (field[0] == b'0' && field.len() > 1) {
        return None;
    }
    field.iter().try_fold(0, |value, &byte| {
        byte.is_ascii_digit().then(|| value * 10 + u32::from(byte - b'0'))
    })
}
