//! Reading a sheet line by line, from the top, up to its first fault: the key, the line feed, the spelling of the number,
//! then its range.

use super::faults::{END_KEY, Fault, Group, LineFault, Refusal, Why};
use super::limits::{
    COEF, MOST_BYTES, QUANTITIES, RADIUS, START, STEPS, STORED_STEPS, TAIL, TERMS, TOL,
    second_range, step_within, within,
};
use super::{Sheet, Start, Term};
use std::ops::RangeInclusive;

/// Reads a sheet; the first fault from the top decides the refusal.
pub fn read(sheet: &[u8]) -> Result<Sheet, Refusal> {
    examine(sheet).map_err(Refusal::from)
}

/// Reads a stored sheet, which may have more steps.
pub fn read_stored(sheet: &[u8]) -> Result<Sheet, Refusal> {
    examine_with(sheet, STORED_STEPS).map_err(Refusal::from)
}

/// Reads a sheet, or finds its first fault from the top.
pub fn examine(sheet: &[u8]) -> Result<Sheet, Fault<'_>> {
    examine_with(sheet, STEPS)
}

fn examine_with(sheet: &[u8], steps_range: RangeInclusive<i64>) -> Result<Sheet, Fault<'_>> {
    if sheet.len() > MOST_BYTES {
        return Err(Fault::TooLong);
    }
    let mut lines = Lines::of(sheet);
    lines.sheet(steps_range).map_err(Fault::InLine)
}

/// A sheet's lines, from the top.
struct Lines<'a> {
    /// What is left of the sheet.
    rest: &'a [u8],
    /// How many lines have been read.
    read: usize,
    /// What the next line belongs to.
    group: Group,
}

impl<'a> Lines<'a> {
    fn of(sheet: &'a [u8]) -> Self {
        Lines {
            rest: sheet,
            read: 0,
            group: Group::Once,
        }
    }

    /// All of the sheet, line by line.
    fn sheet(&mut self, steps_range: RangeInclusive<i64>) -> Result<Sheet, LineFault<'a>> {
        let n = self.plain("n", QUANTITIES)?;
        let steps = self.plain("steps", steps_range)?;
        let step = self.line("step", |text| step_within(signed_number(text)?))?;
        let tail = self.plain("tail", TAIL)?;
        let tol = self.plain("tol", TOL)?;
        let mut starts = Vec::with_capacity(n as usize);
        for quantity in 1..=n {
            self.group = Group::Quantity(quantity);
            starts.push(self.start()?);
        }
        self.group = Group::Once;
        let count = self.plain("terms", TERMS)?;
        let mut terms = Vec::with_capacity(count as usize);
        for term in 1..=count {
            self.group = Group::Term(term);
            terms.push(self.term(n)?);
        }
        self.group = Group::Once;
        self.end()?;
        Ok(Sheet {
            steps,
            step,
            tail,
            tol,
            starts,
            terms,
        })
    }

    fn start(&mut self) -> Result<Start, LineFault<'a>> {
        Ok(Start {
            value: Some(self.line("start", reading)?),
            radius: self.plain("radius", RADIUS)?,
        })
    }

    /// A term of a sheet with n quantities.
    fn term(&mut self, n: i64) -> Result<Term, LineFault<'a>> {
        let to = self.plain("to", 1..=n)?;
        let coef = self.line("coef", |text| within(signed_number(text)?, COEF))?;
        let first = self.plain("first", 0..=n)?;
        let second = self.plain("second", second_range(first, n))?;
        Ok(Term {
            to,
            coef,
            first,
            second,
        })
    }

    /// A line whose number has no sign.
    fn plain(
        &mut self,
        key: &'static str,
        range: RangeInclusive<i64>,
    ) -> Result<i64, LineFault<'a>> {
        self.line(key, |text| within(plain_number(text)?, range))
    }

    /// The next line, whose text after `key=` is a number by `number`.
    fn line(
        &mut self,
        key: &'static str,
        number: impl FnOnce(&[u8]) -> Result<i64, Why>,
    ) -> Result<i64, LineFault<'a>> {
        let (text, rest) = value(self.rest, key).map_err(|why| self.fault(key, why))?;
        let number = number(text).map_err(|why| self.fault(key, why))?;
        self.rest = rest;
        self.read += 1;
        Ok(number)
    }

    /// Nothing may follow the last line.
    fn end(&self) -> Result<(), LineFault<'a>> {
        if self.rest.is_empty() {
            Ok(())
        } else {
            Err(self.fault(END_KEY, Why::After))
        }
    }

    /// A fault of the next line.
    fn fault(&self, key: &'static str, why: Why) -> LineFault<'a> {
        let end = self.rest.iter().position(|&byte| byte == b'\n');
        LineFault {
            line: self.read + 1,
            key,
            group: self.group,
            found: &self.rest[..end.unwrap_or(self.rest.len())],
            why,
        }
    }
}

/// The text between `key=` and the line feed of the first line, and what follows that line.
fn value<'a>(lines: &'a [u8], key: &str) -> Result<(&'a [u8], &'a [u8]), Why> {
    if lines.is_empty() {
        return Err(Why::Missing);
    }
    let after_key = lines.strip_prefix(key.as_bytes());
    let text = after_key.and_then(|text| text.strip_prefix(b"="));
    let text = text.ok_or(Why::Key)?;
    let end = text.iter().position(|&byte| byte == b'\n');
    let end = end.ok_or(Why::Unended)?;
    Ok((&text[..end], &text[end + 1..]))
}

/// A number that may have a minus, or `none`.
fn reading(text: &[u8]) -> Result<i64, Why> {
    match text {
        b"none" => Err(Why::Reading),
        _ => within(signed_number(text)?, START),
    }
}

/// A number without a sign.
fn plain_number(text: &[u8]) -> Result<i64, Why> {
    digits(text).ok_or_else(|| match signed_number(text) {
        Ok(_) => Why::Sign,
        Err(why) => why,
    })
}

/// A number with a minus or without; never a minus before 0.
fn signed_number(text: &[u8]) -> Result<i64, Why> {
    let number = match text {
        b"-0" => None,
        [b'-', size @ ..] => digits(size).map(|size| -size),
        _ => digits(text),
    };
    number.ok_or(Why::Number)
}

/// One to nine digits, without a leading zero except in 0 itself.
fn digits(text: &[u8]) -> Option<i64> {
    let well_spelt = match text {
        [b'0'] => true,
        [b'1'..=b'9', rest @ ..] => rest.len() <= 8 && rest.iter().all(u8::is_ascii_digit),
        _ => false,
    };
    well_spelt.then(|| {
        text.iter()
            .fold(0, |number, digit| 10 * number + i64::from(digit - b'0'))
    })
}
