//! Paper 02, K6: the text of a lens job, and what the program `jobtext` prints. Nothing that is read is written again to be compared: the reader goes
//! over the bytes once, and takes at each place only what export can put there.

use crate::files::{read_bundle, Bundle};
use crate::listing::read_signed;
use crate::mending::INPUT;
use crate::{demand, Params, Refusal};
use std::ops::Range;

/// The labels of the four words, and how many decimals each has.
const FIELDS: [(&str, usize); 4] = [("SPH=", 2), ("CYL=", 2), ("AX=", 0), ("CTHICK=", 2)];

/// The number of the job, which has the first line and is never negative.
const JOB: (&str, usize) = ("JOB=", 0);
const NUMBERS: Range<i128> = 0..1 << 64;

/// Only books with d 4 have this text.
fn check(p: Params) -> Result<(), Refusal> {
    p.check()?;
    demand(p.d == FIELDS.len(), Refusal::Parameters)
}

/// One line, of a value in units of its last decimal: as many digits as make one before the point, and then the point.
fn line((label, decimals): (&str, usize), value: i128) -> String {
    let sign = if value < 0 { "-" } else { "" };
    let digits = format!("{:01$}", value.unsigned_abs(), decimals + 1);
    let (whole, rest) = digits.split_at(digits.len() - decimals);
    let point = if decimals > 0 { "." } else { "" };
    format!("{label}{sign}{whole}{point}{rest}\r\n")
}

/// The text of a job in a book that has it.
fn written(p: Params, number: u64, words: &[u64]) -> Result<String, Refusal> {
    demand(p.ring().in_width(words), Refusal::WideWord)?;
    let lines = FIELDS.into_iter().zip(words).map(|(field, w)| line(field, read_signed(p.k, *w)));
    Ok(line(JOB, number.into()) + &lines.collect::<String>())
}

/// What is not read yet.
struct Reader<'a>(&'a [u8]);

impl Reader<'_> {
    /// These bytes and no others.
    fn fixed(&mut self, bytes: &[u8]) -> Result<(), Refusal> {
        self.0 = self.0.strip_prefix(bytes).ok_or(Refusal::Text)?;
        Ok(())
    }

    fn digit(&mut self) -> Option<i128> {
        let (first, rest) = self.0.split_first().filter(|(first, _)| first.is_ascii_digit())?;
        self.0 = rest;
        Some(i128::from(first - b'0'))
    }

    /// What stands before any point: a zero alone, or digits that do not begin with one. No number is as large as the job's bound.
    fn whole(&mut self) -> Result<i128, Refusal> {
        let mut value = self.digit().ok_or(Refusal::Text)?;
        while value > 0 {
            let Some(digit) = self.digit() else { break };
            value = 10 * value + digit;
            demand(value < NUMBERS.end, Refusal::Text)?;
        }
        Ok(value)
    }

    /// A line, and its value in units of its last decimal.
    fn line(&mut self, (label, decimals): (&str, usize), range: Range<i128>) -> Result<i128, Refusal> {
        self.fixed(label.as_bytes())?;
        let negative = self.fixed(b"-").is_ok();
        let mut value = self.whole()?;
        if decimals > 0 {
            self.fixed(b".")?;
        }
        for _ in 0..decimals {
            value = 10 * value + self.digit().ok_or(Refusal::Text)?;
        }
        self.fixed(b"\r\n")?;
        demand(value > 0 || !negative, Refusal::Text)?;
        let value = if negative { -value } else { value };
        demand(range.contains(&value), Refusal::Text)?;
        Ok(value)
    }
}

/// How long the text of a job is.
pub fn text_size(p: Params, number: u64, words: &[u64], size: &mut [u64]) -> Result<(), Refusal> {
    check(p)?;
    demand(words.len() == FIELDS.len() && size.len() == 1, Refusal::Length)?;
    size[0] = written(p, number, words)?.len() as u64;
    Ok(())
}

/// The text of a job, into an output of its length.
pub fn write_text(p: Params, number: u64, words: &[u64], out: &mut [u8]) -> Result<(), Refusal> {
    check(p)?;
    demand(words.len() == FIELDS.len(), Refusal::Length)?;
    let text = written(p, number, words)?;
    demand(out.len() == text.len(), Refusal::Length)?;
    out.copy_from_slice(text.as_bytes());
    Ok(())
}

/// The number and the words of the job that has this text.
pub fn read_text(p: Params, text: &[u8], number: &mut [u64], words: &mut [u64]) -> Result<(), Refusal> {
    check(p)?;
    demand(number.len() == 1 && words.len() == FIELDS.len(), Refusal::Length)?;
    let (mut reader, half) = (Reader(text), 1 << (p.k - 1));
    let job = reader.line(JOB, NUMBERS)?;
    let mut values = [0; FIELDS.len()];
    for (value, field) in values.iter_mut().zip(FIELDS) {
        *value = reader.line(field, -half..half)?;
    }
    demand(reader.0.is_empty(), Refusal::Text)?;
    number[0] = job as u64;
    words.copy_from_slice(&values.map(|value| value.rem_euclid(2 * half) as u64));
    Ok(())
}

impl Bundle {
    /// The text of each job that opens; a job that declines is told as `mend` tells it.
    fn texts(&self) -> Result<String, Refusal> {
        check(self.params())?;
        let text = |place: usize| {
            let number = self.files[0].jobs[place].number;
            let opened = self.open(place).and_then(|opened| written(self.params(), number, &opened.words[..FIELDS.len()]));
            opened.unwrap_or_else(|refusal| format!("{number} refused {}\n", refusal as u8))
        };
        Ok(self.places().map(text).collect())
    }
}

/// All that the program `jobtext` prints for an input.
pub fn texts(input: &[u8]) -> String {
    let printed = demand(input.len() <= INPUT, Refusal::Length).and_then(|()| read_bundle(input)?.texts());
    printed.unwrap_or_else(|refusal| format!("refused {}\n", refusal as u8))
}
