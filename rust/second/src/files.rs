//! The bytes of files and bundles: a reader that parses them into values and stops at the first fault, and the writers.

use crate::{demand, Params, Refusal};
use std::ops::Range;

const HEADING: u16 = 1;
const JOB: u16 = 2;
const ORDER: u16 = 16;
const JOBS: usize = 1000;

#[derive(Clone, Copy, Debug, PartialEq, Eq)]
pub struct Heading {
    pub params: Params,
    pub holder: usize,
    pub archive: u64,
    pub jobs: usize,
}

#[derive(Clone, Debug, PartialEq, Eq)]
pub struct Job {
    pub number: u64,
    pub words: Vec<u64>,
    /// Where the record's body stands in the bundle.
    pub body: Range<usize>,
}

#[derive(Clone, Debug, PartialEq, Eq)]
pub struct File {
    pub heading: Heading,
    pub jobs: Vec<Job>,
    /// Where the file stands in the bundle.
    pub part: Range<usize>,
}

#[derive(Clone, Debug, PartialEq, Eq)]
pub struct Bundle {
    pub e: u8,
    pub files: Vec<File>,
}

fn number(bytes: &[u8]) -> u64 {
    bytes.iter().rev().fold(0, |sum, b| sum << 8 | u64::from(*b))
}

struct Reader<'a> {
    bytes: &'a [u8],
    at: usize,
}

impl Reader<'_> {
    fn at_end(&self) -> bool {
        self.at == self.bytes.len()
    }

    fn take(&mut self, length: usize) -> Result<Range<usize>, Refusal> {
        demand(length <= self.bytes.len() - self.at, Refusal::Malformed)?;
        let part = self.at..self.at + length;
        self.at += length;
        Ok(part)
    }

    /// The body of a record, which must be of this kind and length.
    fn record(&mut self, kind: u16, length: usize) -> Result<Range<usize>, Refusal> {
        let found = number(&self.bytes[self.take(4)?]);
        demand(found == length as u64, Refusal::Malformed)?;
        let found = number(&self.bytes[self.take(2)?]);
        demand(found == u64::from(kind), Refusal::Malformed)?;
        self.take(length - 2)
    }

    fn heading(&mut self) -> Result<Heading, Refusal> {
        let body = &self.bytes[self.record(HEADING, 19)?];
        let [k, d, n, t, holder] = std::array::from_fn(|i| usize::from(body[i]));
        let heading = Heading {
            params: Params { k: k as u64, d, n, t },
            holder,
            archive: number(&body[5..13]),
            jobs: number(&body[13..17]) as usize,
        };
        heading.params.check()?;
        demand(heading.jobs <= JOBS, Refusal::Parameters)?;
        demand((1..=n).contains(&holder), Refusal::Holder)?;
        Ok(heading)
    }

    fn job(&mut self, d: usize) -> Result<Job, Refusal> {
        let body = self.record(JOB, 10 + 8 * d)?;
        let mut numbers = self.bytes[body.clone()].chunks(8).map(number);
        let job_number = numbers.next().expect("a body of 8 + 8 d bytes");
        Ok(Job { number: job_number, words: numbers.collect(), body })
    }

    /// A file that comes after the given ones.
    fn file(&mut self, before: &[File]) -> Result<File, Refusal> {
        let start = self.at;
        let heading = self.heading()?;
        if let (Some(first), Some(last)) = (before.first(), before.last()) {
            demand(last.heading.holder < heading.holder, Refusal::Holder)?;
            let same = Heading { holder: heading.holder, ..first.heading };
            demand(heading == same, Refusal::Mismatched)?;
        }
        let mut jobs: Vec<Job> = vec![];
        for place in 0..heading.jobs {
            let job = self.job(heading.params.d)?;
            demand(jobs.last().is_none_or(|last| last.number < job.number), Refusal::Malformed)?;
            demand(before.first().is_none_or(|first| first.jobs[place].number == job.number), Refusal::Mismatched)?;
            jobs.push(job);
        }
        Ok(File { heading, jobs, part: start..self.at })
    }
}

pub fn read_bundle(bytes: &[u8]) -> Result<Bundle, Refusal> {
    let mut reader = Reader { bytes, at: 0 };
    let order = reader.record(ORDER, 3)?;
    let mut files = vec![reader.file(&[])?];
    while !reader.at_end() {
        files.push(reader.file(&files)?);
    }
    Ok(Bundle { e: bytes[order.start], files })
}

/// The first fault of bytes that should be one file, with nothing after it.
pub fn check_file(bytes: &[u8]) -> Result<(), Refusal> {
    let mut reader = Reader { bytes, at: 0 };
    reader.file(&[])?;
    demand(reader.at_end(), Refusal::Malformed)
}

/// The record at a cursor, of a kind and a length that go together in some book, or the end: 0 or 1, the kind, the body's start and length.
pub fn read(bytes: &[u8], cursor: usize, step: &mut [u64]) -> Result<(), Refusal> {
    demand(step.len() == 4, Refusal::Length)?;
    let rest = bytes.get(cursor..).ok_or(Refusal::Malformed)?;
    if rest.is_empty() {
        step.copy_from_slice(&[1, 0, cursor as u64, 0]);
        return Ok(());
    }
    let (start, body) = rest.split_at_checked(6).ok_or(Refusal::Malformed)?;
    let (length, kind) = (number(&start[..4]), number(&start[4..]));
    let lengths: &[u64] = match kind {
        1 => &[19],
        2 => &[26, 34, 42, 50, 58],
        16 => &[3],
        _ => &[],
    };
    demand(lengths.contains(&length) && length - 2 <= body.len() as u64, Refusal::Malformed)?;
    step.copy_from_slice(&[0, kind, cursor as u64 + 6, length - 2]);
    Ok(())
}

pub fn accept(bytes: &[u8]) -> Result<(), Refusal> {
    read_bundle(bytes).map(|_| ())
}

fn put_record(out: &mut Vec<u8>, kind: u16, body: &[u8]) {
    out.extend((body.len() as u32 + 2).to_le_bytes());
    out.extend(kind.to_le_bytes());
    out.extend(body);
}

pub fn write_file(p: Params, holder: usize, archive: u64, numbers: &[u64], words: &[u64], out: &mut [u8]) -> Result<(), Refusal> {
    p.check()?;
    demand(numbers.len() <= JOBS, Refusal::Parameters)?;
    let size = 23 + numbers.len() * (14 + 8 * p.d);
    demand(words.len() == numbers.len() * p.d && out.len() == size, Refusal::Length)?;
    demand((1..=p.n).contains(&holder), Refusal::Holder)?;
    demand(numbers.windows(2).all(|pair| pair[0] < pair[1]), Refusal::Malformed)?;
    demand(p.ring().in_width(words), Refusal::WideWord)?;
    let mut heading = vec![p.k as u8, p.d as u8, p.n as u8, p.t as u8, holder as u8];
    heading.extend(archive.to_le_bytes());
    heading.extend((numbers.len() as u32).to_le_bytes());
    let mut file = vec![];
    put_record(&mut file, HEADING, &heading);
    for (number, words) in numbers.iter().zip(words.chunks(p.d)) {
        let body: Vec<u8> = std::iter::once(number).chain(words).flat_map(|w| w.to_le_bytes()).collect();
        put_record(&mut file, JOB, &body);
    }
    out.copy_from_slice(&file);
    Ok(())
}

pub fn write_order(e: u8, out: &mut [u8]) -> Result<(), Refusal> {
    demand(out.len() == 7, Refusal::Length)?;
    let mut order = vec![];
    put_record(&mut order, ORDER, &[e]);
    out.copy_from_slice(&order);
    Ok(())
}

/// An order and the files as they stand; declines what a reader of the bundle would decline, and then a wrong length.
pub fn write_bundle(e: u8, files: &[u8], out: &mut [u8]) -> Result<(), Refusal> {
    let mut bundle = vec![];
    put_record(&mut bundle, ORDER, &[e]);
    bundle.extend(files);
    accept(&bundle)?;
    demand(out.len() == bundle.len(), Refusal::Length)?;
    out.copy_from_slice(&bundle);
    Ok(())
}
