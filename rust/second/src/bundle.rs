//! Calls on a bundle. It is read whole first; then come 4 for a named holder, 2, 9, 3, 5, 6; opening one job has no 3.

use crate::decode::Opened;
use crate::files::{read_bundle, Bundle, File};
use crate::ring::{Element, ZERO};
use crate::sharing::{open_shares, opening_lengths, share, Share};
use crate::{demand, Params, Refusal};
use std::ops::Range;

impl Bundle {
    pub fn params(&self) -> Params {
        self.files[0].heading.params
    }

    fn place(&self, place: usize) -> Result<(), Refusal> {
        demand(place < self.files[0].jobs.len(), Refusal::OutOfRange)
    }

    fn run(&self, a: usize, b: usize) -> Result<(), Refusal> {
        demand(a <= b && b <= self.files[0].jobs.len(), Refusal::OutOfRange)
    }

    pub(crate) fn file(&self, holder: usize) -> Result<&File, Refusal> {
        self.files.iter().find(|f| f.heading.holder == holder).ok_or(Refusal::Holder)
    }

    /// The shares of the job at a place that the bundle has.
    pub fn shares(&self, place: usize) -> Vec<Share> {
        self.files.iter().map(|f| share(f.heading.holder, &f.jobs[place].words)).collect()
    }

    /// The job at a place that the bundle has.
    pub(crate) fn open(&self, place: usize) -> Result<Opened, Refusal> {
        open_shares(self.params(), self.e.into(), &self.shares(place))
    }

    /// The sum of a file's shares over a run that the bundle has.
    fn sum(&self, file: &File, run: Range<usize>) -> Result<Element, Refusal> {
        let ring = self.params().ring();
        demand(file.jobs[run.clone()].iter().all(|job| ring.in_width(&job.words)), Refusal::WideWord)?;
        Ok(file.jobs[run].iter().fold(ZERO, |sum, job| ring.add(&sum, &ring.element(&job.words))))
    }

    /// The sums of the files' shares over a run that the bundle has.
    pub fn sums(&self, run: Range<usize>) -> Result<Vec<Share>, Refusal> {
        self.files.iter().map(|f| Ok(Share { holder: f.heading.holder, words: self.sum(f, run.clone())? })).collect()
    }

    /// The sum of a holder's file over a run, for an output of some length.
    fn total(&self, holder: usize, a: usize, b: usize, length: usize) -> Result<Element, Refusal> {
        let file = self.file(holder)?;
        demand(length == self.params().d, Refusal::Length)?;
        self.run(a, b)?;
        self.sum(file, a..b)
    }
}

/// The allowance, the book, the archive number, the jobs, the files and the bytes of a file.
pub fn describe(bytes: &[u8], about: &mut [u64]) -> Result<(), Refusal> {
    let bundle = read_bundle(bytes)?;
    demand(about.len() == 9, Refusal::Length)?;
    let (Params { k, d, n, t }, first) = (bundle.params(), &bundle.files[0]);
    let sizes = [first.jobs.len(), bundle.files.len(), first.part.len()].map(|x| x as u64);
    let book = [bundle.e.into(), k, d as u64, n as u64, t as u64, first.heading.archive];
    about.copy_from_slice(&[&book[..], &sizes].concat());
    Ok(())
}

pub fn job_number(bytes: &[u8], place: usize, number: &mut [u64]) -> Result<(), Refusal> {
    let bundle = read_bundle(bytes)?;
    demand(number.len() == 1, Refusal::Length)?;
    bundle.place(place)?;
    number[0] = bundle.files[0].jobs[place].number;
    Ok(())
}

/// Holder, offset and length of a file.
pub fn file(bytes: &[u8], index: usize, part: &mut [u64]) -> Result<(), Refusal> {
    let bundle = read_bundle(bytes)?;
    demand(part.len() == 3, Refusal::Length)?;
    let file = bundle.files.get(index).ok_or(Refusal::OutOfRange)?;
    part.copy_from_slice(&[file.heading.holder, file.part.start, file.part.len()].map(|x| x as u64));
    Ok(())
}

pub fn open_place(bytes: &[u8], place: usize, out: &mut [u64], wrong: &mut [u64], lowest: &mut [u8]) -> Result<(), Refusal> {
    let bundle = read_bundle(bytes)?;
    opening_lengths(bundle.params(), out, wrong, lowest)?;
    bundle.place(place)?;
    bundle.open(place)?.put(out, wrong, lowest);
    Ok(())
}

pub fn total(bytes: &[u8], holder: usize, a: usize, b: usize, out: &mut [u64]) -> Result<(), Refusal> {
    let sum = read_bundle(bytes)?.total(holder, a, b, out.len())?;
    out.copy_from_slice(&sum[..out.len()]);
    Ok(())
}

/// Paper 02, K3: the lent element plus the total. A wide word in the element gives 3 too, also where the run is empty.
pub fn add_total(bytes: &[u8], holder: usize, a: usize, b: usize, running: &mut [u64]) -> Result<(), Refusal> {
    let bundle = read_bundle(bytes)?;
    let (ring, sum) = (bundle.params().ring(), bundle.total(holder, a, b, running.len())?);
    demand(ring.in_width(running), Refusal::WideWord)?;
    running.copy_from_slice(&ring.add(&ring.element(running), &sum)[..running.len()]);
    Ok(())
}

pub fn open_run(bytes: &[u8], a: usize, b: usize, out: &mut [u64], wrong: &mut [u64], lowest: &mut [u8]) -> Result<(), Refusal> {
    let bundle = read_bundle(bytes)?;
    opening_lengths(bundle.params(), out, wrong, lowest)?;
    bundle.run(a, b)?;
    open_shares(bundle.params(), bundle.e.into(), &bundle.sums(a..b)?)?.put(out, wrong, lowest);
    Ok(())
}

/// Offset and length of the body of a job's record.
pub fn fetch_body(bytes: &[u8], holder: usize, place: usize, part: &mut [u64]) -> Result<(), Refusal> {
    let bundle = read_bundle(bytes)?;
    let file = bundle.file(holder)?;
    demand(part.len() == 2, Refusal::Length)?;
    bundle.place(place)?;
    let body = &file.jobs[place].body;
    part.copy_from_slice(&[body.start as u64, body.len() as u64]);
    Ok(())
}

pub fn fetch_fault(bytes: &[u8], holder: usize, place: usize) -> Result<(), Refusal> {
    fetch_body(bytes, holder, place, &mut [0; 2])
}
