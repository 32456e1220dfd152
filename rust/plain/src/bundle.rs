//! Calls on a bundle, and the desk that an opening may go through. Each reads the bundle whole first; after that every record stands at a computed
//! position.

use crate::decode::{decode, Shares};
use crate::ring::{add, eval, mask, sub, Element};
use crate::{demand, enough, in_width, open_shares, opening_lengths, Params, Refusal};
use std::array::from_fn;
use std::ops::Range;
use std::slice::ChunksExact;

const ORDER_SIZE: usize = 7;
const HEADING_SIZE: usize = 23;

/// The largest allowance of a desk.
const MOST_OPENINGS: u64 = 1000;

const fn job_size(d: usize) -> usize {
    14 + 8 * d
}

#[derive(Clone, Copy, PartialEq, Eq)]
struct Heading {
    params: Params,
    archive: u64,
    jobs: usize,
}

fn word(bytes: &[u8]) -> u64 {
    u64::from_le_bytes(bytes.try_into().expect("8 bytes"))
}

/// The words of a job's record.
fn words<const D: usize>(record: &[u8]) -> Element<D> {
    from_fn(|j| word(&record[14 + 8 * j..22 + 8 * j]))
}

fn put_words<const D: usize>(record: &mut [u8], words: Element<D>) {
    record[14..].chunks_exact_mut(8).zip(words).for_each(|(bytes, w)| bytes.copy_from_slice(&w.to_le_bytes()));
}

/// All words together, bit by bit.
fn together<const D: usize>(seen: u64, words: &Element<D>) -> u64 {
    words.iter().fold(seen, |seen, w| seen | w)
}

/// The first six bytes of a record: the length of kind and body, and the kind.
fn prefix(length: usize, kind: u8) -> [u8; 6] {
    let [a, b, c, d] = (length as u32).to_le_bytes();
    [a, b, c, d, kind, 0]
}

/// A heading and its holder, alone in its own ranges.
fn read_heading(bytes: &[u8], at: usize, last: usize) -> Result<(Heading, usize), Refusal> {
    let record = bytes.get(at..at + HEADING_SIZE).ok_or(Refusal::Malformed)?;
    demand(record[..6] == prefix(19, 1), Refusal::Malformed)?;
    let [k, d, n, t, holder] = from_fn(|i| usize::from(record[6 + i]));
    let jobs = u32::from_le_bytes(record[19..23].try_into().expect("4 bytes")) as usize;
    let heading = Heading { params: Params { k: k as u64, d, n, t }, archive: word(&record[11..19]), jobs };
    heading.params.check()?;
    demand(jobs <= 1000, Refusal::Parameters)?;
    demand(last < holder && holder <= n, Refusal::Holder)?;
    Ok((heading, holder))
}

impl Heading {
    fn file_size(&self) -> usize {
        HEADING_SIZE + self.jobs * job_size(self.params.d)
    }

    /// The job records of the file at `at`, as many as are there.
    fn records<'a, const D: usize>(&self, bytes: &'a [u8], at: usize) -> ChunksExact<'a, u8> {
        let end = bytes.len().min(at + self.file_size());
        bytes[at + HEADING_SIZE..end].chunks_exact(job_size(D))
    }

    /// The first fault among the job records of the file at `at`.
    fn check_jobs<const D: usize>(&self, bytes: &[u8], at: usize) -> Result<(), Refusal> {
        let expected = prefix(job_size(D) - 4, 2);
        let mut last = None;
        for (record, first) in self.records::<D>(bytes, at).zip(self.records::<D>(bytes, ORDER_SIZE)) {
            let number = word(&record[6..14]);
            demand(record[..6] == expected && last < Some(number), Refusal::Malformed)?;
            demand(first[6..14] == record[6..14], Refusal::Mismatched)?;
            last = Some(number);
        }
        demand(bytes.len() - at >= self.file_size(), Refusal::Malformed)
    }
}

/// An accepted bundle.
struct Bundle<'a> {
    bytes: &'a [u8],
    heading: Heading,
    files: usize,
}

impl<'a> Bundle<'a> {
    fn read(bytes: &'a [u8]) -> Result<Bundle<'a>, Refusal> {
        demand(bytes.len() >= ORDER_SIZE && bytes[..6] == prefix(3, 16), Refusal::Malformed)?;
        let (first, last) = read_heading(bytes, ORDER_SIZE, 0)?;
        let files = for_d!(first.params.d, Bundle::check_files::<D>(bytes, &first, last))?;
        Ok(Bundle { bytes, heading: first, files })
    }

    /// How many files there are, if there is no fault after the first heading.
    fn check_files<const D: usize>(bytes: &[u8], first: &Heading, mut last: usize) -> Result<usize, Refusal> {
        first.check_jobs::<D>(bytes, ORDER_SIZE)?;
        let mut files = 1;
        for at in (ORDER_SIZE..bytes.len()).step_by(first.file_size()).skip(1) {
            let (heading, holder) = read_heading(bytes, at, last)?;
            demand(heading == *first, Refusal::Mismatched)?;
            first.check_jobs::<D>(bytes, at)?;
            last = holder;
            files += 1;
        }
        Ok(files)
    }

    fn start(&self, file: usize) -> usize {
        ORDER_SIZE + file * self.heading.file_size()
    }

    fn holder(&self, file: usize) -> u64 {
        self.bytes[self.start(file) + 10].into()
    }

    fn allowance(&self) -> u64 {
        self.bytes[6].into()
    }

    /// Where the record of the job at a place of a file stands.
    fn record<const D: usize>(&self, file: usize, place: usize) -> Range<usize> {
        let at = self.start(file) + HEADING_SIZE + place * job_size(D);
        at..at + job_size(D)
    }

    /// Puts in the shares of the job at a place, as they stand, and tells whether no word of them is wide.
    fn load<const D: usize, const N: usize>(&self, place: usize, shares: &mut Shares<D, N>) -> bool {
        let mut seen = 0;
        for file in 0..self.files {
            let words = words(&self.bytes[self.record::<D>(file, place)]);
            seen = together(seen, &words);
            shares.push(self.holder(file), words);
        }
        in_width(self.heading.params.k, &[seen])
    }

    /// The words of a file's jobs at the places of a run.
    fn run<const D: usize>(&self, file: usize, run: Range<usize>) -> impl Iterator<Item = Element<D>> + 'a {
        let jobs = &self.bytes[self.start(file) + HEADING_SIZE..];
        jobs[run.start * job_size(D)..run.end * job_size(D)].chunks_exact(job_size(D)).map(words)
    }

    /// Adds a file's jobs at the places of a run, and tells whether no word of them is wide.
    fn add_run<const D: usize>(&self, file: usize, run: Range<usize>, running: &mut Element<D>) -> bool {
        let mut seen = 0;
        for words in self.run(file, run) {
            seen = together(seen, &words);
            *running = add(*running, words);
        }
        self.cut(running);
        in_width(self.heading.params.k, &[seen])
    }

    /// Takes them off again.
    fn take_run<const D: usize>(&self, file: usize, run: Range<usize>, running: &mut Element<D>) {
        for words in self.run(file, run) {
            *running = sub(*running, words);
        }
        self.cut(running);
    }

    fn cut<const D: usize>(&self, words: &mut Element<D>) {
        *words = words.map(|w| w & mask(self.heading.params.k));
    }

    /// The sum of a file's jobs at the places of a run, if their words are in width.
    fn total<const D: usize>(&self, file: usize, run: Range<usize>) -> Result<Element<D>, Refusal> {
        let mut sum = [0; D];
        demand(self.add_run(file, run, &mut sum), Refusal::WideWord)?;
        Ok(sum)
    }

    fn write_total<const D: usize>(&self, file: usize, run: Range<usize>, out: &mut [u64]) -> Result<(), Refusal> {
        out.copy_from_slice(&self.total::<D>(file, run)?);
        Ok(())
    }

    fn add_total<const D: usize>(&self, file: usize, run: Range<usize>, running: &mut [u64]) -> Result<(), Refusal> {
        demand(in_width(self.heading.params.k, running), Refusal::WideWord)?;
        let running: &mut Element<D> = running.try_into().expect("d words");
        if self.add_run(file, run.clone(), running) {
            return Ok(());
        }
        self.take_run(file, run, running);
        Err(Refusal::WideWord)
    }

    /// The file of a holder, if the run and an output of some length are right too.
    fn asked(&self, holder: usize, a: usize, b: usize, length: usize) -> Result<usize, Refusal> {
        let file = (0..self.files).find(|f| self.holder(*f) == holder as u64).ok_or(Refusal::Holder)?;
        demand(length == self.heading.params.d, Refusal::Length)?;
        demand(a <= b && b <= self.heading.jobs, Refusal::OutOfRange)?;
        Ok(file)
    }

    fn open_place<const D: usize, const N: usize>(
        &self,
        place: usize,
        out: &mut [u64],
        wrong: &mut [u64],
        lowest: &mut [u8],
    ) -> Result<(), Refusal> {
        let mut shares = Shares::<D, N>::new();
        let narrow = self.load(place, &mut shares);
        open_shares(self.heading.params, shares, narrow, self.allowance(), out, wrong, lowest)
    }

    fn open_run<const D: usize, const N: usize>(
        &self,
        run: Range<usize>,
        out: &mut [u64],
        wrong: &mut [u64],
        lowest: &mut [u8],
    ) -> Result<(), Refusal> {
        let mut shares = Shares::<D, N>::new();
        for file in 0..self.files {
            shares.push(self.holder(file), self.total(file, run.clone())?);
        }
        open_shares(self.heading.params, shares, true, self.allowance(), out, wrong, lowest)
    }

    /// Puts the values at the wrong holders' points over their words, in a copy of the bundle, which has enough files. A job without a codeword stays.
    fn mend<const D: usize, const N: usize>(&self, out: &mut [u8]) {
        let Params { k, t, .. } = self.heading.params;
        let mut q = [[0; D]; N];
        for place in 0..self.heading.jobs {
            let mut shares = Shares::<D, N>::new();
            let narrow = self.load(place, &mut shares);
            let wrong = decode(k, t, &mut shares, narrow, self.allowance() as u32, &mut q).unwrap_or(0);
            for file in (0..self.files).filter(|f| wrong >> (self.holder(*f) - 1) & 1 == 1) {
                let value = eval(&q[..=t], self.holder(file)).map(|w| w & mask(k));
                put_words(&mut out[self.record::<D>(file, place)], value);
            }
        }
    }
}

pub fn accept(bytes: &[u8]) -> Result<(), Refusal> {
    Bundle::read(bytes).map(|_| ())
}

pub fn open_place(bytes: &[u8], place: usize, out: &mut [u64], wrong: &mut [u64], lowest: &mut [u8]) -> Result<(), Refusal> {
    open_unless(false, bytes, place, out, wrong, lowest)
}

/// The opening of a place, unless a desk is closed.
fn open_unless(closed: bool, bytes: &[u8], place: usize, out: &mut [u64], wrong: &mut [u64], lowest: &mut [u8]) -> Result<(), Refusal> {
    let bundle = Bundle::read(bytes)?;
    opening_lengths(bundle.heading.params, out, wrong, lowest)?;
    demand(place < bundle.heading.jobs, Refusal::OutOfRange)?;
    demand(!closed, Refusal::DeskClosed)?;
    for_d!(bundle.heading.params.d, bundle.open_place::<D, { 1 << D }>(place, out, wrong, lowest))
}

/// The start of a month: the allowance and a count of zero.
pub fn desk_start(desk: &mut [u64], q: u64) -> Result<(), Refusal> {
    demand(desk.len() == 2, Refusal::Length)?;
    demand(q <= MOST_OPENINGS, Refusal::Parameters)?;
    desk.copy_from_slice(&[q, 0]);
    Ok(())
}

/// The opening of a place that a desk counts.
pub fn desk_open(
    desk: &mut [u64],
    bytes: &[u8],
    place: usize,
    out: &mut [u64],
    wrong: &mut [u64],
    lowest: &mut [u8],
) -> Result<(), Refusal> {
    let [q, count] = desk else { return Err(Refusal::Length) };
    demand(*q <= MOST_OPENINGS, Refusal::Parameters)?;
    open_unless(*count >= *q, bytes, place, out, wrong, lowest)?;
    *count += 1;
    Ok(())
}

pub fn open_run(bytes: &[u8], a: usize, b: usize, out: &mut [u64], wrong: &mut [u64], lowest: &mut [u8]) -> Result<(), Refusal> {
    let bundle = Bundle::read(bytes)?;
    opening_lengths(bundle.heading.params, out, wrong, lowest)?;
    demand(a <= b && b <= bundle.heading.jobs, Refusal::OutOfRange)?;
    for_d!(bundle.heading.params.d, bundle.open_run::<D, { 1 << D }>(a..b, out, wrong, lowest))
}

pub fn total(bytes: &[u8], holder: usize, a: usize, b: usize, out: &mut [u64]) -> Result<(), Refusal> {
    let bundle = Bundle::read(bytes)?;
    let file = bundle.asked(holder, a, b, out.len())?;
    for_d!(bundle.heading.params.d, bundle.write_total::<D>(file, a..b, out))
}

/// The same total, added to the lent element as the words are read; where one of them is wide, the run is taken off again.
pub fn add_total(bytes: &[u8], holder: usize, a: usize, b: usize, running: &mut [u64]) -> Result<(), Refusal> {
    let bundle = Bundle::read(bytes)?;
    let file = bundle.asked(holder, a, b, running.len())?;
    for_d!(bundle.heading.params.d, bundle.add_total::<D>(file, a..b, running))
}

/// The bundle with every wrong share replaced, into an output of its length.
pub fn mend(bytes: &[u8], out: &mut [u8]) -> Result<(), Refusal> {
    let bundle = Bundle::read(bytes)?;
    demand(out.len() == bytes.len(), Refusal::Length)?;
    out.copy_from_slice(bytes);
    // Every job has as many shares as there are files.
    if enough(bundle.heading.params, bundle.files, bundle.allowance()).is_ok() {
        for_d!(bundle.heading.params.d, bundle.mend::<D, { 1 << D }>(out));
    }
    Ok(())
}
