//! Safe calls of Yikescanvas, an archive of jobs in Shamir shares over the Galois ring of words modulo 2^k. The library is proved; this crate
//! hands it slices, and turns its numbers into [`Refusal`]. A call that declines leaves every output as it was.
//!
//! ```
//! use yikescanvas::{deal, open_shares, Params};
//!
//! let book = Params { k: 3, d: 2, n: 3, t: 1 };
//! let mut shares = [0; 6];
//! deal(book, &[5, 2], &[3, 1], &mut shares)?;
//! let mut job = [0; 2];
//! assert_eq!(open_shares(book, &[1, 2, 3], &shares, 0, &mut job)?.wrong, 0);
//! assert_eq!(job, [5, 2]);
//! # Ok::<(), yikescanvas::Refusal>(())
//! ```
#![deny(missing_docs)]
#[rustfmt::skip]
#[doc(hidden)]
pub mod ffi;

use std::ops::Range;

/// The book of an archive.
#[derive(Clone, Copy, Debug, PartialEq, Eq)]
pub struct Params {
    /// The bits of a word, 1 to 64.
    pub k: u64,
    /// The words of an element, 2 to 6.
    pub d: usize,
    /// The holders, 1 to 2^d - 1.
    pub n: usize,
    /// The degree of the dealing polynomial, 0 to n - 1.
    pub t: usize,
}

/// Why a call declines, with the numbers of papers 01 and 02.
#[derive(Clone, Copy, Debug, PartialEq, Eq)]
pub enum Refusal {
    /// 1: a number of the book, the number of jobs, or a desk's allowance is out of its range, or d is not 4 in a call on job text.
    Parameters,
    /// 2: a list or an output has not the length that the call needs.
    Length,
    /// 3: a word that the call uses is 2^k or more. Opening one job never gives it: there the share is wrong.
    WideWord,
    /// 4: a holder is not from 1 to n, holders do not strictly rise, or the holder named has no file.
    Holder,
    /// 5: fewer than t + 1 + 2e shares.
    TooFewShares,
    /// 6: no polynomial of degree t or less differs from e shares or fewer.
    NoCodeword,
    /// 7: bytes that are no bundle, file or record, or job numbers that do not strictly rise.
    Malformed,
    /// 8: a file does not belong with the first.
    Mismatched,
    /// 9: a place, a run or a file that is not there.
    OutOfRange,
    /// 10: the desk's count is its allowance or more.
    DeskClosed,
    /// 11: bytes that are the text of no job of the book.
    Text,
    /// A number that this crate does not know, of a library that is newer than it.
    Unknown(u8),
}

impl Refusal {
    /// Every refusal that this crate knows, in the order of the numbers.
    pub const ALL: [Refusal; 11] = [
        Refusal::Parameters,
        Refusal::Length,
        Refusal::WideWord,
        Refusal::Holder,
        Refusal::TooFewShares,
        Refusal::NoCodeword,
        Refusal::Malformed,
        Refusal::Mismatched,
        Refusal::OutOfRange,
        Refusal::DeskClosed,
        Refusal::Text,
    ];

    /// The papers' number.
    pub fn number(self) -> u8 {
        match self {
            Refusal::Parameters => 1,
            Refusal::Length => 2,
            Refusal::WideWord => 3,
            Refusal::Holder => 4,
            Refusal::TooFewShares => 5,
            Refusal::NoCodeword => 6,
            Refusal::Malformed => 7,
            Refusal::Mismatched => 8,
            Refusal::OutOfRange => 9,
            Refusal::DeskClosed => 10,
            Refusal::Text => 11,
            Refusal::Unknown(number) => number,
        }
    }

    /// What a number stands for, `None` for 0.
    pub fn from_number(number: u8) -> Option<Refusal> {
        match number {
            0 => None,
            _ => Some(Refusal::ALL.into_iter().find(|refusal| refusal.number() == number).unwrap_or(Refusal::Unknown(number))),
        }
    }
}

impl std::fmt::Display for Refusal {
    fn fmt(&self, f: &mut std::fmt::Formatter<'_>) -> std::fmt::Result {
        let text = match self {
            Refusal::Parameters => "parameters out of range",
            Refusal::Length => "a length that the call does not need",
            Refusal::WideWord => "a word of more than k bits",
            Refusal::Holder => "a holder that is not there",
            Refusal::TooFewShares => "too few shares",
            Refusal::NoCodeword => "no polynomial near enough",
            Refusal::Malformed => "malformed bytes",
            Refusal::Mismatched => "files that do not belong together",
            Refusal::OutOfRange => "a place that is not there",
            Refusal::DeskClosed => "a closed desk",
            Refusal::Text => "text of no job",
            Refusal::Unknown(_) => "a number that is not known",
        };
        write!(f, "{text} ({})", self.number())
    }
}

impl std::error::Error for Refusal {}

fn told(number: u8) -> Result<(), Refusal> {
    Refusal::from_number(number).map_or(Ok(()), Err)
}

/// What every line of [`list_line`] fits into.
pub const LINE: usize = 1024;

/// The bytes of an order.
pub const ORDER_SIZE: usize = 7;

/// The bytes of a file of so many jobs, `None` where they are too many to count.
pub fn file_size(p: Params, jobs: usize) -> Option<usize> {
    let job = p.d.checked_mul(8)?.checked_add(14)?;
    jobs.checked_mul(job)?.checked_add(23)
}

/// The holders of a set, rising: bit i - 1 stands for holder i.
pub fn holders(set: u64) -> impl Iterator<Item = usize> {
    (1..=64).filter(move |i| set >> (i - 1) & 1 == 1)
}

/// Whose shares an opening found wrong, and from which bit on.
#[derive(Clone, Copy, Debug, PartialEq, Eq)]
pub struct Opened {
    /// The set of the holders whose shares are wrong, which [`holders`] lists.
    pub wrong: u64,
    /// For holder i the entry i - 1: the lowest bit, 0 to 63, at which a word of its share differs from the value that belongs there, or
    /// [`NOT_WRONG`].
    pub lowest: [u8; 64],
}

/// The entry of [`Opened::lowest`] for a holder whose share is not wrong, or who has none.
pub const NOT_WRONG: u8 = 255;

impl Opened {
    /// The lowest bit at which a word of this holder's share differs from the value that belongs there, counted from 0 and over all words; `None`
    /// where its share is not wrong. It is k or more where the share is right in the low k bits of every word, and has a word of 2^k or more.
    pub fn lowest_bit(&self, holder: usize) -> Option<u8> {
        let entry = self.lowest.get(holder.checked_sub(1)?)?;
        Some(*entry).filter(|bit| *bit != NOT_WRONG)
    }
}

/// Runs a call that opens on a set and on entries of the right lengths.
fn opened(call: impl FnOnce(&mut [u64; 1], &mut [u8; 64]) -> u8) -> Result<Opened, Refusal> {
    let (mut wrong, mut lowest) = ([0], [0; 64]);
    told(call(&mut wrong, &mut lowest))?;
    Ok(Opened { wrong: wrong[0], lowest })
}

// Every call below passes the pointer and the length of slices that live for the call, an output by `&mut`, so that it overlaps nothing: that is
// all that the header asks of a caller.

/// `out` = a + b, d words each.
pub fn add(p: Params, a: &[u64], b: &[u64], out: &mut [u64]) -> Result<(), Refusal> {
    told(unsafe { ffi::yikes_add(p.k, p.d, p.n, p.t, a.as_ptr(), a.len(), b.as_ptr(), b.len(), out.as_mut_ptr(), out.len()) })
}

/// `out` = a times b, d words each.
pub fn scale(p: Params, a: &[u64], b: &[u64], out: &mut [u64]) -> Result<(), Refusal> {
    told(unsafe { ffi::yikes_scale(p.k, p.d, p.n, p.t, a.as_ptr(), a.len(), b.as_ptr(), b.len(), out.as_mut_ptr(), out.len()) })
}

/// `out` = the inverse of a, or zero where a is zero modulo 2 and has none.
pub fn invert(p: Params, a: &[u64], out: &mut [u64]) -> Result<(), Refusal> {
    told(unsafe { ffi::yikes_invert(p.k, p.d, p.n, p.t, a.as_ptr(), a.len(), out.as_mut_ptr(), out.len()) })
}

/// Deals a job with t coefficients of d words each, drawn at random and then forgotten: n shares of d words, holder 1 first.
pub fn deal(p: Params, job: &[u64], coefficients: &[u64], out: &mut [u64]) -> Result<(), Refusal> {
    told(unsafe {
        ffi::yikes_deal(p.k, p.d, p.n, p.t, job.as_ptr(), job.len(), coefficients.as_ptr(), coefficients.len(), out.as_mut_ptr(), out.len())
    })
}

/// Opens a job from the shares of `holders`, d words each, of which at most e are wrong: the job's words go to `out`, and the set of the
/// holders whose shares are wrong comes back, with the lowest bit at which each differs. A share with a word of 2^k or more is wrong.
pub fn open_shares(p: Params, holders: &[u64], shares: &[u64], e: u64, out: &mut [u64]) -> Result<Opened, Refusal> {
    opened(|wrong, lowest| unsafe {
        ffi::yikes_open(
            p.k,
            p.d,
            p.n,
            p.t,
            holders.as_ptr(),
            holders.len(),
            shares.as_ptr(),
            shares.len(),
            e,
            out.as_mut_ptr(),
            out.len(),
            wrong.as_mut_ptr(),
            wrong.len(),
            lowest.as_mut_ptr(),
            lowest.len(),
        )
    })
}

/// The signed reading of a word of k bits.
pub fn signed(k: u64, w: u64) -> Result<i64, Refusal> {
    let mut out = [0];
    told(unsafe { ffi::yikes_signed(k, w, out.as_mut_ptr(), out.len()) })?;
    Ok(out[0] as i64)
}

/// Writes a holder's file: a number and d words for each job, into [`file_size`] bytes.
pub fn write_file(p: Params, holder: usize, archive: u64, numbers: &[u64], words: &[u64], out: &mut [u8]) -> Result<(), Refusal> {
    told(unsafe {
        ffi::yikes_write_file(
            p.k,
            p.d,
            p.n,
            p.t,
            holder,
            archive,
            numbers.as_ptr(),
            numbers.len(),
            words.as_ptr(),
            words.len(),
            out.as_mut_ptr(),
            out.len(),
        )
    })
}

/// Writes an order, into [`ORDER_SIZE`] bytes.
pub fn write_order(e: u8, out: &mut [u8]) -> Result<(), Refusal> {
    told(unsafe { ffi::yikes_write_order(e, out.as_mut_ptr(), out.len()) })
}

/// Writes a bundle of an order and files that stand one after another, into [`ORDER_SIZE`] bytes more than those.
pub fn write_bundle(e: u8, files: &[u8], out: &mut [u8]) -> Result<(), Refusal> {
    told(unsafe { ffi::yikes_write_bundle(e, files.as_ptr(), files.len(), out.as_mut_ptr(), out.len()) })
}

/// Whether bytes are one file and nothing more.
pub fn check_file(file: &[u8]) -> Result<(), Refusal> {
    told(unsafe { ffi::yikes_check_file(file.as_ptr(), file.len()) })
}

/// What a read at a cursor finds.
#[derive(Clone, Debug, PartialEq, Eq)]
pub enum Step {
    /// A record.
    Record {
        /// Its kind: [`HEADING`], [`JOB`] or [`ORDER`].
        kind: u64,
        /// Where its body stands in the bytes. The next cursor is where it ends.
        body: Range<usize>,
    },
    /// The end of the bytes.
    End,
}

/// The kind of a heading.
pub const HEADING: u64 = 1;

/// The kind of a job.
pub const JOB: u64 = 2;

/// The kind of an order.
pub const ORDER: u64 = 16;

/// Reads the record at a cursor, and looks at nothing else.
pub fn read(bytes: &[u8], cursor: usize) -> Result<Step, Refusal> {
    let mut step = [0; 4];
    told(unsafe { ffi::yikes_read(bytes.as_ptr(), bytes.len(), cursor, step.as_mut_ptr(), step.len()) })?;
    let [what, kind, start, length] = step;
    let body = start as usize..(start + length) as usize;
    Ok(if what == 0 { Step::Record { kind, body } } else { Step::End })
}

/// The records of bytes one after another, each as its kind and its body, to the end or to the first read that declines.
pub fn records(bytes: &[u8]) -> Records<'_> {
    Records { bytes, cursor: Some(0) }
}

/// The iterator that [`records`] gives.
#[derive(Clone, Debug)]
pub struct Records<'a> {
    bytes: &'a [u8],
    cursor: Option<usize>,
}

impl<'a> Iterator for Records<'a> {
    type Item = Result<(u64, &'a [u8]), Refusal>;

    fn next(&mut self) -> Option<Self::Item> {
        match read(self.bytes, self.cursor.take()?) {
            Ok(Step::Record { kind, body }) => {
                self.cursor = Some(body.end);
                Some(Ok((kind, &self.bytes[body])))
            }
            Ok(Step::End) => None,
            Err(refusal) => Some(Err(refusal)),
        }
    }
}

/// How many bytes the text of a lens job has, of a book with d 4.
pub fn text_size(p: Params, number: u64, words: &[u64]) -> Result<usize, Refusal> {
    let mut size = [0];
    told(unsafe { ffi::yikes_text_size(p.k, p.d, p.n, p.t, number, words.as_ptr(), words.len(), size.as_mut_ptr(), size.len()) })?;
    Ok(size[0] as usize)
}

/// Writes the text of a lens job, of a book with d 4, into [`text_size`] bytes: five lines, each ended by CR LF, with the job number, sphere,
/// cylinder, axis and thickness.
pub fn write_text(p: Params, number: u64, words: &[u64], out: &mut [u8]) -> Result<(), Refusal> {
    told(unsafe { ffi::yikes_write_text(p.k, p.d, p.n, p.t, number, words.as_ptr(), words.len(), out.as_mut_ptr(), out.len()) })
}

/// The text that [`write_text`] writes.
pub fn job_text(p: Params, number: u64, words: &[u64]) -> Result<Vec<u8>, Refusal> {
    let mut out = vec![0; text_size(p, number, words)?];
    write_text(p, number, words, &mut out)?;
    Ok(out)
}

/// The number and the words of the lens job whose text this is. Bytes that [`write_text`] writes of no job of the book decline.
///
/// ```
/// use yikescanvas::{job_text, read_text, Params, Refusal};
///
/// let book = Params { k: 16, d: 4, n: 15, t: 4 };
/// let text = b"JOB=10\r\nSPH=-3.25\r\nCYL=0.50\r\nAX=90\r\nCTHICK=2.18\r\n";
/// let (number, words) = read_text(book, text)?;
/// assert_eq!((number, words), (10, [65536 - 325, 50, 90, 218]));
/// assert_eq!(job_text(book, number, &words)?, text);
/// assert_eq!(read_text(book, &text[1..]), Err(Refusal::Text));
/// # Ok::<(), Refusal>(())
/// ```
pub fn read_text(p: Params, text: &[u8]) -> Result<(u64, [u64; 4]), Refusal> {
    let (mut number, mut words) = ([0], [0; 4]);
    told(unsafe {
        ffi::yikes_read_text(
            p.k,
            p.d,
            p.n,
            p.t,
            text.as_ptr(),
            text.len(),
            number.as_mut_ptr(),
            number.len(),
            words.as_mut_ptr(),
            words.len(),
        )
    })?;
    Ok((number[0], words))
}

/// Whether a bundle is accepted.
pub fn accept(bundle: &[u8]) -> Result<(), Refusal> {
    told(unsafe { ffi::yikes_accept(bundle.as_ptr(), bundle.len()) })
}

/// What the calls on a bundle need to know of it.
#[derive(Clone, Copy, Debug, PartialEq, Eq)]
pub struct Description {
    /// The allowance: how many shares of a job may be wrong.
    pub e: u64,
    /// The book.
    pub params: Params,
    /// The archive number.
    pub archive: u64,
    /// The jobs of each file: places are below it.
    pub jobs: usize,
    /// The files.
    pub files: usize,
    /// The bytes of each file.
    pub file_size: usize,
}

/// What a caller must know of a bundle.
pub fn describe(bundle: &[u8]) -> Result<Description, Refusal> {
    let mut about = [0; 9];
    told(unsafe { ffi::yikes_describe(bundle.as_ptr(), bundle.len(), about.as_mut_ptr(), about.len()) })?;
    let [e, k, d, n, t, archive, jobs, files, file_size] = about;
    let params = Params { k, d: d as usize, n: n as usize, t: t as usize };
    Ok(Description { e, params, archive, jobs: jobs as usize, files: files as usize, file_size: file_size as usize })
}

/// The number of the job at a place.
pub fn job_number(bundle: &[u8], place: usize) -> Result<u64, Refusal> {
    let mut number = [0];
    told(unsafe { ffi::yikes_job_number(bundle.as_ptr(), bundle.len(), place, number.as_mut_ptr(), number.len()) })?;
    Ok(number[0])
}

/// A file of a bundle.
#[derive(Clone, Debug, PartialEq, Eq)]
pub struct FilePart {
    /// Its holder.
    pub holder: usize,
    /// Where it stands in the bundle.
    pub range: Range<usize>,
}

/// The holder of a file, by its index in the bundle, and where the file stands.
pub fn file(bundle: &[u8], index: usize) -> Result<FilePart, Refusal> {
    let mut part = [0; 3];
    told(unsafe { ffi::yikes_file(bundle.as_ptr(), bundle.len(), index, part.as_mut_ptr(), part.len()) })?;
    let [holder, offset, length] = part;
    Ok(FilePart { holder: holder as usize, range: offset as usize..(offset + length) as usize })
}

/// All the files of a bundle, holders rising.
pub fn files(bundle: &[u8]) -> Result<Vec<FilePart>, Refusal> {
    (0..describe(bundle)?.files).map(|index| file(bundle, index)).collect()
}

/// Opens the job at a place: its words go to `out`, and the set of the wrong holders comes back, those of shares with a word of 2^k or more
/// among them, with the lowest bit at which each share differs.
pub fn open_place(bundle: &[u8], place: usize, out: &mut [u64]) -> Result<Opened, Refusal> {
    opened(|wrong, lowest| unsafe {
        ffi::yikes_open_place(
            bundle.as_ptr(),
            bundle.len(),
            place,
            out.as_mut_ptr(),
            out.len(),
            wrong.as_mut_ptr(),
            wrong.len(),
            lowest.as_mut_ptr(),
            lowest.len(),
        )
    })
}

/// The total of a holder's file over the places a to b - 1.
pub fn total(bundle: &[u8], holder: usize, a: usize, b: usize, out: &mut [u64]) -> Result<(), Refusal> {
    told(unsafe { ffi::yikes_total(bundle.as_ptr(), bundle.len(), holder, a, b, out.as_mut_ptr(), out.len()) })
}

/// Adds the same total to `running`, an element of d words of k bits, where it stands: a sum over several runs or bundles needs no second array.
/// The places a to b - 1 and then b to c - 1 leave what a to c - 1 would, and zero words become what [`total`] gives. A word of `running` of 2^k
/// or more declines, also where the run is empty.
pub fn add_total(bundle: &[u8], holder: usize, a: usize, b: usize, running: &mut [u64]) -> Result<(), Refusal> {
    told(unsafe { ffi::yikes_add_total(bundle.as_ptr(), bundle.len(), holder, a, b, running.as_mut_ptr(), running.len()) })
}

/// Opens the sum of the jobs at the places a to b - 1, as [`open_place`] does one job: the lowest bits are those of the sums. A word of 2^k or
/// more in any file's share of one of them declines, also in a run of one place.
pub fn open_run(bundle: &[u8], a: usize, b: usize, out: &mut [u64]) -> Result<Opened, Refusal> {
    opened(|wrong, lowest| unsafe {
        ffi::yikes_open_run(
            bundle.as_ptr(),
            bundle.len(),
            a,
            b,
            out.as_mut_ptr(),
            out.len(),
            wrong.as_mut_ptr(),
            wrong.len(),
            lowest.as_mut_ptr(),
            lowest.len(),
        )
    })
}

/// Where the body of a job record stands in the bundle, by holder and place.
pub fn fetch_range(bundle: &[u8], holder: usize, place: usize) -> Result<Range<usize>, Refusal> {
    let mut part = [0; 2];
    told(unsafe { ffi::yikes_fetch_body(bundle.as_ptr(), bundle.len(), holder, place, part.as_mut_ptr(), part.len()) })?;
    Ok(part[0] as usize..(part[0] + part[1]) as usize)
}

/// The body of a job record, as that part of the bundle.
pub fn fetch_body(bundle: &[u8], holder: usize, place: usize) -> Result<&[u8], Refusal> {
    Ok(&bundle[fetch_range(bundle, holder, place)?])
}

/// Whether the fetch of a job's body succeeds.
pub fn fetch_fault(bundle: &[u8], holder: usize, place: usize) -> Result<(), Refusal> {
    told(unsafe { ffi::yikes_fetch_fault(bundle.as_ptr(), bundle.len(), holder, place) })
}

/// Writes the listing's line of the job at a place from the start of `line`, which has [`LINE`] bytes or more, and gives its length.
pub fn list_line(bundle: &[u8], place: usize, line: &mut [u8]) -> Result<usize, Refusal> {
    let mut length = [0];
    told(unsafe {
        ffi::yikes_list_line(bundle.as_ptr(), bundle.len(), place, line.as_mut_ptr(), line.len(), length.as_mut_ptr(), length.len())
    })?;
    Ok(length[0] as usize)
}

/// Mends a bundle: `out`, of the bundle's length, becomes the bundle with the words of each wrong share, as [`open_place`] names them, replaced by
/// the value of the job's polynomial at its holder's point. A job that does not open keeps its words, and every other byte stays, so that
/// [`files`] tells where each holder's file stands in both. A job that opens in the bundle opens in `out` to the same words, and names nobody.
pub fn mend(bundle: &[u8], out: &mut [u8]) -> Result<(), Refusal> {
    told(unsafe { ffi::yikes_mend(bundle.as_ptr(), bundle.len(), out.as_mut_ptr(), out.len()) })
}

/// A desk that limits openings: an allowance, 0 to 1,000, and the count of the openings that gave words since the month began, which never exceeds
/// it. Only [`Desk::open_place`] asks the desk; totals, listings and mending are free.
// No `Clone`: each opening needs the record as the one before left it, and two desks with one record would each use up the whole allowance.
#[derive(Debug, PartialEq, Eq)]
pub struct Desk {
    /// The allowance, and then the count.
    record: [u64; 2],
}

impl Desk {
    /// A new desk, at the start of a month that allows q openings. More than 1,000 decline.
    pub fn start(q: u64) -> Result<Desk, Refusal> {
        let mut desk = Desk { record: [0; 2] };
        desk.restart(q)?;
        Ok(desk)
    }

    /// The start of another month at this desk: the allowance becomes q, and the count 0. More than 1,000 decline, and start nothing.
    pub fn restart(&mut self, q: u64) -> Result<(), Refusal> {
        told(unsafe { ffi::yikes_desk_start(self.record.as_mut_ptr(), self.record.len(), q) })
    }

    /// A desk with a record that [`Desk::record`] gave. The record is not judged here: with an allowance above 1,000 every opening declines.
    pub fn from_record(record: [u64; 2]) -> Desk {
        Desk { record }
    }

    /// The allowance and the count, to be stored: a stored record is taken up once, in place of the desk that gave it.
    pub fn record(&self) -> [u64; 2] {
        self.record
    }

    /// How many openings that give words the month may have.
    pub fn allowance(&self) -> u64 {
        self.record[0]
    }

    /// How many it has had.
    pub fn count(&self) -> u64 {
        self.record[1]
    }

    /// Opens the job at a place as [`open_place`] does, where the count is below the allowance, and counts it. An opening that declines is not
    /// counted.
    pub fn open_place(&mut self, bundle: &[u8], place: usize, out: &mut [u64]) -> Result<Opened, Refusal> {
        let desk = &mut self.record;
        opened(|wrong, lowest| unsafe {
            ffi::yikes_desk_open(
                desk.as_mut_ptr(),
                desk.len(),
                bundle.as_ptr(),
                bundle.len(),
                place,
                out.as_mut_ptr(),
                out.len(),
                wrong.as_mut_ptr(),
                wrong.len(),
                lowest.as_mut_ptr(),
                lowest.len(),
            )
        })
    }
}
