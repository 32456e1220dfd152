//! What is measured: each row has its inputs and one output buffer, and a call that goes through all inputs on one side.

use compare::library;
use compare::random::Random;
use plain::{Params, Refusal, HOLDERS};
use std::cell::RefCell;
use std::hint::black_box;

#[derive(Clone, Copy, PartialEq, Eq)]
pub enum Side {
    Library,
    Plain,
}

impl Side {
    pub const BOTH: [Side; 2] = [Side::Library, Side::Plain];

    pub fn named(name: &str) -> Option<Side> {
        match name {
            "library" => Some(Side::Library),
            "plain" => Some(Side::Plain),
            _ => None,
        }
    }
}

type Call = Box<dyn Fn(Side, &mut [u64])>;

/// The inputs of a row inside its call, and the output.
pub struct Work {
    pub out: Vec<u64>,
    pub call: Call,
}

type Make = fn(&mut Random, Book) -> Work;

/// A row of the table; its inputs are made when it is measured.
pub struct Row {
    name: &'static str,
    book: Book,
    /// How many calls of the library one run of the work makes.
    pub items: usize,
    make: Make,
}

impl Row {
    pub fn title(&self) -> String {
        let Params { k, d, n, t } = self.book.p;
        format!("{}, k {k} d {d} n {n} t {t} e {}", self.name, self.book.e)
    }

    pub fn work(&self) -> Work {
        (self.make)(&mut Random::new(1), self.book)
    }

    /// Only books with d 4 have a text.
    fn there(&self) -> bool {
        self.book.p.d == 4 || !self.name.contains("text")
    }

    fn adds(&self) -> bool {
        matches!(self.name, "total of 1,000 jobs" | "total of 1,000 jobs added in place" | "open a run")
    }
}

/// Parameters and the allowance.
#[derive(Clone, Copy)]
struct Book {
    p: Params,
    e: usize,
}

const BOOKS: [Book; 3] = [
    Book { p: Params { k: 64, d: 4, n: 15, t: 4 }, e: 5 },
    Book { p: Params { k: 16, d: 4, n: 15, t: 7 }, e: 2 },
    Book { p: Params { k: 64, d: 6, n: 63, t: 20 }, e: 21 },
];

/// What adds has code for each d: books of the d that those above do not have, for the rows that `adds` tells.
const OTHERS: [Book; 3] = [
    Book { p: Params { k: 64, d: 2, n: 3, t: 0 }, e: 1 },
    Book { p: Params { k: 64, d: 3, n: 7, t: 2 }, e: 2 },
    Book { p: Params { k: 64, d: 5, n: 31, t: 10 }, e: 10 },
];

/// Different inputs of a row that opens or deals; jobs in a bundle whose places are opened, and in one that is accepted or added up; the most jobs of
/// a file; the most bytes of a bundle that is mended, which are those that the programs take.
const INPUTS: usize = 16;
const PLACES: usize = 16;
const JOBS: usize = 100;
const MOST_JOBS: usize = 1000;
const MOST_INPUT: usize = 65_536;

#[derive(Clone, Copy)]
enum Damage {
    AnyBits,
    TopBit,
    Wide,
}

/// Whose shares are wrong in the jobs of a bundle: nobody's, or as many as the allowance, of the same holders in each job or of others.
#[derive(Clone, Copy)]
enum Wrong {
    Nobody,
    Same,
    Different,
}

fn number(answer: Result<(), Refusal>) -> u8 {
    answer.map_or_else(|refusal| refusal as u8, |()| 0)
}

const ROWS: [(&str, usize, Make); 20] = [
    ("deal", INPUTS, dealing),
    ("open, none wrong", INPUTS, |random, book| opening(random, book, None)),
    ("open, e wrong in any bits", INPUTS, |random, book| opening(random, book, Some(Damage::AnyBits))),
    ("open, e wrong in the top bit", INPUTS, |random, book| opening(random, book, Some(Damage::TopBit))),
    ("open, e wide", INPUTS, |random, book| opening(random, book, Some(Damage::Wide))),
    ("open all places, same holders wrong", PLACES, |random, book| places(random, book, Wrong::Same)),
    ("open all places, different holders wrong", PLACES, |random, book| places(random, book, Wrong::Different)),
    ("open all places through a desk, different holders wrong", PLACES, through_desk),
    ("accept", 1, accepting),
    ("accept, beside the sum of the bytes", 1, accepting_beside_checksum),
    ("total of one file", 1, |random, book| total(bundle(random, book, JOBS, Wrong::Same), book.p.d, book.p.n, JOBS)),
    ("total of 1,000 jobs", 1, |random, book| total(long_file(random, book.p), book.p.d, 1, MOST_JOBS)),
    ("total of 1,000 jobs added in place", 1, adding),
    ("total of 1,000 jobs added in place, beside total and add", 1, adding_beside_total),
    ("open a run", 1, run),
    ("mend, none wrong", 1, |random, book| mending(random, book, Wrong::Nobody)),
    ("mend, e wrong in each job", 1, |random, book| mending(random, book, Wrong::Different)),
    ("mend, e wrong in each job, beside the listing", 1, mending_beside_listing),
    ("write the text of a job", INPUTS, writing_texts),
    ("read the text of a job", INPUTS, reading_texts),
];

pub fn all() -> Vec<Row> {
    let others = OTHERS.into_iter().flat_map(of_book).filter(Row::adds);
    BOOKS.into_iter().flat_map(of_book).filter(Row::there).chain(others).collect()
}

/// The rows of a book. No word of 64 bits is wide, so that a row with wide words has 63.
fn of_book(book: Book) -> impl Iterator<Item = Row> {
    ROWS.into_iter().map(move |(name, items, make)| {
        let most = if name.ends_with("wide") { 63 } else { 64 };
        let p = Params { k: book.p.k.min(most), ..book.p };
        Row { name, book: Book { p, ..book }, items, make }
    })
}

fn dealing(random: &mut Random, book: Book) -> Work {
    let p = book.p;
    let inputs: Vec<[Vec<u64>; 2]> = (0..INPUTS).map(|_| [random.words(p.k, p.d), random.words(p.k, p.d * p.t)]).collect();
    let call: Call = Box::new(move |side, out| {
        for ([job, coefficients], shares) in inputs.iter().zip(out.chunks_mut(p.n * p.d)) {
            match side {
                Side::Library => library::deal(p, job, coefficients, shares),
                Side::Plain => number(plain::deal(p, job, coefficients, shares)),
            };
        }
    });
    Work { out: vec![0; INPUTS * p.n * p.d], call }
}

fn deal(random: &mut Random, p: Params) -> Vec<u64> {
    let mut shares = vec![0; p.n * p.d];
    second::deal(p, &random.words(p.k, p.d), &random.words(p.k, p.d * p.t), &mut shares).expect("good inputs");
    shares
}

/// As many different holders as the allowance, counted from 0.
fn holders(random: &mut Random, book: Book) -> Vec<usize> {
    random.some(book.e, book.p.n)
}

fn damage(random: &mut Random, book: Book, wrong: &[usize], damage: Damage, shares: &mut [u64]) {
    let Params { k, d, .. } = book.p;
    for holder in wrong {
        let share = &mut shares[holder * d..(holder + 1) * d];
        match damage {
            Damage::AnyBits => share.copy_from_slice(&random.words(k, d)),
            Damage::TopBit => share[random.below(d)] ^= 1 << (k - 1),
            Damage::Wide => share[random.below(d)] |= 1 << k,
        }
    }
}

/// What an opening leaves: the answer, the set, the lowest bits as bytes, and the words stand one after another.
struct Parts<'a> {
    answer: &'a mut u64,
    wrong: &'a mut [u64],
    lowest: &'a mut [u8],
    words: &'a mut [u64],
}

fn parts(result: &mut [u64]) -> Parts<'_> {
    let (answer, rest) = result.split_first_mut().expect("an answer");
    let (wrong, rest) = rest.split_at_mut(1);
    let (lowest, words) = rest.split_at_mut(HOLDERS / 8);
    Parts { answer, wrong, lowest: as_bytes(lowest, HOLDERS), words }
}

/// The words that this takes for d words of a job.
const fn size_of_parts(d: usize) -> usize {
    2 + HOLDERS / 8 + d
}

fn opening(random: &mut Random, book: Book, kind: Option<Damage>) -> Work {
    let Book { p, e } = book;
    let present: Vec<u64> = (1..=p.n as u64).collect();
    let mut inputs = vec![];
    for _ in 0..INPUTS {
        let mut shares = deal(random, p);
        if let Some(kind) = kind {
            let wrong = holders(random, book);
            damage(random, book, &wrong, kind, &mut shares);
        }
        inputs.push(shares);
    }
    let call: Call = Box::new(move |side, out| {
        for (shares, result) in inputs.iter().zip(out.chunks_mut(size_of_parts(p.d))) {
            let Parts { answer, wrong, lowest, words } = parts(result);
            *answer = u64::from(match side {
                Side::Library => library::open(p, &present, shares, e as u64, words, wrong, lowest),
                Side::Plain => number(plain::open(p, &present, shares, e as u64, words, wrong, lowest)),
            });
        }
    });
    Work { out: vec![0; INPUTS * size_of_parts(p.d)], call }
}

/// A bundle of all holders' files.
fn bundle(random: &mut Random, book: Book, jobs: usize, who: Wrong) -> Vec<u8> {
    let Book { p, e } = book;
    let mut files = vec![vec![]; p.n];
    let mut wrong = holders(random, book);
    for _ in 0..jobs {
        match who {
            Wrong::Nobody => wrong.clear(),
            Wrong::Same => {}
            Wrong::Different => wrong = holders(random, book),
        }
        let mut shares = deal(random, p);
        damage(random, book, &wrong, Damage::AnyBits, &mut shares);
        files.iter_mut().zip(shares.chunks(p.d)).for_each(|(file, share)| file.extend(share));
    }
    let numbers: Vec<u64> = (0..jobs as u64).collect();
    let size = 23 + jobs * (14 + 8 * p.d);
    let mut bytes = vec![0; 7 + p.n * size];
    let (order, rest) = bytes.split_at_mut(7);
    second::write_order(e as u8, order).expect("seven bytes");
    for (i, (words, file)) in files.iter().zip(rest.chunks_mut(size)).enumerate() {
        second::write_file(p, i + 1, 7, &numbers, words, file).expect("good inputs");
    }
    bytes
}

fn places(random: &mut Random, book: Book, who: Wrong) -> Work {
    let d = book.p.d;
    let bytes = bundle(random, book, PLACES, who);
    let call: Call = Box::new(move |side, out| {
        for (place, result) in out.chunks_mut(size_of_parts(d)).enumerate() {
            let Parts { answer, wrong, lowest, words } = parts(result);
            *answer = u64::from(match side {
                Side::Library => library::open_place(&bytes, place, words, wrong, lowest),
                Side::Plain => number(plain::open_place(&bytes, place, words, wrong, lowest)),
            });
        }
    });
    Work { out: vec![0; PLACES * size_of_parts(d)], call }
}

/// The record, which is lent anew for each run with room for all places, stands after what the openings leave.
fn through_desk(random: &mut Random, book: Book) -> Work {
    let d = book.p.d;
    let bytes = bundle(random, book, PLACES, Wrong::Different);
    let call: Call = Box::new(move |side, out| {
        let (results, desk) = out.split_at_mut(PLACES * size_of_parts(d));
        desk.copy_from_slice(&[PLACES as u64, 0]);
        for (place, result) in results.chunks_mut(size_of_parts(d)).enumerate() {
            let Parts { answer, wrong, lowest, words } = parts(result);
            *answer = u64::from(match side {
                Side::Library => library::desk_open(desk, &bytes, place, words, wrong, lowest),
                Side::Plain => number(plain::desk_open(desk, &bytes, place, words, wrong, lowest)),
            });
        }
    });
    Work { out: vec![0; PLACES * size_of_parts(d) + 2], call }
}

fn accepting(random: &mut Random, book: Book) -> Work {
    let bytes = bundle(random, book, JOBS, Wrong::Same);
    let call: Call = Box::new(move |side, out| {
        out[0] = u64::from(match side {
            Side::Library => library::accept(&bytes),
            Side::Plain => number(plain::accept(&bytes)),
        });
    });
    Work { out: vec![0], call }
}

/// The column of plain Rust is the sum of all bytes here.
fn accepting_beside_checksum(random: &mut Random, book: Book) -> Work {
    let bytes = bundle(random, book, JOBS, Wrong::Same);
    let call: Call = Box::new(move |side, out| {
        out[0] = u64::from(match side {
            Side::Library => library::accept(&bytes),
            Side::Plain => {
                black_box(black_box(&bytes).iter().fold(0u64, |sum, b| sum.wrapping_add(u64::from(*b))));
                0
            }
        });
    });
    Work { out: vec![0], call }
}

/// The total of a holder's file that has so many jobs.
fn total(bytes: Vec<u8>, d: usize, holder: usize, jobs: usize) -> Work {
    let call: Call = Box::new(move |side, out| {
        match side {
            Side::Library => library::total(&bytes, holder, 0, jobs, out),
            Side::Plain => number(plain::total(&bytes, holder, 0, jobs, out)),
        };
    });
    Work { out: vec![0; d], call }
}

/// A bundle of the first holder's file alone, with as many jobs as a file can have.
fn long_file(random: &mut Random, p: Params) -> Vec<u8> {
    let mut bytes = vec![0; 7 + 23 + MOST_JOBS * (14 + 8 * p.d)];
    let (order, file) = bytes.split_at_mut(7);
    let numbers: Vec<u64> = (0..MOST_JOBS as u64).collect();
    second::write_order(0, order).expect("seven bytes");
    second::write_file(p, 1, 7, &numbers, &random.words(p.k, MOST_JOBS * p.d), file).expect("good inputs");
    bytes
}

/// The element that is lent is the same for every call.
fn adding(random: &mut Random, book: Book) -> Work {
    let (bytes, lent) = (long_file(random, book.p), random.words(book.p.k, book.p.d));
    let call: Call = Box::new(move |side, out| {
        out.copy_from_slice(&lent);
        let answer = match side {
            Side::Library => library::add_total(&bytes, 1, 0, MOST_JOBS, out),
            Side::Plain => number(plain::add_total(&bytes, 1, 0, MOST_JOBS, out)),
        };
        assert_eq!(answer, 0, "a call is declined");
    });
    Work { out: vec![0; book.p.d], call }
}

/// The column of plain Rust is the library's total in an array, and the library's sum of that and the element here.
fn adding_beside_total(random: &mut Random, book: Book) -> Work {
    let p = book.p;
    let (bytes, lent) = (long_file(random, p), random.words(p.k, p.d));
    let call: Call = Box::new(move |side, out| {
        let answers = match side {
            Side::Library => {
                out.copy_from_slice(&lent);
                [library::add_total(&bytes, 1, 0, MOST_JOBS, out), 0]
            }
            Side::Plain => {
                let total = &mut [0; 6][..p.d];
                [library::total(&bytes, 1, 0, MOST_JOBS, total), library::add(p, &lent, total, out)]
            }
        };
        assert_eq!(answers, [0, 0], "a call is declined");
    });
    Work { out: vec![0; p.d], call }
}

fn run(random: &mut Random, book: Book) -> Work {
    let bytes = bundle(random, book, JOBS, Wrong::Same);
    let call: Call = Box::new(move |side, out| {
        let Parts { answer, wrong, lowest, words } = parts(out);
        *answer = u64::from(match side {
            Side::Library => library::open_run(&bytes, 0, JOBS, words, wrong, lowest),
            Side::Plain => number(plain::open_run(&bytes, 0, JOBS, words, wrong, lowest)),
        });
    });
    Work { out: vec![0; size_of_parts(book.p.d)], call }
}

/// The largest bundle that the programs take.
fn largest(random: &mut Random, book: Book, who: Wrong) -> Vec<u8> {
    let Params { d, n, .. } = book.p;
    bundle(random, book, ((MOST_INPUT - 7) / n - 23) / (14 + 8 * d), who)
}

/// The first bytes of the output.
fn as_bytes(out: &mut [u64], length: usize) -> &mut [u8] {
    // SAFETY: every eight bytes are a word, and every word eight bytes.
    let (_, bytes, _) = unsafe { out.align_to_mut() };
    &mut bytes[..length]
}

fn mending(random: &mut Random, book: Book, who: Wrong) -> Work {
    let bytes = largest(random, book, who);
    let out = vec![0; bytes.len().div_ceil(8)];
    let call: Call = Box::new(move |side, out| {
        let mended = as_bytes(out, bytes.len());
        match side {
            Side::Library => library::mend(&bytes, mended),
            Side::Plain => number(plain::mend(&bytes, mended)),
        };
    });
    Work { out, call }
}

/// The bundle of the job at a place alone, from one with so many jobs.
fn lone(bytes: &[u8], d: usize, jobs: usize, place: usize) -> Vec<u8> {
    let (order, files) = bytes.split_at(7);
    let mut lone = order.to_vec();
    for file in files.chunks(23 + jobs * (14 + 8 * d)) {
        lone.extend(&file[..19]);
        lone.extend(1u32.to_le_bytes());
        lone.extend(&file[23 + place * (14 + 8 * d)..][..14 + 8 * d]);
    }
    lone
}

/// The column of plain Rust is the library's listing of the same jobs here. Each has a bundle of its own: a call for a line first reads all of its
/// bundle, and the programs read theirs once.
fn mending_beside_listing(random: &mut Random, book: Book) -> Work {
    let Params { d, n, .. } = book.p;
    let bytes = largest(random, book, Wrong::Different);
    let jobs = ((bytes.len() - 7) / n - 23) / (14 + 8 * d);
    let lones: Vec<Vec<u8>> = (0..jobs).map(|place| lone(&bytes, d, jobs, place)).collect();
    let buffers = RefCell::new((vec![0; bytes.len()], [0; second::LINE], [0]));
    let call: Call = Box::new(move |side, out| {
        let (mended, line, length) = &mut *buffers.borrow_mut();
        out[0] = match side {
            Side::Library => library::mend(&bytes, mended).into(),
            Side::Plain => lones.iter().map(|lone| u64::from(library::list_line(lone, 0, line, length))).sum(),
        };
    });
    Work { out: vec![0], call }
}

/// Jobs of a book, each with its number and its text. Numbers and words have any number of digits.
fn texts(random: &mut Random, p: Params) -> Vec<(u64, Vec<u64>, Vec<u8>)> {
    let text = |_| {
        let number = random.word() >> random.below(64);
        let words: Vec<u64> = random.words(p.k, p.d).iter().map(|w| w >> random.below(p.k as usize)).collect();
        let mut size = [0];
        second::text_size(p, number, &words, &mut size).expect("good inputs");
        let mut text = vec![0; size[0] as usize];
        second::write_text(p, number, &words, &mut text).expect("good inputs");
        (number, words, text)
    };
    (0..INPUTS).map(text).collect()
}

/// The texts stand one after another.
fn writing_texts(random: &mut Random, book: Book) -> Work {
    let (p, inputs) = (book.p, texts(random, book.p));
    let length = inputs.iter().map(|(_, _, text)| text.len()).sum();
    let call: Call = Box::new(move |side, out| {
        let mut rest = as_bytes(out, length);
        for (job, words, text) in &inputs {
            let (out, after) = rest.split_at_mut(text.len());
            let answer = match side {
                Side::Library => library::write_text(p, *job, words, out),
                Side::Plain => number(plain::write_text(p, *job, words, out)),
            };
            assert_eq!(answer, 0, "a call is declined");
            rest = after;
        }
    });
    Work { out: vec![0; length.div_ceil(8)], call }
}

fn reading_texts(random: &mut Random, book: Book) -> Work {
    let (p, inputs) = (book.p, texts(random, book.p));
    let call: Call = Box::new(move |side, out| {
        for ((_, _, text), result) in inputs.iter().zip(out.chunks_mut(1 + p.d)) {
            let (job, words) = result.split_at_mut(1);
            let answer = match side {
                Side::Library => library::read_text(p, text, job, words),
                Side::Plain => number(plain::read_text(p, text, job, words)),
            };
            assert_eq!(answer, 0, "a call is declined");
        }
    });
    Work { out: vec![0; INPUTS * (1 + p.d)], call }
}
