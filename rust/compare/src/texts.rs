//! Job texts: both beside each other on jobs of any book with every set of faults in what is lent, and on texts that are written, cut, changed in
//! every byte, nearly right, or edited at random; and what the library's three calls say of each other.

use crate::library;
use crate::misses::near_misses;
use crate::outcome::{number, on_bytes, on_words, Answers, Outcome};
use crate::random::{mask, Random};
use second::Params;
use std::fmt::Debug;

/// The words of a job that has a text.
const WORDS: usize = 4;

/// The lengths of what reading fills.
const READ: [usize; 2] = [1, WORDS];

/// The names under which calls on a text are counted, by the first fault of what is lent, and the answers that a long comparison must have had under
/// each.
pub const ASKED: [(&str, &[usize]); 25] = [
    ("text_size", &[0]),
    ("text_size, faulty book", &[1]),
    ("text_size, d other than 4", &[1]),
    ("text_size, other words", &[2]),
    ("text_size, other size", &[2]),
    ("text_size, wide word", &[3]),
    ("write_text", &[0]),
    ("write_text, faulty book", &[1]),
    ("write_text, d other than 4", &[1]),
    ("write_text, other words", &[2]),
    ("write_text, wide word", &[3]),
    ("write_text, wide and length", &[3]),
    ("write_text, other output", &[2]),
    ("read_text", &[0]),
    ("read_text, faulty book", &[1]),
    ("read_text, d other than 4", &[1]),
    ("read_text, other number", &[2]),
    ("read_text, other words", &[2]),
    ("read_text, near miss", &[11]),
    ("read_text, cut", &[11]),
    ("read_text, byte changed", &[0, 11]),
    ("read_text, byte put in", &[0, 11]),
    ("read_text, byte left out", &[0, 11]),
    ("read_text, edited", &[0, 11]),
    ("read_text, other width", &[0, 11]),
];

/// A lens job, and its text by the second implementation.
#[derive(Debug)]
struct Job {
    p: Params,
    number: u64,
    words: Vec<u64>,
    text: String,
}

/// One job: every set of faults in what its calls are lent, its text edited at random and read in another width; near misses in one job of 8, and
/// every change of a byte in one of 256.
pub fn text(random: &mut Random, answers: &mut Answers) -> Result<(), String> {
    let job = job(random);
    let text = job.text.as_bytes();
    for faults in (0..1 << 4).map(|set| [0, 1, 2, 3].map(|i| set >> i & 1 == 1)) {
        size(random, answers, &job, faults)?;
        write(random, answers, &job, faults)?;
        read_faulty(random, answers, &job, faults)?;
    }
    for _ in 0..8 {
        let edited = edit(random, text);
        read(answers, "read_text, edited", job.p, &edited)?;
    }
    let k = random.from_to(1, 64) as u64;
    read(answers, "read_text, other width", Params { k, ..job.p }, text)?;
    if random.one_in(8) {
        for miss in near_misses(job.p.k, job.number, &job.words, &job.text) {
            let left = read(answers, "read_text, near miss", job.p, miss.as_bytes())?;
            expect(11, "a near miss", &(job.p, &miss), &left)?;
        }
    }
    if random.one_in(256) {
        every_byte(answers, job.p, text)?;
    }
    Ok(())
}

fn job(random: &mut Random) -> Job {
    let k = if random.one_in(3) { random.from_to(1, 64) as u64 } else { random.pick(&[1, 2, 8, 16, 63, 64]) };
    let n = random.from_to(1, 15);
    let p = Params { k, d: WORDS, n, t: random.below(n) };
    let (number, words) = (near_an_end(random, 64), (0..WORDS).map(|_| word(random, k)).collect::<Vec<u64>>());
    let mut size = [0];
    second::text_size(p, number, &words, &mut size).expect("good inputs");
    let mut text = vec![0; size[0] as usize];
    second::write_text(p, number, &words, &mut text).expect("good inputs");
    Job { p, number, words, text: String::from_utf8(text).expect("a text") }
}

/// A number of k bits: at an end of its range or of the signed one, beside a power of ten, where the number of digits changes, or any.
fn near_an_end(random: &mut Random, k: u64) -> u64 {
    let (top, ten) = (1 << (k - 1), 10u64.pow(random.below(20) as u32));
    let number = match random.below(4) {
        0 => random.pick(&[0, 1, 5, 9, 50, 99, 101, u64::MAX]),
        1 => random.pick(&[top - 1, top, top + 1, u64::MAX - 1, u64::MAX]),
        2 => random.pick(&[ten - 1, ten, ten + 1]),
        _ => random.word() >> random.below(64),
    };
    number & mask(k)
}

/// A word by its signed reading: such a number, or less than zero by it.
fn word(random: &mut Random, k: u64) -> u64 {
    let size = near_an_end(random, k);
    if random.one_in(2) {
        size
    } else {
        size.wrapping_neg() & mask(k)
    }
}

/// A book that has no text: of another d, or with a number out of its range, also one of which a part of the bits is in range.
fn other_book(random: &mut Random, p: Params) -> Params {
    let far = random.pick(&[1 << 8, 1 << 16, 1 << 32, 1 << 63]);
    let wrong = |random: &mut Random, right: usize, others: &[usize]| if random.one_in(3) { right + far } else { random.pick(others) };
    match random.below(5) {
        0 | 1 => Params { d: random.pick(&[2, 3, 5, 6]), n: p.n.min(3), t: p.t.min(p.n.min(3) - 1), ..p },
        2 => Params { d: wrong(random, WORDS, &[0, 1, 7, 8, usize::MAX]), ..p },
        3 => Params { k: wrong(random, p.k as usize, &[0, 65, 128, usize::MAX]) as u64, ..p },
        _ if random.one_in(2) => Params { n: wrong(random, p.n, &[0, 16, 64, usize::MAX]), ..p },
        _ => Params { t: wrong(random, p.t, &[p.n, p.n + 1, 64, usize::MAX]), ..p },
    }
}

/// The words of a job, with faults: of another length, and with a wide word if there is one.
fn faulty_words(random: &mut Random, job: &Job, [length, wide]: [bool; 2]) -> Vec<u64> {
    let mut words = job.words.clone();
    if length {
        words.resize(random.wrong_length(WORDS), 0);
    }
    if wide {
        random.widen(job.p.k, &mut words);
    }
    words
}

/// The book of a call, and under which name it is counted where that is a fault.
fn lent_book(random: &mut Random, job: &Job, fault: bool, [faulty, other]: [&'static str; 2]) -> (Params, &'static str) {
    let p = if fault { other_book(random, job.p) } else { job.p };
    (p, if p.check().is_ok() { other } else { faulty })
}

/// The first of the faults, in the order of the call's refusals: its name and its number.
fn first(faults: &[(bool, &'static str, u8)], without: &'static str) -> (&'static str, u8) {
    faults.iter().find(|(is, _, _)| *is).map_or((without, 0), |(_, name, number)| (name, *number))
}

fn expect(number: u8, what: &str, inputs: &dyn Debug, library: &Outcome) -> Result<(), String> {
    if library.answer == number {
        return Ok(());
    }
    Err(format!("{what}\ninputs  {inputs:?}\nlibrary {library:?}\nby what is lent {number}"))
}

fn size(random: &mut Random, answers: &mut Answers, job: &Job, [book, length, wide, output]: [bool; 4]) -> Result<(), String> {
    let (p, of_book) = lent_book(random, job, book, ["text_size, faulty book", "text_size, d other than 4"]);
    let words = faulty_words(random, job, [length, wide]);
    let lengths = [if output { random.wrong_length(1) } else { 1 }, 0];
    let library = on_words(lengths, |size, _| library::text_size(p, job.number, &words, size));
    let second = on_words(lengths, |size, _| number(second::text_size(p, job.number, &words, size)));
    let wide = words.iter().any(|w| *w > mask(job.p.k));
    let faults = [
        (book, of_book, 1),
        (length, "text_size, other words", 2),
        (output, "text_size, other size", 2),
        (wide, "text_size, wide word", 3),
    ];
    let (name, answer) = first(&faults, "text_size");
    let inputs = (p, job.number, &words, lengths[0]);
    answers.same(name, &inputs, &library, &second)?;
    expect(answer, name, &inputs, &library)
}

fn write(random: &mut Random, answers: &mut Answers, job: &Job, [book, length, wide, output]: [bool; 4]) -> Result<(), String> {
    let (p, of_book) = lent_book(random, job, book, ["write_text, faulty book", "write_text, d other than 4"]);
    let words = faulty_words(random, job, [length, wide]);
    let right = job.text.len();
    let lengths = [if output { random.wrong_length(right) } else { right }, 0];
    let library = on_bytes(lengths, |out, _| library::write_text(p, job.number, &words, out));
    let second = on_bytes(lengths, |out, _| number(second::write_text(p, job.number, &words, out)));
    let wide = words.iter().any(|w| *w > mask(job.p.k));
    let faults = [
        (book, of_book, 1),
        (length, "write_text, other words", 2),
        (wide && output, "write_text, wide and length", 3),
        (wide, "write_text, wide word", 3),
        (output, "write_text, other output", 2),
    ];
    let (name, answer) = first(&faults, "write_text");
    let inputs = (p, job.number, &words, lengths[0]);
    answers.same(name, &inputs, &library, &second)?;
    expect(answer, name, &inputs, &library)
}

/// The job's text, or a beginning of it. The whole one gives the job.
fn read_faulty(random: &mut Random, answers: &mut Answers, job: &Job, [book, number, words, cut]: [bool; 4]) -> Result<(), String> {
    let (p, of_book) = lent_book(random, job, book, ["read_text, faulty book", "read_text, d other than 4"]);
    let lengths = [(number, 1), (words, WORDS)].map(|(fault, right)| if fault { random.wrong_length(right) } else { right });
    let text = if cut { &job.text[..random.below(job.text.len())] } else { &job.text };
    let faults =
        [(book, of_book, 1), (number, "read_text, other number", 2), (words, "read_text, other words", 2), (cut, "read_text, cut", 11)];
    let (name, answer) = first(&faults, "read_text");
    let left = read_into(answers, name, p, text.as_bytes(), lengths)?;
    expect(answer, name, &(p, text, lengths), &left)?;
    if answer == 0 && left.buffers != [vec![job.number], job.words.clone()] {
        return Err(format!("read_text of what was written\ninputs  {job:?}\nlibrary {left:?}"));
    }
    Ok(())
}

fn read_into(answers: &mut Answers, name: &'static str, p: Params, text: &[u8], lengths: [usize; 2]) -> Result<Outcome, String> {
    let library = on_words(lengths, |job, words| library::read_text(p, text, job, words));
    let second = on_words(lengths, |job, words| number(second::read_text(p, text, job, words)));
    answers.same(name, &(p, String::from_utf8_lossy(text), lengths), &library, &second)?;
    Ok(library)
}

/// A text read by both. What the library reads is a job whose text, by the library, is this one.
fn read(answers: &mut Answers, name: &'static str, p: Params, text: &[u8]) -> Result<Outcome, String> {
    let left = read_into(answers, name, p, text, READ)?;
    if left.answer == 0 {
        let (job, words) = (left.buffers[0][0], &left.buffers[1]);
        let (mut size, mut back) = ([0], vec![0; text.len()]);
        let told = [library::text_size(p, job, words, &mut size), library::write_text(p, job, words, &mut back)];
        if told != [0, 0] || size != [text.len() as u64] || back != text {
            let inputs = (p, String::from_utf8_lossy(text));
            return Err(format!("{name}, written again\ninputs  {inputs:?}\nread    {left:?}\nwritten {told:?}, {size:?}, {back:?}"));
        }
    }
    Ok(left)
}

/// Every cut of a text, every other byte in each place, every byte put in, and every byte left out.
fn every_byte(answers: &mut Answers, p: Params, text: &[u8]) -> Result<(), String> {
    for at in 0..text.len() {
        let left = read(answers, "read_text, cut", p, &text[..at])?;
        expect(11, "a text cut short", &(p, String::from_utf8_lossy(&text[..at])), &left)?;
        read(answers, "read_text, byte left out", p, &[&text[..at], &text[at + 1..]].concat())?;
        let mut other = text.to_vec();
        for byte in (0..=255).filter(|byte| *byte != text[at]) {
            other[at] = byte;
            read(answers, "read_text, byte changed", p, &other)?;
        }
    }
    for at in 0..=text.len() {
        let mut other = [&text[..at], b"0", &text[at..]].concat();
        for byte in 0..=255 {
            other[at] = byte;
            read(answers, "read_text, byte put in", p, &other)?;
        }
    }
    Ok(())
}

/// The bytes that a text is made of, and some that it might be.
const BYTES: &[u8] = b"00112233445566778899--..==\r\r\n\n+ ,eJOBSPHCYLAXCTHICK\0\xb2";

/// A text with one to three edits: a byte changed, put in, left out, swapped or said twice, a line swapped, left out or said twice, a cut, or another
/// digit.
fn edit(random: &mut Random, text: &[u8]) -> Vec<u8> {
    let mut text = text.to_vec();
    for _ in 0..random.pick(&[1, 1, 1, 2, 3]) {
        if text.is_empty() {
            break;
        }
        let (at, other, byte) = (random.below(text.len()), random.below(text.len()), random.pick(BYTES));
        match random.below(10) {
            0 => text[at] = byte,
            1 => text.insert(at, byte),
            2 => drop(text.remove(at)),
            3 => text.swap(at, other),
            4 => text.insert(at, text[at]),
            5 => text.truncate(at),
            6 | 7 => edit_lines(random, &mut text),
            _ => edit_digit(random, &mut text),
        }
    }
    text
}

fn edit_lines(random: &mut Random, text: &mut Vec<u8>) {
    let mut lines: Vec<Vec<u8>> = text.split_inclusive(|b| *b == b'\n').map(<[u8]>::to_vec).collect();
    let (i, j) = (random.below(lines.len()), random.below(lines.len()));
    match random.below(3) {
        0 => lines.swap(i, j),
        1 => drop(lines.remove(i)),
        _ => lines.insert(j, lines[i].clone()),
    }
    *text = lines.concat();
}

/// Another digit for one of a text, or one more beside it: often another text that is right.
fn edit_digit(random: &mut Random, text: &mut Vec<u8>) {
    let places: Vec<usize> = (0..text.len()).filter(|at| text[*at].is_ascii_digit()).collect();
    if !places.is_empty() {
        let (at, digit) = (random.pick(&places), b'0' + random.below(10) as u8);
        if random.one_in(2) {
            text[at] = digit;
        } else {
            text.insert(at, digit);
        }
    }
}
