//! Bundles, valid, damaged and faulty, and every call on them.

use crate::desk;
use crate::library;
use crate::lowest;
use crate::mending;
use crate::openings::damage;
use crate::outcome::{number, on_bytes, on_opening, on_words, Answers, Outcome};
use crate::random::Random;
use crate::totals;
use second::{Bundle, Params, Refusal, Share, HOLDERS, LINE};
use std::ops::Range;

/// A bundle as it was written, and where its parts are.
struct Written {
    params: Params,
    jobs: usize,
    bytes: Vec<u8>,
}

/// Where the order ends.
const ORDER: usize = 7;

impl Written {
    fn job_size(&self) -> usize {
        14 + 8 * self.params.d
    }

    fn file_size(&self) -> usize {
        23 + self.jobs * self.job_size()
    }

    fn files(&self) -> usize {
        (self.bytes.len() - ORDER) / self.file_size()
    }
}

/// One bundle, every call on it, and half of the time with faults in it.
pub fn bundle(random: &mut Random, answers: &mut Answers) -> Result<(), String> {
    let written = write(random, answers)?;
    let bytes = if random.one_in(2) { spoil(random, &written) } else { written.bytes.clone() };
    let library = on_words([0, 0], |_, _| library::accept(&bytes));
    let second = on_words([0, 0], |_, _| number(second::accept(&bytes)));
    answers.same("accept", &bytes, &library, &second)?;
    for _ in 0..3 {
        place_calls(random, answers, &written, &bytes)?;
    }
    holder_calls(random, answers, &written, &bytes)?;
    run_call(random, answers, &written, &bytes)?;
    description_calls(random, answers, &written, &bytes)?;
    reads(random, answers, &written, &bytes)?;
    lone_file(random, answers, &written, &bytes)?;
    rewrite(random, answers, &bytes)?;
    mending::mend(random, answers, &bytes)?;
    let (holder, run) = (index(random, written.params.n + 1), run(random, &written));
    totals::add_total(random, answers, written.params, &bytes, holder, run)?;
    desk::months(random, answers, written.params.d, written.jobs, [&bytes, &written.bytes])
}

/// Mostly a good number below `bound`, otherwise one at its edge or beyond.
pub(crate) fn index(random: &mut Random, bound: usize) -> usize {
    if bound == 0 || random.one_in(8) {
        random.pick(&[bound, bound + 1, 1 << 32, usize::MAX])
    } else {
        random.below(bound)
    }
}

pub(crate) fn length(random: &mut Random, right: usize) -> usize {
    if random.one_in(16) {
        random.wrong_length(right)
    } else {
        right
    }
}

/// Whether a word of the jobs at these places is wide, in a bundle that is accepted.
pub(crate) fn wide(bytes: &[u8], places: Range<usize>) -> bool {
    second::read_bundle(bytes).is_ok_and(|bundle| {
        let (ring, jobs) = (bundle.params().ring(), bundle.files.iter().filter_map(|file| file.jobs.get(places.clone())));
        jobs.flatten().any(|job| !ring.in_width(&job.words))
    })
}

fn place_calls(random: &mut Random, answers: &mut Answers, written: &Written, bytes: &[u8]) -> Result<(), String> {
    let place = index(random, written.jobs);
    let names =
        if wide(bytes, place..place.saturating_add(1)) { ["open_place, wide", "list_line, wide"] } else { ["open_place", "list_line"] };
    let lengths = [length(random, written.params.d), length(random, 1), length(random, HOLDERS)];
    let library = on_opening(lengths, |out, wrong, lowest| library::open_place(bytes, place, out, wrong, lowest));
    let second = on_opening(lengths, |out, wrong, lowest| number(second::open_place(bytes, place, out, wrong, lowest)));
    answers.same(names[0], &(bytes, place), &library, &second)?;
    lowest_bits(answers, "open_place", bytes, &library, |bundle| Ok(bundle.shares(place)))?;
    let lengths = [random.pick(&[LINE - 1, LINE, LINE, LINE + 100]), length(random, 1)];
    let library = on_bytes(lengths, |line, length| library::list_line(bytes, place, line, length));
    let second = on_bytes(lengths, |line, length| number(second::list_line(bytes, place, line, length)));
    answers.same(names[1], &(bytes, place), &library, &second)
}

/// The lowest bits that the library left of shares of a bundle, if it opened them.
fn lowest_bits(
    answers: &mut Answers,
    call: &'static str,
    bytes: &[u8],
    library: &Outcome,
    shares: impl FnOnce(&Bundle) -> Result<Vec<Share>, Refusal>,
) -> Result<(), String> {
    if library.answer != 0 {
        return Ok(());
    }
    let bundle = second::read_bundle(bytes).expect("a place of it was opened");
    lowest::check(answers, call, bundle.params(), &shares(&bundle).expect("they were opened"), library)
}

fn holder_calls(random: &mut Random, answers: &mut Answers, written: &Written, bytes: &[u8]) -> Result<(), String> {
    let (holder, place) = (index(random, written.params.n + 1), index(random, written.jobs));
    let (a, b) = run(random, written);
    let lengths = [length(random, 2), 0];
    let library = on_words(lengths, |part, _| library::fetch_body(bytes, holder, place, part));
    let second = on_words(lengths, |part, _| number(second::fetch_body(bytes, holder, place, part)));
    answers.same("fetch_body", &(bytes, holder, place), &library, &second)?;
    let library = on_words([0, 0], |_, _| library::fetch_fault(bytes, holder, place));
    let second = on_words([0, 0], |_, _| number(second::fetch_fault(bytes, holder, place)));
    answers.same("fetch_fault", &(bytes, holder, place), &library, &second)?;
    let lengths = [length(random, written.params.d), 0];
    let library = on_words(lengths, |out, _| library::total(bytes, holder, a, b, out));
    let second = on_words(lengths, |out, _| number(second::total(bytes, holder, a, b, out)));
    answers.same("total", &(bytes, holder, a, b), &library, &second)
}

/// A run, mostly within the jobs.
fn run(random: &mut Random, written: &Written) -> (usize, usize) {
    let (a, b) = (index(random, written.jobs + 1), index(random, written.jobs + 1));
    if random.one_in(8) {
        (a, b)
    } else {
        (a.min(b), a.max(b))
    }
}

fn run_call(random: &mut Random, answers: &mut Answers, written: &Written, bytes: &[u8]) -> Result<(), String> {
    let (a, b) = run(random, written);
    let lengths = [length(random, written.params.d), length(random, 1), length(random, HOLDERS)];
    let library = on_opening(lengths, |out, wrong, lowest| library::open_run(bytes, a, b, out, wrong, lowest));
    let second = on_opening(lengths, |out, wrong, lowest| number(second::open_run(bytes, a, b, out, wrong, lowest)));
    let name = match wide(bytes, a..b) {
        true if b - a == 1 => "open_run of one, wide",
        true => "open_run, wide",
        false => "open_run",
    };
    answers.same(name, &(bytes, a, b), &library, &second)?;
    lowest_bits(answers, "open_run", bytes, &library, |bundle| bundle.sums(a..b))
}

fn description_calls(random: &mut Random, answers: &mut Answers, written: &Written, bytes: &[u8]) -> Result<(), String> {
    let (place, file) = (index(random, written.jobs), index(random, written.files()));
    let lengths = [length(random, 9), 0];
    let library = on_words(lengths, |about, _| library::describe(bytes, about));
    let second = on_words(lengths, |about, _| number(second::describe(bytes, about)));
    answers.same("describe", &bytes, &library, &second)?;
    let lengths = [length(random, 1), 0];
    let library = on_words(lengths, |out, _| library::job_number(bytes, place, out));
    let second = on_words(lengths, |out, _| number(second::job_number(bytes, place, out)));
    answers.same("job_number", &(bytes, place), &library, &second)?;
    let lengths = [length(random, 3), 0];
    let library = on_words(lengths, |part, _| library::file(bytes, file, part));
    let second = on_words(lengths, |part, _| number(second::file(bytes, file, part)));
    answers.same("file", &(bytes, file), &library, &second)
}

/// Reads by a cursor: one from any position, and from a record on some more, each where the one before ended.
fn reads(random: &mut Random, answers: &mut Answers, written: &Written, bytes: &[u8]) -> Result<(), String> {
    let at = index(random, bytes.len() + 1);
    read(random, answers, bytes, at)?;
    let mut cursor = Some(boundary(random, written));
    for _ in 0..8 {
        let Some(at) = cursor else { break };
        cursor = read(random, answers, bytes, at)?;
    }
    Ok(())
}

/// One read, and where the next may start.
fn read(random: &mut Random, answers: &mut Answers, bytes: &[u8], at: usize) -> Result<Option<usize>, String> {
    let lengths = [length(random, 4), 0];
    let library = on_words(lengths, |step, _| library::read(bytes, at, step));
    let second = on_words(lengths, |step, _| number(second::read(bytes, at, step)));
    answers.same("read", &(bytes, at), &library, &second)?;
    let mut step = [0; 4];
    Ok(second::read(bytes, at, &mut step).ok().filter(|()| step[0] == 0).map(|()| (step[2] + step[3]) as usize))
}

/// A file of the bundle by itself, sometimes a little more or less of it.
fn lone_file(random: &mut Random, answers: &mut Answers, written: &Written, bytes: &[u8]) -> Result<(), String> {
    let size = written.file_size();
    let start = (ORDER + random.below(written.files()) * size).min(bytes.len());
    let size = if random.one_in(4) { random.pick(&[size - 1, size + 1, 2 * size, bytes.len()]) } else { size };
    let file = &bytes[start..(start + size).min(bytes.len())];
    let library = on_words([0, 0], |_, _| library::check_file(file));
    let second = on_words([0, 0], |_, _| number(second::check_file(file)));
    answers.same("check_file", &file, &library, &second)
}

/// The same files under another order.
fn rewrite(random: &mut Random, answers: &mut Answers, bytes: &[u8]) -> Result<(), String> {
    let (e, files) = (random.word() as u8, &bytes[ORDER.min(bytes.len())..]);
    let size = length(random, files.len() + ORDER);
    let library = on_bytes([size, 0], |out, _| library::write_bundle(e, files, out));
    let second = on_bytes([size, 0], |out, _| number(second::write_bundle(e, files, out)));
    answers.same("write_bundle", &(e, files), &library, &second)
}

/// Jobs dealt and damaged, in the files of some of the holders; in half of the bundles some of the shares are then made wide.
fn write(random: &mut Random, answers: &mut Answers) -> Result<Written, String> {
    let p = random.params();
    let mut present: Vec<usize> = (1..=p.n).filter(|_| !random.one_in(8)).collect();
    if present.is_empty() {
        present = vec![p.n];
    }
    let jobs = match random.below(256) {
        0 => 1000,
        1..=15 => random.below(40),
        _ => random.below(6),
    };
    if jobs == 1000 {
        present.truncate(2);
    }
    let most = if present.len() > p.t { (present.len() - p.t - 1) / 2 } else { 0 };
    let e = if random.one_in(8) { random.word() as u8 } else { random.from_to(0, most) as u8 };
    let (archive, widens) = (random.word(), random.one_in(2));
    let (mut numbers, mut widened): (Vec<u64>, Vec<usize>) = (vec![], vec![]);
    let mut files = vec![vec![]; present.len()];
    for _ in 0..jobs {
        let gap = random.word() >> random.from_to(11, 63);
        numbers.push(numbers.last().map_or(gap << 10, |last| last + gap + 1));
        let allowance = usize::from(e).min(most + 1);
        let wide = if widens && !random.one_in(4) { random.wide_shares(p.k, allowance, present.len()) } else { 0 };
        widened.push(wide);
        let words = shares(random, p, &present, allowance.saturating_sub(wide));
        files.iter_mut().zip(words.chunks(p.d)).for_each(|(file, words)| file.extend(words));
    }
    let mut bytes = vec![0; ORDER];
    second::write_order(e, &mut bytes).expect("seven bytes");
    for (holder, words) in present.iter().zip(&files) {
        let size = 23 + jobs * (14 + 8 * p.d);
        let library = on_bytes([size, 0], |out, _| library::write_file(p, *holder, archive, &numbers, words, out));
        let mut file = vec![0; size];
        second::write_file(p, *holder, archive, &numbers, words, &mut file).expect("good inputs");
        let second = on_bytes([size, 0], |out, _| number(second::write_file(p, *holder, archive, &numbers, words, out)));
        answers.same("write_file", &(p, holder, archive, &numbers, words), &library, &second)?;
        bytes.extend(file);
    }
    let mut written = Written { params: p, jobs, bytes };
    for (place, count) in widened.into_iter().enumerate() {
        widen(random, &mut written, place, count);
    }
    Ok(written)
}

/// The shares of one job of the present holders, some of them damaged.
fn shares(random: &mut Random, p: Params, present: &[usize], e: usize) -> Vec<u64> {
    let (job, coefficients) = (random.words(p.k, p.d), random.words(p.k, p.d * p.t));
    let mut dealt = vec![0; p.n * p.d];
    second::deal(p, &job, &coefficients, &mut dealt).expect("good inputs");
    let mut words: Vec<u64> = present.iter().flat_map(|i| dealt[(i - 1) * p.d..i * p.d].to_vec()).collect();
    let wrong = match random.below(4) {
        0 => 0,
        1 => random.from_to(0, e + 1),
        _ => e,
    };
    damage(random, p, &dealt, present, wrong, &mut words);
    words
}

/// Some shares of the job at a place made wide in the bytes: no fault of the bundle.
fn widen(random: &mut Random, written: &mut Written, place: usize, count: usize) {
    for file in random.some(count, written.files()) {
        let start = ORDER + file * written.file_size() + 23 + place * written.job_size() + 14;
        let bits = random.wide_bits(written.params.k, written.params.d).into_iter().flat_map(u64::to_le_bytes);
        written.bytes[start..].iter_mut().zip(bits).for_each(|(byte, bits)| *byte |= bits);
    }
}

/// The bundle with one to three faults.
fn spoil(random: &mut Random, written: &Written) -> Vec<u8> {
    let mut bytes = written.bytes.clone();
    for _ in 0..random.pick(&[1, 1, 1, 2, 3]) {
        if bytes.is_empty() {
            break;
        }
        match random.below(13) {
            0 => bytes.truncate(random.below(bytes.len())),
            1 => bytes.truncate(boundary(random, written).min(bytes.len())),
            2 => {
                let at = random.below(bytes.len());
                bytes[at] ^= 1 << random.below(8);
            }
            3..=6 => change_frame(random, written, &mut bytes),
            7 => move_file(random, written, &mut bytes),
            8..=10 => change_heading(random, written, &mut bytes),
            11 => {
                let at = boundary(random, written).min(bytes.len());
                let more = random.words(64, 3).into_iter().flat_map(u64::to_le_bytes).take(random.from_to(1, 23));
                bytes.splice(at..at, more.collect::<Vec<u8>>());
            }
            _ => {
                let at = random.below(bytes.len());
                bytes.remove(at);
            }
        }
    }
    bytes
}

/// The start of a record, or the end.
fn boundary(random: &mut Random, written: &Written) -> usize {
    let file = random.below(written.files() + 1);
    let start = ORDER + file * written.file_size();
    match random.below(3) {
        0 => 0,
        1 => start,
        _ => start + 23 + random.from_to(0, written.jobs) * written.job_size(),
    }
}

/// A byte of a record's length, kind, heading or job number, set to a small or a random value.
fn change_frame(random: &mut Random, written: &Written, bytes: &mut [u8]) {
    let at = boundary(random, written) + random.below(23);
    if let Some(byte) = bytes.get_mut(at) {
        *byte = match random.below(4) {
            0 => byte.wrapping_add(1),
            1 => byte.wrapping_sub(1),
            2 => random.below(70) as u8,
            _ => random.word() as u8,
        };
    }
}

/// A number of a heading set to the end of its range or beyond, or beside what it was.
fn change_heading(random: &mut Random, written: &Written, bytes: &mut [u8]) {
    let Params { k, d, n, t } = written.params;
    let start = ORDER + random.below(written.files()) * written.file_size();
    let (at, size, old, limit) = random.pick(&[
        (6, 1, k as usize, 64),
        (7, 1, d, 6),
        (8, 1, n, (1 << d) - 1),
        (9, 1, t, n - 1),
        (10, 1, n, n),
        (11, 8, 0, 0),
        (19, 4, written.jobs, 1000),
    ]);
    let new = random.pick(&[limit, limit + 1, old + 1, old.saturating_sub(1), 0, 1, 255]);
    if let Some(field) = bytes.get_mut(start + at..start + at + size) {
        field.copy_from_slice(&new.to_le_bytes()[..size]);
    }
}

/// Two files swapped, or one put twice, or one left out.
fn move_file(random: &mut Random, written: &Written, bytes: &mut Vec<u8>) {
    let (size, files) = (written.file_size(), written.files());
    let start = |file: usize| ORDER + file * size;
    if bytes.len() != written.bytes.len() {
        return;
    }
    let (i, j) = (random.below(files), random.below(files));
    let (first, other) = (bytes[start(i)..start(i + 1)].to_vec(), bytes[start(j)..start(j + 1)].to_vec());
    match random.below(3) {
        0 => {
            bytes[start(i)..start(i + 1)].copy_from_slice(&other);
            bytes[start(j)..start(j + 1)].copy_from_slice(&first);
        }
        1 => bytes[start(i)..start(i + 1)].copy_from_slice(&other),
        _ => {
            bytes.drain(start(i)..start(i + 1));
        }
    }
}
