//! Calls on lent words: dealing, opening, adding, multiplying, inverses, signed words, files.

use crate::library;
use crate::lowest;
use crate::outcome::{number, on_bytes, on_opening, on_words, Answers};
use crate::random::{mask, Random};
use second::{Params, Share, HOLDERS};

#[derive(Clone, Debug)]
struct Opening {
    params: Params,
    holders: Vec<u64>,
    words: Vec<u64>,
    e: u64,
    lengths: [usize; 3],
}

/// One job dealt by both and opened by both, damaged or asked wrongly in one way or another; then smaller calls.
pub fn opening(random: &mut Random, answers: &mut Answers) -> Result<(), String> {
    let p = random.params();
    let dealt = deal(random, answers, p)?;
    let mut case = lend(random, p, &dealt);
    if random.one_in(8) {
        spoil(random, &mut case);
    }
    compare_opening(&case, answers)?;
    match random.below(8) {
        0 | 1 => ring_calls(random, answers),
        2 => write_file(random, answers),
        3 => signed(random, answers),
        _ => Ok(()),
    }
}

fn compare_opening(case: &Opening, answers: &mut Answers) -> Result<(), String> {
    let Opening { params, holders, words, e, lengths } = case;
    let library = on_opening(*lengths, |out, wrong, lowest| library::open(*params, holders, words, *e, out, wrong, lowest));
    let second = on_opening(*lengths, |out, wrong, lowest| number(second::open(*params, holders, words, *e, out, wrong, lowest)));
    let wide = params.check().is_ok() && !params.ring().in_width(words);
    answers.same(if wide { "open, wide" } else { "open" }, case, &library, &second)?;
    if library.answer != 0 {
        return Ok(());
    }
    let shares: Vec<Share> = holders.iter().zip(words.chunks(params.d)).map(|(h, ws)| second::share(*h as usize, ws)).collect();
    lowest::check(answers, "open", *params, &shares, &library)
}

/// The shares of a random polynomial, from both.
fn deal(random: &mut Random, answers: &mut Answers, p: Params) -> Result<Vec<u64>, String> {
    let (mut job, mut coefficients) = (random.words(p.k, p.d), random.words(p.k, p.d * p.t));
    let shares = polynomial(p, &job, &coefficients);
    let (mut asked, mut length) = (p, p.n * p.d);
    match random.below(64) {
        0 => asked = random.bad_params(),
        1 => length = random.wrong_length(length),
        2 => random.widen(p.k, &mut job),
        3 => random.widen(p.k, &mut coefficients),
        4 => coefficients.push(0),
        5 => job.truncate(1),
        _ => {}
    }
    let library = on_words([length, 0], |out, _| library::deal(asked, &job, &coefficients, out));
    let second = on_words([length, 0], |out, _| number(second::deal(asked, &job, &coefficients, out)));
    answers.same("deal", &(asked, job, coefficients), &library, &second)?;
    Ok(shares)
}

fn polynomial(p: Params, job: &[u64], coefficients: &[u64]) -> Vec<u64> {
    let mut shares = vec![0; p.n * p.d];
    second::deal(p, job, coefficients, &mut shares).expect("good inputs");
    shares
}

/// Some of the dealt shares, some of them damaged, and some wide, with an allowance that fits more or less.
fn lend(random: &mut Random, p: Params, dealt: &[u64]) -> Opening {
    let mut present: Vec<usize> = (1..=p.n).collect();
    if random.one_in(2) {
        let chance = random.from_to(2, 20);
        present.retain(|_| !random.one_in(chance));
    }
    let m = present.len();
    let most = if m > p.t { (m - p.t - 1) / 2 } else { 0 };
    let e = match random.below(16) {
        0 => most as u64 + 1,
        1 => random.pick(&[64, 255, 1 << 62, 1 << 63, u64::MAX]),
        2..=7 => random.from_to(0, most) as u64,
        _ => most as u64,
    };
    let wrong = match random.below(8) {
        0 => 0,
        1 => random.from_to(0, m),
        2 => (most + 1).min(m),
        3 => most,
        _ => random.from_to(0, most.min(m)),
    };
    let mut words: Vec<u64> = present.iter().flat_map(|i| dealt[(i - 1) * p.d..i * p.d].to_vec()).collect();
    damage(random, p, dealt, &present, wrong, &mut words);
    if random.one_in(2) {
        let count = random.wide_shares(p.k, (e as usize).min(most).saturating_sub(wrong), m);
        for i in random.some(count, m) {
            let bits = random.wide_bits(p.k, p.d);
            words[i * p.d..].iter_mut().zip(bits).for_each(|(word, bits)| *word |= bits);
        }
    }
    Opening { params: p, holders: present.iter().map(|i| *i as u64).collect(), words, e, lengths: [p.d, 1, HOLDERS] }
}

/// Damages some of the present shares: in any bits, in one bit, in the high bits only, or by moving them to another polynomial, which may
/// agree with the first in the low bits.
pub fn damage(random: &mut Random, p: Params, dealt: &[u64], present: &[usize], wrong: usize, words: &mut [u64]) {
    let from = random.from_to(0, p.k as usize - 1);
    let high = mask(p.k) >> from << from;
    let top = 1 << (p.k - 1);
    let way = random.below(6);
    let shift = if random.one_in(2) { 0 } else { from };
    let (job, coefficients) = (random.words(p.k, p.d), random.words(p.k, p.d * p.t));
    let step = polynomial(p, &job, &coefficients);
    for place in random.some(wrong, present.len()) {
        let holder = present[place] - 1;
        let one = random.below(p.d);
        for j in 0..p.d {
            let old = dealt[holder * p.d + j];
            words[place * p.d + j] = match way {
                0 => random.word() & mask(p.k),
                1 if j == one => old ^ 1 << random.from_to(0, p.k as usize - 1),
                2 => old ^ (random.word() & high),
                3 if j == one => old ^ top,
                4 | 5 => old.wrapping_add(step[holder * p.d + j] << shift) & mask(p.k),
                _ => old,
            };
        }
    }
}

/// One thing, sometimes two, that a call declines.
fn spoil(random: &mut Random, case: &mut Opening) {
    let p = case.params;
    for _ in 0..random.from_to(1, 2) {
        match random.below(6) {
            0 => case.params = random.bad_params(),
            1 => spoil_holders(random, p, &mut case.holders),
            2 => case.lengths[0] = random.wrong_length(p.d),
            3 => case.lengths[1] = random.wrong_length(1),
            4 => case.lengths[2] = random.wrong_length(HOLDERS),
            _ => {
                let length = random.wrong_length(case.words.len());
                case.words.resize(length, 0);
            }
        }
    }
}

fn spoil_holders(random: &mut Random, p: Params, holders: &mut Vec<u64>) {
    if holders.is_empty() {
        return;
    }
    let i = random.below(holders.len());
    match random.below(4) {
        0 => holders[i] = random.pick(&[0, p.n as u64 + 1, 64, 1 << 32, u64::MAX]),
        1 => holders[i] = holders[holders.len() - 1 - i],
        2 => holders.swap(0, i),
        _ => holders.push(p.n as u64),
    }
}

fn ring_calls(random: &mut Random, answers: &mut Answers) -> Result<(), String> {
    let p = if random.one_in(16) { random.bad_params() } else { random.params() };
    let d = p.d.min(8);
    let k = p.k.clamp(1, 64);
    let (mut a, mut b, mut length) = (random.words(k, d), random.words(k, d), d);
    match random.below(32) {
        0 => random.widen(k, &mut a),
        1 => random.widen(k, &mut b),
        2 => length = random.wrong_length(d),
        3 => a.push(0),
        4 => b.truncate(1),
        5..=8 => a.iter_mut().for_each(|w| *w &= !1),
        _ => {}
    }
    let library = on_words([length, 0], |out, _| library::add(p, &a, &b, out));
    let second = on_words([length, 0], |out, _| number(second::add(p, &a, &b, out)));
    answers.same("add", &(p, &a, &b), &library, &second)?;
    let library = on_words([length, 0], |out, _| library::scale(p, &a, &b, out));
    let second = on_words([length, 0], |out, _| number(second::scale(p, &a, &b, out)));
    answers.same("scale", &(p, &a, &b), &library, &second)?;
    let library = on_words([length, 0], |out, _| library::invert(p, &a, out));
    let second = on_words([length, 0], |out, _| number(second::invert(p, &a, out)));
    answers.same("invert", &(p, &a), &library, &second)
}

fn signed(random: &mut Random, answers: &mut Answers) -> Result<(), String> {
    let k = if random.one_in(8) { random.pick(&[0, 65, u64::MAX]) } else { random.from_to(1, 64) as u64 };
    let w = if random.one_in(8) { random.word() } else { random.words(k.clamp(1, 64), 1)[0] };
    let length = if random.one_in(8) { random.wrong_length(1) } else { 1 };
    let library = on_words([length, 0], |out, _| library::signed(k, w, out));
    let second = on_words([length, 0], |out, _| number(second::signed(k, w, out)));
    answers.same("signed", &(k, w), &library, &second)
}

/// A file and an order; most are written, some have a fault or two.
fn write_file(random: &mut Random, answers: &mut Answers) -> Result<(), String> {
    let mut p = random.params();
    let jobs = if random.one_in(256) { random.from_to(999, 1001) } else { random.below(12) };
    let mut numbers: Vec<u64> = (0..jobs).map(|_| random.word() >> random.below(64)).collect();
    numbers.sort_unstable();
    numbers.dedup();
    let mut words = random.words(p.k, numbers.len() * p.d);
    let mut length = 23 + numbers.len() * (14 + 8 * p.d);
    let mut holder = random.from_to(1, p.n);
    let faults = if random.one_in(2) { 0 } else { random.from_to(1, 2) };
    for _ in 0..faults {
        match random.below(6) {
            0 => p = random.bad_params(),
            1 => holder = random.pick(&[0, p.n.saturating_add(1), 64, usize::MAX]),
            2 => random.widen(p.k.clamp(1, 64), &mut words),
            3 => length = random.wrong_length(length),
            4 => words.push(0),
            _ => numbers.reverse(),
        }
    }
    let (archive, e, order) = (random.word(), random.word() as u8, if random.one_in(4) { random.wrong_length(7) } else { 7 });
    let library = on_bytes([length, 0], |out, _| library::write_file(p, holder, archive, &numbers, &words, out));
    let second = on_bytes([length, 0], |out, _| number(second::write_file(p, holder, archive, &numbers, &words, out)));
    answers.same("write_file", &(p, holder, archive, &numbers, &words, length), &library, &second)?;
    let library = on_bytes([order, 0], |out, _| library::write_order(e, out));
    let second = on_bytes([order, 0], |out, _| number(second::write_order(e, out)));
    answers.same("write_order", &(e, order), &library, &second)
}
