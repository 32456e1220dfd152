//! Totals added to a lent element: both beside each other, and what the library's other calls say of them.

use crate::library;
use crate::outcome::{number, on_lent, Answers, Outcome};
use crate::random::Random;
use second::Params;

/// What is added: the places a to b - 1 of a holder's file.
struct Asked<'a> {
    bytes: &'a [u8],
    holder: usize,
    a: usize,
    b: usize,
}

impl Asked<'_> {
    fn both(&self, answers: &mut Answers, name: &'static str, lent: &[u64]) -> Result<Outcome, String> {
        let Asked { bytes, holder, a, b } = *self;
        let library = on_lent(lent, |running| library::add_total(bytes, holder, a, b, running));
        let second = on_lent(lent, |running| number(second::add_total(bytes, holder, a, b, running)));
        answers.same(name, &(bytes, holder, a, b, lent), &library, &second)?;
        Ok(library)
    }

    /// The words that the library leaves of lent ones when it adds these places.
    fn added(&self, a: usize, b: usize, mut words: Vec<u64>) -> (u8, Vec<u64>) {
        (library::add_total(self.bytes, self.holder, a, b, &mut words), words)
    }

    /// A run that was added leaves what its two parts leave one after the other, and from zero words what the call for a total gives.
    fn laws(&self, random: &mut Random, lent: &[u64], left: &[u64]) -> Result<(), String> {
        let Asked { bytes, holder, a, b } = *self;
        let middle = random.from_to(a, b);
        let (first, words) = self.added(a, middle, lent.to_vec());
        let (then, words) = self.added(middle, b, words);
        let mut total = vec![0; lent.len()];
        let answer = library::total(bytes, holder, a, b, &mut total);
        let (from_zero, zero) = self.added(a, b, vec![0; lent.len()]);
        if (first, then, &words[..]) == (0, 0, left) && (answer, from_zero) == (0, 0) && total == zero {
            return Ok(());
        }
        let parts = format!("by {middle}: {first}, {then}, {words:?}\ntotal {answer}, {total:?}\nfrom zero {from_zero}, {zero:?}");
        Err(format!("add_total\ninputs  {:?}\nleft    {left:?}\n{parts}", (bytes, holder, a, b, lent)))
    }
}

/// A run added to an element by both; then to one of another length, to one with a wide word, also where the run is empty, and where the last word
/// of the run is made wide.
pub fn add_total(
    random: &mut Random,
    answers: &mut Answers,
    p: Params,
    bytes: &[u8],
    holder: usize,
    (a, b): (usize, usize),
) -> Result<(), String> {
    let asked = Asked { bytes, holder, a, b };
    let lent = random.words(p.k, p.d);
    let library = asked.both(answers, "add_total", &lent)?;
    let length = random.wrong_length(p.d);
    asked.both(answers, "add_total, other length", &random.words(64, length))?;
    if p.k < 64 {
        let mut wide = lent.clone();
        random.widen(p.k, &mut wide);
        asked.both(answers, "add_total, wide lent", &wide)?;
        Asked { b: a, ..asked }.both(answers, "add_total, wide lent, empty", &wide)?;
    }
    if library.answer != 0 {
        return Ok(());
    }
    asked.laws(random, &lent, &library.buffers[0])?;
    if a < b && p.k < 64 {
        let mut late = bytes.to_vec();
        let bundle = second::read_bundle(bytes).expect("a run of it was added");
        let file = bundle.files.iter().find(|file| file.heading.holder == holder).expect("a run of it was added");
        late[file.jobs[b - 1].body.end - 1] |= 128;
        Asked { bytes: &late, ..asked }.both(answers, "add_total, last word wide", &lent)?;
    }
    Ok(())
}
