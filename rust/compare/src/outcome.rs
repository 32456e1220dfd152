//! What a call leaves, and the comparison of two such outcomes.

use crate::lowest::{asked, KINDS};
use second::Refusal;
use std::collections::BTreeMap;
use std::fmt::{Debug, Display, Formatter};

/// What stands in every buffer before a call, but in one that is lent to be added to, and in a desk's record.
pub const POISON: u64 = 0xa5a5_a5a5_a5a5_a5a5;

/// The answers that there are: 0 and the numbers of refusals.
const NUMBERS: usize = 12;

/// How often each call gave each answer; an opening is counted apart where a word of it is wide, mending by what it did, and a total that is added,
/// an opening through a desk and a call on a text by what is lent. Of the calls that open, how often the lowest bit of a wrong share was of each kind.
#[derive(Default)]
pub struct Answers {
    calls: BTreeMap<&'static str, [u64; NUMBERS]>,
    lowest: BTreeMap<&'static str, [u64; KINDS.len()]>,
}

/// The answer of a call that returned, the buffers that it had, and whether they are as they were. Bytes are kept as words.
#[derive(Debug, PartialEq, Eq)]
pub struct Outcome {
    pub answer: u8,
    pub buffers: Vec<Vec<u64>>,
    untouched: bool,
}

pub fn number(answer: Result<(), Refusal>) -> u8 {
    answer.map_or_else(|refusal| refusal as u8, |()| 0)
}

fn poisoned(words: &[u64]) -> bool {
    words.iter().all(|w| *w == POISON)
}

/// The outcome of a call on up to two buffers of words.
pub fn on_words(lengths: [usize; 2], call: impl FnOnce(&mut [u64], &mut [u64]) -> u8) -> Outcome {
    let mut buffers = lengths.map(|length| vec![POISON; length]);
    let [first, second] = &mut buffers;
    let answer = call(first, second);
    Outcome { answer, untouched: buffers.iter().all(|words| poisoned(words)), buffers: buffers.into() }
}

/// Bytes as words, and those that are poison as its words.
fn words_of(bytes: Vec<u8>) -> Vec<u64> {
    bytes.into_iter().map(|b| if b == POISON as u8 { POISON } else { b.into() }).collect()
}

/// The outcome of a call that opens: on two buffers of words and one of bytes.
pub fn on_opening(lengths: [usize; 3], call: impl FnOnce(&mut [u64], &mut [u64], &mut [u8]) -> u8) -> Outcome {
    let mut lowest = vec![POISON as u8; lengths[2]];
    let mut outcome = on_words([lengths[0], lengths[1]], |out, wrong| call(out, wrong, &mut lowest));
    let lowest = words_of(lowest);
    outcome.untouched &= poisoned(&lowest);
    outcome.buffers.push(lowest);
    outcome
}

/// The outcome of a call that opens through a desk, whose record is lent to it.
pub fn on_desk(lent: &[u64], lengths: [usize; 3], call: impl FnOnce(&mut [u64], &mut [u64], &mut [u64], &mut [u8]) -> u8) -> Outcome {
    let mut record = lent.to_vec();
    let mut outcome = on_opening(lengths, |out, wrong, lowest| call(&mut record, out, wrong, lowest));
    outcome.untouched &= record == lent;
    outcome.buffers.push(record);
    outcome
}

/// The outcome of a call on words that are lent to it.
pub fn on_lent(lent: &[u64], call: impl FnOnce(&mut [u64]) -> u8) -> Outcome {
    let mut words = lent.to_vec();
    let answer = call(&mut words);
    Outcome { answer, untouched: words == lent, buffers: vec![words] }
}

/// The outcome of a call on a buffer of bytes and one of words.
pub fn on_bytes(lengths: [usize; 2], call: impl FnOnce(&mut [u8], &mut [u64]) -> u8) -> Outcome {
    let mut bytes = vec![POISON as u8; lengths[0]];
    let mut words = vec![POISON; lengths[1]];
    let answer = call(&mut bytes, &mut words);
    let bytes = words_of(bytes);
    Outcome { answer, untouched: poisoned(&bytes) && poisoned(&words), buffers: vec![bytes, words] }
}

impl Answers {
    /// Counts the answer if both outcomes are the same, and a refusal left the buffers as they were; otherwise tells all.
    pub fn same(&mut self, call: &'static str, inputs: &dyn Debug, library: &Outcome, second: &Outcome) -> Result<(), String> {
        if library == second && (library.answer == 0 || library.untouched) {
            self.calls.entry(call).or_default()[usize::from(library.answer)] += 1;
            return Ok(());
        }
        Err(format!("{call}\ninputs  {inputs:?}\nlibrary {library:?}\nsecond  {second:?}"))
    }

    /// Counts the kinds of a wrong share's lowest bit.
    pub fn count(&mut self, call: &'static str, kinds: [bool; KINDS.len()]) {
        let counts = self.lowest.entry(call).or_default();
        counts.iter_mut().zip(kinds).for_each(|(count, is)| *count += u64::from(is));
    }

    /// The kinds of lowest bits that these calls never came across.
    pub fn missing_bits(&self, calls: &[&'static str]) -> Vec<String> {
        let none = [0; KINDS.len()];
        let missing = |call: &'static str| {
            let counts = self.lowest.get(call).unwrap_or(&none);
            asked(call).iter().zip(counts).filter(|(_, count)| **count == 0).map(move |(kind, _)| format!("{call}: {kind}"))
        };
        calls.iter().flat_map(|call| missing(call)).collect()
    }

    /// The answers of these that their calls never gave.
    pub fn missing_answers(&self, asked: &[(&'static str, &[usize])]) -> Vec<String> {
        let given = |call: &str, answer: usize| self.calls.get(call).is_some_and(|counts| counts[answer] > 0);
        let pairs = asked.iter().flat_map(|(call, answers)| answers.iter().map(move |answer| (call, answer)));
        pairs.filter(|(call, answer)| !given(call, **answer)).map(|(call, answer)| format!("{call}: {answer}")).collect()
    }
}

impl Display for Answers {
    fn fmt(&self, f: &mut Formatter) -> std::fmt::Result {
        for (call, counts) in &self.calls {
            let counts: Vec<String> = (0..NUMBERS).filter(|i| counts[*i] > 0).map(|i| format!("{i}: {}", counts[i])).collect();
            writeln!(f, "  {call:27} {}", counts.join(", "))?;
        }
        for (call, counts) in &self.lowest {
            let counts: Vec<String> = KINDS.iter().zip(counts).map(|(kind, count)| format!("{kind}: {count}")).collect();
            writeln!(f, "  lowest bits of {call:12} {}", counts.join(", "))?;
        }
        Ok(())
    }
}
