//! The lowest bits of an opening beside the values that belong where the wrong shares stand, and how often each kind of them came.

use crate::outcome::{Answers, Outcome};
use crate::random::mask;
use second::{Element, Params, Share, HOLDERS, NOT_WRONG};

/// What is counted of a wrong share. The last two are of shares with a wide word, which the opening of a run declines.
pub const KINDS: [&str; 6] = ["in the first word that differs", "in a later word", "bit 0", "bit k - 1", "wide but below k", "k or above"];

/// The kinds that a call must have come across in a long comparison.
pub fn asked(call: &str) -> &'static [&'static str] {
    if call == "open_run" {
        &KINDS[..4]
    } else {
        &KINDS
    }
}

/// The lowest bit at which a share differs from a value, and which kinds it is of.
fn lowest(k: u64, share: &Element, value: &Element) -> (u64, [bool; KINDS.len()]) {
    let by_word = || share.iter().zip(value).filter(|(w, v)| w != v).map(|(w, v)| u64::from((w ^ v).trailing_zeros()));
    let first = by_word().next().expect("a wrong share differs");
    let lowest = by_word().fold(first, u64::min);
    let wide = share.iter().any(|w| *w > mask(k));
    (lowest, [lowest == first, lowest < first, lowest == 0, lowest == k - 1, wide && lowest < k, lowest >= k])
}

/// Whether the entries that an opening of these shares left are those of the values that the right ones tell.
pub fn check(answers: &mut Answers, call: &'static str, p: Params, shares: &[Share], left: &Outcome) -> Result<(), String> {
    let (set, entries) = (left.buffers[1][0], &left.buffers[2]);
    let mut expected = vec![u64::from(NOT_WRONG); HOLDERS];
    for (share, value) in second::corrections(p, shares, set) {
        let (bit, kinds) = lowest(p.k, &share.words, &value);
        expected[share.holder - 1] = bit;
        answers.count(call, kinds);
    }
    if *entries == expected {
        return Ok(());
    }
    Err(format!("{call}, the lowest bits\ninputs  {p:?} {shares:?}\nleft    {left:?}\nexpected {expected:?}"))
}
