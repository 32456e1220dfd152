//! The library's job with the library's own algorithm in plain Rust, for the benchmark: k and d are known at run time only, and each call
//! has code for each d, among which it chooses once; no unsafe code, no vector instructions by hand. Parameters, refusals and the
//! constants of an opening are those of `second`, and nothing else of it is used.

/// The expression for this d, from 2 to 6, with the constant D in it, so that there is code for each.
macro_rules! for_d {
    ($d:expr, $value:expr) => {
        match $d {
            2 => for_d!(const 2, $value),
            3 => for_d!(const 3, $value),
            4 => for_d!(const 4, $value),
            5 => for_d!(const 5, $value),
            _ => for_d!(const 6, $value),
        }
    };
    (const $d:literal, $value:expr) => {{
        const D: usize = $d;
        $value
    }};
}

mod bundle;
mod decode;
mod field;
mod ring;
mod text;

pub use bundle::{accept, add_total, desk_open, desk_start, mend, open_place, open_run, total};
pub use second::{Params, Refusal, HOLDERS, NOT_WRONG};
pub use text::{read_text, text_size, write_text};

use decode::{decode, Shares};
use ring::{add, eval, mask, mul_by_point};

pub(crate) fn demand(fact: bool, otherwise: Refusal) -> Result<(), Refusal> {
    if fact {
        Ok(())
    } else {
        Err(otherwise)
    }
}

fn in_width(k: u64, words: &[u64]) -> bool {
    words.iter().fold(0, |seen, w| seen | w) & !mask(k) == 0
}

/// The shares of holders 1 to n: values of one polynomial, each by Horner's rule.
pub fn deal(p: Params, job: &[u64], coefficients: &[u64], out: &mut [u64]) -> Result<(), Refusal> {
    p.check()?;
    demand(job.len() == p.d && coefficients.len() == p.t * p.d && out.len() == p.n * p.d, Refusal::Length)?;
    demand(in_width(p.k, job) && in_width(p.k, coefficients), Refusal::WideWord)?;
    for_d!(p.d, write_shares::<D>(p.k, job, coefficients, out));
    Ok(())
}

fn write_shares<const D: usize>(k: u64, job: &[u64], coefficients: &[u64], out: &mut [u64]) {
    let (free, rest) = (job.as_chunks::<D>().0[0], coefficients.as_chunks::<D>().0);
    for (x, share) in (1..).zip(out.as_chunks_mut::<D>().0) {
        let value = add(mul_by_point(eval(rest, x), x), free);
        *share = value.map(|w| w & mask(k));
    }
}

/// Opens lent shares: the job's words, the set of wrong holders, those of shares with a wide word among them, and the lowest bit at which each of
/// these shares differs.
pub fn open(
    p: Params,
    holders: &[u64],
    words: &[u64],
    e: u64,
    out: &mut [u64],
    wrong: &mut [u64],
    lowest: &mut [u8],
) -> Result<(), Refusal> {
    p.check()?;
    demand(holders.len().checked_mul(p.d) == Some(words.len()), Refusal::Length)?;
    opening_lengths(p, out, wrong, lowest)?;
    let mut last = 0;
    for &h in holders {
        demand(last < h && h <= p.n as u64, Refusal::Holder)?;
        last = h;
    }
    for_d!(p.d, open_lent::<D, { 1 << D }>(p, holders, words, e, out, wrong, lowest))
}

/// The lengths of what an opening fills.
pub(crate) fn opening_lengths(p: Params, out: &[u64], wrong: &[u64], lowest: &[u8]) -> Result<(), Refusal> {
    demand(out.len() == p.d && wrong.len() == 1 && lowest.len() == HOLDERS, Refusal::Length)
}

fn open_lent<const D: usize, const N: usize>(
    p: Params,
    holders: &[u64],
    words: &[u64],
    e: u64,
    out: &mut [u64],
    wrong: &mut [u64],
    lowest: &mut [u8],
) -> Result<(), Refusal> {
    let mut shares = Shares::<D, N>::new();
    for (&h, words) in holders.iter().zip(words.as_chunks::<D>().0) {
        shares.push(h, *words);
    }
    open_shares(p, shares, in_width(p.k, words), e, out, wrong, lowest)
}

/// Whether m shares are at least t + 1 + 2 e.
pub(crate) fn enough(p: Params, m: usize, e: u64) -> Result<(), Refusal> {
    demand(m > p.t && e <= ((m - p.t - 1) / 2) as u64, Refusal::TooFewShares)
}

/// Opens shares, of which `narrow` tells that no word is wide.
pub(crate) fn open_shares<const D: usize, const N: usize>(
    p: Params,
    mut shares: Shares<D, N>,
    narrow: bool,
    e: u64,
    out: &mut [u64],
    wrong: &mut [u64],
    lowest: &mut [u8],
) -> Result<(), Refusal> {
    let m = shares.len();
    enough(p, m, e)?;
    let mut q = [[0; D]; N];
    wrong[0] = decode(p.k, p.t, &mut shares, narrow, e as u32, &mut q).ok_or(Refusal::NoCodeword)?;
    out.copy_from_slice(&q[0].map(|w| w & mask(p.k)));
    lowest.fill(NOT_WRONG);
    for (holder, words) in shares.dropped(m) {
        let value = eval(&q[..=p.t], holder);
        let gap = words.iter().zip(value).fold(0, |gap, (w, v)| gap | (w ^ (v & mask(p.k))));
        lowest[holder as usize - 1] = gap.trailing_zeros() as u8;
    }
    Ok(())
}
