//! Calls on lent words: dealing, opening, adding, multiplying, the inverse. The order of refusals is 1, 2, 4, 3, 5, 6; opening has no 3.

use crate::decode::{decode, lagrange, Opened, HOLDERS};
use crate::ring::Element;
use crate::{demand, Params, Refusal};

#[derive(Clone, Copy, Debug, PartialEq, Eq)]
pub struct Share {
    pub holder: usize,
    pub words: Element,
}

impl Share {
    /// The holder's place in a set of wrong holders.
    pub fn bit(&self) -> u64 {
        1 << (self.holder - 1)
    }
}

pub fn share(holder: usize, words: &[u64]) -> Share {
    Share { holder, words: std::array::from_fn(|j| words.get(j).copied().unwrap_or(0)) }
}

/// The shares of holders 1 to n, of the polynomial with the job as its free term and the lent t coefficients above it.
pub fn deal(p: Params, job: &[u64], coefficients: &[u64], out: &mut [u64]) -> Result<(), Refusal> {
    p.check()?;
    demand(job.len() == p.d && coefficients.len() == p.t * p.d && out.len() == p.n * p.d, Refusal::Length)?;
    let ring = p.ring();
    demand(ring.in_width(job) && ring.in_width(coefficients), Refusal::WideWord)?;
    let polynomial: Vec<Element> = std::iter::once(job).chain(coefficients.chunks(p.d)).map(|words| ring.element(words)).collect();
    for (i, words) in out.chunks_mut(p.d).enumerate() {
        words.copy_from_slice(&ring.value(&polynomial, &ring.point(i + 1))[..p.d]);
    }
    Ok(())
}

pub fn open(
    p: Params,
    holders: &[u64],
    words: &[u64],
    e: u64,
    out: &mut [u64],
    wrong: &mut [u64],
    lowest: &mut [u8],
) -> Result<(), Refusal> {
    p.check()?;
    demand(holders.len().checked_mul(p.d) == Some(words.len()), Refusal::Length)?;
    opening_lengths(p, out, wrong, lowest)?;
    let in_range = holders.iter().all(|h| (1..=p.n as u64).contains(h));
    demand(in_range && holders.windows(2).all(|pair| pair[0] < pair[1]), Refusal::Holder)?;
    let shares: Vec<Share> = holders.iter().zip(words.chunks(p.d)).map(|(h, ws)| share(*h as usize, ws)).collect();
    open_shares(p, e, &shares)?.put(out, wrong, lowest);
    Ok(())
}

/// The lengths of what an opening fills.
pub(crate) fn opening_lengths(p: Params, out: &[u64], wrong: &[u64], lowest: &[u8]) -> Result<(), Refusal> {
    demand([out.len(), wrong.len(), lowest.len()] == [p.d, 1, HOLDERS], Refusal::Length)
}

impl Opened {
    /// Fills outputs of the right lengths.
    pub(crate) fn put(&self, out: &mut [u64], wrong: &mut [u64], lowest: &mut [u8]) {
        out.copy_from_slice(&self.words[..out.len()]);
        wrong[0] = self.wrong;
        lowest.copy_from_slice(&self.lowest);
    }
}

/// The refusals 5, 6 and the answer, of shares with any words.
pub(crate) fn open_shares(p: Params, e: u64, shares: &[Share]) -> Result<Opened, Refusal> {
    let needed = p.t as u128 + 1 + 2 * u128::from(e);
    demand(shares.len() as u128 >= needed, Refusal::TooFewShares)?;
    decode(&p.ring(), p.t, e as usize, shares).ok_or(Refusal::NoCodeword)
}

/// The wrong shares of an opening, each with the value that belongs there. At least t + 1 shares are right, and there is one polynomial through
/// them, so that any t + 1 of them tell it: here the last ones.
pub fn corrections(p: Params, shares: &[Share], wrong: u64) -> Vec<(Share, Element)> {
    let ring = p.ring();
    let right: Vec<Share> = shares.iter().rev().filter(|s| wrong & s.bit() == 0).take(p.t + 1).copied().collect();
    let polynomial = lagrange(&ring, &right);
    let named = shares.iter().filter(|s| wrong & s.bit() != 0);
    named.map(|s| (*s, ring.value(&polynomial, &ring.point(s.holder)))).collect()
}

pub fn add(p: Params, a: &[u64], b: &[u64], out: &mut [u64]) -> Result<(), Refusal> {
    binary(p, a, b, out, |a, b| p.ring().add(a, b))
}

pub fn scale(p: Params, a: &[u64], b: &[u64], out: &mut [u64]) -> Result<(), Refusal> {
    binary(p, a, b, out, |a, b| p.ring().mul(a, b))
}

pub fn invert(p: Params, a: &[u64], out: &mut [u64]) -> Result<(), Refusal> {
    binary(p, a, a, out, |a, _| p.ring().inverse(a))
}

fn binary(p: Params, a: &[u64], b: &[u64], out: &mut [u64], f: impl Fn(&Element, &Element) -> Element) -> Result<(), Refusal> {
    p.check()?;
    demand([a.len(), b.len(), out.len()] == [p.d; 3], Refusal::Length)?;
    let ring = p.ring();
    demand(ring.in_width(a) && ring.in_width(b), Refusal::WideWord)?;
    out.copy_from_slice(&f(&ring.element(a), &ring.element(b))[..p.d]);
    Ok(())
}
