//! The decoder. It interpolates over the ring through the first t + 1 shares and compares the others. If too many differ, one field
//! decoding at the lowest bit at which any differs names shares that every codeword differs from; they are dropped, and it goes on. Shares
//! with a wide word differ from every polynomial, and are dropped first.

use crate::field::{differing, Slice};
use crate::in_width;
use crate::ring::{add, eval, integer, inverse, mask, mul, mul_by_point, sub, Element};

/// The shares still in, and after them those that were dropped: there are fewer than N = 2^D.
pub struct Shares<const D: usize, const N: usize> {
    count: usize,
    holders: [u64; N],
    words: [Element<D>; N],
}

impl<const D: usize, const N: usize> Shares<D, N> {
    pub fn new() -> Shares<D, N> {
        Shares { count: 0, holders: [0; N], words: [[0; D]; N] }
    }

    pub fn len(&self) -> usize {
        self.count
    }

    pub fn push(&mut self, holder: u64, words: Element<D>) {
        self.holders[self.count] = holder;
        self.words[self.count] = words;
        self.count += 1;
    }

    fn iter(&self) -> impl Iterator<Item = (u64, Element<D>)> + '_ {
        self.holders.iter().copied().zip(self.words.iter().copied()).take(self.count)
    }

    /// The shares that were dropped of so many.
    pub fn dropped(&self, m: usize) -> impl Iterator<Item = (u64, Element<D>)> + '_ {
        self.holders[self.count..m].iter().copied().zip(self.words[self.count..m].iter().copied())
    }

    /// Drops the shares of these lanes, and gives the set of their holders.
    fn drop_lanes(&mut self, lanes: u64) -> u64 {
        let (mut set, mut kept) = (0, 0);
        for i in 0..self.count {
            if lanes >> i & 1 == 1 {
                set |= 1 << (self.holders[i] - 1);
            } else {
                if kept < i {
                    self.holders.swap(kept, i);
                    self.words.swap(kept, i);
                }
                kept += 1;
            }
        }
        self.count = kept;
        set
    }

    /// The lanes of the shares that have a wide word.
    fn wide_lanes(&self, k: u64) -> u64 {
        self.iter().enumerate().fold(0, |lanes, (i, (_, words))| lanes | u64::from(!in_width(k, &words)) << i)
    }

    /// Lane i is the point of share i's holder.
    fn points(&self) -> Slice<D> {
        let mut points = [0; D];
        for (i, (holder, _)) in self.iter().enumerate() {
            for (j, word) in points.iter_mut().enumerate() {
                *word |= (holder >> j & 1) << i;
            }
        }
        points
    }
}

/// What a polynomial leaves of each share, the lanes at which that is not zero, and all its words together.
struct Left<const D: usize, const N: usize> {
    words: [Element<D>; N],
    lanes: u64,
    bits: u64,
}

/// Newton's interpolation through as many of the first shares as there are rows.
fn interpolate<const D: usize, const N: usize>(k: u64, shares: &Shares<D, N>, q: &mut [Element<D>]) {
    let mut nodal = [[0; D]; N];
    nodal[0] = integer(1);
    q.fill([0; D]);
    for (len, (x, y)) in shares.iter().take(q.len()).enumerate() {
        let gap = sub(y, eval(&q[..len], x));
        let c = mul(gap, inverse(k, eval(&nodal[..=len], x)));
        for (a, b) in q[..=len].iter_mut().zip(&nodal) {
            *a = add(*a, mul(c, *b));
        }
        let mut below = [0; D];
        for a in &mut nodal[..=len + 1] {
            let times = mul_by_point(*a, x);
            (below, *a) = (*a, sub(below, times));
        }
    }
}

/// The polynomial goes through the first t + 1 shares, so nothing is left of them.
fn compare<const D: usize, const N: usize>(k: u64, t: usize, p: &[Element<D>], shares: &Shares<D, N>) -> Left<D, N> {
    let mut left = Left { words: [[0; D]; N], lanes: 0, bits: 0 };
    for (i, (x, y)) in shares.iter().enumerate().skip(t + 1) {
        let words = sub(y, eval(p, x)).map(|w| w & mask(k));
        let bits = words.iter().fold(0, |bits, w| bits | w);
        left.words[i] = words;
        left.lanes |= u64::from(bits != 0) << i;
        left.bits |= bits;
    }
    left
}

/// Lane i is bit v of the words of row i.
fn slice<const D: usize>(rows: &[Element<D>], v: u32) -> Slice<D> {
    let mut slice = [0; D];
    for (i, row) in rows.iter().enumerate() {
        for (word, w) in slice.iter_mut().zip(row) {
            *word |= (w >> v & 1) << i;
        }
    }
    slice
}

/// The set of wrong holders, whose shares are dropped; the coefficients of the codeword, not cut to k bits, are the first t + 1 rows of `q`.
/// There are at least t + 1 + 2 e shares, and `narrow` tells that no word of them is wide, which saves looking.
pub fn decode<const D: usize, const N: usize>(
    k: u64,
    t: usize,
    shares: &mut Shares<D, N>,
    narrow: bool,
    e: u32,
    q: &mut [Element<D>; N],
) -> Option<u64> {
    let (mut bound, mut wrong) = (e, 0);
    if !narrow {
        let lanes = shares.wide_lanes(k);
        bound = bound.checked_sub(lanes.count_ones())?;
        wrong = shares.drop_lanes(lanes);
    }
    loop {
        interpolate(k, shares, &mut q[..=t]);
        let left = compare(k, t, &q[..=t], shares);
        if left.lanes.count_ones() <= bound {
            return Some(wrong | shares.drop_lanes(left.lanes));
        }
        let values = slice(&left.words[..shares.len()], left.bits.trailing_zeros());
        let lanes = differing(t, shares.len(), shares.points(), values)?;
        bound = bound.checked_sub(lanes.count_ones())?;
        wrong |= shares.drop_lanes(lanes);
    }
}
