//! The field decoder in bit slices: 64 elements of the field of 2^D elements at once, one in each lane. Lane i is the element whose word
//! j is bit i of word j. No polynomial is formed; only its values at the shares' points are kept.

use crate::ring::middle;
use std::array::from_fn;

pub type Slice<const D: usize> = [u64; D];

/// One in every lane.
fn one<const D: usize>() -> Slice<D> {
    from_fn(|j| if j == 0 { !0 } else { 0 })
}

fn plus<const D: usize>(a: Slice<D>, b: Slice<D>) -> Slice<D> {
    from_fn(|j| a[j] ^ b[j])
}

/// Lane i in every lane.
fn spread<const D: usize>(a: Slice<D>, i: usize) -> Slice<D> {
    a.map(|w| 0u64.wrapping_sub(w >> i & 1))
}

/// The lanes that are not zero.
fn support<const D: usize>(a: Slice<D>) -> u64 {
    a.iter().fold(0, |set, w| set | w)
}

fn lane_is_zero<const D: usize>(a: Slice<D>, i: usize) -> bool {
    support(a) >> i & 1 == 0
}

/// X times a in every lane.
fn shift<const D: usize>(a: Slice<D>) -> Slice<D> {
    let top = a[D - 1];
    from_fn(|j| {
        let below = if j == 0 { 0 } else { a[j - 1] };
        below ^ if j == 0 || j == middle(D) { top } else { 0 }
    })
}

/// The product lane by lane, by Horner's rule over the words of a.
fn times<const D: usize>(a: Slice<D>, b: Slice<D>) -> Slice<D> {
    let mut r = b.map(|w| a[D - 1] & w);
    for c in a[..D - 1].iter().rev() {
        r = plus(shift(r), b.map(|w| c & w));
    }
    r
}

/// c a + e b
fn combine<const D: usize>(c: Slice<D>, a: Slice<D>, e: Slice<D>, b: Slice<D>) -> Slice<D> {
    plus(times(c, a), times(e, b))
}

/// What a pair of polynomials (a, b) of the key equation leaves: a + b y and b at each share's point, and the pair's degree.
struct Pair<const D: usize> {
    gap: Slice<D>,
    locator: Slice<D>,
    degree: usize,
}

/// One share more: the pivot gets a root at its point, and the other pair is combined with it so that its gap vanishes.
fn step<const D: usize>(i: usize, pivot: &mut Pair<D>, other: &mut Pair<D>, root: Slice<D>) {
    let (c, e) = (spread(pivot.gap, i), spread(other.gap, i));
    other.gap = combine(c, other.gap, e, pivot.gap);
    other.locator = combine(c, other.locator, e, pivot.locator);
    pivot.gap = times(root, pivot.gap);
    pivot.locator = times(root, pivot.locator);
    pivot.degree += 1;
}

/// The lanes at which the error locator is not zero. If there is a codeword, the shares there are right.
fn trusted<const D: usize>(t: usize, m: usize, points: Slice<D>, values: Slice<D>) -> u64 {
    let mut first = Pair { gap: one(), locator: [0; D], degree: 0 };
    let mut second = Pair { gap: values, locator: one(), degree: t };
    for i in (0..m).rev() {
        let (zero, one) = (lane_is_zero(first.gap, i), lane_is_zero(second.gap, i));
        if zero && one {
            continue;
        }
        let root = plus(points, spread(points, i));
        if !zero && (one || first.degree <= second.degree) {
            step(i, &mut first, &mut second, root);
        } else {
            step(i, &mut second, &mut first, root);
        }
    }
    support(second.locator)
}

/// The lanes below m whose values differ from the polynomial of degree at most t that differs from the fewest, if it can be found.
pub fn differing<const D: usize>(t: usize, m: usize, points: Slice<D>, values: Slice<D>) -> Option<u64> {
    let lanes = !(!0 << m);
    let mut trusted = trusted(t, m, points, values) & lanes;
    if trusted.count_ones() as usize <= t {
        return None;
    }
    // Newton's interpolation through t + 1 of them without division: gap is a multiple of what the polynomial leaves.
    let (mut gap, mut nodal) = (values, one());
    for _ in 0..=t {
        let i = trusted.trailing_zeros() as usize;
        trusted &= trusted - 1;
        gap = combine(spread(nodal, i), gap, spread(gap, i), nodal);
        nodal = times(plus(points, spread(points, i)), nodal);
    }
    Some(support(gap) & lanes)
}
