//! The Galois ring, with d known to the compiler. Words are computed modulo 2^64 and cut to k bits at the end only, which is right since
//! nothing above bit k ever comes down.

use std::array::from_fn;

pub type Element<const D: usize> = [u64; D];

/// The modulus is X^D + X^m + 1 with this m.
pub const fn middle(d: usize) -> usize {
    if d == 5 {
        2
    } else {
        1
    }
}

/// The bits of a word.
pub fn mask(k: u64) -> u64 {
    !0 >> (64 - k)
}

/// The element of an integer.
pub fn integer<const D: usize>(w: u64) -> Element<D> {
    from_fn(|j| if j == 0 { w } else { 0 })
}

pub fn add<const D: usize>(a: Element<D>, b: Element<D>) -> Element<D> {
    from_fn(|j| a[j].wrapping_add(b[j]))
}

pub fn sub<const D: usize>(a: Element<D>, b: Element<D>) -> Element<D> {
    from_fn(|j| a[j].wrapping_sub(b[j]))
}

/// X times a.
fn shift<const D: usize>(a: Element<D>) -> Element<D> {
    let top = a[D - 1];
    from_fn(|j| {
        let below = if j == 0 { 0 } else { a[j - 1] };
        below.wrapping_sub(if j == 0 || j == middle(D) { top } else { 0 })
    })
}

/// Horner's rule over the words of a.
pub fn mul<const D: usize>(a: Element<D>, b: Element<D>) -> Element<D> {
    let mut r = b.map(|w| a[D - 1].wrapping_mul(w));
    for c in a[..D - 1].iter().rev() {
        r = add(shift(r), b.map(|w| c.wrapping_mul(w)));
    }
    r
}

/// The point of holder x times a: the sum of those X^j a for which x has bit j, the first by a product with the bit.
pub fn mul_by_point<const D: usize>(a: Element<D>, x: u64) -> Element<D> {
    let mut r = a.map(|w| w.wrapping_mul(x & 1));
    let mut power = a;
    for j in 1..D {
        power = shift(power);
        if x >> j & 1 == 1 {
            r = add(r, power);
        }
    }
    r
}

/// The value at holder x's point.
pub fn eval<const D: usize>(p: &[Element<D>], x: u64) -> Element<D> {
    let Some((last, rest)) = p.split_last() else {
        return [0; D];
    };
    rest.iter().rev().fold(*last, |sum, c| add(mul_by_point(sum, x), *c))
}

/// The lowest k bits at least of the inverse of a unit: a^(2^D - 2) is one modulo 2, and each step of Newton's doubles the bits.
pub fn inverse<const D: usize>(k: u64, a: Element<D>) -> Element<D> {
    let mut y = mul(a, a);
    for _ in 2..D {
        let z = mul(y, a);
        y = mul(z, z);
    }
    let mut bits = 1;
    while bits < k {
        y = mul(y, sub(integer(2), mul(a, y)));
        bits *= 2;
    }
    y
}
