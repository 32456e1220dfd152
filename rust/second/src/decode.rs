//! The polynomial of degree at most t that differs from e shares or fewer, by two methods: every set of t + 1 shares, and level by
//! level through the bits (document 000, section 7.1.2.3).

use crate::field::Field;
use crate::ring::{Element, Ring, ZERO};
use crate::sharing::Share;

/// The entries for holders, more than any book has.
pub const HOLDERS: usize = 64;

/// The entry of a holder whose share does not differ, or who has none.
pub const NOT_WRONG: u8 = 255;

/// The free term, the holders whose shares differ, and for each of these the lowest bit that does.
#[derive(Clone, Copy, Debug, PartialEq, Eq)]
pub struct Opened {
    pub words: Element,
    pub wrong: u64,
    pub lowest: [u8; HOLDERS],
}

/// At least t + 1 + 2 e shares of different holders, with any words. Those of a share are compared with a value's as they stand, so that
/// a share with a wide word differs from every polynomial.
pub fn decode(ring: &Ring, t: usize, e: usize, shares: &[Share]) -> Option<Opened> {
    if few_subsets(shares.len(), t + 1) {
        by_subsets(ring, t, e, shares)
    } else {
        by_levels(ring, t, e, shares)
    }
}

/// Whether trying all sets of this size is cheap.
fn few_subsets(m: usize, size: usize) -> bool {
    let mut sets = 1usize;
    for i in 0..size.min(m - size) {
        sets = sets * (m - i) / (i + 1);
        if sets * size > 200 {
            return false;
        }
    }
    true
}

/// Paper 02, K4: the lowest bit at which any word of a share differs from the value's, if one does. Words are compared at all 64 bits.
fn lowest_difference(words: &Element, value: &Element) -> Option<u8> {
    let bit = |w: u64, place: u8| w >> place & 1;
    (0..64).find(|place| words.iter().zip(value).any(|(a, b)| bit(*a, *place) != bit(*b, *place)))
}

/// What a polynomial opens to, if it differs from e shares or fewer.
fn within(ring: &Ring, p: &[Element], e: usize, shares: &[Share]) -> Option<Opened> {
    let mut opened = Opened { words: p[0], wrong: 0, lowest: [NOT_WRONG; HOLDERS] };
    for s in shares {
        let value = ring.value(p, &ring.point(s.holder));
        if s.words == value {
            continue;
        }
        opened.wrong |= s.bit();
        if opened.wrong.count_ones() as usize > e {
            return None;
        }
        opened.lowest[s.holder - 1] = lowest_difference(&s.words, &value).expect("words that are not equal differ at a bit");
    }
    Some(opened)
}

/// A polynomial that differs from e of t + 1 + 2 e shares goes through t + 1 of them, so it is met.
pub fn by_subsets(ring: &Ring, t: usize, e: usize, shares: &[Share]) -> Option<Opened> {
    let mut chosen: Vec<usize> = (0..=t).collect();
    loop {
        let through: Vec<Share> = chosen.iter().map(|i| shares[*i]).collect();
        let opened = within(ring, &lagrange(ring, &through), e, shares);
        if opened.is_some() {
            return opened;
        }
        if !next_subset(&mut chosen, shares.len()) {
            return None;
        }
    }
}

/// The next rising list of numbers below m, in the order of the alphabet.
fn next_subset(chosen: &mut [usize], m: usize) -> bool {
    let size = chosen.len();
    let Some(last) = (0..size).rev().find(|i| chosen[*i] < m - size + i) else {
        return false;
    };
    chosen[last] += 1;
    for i in last + 1..size {
        chosen[i] = chosen[i - 1] + 1;
    }
    true
}

/// The polynomial through the shares, modulo 2^k, by Lagrange's formula.
pub(crate) fn lagrange(ring: &Ring, shares: &[Share]) -> Vec<Element> {
    let mut nodal = vec![ZERO; shares.len() + 1];
    nodal[0][0] = 1;
    for share in shares {
        let x = ring.point(share.holder);
        for i in (0..nodal.len()).rev() {
            let below = if i == 0 { ZERO } else { nodal[i - 1] };
            nodal[i] = ring.sub(&below, &ring.mul(&x, &nodal[i]));
        }
    }
    let mut sum = vec![ZERO; shares.len()];
    for share in shares {
        let x = ring.point(share.holder);
        let basis = divide_by_root(ring, &nodal, &x);
        let weight = ring.mul(&share.words, &ring.inverse(&ring.value(&basis, &x)));
        for (s, b) in sum.iter_mut().zip(&basis) {
            *s = ring.add(s, &ring.mul(&weight, b));
        }
    }
    sum
}

/// p divided by Z - x, for a root x of p.
fn divide_by_root(ring: &Ring, p: &[Element], x: &Element) -> Vec<Element> {
    let mut quotient = vec![ZERO; p.len() - 1];
    let mut carry = ZERO;
    for i in (0..quotient.len()).rev() {
        carry = ring.add(&p[i + 1], &ring.mul(x, &carry));
        quotient[i] = carry;
    }
    quotient
}

/// At each level the field decoder treats the lowest bits of what remains; shares wrong there are dropped and the allowance falls. The
/// k levels leave the one polynomial that may differ from e shares or fewer, which is then compared with all of them.
pub fn by_levels(ring: &Ring, t: usize, e: usize, shares: &[Share]) -> Option<Opened> {
    let field = Field::new(ring.d);
    let (mut left, mut allowance) = (shares.to_vec(), e);
    let mut p = vec![ZERO; t + 1];
    for level in 0..ring.k {
        let xs: Vec<u8> = left.iter().map(|s| s.holder as u8).collect();
        let ys: Vec<u8> = left.iter().map(lowest_bits).collect();
        let f = field.gao(t, &xs, &ys)?;
        let right: Vec<bool> = xs.iter().zip(&ys).map(|(x, y)| field.value(&f, *x) == *y).collect();
        let dropped = left.iter().zip(&right).filter(|(_, right)| !**right).fold(0, |set, (s, _)| set | s.bit());
        allowance = allowance.checked_sub(dropped.count_ones() as usize)?;
        let lifted: Vec<Element> = f.iter().map(|c| ring.point((*c).into())).collect();
        for (c, bits) in p.iter_mut().zip(&lifted) {
            (0..ring.d).for_each(|j| c[j] |= bits[j] << level);
        }
        // What remains of a share is known to one bit fewer at each level; the bits above are never looked at.
        left.retain(|s| dropped & s.bit() == 0);
        for s in &mut left {
            let value = ring.value(&lifted, &ring.point(s.holder));
            s.words = ring.sub(&s.words, &value).map(|w| w >> 1);
        }
    }
    within(ring, &p, e, shares)
}

fn lowest_bits(share: &Share) -> u8 {
    share.words.iter().rev().fold(0, |bits, w| bits << 1 | (w & 1) as u8)
}

#[cfg(test)]
mod tests {
    use super::*;
    use crate::sharing::share;

    /// Refusal 6 read as it stands: the first of all polynomials of degree at most t that differs from e shares or fewer.
    fn by_definition(ring: &Ring, t: usize, e: usize, shares: &[Share]) -> Option<Opened> {
        let words = 0..1u64 << ring.k;
        let elements: Vec<Element> = words.clone().flat_map(|a| words.clone().map(move |b| share(1, &[a, b]).words)).collect();
        (0..elements.len().pow(t as u32 + 1)).find_map(|number| {
            let p: Vec<Element> = (0..=t).map(|i| elements[number / elements.len().pow(i as u32) % elements.len()]).collect();
            within(ring, &p, e, shares)
        })
    }

    /// Both methods and the definition on all shares of two bits a word, which are in width for k 2 and may be wide for k 1: d 2, three
    /// holders, every e that may be asked.
    #[test]
    fn the_methods_agree_with_the_definition() {
        for (number, k) in (0..1u64 << 12).flat_map(|number| [(number, 1), (number, 2)]) {
            let ring = Ring::new(k, 2);
            let shares: Vec<Share> = (0..3).map(|i| share(i + 1, &[number >> (4 * i) & 3, number >> (4 * i + 2) & 3])).collect();
            for (t, e) in [(0, 0), (0, 1), (1, 0), (2, 0)] {
                let opened = by_subsets(&ring, t, e, &shares);
                assert_eq!(opened, by_levels(&ring, t, e, &shares));
                assert!(t == 2 && k == 2 || opened == by_definition(&ring, t, e, &shares));
            }
        }
    }
}
