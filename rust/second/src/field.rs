//! The field of 2^d elements, an element as the bits of one byte, and Gao's decoder over it (document 000, section 7.1.2.2).

use crate::ring::lower_exponents;

/// A polynomial: its coefficients, free term first, the last one not zero.
type Poly = Vec<u8>;

pub struct Field {
    exp: [u8; 126],
    log: [usize; 64],
    order: usize,
}

impl Field {
    /// X generates the field's units for each of the five moduli.
    pub fn new(d: usize) -> Field {
        let order = (1 << d) - 1;
        let low = lower_exponents(d).iter().fold(0, |bits, j| bits | 1 << j);
        let (mut exp, mut log) = ([0u8; 126], [0; 64]);
        let mut power = 1usize;
        for i in 0..order {
            exp[i] = power as u8;
            exp[i + order] = power as u8;
            log[power] = i;
            power <<= 1;
            if power > order {
                power = (power & order) ^ low;
            }
        }
        Field { exp, log, order }
    }

    pub fn mul(&self, a: u8, b: u8) -> u8 {
        if a == 0 || b == 0 {
            0
        } else {
            self.exp[self.log[a as usize] + self.log[b as usize]]
        }
    }

    fn inverse(&self, a: u8) -> u8 {
        self.exp[self.order - self.log[a as usize]]
    }

    pub fn value(&self, p: &[u8], x: u8) -> u8 {
        p.iter().rev().fold(0, |sum, c| self.mul(sum, x) ^ c)
    }

    /// p + c X^shift q
    fn add_multiple(&self, p: &mut Poly, c: u8, shift: usize, q: &[u8]) {
        if p.len() < q.len() + shift {
            p.resize(q.len() + shift, 0);
        }
        for (a, b) in p[shift..].iter_mut().zip(q) {
            *a ^= self.mul(c, *b);
        }
        while p.last() == Some(&0) {
            p.pop();
        }
    }

    /// Quotient and remainder of p by q, which is not zero.
    fn divide(&self, mut p: Poly, q: &[u8]) -> (Poly, Poly) {
        let mut quotient = vec![0; (p.len() + 1).saturating_sub(q.len())];
        let lead = self.inverse(q[q.len() - 1]);
        while p.len() >= q.len() {
            let shift = p.len() - q.len();
            let c = self.mul(p[p.len() - 1], lead);
            quotient[shift] = c;
            self.add_multiple(&mut p, c, shift, q);
        }
        (quotient, p)
    }

    /// The product of X - x over the points, and the polynomial below it through the points.
    fn interpolate(&self, xs: &[u8], ys: &[u8]) -> (Poly, Poly) {
        let (mut nodal, mut through) = (vec![1], vec![]);
        for (x, y) in xs.iter().zip(ys) {
            let gap = y ^ self.value(&through, *x);
            let c = self.mul(gap, self.inverse(self.value(&nodal, *x)));
            self.add_multiple(&mut through, c, 0, &nodal);
            let mut next = vec![];
            self.add_multiple(&mut next, 1, 1, &nodal);
            self.add_multiple(&mut next, *x, 0, &nodal);
            nodal = next;
        }
        (nodal, through)
    }

    /// Gao: the polynomial of degree at most t that differs from at most (m - t - 1) / 2 of the m values, if there is one. The
    /// extended Euclid of the nodal and the interpolating polynomial stops at the first remainder of degree below (m + t + 1) / 2;
    /// this remainder is the polynomial sought times the cofactor.
    pub fn gao(&self, t: usize, xs: &[u8], ys: &[u8]) -> Option<Poly> {
        let (mut r0, mut r1) = self.interpolate(xs, ys);
        let (mut v0, mut v1) = (vec![], vec![1]);
        while !r1.is_empty() && 2 * (r1.len() - 1) > xs.len() + t {
            let (quotient, remainder) = self.divide(r0, &r1);
            (r0, r1) = (r1, remainder);
            let mut next = v0;
            for (shift, c) in quotient.iter().enumerate() {
                self.add_multiple(&mut next, *c, shift, &v1);
            }
            (v0, v1) = (v1, next);
        }
        let (mut f, rest) = self.divide(r1, &v1);
        while f.last() == Some(&0) {
            f.pop();
        }
        (rest.is_empty() && f.len() <= t + 1).then_some(f)
    }
}

#[cfg(test)]
mod tests {
    use super::*;

    #[test]
    fn gao_corrects_half_of_the_excess() {
        let field = Field::new(4);
        let xs: Vec<u8> = (1..16).collect();
        let sent = vec![3, 0, 9, 1];
        let mut ys: Vec<u8> = xs.iter().map(|x| field.value(&sent, *x)).collect();
        for (i, change) in [(0, 5), (3, 1), (7, 15), (8, 2), (14, 9)] {
            ys[i] ^= change;
            assert_eq!(field.gao(3, &xs, &ys), Some(sent.clone()));
        }
        ys[5] ^= 4;
        assert_ne!(field.gao(3, &xs, &ys), Some(sent));
    }

    #[test]
    fn products_are_those_of_the_ring_of_one_bit() {
        for d in 2..=6 {
            let (field, ring) = (Field::new(d), crate::Ring::new(1, d));
            for a in 0..1usize << d {
                for b in 0..1usize << d {
                    assert_eq!(ring.point(field.mul(a as u8, b as u8).into()), ring.mul(&ring.point(a), &ring.point(b)));
                }
            }
        }
    }
}
