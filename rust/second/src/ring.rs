//! The ring: d words of k bits, polynomials in X modulo one modulus for each d.

/// The words of an element; those from d on are zero.
pub type Element = [u64; 6];

pub const ZERO: Element = [0; 6];

/// The exponents of X below d in the modulus of d. Each modulus is X^d and these, all with coefficient 1.
pub fn lower_exponents(d: usize) -> [usize; 2] {
    if d == 5 {
        [0, 2]
    } else {
        [0, 1]
    }
}

#[derive(Clone, Copy, Debug)]
pub struct Ring {
    pub k: u32,
    pub d: usize,
}

impl Ring {
    pub fn new(k: u32, d: usize) -> Ring {
        Ring { k, d }
    }

    fn mask(&self) -> u64 {
        u64::MAX >> (64 - self.k)
    }

    pub fn in_width(&self, words: &[u64]) -> bool {
        words.iter().all(|w| *w <= self.mask())
    }

    /// The element whose words these are.
    pub fn element(&self, words: &[u64]) -> Element {
        let mut a = ZERO;
        a[..self.d].copy_from_slice(words);
        a
    }

    pub fn add(&self, a: &Element, b: &Element) -> Element {
        std::array::from_fn(|j| a[j].wrapping_add(b[j]) & self.mask())
    }

    pub fn sub(&self, a: &Element, b: &Element) -> Element {
        std::array::from_fn(|j| a[j].wrapping_sub(b[j]) & self.mask())
    }

    /// The product of the polynomials, then X^d replaced from the highest power down.
    pub fn mul(&self, a: &Element, b: &Element) -> Element {
        let d = self.d;
        let mut product = [0u64; 11];
        for i in 0..d {
            for j in 0..d {
                product[i + j] = product[i + j].wrapping_add(a[i].wrapping_mul(b[j]));
            }
        }
        for i in (d..2 * d - 1).rev() {
            for low in lower_exponents(d) {
                product[i - d + low] = product[i - d + low].wrapping_sub(product[i]);
            }
        }
        std::array::from_fn(|j| if j < d { product[j] & self.mask() } else { 0 })
    }

    /// Zero where a is zero modulo 2. Otherwise x with a x = 1, which is a linear system in the words of x. The matrix is
    /// invertible modulo 2, so Gauss elimination finds an odd pivot in each column.
    pub fn inverse(&self, a: &Element) -> Element {
        if a.iter().all(|w| w % 2 == 0) {
            return ZERO;
        }
        let d = self.d;
        let mut rows = [[0u64; 7]; 6];
        rows[0][d] = 1;
        for column in 0..d {
            let mut power = ZERO;
            power[column] = 1;
            let image = self.mul(a, &power);
            (0..d).for_each(|row| rows[row][column] = image[row]);
        }
        for column in 0..d {
            let pivot = (column..d).find(|row| rows[*row][column] % 2 == 1).expect("a unit modulo 2");
            rows.swap(column, pivot);
            let scale = word_inverse(rows[column][column]);
            let pivot_row = rows[column].map(|w| w.wrapping_mul(scale));
            for (row, words) in rows.iter_mut().enumerate().take(d) {
                let factor = words[column];
                for (w, p) in words.iter_mut().zip(pivot_row) {
                    *w = w.wrapping_sub(factor.wrapping_mul(p));
                }
                if row == column {
                    *words = pivot_row;
                }
            }
        }
        std::array::from_fn(|j| if j < d { rows[j][d] & self.mask() } else { 0 })
    }

    /// Holder i's point: word j is bit j of i.
    pub fn point(&self, i: usize) -> Element {
        std::array::from_fn(|j| (i as u64 >> j) & 1)
    }

    /// The value at x of the polynomial with these coefficients, free term first.
    pub fn value(&self, coefficients: &[Element], x: &Element) -> Element {
        coefficients.iter().rev().fold(ZERO, |sum, c| self.add(&self.mul(&sum, x), c))
    }
}

/// The inverse of an odd word modulo 2^64; each round doubles the bits that are right.
fn word_inverse(a: u64) -> u64 {
    (0..6).fold(1u64, |x, _| x.wrapping_mul(2u64.wrapping_sub(a.wrapping_mul(x))))
}

#[cfg(test)]
mod tests {
    use super::*;

    #[test]
    fn every_unit_of_small_rings_has_its_inverse() {
        for (k, d) in [(1, 2), (1, 6), (2, 3), (3, 2), (3, 4), (2, 5)] {
            let ring = Ring::new(k, d);
            let mut one = ZERO;
            one[0] = 1;
            for number in 0..1u64 << (k as usize * d) {
                let a: Element = std::array::from_fn(|j| if j < d { number >> (k as usize * j) & ring.mask() } else { 0 });
                let x = ring.inverse(&a);
                if a.iter().any(|w| w % 2 == 1) {
                    assert_eq!(ring.mul(&a, &x), one);
                } else {
                    assert_eq!(x, ZERO);
                }
            }
        }
    }

    #[test]
    fn word_inverse_of_odd_words() {
        for a in [1, 3, 5, u64::MAX, 0x1234_5678_9abc_def1] {
            assert_eq!(a.wrapping_mul(word_inverse(a)), 1);
        }
    }
}
