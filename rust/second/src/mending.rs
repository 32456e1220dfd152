//! Paper 02, K2: a bundle with every wrong share replaced by its polynomial's value, and what the program `mend` prints.

use crate::files::{read_bundle, Bundle, File};
use crate::ring::Element;
use crate::sharing::corrections;
use crate::{demand, Refusal};

/// The most bytes that a program reads.
pub(crate) const INPUT: usize = 65_536;

impl Bundle {
    pub(crate) fn places(&self) -> std::ops::Range<usize> {
        0..self.files[0].jobs.len()
    }

    /// The files whose shares of the job at a place are wrong, each with the value that belongs there.
    fn corrections(&self, place: usize) -> Result<Vec<(&File, Element)>, Refusal> {
        let named = corrections(self.params(), &self.shares(place), self.open(place)?.wrong);
        named.into_iter().map(|(s, value)| Ok((self.file(s.holder)?, value))).collect()
    }

    /// The lines of the program `mend`: the changed places by job and then by holder, and the jobs that keep their bytes.
    pub fn changes(&self) -> String {
        let lines = |place: usize| {
            let number = self.files[0].jobs[place].number;
            match self.open(place) {
                Ok(opened) => {
                    (1..=64).filter(|i| opened.wrong >> (i - 1) & 1 == 1).map(|i| format!("{number} holder {i}\n")).collect::<String>()
                }
                Err(refusal) => format!("{number} refused {}\n", refusal as u8),
            }
        };
        self.places().map(lines).collect()
    }
}

/// The bundle with the words of every wrong share replaced, into an output of its length. A job that declines keeps its bytes.
pub fn mend(bytes: &[u8], out: &mut [u8]) -> Result<(), Refusal> {
    let bundle = read_bundle(bytes)?;
    demand(out.len() == bytes.len(), Refusal::Length)?;
    out.copy_from_slice(bytes);
    for place in bundle.places() {
        for (file, value) in bundle.corrections(place).unwrap_or_default() {
            // a body is the job number and then the words
            let words = &mut out[file.jobs[place].body.clone()][8..];
            words.chunks_mut(8).zip(value).for_each(|(word, w)| word.copy_from_slice(&w.to_le_bytes()));
        }
    }
    Ok(())
}

/// All that the program `mend` prints for an input.
pub fn report(input: &[u8]) -> String {
    let accepted = demand(input.len() <= INPUT, Refusal::Length).and_then(|()| read_bundle(input));
    accepted.map_or_else(|refusal| format!("refused {}\n", refusal as u8), |bundle| bundle.changes())
}

#[cfg(test)]
mod tests {
    use super::*;
    use crate::{deal, share, write_bundle, write_file, write_order, Params, Share};

    /// A bundle of all holders' files of three jobs, each with other coefficients.
    fn written(p: Params, e: u8) -> Vec<u8> {
        let mut state = 1u64;
        let mut draw = || {
            state = state.wrapping_mul(6364136223846793005).wrapping_add(1442695040888963407);
            state >> (64 - p.k)
        };
        let mut words = vec![vec![]; p.n];
        for _ in 0..3 {
            let (job, coefficients): (Vec<u64>, Vec<u64>) = ((0..p.d).map(|_| draw()).collect(), (0..p.d * p.t).map(|_| draw()).collect());
            let mut shares = vec![0; p.n * p.d];
            deal(p, &job, &coefficients, &mut shares).unwrap();
            words.iter_mut().zip(shares.chunks(p.d)).for_each(|(all, share)| all.extend(share));
        }
        let mut files = vec![];
        for (i, words) in words.iter().enumerate() {
            let mut file = vec![0; 23 + 3 * (14 + 8 * p.d)];
            write_file(p, i + 1, 5, &[10, 20, u64::MAX], words, &mut file).unwrap();
            files.extend(file);
        }
        let mut bundle = vec![0; 7 + files.len()];
        write_bundle(e, &files, &mut bundle).unwrap();
        bundle
    }

    fn mended(bytes: &[u8]) -> Vec<u8> {
        let mut out = vec![0xa5; bytes.len()];
        mend(bytes, &mut out).unwrap();
        out
    }

    /// As many shares of the last job changed as the allowance has room for, in all bits, the highest of 64 or the lowest: the mended bundle is the
    /// one that was written. With another allowance the job keeps its bytes.
    #[test]
    fn mended_is_what_was_written() {
        for (k, d, n, t) in [(3, 2, 3, 0), (64, 3, 7, 2), (1, 4, 15, 4), (16, 4, 12, 11), (63, 5, 31, 10), (64, 6, 63, 20)] {
            let p = Params { k, d, n, t };
            let e = (n - t - 1) / 2;
            let bundle = written(p, e as u8);
            let (mut changed, mut lines) = (bundle.clone(), String::new());
            let size = (bundle.len() - 7) / n;
            for i in 0..e {
                let share = 7 + (2 * i + 1) * size - 8 * d..7 + (2 * i + 1) * size;
                match i % 3 {
                    0 => changed[share].iter_mut().for_each(|b| *b = !*b),
                    1 => changed[share.end - 1] ^= 128,
                    _ => changed[share.start] ^= 1,
                }
                lines += &format!("{} holder {}\n", u64::MAX, 2 * i + 1);
            }
            assert_eq!(report(&changed), lines);
            assert_eq!(mended(&changed), bundle);
            assert_eq!((mended(&bundle), report(&bundle).as_str()), (bundle.clone(), ""));
            // an allowance of one less
            if e > 0 {
                changed[6] -= 1;
                assert_eq!(report(&changed), format!("{} refused 6\n", u64::MAX));
                assert_eq!(mended(&changed), changed);
            }
            // an allowance for which the files are too few
            changed[6] = e as u8 + 1;
            assert_eq!(report(&changed), format!("10 refused 5\n20 refused 5\n{} refused 5\n", u64::MAX));
            assert_eq!(mended(&changed), changed);
        }
    }

    /// On all shares of two bits a word, in width for k 2 and wide for some with k 1: a mended share is the value of the polynomial that differs from
    /// one share or none, which with t 0 is the element that two of three have.
    #[test]
    fn two_of_three_set_the_third_right() {
        for (number, k) in (0..1u64 << 12).flat_map(|number| [(number, 1), (number, 2)]) {
            let p = Params { k, d: 2, n: 3, t: 0 };
            let shares: Vec<Share> = (0..3).map(|i| share(i + 1, &[number >> (4 * i) & 3, number >> (4 * i + 2) & 3])).collect();
            let agreed = (0..3)
                .map(|i| shares[i].words)
                .find(|words| p.ring().in_width(words) && shares.iter().filter(|s| s.words == *words).count() >= 2);
            let mut bundle = vec![0; 7];
            write_order(1, &mut bundle).unwrap();
            for s in &shares {
                let mut file = vec![0; 53];
                write_file(p, s.holder, 5, &[10], &[0, 0], &mut file).unwrap();
                file[37..].chunks_mut(8).zip(s.words).for_each(|(word, w)| word.copy_from_slice(&w.to_le_bytes()));
                bundle.extend(file);
            }
            let right = read_bundle(&mended(&bundle)).unwrap();
            for (file, s) in right.files.iter().zip(&shares) {
                assert_eq!(share(s.holder, &file.jobs[0].words).words, agreed.unwrap_or(s.words));
            }
        }
    }
}
