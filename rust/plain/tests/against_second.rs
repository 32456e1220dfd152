//! `plain` beside `second`, on dealt and damaged shares and on the bundles made of them.

use plain::Params;

/// xorshift64
struct Random(u64);

impl Random {
    fn word(&mut self) -> u64 {
        self.0 ^= self.0 << 13;
        self.0 ^= self.0 >> 7;
        self.0 ^= self.0 << 17;
        self.0
    }

    fn below(&mut self, bound: usize) -> usize {
        (self.word() >> 11) as usize % bound
    }

    fn words(&mut self, k: u64, count: usize) -> Vec<u64> {
        (0..count).map(|_| self.word() >> (64 - k)).collect()
    }

    fn params(&mut self) -> Params {
        let (k, d) = (1 + self.below(64) as u64, 2 + self.below(5));
        let n = 1 + self.below((1 << d) - 1);
        Params { k, d, n, t: self.below(n) }
    }

    /// Dealt shares, about w of them changed from a random bit on.
    fn shares(&mut self, p: Params, w: usize) -> Vec<u64> {
        let (job, coefficients) = (self.words(p.k, p.d), self.words(p.k, p.d * p.t));
        let (mut shares, mut same) = (vec![0; p.n * p.d], vec![0; p.n * p.d]);
        second::deal(p, &job, &coefficients, &mut shares).unwrap();
        plain::deal(p, &job, &coefficients, &mut same).unwrap();
        assert_eq!(shares, same);
        let from = self.below(p.k as usize);
        for _ in 0..w {
            let holder = self.below(p.n);
            let change = self.words(p.k, p.d);
            for (word, change) in shares[holder * p.d..].iter_mut().zip(change) {
                *word ^= change >> from << from;
            }
        }
        shares
    }

    /// A bit above the width, if there is one: 0 for k 64.
    fn high_bit(&mut self, k: u64) -> u64 {
        if k == 64 {
            0
        } else {
            1 << (k as usize + self.below(64 - k as usize))
        }
    }
}

#[test]
fn openings() {
    let mut random = Random(1);
    for _ in 0..2000 {
        let p = random.params();
        let e = (p.n - p.t - 1) / 2;
        let (w, wide) = (random.below(e + 2), random.below(2) * random.below(e + 2));
        let mut shares = random.shares(p, w);
        for _ in 0..wide {
            let at = random.below(p.n * p.d);
            shares[at] |= random.high_bit(p.k);
        }
        let holders: Vec<u64> = (1..=p.n as u64).collect();
        let (mut words, mut wrong, mut lowest) = ([vec![7; p.d], vec![7; p.d]], [[7], [7]], [[7; 64], [7; 64]]);
        let first = plain::open(p, &holders, &shares, e as u64, &mut words[0], &mut wrong[0], &mut lowest[0]);
        let other = second::open(p, &holders, &shares, e as u64, &mut words[1], &mut wrong[1], &mut lowest[1]);
        assert_eq!((first, &words[0], wrong[0], lowest[0]), (other, &words[1], wrong[1], lowest[1]), "{p:?} {shares:?}");
    }
}

/// A bundle of all holders' files with three jobs, some words of them wide, or with a random byte changed, or cut.
fn bundle(random: &mut Random) -> (Params, Vec<u8>) {
    let p = random.params();
    let e = (p.n - p.t - 1) / 2;
    let jobs: Vec<Vec<u64>> = (0..3).map(|_| random.shares(p, e)).collect();
    let mut bytes = vec![0; 7];
    second::write_order(e as u8, &mut bytes).unwrap();
    for holder in 0..p.n {
        let words: Vec<u64> = jobs.iter().flat_map(|job| job[holder * p.d..(holder + 1) * p.d].to_vec()).collect();
        let mut file = vec![0; 23 + 3 * (14 + 8 * p.d)];
        second::write_file(p, holder + 1, 9, &[1, 2, 5], &words, &mut file).unwrap();
        bytes.extend(file);
    }
    for _ in 0..random.below(2) * random.below(e + 3) {
        let (holder, place, word) = (random.below(p.n), random.below(3), random.below(p.d));
        let at = 7 + holder * (23 + 3 * (14 + 8 * p.d)) + 23 + place * (14 + 8 * p.d) + 14 + 8 * word;
        let bits = random.high_bit(p.k).to_le_bytes();
        bytes[at..at + 8].iter_mut().zip(bits).for_each(|(byte, bit)| *byte |= bit);
    }
    match random.below(4) {
        0 => bytes.truncate(random.below(bytes.len())),
        1 => {
            let at = random.below(bytes.len().min(60));
            bytes[at] = random.word() as u8;
        }
        _ => {}
    }
    (p, bytes)
}

#[test]
fn bundles() {
    let mut random = Random(2);
    for _ in 0..1000 {
        let (p, bytes) = bundle(&mut random);
        assert_eq!(plain::accept(&bytes), second::accept(&bytes), "{bytes:?}");
        let (place, b, holder) = (random.below(4), random.below(4), random.below(p.n + 1));
        let mut results = [vec![7; 3 * p.d + 2], vec![7; 3 * p.d + 2]];
        let mut bits = [[[7; 64]; 2]; 2];
        let answers = [0, 1].map(|side| {
            let (out, wrong) = results[side].split_at_mut(3 * p.d);
            let (place_words, rest) = out.split_at_mut(p.d);
            let (run_words, total_words) = rest.split_at_mut(p.d);
            let (place_wrong, run_wrong) = wrong.split_at_mut(1);
            let [place_lowest, run_lowest] = &mut bits[side];
            if side == 0 {
                (
                    plain::open_place(&bytes, place, place_words, place_wrong, place_lowest),
                    plain::open_run(&bytes, place, b, run_words, run_wrong, run_lowest),
                    plain::total(&bytes, holder, place, b, total_words),
                )
            } else {
                (
                    second::open_place(&bytes, place, place_words, place_wrong, place_lowest),
                    second::open_run(&bytes, place, b, run_words, run_wrong, run_lowest),
                    second::total(&bytes, holder, place, b, total_words),
                )
            }
        });
        assert_eq!((answers[0], &results[0], bits[0]), (answers[1], &results[1], bits[1]), "{bytes:?}");
    }
}

/// Runs added to a lent element, which is sometimes a word too short or too long or has a wide word: the answers, and the element after them. What a
/// run leaves is what its two parts leave, one after the other.
#[test]
fn running_totals() {
    let mut random = Random(4);
    let mut seen = [0; 10];
    for _ in 0..4000 {
        let (p, bytes) = bundle(&mut random);
        let (a, b, holder) = (random.below(4), random.below(5), random.below(p.n + 1));
        let length = if random.below(16) == 0 { p.d - 1 + 2 * random.below(2) } else { p.d };
        let mut lent = random.words(p.k, length);
        if random.below(8) == 0 {
            let at = random.below(length);
            lent[at] |= random.high_bit(p.k);
        }
        let mut running = [lent.clone(), lent.clone()];
        let first = plain::add_total(&bytes, holder, a, b, &mut running[0]);
        let other = second::add_total(&bytes, holder, a, b, &mut running[1]);
        assert_eq!((first, &running[0]), (other, &running[1]), "{holder} {a} {b} {lent:?} {bytes:?}");
        seen[first.map_or_else(|refusal| refusal as usize, |()| 0)] += 1;
        match first {
            Ok(()) => {
                let middle = a + random.below(b - a + 1);
                plain::add_total(&bytes, holder, a, middle, &mut lent).unwrap();
                plain::add_total(&bytes, holder, middle, b, &mut lent).unwrap();
                assert_eq!(lent, running[0]);
            }
            Err(_) => assert_eq!(lent, running[0]),
        }
    }
    assert!([0, 1, 2, 3, 4, 7, 9].iter().all(|number| seen[*number] > 0), "{seen:?}");
}

/// Calls on a desk, each lent the record as the call before left it: starts, openings of which some have a word too many for an output, and records
/// from elsewhere. The answers, the outputs and the record after them.
#[test]
fn desks() {
    let mut random = Random(5);
    let mut seen = [0; 11];
    for _ in 0..1000 {
        let (p, bytes) = bundle(&mut random);
        let (mut desk, mut other) = (vec![7, 7], second::Desk::new(&[7, 7]));
        for _ in 0..6 {
            let q = [0, 1, 2, 1000, 1001, u64::MAX][random.below(6)];
            match random.below(4) {
                0 => assert_eq!(plain::desk_start(&mut desk, q), other.start(q)),
                1 if random.below(4) == 0 => {
                    desk = [q, [0, q.wrapping_sub(1), q, u64::MAX][random.below(4)], 0][..[0, 1, 2, 2, 2, 3][random.below(6)]].to_vec();
                    other = second::Desk::new(&desk);
                }
                _ => {
                    let (place, more) = (random.below(4), [0; 3].map(|_| usize::from(random.below(32) == 0)));
                    let [mut first, mut then] = [0; 2].map(|_| (vec![7; p.d + more[0]], vec![7; 1 + more[1]], vec![7; 64 + more[2]]));
                    let answer = plain::desk_open(&mut desk, &bytes, place, &mut first.0, &mut first.1, &mut first.2);
                    assert_eq!(answer, other.open(&bytes, place, &mut then.0, &mut then.1, &mut then.2), "{desk:?} {place} {bytes:?}");
                    assert_eq!(first, then, "{desk:?} {place} {bytes:?}");
                    seen[answer.map_or_else(|refusal| refusal as usize, |()| 0)] += 1;
                }
            }
            assert_eq!(desk, other.record());
        }
    }
    assert!([0, 1, 2, 4, 6, 7, 9, 10].iter().all(|number| seen[*number] > 0), "{seen:?}");
}

/// Jobs and their texts, some with a wide word, a length that is not right or a book without a text, and texts with a byte or the lines changed, or
/// read in a book of another width: the answers, and the outputs after them.
#[test]
fn texts() {
    let mut random = Random(6);
    let mut seen = [[0; 12]; 3];
    let mut count =
        |call: usize, answer: Result<(), plain::Refusal>| seen[call][answer.map_or_else(|refusal| refusal as usize, |()| 0)] += 1;
    for _ in 0..20_000 {
        let (fine, k) = (random.params(), 1 + random.below(64) as u64);
        let mut p = Params { k: [1, 2, 8, 16, 63, 64, k, k][random.below(8)], d: 4, n: 15, t: 14 };
        let (number, shift) = (random.word() >> random.below(64), random.below(p.k as usize));
        let mut words: Vec<u64> = random.words(p.k, 4).iter().map(|w| w >> shift).collect();
        words[0] = [0, 1 << (p.k - 1), u64::MAX >> (64 - p.k), words[0]][random.below(4)];
        let mut size = [[7]; 2];
        second::text_size(p, number, &words, &mut size[1]).unwrap();
        let mut text = vec![7; size[1][0] as usize];
        second::write_text(p, number, &words, &mut text).unwrap();
        match random.below(16) {
            0 => p = fine,
            1 => words[3] |= random.high_bit(p.k),
            2 => words.truncate(random.below(4)),
            _ => {}
        }
        let answers = [plain::text_size(p, number, &words, &mut size[0]), second::text_size(p, number, &words, &mut size[1])];
        assert_eq!((answers[0], size[0]), (answers[1], if answers[0].is_ok() { size[1] } else { [7] }), "{p:?} {number} {words:?}");
        count(0, answers[0]);
        let length = if random.below(8) == 0 { random.below(136) } else { text.len() };
        let mut outs = [vec![7; length], vec![7; length]];
        let answers = [plain::write_text(p, number, &words, &mut outs[0]), second::write_text(p, number, &words, &mut outs[1])];
        assert_eq!((answers[0], &outs[0]), (answers[1], &outs[1]), "{p:?} {number} {words:?}");
        count(1, answers[0]);
        let (at, byte) = (random.below(text.len()), b"0123456789-.=\r\n JOX+"[random.below(20)]);
        match random.below(8) {
            0 => text[at] = byte,
            1 => text.insert(at, byte),
            2 => text.truncate(at),
            3 => drop(text.remove(at)),
            4 => p.k = 1 + random.below(64) as u64,
            5 => text = text.split_inclusive(|b| *b == b'\n').rev().flatten().copied().collect(),
            _ => {}
        }
        let [mut first, mut other] = [0; 2].map(|_| ([7], vec![7; if at == 0 { 3 } else { 4 }]));
        let answers = [plain::read_text(p, &text, &mut first.0, &mut first.1), second::read_text(p, &text, &mut other.0, &mut other.1)];
        assert_eq!((answers[0], first), (answers[1], other), "{p:?} {text:?}");
        count(2, answers[0]);
    }
    assert!([0, 1, 2, 3].iter().all(|number| seen[0][*number] > 0 && seen[1][*number] > 0), "{seen:?}");
    assert!([0, 1, 2, 11].iter().all(|number| seen[2][*number] > 0), "{seen:?}");
}

#[test]
fn mending() {
    let mut random = Random(3);
    for i in 0..1000 {
        let (_, bytes) = bundle(&mut random);
        let length = bytes.len() + usize::from(i % 8 == 0);
        let mut mended = [vec![7; length], vec![7; length]];
        let answers = [plain::mend(&bytes, &mut mended[0]), second::mend(&bytes, &mut mended[1])];
        assert_eq!((answers[0], &mended[0]), (answers[1], &mended[1]), "{bytes:?}");
    }
}
