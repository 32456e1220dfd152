//! The bench examples of paper 01; those marked there are M1 to M12.

use crate::*;

const SMALL: Params = Params { k: 3, d: 2, n: 3, t: 1 };

/// The words, the set, and the bits of the wrong holders, rising.
type Answer = (Result<(), Refusal>, Vec<u64>, u64, Vec<u8>);

fn opening(p: Params, e: u64, shares: &[(u64, [u64; 2])]) -> Answer {
    let holders: Vec<u64> = shares.iter().map(|s| s.0).collect();
    let words: Vec<u64> = shares.iter().flat_map(|s| s.1).collect();
    let (mut out, mut wrong, mut lowest) = (vec![77; 2], [88], [99; HOLDERS]);
    let answer = open(p, &holders, &words, e, &mut out, &mut wrong, &mut lowest);
    let (named, others): (Vec<usize>, Vec<usize>) = (0..HOLDERS).partition(|i| wrong[0] >> i & 1 == 1);
    let rest = if answer.is_ok() { NOT_WRONG } else { 99 };
    assert!(others.iter().all(|i| lowest[*i] == rest));
    (answer, out, wrong[0], named.iter().map(|i| lowest[*i]).collect())
}

fn opens(words: [u64; 2], wrong: u64, bits: &[u8]) -> Answer {
    (Ok(()), words.to_vec(), wrong, bits.to_vec())
}

/// 88 is the set of three holders.
fn refused(refusal: Refusal) -> Answer {
    (Err(refusal), vec![77; 2], 88, vec![99; 3])
}

fn product(p: Params, a: &[u64], b: &[u64]) -> Vec<u64> {
    let mut out = vec![0; p.d];
    scale(p, a, b, &mut out).unwrap();
    out
}

fn signed_reading(k: u64, w: u64) -> i64 {
    let mut out = [0];
    signed(k, w, &mut out).unwrap();
    out[0] as i64
}

#[test]
fn ring_m1_m2_m3_m11() {
    assert_eq!(product(SMALL, &[0, 1], &[0, 1]), [7, 7]);
    assert_eq!(product(SMALL, &[0, 1], &[1, 1]), [7, 0]);
    let mut out = [0; 2];
    invert(SMALL, &[0, 1], &mut out).unwrap();
    assert_eq!(out, [7, 7]);
    let p = Params { k: 64, d: 4, n: 1, t: 0 };
    assert_eq!(product(p, &[0, 0, 0, 1], &[0, 1, 0, 0]), [u64::MAX, u64::MAX, 0, 0]);
}

#[test]
fn dealing_m4() {
    let mut out = [0; 6];
    deal(SMALL, &[5, 2], &[3, 1], &mut out).unwrap();
    assert_eq!(out, [0, 3, 4, 4, 7, 5]);
}

#[test]
fn opening_m5_to_m10() {
    let dealt = [(1, [0, 3]), (2, [4, 4]), (3, [7, 5])];
    assert_eq!(opening(SMALL, 0, &dealt), opens([5, 2], 0, &[]));
    assert_eq!(opening(SMALL, 0, &[dealt[0], dealt[1], (3, [3, 5])]), refused(Refusal::NoCodeword));
    assert_eq!(opening(SMALL, 0, &[(1, [0, 3]), (3, [3, 5])]), opens([1, 6], 0, &[]));
    assert_eq!(opening(SMALL, 1, &dealt), refused(Refusal::TooFewShares));
    let constant = Params { t: 0, ..SMALL };
    assert_eq!(opening(constant, 1, &[(1, [5, 2]), (2, [5, 2]), (3, [1, 2])]), opens([5, 2], 4, &[2]));
    assert_eq!(opening(constant, 1, &[(1, [1, 2]), (2, [5, 2]), (3, [5, 2])]), opens([5, 2], 1, &[2]));
    assert_eq!(opening(constant, 1, &[(1, [5, 2]), (2, [1, 2]), (3, [7, 2])]), refused(Refusal::NoCodeword));
    assert_eq!(opening(constant, 0, &[]), refused(Refusal::TooFewShares));
}

/// Paper 02, K1: a share with a wide word is present and wrong; 5 counts it, and so does 6.
#[test]
fn wide_shares_k1() {
    let (constant, right, wide) = (Params { t: 0, ..SMALL }, [5, 2], [5 + 8, 2]);
    assert_eq!(opening(constant, 1, &[(1, right), (2, right), (3, wide)]), opens(right, 4, &[3]));
    assert_eq!(opening(constant, 1, &[(1, [8, u64::MAX]), (2, right), (3, right)]), opens(right, 1, &[0]));
    assert_eq!(opening(constant, 0, &[(1, right), (2, right), (3, wide)]), refused(Refusal::NoCodeword));
    assert_eq!(opening(constant, 1, &[(1, wide), (2, right), (3, wide)]), refused(Refusal::NoCodeword));
    assert_eq!(opening(constant, 1, &[(1, wide), (2, right), (3, [1, 2])]), refused(Refusal::NoCodeword));
    assert_eq!(opening(constant, 1, &[(1, right), (2, wide)]), refused(Refusal::TooFewShares));
}

/// Paper 02, K4: the lowest bit over both words, and a wide word at its full 64 bits; what is declined keeps its entries.
#[test]
fn lowest_bits_k4() {
    let (p, right) = (Params { k: 6, d: 2, n: 3, t: 0 }, [5, 2]);
    let top = 1 << 63;
    for (share, bit) in [
        ([5 ^ 32, 2 ^ 8], 3),
        ([5 ^ 8, 2 ^ 32], 3),
        ([4, 2], 0),
        ([5, 2 ^ 32], 5),
        ([5 ^ 40, 2], 3),
        ([5 + 64, 2], 6),
        ([5, 2 + top], 63),
        ([5 + top, 2 + 64], 6),
        ([5 + 64, 2 ^ 16], 4),
        ([5 ^ 16, 2 + top], 4),
        ([!5, !2], 0),
    ] {
        for (holder, set) in [(1, 1), (2, 2), (3, 4)] {
            let shares = [1, 2, 3].map(|i| (i, if i == holder { share } else { right }));
            assert_eq!(opening(p, 1, &shares), opens(right, set, &[bit]));
        }
    }
    let wide_book = Params { k: 64, ..p };
    assert_eq!(opening(wide_book, 1, &[(1, right), (2, [5, 2 + top]), (3, right)]), opens(right, 2, &[63]));
    let mut lowest = [99; 65];
    for length in [0, 63, 65] {
        let answer = open(p, &[0], &[5, 2], u64::MAX, &mut [77; 2], &mut [88], &mut lowest[..length]);
        assert_eq!(answer, Err(Refusal::Length));
    }
    let bundle = example_bundle();
    assert_eq!(open_place(&bundle, 9, &mut [77; 2], &mut [88], &mut lowest[..63]), Err(Refusal::Length));
    assert_eq!(open_run(&bundle, 9, 8, &mut [77; 2], &mut [88], &mut lowest), Err(Refusal::Length));
    assert_eq!(open_place(&bundle, 1, &mut [77; 2], &mut [88], &mut lowest[..64]), Err(Refusal::NoCodeword));
    assert_eq!(lowest, [99; 65]);
}

#[test]
fn signed_m12() {
    assert_eq!([signed_reading(8, 127), signed_reading(8, 128), signed_reading(1, 1)], [127, -128, -1]);
}

fn example_bundle() -> Vec<u8> {
    let p = Params { t: 0, ..SMALL };
    let mut files = vec![];
    for (holder, words) in [(1, [5, 2, 5, 2]), (2, [5, 2, 1, 2]), (3, [1, 2, 7, 2])] {
        let mut file = vec![0; 83];
        write_file(p, holder, 7, &[10, 11], &words, &mut file).unwrap();
        files.extend(file);
    }
    let mut bundle = vec![0; 256];
    write_bundle(1, &files, &mut bundle).unwrap();
    bundle
}

#[test]
fn the_example_of_the_listing() {
    let bundle = example_bundle();
    let mut text = vec![];
    for place in 0..2 {
        let (mut line, mut length) = ([0; LINE], [0]);
        list_line(&bundle, place, &mut line, &mut length).unwrap();
        text.extend(&line[..length[0] as usize]);
    }
    assert_eq!(String::from_utf8(text).unwrap(), "10 open 3/2 -3,2\n11 6 - -\n");
    assert_eq!(list_line(&bundle, 2, &mut [0; LINE], &mut [0]), Err(Refusal::OutOfRange));
}

/// The example with job 10 of holder 3 wide: its place opens, a run of that place does not.
#[test]
fn a_wide_word_in_a_place_and_in_a_run() {
    let (mut bundle, mut out, mut wrong, mut lowest) = (example_bundle(), [77; 2], [88], [99; HOLDERS]);
    open_run(&bundle, 0, 1, &mut out, &mut wrong, &mut lowest).unwrap();
    assert_eq!((out, wrong, &lowest[..4]), ([5, 2], [4], &[255, 255, 2, 255][..]));
    (bundle[173 + 23 + 14], bundle[173 + 23 + 14 + 7]) = (5, 1);
    open_place(&bundle, 0, &mut out, &mut wrong, &mut lowest).unwrap();
    assert_eq!((out, wrong, &lowest[..4]), ([5, 2], [4], &[255, 255, 56, 255][..]));
    for run in [(0, 1), (0, 2)] {
        assert_eq!(open_run(&bundle, run.0, run.1, &mut out, &mut wrong, &mut lowest), Err(Refusal::WideWord));
    }
    assert_eq!(lowest[2], 56);
    assert_eq!(open_run(&bundle, 1, 1, &mut out, &mut wrong, &mut lowest), Ok(()));
    assert_eq!(lowest, [NOT_WRONG; HOLDERS]);
    assert_eq!(total(&bundle, 3, 0, 1, &mut out), Err(Refusal::WideWord));
    assert_eq!(total(&bundle, 2, 0, 1, &mut out), Ok(()));
}

/// Paper 02, K2, on the example: holder 3's share of job 10 is replaced, and job 11, which declines, keeps its bytes.
#[test]
fn the_example_mended_k2() {
    let bundle = example_bundle();
    let (mut right, mut out) = (bundle.clone(), vec![77; 256]);
    right[173 + 23 + 14] = 5;
    for bytes in [&bundle, &right] {
        mend(bytes, &mut out).unwrap();
        assert_eq!(out, right);
    }
    assert_eq!([report(&bundle), report(&right)], ["10 holder 3\n11 refused 6\n", "11 refused 6\n"]);
    let (mut words, mut wrong, mut lowest) = ([77; 2], [88], [99; HOLDERS]);
    open_place(&right, 0, &mut words, &mut wrong, &mut lowest).unwrap();
    assert_eq!((words, wrong, lowest), ([5, 2], [0], [NOT_WRONG; HOLDERS]));
    // holder 1's file three times: lines come by job and then by holder, and a wide share is replaced whole
    let mut same = [&bundle[..90], &bundle[7..90], &bundle[7..90]].concat();
    (same[90 + 10], same[173 + 10]) = (2, 3);
    let mut other = same.clone();
    (other[173 + 37], other[90 + 67 + 7]) = (0, 9);
    assert_eq!([report(&other), report(&same)], ["10 holder 3\n11 holder 2\n", ""]);
    mend(&other, &mut out).unwrap();
    assert_eq!(out, same);
}

/// A declined bundle and then a wrong length, the output as it was; the program's limit comes first.
#[test]
fn mending_declined_k2() {
    let bundle = example_bundle();
    let decline = |bytes: &[u8], length: usize| {
        let mut out = vec![77; length];
        let answer = mend(bytes, &mut out);
        assert!(answer.is_ok() || out.iter().all(|b| *b == 77));
        answer.err().map(|refusal| refusal as u8)
    };
    assert_eq!([0, 255, 256, 257].map(|length| decline(&bundle, length)), [Some(2), Some(2), None, Some(2)]);
    for (at, byte, number) in [(0, 4, 7), (13, 0, 1), (17, 4, 4), (101, 8, 8)] {
        let mut faulty = bundle.clone();
        faulty[at] = byte;
        assert_eq!([0, 256].map(|length| decline(&faulty, length)), [Some(number); 2]);
        assert_eq!(report(&faulty), format!("refused {number}\n"));
    }
    assert_eq!([report(&[]), report(&[3; 65_536]), report(&[3; 65_537])], ["refused 7\n", "refused 7\n", "refused 2\n"]);
    // no jobs: nothing to print, nothing to change
    let mut empty = bundle[..30].to_vec();
    empty[26] = 0;
    assert_eq!((report(&empty).as_str(), decline(&empty, 30)), ("", None));
}

/// Paper 02, K3, on the example: the lent element plus the total; a to b and then b to c leave what a to c would; what is declined, and the element
/// is then as it was.
#[test]
fn running_totals_k3() {
    let mut bundle = example_bundle();
    let add = |bytes: &[u8], holder, a, b, lent: &[u64]| {
        let mut running = lent.to_vec();
        let answer = add_total(bytes, holder, a, b, &mut running);
        assert!(answer.is_ok() || running == lent);
        answer.map(|()| running).map_err(|refusal| refusal as u8)
    };
    for holder in 1..=3 {
        for (a, b, c) in [(0, 0, 0), (0, 0, 1), (0, 1, 2), (0, 2, 2), (1, 1, 2), (2, 2, 2)] {
            let (first, whole) = (add(&bundle, holder, a, b, &[7, 5]).unwrap(), add(&bundle, holder, a, c, &[7, 5]));
            assert_eq!(add(&bundle, holder, b, c, &first), whole);
            let mut out = [77; 2];
            total(&bundle, holder, a, c, &mut out).unwrap();
            assert_eq!(add(&bundle, holder, a, c, &[0, 0]), Ok(out.to_vec()));
            assert_eq!(whole, Ok(vec![(out[0] + 7) % 8, (out[1] + 5) % 8]));
        }
    }
    assert_eq!(add(&bundle, 1, 0, 2, &[7, 5]), Ok(vec![1, 1]));
    assert_eq!([0, 4].map(|holder| add(&bundle, holder, 9, 8, &[8; 3])), [Err(4), Err(4)]);
    assert_eq!([0, 1, 3].map(|n| add(&bundle, 1, 9, 8, &[8; 3][..n])), [Err(2), Err(2), Err(2)]);
    assert_eq!([(2, 1), (0, 3), (3, 3)].map(|(a, b)| add(&bundle, 1, a, b, &[8; 2])), [Err(9), Err(9), Err(9)]);
    assert_eq!([[8, 0], [0, 1 << 63]].map(|lent| add(&bundle, 1, 2, 2, &lent)), [Err(3), Err(3)]);
    // the last word of holder 3's last job
    bundle[255] = 1;
    assert_eq!([(0, 1), (1, 2), (0, 2)].map(|(a, b)| add(&bundle, 3, a, b, &[7, 5]).err()), [None, Some(3), Some(3)]);
    assert_eq!(add(&bundle[..255], 1, 0, 2, &[8; 3]), Err(7));
}

/// The number of an opening of the example through a desk: words are those of place 0, and what is declined leaves the outputs as they were.
fn through(desk: &mut Desk, bytes: &[u8], place: usize) -> u8 {
    let (mut out, mut wrong, mut lowest) = ([77; 2], [88], [99; HOLDERS]);
    let answer = desk.open(bytes, place, &mut out, &mut wrong, &mut lowest);
    let left = if answer.is_ok() { ([5, 2], [4], 2) } else { ([77; 2], [88], 99) };
    assert_eq!((out, wrong, lowest[2]), left);
    answer.map_or_else(|refusal| refusal as u8, |()| 0)
}

/// Paper 02, K5, on the example, whose place 0 opens and whose place 1 gives 6: months of calls, each with its answer and the count that it leaves.
#[test]
fn months_k5() {
    let (bundle, mut desk) = (example_bundle(), Desk::new(&[u64::MAX, 7]));
    assert_eq!((desk.start(2), desk.record()), (Ok(()), vec![2, 0]));
    for (place, number, count) in [(1, 6, 0), (0, 0, 1), (2, 9, 1), (1, 6, 1), (0, 0, 2), (0, 10, 2), (1, 10, 2), (2, 9, 2)] {
        assert_eq!((through(&mut desk, &bundle, place), desk.record()), (number, vec![2, count]));
    }
    assert_eq!([1001, u64::MAX].map(|q| desk.start(q)), [Err(Refusal::Parameters); 2]);
    assert_eq!((through(&mut desk, &bundle, 0), desk.record()), (10, vec![2, 2]));
    assert_eq!((desk.start(1), desk.record()), (Ok(()), vec![1, 0]));
    assert_eq!((through(&mut desk, &bundle, 0), desk.record()), (0, vec![1, 1]));
    assert_eq!((desk.start(0), through(&mut desk, &bundle, 0), desk.record()), (Ok(()), 10, vec![0, 0]));
    assert_eq!((desk.start(1000), desk.record()), (Ok(()), vec![1000, 0]));
    // openings that come on top of what was lent
    let mut desk = Desk::new(&[1000, 998]);
    assert_eq!([0, 1, 0, 0].map(|place| through(&mut desk, &bundle, place)), [0, 6, 0, 10]);
    assert_eq!(desk.record(), [1000, 1000]);
}

/// Which refusal of an opening through a desk comes first, of records with any words, and of outputs with other lengths.
#[test]
fn desks_declined_k5() {
    let (bundle, huge) = (example_bundle(), u64::MAX);
    let decline = |record: &[u64], bytes: &[u8], place| {
        let mut desk = Desk::new(record);
        let number = through(&mut desk, bytes, place);
        assert!(number == 0 || desk.record() == record);
        number
    };
    for record in [&[][..], &[1], &[1001], &[1, 0, 0], &[1001, 0, 0]] {
        assert_eq!([decline(record, &bundle, 0), decline(record, &[], 0)], [2, 2]);
        assert_eq!((Desk::new(record).start(1), Desk::new(record).start(huge)), (Err(Refusal::Length), Err(Refusal::Length)));
    }
    for record in [[1001, 0], [1001, 1001], [huge, 0], [huge, huge]] {
        assert_eq!([decline(&record, &bundle, 9), decline(&record, &[], 0)], [1, 1]);
    }
    // too few files for the allowance of one wrong share
    for (record, numbers) in [([1, 0], [0, 6, 9, 5, 9, 7]), ([1, 1], [10, 10, 9, 10, 9, 7])] {
        let asked = [(256, 0), (256, 1), (256, 2), (173, 0), (173, 2), (255, 0)];
        assert_eq!(asked.map(|(length, place)| decline(&record, &bundle[..length], place)), numbers);
    }
    for record in [[0, 0], [1, 2], [0, huge], [1000, 1000], [1000, huge]] {
        assert_eq!([0, 1, 2].map(|place| decline(&record, &bundle, place)), [10, 10, 9]);
    }
    for (record, place) in [([1, 0], 0), ([1, 1], 0), ([1, 1], 9)] {
        for [words, set, bits] in [[1, 1, 64], [3, 1, 64], [2, 0, 64], [2, 2, 64], [2, 1, 63], [2, 1, 65]] {
            let (mut desk, mut out, mut wrong, mut lowest) = (Desk::new(&record), vec![77; words], vec![88; set], vec![99; bits]);
            assert_eq!(desk.open(&bundle, place, &mut out, &mut wrong, &mut lowest), Err(Refusal::Length));
            assert_eq!((desk.record(), out, wrong, lowest), (record.to_vec(), vec![77; words], vec![88; set], vec![99; bits]));
        }
    }
}

const LENS: Params = Params { k: 16, d: 4, n: 3, t: 0 };

/// -3.25, 0.50, 90 and 2.18 in that book, and the text of job 10 with these.
const LENS_WORDS: [u64; 4] = [(1 << 16) - 325, 50, 90, 218];
const LENS_LINES: [&str; 5] = ["JOB=10", "SPH=-3.25", "CYL=0.50", "AX=90", "CTHICK=2.18"];

/// A job's text, of the size that it is said to have.
fn written(p: Params, number: u64, words: [u64; 4]) -> String {
    let mut size = [77];
    text_size(p, number, &words, &mut size).unwrap();
    let mut out = vec![77; size[0] as usize];
    write_text(p, number, &words, &mut out).unwrap();
    String::from_utf8(out).unwrap()
}

/// The number and the words of a text; what is declined leaves the outputs as they were.
fn job_of(p: Params, text: &[u8]) -> Result<(u64, [u64; 4]), u8> {
    let (mut number, mut words) = ([77], [88; 4]);
    let answer = read_text(p, text, &mut number, &mut words);
    assert!(answer.is_ok() || (number, words) == ([77], [88; 4]));
    answer.map(|()| (number[0], words)).map_err(|refusal| refusal as u8)
}

fn lines_text(lines: &[&str]) -> Vec<u8> {
    lines.iter().flat_map(|line| [line, "\r\n"]).flat_map(str::bytes).collect()
}

/// Paper 02, K6: the numbers of a text, at the ends of the narrowest and of the widest book, and the job that is read from it again.
#[test]
fn texts_k6() {
    assert_eq!(written(LENS, 10, LENS_WORDS).as_bytes(), lines_text(&LENS_LINES));
    let book = |k: u64| Params { k, ..LENS };
    let text = |k: u64, values: [i64; 4]| written(book(k), u64::MAX, values.map(|value| value as u64 & u64::MAX >> (64 - k)));
    for (k, values, lines) in [
        (1, [-1, 0, -1, -1], ["SPH=-0.01", "CYL=0.00", "AX=-1", "CTHICK=-0.01"]),
        (2, [1, -2, -2, 0], ["SPH=0.01", "CYL=-0.02", "AX=-2", "CTHICK=0.00"]),
        (8, [127, -128, 127, -128], ["SPH=1.27", "CYL=-1.28", "AX=127", "CTHICK=-1.28"]),
        (16, [5, -5, 0, -100], ["SPH=0.05", "CYL=-0.05", "AX=0", "CTHICK=-1.00"]),
        (16, [99, -99, 100, 100], ["SPH=0.99", "CYL=-0.99", "AX=100", "CTHICK=1.00"]),
        (
            64,
            [i64::MAX, i64::MIN, i64::MIN, i64::MIN],
            ["SPH=92233720368547758.07", "CYL=-92233720368547758.08", "AX=-9223372036854775808", "CTHICK=-92233720368547758.08"],
        ),
    ] {
        let expected = [&["JOB=18446744073709551615"][..], &lines].concat();
        let (text, words) = (text(k, values), values.map(|value| value as u64 & u64::MAX >> (64 - k)));
        assert_eq!(text.as_bytes(), lines_text(&expected));
        assert_eq!(job_of(book(k), text.as_bytes()), Ok((u64::MAX, words)));
        assert_eq!(job_of(book(k), text.replace("18446744073709551615", "0").as_bytes()), Ok((0, words)));
    }
    assert_eq!(written(book(64), u64::MAX, [1 << 63; 4]).len(), 135);
}

/// What stands instead of one line of the text and is declined, all cuts of the text and all that could follow it, and lines in another order.
#[test]
fn near_misses_k6() {
    let lens = lines_text(&LENS_LINES);
    let decline = |text: &[u8]| assert_eq!(job_of(LENS, text), Err(11), "{}", String::from_utf8_lossy(text));
    let instead = |place: usize, line: &str| {
        let mut lines = LENS_LINES;
        lines[place] = line;
        decline(&lines_text(&lines));
    };
    for value in
        ["", "-", "-0", "-10", "+10", "010", "10.00", " 10", "10 ", "18446744073709551616", "100000000000000000000", "18446744073709551626"]
    {
        instead(0, &format!("JOB={value}"));
    }
    for (place, label) in [(1, "SPH"), (2, "CYL"), (4, "CTHICK")] {
        let forms =
            ["", "-0.00", "+1.00", "01.00", "-01.00", ".50", "-.50", "1.5", "1.500", "1", "1.", "1,50", "1.50 ", "- 1.50", "1e2", "--1.50"];
        let ranges = ["327.68", "-327.69", "655.36", "184467440737095516.16", "340282366920938463463374607431768211456.00"];
        forms.iter().chain(&ranges).for_each(|value| instead(place, &format!("{label}={value}")));
    }
    for value in ["", "-0", "+90", "090", "-090", "90.0", "90.00", "90 ", "32768", "-32769", "65626", "18446744073709551706"] {
        instead(3, &format!("AX={value}"));
    }
    for (place, line) in LENS_LINES.into_iter().enumerate() {
        let (label, value) = line.split_once('=').unwrap();
        for other in
            [line.to_lowercase(), format!("{label} ={value}"), format!("{label}= {value}"), format!("{label}:{value}"), format!(" {line}")]
        {
            instead(place, &other);
        }
        ["", label, value].iter().for_each(|other| instead(place, other));
        for end in ["\r", "\n", "\0", "\r\n", " "] {
            instead(place, &format!("{line}{end}"));
        }
        instead(place, LENS_LINES[(place + 1) % 5]);
        instead(place, &format!("{line}\r\n{line}"));
        decline(&lines_text(&[&LENS_LINES[..place], &LENS_LINES[place + 1..]].concat()));
        let mut swapped = LENS_LINES;
        swapped.swap(place, (place + 1) % 5);
        decline(&lines_text(&swapped));
    }
    (0..lens.len()).for_each(|cut| decline(&lens[..cut]));
    let ended = |end: &str| LENS_LINES.map(|line| format!("{line}{end}")).concat();
    ["\n", "\r", "\n\r", ""].iter().for_each(|end| decline(ended(end).as_bytes()));
    [&b"\0"[..], b"\r", b"\n", b" ", b"\r\n", b"JOB=10\r\n", &lens].iter().for_each(|end| decline(&[&lens, *end].concat()));
}

/// On every text that is one byte away: what is read is another number, whose text it is.
#[test]
fn one_byte_away_k6() {
    let lens = lines_text(&LENS_LINES);
    let mut read = 0;
    for (at, byte) in (0..lens.len()).flat_map(|at| (0..=255).map(move |byte| (at, byte))) {
        let mut other = lens.clone();
        other[at] = byte;
        if let Ok((number, words)) = job_of(LENS, &other) {
            assert_eq!(written(LENS, number, words).as_bytes(), other);
            read += 1;
        }
    }
    // the text itself, once for each byte; what the digits of 10, -3.25, 0.50, 90 and 2.18 may be instead, and the minus sign
    assert_eq!(read, lens.len() + (8 + 9) + 4 * 9 + 3 * 9 + (8 + 9) + 3 * 9);
}

/// Which refusal comes first, of books that have no text too, and that outputs stay as they were.
#[test]
fn texts_declined_k6() {
    let write = |p, words: &[u64], length| {
        let mut out = vec![77; length];
        let answer = write_text(p, 10, words, &mut out);
        assert!(answer.is_ok() || out.iter().all(|b| *b == 77));
        answer.err().map(|refusal| refusal as u8)
    };
    let size = |p, words: &[u64], length| {
        let mut size = vec![77; length];
        let answer = text_size(p, 10, words, &mut size);
        assert!(answer.is_ok() || size.iter().all(|w| *w == 77));
        answer.err().map(|refusal| refusal as u8)
    };
    let read = |p, text: &[u8], lengths: [usize; 2]| {
        let [mut number, mut words] = lengths.map(|length| vec![77; length]);
        let answer = read_text(p, text, &mut number, &mut words);
        assert!(answer.is_ok() || number.iter().chain(&words).all(|w| *w == 77));
        answer.err().map(|refusal| refusal as u8)
    };
    let (lens, right, wide) = (lines_text(&LENS_LINES), LENS_WORDS, [1 << 16, 0, 0, 0]);
    let of_d = |d| Params { d, ..LENS };
    let others = [0, 1, 2, 3, 5, 6, 7].map(of_d).into_iter().chain([0, 65].map(|k| Params { k, ..LENS }));
    for p in others.chain([Params { n: 16, ..LENS }, Params { n: 0, ..LENS }, Params { t: 3, ..LENS }]) {
        assert_eq!([write(p, &right, lens.len()), write(p, &[], 0), write(p, &wide, 0)], [Some(1); 3]);
        assert_eq!([size(p, &right, 1), size(p, &wide, 0), size(p, &[], 1)], [Some(1); 3]);
        assert_eq!([read(p, &lens, [1, 4]), read(p, &[], [0, 0]), read(p, &lens, [1, p.d.min(9)])], [Some(1); 3]);
    }
    for words in [&[][..], &right[..3], &[right[0], right[1], right[2], right[3], 0], &[1 << 16; 5]] {
        assert_eq!([write(LENS, words, lens.len()), write(LENS, words, 0), size(LENS, words, 1), size(LENS, words, 0)], [Some(2); 4]);
    }
    for wide in [wide, [0, 0, 0, 1 << 16], [u64::MAX; 4]] {
        assert_eq!([0, lens.len(), 135].map(|length| write(LENS, &wide, length)), [Some(3); 3]);
        assert_eq!([0, 1, 2].map(|length| size(LENS, &wide, length)), [Some(2), Some(3), Some(2)]);
    }
    assert_eq!([0, 1, 2].map(|length| size(LENS, &right, length)), [Some(2), None, Some(2)]);
    let n = lens.len();
    assert_eq!([0, n - 1, n, n + 1, 2 * n].map(|length| write(LENS, &right, length)), [Some(2), Some(2), None, Some(2), Some(2)]);
    for lengths in [[0, 4], [2, 4], [1, 0], [1, 3], [1, 5], [4, 1]] {
        assert_eq!([read(LENS, &lens, lengths), read(LENS, &lens[1..], lengths)], [Some(2); 2]);
    }
    assert_eq!([read(LENS, &lens, [1, 4]), read(LENS, &lens[1..], [1, 4])], [None, Some(11)]);
}

/// What `jobtext` prints: a job that opens in spite of a wrong share, and one that answers 6 or, with a file less, 5; books that have no text.
#[test]
fn the_program_k6() {
    let zero = [0; 4];
    let mut bundle = vec![0; 7];
    write_order(1, &mut bundle).unwrap();
    for (holder, words) in [(1, [LENS_WORDS, LENS_WORDS]), (2, [LENS_WORDS, zero]), (3, [zero, [1, 0, 0, 0]])] {
        let mut file = vec![0; 23 + 2 * 46];
        write_file(LENS, holder, 7, &[10, 11], &words.concat(), &mut file).unwrap();
        bundle.extend(file);
    }
    assert_eq!(texts(&bundle), written(LENS, 10, LENS_WORDS) + "11 refused 6\n");
    assert_eq!(texts(&bundle[..7 + 2 * 115]), "10 refused 5\n11 refused 5\n");
    assert_eq!(
        [texts(&bundle[1..]), texts(&example_bundle()), texts(&example_bundle()[..255])],
        ["refused 7\n", "refused 1\n", "refused 7\n"]
    );
    assert_eq!([texts(&[3; 65_536]), texts(&[3; 65_537])], ["refused 7\n", "refused 2\n"]);
    for (d, printed) in [(3, "refused 1\n"), (4, "")] {
        let mut empty = vec![0; 30];
        write_order(0, &mut empty[..7]).unwrap();
        write_file(Params { d, ..LENS }, 1, 7, &[], &[], &mut empty[7..]).unwrap();
        assert_eq!(texts(&empty), printed);
    }
}

#[test]
fn ranges_of_a_book() {
    let p = |n, t| Params { k: 64, d: 4, n, t }.check();
    assert_eq!(
        [p(15, 14), p(16, 0), p(3, 3), p(0, 0)],
        [Ok(()), Err(Refusal::Parameters), Err(Refusal::Parameters), Err(Refusal::Parameters)]
    );
    let bundle = |jobs: u32| {
        let mut bytes = example_bundle();
        bytes.truncate(30);
        bytes[26..30].copy_from_slice(&jobs.to_le_bytes());
        accept(&bytes)
    };
    assert_eq!([bundle(0), bundle(1000), bundle(1001)], [Ok(()), Err(Refusal::Malformed), Err(Refusal::Parameters)]);
}

/// The refusals of a bundle, each made by one change of the example, some with a second fault that comes later.
#[test]
fn faults_in_byte_order() {
    let change = |changes: &[(usize, u8)]| {
        let mut bytes = example_bundle();
        changes.iter().for_each(|(at, byte)| bytes[*at] = *byte);
        accept(&bytes).err().map(|refusal| refusal as u8)
    };
    let second = 7 + 83;
    assert_eq!(change(&[]), None);
    assert_eq!(change(&[(13, 0)]), Some(1)); // k 0
    assert_eq!(change(&[(17, 0), (28, 9)]), Some(1)); // holder 0 and J too large
    assert_eq!(change(&[(17, 4)]), Some(4)); // holder above n
    assert_eq!(change(&[(second + 10, 1)]), Some(4)); // holders do not rise
    assert_eq!(change(&[(second + 11, 8), (second + 23, 0)]), Some(8)); // a stranger, its job's length at fault
    assert_eq!(change(&[(second + 29, 12)]), Some(8)); // another job number
    assert_eq!(change(&[(second + 29, 11), (second + 59, 11)]), Some(8));
    assert_eq!(change(&[(36, 12)]), Some(7)); // job numbers fall
    assert_eq!(change(&[(4, 1)]), Some(7)); // no order
    assert_eq!(accept(&example_bundle()[..7]), Err(Refusal::Malformed));
    assert_eq!(accept(&example_bundle()[..second]), Ok(()));
}

/// What a caller must know of the example, and what the cursor reads in it.
#[test]
fn the_example_described() {
    let bundle = example_bundle();
    let (mut about, mut number, mut part) = ([0; 9], [0], [0; 3]);
    describe(&bundle, &mut about).unwrap();
    assert_eq!(about, [1, 3, 2, 3, 0, 7, 2, 3, 83]);
    job_number(&bundle, 1, &mut number).unwrap();
    assert_eq!(number, [11]);
    file(&bundle, 2, &mut part).unwrap();
    assert_eq!(part, [3, 173, 83]);
    assert_eq!(check_file(&bundle[173..]), Ok(()));
    assert_eq!([check_file(&bundle[90..]), check_file(&bundle)], [Err(Refusal::Malformed); 2]);
    assert_eq!([job_number(&bundle, 2, &mut number), file(&bundle, 3, &mut part)], [Err(Refusal::OutOfRange); 2]);
    assert_eq!([job_number(&bundle, 2, &mut []), file(&bundle, 3, &mut []), describe(&bundle, &mut [])], [Err(Refusal::Length); 3]);
    let (mut kinds, mut step) = (vec![], [0; 4]);
    while step[0] == 0 {
        read(&bundle, (step[2] + step[3]) as usize, &mut step).unwrap();
        kinds.push(step[1]);
    }
    assert_eq!((kinds, step), (vec![16, 1, 2, 2, 1, 2, 2, 1, 2, 2, 0], [1, 0, 256, 0]));
    assert_eq!([read(&bundle, 257, &mut step), read(&bundle, 1, &mut step), read(&[], 1, &mut step)], [Err(Refusal::Malformed); 3]);
    assert_eq!(read(&bundle, 257, &mut []), Err(Refusal::Length));
}
