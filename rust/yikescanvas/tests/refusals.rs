//! Each call: what it gives on the examples of paper 01, and every number that it can decline with, its outputs as they were.
use yikescanvas::*;

const POISON: u64 = 0xa5a5_a5a5_a5a5_a5a5;
const BOOK: Params = Params { k: 3, d: 2, n: 3, t: 1 };
const FLAT: Params = Params { k: 3, d: 2, n: 3, t: 0 };

/// Runs a call on an output of poisoned words: it declines as named, and leaves them.
fn declines<T: std::fmt::Debug + PartialEq>(expected: Refusal, length: usize, call: impl FnOnce(&mut [u64]) -> Result<T, Refusal>) {
    let mut out = vec![POISON; length];
    assert_eq!(call(&mut out), Err(expected));
    assert!(out.iter().all(|w| *w == POISON));
}

/// The same on an output of bytes.
fn declines_bytes<T: std::fmt::Debug + PartialEq>(expected: Refusal, length: usize, call: impl FnOnce(&mut [u8]) -> Result<T, Refusal>) {
    let mut out = vec![0xa5; length];
    assert_eq!(call(&mut out), Err(expected));
    assert!(out.iter().all(|b| *b == 0xa5));
}

/// What an opening gives in which these holders are wrong, each from a bit on, and no others.
fn wrong(bits: &[(usize, u8)]) -> Result<Opened, Refusal> {
    let mut opened = Opened { wrong: 0, lowest: [NOT_WRONG; 64] };
    for (holder, bit) in bits {
        opened.wrong |= 1 << (holder - 1);
        opened.lowest[holder - 1] = *bit;
    }
    Ok(opened)
}

/// Books with one number out of its range.
fn outside() -> Vec<Params> {
    let mut books = vec![];
    for k in [0, 65, u64::MAX] {
        books.push(Params { k, ..BOOK });
    }
    for d in [0, 1, 7, usize::MAX] {
        books.push(Params { d, ..BOOK });
    }
    for n in [0, 4, usize::MAX] {
        books.push(Params { n, ..BOOK });
    }
    for t in [3, usize::MAX] {
        books.push(Params { t, ..BOOK });
    }
    books.push(Params { k: 64, d: 4, n: 16, t: 4 });
    books.push(Params { k: 64, d: 6, n: 64, t: 4 });
    books
}

/// Paper 01's bundle of 256 bytes.
fn bundle() -> Vec<u8> {
    let words = [[5, 2, 5, 2], [5, 2, 1, 2], [1, 2, 7, 2]];
    let size = file_size(FLAT, 2).unwrap();
    let mut files = vec![0; 3 * size];
    for (i, file) in files.chunks_mut(size).enumerate() {
        write_file(FLAT, i + 1, 7, &[10, 11], &words[i], file).unwrap();
    }
    let mut bundle = vec![0; ORDER_SIZE + files.len()];
    write_bundle(1, &files, &mut bundle).unwrap();
    assert_eq!(bundle.len(), 256);
    bundle
}

#[test]
fn numbers_are_the_papers() {
    for (i, refusal) in Refusal::ALL.iter().enumerate() {
        assert_eq!(usize::from(refusal.number()), i + 1);
        assert_eq!(Refusal::from_number(refusal.number()), Some(*refusal));
        assert!(refusal.to_string().ends_with(&format!("({})", i + 1)));
    }
    assert_eq!(Refusal::from_number(0), None);
    for number in [12, 13, 255] {
        assert_eq!(Refusal::from_number(number), Some(Refusal::Unknown(number)));
        assert_eq!(Refusal::Unknown(number).number(), number);
        assert!(Refusal::Unknown(number).to_string().ends_with(&format!("({number})")));
    }
}

#[test]
fn elements() {
    let mut out = [0; 2];
    assert_eq!(scale(BOOK, &[0, 1], &[0, 1], &mut out), Ok(()));
    assert_eq!(out, [7, 7]);
    assert_eq!(scale(BOOK, &[0, 1], &[1, 1], &mut out), Ok(()));
    assert_eq!(out, [7, 0]);
    assert_eq!(invert(BOOK, &[0, 1], &mut out), Ok(()));
    assert_eq!(out, [7, 7]);
    assert_eq!(invert(BOOK, &[2, 4], &mut out), Ok(()));
    assert_eq!(out, [0, 0]);
    assert_eq!(add(BOOK, &[7, 7], &[1, 2], &mut out), Ok(()));
    assert_eq!(out, [0, 1]);
    for p in outside() {
        declines(Refusal::Parameters, 2, |o| add(p, &[0, 1], &[8, 8], o));
        declines(Refusal::Parameters, 0, |o| scale(p, &[], &[], o));
        declines(Refusal::Parameters, 2, |o| invert(p, &[0, 1], o));
    }
    for n in [0, 1, 3, 1000] {
        let long = vec![0; n];
        declines(Refusal::Length, 2, |o| add(BOOK, &long, &[8, 8], o));
        declines(Refusal::Length, 2, |o| add(BOOK, &[0, 1], &long, o));
        declines(Refusal::Length, n, |o| add(BOOK, &[0, 1], &[0, 1], o));
        declines(Refusal::Length, 2, |o| scale(BOOK, &long, &[0, 1], o));
        declines(Refusal::Length, n, |o| scale(BOOK, &[0, 1], &[0, 1], o));
        declines(Refusal::Length, 2, |o| invert(BOOK, &long, o));
        declines(Refusal::Length, n, |o| invert(BOOK, &[0, 8], o));
    }
    declines(Refusal::WideWord, 2, |o| add(BOOK, &[8, 1], &[0, 1], o));
    declines(Refusal::WideWord, 2, |o| scale(BOOK, &[0, 1], &[0, u64::MAX], o));
    declines(Refusal::WideWord, 2, |o| invert(BOOK, &[8, 1], o));
}

#[test]
fn shares() {
    let mut shares = [0; 6];
    assert_eq!(deal(BOOK, &[5, 2], &[3, 1], &mut shares), Ok(()));
    assert_eq!(shares, [0, 3, 4, 4, 7, 5]);
    let mut out = [0; 2];
    assert_eq!(open_shares(BOOK, &[1, 2, 3], &shares, 0, &mut out), wrong(&[]));
    assert_eq!(out, [5, 2]);
    assert_eq!(open_shares(BOOK, &[1, 3], &[0, 3, 3, 5], 0, &mut out), wrong(&[]));
    assert_eq!(out, [1, 6]);
    assert_eq!(open_shares(FLAT, &[1, 2, 3], &[5, 2, 5, 2, 1, 2], 1, &mut out), wrong(&[(3, 2)]));
    assert_eq!(out, [5, 2]);
    assert_eq!(holders(0b101).collect::<Vec<_>>(), [1, 3]);

    for p in outside() {
        declines(Refusal::Parameters, 6, |o| deal(p, &[5, 2], &[3, 1], o));
        declines(Refusal::Parameters, 2, |o| open_shares(p, &[], &[], u64::MAX, o));
    }
    for n in [0, 1, 3, 5, 1000] {
        let long = vec![0; n];
        declines(Refusal::Length, 6, |o| deal(BOOK, &long, &[3, 1], o));
        declines(Refusal::Length, 6, |o| deal(BOOK, &[5, 2], &long, o));
        declines(Refusal::Length, n, |o| deal(BOOK, &[5, 2], &[3, 1], o));
        declines(Refusal::Length, 2, |o| open_shares(BOOK, &[1, 2, 3], &long, 0, o));
        declines(Refusal::Length, n, |o| open_shares(BOOK, &[1, 2, 3], &shares, 0, o));
    }
    declines(Refusal::WideWord, 6, |o| deal(BOOK, &[8, 2], &[3, 1], o));
    declines(Refusal::WideWord, 6, |o| deal(BOOK, &[5, 2], &[3, 8], o));
    for wrong in [[0, 1, 2], [1, 2, 4], [1, 1, 3], [2, 1, 3], [1, 2, u64::MAX]] {
        declines(Refusal::Holder, 2, |o| open_shares(BOOK, &wrong, &[8; 6], 0, o));
    }
    for e in [1, 2, 1 << 63, u64::MAX] {
        declines(Refusal::TooFewShares, 2, |o| open_shares(BOOK, &[1, 2, 3], &shares, e, o));
        declines(Refusal::TooFewShares, 2, |o| open_shares(BOOK, &[1, 2, 3], &[0, 3, 4, 4, 7, 8], e, o));
    }
    declines(Refusal::TooFewShares, 2, |o| open_shares(BOOK, &[], &[], 0, o));
    declines(Refusal::NoCodeword, 2, |o| open_shares(BOOK, &[1, 2, 3], &[0, 3, 4, 4, 3, 5], 0, o));
}

/// A share with a wide word is present, and wrong.
#[test]
fn wide_shares() {
    let mut out = [0; 2];
    assert_eq!(open_shares(FLAT, &[1, 2, 3], &[5, 2, 5 + 8, 2, 5, 2], 1, &mut out), wrong(&[(2, 3)]));
    assert_eq!(out, [5, 2]);
    assert_eq!(open_shares(FLAT, &[1, 2, 3], &[5, 2, 5, 2, 8, u64::MAX], 1, &mut out), wrong(&[(3, 0)]));
    assert_eq!(out, [5, 2]);
    declines(Refusal::NoCodeword, 2, |o| open_shares(FLAT, &[1, 2, 3], &[5, 2, 5 + 8, 2, 5, 2], 0, o));
    declines(Refusal::NoCodeword, 2, |o| open_shares(FLAT, &[1, 2, 3], &[5, 2, 5 + 8, 2, 5 + 8, 2], 1, o));
    declines(Refusal::NoCodeword, 2, |o| open_shares(FLAT, &[1, 2, 3], &[5, 2, 5 + 8, 2, 1, 2], 1, o));
    declines(Refusal::TooFewShares, 2, |o| open_shares(FLAT, &[1, 2], &[5, 2, 5 + 8, 2], 1, o));
}

/// The lowest bit over all words of a wrong share, and of a wide word at all 64 bits.
#[test]
fn lowest_bits() {
    const FIVE: Params = Params { k: 6, d: 3, n: 5, t: 0 };
    let (right, top) = ([5, 2, 0], 1 << 63);
    for (share, bit) in [
        ([5 ^ 32, 2, 2], 1),
        ([5 ^ 2, 2, 32], 1),
        ([4, 2, 0], 0),
        ([5, 2 ^ 48, 0], 4),
        ([5, 2, 32], 5),
        ([5 + 64, 2, 0], 6),
        ([5 + top, 2, 64], 6),
        ([5, 2, top], 63),
        ([5 + 64, 2, 4], 2),
        ([5 ^ 4, 2 + top, 0], 2),
        ([!5, !2, !0], 0),
    ] {
        for holder in 1..=5 {
            let other = 1 + holder % 5;
            let words: Vec<u64> = (1..=5).flat_map(|i| if i == holder { share } else { [5, 2, if i == other { 16 } else { 0 }] }).collect();
            let mut out = [0; 3];
            let opened = open_shares(FIVE, &[1, 2, 3, 4, 5], &words, 2, &mut out);
            assert_eq!((out, opened), (right, wrong(&[(holder, bit), (other, 4)])));
            let opened = opened.unwrap();
            assert_eq!((opened.lowest_bit(holder), opened.lowest_bit(other)), (Some(bit), Some(4)));
            let named: Vec<usize> = (0..=64).filter(|i| opened.lowest_bit(*i).is_some()).collect();
            assert_eq!(named, holders(opened.wrong).collect::<Vec<_>>());
            assert_eq!((opened.lowest_bit(65), opened.lowest_bit(usize::MAX)), (None, None));
        }
    }
}

#[test]
fn readings() {
    for (k, w, value) in [(8, 127, 127), (8, 128, -128), (1, 1, -1), (64, u64::MAX, -1), (64, 1 << 63, i64::MIN), (63, 1 << 62, -(1 << 62))]
    {
        assert_eq!(signed(k, w), Ok(value));
    }
    assert_eq!(signed(0, 0), Err(Refusal::Parameters));
    assert_eq!(signed(65, u64::MAX), Err(Refusal::Parameters));
    assert_eq!(signed(8, 256), Err(Refusal::WideWord));
}

#[test]
fn writers() {
    let mut order = [0; ORDER_SIZE];
    assert_eq!(write_order(1, &mut order), Ok(()));
    assert_eq!(order, [3, 0, 0, 0, 16, 0, 1]);
    for n in [0, 6, 8] {
        declines_bytes(Refusal::Length, n, |o| write_order(1, o));
    }
    for p in outside() {
        declines_bytes(Refusal::Parameters, 83, |o| write_file(p, 0, 7, &[10, 10], &[8; 4], o));
    }
    let many: Vec<u64> = (0..1001).collect();
    let size = file_size(FLAT, many.len()).unwrap();
    declines_bytes(Refusal::Parameters, size, |o| write_file(FLAT, 1, 7, &many, &[0; 2002], o));
    for n in [0, 82, 84] {
        declines_bytes(Refusal::Length, n, |o| write_file(FLAT, 0, 7, &[10, 11], &[5, 2, 5, 2], o));
    }
    declines_bytes(Refusal::Length, 83, |o| write_file(FLAT, 1, 7, &[10, 11], &[5, 2, 5], o));
    declines_bytes(Refusal::Holder, 83, |o| write_file(FLAT, 0, 7, &[10, 10], &[8; 4], o));
    declines_bytes(Refusal::Holder, 83, |o| write_file(FLAT, usize::MAX, 7, &[10, 11], &[5, 2, 5, 2], o));
    declines_bytes(Refusal::Malformed, 83, |o| write_file(FLAT, 1, 7, &[10, 10], &[8; 4], o));
    declines_bytes(Refusal::WideWord, 83, |o| write_file(FLAT, 1, 7, &[10, 11], &[5, 2, 5, 8], o));
    assert_eq!(file_size(Params { d: usize::MAX, ..FLAT }, 1), None);
    assert_eq!(file_size(FLAT, usize::MAX), None);

    let bundle = bundle();
    let files = &bundle[ORDER_SIZE..];
    for n in [0, 255, 257] {
        declines_bytes(Refusal::Length, n, |o| write_bundle(1, files, o));
    }
    declines_bytes(Refusal::Malformed, 7, |o| write_bundle(1, &[], o));
    declines_bytes(Refusal::Malformed, 255, |o| write_bundle(1, &files[..248], o));
    let swapped = [&files[83..166], &files[..83]].concat();
    declines_bytes(Refusal::Holder, 173, |o| write_bundle(1, &swapped, o));
    let mut stranger = files.to_vec();
    stranger[83 + 11] ^= 1;
    declines_bytes(Refusal::Mismatched, 256, |o| write_bundle(1, &stranger, o));
    stranger[6] = 65;
    declines_bytes(Refusal::Parameters, 256, |o| write_bundle(1, &stranger, o));
}

/// An opening at a desk with this record, on an output of so many poisoned words: it declines as named, and leaves both.
fn desk_declines(expected: Refusal, record: [u64; 2], length: usize, bytes: &[u8], place: usize) {
    let mut desk = Desk::from_record(record);
    declines(expected, length, |o| desk.open_place(bytes, place, o));
    assert_eq!(desk.record(), record);
}

/// Every call on a bundle declines with the bundle's own number, whatever else is wrong.
fn refuses(expected: Refusal, bytes: &[u8]) {
    assert_eq!(accept(bytes), Err(expected));
    for n in [0, 2] {
        declines(expected, n, |o| open_place(bytes, usize::MAX, o));
        declines(expected, n, |o| open_run(bytes, 9, 0, o));
        declines(expected, n, |o| total(bytes, 0, 9, 0, o));
        declines(expected, n, |o| add_total(bytes, 0, 9, 0, o));
    }
    assert_eq!(fetch_body(bytes, 0, usize::MAX), Err(expected));
    assert_eq!(fetch_range(bytes, 1, 0), Err(expected));
    assert_eq!(fetch_fault(bytes, 0, usize::MAX), Err(expected));
    assert_eq!(describe(bytes), Err(expected));
    assert_eq!(job_number(bytes, usize::MAX), Err(expected));
    assert_eq!(file(bytes, usize::MAX), Err(expected));
    assert_eq!(files(bytes), Err(expected));
    for n in [0, LINE] {
        declines_bytes(expected, n, |o| list_line(bytes, usize::MAX, o));
    }
    for n in [0, bytes.len(), 300] {
        declines_bytes(expected, n, |o| mend(bytes, o));
    }
    for n in [0, 2] {
        desk_declines(expected, [3, 0], n, bytes, usize::MAX);
        desk_declines(expected, [0, 0], n, bytes, 0);
        // but for the desk's own fault
        desk_declines(Refusal::Parameters, [1001, 0], n, bytes, usize::MAX);
    }
}

#[test]
fn faults() {
    let right = bundle();
    let changed = |at: usize, value: u8| {
        let mut bytes = right.clone();
        bytes[at] = value;
        bytes
    };
    refuses(Refusal::Malformed, &[]);
    refuses(Refusal::Malformed, &right[..7]);
    refuses(Refusal::Malformed, &right[..255]);
    refuses(Refusal::Malformed, &changed(7, 20));
    refuses(Refusal::Malformed, &changed(66, 10));
    for (at, value) in [(13, 0), (13, 65), (15, 4), (16, 3), (27, 4)] {
        refuses(Refusal::Parameters, &changed(at, value));
    }
    for (at, value) in [(17, 0), (17, 4), (100, 1)] {
        refuses(Refusal::Holder, &changed(at, value));
    }
    for (at, value) in [(101, 8), (96, 4), (119, 9)] {
        refuses(Refusal::Mismatched, &changed(at, value));
    }
}

#[test]
fn descriptions() {
    let bundle = bundle();
    let about = describe(&bundle).unwrap();
    assert_eq!(about, Description { e: 1, params: FLAT, archive: 7, jobs: 2, files: 3, file_size: 83 });
    assert_eq!(Some(about.file_size), file_size(about.params, about.jobs));
    let numbers: Vec<u64> = (0..about.jobs).map(|place| job_number(&bundle, place).unwrap()).collect();
    assert_eq!(numbers, [10, 11]);
    let parts = files(&bundle).unwrap();
    assert_eq!(parts.iter().map(|part| part.holder).collect::<Vec<_>>(), [1, 2, 3]);
    assert_eq!(parts.iter().map(|part| part.range.clone()).collect::<Vec<_>>(), [7..90, 90..173, 173..256]);
    for place in [2, usize::MAX] {
        assert_eq!(job_number(&bundle, place), Err(Refusal::OutOfRange));
    }
    for index in [3, usize::MAX] {
        assert_eq!(file(&bundle, index), Err(Refusal::OutOfRange));
    }
    for part in parts {
        let mut lone = bundle[part.range].to_vec();
        assert_eq!(check_file(&lone), Ok(()));
        for n in 0..lone.len() {
            assert_eq!(check_file(&lone[..n]), Err(Refusal::Malformed));
        }
        for (at, value, expected) in
            [(6, 65, Refusal::Parameters), (20, 4, Refusal::Parameters), (10, 0, Refusal::Holder), (10, 4, Refusal::Holder)]
        {
            let old = std::mem::replace(&mut lone[at], value);
            assert_eq!(check_file(&lone), Err(expected));
            lone[at] = old;
        }
        lone.push(0);
        assert_eq!(check_file(&lone), Err(Refusal::Malformed));
    }
    assert_eq!(check_file(&bundle), Err(Refusal::Malformed));
}

#[test]
fn reads() {
    let mut bundle = bundle();
    let read_all: Result<Vec<(u64, &[u8])>, Refusal> = records(&bundle).collect();
    let all = read_all.unwrap();
    assert_eq!(all.iter().map(|(kind, _)| *kind).collect::<Vec<_>>(), [ORDER, HEADING, JOB, JOB, HEADING, JOB, JOB, HEADING, JOB, JOB]);
    assert_eq!(all[0].1, [1]);
    assert_eq!(all[3].1, &bundle[66..90]);
    assert_eq!(read(&bundle, 0), Ok(Step::Record { kind: ORDER, body: 6..7 }));
    assert_eq!(read(&bundle, 256), Ok(Step::End));
    assert_eq!(read(&[], 0), Ok(Step::End));
    for cursor in [1, 255, 257, usize::MAX] {
        assert_eq!(read(&bundle, cursor), Err(Refusal::Malformed));
    }
    assert_eq!(read(&[], 1), Err(Refusal::Malformed));
    assert_eq!(records(&[]).next(), None);
    bundle.truncate(255);
    assert_eq!(records(&bundle).filter(Result::is_ok).count(), 9);
    assert_eq!(records(&bundle).last(), Some(Err(Refusal::Malformed)));
}

#[test]
fn bundles() {
    let bundle = bundle();
    let mut out = [0; 2];
    assert_eq!(accept(&bundle), Ok(()));
    assert_eq!(open_place(&bundle, 0, &mut out), wrong(&[(3, 2)]));
    assert_eq!(out, [5, 2]);
    assert_eq!(total(&bundle, 1, 0, 2, &mut out), Ok(()));
    assert_eq!(out, [2, 4]);
    assert_eq!(open_run(&bundle, 1, 1, &mut out), wrong(&[]));
    assert_eq!(out, [0, 0]);
    assert_eq!(open_run(&bundle, 0, 1, &mut out), wrong(&[(3, 2)]));
    assert_eq!(out, [5, 2]);
    assert_eq!(fetch_range(&bundle, 2, 1), Ok(149..173));
    assert_eq!(fetch_body(&bundle, 2, 1).map(|b| b[0]), Ok(11));
    assert_eq!(fetch_fault(&bundle, 2, 1), Ok(()));
    let mut line = [0xa5; LINE + 1];
    assert_eq!(list_line(&bundle, 0, &mut line), Ok(17));
    assert_eq!(&line[..17], b"10 open 3/2 -3,2\n");
    assert!(line[17..].iter().all(|b| *b == 0xa5));

    declines(Refusal::NoCodeword, 2, |o| open_place(&bundle, 1, o));
    declines(Refusal::NoCodeword, 2, |o| open_run(&bundle, 0, 2, o));
    for place in [2, usize::MAX] {
        declines(Refusal::OutOfRange, 2, |o| open_place(&bundle, place, o));
        assert_eq!(fetch_body(&bundle, 2, place), Err(Refusal::OutOfRange));
        assert_eq!(fetch_fault(&bundle, 2, place), Err(Refusal::OutOfRange));
        declines_bytes(Refusal::OutOfRange, LINE, |o| list_line(&bundle, place, o));
    }
    for (a, b) in [(2, 1), (0, 3), (0, usize::MAX), (usize::MAX, usize::MAX)] {
        declines(Refusal::OutOfRange, 2, |o| open_run(&bundle, a, b, o));
        declines(Refusal::OutOfRange, 2, |o| total(&bundle, 1, a, b, o));
    }
    for n in [0, 1, 3] {
        declines(Refusal::Length, n, |o| open_place(&bundle, 9, o));
        declines(Refusal::Length, n, |o| open_run(&bundle, 9, 8, o));
        declines(Refusal::Length, n, |o| total(&bundle, 1, 9, 8, o));
    }
    for holder in [0, 4, usize::MAX] {
        declines(Refusal::Holder, 0, |o| total(&bundle, holder, 9, 8, o));
        assert_eq!(fetch_body(&bundle, holder, 9), Err(Refusal::Holder));
        assert_eq!(fetch_fault(&bundle, holder, 9), Err(Refusal::Holder));
    }
    for n in [0, LINE - 1] {
        declines_bytes(Refusal::Length, n, |o| list_line(&bundle, 9, o));
    }
    // holder 3's share of job 10 is right in its low bits, and wide
    let mut wide = bundle.clone();
    (wide[210], wide[217]) = (5, 128);
    assert_eq!(open_place(&wide, 0, &mut out), wrong(&[(3, 63)]));
    assert_eq!(out, [5, 2]);
    assert_eq!(list_line(&wide, 0, &mut line), Ok(18));
    assert_eq!(&line[..18], b"10 open 3/63 -3,2\n");
    declines(Refusal::WideWord, 2, |o| open_run(&wide, 0, 1, o));
    declines(Refusal::WideWord, 2, |o| open_run(&wide, 0, 2, o));
    declines(Refusal::WideWord, 2, |o| total(&wide, 3, 0, 1, o));
    assert_eq!(total(&wide, 1, 0, 2, &mut out), Ok(()));
    wide[44] = 5 + 8;
    declines(Refusal::NoCodeword, 2, |o| open_place(&wide, 0, o));
    assert_eq!(list_line(&wide, 0, &mut line), Ok(9));
    assert_eq!(&line[..9], b"10 6 - -\n");
    let mut few = bundle.clone();
    few[6] = 2;
    declines(Refusal::TooFewShares, 2, |o| open_place(&few, 0, o));
    declines(Refusal::TooFewShares, 2, |o| open_run(&few, 0, 0, o));
}

/// The lent words after a run of a holder's file is added to them; where that declines they are as they were.
fn added(bytes: &[u8], holder: usize, a: usize, b: usize, lent: &[u64]) -> Result<Vec<u64>, Refusal> {
    let mut running = lent.to_vec();
    let answer = add_total(bytes, holder, a, b, &mut running);
    assert!(answer.is_ok() || running == lent);
    answer.map(|()| running)
}

/// Totals added to a lent element: the files have (5, 2) and (5, 2), (5, 2) and (1, 2), (1, 2) and (7, 2).
#[test]
fn running_totals() {
    let bundle = bundle();
    assert_eq!(added(&bundle, 1, 0, 2, &[7, 5]), Ok(vec![1, 1]));
    // one run after another, and one file after another
    let mut running = [7, 5];
    for (holder, a, b, words) in [(1, 0, 1, [4, 7]), (1, 1, 1, [4, 7]), (1, 1, 2, [1, 1]), (2, 0, 2, [7, 5]), (3, 1, 2, [6, 7])] {
        assert_eq!(add_total(&bundle, holder, a, b, &mut running), Ok(()));
        assert_eq!(running, words);
    }
    for holder in 1..=3 {
        for (a, b) in [(0, 0), (0, 1), (0, 2), (1, 1), (1, 2), (2, 2)] {
            let mut out = [0; 2];
            total(&bundle, holder, a, b, &mut out).unwrap();
            assert_eq!(added(&bundle, holder, a, b, &[0, 0]), Ok(out.to_vec()));
        }
    }

    // 4, 2, 9, 3, each where all that come after it hold too
    for holder in [0, 4, usize::MAX] {
        assert_eq!(added(&bundle, holder, 9, 8, &[8; 3]), Err(Refusal::Holder));
    }
    for n in [0, 1, 3, 4] {
        assert_eq!(added(&bundle, 1, 9, 8, &vec![8; n]), Err(Refusal::Length));
    }
    for (a, b) in [(2, 1), (0, 3), (3, 3), (0, usize::MAX), (usize::MAX, usize::MAX)] {
        assert_eq!(added(&bundle, 1, a, b, &[8, 8]), Err(Refusal::OutOfRange));
    }
    for lent in [[8, 5], [7, 8], [1 << 63, 0], [0, u64::MAX]] {
        for (a, b) in [(0, 0), (0, 2), (2, 2)] {
            assert_eq!(added(&bundle, 1, a, b, &lent), Err(Refusal::WideWord));
        }
    }
    // a wide word in the first job of holder 3 and in the last word of holder 2's: it counts in the runs that have it
    let mut wide = bundle;
    (wide[217], wide[172]) = (128, 1);
    for (holder, first, last) in [(1, true, true), (2, true, false), (3, false, true)] {
        assert_eq!(added(&wide, holder, 0, 1, &[7, 5]).is_ok(), first);
        assert_eq!(added(&wide, holder, 1, 2, &[7, 5]).is_ok(), last);
        assert_eq!(added(&wide, holder, 0, 2, &[7, 5]).err(), if first && last { None } else { Some(Refusal::WideWord) });
        assert_eq!(added(&wide, holder, 1, 1, &[7, 5]), Ok(vec![7, 5]));
    }
}

fn mended(bytes: &[u8]) -> Vec<u8> {
    let mut out = vec![0xa5; bytes.len()];
    assert_eq!(mend(bytes, &mut out), Ok(()));
    out
}

/// Paper 02's sample: holder 3's share of job 10 is replaced, and job 11, which declines, stays.
#[test]
fn mending() {
    let bundle = bundle();
    let mut right = bundle.clone();
    right[210] = 5;
    assert_eq!(mended(&bundle), right);
    assert_eq!(mended(&right), right);
    let mut out = [0; 2];
    assert_eq!(open_place(&right, 0, &mut out), wrong(&[]));
    assert_eq!(out, [5, 2]);
    declines(Refusal::NoCodeword, 2, |o| open_place(&right, 1, o));
    for n in [0, 1, 255, 257, 512] {
        declines_bytes(Refusal::Length, n, |o| mend(&bundle, o));
    }
    // a wide share is replaced whole, also where its low bits are right, and stays in a job that declines
    let mut wide = bundle.clone();
    (wide[210], wide[217], wide[81]) = (5, 128, 1);
    right[81] = 1;
    assert_eq!(mended(&wide), right);
    // with an allowance of 2 the files are too few, and with a second wrong share the allowance is
    for (at, value) in [(6, 2), (44, 4)] {
        let mut kept = bundle.clone();
        kept[at] = value;
        assert_eq!(mended(&kept), kept);
    }
    // no jobs: nothing to mend
    let mut file = [0; 23];
    write_file(FLAT, 3, 7, &[], &[], &mut file).unwrap();
    let mut empty = [0; 30];
    write_bundle(1, &file, &mut empty).unwrap();
    assert_eq!(mended(&empty), empty);
}

/// Files that were written, two shares of each job changed since, one in all its bits and one to a wide word: mended they are as they were written.
#[test]
fn mending_gives_the_written_files() {
    const SEVEN: Params = Params { k: 5, d: 3, n: 7, t: 2 };
    let (mut shares, mut words) = ([0; 21], vec![vec![]; 7]);
    for job in 0..4 {
        deal(SEVEN, &[job, 31, 8], &[3, job, 30, 17, 0, 9], &mut shares).unwrap();
        words.iter_mut().zip(shares.chunks(3)).for_each(|(all, share)| all.extend(share));
    }
    let size = file_size(SEVEN, 4).unwrap();
    let mut files = vec![0; 7 * size];
    for (i, file) in files.chunks_mut(size).enumerate() {
        write_file(SEVEN, i + 1, 9, &[1, 2, 3, u64::MAX], &words[i], file).unwrap();
    }
    let mut bundle = vec![0; ORDER_SIZE + files.len()];
    write_bundle(2, &files, &mut bundle).unwrap();
    let mut changed = bundle.clone();
    for place in 0..4 {
        let first = fetch_range(&bundle, 1 + place, place).unwrap();
        let second = fetch_range(&bundle, 7 - place / 2, place).unwrap();
        changed[first][8..].fill(0xff);
        changed[second.end - 1] ^= 1 << place;
    }
    assert_ne!(changed, bundle);
    assert_eq!(mended(&changed), bundle);
    assert_eq!(mended(&bundle), bundle);
}

/// What a start stores, also over a record that no start leaves.
#[test]
fn desk_starts() {
    for q in [0, 1, 3, 999, 1000] {
        let mut desk = Desk::start(q).unwrap();
        assert_eq!((desk.record(), desk.allowance(), desk.count()), ([q, 0], q, 0));
        for record in [[7, 3], [7, 7], [0, 0], [u64::MAX, u64::MAX]] {
            desk = Desk::from_record(record);
            assert_eq!(desk.restart(q), Ok(()));
            assert_eq!(desk.record(), [q, 0]);
        }
    }
    for q in [1001, 1002, 1 << 32, 1 << 63, u64::MAX] {
        assert_eq!(Desk::start(q), Err(Refusal::Parameters));
        let mut desk = Desk::from_record([7, 3]);
        assert_eq!(desk.restart(q), Err(Refusal::Parameters));
        assert_eq!(desk.record(), [7, 3]);
    }
}

/// 1, 2, 9, 10, each where all that come after it hold too, and then 5 and 6. `refuses` has the bundle's own numbers.
#[test]
fn desk_orders() {
    let bundle = bundle();
    let mut few = bundle.clone();
    few[6] = 2;
    for q in [1001, 1 << 63, u64::MAX] {
        desk_declines(Refusal::Parameters, [q, q], 3, &few, 2);
        desk_declines(Refusal::Parameters, [q, 0], 2, &bundle, 0);
    }
    for n in [0, 1, 3] {
        desk_declines(Refusal::Length, [3, 3], n, &few, 2);
        desk_declines(Refusal::Length, [3, 0], n, &bundle, 0);
    }
    for closed in [[0, 0], [0, 1], [1, 1], [3, 3], [3, 4], [1000, 1000], [1000, 1 << 63], [1000, u64::MAX]] {
        for place in [2, usize::MAX] {
            desk_declines(Refusal::OutOfRange, closed, 2, &few, place);
        }
        desk_declines(Refusal::DeskClosed, closed, 2, &bundle, 0);
        desk_declines(Refusal::DeskClosed, closed, 2, &bundle, 1);
        desk_declines(Refusal::DeskClosed, closed, 2, &few, 0);
    }
    for open in [[1, 0], [3, 2], [1000, 999]] {
        desk_declines(Refusal::OutOfRange, open, 2, &few, 2);
        desk_declines(Refusal::TooFewShares, open, 2, &few, 0);
        desk_declines(Refusal::NoCodeword, open, 2, &bundle, 1);
    }
}

/// Months at one desk, its record stored and taken up again between openings: as many openings as are allowed, each as without a desk, and refusals
/// not counted.
#[test]
fn desk_months() {
    let bundle = bundle();
    // holder 3's share of job 10 right, and wide; and an allowance that the files are too few for
    let (mut right, mut wide, mut few) = (bundle.clone(), bundle.clone(), bundle.clone());
    right[210] = 5;
    (wide[210], wide[217]) = (5, 128);
    few[6] = 2;
    let mut desk = Desk::start(1).unwrap();
    for q in [3, 0, 1000, 1] {
        desk.restart(q).unwrap();
        for count in 0..q {
            assert_eq!(desk.open_place(&few, 0, &mut [0; 2]), Err(Refusal::TooFewShares));
            assert_eq!(desk.open_place(&bundle, 1, &mut [0; 2]), Err(Refusal::NoCodeword));
            desk = Desk::from_record(desk.record());
            let bytes = [&bundle, &right, &wide][count as usize % 3];
            let (mut out, mut without) = ([POISON; 2], [POISON; 2]);
            assert_eq!(desk.open_place(bytes, 0, &mut out), open_place(bytes, 0, &mut without));
            assert_eq!((out, without), ([5, 2], [5, 2]));
            assert_eq!((desk.allowance(), desk.count()), (q, count + 1));
        }
        declines(Refusal::DeskClosed, 2, |o| desk.open_place(&bundle, 0, o));
        assert_eq!(desk.restart(1001), Err(Refusal::Parameters));
        assert_eq!(desk.record(), [q, q]);
    }
    // closed, it closes nothing else
    let mut out = [0; 2];
    assert_eq!(open_place(&bundle, 0, &mut out), wrong(&[(3, 2)]));
    assert_eq!(open_run(&bundle, 0, 1, &mut out), wrong(&[(3, 2)]));
    assert_eq!(total(&bundle, 1, 0, 2, &mut out), Ok(()));
    assert_eq!(list_line(&bundle, 0, &mut [0; LINE]), Ok(17));
    assert_eq!(mended(&bundle), right);
    assert_eq!(desk.record(), [1, 1]);
}

/// The labs' own book, with words of k bits.
fn lens(k: u64) -> Params {
    Params { k, d: 4, n: 15, t: 4 }
}

/// The job of paper 02's five lines: 10, and (-325, 50, 90, 218) in words of 16 bits.
const TEXT: &str = "JOB=10\r\nSPH=-3.25\r\nCYL=0.50\r\nAX=90\r\nCTHICK=2.18\r\n";
const LENS_JOB: [u64; 4] = [65536 - 325, 50, 90, 218];

/// The text of a number and of four values.
fn text_of(number: u64, values: [i128; 4]) -> String {
    let [sphere, cylinder, axis, thickness] = values;
    let hundredths = |v: i128| format!("{}{}.{:02}", if v < 0 { "-" } else { "" }, v.abs() / 100, v.abs() % 100);
    let (sphere, cylinder, thickness) = (hundredths(sphere), hundredths(cylinder), hundredths(thickness));
    format!("JOB={number}\r\nSPH={sphere}\r\nCYL={cylinder}\r\nAX={axis}\r\nCTHICK={thickness}\r\n")
}

/// A job whose text this is: the length is told, the text is written, into its own length alone, and read again.
fn one_job(k: u64, number: u64, words: [u64; 4], text: &str) {
    let (p, n) = (lens(k), text.len());
    assert_eq!(text_size(p, number, &words), Ok(n));
    let mut out = vec![0xa5; n + 2];
    assert_eq!(write_text(p, number, &words, &mut out[1..=n]), Ok(()));
    assert_eq!(out[1..=n].escape_ascii().to_string(), text.as_bytes().escape_ascii().to_string());
    assert_eq!((out[0], out[n + 1]), (0xa5, 0xa5));
    assert_eq!(job_text(p, number, &words).as_deref(), Ok(text.as_bytes()));
    assert_eq!(read_text(p, text.as_bytes()), Ok((number, words)));
    for other in [0, n - 1, n + 1, 2 * n] {
        declines_bytes(Refusal::Length, other, |o| write_text(p, number, &words, o));
    }
}

/// Known texts, and for each width the least and the greatest value of a word, in each line; those below and above are no text.
#[test]
fn texts() {
    one_job(16, 10, LENS_JOB, TEXT);
    one_job(8, 9, [5, 251, 255, 156], "JOB=9\r\nSPH=0.05\r\nCYL=-0.05\r\nAX=-1\r\nCTHICK=-1.00\r\n");
    one_job(1, 0, [1, 0, 1, 0], "JOB=0\r\nSPH=-0.01\r\nCYL=0.00\r\nAX=-1\r\nCTHICK=0.00\r\n");
    one_job(64, u64::MAX, [u64::MAX; 4], "JOB=18446744073709551615\r\nSPH=-0.01\r\nCYL=-0.01\r\nAX=-1\r\nCTHICK=-0.01\r\n");
    let least = "-92233720368547758.08";
    let longest = format!("JOB=18446744073709551615\r\nSPH={least}\r\nCYL={least}\r\nAX=-9223372036854775808\r\nCTHICK={least}\r\n");
    assert_eq!(longest.len(), 135);
    one_job(64, u64::MAX, [1 << 63; 4], &longest);

    // where a digit more is needed
    for power in (0..20).map(|i| 10_u64.pow(i)) {
        for number in [power - 1, power, power + 1] {
            let small = number.min(i64::MAX as u64);
            one_job(64, number, [small; 4], &text_of(number, [small.into(); 4]));
            one_job(64, number, [small.wrapping_neg(); 4], &text_of(number, [-i128::from(small); 4]));
        }
    }
    for k in 1..=64 {
        let (high, mask) = (1_i128 << (k - 1), u64::MAX >> (64 - k));
        for value in [-high, 1 - high, high / -2, -100, -99, -10, -1, 0, 1, 9, 10, 99, 100, high / 2, high - 1] {
            let value = value.clamp(-high, high - 1);
            let word = value as u64 & mask;
            one_job(k, word, [word; 4], &text_of(word, [value; 4]));
            for at in 0..4 {
                let (mut words, mut values) = ([0; 4], [0; 4]);
                (words[at], values[at]) = (word, value);
                one_job(k, !word, words, &text_of(!word, values));
            }
        }
        // with a power of two more or less they would be the same word
        for value in [-high - 1, high, high + 1, 2 * high - 1, 2 * high, -2 * high, 1 << 64, (1 << 64) - 1, -(1 << 64)] {
            for at in 0..4 {
                let mut values = [0; 4];
                values[at] = value;
                assert_eq!(read_text(lens(k), text_of(7, values).as_bytes()), Err(Refusal::Text));
            }
        }
    }
}

/// 1 before all else; then 2 for the words, 3, 2 for the text.
#[test]
fn text_orders() {
    let mut books = outside();
    books.extend([2, 3, 5, 6, 260].map(|d| Params { k: 16, d, n: 3, t: 1 }));
    books.extend([0, 65, 272, u64::MAX].map(|k| Params { k, ..lens(16) }));
    books.extend([0, 16, usize::MAX].map(|n| Params { n, ..lens(16) }));
    books.extend([15, 16, usize::MAX].map(|t| Params { t, ..lens(16) }));
    for p in books {
        for words in [&LENS_JOB[..], &[65536; 4], &[65536; 5], &[]] {
            assert_eq!(text_size(p, 10, words), Err(Refusal::Parameters));
            assert_eq!(job_text(p, 10, words), Err(Refusal::Parameters));
            for n in [0, TEXT.len()] {
                declines_bytes(Refusal::Parameters, n, |o| write_text(p, 10, words, o));
            }
        }
        for text in [TEXT, ""] {
            assert_eq!(read_text(p, text.as_bytes()), Err(Refusal::Parameters));
        }
    }
    for n in [0, 1, 2, 3, 5, 8] {
        for word in [0, 65536] {
            assert_eq!(text_size(lens(16), 10, &vec![word; n]), Err(Refusal::Length));
            assert_eq!(job_text(lens(16), 10, &vec![word; n]), Err(Refusal::Length));
            declines_bytes(Refusal::Length, TEXT.len(), |o| write_text(lens(16), 10, &vec![word; n], o));
        }
    }
    for k in [1, 2, 8, 16, 63] {
        for (at, word) in (0..12).map(|i| (i / 3, [1 << k, 1 << 63, u64::MAX][i % 3])) {
            let mut words = [0; 4];
            words[at] = word;
            assert_eq!(text_size(lens(k), 10, &words), Err(Refusal::WideWord));
            assert_eq!(job_text(lens(k), 10, &words), Err(Refusal::WideWord));
            for n in [0, 1, 47, TEXT.len(), 135, 1000] {
                declines_bytes(Refusal::WideWord, n, |o| write_text(lens(k), 10, &words, o));
            }
        }
    }
    for n in (0..200).filter(|n| *n != TEXT.len()) {
        declines_bytes(Refusal::Length, n, |o| write_text(lens(16), 10, &LENS_JOB, o));
    }
    // every book with d 4 has the same text
    for (n, t) in [(1, 0), (2, 1), (15, 0), (15, 14)] {
        let p = Params { k: 16, d: 4, n, t };
        assert_eq!(job_text(p, 10, &LENS_JOB).as_deref(), Ok(TEXT.as_bytes()));
        assert_eq!(read_text(p, TEXT.as_bytes()), Ok((10, LENS_JOB)));
    }
}

/// Text that no job has: one line of the example in another form, less, more or in another place; and every beginning of it.
#[test]
fn other_texts() {
    let none = |text: &str| assert_eq!(read_text(lens(16), text.as_bytes()), Err(Refusal::Text), "{}", text.escape_debug());
    let lines = ["JOB=10", "SPH=-3.25", "CYL=0.50", "AX=90", "CTHICK=2.18"];
    let with = |at: usize, line: &str| {
        lines.iter().enumerate().map(|(i, l)| if i == at { line.into() } else { format!("{l}\r\n") }).collect::<String>()
    };
    assert_eq!(with(5, ""), TEXT);
    for (at, line) in lines.iter().enumerate() {
        let (label, value) = line.split_once('=').unwrap();
        let whole = at == 0 || at == 3;
        for other in ["", "-", "-0", "+1", "01", "-01", "00", " 1", "1 ", "1.", ".", "a", "1a", "1\r", "1\n"] {
            none(&with(at, &format!("{label}={other}\r\n")));
        }
        for other in ["-0.00", "+1.00", "01.00", "-01.00", ".50", "-.50", "1.5", "1.500", "1,50", "1.5 ", "1. 5", "- 1.00", "1.-1"] {
            none(&with(at, &format!("{label}={other}\r\n")));
        }
        for other in if whole { ["1.00", "0.50"] } else { ["1", "50"] } {
            none(&with(at, &format!("{label}={other}\r\n")));
        }
        for end in ["", "\n", "\r", "\n\r", "\r\r\n", " \r\n", "\r\n ", "\r\n\r\n", "\r\nJOB=10\r\n", "\r\nCTHICK=2.18\r\n"] {
            none(&with(at, &format!("{line}{end}")));
        }
        for label in [label.to_lowercase(), format!(" {label}"), format!("{label} "), format!("{label}="), label[1..].into(), "D".into()] {
            none(&with(at, &format!("{label}={value}\r\n")));
        }
        none(&with(at, &format!("{label}{value}\r\n")));
        none(&with(at, &format!("{label}:{value}\r\n")));
        none(&with(at, ""));
        none(&with(at, &format!("{line}\r\n{line}\r\n")));
        none(&with(at, &format!("{}\r\n", lines[(at + 1) % 5])));
    }
    for number in ["-1", "18446744073709551616", "18446744073709551626", "99999999999999999999", "36893488147419103242"] {
        none(&with(0, &format!("JOB={number}\r\n")));
    }
    for n in 0..TEXT.len() {
        none(&TEXT[..n]);
        none(&TEXT[n + 1..]);
    }
    none(&TEXT.repeat(2));
    for byte in 0..=255 {
        for at in [0, 8, TEXT.len()] {
            let mut text = TEXT.as_bytes().to_vec();
            text.insert(at, byte);
            assert_eq!(read_text(lens(16), &text), Err(Refusal::Text));
        }
    }
}
