#!/usr/bin/env python3
"""Writes the stored cases of tests/mend/: NAME.in is an input of the program `mend`, NAME.out what it prints, and NAME.new the mended bundle, which
a refused input does not have.

Outputs and bundles are those of reference.py. Cases are built from dealt jobs, so that the lines and the mended bundle are known without it: they are
written here as well and compared. Of every accepted input the sentences of paper 02, K2, are judged too. Every case draws from a generator seeded
with its own name, so a run always writes the same files.
"""
import pathlib
import random
from collections import namedtuple

import reference as ref
from open_cases import (DAMAGE, H1, H2, H3, PIECES, PLACES, any_bits, bundle, dealt, flipped, head, high_bits, jobs_within, search_through_subsets,
                        wide_and_wrong, wide_word, wide_words, with_piece)
from reference import Book, heading, job, order, record

TOP = pathlib.Path(__file__).resolve().parent.parent
FOLDER = TOP / "tests" / "mend"
CASES = {}

# A job of a case: the shares that were dealt, {holder: words}, what stands instead of some of them, and the number that it answers, 0 where it opens.
Job = namedtuple("Job", "number shares changes answer")


def case(name, data, expect, new=None):
    """Add a case; `expect` is the number of a refusal, or the lines, and `new` the mended bundle where it is known."""
    assert name not in CASES, name
    printed, fresh = ref.report(data), None
    if isinstance(expect, int):  # the call has no longest input
        assert printed == f"refused {expect}\n" and (expect == 2 or ref.mended(data) == expect), (name, printed)
    else:
        fresh = ref.mended(data)
        assert printed.splitlines() == expect, (name, printed, expect)
        assert new in (None, fresh), name
        judge(name, data, fresh, printed.splitlines())
    CASES[name] = data, printed, fresh


def opening(read, place):
    """Words and wrong holders of a job, each with the lowest bit that differs, or its number."""
    try:
        return ref.open_shares(read.book, read.shares(place), read.e)
    except ref.Refused as refused:
        return refused.number


def judge(name, data, new, lines):
    """What the request says of a mended bundle, read from the openings before and after alone.

    "Opening the mended bundle gives the same words and names nobody wrong in the opened jobs"; a job that answers 5 or 6 "keeps its bytes", so its
    number; what is printed is the changed places, "by job and then by holder"; "No other byte differs". From these follow that mending twice is
    mending once, and that a file all of whose jobs opened is one that the writer writes.
    """
    before, after, named, told, all_open = ref.Bundle(data), ref.Bundle(new), [], [], True
    search_through_subsets(name, before)
    for place, number in enumerate(before.numbers):
        was, now = opening(before, place), opening(after, place)
        if isinstance(was, int):
            assert now == was, (name, place)
            told.append(f"{number} refused {was}")
            all_open = False
            continue
        words, wrong = was
        assert now == (words, {}), (name, place)
        values_elsewhere(name, before, after, place, wrong)
        named += [(place, holder) for holder in wrong]
        told += [f"{number} holder {holder}" for holder in wrong]
    assert told == lines, (name, told)
    no_other_byte(name, before, named, data, new)
    assert ref.mended(new) == new, name
    if all_open:
        book, archive, jobs = before.first
        for holder, start, length in after.parts:
            flat = [word for place in range(jobs) for word in after.words(holder, place)]
            assert new[start:start + length] == ref.write_file(book, holder, archive, before.numbers, flat), (name, holder)


def values_elsewhere(name, before, after, place, wrong):
    """The values at the wrong holders once more, from the last t + 1 right shares, where the reference takes the first."""
    book, shares = before.book, before.shares(place)
    right = tuple(i for i in shares if i not in wrong)[-book.t - 1:]
    for i in wrong:
        assert after.words(i, place) == ref.through(ref.ring_of(book.k, book.d), shares, right, i), (name, place, i)


def no_other_byte(name, before, named, data, new):
    """The words of the named places differ, and no byte outside them does."""
    starts, size = {holder: start for holder, start, _ in before.parts}, 8 * before.book.d
    old = bytearray(data)
    for place, holder in named:
        at = starts[holder] + 23 + place * (14 + size) + 14  # after the heading, the jobs before it, and this one's frame and number
        assert old[at:at + size] != new[at:at + size], (name, place, holder)
        old[at:at + size] = new[at:at + size]
    assert old == new, name


def built(name, book, e, holders, jobs, archive=7):
    """Add a case of dealt jobs: those that open are mended to what was dealt, the others keep what stands there."""
    now = [(number, {**shares, **changes}) for number, shares, changes, _ in jobs]
    then = [(number, {**shares, **changes} if answer else shares) for number, shares, changes, answer in jobs]
    lines = []
    for number, _, changes, answer in jobs:
        lines += [f"{number} refused {answer}"] if answer else [f"{number} holder {i}" for i in sorted(changes)]
    case(name, bundle(e, book, holders, now, archive), lines, bundle(e, book, holders, then, archive))


def damaged_job(rng, book, e, holders, number, wrong, way):
    """A dealt job, the shares of the holders `wrong`, or of so many, damaged in one way.

    Its number is 5 by how many holders there are, and 0 where at most e are damaged. Otherwise it is 6 where more than e shares are wide, and also
    where a polynomial within e of the shares would meet the dealt one in t + 1 of them, and so be the same.
    """
    ring, m = ref.ring_of(book.k, book.d), len(holders)
    wrong = sorted(rng.sample(list(holders), wrong) if isinstance(wrong, int) else wrong)
    shares = dealt(rng, book)[1]
    changes = way(rng, ring, shares, wrong)
    assert sorted(changes) == wrong and all(changes[i] != shares[i] for i in wrong)
    if m < book.t + 1 + 2 * e:
        return Job(number, shares, changes, 5)
    if len(wrong) <= e:
        return Job(number, shares, changes, 0)
    wide = sum(not ring.in_width(share) for share in changes.values())
    assert wide > e or m - len(wrong) - e >= book.t + 1, "nothing says what this job answers"
    return Job(number, shares, changes, 6)


# ---------------------------------------------------------------- more damage, beside that of open_cases.py

def any_bit(rng, ring, shares, wrong):
    """One bit anywhere."""
    return {i: flipped(shares[i], [(rng.randrange(ring.d), rng.randrange(ring.k))]) for i in wrong}


def another_word(rng, ring, word):
    return (word + rng.randint(1, ring.mask)) & ring.mask


def one_word(rng, ring, shares, wrong):
    """One word another."""
    changes = {}
    for i in wrong:
        at = rng.randrange(ring.d)
        changes[i] = shares[i][:at] + (another_word(rng, ring, shares[i][at]),) + shares[i][at + 1:]
    return changes


def all_words(rng, ring, shares, wrong):
    """Every word another."""
    return {i: tuple(another_word(rng, ring, word) for word in shares[i]) for i in wrong}


def others_share(rng, ring, shares, wrong):
    """What was dealt to another holder; where all were dealt the same, another element."""
    other = {i: [share for share in shares.values() if share != shares[i]] for i in wrong}
    return {i: rng.choice(other[i]) if other[i] else any_bits(rng, ring, shares, [i])[i] for i in wrong}


def high_coefficient(rng, ring, shares, wrong):
    """As from a polynomial with another highest bit in its second coefficient; points are not zero modulo 2, so every share differs."""
    return {i: ring.add(shares[i], tuple(x << ring.k - 1 for x in ring.point(i))) for i in wrong}


def zeros(rng, ring, shares, wrong):
    """Nothing left of the words, or ones all over where they were zeros."""
    return {i: ring.zero if any(shares[i]) else (ring.mask,) * ring.d for i in wrong}


def widest(rng, ring, shares, wrong):
    """All 64 bits of every word."""
    return {i: (2**64 - 1,) * ring.d for i in wrong}


WIDE = [wide_word, wide_words, wide_and_wrong, widest]
NARROW = DAMAGE + [any_bit, one_word, all_words, others_share, high_coefficient, zeros]


def ways(k):
    """All ways of damage that words of k bits have, those that make them wide among the others."""
    return NARROW if k == 64 else [way for pair in zip(NARROW, WIDE * len(NARROW)) for way in pair]


def planned(name, book, e, holders, plan, first=0, step=1):
    """Add a case whose jobs the plan tells: g good, d damaged in at most e shares, e in exactly e, 6 in one too many."""
    rng, jobs, tight = random.Random(name), [], len(holders) == book.t + 1 + 2 * e
    for at, kind in enumerate(plan):
        wrong = {"g": 0, "d": rng.randint(min(1, e), e), "e": e, "6": e + 1}[kind]
        way = wide_words if kind == "6" and tight else NARROW[at % len(NARROW)]
        jobs.append(damaged_job(rng, book, e, holders, first + at * step, wrong, way))
    assert [x.answer for x in jobs] == [6 if kind == "6" else 0 for kind in plan], name
    built(name, book, e, holders, jobs)
    return len(CASES[name][0])


# ---------------------------------------------------------------- mended jobs

def marked():
    """The paper's examples that are bundles, its near misses, and the labs' own sample."""
    new = ref.sample({**ref.SAMPLE_JOBS, 10: [(5, 2)] * 3})
    case("sample", ref.sample(), ["10 holder 3", "11 refused 6"], new)
    case("sample-mended", new, ["11 refused 6"], new)
    line_book, flat = Book(3, 2, 3, 1), ref.SAMPLE_BOOK
    line = {1: (0, 3), 2: (4, 4), 3: (7, 5)}
    built("m5", line_book, 0, [1, 2, 3], [Job(1, line, {}, 0)])
    built("m6", line_book, 0, [1, 2, 3], [Job(1, line, {3: (3, 5)}, 6)])
    built("m7", line_book, 0, [1, 3], [Job(1, {**line, 3: (3, 5)}, {}, 0)])
    built("m8", line_book, 1, [1, 2, 3], [Job(1, line, {}, 5)])
    for holder in (1, 2, 3):
        built(f"m9-holder-{holder}", flat, 1, [1, 2, 3], [Job(10, {i: (5, 2) for i in (1, 2, 3)}, {holder: (1, 2)}, 0)])
    labs = (TOP / "samples" / "labs.bundle").read_bytes()
    case("labs", labs, ["502 holder 3", "507 holder 5", "507 holder 12", "507 holder 15", "511 holder 1", "523 refused 6"])
    case("labs-mended", ref.mended(labs), ["523 refused 6"], ref.mended(labs))


def random_bundles():
    """Books of every d and many k, some holders missing, at most e wrong in each job, in every way."""
    turn = 0
    for d in ref.MODULUS:
        for k in (1, 3, 8, 31, 32, 33, 63, 64):
            name = f"mend-d{d}-k{k}"
            rng = random.Random(name)
            n = rng.randint(3, 2**d - 1)
            m = rng.randint(3, min(n, 11))
            book, holders = Book(k, d, n, rng.randint(0, m - 3)), sorted(rng.sample(range(1, n + 1), m))
            e = rng.randint(1, (m - book.t - 1) // 2)
            number, jobs = rng.getrandbits(20), []
            for _ in range(jobs_within(m, d)):
                jobs.append(damaged_job(rng, book, e, holders, number, rng.randint(1, e), ways(k)[turn % len(ways(k))]))
                number += rng.randint(1, 300)
                turn += 1
            built(name, book, e, holders, jobs, rng.getrandbits(64))


def every_allowance():
    """Each e from 0 to 31, used up: 31 lines for a job where all 63 holders have the same share."""
    for e in range(32):
        name = f"allowance-{e}"
        rng = random.Random(name)
        d = max(2, (2 * e + 1).bit_length())
        t = rng.randint(0, min(3, 2**d - 2 - 2 * e))
        k = rng.choice((1, 3, 8, 31, 32, 33, 63, 64))
        m = t + 1 + 2 * e
        book = Book(k, d, rng.randint(m, 2**d - 1), t)
        holders = sorted(rng.sample(range(1, book.n + 1), m))
        built(name, book, e, holders, [damaged_job(rng, book, e, holders, e, e, ways(k)[e % len(ways(k))])])


def extreme_books():
    """All holders of a d, with the greatest degree that leaves something to mend, and with the greatest allowance of a line."""
    for d in ref.MODULUS:
        full = 2**d - 1
        for t, e, k in sorted({(full - 3, 1, 64), (1, (full - 2) // 2, 13)} if d > 2 else {(0, 1, 64)}):
            name = f"extreme-d{d}-t{t}-e{e}"
            rng, book = random.Random(name), Book(k, d, full, t)
            holders = range(1, full + 1)
            built(name, book, e, holders, [damaged_job(rng, book, e, holders, number, e, way) for number, way in ((1, any_bits), (2, any_bit))])


def other_polynomial():
    """Wrong shares that lie on another polynomial, which t of the others lie on as well: only the count tells which is right."""
    for d, k, t, e in ((2, 3, 0, 1), (3, 8, 2, 2), (4, 16, 3, 3), (5, 33, 1, 4), (6, 64, 4, 3)):
        for step, kind in ((1, "any"), (1 << k - 1, "high")):
            name = f"other-polynomial-{kind}-d{d}-k{k}-t{t}-e{e}"
            rng, ring, book = random.Random(name), ref.ring_of(k, d), Book(k, d, min(2**d - 1, t + 2 + 2 * e), t)
            holders = rng.sample(range(1, book.n + 1), t + 1 + 2 * e)
            shares, changes = dealt(rng, book)[1], {}
            for i in holders[t:t + e]:
                gap = (step,) + ring.zero[1:]
                for j in holders[:t]:
                    gap = ring.mul(gap, ring.sub(ring.point(i), ring.point(j)))
                changes[i] = ring.add(shares[i], gap)
            built(name, book, e, sorted(holders), [Job(9, shares, changes, 0)])


def levels():
    """Shares wrong at one level are replaced in all their bits, and use up the allowance of the levels above."""
    book, ring, shares = Book(8, 3, 7, 0), ref.ring_of(8, 3), {i: (200, 3, 77) for i in range(1, 8)}
    plans = [({2: (1, 0, 0)}, 0), ({2: (1, 0, 0), 5: (0, 0, 128)}, 0), ({2: (255, 255, 255)}, 0),
             ({2: (1, 0, 0), 3: (0, 2, 0), 7: (0, 0, 4)}, 0), ({2: (1, 0, 0), 3: (0, 2, 0), 4: (4, 0, 0), 7: (0, 0, 8)}, 6),
             ({1: (128, 0, 0), 2: (0, 128, 0), 3: (0, 0, 128), 4: (128, 128, 0)}, 6)]
    for e in (0, 1, 2, 3):
        jobs = [Job(at, shares, {i: ring.add(shares[i], by) for i, by in plan.items()}, answer or (6 if len(plan) > e else 0))
                for at, (plan, answer) in enumerate(plans)]
        built(f"levels-e{e}", book, e, range(1, 8), jobs)


def undamaged():
    """Nothing is wrong: nothing is printed, and the new bundle is the old one."""
    for d, k in ((2, 1), (3, 64), (4, 16), (5, 33), (6, 8)):
        name = f"undamaged-d{d}-k{k}"
        rng, book = random.Random(name), Book(k, d, min(9, 2**d - 1), d - 2)
        holders = range(1, book.n + 1)
        e = (book.n - book.t - 1) // 2
        built(name, book, e, holders, [damaged_job(rng, book, e, holders, number, 0, any_bits) for number in range(3)])
    zero, top = {i: (0, 0) for i in (1, 2, 3)}, {i: (7, 7) for i in (1, 2, 3)}
    built("undamaged-zeros-and-ones", ref.SAMPLE_BOOK, 1, [1, 2, 3], [Job(1, zero, {}, 0), Job(2, top, {}, 0)])
    built("mended-to-zeros-and-ones", ref.SAMPLE_BOOK, 1, [1, 2, 3], [Job(1, zero, {2: (0, 4)}, 0), Job(2, top, {1: (0, 0)}, 0)])


# ---------------------------------------------------------------- jobs that keep their bytes

def refused_jobs():
    """Jobs that answer 6 between good ones and between damaged ones, at the ends, alone, and in every place."""
    for book, e, holders in ((Book(3, 3, 7, 0), 2, range(1, 8)), (Book(64, 4, 10, 2), 2, [1, 2, 3, 5, 6, 8, 9, 10])):
        for name, plan in (("between-good", "g6g6g"), ("between-damaged", "d6dd6d"), ("first-and-last", "6dgd6"), ("first", "6d"), ("last", "d6"),
                           ("mixed", "dg66gdg6d"), ("all", "666"), ("alone", "6")):
            planned(f"refused-{name}-k{book.k}-d{book.d}", book, e, holders, plan, 10)


def too_few():
    """ "A job that answers 5 .. keeps its bytes", damaged or not: e too large by one, and so large that 2e must not wrap at 256."""
    book, holders = Book(8, 3, 7, 2), range(1, 8)
    for e in (3, 126, 128, 255):
        rng = random.Random(f"too-few-e{e}")
        jobs = [damaged_job(rng, book, e, holders, *plan) for plan in ((4, 0, any_bits), (5, 1, any_bits), (6, 2, wide_word))]
        built(f"too-few-e{e}", book, e, holders, jobs)
    built("too-few-no-jobs", book, 255, holders, [])
    for present, e in (([3], 0), ([1, 4, 6], 1), ([1, 2, 4, 6], 1), ([1, 2, 4, 6, 7], 1)):
        name = f"holders-{'-'.join(map(str, present))}-e{e}"
        built(name, book, e, present, [damaged_job(random.Random(name), book, e, present, 4, e, one_word)])
    for cut in (90, 173):
        case(f"sample-cut-{cut}", ref.sample()[:cut], ["10 refused 5", "11 refused 5"], ref.sample()[:cut])


def no_jobs():
    """J 0: nothing to mend, and nothing is printed."""
    for d in (2, 6):
        built(f"no-jobs-d{d}", Book(64, d, 2**d - 1, 0), 0, [1, 2**d - 1], [])


# ---------------------------------------------------------------- wide words

def wide():
    """A share with a wide word is wrong and is replaced whole, also where its low bits are right; with more than e of them all stay."""
    for k, d in ((1, 3), (8, 4), (63, 6)):
        book, e = Book(k, d, 7, 1), 2

        def wide_case(name, *jobs):
            """Jobs of all seven holders: (wrong, way) each."""
            name = f"wide-{name}-k{k}-d{d}"
            rng = random.Random(name)
            built(name, book, e, range(1, 8), [damaged_job(rng, book, e, range(1, 8), number, *plan) for number, plan in enumerate(jobs)])

        wide_case("low-bits-right", (1, wide_word), (2, wide_words))
        wide_case("and-wrong", (2, wide_and_wrong), (1, widest))
        wide_case("over", (1, wide_word), (3, wide_word), (2, wide_words), (7, wide_words), (0, any_bits))
        name = f"wide-beside-wrong-k{k}-d{d}"
        rng, ring = random.Random(name), ref.ring_of(k, d)
        shares = dealt(rng, book)[1]
        beside = {**wide_word(rng, ring, shares, [6]), **high_bits(rng, ring, shares, [2])}
        over = {**beside, **wide_words(rng, ring, shares, [1])}
        least = {2: (shares[2][0] + (1 << k),) + shares[2][1:], 5: shares[5][:-1] + (1 << k,)}
        built(name, book, e, range(1, 8), [Job(1, shares, beside, 0), Job(2, shares, over, 6), Job(3, shares, least, 0)])
    flat = {i: (5, 2) for i in (1, 2, 3)}
    built("wide-e0-alone", ref.SAMPLE_BOOK, 0, [2], [Job(1, flat, {2: (13, 2)}, 6), Job(2, flat, {}, 0)])
    built("no-word-is-wide-k64", Book(64, 2, 3, 0), 1, [1, 2, 3], [Job(1, {i: (2**64 - 1, 2**63) for i in (1, 2, 3)}, {2: (2**64 - 1, 0)}, 0)])


# ---------------------------------------------------------------- numbers

def numbers():
    """Job and archive numbers of all 64 bits, printed unsigned; lines by job and then by holder."""
    book, shares = Book(8, 3, 5, 0), {i: (1, 255, 7) for i in range(1, 6)}
    for name, rising in (("zero", [0]), ("greatest", [2**64 - 1]), ("ends", [0, 2**64 - 1]), ("middle", [2**63 - 1, 2**63, 2**63 + 1]),
                         ("powers-of-ten", [10**i for i in range(20)]), ("bytes", [256**i - 1 for i in range(9)])):
        built(f"numbers-{name}", book, 1, [1, 3, 4], [Job(number, shares, {(1, 3, 4)[at % 3]: (0, 255, 7)}, 0) for at, number in enumerate(rising)])
        built(f"numbers-{name}-refused", book, 1, [1, 3, 4], [Job(number, shares, {1: (0, 0, 7), 4: (0, 9, 7)}, 6) for number in rising])
    for archive in (0, 2**64 - 1):
        built(f"archive-{archive}", book, 2, range(1, 6), [Job(at, shares, {2: (0, 0, 0), 5: (8, 8, 8)}, 0) for at in (1, 2)], archive)
    rng, book = random.Random("holder-63"), Book(17, 6, 63, 1)
    holders = [1, 9, 10, 62, 63]
    built("holder-63", book, 1, holders, [damaged_job(rng, book, 1, holders, at, [holder], any_bits) for at, holder in enumerate(holders)])


# ---------------------------------------------------------------- declined inputs

def declined():
    """Some of each number, with damaged shares before the fault: nothing is mended, and `refused N` alone is printed."""
    sample = ref.sample()
    case("empty", b"", 7)
    case("order-alone", order(1), 7)
    case("order-missing", sample[PLACES[1]:], 7)
    for cut in (3, 89, 113, 255):
        case(f"cut-{cut:03}", sample[:cut], 7)
    case("trailing-byte", sample + b"\0", 7)
    case("kind-unknown", with_piece({9: record(17, PIECES[9][6:])}), 7)
    case("job-length", with_piece({9: record(2, PIECES[9][6:] + bytes(8))}), 7)
    case("number-falls", with_piece({9: job(9, (7, 2))}), 7)
    case("book-k65", with_piece({H1: head(1, k=65)}), 1)
    case("book-t3-late", with_piece({H3: head(3, t=3)}), 1)
    case("j1001", order(0) + head(1, jobs=1001), 1)
    case("holder-0", with_piece({H1: head(0)}), 4)
    case("holder-twice", with_piece({H3: head(2)}), 4)
    case("stranger-archive", with_piece({H2: head(2, archive=8)}), 8)
    case("stranger-number", with_piece({9: job(12, (7, 2))}), 8)
    case("stranger-book-last", sample + heading(Book(3, 3, 7, 0), 4, 7, 2), 8)


# ---------------------------------------------------------------- long inputs

def lengths():
    """How long an accepted bundle of at most the longest input can be, by files, jobs and d."""
    return {7 + files * (23 + jobs * (14 + 8 * d)) for d in ref.MODULUS for files in range(1, 2**d) for jobs in range(ref.MOST_JOBS + 1)}


def long_inputs():
    """The largest inputs; "input that is too long gives 2 before any record is looked at": over 65,536 bytes."""
    def slow(name, book, e, count):
        """The decoder's longest way: in every job the shares that are read first are wrong, each in another bit."""
        def another_bit(rng, ring, shares, wrong):
            return {i: flipped(shares[i], [(rng.randrange(ring.d), bit)]) for i, bit in zip(wrong, rng.sample(range(ring.k), e))}

        rng, holders = random.Random(name), range(1, book.n + 1)
        built(name, book, e, holders, [damaged_job(rng, book, e, holders, at, range(1, e + 1), another_bit) for at in range(count)])

    slow("long-different-bits", Book(64, 6, 63, 40), 11, 16)
    assert planned("long-63-holders", Book(63, 6, 63, 0), 31, range(1, 64), "eeegeee6eeeeeeee") == 63952
    # Three files are the fewest of which one can be mended. Of two, by which 1,000 jobs fit, one can only tell that they differ.
    assert planned("long-727-jobs", Book(16, 2, 3, 0), 1, [1, 2, 3], ("eeegee6" * 104)[:727], 10**15, 10**12) == 65506
    assert planned("long-1000-jobs", Book(16, 2, 3, 0), 0, [1, 2], "g66g6" * 200) == 60053
    planned("long-longest-accepted", Book(32, 4, 15, 2), 2, range(1, 8), ("edge6e" * 34)[:203])
    longest = CASES["long-longest-accepted"][0]
    accepted = lengths()
    assert len(longest) == max(x for x in accepted if x <= ref.LONGEST_INPUT) == 65534
    assert ref.LONGEST_INPUT not in accepted  # so 65,536 bytes are looked at, and refused
    case("long-65536-bytes", longest + bytes(2), 7)
    case("long-65537-zeros", bytes(65537), 2)


def write():
    FOLDER.mkdir(parents=True, exist_ok=True)
    for old in (path for end in ("in", "out", "new") for path in FOLDER.glob(f"*.{end}")):
        old.unlink()
    for name, (data, printed, new) in CASES.items():
        (FOLDER / f"{name}.in").write_bytes(data)
        (FOLDER / f"{name}.out").write_bytes(printed.encode())
        if new is not None:
            (FOLDER / f"{name}.new").write_bytes(new)


if __name__ == "__main__":
    for group in (marked, random_bundles, every_allowance, extreme_books, other_polynomial, levels, undamaged, refused_jobs, too_few, no_jobs, wide,
                  numbers, declined, long_inputs):
        group()
    write()
    print(f"{len(CASES)} cases, {sum(len(x) for parts in CASES.values() for x in parts if x is not None)} bytes")
