#!/usr/bin/env python3
"""Writes the stored cases of tests/jobtext/: NAME.in is an input of the program `jobtext`, NAME.out what it prints.

Outputs are those of reference.py. Cases are built from dealt jobs, so that the texts are known without it: they are written here as well, by decimal
arithmetic, and compared, and each is read again. Every case draws from a generator seeded with its own name, so a run always writes the same files.
"""
import pathlib
import random
from collections import namedtuple
from decimal import Decimal

import reference as ref
from mend_cases import NARROW, WIDE, widest
from open_cases import any_bits, bundle, dealt, head, high_bits, wide_words
from reference import Book, heading, job, order

TOP = pathlib.Path(__file__).resolve().parent.parent
FOLDER = TOP / "tests" / "jobtext"
CASES = {}

# A job of a case: its number, its shares as they stand, {holder: words}, and what is printed of it.
Job = namedtuple("Job", "number shares printed")


def case(name, data, expect):
    """Add a case; `expect` is the number of a refusal, or what is printed of each job."""
    assert name not in CASES, name
    printed = ref.job_texts(data)
    assert printed == (f"refused {expect}\n" if isinstance(expect, int) else "".join(expect)), (name, printed, expect)
    CASES[name] = data, printed


def text(number, values):
    """The five lines of a job from its signed values."""
    sphere, cylinder, axis, thickness = values
    lines = f"JOB={number}", f"SPH={hundredths(sphere)}", f"CYL={hundredths(cylinder)}", f"AX={axis}", f"CTHICK={hundredths(thickness)}"
    return "".join(line + "\r\n" for line in lines)


def hundredths(value):
    return str(Decimal(value).scaleb(-2))


def lens(rng, book, e, holders, number, values=None, wrong=0, way=any_bits):
    """A dealt job, of random words if no signed values are lent, the shares of so many holders damaged in one way.

    It answers 5 by how many holders there are, and opens where at most e shares are damaged. Otherwise it answers 6 where more than e shares are
    wide, and also where a polynomial within e of the shares would meet the dealt one in t + 1 of them, and so be the same.
    """
    ring, m = ref.ring_of(book.k, book.d), len(holders)
    words, shares = dealt(rng, book, None if values is None else tuple(value & ring.mask for value in values))
    changes = way(rng, ring, shares, sorted(rng.sample(list(holders), wrong)))
    if m >= book.t + 1 + 2 * e and wrong <= e:
        printed = text(number, [word - (word >> book.k - 1 << book.k) for word in words])
        assert ref.read_text(book, printed.encode()) == (number, words)
    else:
        wide = sum(not ring.in_width(share) for share in changes.values())
        assert m < book.t + 1 + 2 * e or wide > e or m - wrong - e >= book.t + 1, "nothing says what this job answers"
        printed = f"{number} refused {5 if m < book.t + 1 + 2 * e else 6}\n"
    return Job(number, {**shares, **changes}, printed)


def built(name, book, e, holders, jobs):
    """Add a case of such jobs."""
    data = bundle(e, book, holders, [(number, shares) for number, shares, _ in jobs])
    case(name, data, [printed for _, _, printed in jobs])
    return len(data)


def planned(name, book, e, holders, plan):
    """Add a case whose jobs the plan tells: g good, e damaged in exactly e shares, 6 in one too many, all of them wide."""
    rng = random.Random(name)
    jobs = [lens(rng, book, e, holders, 10 + at, None, {"g": 0, "e": e, "6": e + 1}[kind], wide_words if kind == "6" else NARROW[at % len(NARROW)])
            for at, kind in enumerate(plan)]
    assert [x.printed.endswith("refused 6\n") for x in jobs] == [kind == "6" for kind in plan], name
    return built(name, book, e, holders, jobs)


# ---------------------------------------------------------------- texts

def marked():
    """The example of a text between shares of which one is wrong, with a job that answers 6, and the labs' own sample, as it is listed."""
    book, words, zero = ref.LENS_BOOK, ref.LENS, (0, 0, 0, 0)
    first, second = {1: words, 2: words, 3: zero}, {1: words, 2: zero, 3: (1, 0, 0, 0)}
    data = bundle(1, book, [1, 2, 3], [(10, first), (11, second)])
    case("sample", data, ["JOB=10\r\nSPH=-3.25\r\nCYL=0.50\r\nAX=90\r\nCTHICK=2.18\r\n", "11 refused 6\n"])
    case("sample-two-files", data[:-115], ["10 refused 5\n", "11 refused 5\n"])
    listed = [line.split() for line in (TOP / "samples" / "labs.out").read_text().splitlines()[1:]]
    case("labs", (TOP / "samples" / "labs.bundle").read_bytes(),
         [text(number, words.split(",")) if state == "open" else f"{number} refused {state}\n" for number, state, _, words in listed])


def ends():
    """Words at both ends of the signed range and beside them and zero, each in every line, and the first and the last job number."""
    for k in (1, 2, 8, 16, 33, 63, 64):
        half, name = 1 << k - 1, f"ends-k{k}"
        values = sorted({value for value in (0, 1, -1, half - 1, half - 2, -half, 1 - half) if -half <= value < half})
        numbers = [0, *(2**64 - len(values) + at for at in range(1, len(values)))]
        rng, book = random.Random(name), Book(k, 4, 3, 1)
        built(name, book, 0, [1, 3], [lens(rng, book, 0, [1, 3], number, (values[at:] + 4 * values)[:4]) for at, number in enumerate(numbers)])


def digits():
    """Numbers beside each change in how many digits they have, of either sign, and job numbers that have so many."""
    for k, powers in ((16, range(5)), (64, range(19))):
        values = sorted({0, 5, 50} | {10**i + by for i in powers for by in (-1, 0, 1)})
        for sign, name in ((1, "plus"), (-1, "minus")):
            rng, book = random.Random(f"digits-{name}-k{k}"), Book(k, 4, 1, 0)
            four = [[sign * value for value in (values[at:] + values)[:4]] for at in range(0, len(values), 4)]
            built(f"digits-{name}-k{k}", book, 0, [1], [lens(rng, book, 0, [1], number, x) for number, x in enumerate(four)])
    rng, book, values = random.Random("numbers"), Book(8, 4, 1, 0), (-25, 50, 90, 118)
    numbers = sorted({0, 2**32, 2**63 - 1, 2**63, 2**64 - 1} | {10**i + by for i in range(20) for by in (-1, 0, 1)})
    built("numbers", book, 0, [1], [lens(rng, book, 0, [1], number, values) for number in numbers])


def wrong_shares():
    """At most e wrong shares of every kind, wide ones too, leave no trace in a text; some holders are missing."""
    for k in (1, 2, 8, 16, 63, 64):
        name, e, holders = f"wrong-k{k}", 2, [1, 2, 4, 7, 8, 11, 12, 15]
        rng, book = random.Random(name), Book(k, 4, 15, 2)
        ways = NARROW + (WIDE if k < 64 else [])
        built(name, book, e, holders, [lens(rng, book, e, holders, at, None, 1 + at % e, way) for at, way in enumerate(ways)])


# ---------------------------------------------------------------- jobs without a text

def refused_jobs():
    """Jobs that answer 6 between others, at the ends, alone, and in every place; with wide words and without."""
    book, holders = Book(16, 4, 10, 2), [1, 2, 3, 5, 6, 8, 9, 10]
    for name, plan in (("between", "g6ge66e6g"), ("first-and-last", "6eg6"), ("all", "666"), ("alone", "6")):
        planned(f"refused-{name}", book, 2, holders, plan)
    rng = random.Random("refused-narrow")
    jobs = [lens(rng, Book(64, 4, 9, 1), 1, range(1, 10), at, None, wrong, high_bits) for at, wrong in enumerate((2, 1, 6, 0))]
    built("refused-narrow", Book(64, 4, 9, 1), 1, range(1, 10), jobs)


def too_few():
    """Jobs that answer 5, damaged or not: e too large by one, and so large that 2e must not wrap at 256."""
    book = Book(8, 4, 7, 2)
    for e in (3, 255):
        rng = random.Random(f"too-few-e{e}")
        jobs = [lens(rng, book, e, range(1, 8), number, None, wrong) for number, wrong in ((0, 0), (2**64 - 1, 2))]
        built(f"too-few-e{e}", book, e, range(1, 8), jobs)
    built("just-enough", book, 2, range(1, 8), [lens(random.Random("just-enough"), book, 2, range(1, 8), 4, (-128, 127, -1, 5), 2, widest)])


def wide():
    """A wide word counts in its share alone; with k 64 there is none."""
    book, words = Book(8, 4, 3, 0), (250, 7, 90, 1)
    high = (250 + 256, 7, 90, 1)
    case("wide-e0", bundle(0, book, [2], [(1, {2: high}), (2, {2: words})]), ["1 refused 6\n", text(2, (-6, 7, 90, 1))])
    case("wide-right-in-low-bits", bundle(1, book, [1, 2, 3], [(1, {1: words, 2: high, 3: words}), (2, {1: high, 2: high, 3: words})]),
         [text(1, (-6, 7, 90, 1)), "2 refused 6\n"])


def no_jobs():
    """J 0: nothing is printed, whatever e is."""
    for e in (0, 255):
        built(f"no-jobs-e{e}", Book(64, 4, 15, 0), e, [1, 15], [])


# ---------------------------------------------------------------- declined inputs

def other_d():
    """ "Only books with d 4 have this text, others give 1": where jobs open, where they do not, and where there are none."""
    for d in (2, 3, 5, 6):
        rng, book = random.Random(f"d{d}"), Book(16, d, 3, 0)
        shares = dealt(rng, book)[1]
        case(f"d{d}", bundle(1, book, [1, 2, 3], [(10, shares), (11, {**shares, 3: (0,) * d})]), 1)
    case("d2-sample", ref.sample(), 1)
    case("d3-too-few", bundle(255, Book(16, 3, 3, 0), [1], [(10, {1: (1, 2, 3)})]), 1)
    case("d6-no-jobs", bundle(0, Book(64, 6, 63, 0), [1], []), 1)


def declined():
    """Some of each number, with good jobs before the fault: `refused N` alone is printed. A fault of the bundle comes before its d."""
    book, words = ref.LENS_BOOK, ref.LENS

    def file(holder, numbers=(10, 11), **fields):
        fields = {"k": 16, "d": 4, "jobs": len(numbers), **fields}
        return head(holder, **fields) + b"".join(job(number, words) for number in numbers)

    good = order(0) + file(1) + file(2)
    for name, data, number in (
            ("empty", b"", 7), ("cut", good[:-1], 7), ("trailing-byte", good + b"\n", 7),
            ("number-falls", order(0) + file(1, (11, 10)), 7),
            ("book-k65", order(0) + file(1, k=65), 1), ("book-t3-late", good + file(3, t=3), 1),
            ("j1001", order(0) + heading(book, 1, 7, 1001), 1), ("holder-0", order(0) + file(0), 4), ("holder-twice", good + file(2), 4),
            ("stranger-archive", good + file(3, archive=8), 8), ("stranger-number", good + file(3, (10, 12)), 8),
            ("stranger-d", good + file(3, (), d=2), 8), ("d2-cut", ref.sample()[:255], 7), ("d2-then-d4", ref.sample()[:90] + file(2), 8)):
        case(name, data, number)


# ---------------------------------------------------------------- long inputs

def long_inputs():
    """The largest inputs and the longest output; "input that is too long gives 2 before any record is looked at": over 65,536 bytes."""
    book, least = Book(64, 4, 1, 0), -2**63
    rng = random.Random("long-1000-jobs")
    built("long-1000-jobs", book, 0, [1], [lens(rng, book, 0, [1], 2**64 - 1000 + at, (least, least + at, least, least)) for at in range(1000)])
    assert len(CASES["long-1000-jobs"][1]) == 135000
    book = Book(32, 4, 15, 2)
    assert planned("long-longest-accepted", book, 2, range(1, 8), ("ege6e" * 41)[:203]) == 65534
    longest = CASES["long-longest-accepted"][0]
    case("long-65536-bytes", longest + bytes(2), 7)
    case("long-65537-zeros", bytes(65537), 2)
    shares = dealt(random.Random("long-too-long"), book)[1]
    data = bundle(2, book, range(1, 8), [(number, shares) for number in range(204)])
    assert len(data) > ref.LONGEST_INPUT and ref.number_of(ref.Bundle, data) == 0
    case("long-too-long", data, 2)


def write():
    FOLDER.mkdir(parents=True, exist_ok=True)
    for old in [*FOLDER.glob("*.in"), *FOLDER.glob("*.out")]:
        old.unlink()
    for name, (data, printed) in CASES.items():
        (FOLDER / f"{name}.in").write_bytes(data)
        (FOLDER / f"{name}.out").write_bytes(printed.encode())


if __name__ == "__main__":
    for group in (marked, ends, digits, wrong_shares, refused_jobs, too_few, wide, no_jobs, other_d, declined, long_inputs):
        group()
    write()
    print(f"{len(CASES)} cases, {sum(len(data) + len(printed) for data, printed in CASES.values())} bytes")
