#!/usr/bin/env python3
"""Writes the stored cases of tests/open/: NAME.in is an input of the program `open`, NAME.out its output.

The outputs are those of reference.py. Where a case is built to have a certain answer, that answer is written here as
well and compared; openings with few subsets of shares are also compared with the search through all of them.
Every case draws from a generator seeded with its own name, so a run always writes the same files.
"""
import functools
import math
import operator
import pathlib
import random
import struct

import reference as ref
from reference import Book, heading, job, order, record

FOLDER = pathlib.Path(__file__).resolve().parent.parent / "tests" / "open"
FIRST_LINE = "job state wrong words"
MOST_TERMS = 200000
CASES = {}


def case(name, data, expect=None):
    """Add a case; `expect` is the number of a refusal, or the lines after the first, or None where it is computed only."""
    assert name not in CASES, name
    printed = ref.listing(data)
    if isinstance(expect, int):
        assert printed == f"refused {expect}\n", (name, printed)
    elif expect is not None:
        assert printed.splitlines() == [FIRST_LINE] + expect, (name, printed, expect)
    if not printed.startswith("refused"):
        search_through_subsets(name, ref.Bundle(data))
    CASES[name] = data, printed


def search_through_subsets(name, bundle):
    """The second way of opening, for the jobs of a bundle that come so far."""
    book, e, m = bundle.book, bundle.e, len(bundle.files)
    ring = ref.ring_of(book.k, book.d)
    if m < book.t + 1 + 2 * e or math.comb(m, book.t + 1) * m * (book.t + 1) > MOST_TERMS:
        return
    for place in range(len(bundle.numbers)):
        both = [way(ring, book.t, bundle.shares(place), e) for way in (ref.open_by_jumps, ref.open_by_subsets)]
        assert both[0] == both[1], (name, place)


def bundle(e, book, holders, jobs, archive=7):
    """Bytes of a bundle; `jobs` is a list of (number, {holder: words}). Words may be wide."""
    return order(e) + b"".join(
        heading(book, i, archive, len(jobs)) + b"".join(job(number, shares[i]) for number, shares in jobs)
        for i in holders)


def dealt(rng, book, words=None, step=1):
    """A job (random if none is lent) and its n shares; the coefficients are multiples of `step`."""
    ring = ref.ring_of(book.k, book.d)
    words = ref.random_element(rng, ring) if words is None else words
    coefficients = [tuple(x * step & ring.mask for x in ref.random_element(rng, ring)) for _ in range(book.t)]
    return words, ref.deal(book, words, coefficients)


def bits(before, after):
    """{holder: the lowest bit at which its share became another} of shares before and after some of them changed."""
    gaps = {i: functools.reduce(operator.or_, map(operator.xor, before[i], after[i])) for i in before}
    return {i: (gap & -gap).bit_length() - 1 for i, gap in gaps.items() if gap}


def line(book, number, words, wrong=None):
    """The line of an opened job; `wrong` is {holder: bit}, as dealt and changed shares tell it."""
    signed = ref.ring_of(book.k, book.d).signed
    column = ",".join(f"{holder}/{bit}" for holder, bit in sorted((wrong or {}).items()))
    return f"{number} open {column or '-'} {ref.joined(map(signed, words))}"


# ---------------------------------------------------------------- damage to dealt shares

def flipped(share, bits):
    """`share` with the bits (word, place) turned over."""
    words = list(share)
    for j, place in bits:
        words[j] ^= 1 << place
    return tuple(words)


def any_bits(rng, ring, shares, wrong):
    """Another element altogether."""
    return {i: next(x for x in iter(lambda: ref.random_element(rng, ring), None) if x != shares[i]) for i in wrong}


def high_bits(rng, ring, shares, wrong):
    """The highest bit of some words, so that the share agrees at every lower level."""
    return {i: flipped(shares[i], [(j, ring.k - 1) for j in rng.sample(range(ring.d), rng.randint(1, ring.d))]) for i in wrong}


def lowest_bit(rng, ring, shares, wrong):
    """The lowest bit of one word."""
    return {i: flipped(shares[i], [(rng.randrange(ring.d), 0)]) for i in wrong}


def last_word(rng, ring, shares, wrong):
    """One bit of the last word."""
    return {i: flipped(shares[i], [(ring.d - 1, rng.randrange(ring.k))]) for i in wrong}


def own_levels(rng, ring, shares, wrong):
    """One bit each, spread over the k levels."""
    return {i: flipped(shares[i], [(rng.randrange(ring.d), at * (ring.k - 1) // max(1, len(wrong) - 1))])
            for at, i in enumerate(wrong)}


def moved(rng, ring, shares, wrong, step=1):
    """All onto one other polynomial of the same degree, here a line's or a constant's distance away."""
    while True:
        by = [tuple(x * step & ring.mask for x in ref.random_element(rng, ring)) for _ in range(rng.randint(1, 2))]
        new = {i: ring.add(shares[i], ring.value(by, ring.point(i))) for i in wrong}
        if all(new[i] != shares[i] for i in wrong):
            return new


def moved_above(rng, ring, shares, wrong):
    """Onto another polynomial that is the same in all but the highest bits."""
    return moved(rng, ring, shares, wrong, 1 << ring.k - 1)


DAMAGE = [any_bits, high_bits, lowest_bit, last_word, own_levels, moved, moved_above]


def wide_word(rng, ring, shares, wrong):
    """One wide word, right in its low bits."""
    return {i: ref.widened(rng, ring, shares[i], 1) for i in wrong}


def wide_words(rng, ring, shares, wrong):
    """Every word wide, right in its low bits."""
    return {i: ref.widened(rng, ring, shares[i], ring.d) for i in wrong}


def wide_and_wrong(rng, ring, shares, wrong):
    """Another element, and some words of it wide."""
    return {i: ref.widened(rng, ring, share, rng.randint(1, ring.d)) for i, share in any_bits(rng, ring, shares, wrong).items()}


def damaged(rng, book, shares, wrong, way):
    return {**shares, **way(rng, ref.ring_of(book.k, book.d), shares, wrong)}


# ---------------------------------------------------------------- openings

WIDTHS = [1, 2, 3, 7, 8, 9, 16, 31, 32, 33, 63, 64]


def jobs_within(m, d, most=4):
    """How many jobs keep a bundle of m files below 1,450 bytes; one at least."""
    return max(1, min(most, (1450 // m - 23) // (14 + 8 * d)))


def random_bundles():
    """Books of every d and many k, some holders missing, at most e wrong in each job: every job opens."""
    turn = 0
    for d in ref.MODULUS:
        for k in WIDTHS:
            name = f"open-d{d}-k{k}"
            rng = random.Random(name)
            n = rng.randint(3, 2**d - 1)
            m = rng.randint(3, min(n, 11))
            book, holders = Book(k, d, n, rng.randint(0, m - 3)), sorted(rng.sample(range(1, n + 1), m))
            e = rng.randint(1, (m - book.t - 1) // 2)
            number, jobs, lines = rng.getrandbits(20), [], []
            for _ in range(jobs_within(m, d)):
                words, shares = dealt(rng, book)
                wrong = sorted(rng.sample(holders, rng.randint(0 if turn % 9 == 0 else 1, e)))
                jobs.append((number, damaged(rng, book, shares, wrong, DAMAGE[turn % len(DAMAGE)])))
                lines.append(line(book, number, words, bits(shares, jobs[-1][1])))
                number += rng.randint(1, 300)
                turn += 1
            case(name, bundle(e, book, holders, jobs, rng.getrandbits(64)), lines)


def extreme_books():
    """Least and greatest n, t and e for each d; the allowance used up."""
    for d in ref.MODULUS:
        full = 2**d - 1
        for n, t, e, k in sorted({(1, 0, 0, 64), (full, full - 1, 0, 5), (full, 0, (full - 1) // 2, 64),
                                  (full, 1, (full - 2) // 2, 13), (full, full - 3, 1, 64)}):
            name = f"extreme-d{d}-n{n}-t{t}-e{e}"
            rng = random.Random(name)
            book = Book(k, d, n, t)
            words, shares = dealt(rng, book)
            changed = damaged(rng, book, shares, sorted(rng.sample(sorted(shares), e)), any_bits)
            case(name, bundle(e, book, shares, [(1, changed)]), [line(book, 1, words, bits(shares, changed))])


def too_many_wrong():
    """One more wrong than e. With shares to spare a decoder could correct them, and must not: "e shares or fewer"."""
    for way in DAMAGE:
        for d, k, t, e, spare in ((2, 3, 0, 0, 2), (3, 8, 1, 1, 0), (3, 64, 1, 1, 2), (4, 31, 2, 2, 3)):
            name = f"over-{way.__name__.replace('_', '-')}-d{d}-k{k}-spare{spare}"
            rng = random.Random(name)
            m = t + 1 + 2 * e + spare
            book = Book(k, d, min(2**d - 1, m + 1), t)
            holders = sorted(rng.sample(range(1, book.n + 1), m))
            shares = damaged(rng, book, dealt(rng, book)[1], sorted(rng.sample(holders, e + 1)), way)
            case(name, bundle(e, book, holders, [(5, shares)]), ["5 6 - -"] if spare >= 2 else None)


def majority():
    """Moved shares that, with t others where two polynomials meet, outnumber the rest: the other polynomial opens."""
    for d, k, t, e in ((2, 3, 0, 1), (3, 8, 2, 2), (3, 64, 4, 1), (4, 16, 3, 3), (5, 33, 1, 4), (6, 64, 4, 3)):
        for step, kind in ((1, "any"), (1 << k - 1, "high")):
            name = f"majority-{kind}-d{d}-k{k}-t{t}-e{e}"
            rng = random.Random(name)
            ring, book = ref.ring_of(k, d), Book(k, d, min(2**d - 1, t + 2 + 2 * e), t)
            holders = rng.sample(range(1, book.n + 1), t + 1 + 2 * e)
            words, shares = dealt(rng, book)
            scale = tuple(x * step & ring.mask for x in ring.one)

            def gap(x):
                """A polynomial of degree t that is zero at the first t holders alone, at the point of x."""
                product = scale
                for i in holders[:t]:
                    product = ring.mul(product, ring.sub(ring.point(x), ring.point(i)))
                return product

            other = {i: ring.add(shares[i], gap(i)) for i in holders}
            mixed = {i: shares[i] if i in holders[t + e + 1:] else other[i] for i in holders}
            case(name, bundle(e, book, sorted(holders), [(9, mixed)]), [line(book, 9, ring.add(words, gap(0)), bits(other, mixed))])


def levels():
    """ "Shares found wrong at one level are dropped at the next, and the allowance falls by their number." """
    book, ring = Book(8, 3, 7, 0), ref.ring_of(8, 3)
    words = (200, 3, 77)

    def shares(changes):
        return {i: ring.add(words, changes.get(i, ring.zero)) for i in range(1, 8)}

    jobs = [({2: (1, 0, 0)}, {2: 0}), ({2: (1, 0, 0), 5: (0, 0, 128)}, {2: 0, 5: 7}), ({2: (255, 255, 255)}, {2: 0}),
            ({2: (1, 0, 0), 3: (0, 2, 0), 7: (0, 0, 4)}, {2: 0, 3: 1, 7: 2}),
            ({2: (1, 0, 0), 3: (0, 2, 0), 4: (4, 0, 0), 7: (0, 0, 8)}, None),
            ({1: (128, 0, 0), 2: (0, 128, 0), 3: (0, 0, 128), 4: (128, 128, 0)}, None)]
    for e in (0, 1, 2, 3):
        lines = [line(book, at, words, wrong) if wrong and len(wrong) <= e else f"{at} 6 - -"
                 for at, (_, wrong) in enumerate(jobs)]
        for at in range(0, 6, 3):
            part = [(at + i, shares(changes)) for i, (changes, _) in enumerate(jobs[at:at + 3])]
            case(f"levels-e{e}-{at // 3}", bundle(e, book, range(1, 8), part), lines[at:at + 3])
    case("levels-all-differ", bundle(3, book, range(1, 8), [(1, {i: (i, 0, 0) for i in range(1, 8)})]), ["1 6 - -"])


def low_degrees():
    """ "Each an element, zero or not": jobs and polynomials of zeros, and degrees below t."""
    for d, k in ((2, 3), (3, 64), (4, 8)):
        book, e = Book(k, d, min(7, 2**d - 1), 1 if d > 2 else 0), 1
        rng, ring = random.Random(f"low-{d}"), ref.ring_of(k, d)
        zeros = {i: ring.zero for i in range(1, book.n + 1)}
        constant = {i: (ring.mask,) * d for i in range(1, book.n + 1)}
        even, even_shares = dealt(rng, book, tuple(2 * x & ring.mask for x in ref.random_element(rng, ring)), 2)
        lines = [line(book, 1, ring.zero), line(book, 2, (ring.mask,) * d), line(book, 3, even), line(book, 4, ring.zero, {2: k - 1})]
        damaged_zeros = {**zeros, 2: (0,) * (d - 1) + (1 << k - 1,)}
        jobs = list(enumerate([zeros, constant, even_shares, damaged_zeros], 1))
        case(f"low-degree-d{d}-k{k}", bundle(e, book, zeros, jobs), lines)


def allowances():
    """5 | "m is below t + 1 + 2e": e has no range, and 2e does not wrap at 256."""
    rng = random.Random("allowances")
    book = Book(8, 3, 7, 2)
    words, shares = dealt(rng, book)
    jobs = [(4, shares), (6, shares)]
    for e in (0, 1, 2, 3, 4, 126, 127, 128, 129, 130, 255):
        expect = [line(book, number, words) for number in (4, 6)] if e <= 2 else ["4 5 - -", "6 5 - -"]
        case(f"allowance-{e}", bundle(e, book, shares, jobs), expect)
        case(f"allowance-{e}-no-jobs", bundle(e, book, shares, []), [])
    for present, e in (([3], 0), ([2, 7], 0), ([1, 4, 6], 0), ([1, 4, 6], 1), ([1, 2, 4, 6], 1), ([1, 2, 4, 6, 7], 1),
                       ([5, 6, 7], 0)):
        opens = len(present) >= 3 + 2 * e
        case(f"holders-{'-'.join(map(str, present))}-e{e}", bundle(e, book, present, [(4, shares)]),
             [line(book, 4, words) if opens else "4 5 - -"])
    wide = Book(64, 6, 63, 40)
    words, shares = dealt(rng, wide)
    case("too-few-by-one", bundle(1, wide, list(range(22, 64)), [(4, shares)]), ["4 5 - -"])
    changed = {**shares, 63: (0,) * 6}
    case("just-enough", bundle(1, wide, list(range(21, 64)), [(4, changed)]), [line(wide, 4, words, bits(shares, changed))])


def wide_one_of_three():
    """A wide word "counts only in the job or run opened or added", and there its share is wrong; 5 is judged by m with it."""
    for k, d in ((1, 2), (3, 2), (8, 4), (31, 3), (32, 5), (63, 6)):
        rng = random.Random(f"wide-{k}-{d}")
        book = Book(k, d, 3, 0)
        words, shares = dealt(rng, book)
        for kind, word in (("least", 1 << k), ("greatest", 2**64 - 1)):
            at, holder = rng.randrange(d), rng.randint(1, 3)
            wide = {**shares, holder: shares[holder][:at] + (word,) + shares[holder][at + 1:]}
            no_curve = {1: flipped(shares[1], [(0, 0)]), 2: flipped(shares[2], [(1, 0)]), 3: wide[holder]}
            jobs = [(1, shares), (2, wide), (3, no_curve), (4, shares)]
            case(f"wide-{kind}-k{k}-d{d}", bundle(1, book, shares, jobs),
                 [line(book, 1, words), line(book, 2, words, bits(shares, wide)), "3 6 - -", line(book, 4, words)])
            case(f"wide-{kind}-too-few-k{k}-d{d}", bundle(2, book, shares, jobs), [f"{number} 5 - -" for number in (1, 2, 3, 4)])
    full = Book(64, 2, 1, 0)
    case("no-word-is-wide-k64", bundle(0, full, [1], [(1, {1: (2**64 - 1, 2**63)})]), ["1 open - -1,-9223372036854775808"])
    low_bits_right = {1: (5, 2), 2: (5, 2), 3: (5 + 8, 2)}
    case("wide-right-in-low-bits", bundle(1, Book(3, 2, 3, 0), [1, 2, 3], [(1, low_bits_right)]), ["1 open 3/3 -3,2"])


def wide_shares():
    """Paper 02, K1: a share with a wide word is "present" and "differing from every polynomial": it uses up the allowance."""
    for k, d in ((1, 3), (8, 4), (63, 6)):
        book, e = Book(k, d, 7, 1), 2
        least = book.t + 1 + 2 * e

        def wide_case(name, m, wide, way, others=0):
            """One job of m holders: so many shares wide, and so many others wrong within the width."""
            name = f"wide-{name}-k{k}-d{d}"
            rng = random.Random(name)
            holders = sorted(rng.sample(range(1, 8), m))
            words, shares = dealt(rng, book)
            wrong = rng.sample(holders, wide + others)
            changed = damaged(rng, book, damaged(rng, book, shares, wrong[:wide], way), wrong[wide:], any_bits)
            opened = line(book, 1, words, bits(shares, changed)) if wide + others <= e else "1 6 - -"
            case(name, bundle(e, book, holders, [(1, changed)]), ["1 5 - -" if m < least else opened])

        wide_case("one-word", 7, 1, wide_word)
        wide_case("just-enough", least, e, wide_word)
        wide_case("all-words", least, e, wide_words)
        wide_case("and-wrong", least, e, wide_and_wrong)
        wide_case("beside-wrong", 7, 1, wide_word, 1)
        wide_case("over", 7, e + 1, wide_word)
        wide_case("over-by-wrong", 7, e, wide_word, 1)
        wide_case("over-by-wide", 7, 1, wide_words, e)
        wide_case("over-too-few", least - 1, e + 1, wide_word)
        wide_case("all-shares", 7, 7, wide_words)

        name = f"wide-job-by-job-k{k}-d{d}"
        rng, jobs, lines = random.Random(name), [], []
        for number, wrong in enumerate([[], [1, 2], [], [6, 7], [2, 3, 4], []]):
            words, shares = dealt(rng, book)
            jobs.append((number, damaged(rng, book, shares, wrong, wide_word)))
            lines.append(line(book, number, words, bits(shares, jobs[-1][1])) if len(wrong) <= e else f"{number} 6 - -")
        case(name, bundle(e, book, range(1, 8), jobs), lines)

    book, right, wide = Book(3, 3, 5, 0), (5, 2, 0), (5 + 8, 2, 0)
    other, other_wide = (1, 2, 0), (1, 2, 8)
    case("wide-e0", bundle(0, book, [1, 2, 3], [(1, {1: right, 2: right, 3: wide})]), ["1 6 - -"])
    case("wide-e0-alone", bundle(0, book, [2], [(1, {2: wide}), (2, {2: right})]), ["1 6 - -", "2 open - -3,2,0"])
    # three of five agree in their low bits
    for name, five, expect in (("majority", [right, other, other_wide, right, other_wide], "1 6 - -"),
                               ("minority", [other_wide, right, other_wide, right, right], "1 open 1/2,3/2 -3,2,0")):
        case(f"wide-{name}", bundle(2, book, range(1, 6), [(1, dict(enumerate(five, 1)))]), [expect])
    rng, book = random.Random("wide-none-k64"), Book(64, 3, 7, 2)
    words, shares = dealt(rng, book, (2**64 - 1, 2**63, 2**64 - 2))
    case("wide-none-k64", bundle(2, book, shares, [(1, damaged(rng, book, shares, [3, 7], high_bits))]), [line(book, 1, words, {3: 63, 7: 63})])
    rng, book = random.Random("wide-63-holders"), Book(63, 6, 63, 20)
    words, shares = dealt(rng, book)
    jobs = [(at, damaged(rng, book, shares, wrong, wide_word)) for at, wrong in enumerate((range(1, 22), range(43, 64), range(1, 23)))]
    case("wide-63-holders", bundle(21, book, shares, jobs),
         [line(book, 0, words, dict.fromkeys(range(1, 22), 63)), line(book, 1, words, dict.fromkeys(range(43, 64), 63)), "2 6 - -"])


def flips_case(name, book, e, jobs):
    """Dealt jobs, {holder: the bits (word, place) that are turned over in its share} of each: the lowest place of all its words is told."""
    rng, changed, lines = random.Random(name), [], []
    for number, flips in enumerate(jobs):
        words, shares = dealt(rng, book)
        changed.append((number, {**shares, **{i: flipped(shares[i], places) for i, places in flips.items()}}))
        lines.append(line(book, number, words, {i: min(place for _, place in places) for i, places in flips.items()}))
    case(name, bundle(e, book, range(1, book.n + 1), changed), lines)


def positions():
    """Paper 02, K4: "the lowest bit position at which any of its words differs", and "a wide word is compared at its full 64 bits"."""
    for k, d in ((1, 2), (8, 3), (33, 4), (63, 5), (64, 6)):  # each bit alone, in each word in turn; from k on the word is wide
        flips_case(f"bit-alone-k{k}-d{d}", Book(k, d, 3, 0), 1, [{at % 3 + 1: [(at % d, at)]} for at in range(64)])
    for k, d in ((8, 3), (31, 4), (64, 3), (64, 6)):
        top, last, every = k - 1, d - 1, [(j, place) for j in range(d) for place in range(k)]
        flips_case(f"bit-of-several-k{k}-d{d}", Book(k, d, 7, 1), 2, [
            {1: [(0, 5), (2, 1)], 7: [(0, 1), (2, 5)]},  # not in the first word that differs, and not in the last
            {2: [(1, 6), (2, 5), (0, 4)], 3: [(1, 4), (2, 6), (0, 5)]},
            {4: [(1, 1), (1, 6)]},  # one word
            {5: every, 6: [bit for bit in every if bit[1] >= 2]},
            {1: [(0, top), (last, 0)], 2: [(0, 0), (last, top)]},  # the highest and the lowest of all
            {3: [(last, top)], 7: [(0, top)]}, {6: [(j, top) for j in range(d)]},
            {2: [(0, top), (1, top - 1)], 4: [(last, 0)]}, {}])
    for k, d in ((1, 2), (3, 3), (8, 6), (31, 4), (62, 3)):
        top, last, above = k - 1, d - 1, [(j, place) for j in range(d) for place in range(k, 64)]
        flips_case(f"bit-wide-k{k}-d{d}", Book(k, d, 3, 0), 1, [
            {1: [(0, k)]}, {2: [(last, 63)]}, {3: above},  # right in the low k bits
            {1: [(0, 63), (last, k)]}, {2: [(0, k), (last, 63)]}, {3: [(1, 63), (1, k)]},
            {1: [(0, 63), (last, top)]}, {2: [(0, top), (last, k)]}, {3: [(1, top), (1, k)]},  # wrong below them too, in another word or the same
            {1: above + [(0, 0)]}, {2: above + [(last, top)]}])
    for k, d in ((1, 3), (8, 4), (62, 6)):
        flips_case(f"bit-wide-beside-wrong-k{k}-d{d}", Book(k, d, 7, 1), 2, [
            {1: [(0, k)], 3: [(2, k - 1)]}, {2: [(0, k - 1)], 7: [(2, 63)]}, {4: [(1, 0), (0, 63)], 5: [(0, 0)]}, {6: [(0, 63)], 7: [(1, k)]}])
    book, least = Book(64, 6, 63, 0), (2**63,) * 6
    flips_case("bit-of-31-holders", book, 31, [{i: [(i % 6, i)] for i in range(33, 64)}, {i: [(i % 6, 63 - i)] for i in range(1, 63, 2)},
                                               {i: [(5, 63), (0, i)] for i in range(1, 32)}])
    longest = {i: flipped(least, [(i % 6, i)]) if i > 32 else least for i in range(1, 64)}  # the longest line that a job can have
    case("bit-longest-line", bundle(31, book, longest, [(2**64 - 1, longest)]), [line(book, 2**64 - 1, least, {i: i for i in range(33, 64)})])
    for sign in (1, -1):  # a sum or a difference that changes every bit from its own on
        book, jobs, lines = Book(16, 3, 5, 0), [], []
        for at in range(16):
            word = (2**16 - 2**at if sign > 0 else 0, 7, 9)
            other = ref.ring_of(16, 3).add(word, (sign * 2**at % 2**16, 0, 0))
            jobs.append((at, {i: other if i == at % 5 + 1 else word for i in range(1, 6)}))
            lines.append(line(book, at, word, {at % 5 + 1: at}))
        case(f"bit-carries-{'up' if sign > 0 else 'down'}", bundle(2, book, range(1, 6), jobs), lines)


def signed_words():
    """ "A word w below 2^(k-1) means w; otherwise w - 2^k." """
    for k in [1, 2, 3, 8, 16, 31, 32, 33, 62, 63, 64]:
        book, half, top = Book(k, 6, 1, 0), 1 << k - 1, (1 << k) - 1
        words = (0, 1 & top, half - 1, half, (half + 1) & top, top)
        signed = [w if w < half else w - 2**k for w in words]
        case(f"signed-k{k}", bundle(0, book, [1], [(0, {1: words}), (1, {1: words[::-1]})]),
             [f"0 open - {ref.joined(signed)}", f"1 open - {ref.joined(signed[::-1])}"])
    tens = [10**i for i in range(20)]
    for sign in (1, -1):
        jobs = [(at, {1: tuple(sign * x % 2**64 for x in tens[at:at + 4])}) for at in range(0, 20, 4)]
        case(f"signed-powers-of-ten-{'minus' if sign < 0 else 'plus'}", bundle(0, Book(64, 4, 1, 0), [1], jobs))


def marked():
    """The paper's bench examples that are bundles, and its near misses."""
    case("sample", ref.sample(), ["10 open 3/2 -3,2", "11 6 - -"])
    line_book, flat = Book(3, 2, 3, 1), ref.SAMPLE_BOOK
    shares = {1: (0, 3), 2: (4, 4), 3: (7, 5)}
    changed = {**shares, 3: (3, 5)}
    case("m5", bundle(0, line_book, shares, [(1, shares)]), ["1 open - -3,2"])
    case("m6", bundle(0, line_book, shares, [(1, changed)]), ["1 6 - -"])
    case("m7", bundle(0, line_book, [1, 3], [(1, changed)]), ["1 open - 1,-2"])
    case("m8", bundle(1, line_book, shares, [(1, shares)]), ["1 5 - -"])
    case("m9", bundle(1, flat, shares, [(10, {1: (5, 2), 2: (5, 2), 3: (1, 2)})]), ["10 open 3/2 -3,2"])
    case("m9-holder-1-changed", bundle(1, flat, shares, [(10, {1: (1, 2), 2: (5, 2), 3: (5, 2)})]), ["10 open 1/2 -3,2"])
    case("m9-holder-2-changed", bundle(1, flat, shares, [(10, {1: (5, 2), 2: (1, 2), 3: (5, 2)})]), ["10 open 2/2 -3,2"])
    case("m10", bundle(1, flat, shares, [(11, {1: (5, 2), 2: (1, 2), 3: (7, 2)})]), ["11 6 - -"])
    case("m12", bundle(0, Book(8, 2, 1, 0), [1], [(1, {1: (127, 128)})]), ["1 open - 127,-128"])
    case("k1-reads-minus-1", bundle(0, Book(1, 2, 1, 0), [1], [(1, {1: (1, 0)})]), ["1 open - -1,0"])


def job_numbers():
    """Job and archive numbers of all 64 bits, printed unsigned, and J from 0 on."""
    book, shares = Book(8, 2, 3, 0), {i: (1, 255) for i in (1, 2, 3)}
    for name, rising in (("zero", [0]), ("zero-one", [0, 1]), ("greatest", [2**64 - 1]), ("ends", [0, 2**64 - 1]),
                         ("middle", [2**63 - 1, 2**63, 2**63 + 1]), ("bytes", [256**i for i in range(8)]),
                         ("bytes-less-one", [256**i - 1 for i in range(9)])):
        case(f"numbers-{name}", bundle(0, book, [1, 3], [(number, shares) for number in rising]),
             [f"{number} open - 1,-1" for number in rising])
    for archive in (0, 2**63, 2**64 - 1):
        case(f"archive-{archive}", bundle(1, book, shares, [(1, shares)], archive), ["1 open - 1,-1"])
    for d in ref.MODULUS:
        case(f"no-jobs-d{d}", bundle(0, Book(64, d, 2**d - 1, 0), [1, 2**d - 1], []), [])
    case("no-jobs-one-file", bundle(0, book, [2], []), [])


# ---------------------------------------------------------------- faults

# Records of the paper's sample: 0 the order, 1 4 7 the headings, the jobs after each.
PIECES = []
while (read := ref.read_record(ref.sample(), sum(map(len, PIECES)))) is not None:
    PIECES.append(record(*read[:2]))
PLACES = [sum(map(len, PIECES[:at])) for at in range(len(PIECES) + 1)]
H1, H2, H3 = 1, 4, 7


def with_piece(changes):
    """The sample with records replaced, by place."""
    return b"".join(changes.get(at, piece) for at, piece in enumerate(PIECES))


def head(holder, k=3, d=2, n=3, t=0, archive=7, jobs=2):
    """A heading of the sample with some fields changed."""
    return heading(Book(k, d, n, t), holder, archive, jobs)


def cuts():
    """The sample cut at, just before and just after every border, after a length and after a kind."""
    for place in PLACES:
        for cut in {place - 1, place, place + 1, place + 4, place + 5, place + 6}:
            if 0 <= cut < 256 and f"cut-{cut:03}" not in CASES:
                case(f"cut-{cut:03}", ref.sample()[:cut], ["10 5 - -", "11 5 - -"] if cut in (90, 173) else 7)


def bytes_changed():
    """The lowest bit turned over in every byte of the order and of two files, words left out, with what each gives."""
    length_kind, archive = "777777", "88888888"
    for place, given in ((0, length_kind + "-"), (1, length_kind + "8788" + "4" + archive + "7711"),
                                 (2, length_kind + "77777777"), (3, length_kind + "78888888"),
                                 (4, length_kind + "8888" + "4" + archive + "8811"),
                                 (5, length_kind + "88888888"), (6, length_kind + "78888888")):
        for at, number in enumerate(given, PLACES[place]):
            data = bytearray(ref.sample())
            data[at] ^= 1
            case(f"byte-{at:03}", bytes(data), ["10 6 - -", "11 6 - -"] if number == "-" else int(number))


def lengths_and_kinds():
    """Lengths and kinds other than the record's own, in an order, a heading and a job: 7 each."""
    for place, name in ((0, "order"), (H1, "first-heading"), (2, "first-job"), (H3, "last-heading"), (9, "last-job")):
        own, kind = struct.unpack_from("<IH", PIECES[place])
        rest = PIECES[place][6:]
        for length in {0, 1, 2, own - 1, own + 1, own + 8, own + 2**8, own + 2**16, own + 2**24, 2**31, 2**32 - 1}:
            case(f"length-{name}-{length}", with_piece({place: struct.pack("<IH", length, kind) + rest}), 7)
        for other in (0, 3, 17, kind + 256, 65535):
            case(f"kind-{name}-{other}", with_piece({place: struct.pack("<IH", own, other) + rest}), 7)
    for d in (3, 6):
        case(f"job-of-d{d}", with_piece({2: job(10, (1,) * d)}), 7)
    case("job-of-no-words", with_piece({2: job(10, ())}), 7)
    case("heading-shorter", with_piece({H1: record(1, PIECES[H1][6:-1])}), 7)
    case("heading-longer", with_piece({H1: record(1, PIECES[H1][6:] + b"\0")}), 7)
    case("order-of-no-byte", with_piece({0: record(16, b"")}), 7)
    case("order-of-two-bytes", with_piece({0: record(16, b"\1\0")}), 7)
    case("order-big-endian", with_piece({0: b"\0\0\0\3\0\20\1"}), 7)


def sequences():
    """A record where another must stand: 7, whatever it holds."""
    files = b"".join(PIECES[1:])
    case("empty", b"", 7)
    case("order-alone", order(1), 7)
    case("order-missing", files, 7)
    case("order-twice", order(1) + order(1) + files, 7)
    case("order-late", PIECES[1] + order(1) + b"".join(PIECES[2:]), 7)
    case("order-last", files + order(1), 7)
    case("order-between-files", with_piece({H2: order(1) + PIECES[H2]}), 7)
    case("order-between-jobs", with_piece({3: order(1) + PIECES[3]}), 7)
    case("order-at-end", ref.sample() + order(1), 7)
    case("job-for-order", with_piece({0: PIECES[2]}), 7)
    case("job-for-first-heading", with_piece({H1: PIECES[2]}), 7)
    case("first-heading-missing", with_piece({H1: b""}), 7)
    case("second-heading-missing", with_piece({H2: b""}), 7)
    case("heading-for-first-job", with_piece({2: PIECES[H1]}), 7)
    case("heading-for-second-job", with_piece({3: PIECES[H2]}), 7)
    case("job-missing", with_piece({3: b""}), 7)
    case("job-missing-then-bad-book", with_piece({3: b"", H2: head(2, k=0)}), 7)
    case("job-missing-in-second-file", with_piece({6: b""}), 7)
    case("job-missing-in-last-file", with_piece({9: b""}), 7)
    case("job-too-many", with_piece({3: PIECES[3] + job(12, (5, 2))}), 7)
    case("job-too-many-at-end", ref.sample() + job(12, (7, 2)), 7)
    case("jobs-though-none-announced", with_piece({H1: head(1, jobs=0)}), 7)
    case("headings-alone-then-job", order(0) + head(1, jobs=0) + head(2, jobs=0) + job(1, (1, 1)), 7)
    for name, tail in (("zero", b"\0"), ("newline", b"\n"), ("length", b"\x13\0\0\0"), ("kind", b"\x13\0\0\0\1\0"),
                       ("zeros", bytes(23)), ("cut-heading", head(3)[:-1])):
        case(f"trailing-{name}", ref.sample() + tail, 7)
    case("trailing-heading-of-zeros", ref.sample() + record(1, bytes(17)), 1)
    case("trailing-heading-holder-again", ref.sample() + head(3), 4)
    case("trailing-byte-no-jobs", order(0) + head(1, jobs=0) + b"\0", 7)
    case("two-bundles", ref.sample() + ref.sample(), 7)


def books():
    """1 | "k, d, n, t or J is outside its range"; inside one heading 7 comes before it, and 4 and 8 after."""
    for name, expect, fields in (
            ("k0", 1, dict(k=0)), ("k65", 1, dict(k=65)), ("k128", 1, dict(k=128)), ("k255", 1, dict(k=255)),
            ("d0", 1, dict(d=0)), ("d1", 1, dict(d=1)), ("d7", 1, dict(d=7)), ("d8", 1, dict(d=8)), ("d255", 1, dict(d=255)),
            ("n0", 1, dict(n=0)), ("n4", 1, dict(n=4)), ("n255", 1, dict(n=255)), ("t3", 1, dict(t=3)), ("t255", 1, dict(t=255)),
            ("j1001", 1, dict(jobs=1001)), ("j1024", 1, dict(jobs=1024)), ("j65536", 1, dict(jobs=65536)),
            ("j65538", 1, dict(jobs=65538)), ("j-greatest", 1, dict(jobs=2**32 - 1)), ("j1000", 7, dict(jobs=1000))):
        case(f"book-{name}", with_piece({H1: head(1, **fields)}), expect)
    for d in ref.MODULUS:
        for n, expect in ((2**d - 1, []), (2**d, 1)):
            case(f"n{n}-d{d}", order(0) + head(1, d=d, n=n, jobs=0), expect)
        case(f"t-is-n-d{d}", order(0) + head(1, d=d, n=2**d - 1, t=2**d - 1, jobs=0), 1)
    case("d1-n1", order(0) + head(1, d=1, n=1, jobs=0), 1)
    case("k64-no-jobs", order(0) + head(1, k=64, jobs=0), [])
    case("j1001-no-jobs-follow", order(0) + head(1, jobs=1001), 1)
    case("j1000-no-jobs-follow", order(0) + head(1, jobs=1000), 7)
    case("1-before-4-holder-0-j1001", with_piece({H1: head(0, jobs=1001)}), 1)
    case("1-before-4-holder-0-n0", with_piece({H1: head(0, n=0)}), 1)
    case("1-before-4-same-holder-t3", with_piece({H2: head(1, t=3)}), 1)
    case("7-before-1-cut", with_piece({})[:7] + head(1, k=0)[:-1], 7)
    case("7-before-1-length", with_piece({H1: record(1, head(1, k=0)[6:-1])}), 7)
    case("1-before-later-7", order(1) + head(1, k=0) + b"\0", 1)
    for name, fields in (("k0", dict(k=0)), ("k65", dict(k=65)), ("d1", dict(d=1)), ("n0", dict(n=0)), ("n4", dict(n=4)),
                         ("t3", dict(t=3)), ("j1001", dict(jobs=1001))):
        case(f"1-before-8-{name}", with_piece({H2: head(2, **fields)}), 1)
        case(f"1-before-8-{name}-archive", with_piece({H3: head(3, archive=8, **fields)}), 1)
    wide = Book(3, 3, 7, 0)
    case("1-before-8-d-lowered", order(0) + heading(wide, 1, 7, 0) + heading(wide._replace(d=2), 2, 7, 0), 1)


def holders():
    """4 | "a holder is outside 1 to n, holders do not strictly rise"; before 8, and by the heading's own n."""
    for holder in (0, 4, 255):
        case(f"first-holder-{holder}", with_piece({H1: head(holder)}), 4)
        case(f"last-holder-{holder}", with_piece({H3: head(holder)}), 4)
    case("holder-twice", with_piece({H2: head(1)}), 4)
    case("holder-twice-same-file", order(1) + 2 * b"".join(PIECES[H1:H2]), 4)
    case("holders-fall", with_piece({H1: head(2), H2: head(1)}), 4)
    case("holders-fall-last", with_piece({H3: head(1)}), 4)
    case("holders-twice-no-jobs", order(0) + 2 * head(3, jobs=0), 4)
    case("holder-63", order(0) + head(63, d=6, n=63, jobs=0), [])
    case("holder-64", order(0) + head(64, d=6, n=63, jobs=0), 4)
    case("4-before-8-n-lowered", with_piece({H3: head(3, n=2)}), 4)
    case("4-before-8-not-rising-archive", with_piece({H2: head(1, archive=8)}), 4)
    case("4-before-8-not-rising-jobs", with_piece({H2: head(1, jobs=1)}), 4)
    case("4-before-8-holder-0-k", with_piece({H2: head(0, k=4)}), 4)
    case("8-n-lowered-holder-in-range", with_piece({H2: head(2, n=2)}), 8)
    case("7-before-4-cut", with_piece({})[:PLACES[H2]] + head(1)[:-1], 7)
    case("7-before-4-heading-late", with_piece({3: head(0)}), 7)
    case("4-before-later-7", with_piece({})[:PLACES[H2]] + head(1) + b"\0", 4)
    case("4-after-earlier-8", with_piece({H2: head(2, t=1), H3: head(3, n=2)}), 8)
    case("8-after-earlier-4", with_piece({H2: head(1), H3: head(3, t=1)}), 4)


def strangers():
    """8 | "a file does not belong with the first": book, archive number, job count, job numbers."""
    for name, fields in (("k", dict(k=4)), ("d", dict(d=3)), ("n", dict(n=2)), ("t", dict(t=1)), ("t2", dict(t=2)),
                         ("archive", dict(archive=8)), ("archive-low", dict(archive=6)),
                         ("archive-high", dict(archive=7 + 2**63)), ("archive-middle", dict(archive=7 + 2**32)),
                         ("count-less", dict(jobs=1)), ("count-more", dict(jobs=3)),
                         ("count-0", dict(jobs=0)), ("count-1000", dict(jobs=1000))):
        case(f"stranger-{name}", with_piece({H2: head(2, **fields)}), 8)
    case("stranger-last-file", with_piece({H3: head(3, k=2)}), 8)
    case("stranger-count-fits", with_piece({H2: head(2, jobs=1), 6: b""}), 8)
    case("stranger-no-jobs", order(0) + head(1, jobs=0) + head(2, jobs=0, archive=9), 8)
    case("stranger-both-later", with_piece({H2: head(2, t=1), H3: head(3, t=1)}), 8)
    case("stranger-heading-last", with_piece({})[:PLACES[H2]] + head(2, archive=8), 8)
    case("stranger-d-with-its-jobs", with_piece({H2: head(2, d=3), 5: job(10, (5, 2, 1)), 6: job(11, (5, 2, 1))}), 8)
    case("stranger-heading-cut", with_piece({})[:PLACES[H2]] + head(2, archive=8)[:-1], 7)
    case("stranger-heading-length", with_piece({H2: record(1, head(2, archive=8)[6:] + b"\0")}), 7)
    case("stranger-then-cut", with_piece({H2: head(2, archive=8)})[:-1], 8)
    case("stranger-then-damaged-job", with_piece({H2: head(2, archive=8), 5: PIECES[5][:3]}), 8)
    case("stranger-then-bad-book", with_piece({H2: head(2, archive=8), H3: head(3, k=0)}), 8)
    case("bad-frame-then-stranger", with_piece({3: b"", H2: head(2, archive=8)}), 7)
    for name, place, number, expect in (("first-lower", 5, 9, 8), ("first-higher", 5, 11, 8), ("first-0", 5, 0, 8),
                                        ("first-high-half", 5, 10 + 2**32, 8), ("first-greatest", 5, 2**64 - 1, 8),
                                        ("second-higher", 6, 12, 8), ("second-high-half", 6, 11 + 2**32, 8),
                                        ("second-equal", 6, 10, 7), ("second-lower", 6, 9, 7), ("second-0", 6, 0, 7),
                                        ("last-file", 9, 12, 8), ("last-file-falls", 9, 1, 7)):
        case(f"number-stranger-{name}", with_piece({place: job(number, (5, 2))}), expect)
    case("number-stranger-swapped", with_piece({5: PIECES[6], 6: PIECES[5]}), 8)
    case("number-stranger-cut", with_piece({9: job(12, (7, 2))})[:-1], 7)
    case("number-stranger-length", with_piece({6: job(12, (7, 2, 0))}), 7)
    case("number-stranger-then-cut", with_piece({5: job(12, (7, 2))})[:-1], 8)
    case("number-stranger-then-frame", with_piece({5: job(9, (5, 2)), 6: b"\0"}), 8)
    case("wide-word-no-fault", with_piece({5: job(10, (5, 2**64 - 1))}), ["10 6 - -", "11 6 - -"])


def rising():
    """7 | "job numbers do not rise"; the first of a file has nothing to rise from."""
    for name, first, second, expect in (("equal", 10, 10, 7), ("fall", 11, 10, 7), ("equal-0", 0, 0, 7),
                                        ("greatest-twice", 2**64 - 1, 2**64 - 1, 7), ("wrapped", 2**64 - 1, 0, 7),
                                        ("signed", 2**63, 1, 7), ("high-half-falls", 2**32, 1, 7),
                                        ("low-half-falls", 2**32 - 1, 2**32, None), ("signed-rise", 2**63 - 1, 2**63, None)):
        jobs = [(number, {1: (1, 7)}) for number in (first, second)]
        case(f"rising-{name}", bundle(0, ref.SAMPLE_BOOK, [1], jobs),
             expect or [f"{number} open - 1,-1" for number in (first, second)])
    case("rising-second-file-alone", with_piece({6: job(10, (1, 2))}), 7)


def long_inputs():
    """ "Input that is too long gives 2 before any record is looked at": over 65,536 bytes."""
    def long(name, book, e, files, count, expect=None, length=None):
        """A whole bundle with e wrong in some jobs and none in others, perhaps cut."""
        rng, jobs, lines = random.Random(name), [], []
        for number in range(count):
            words, shares = dealt(rng, book)
            wrong = sorted(rng.sample(range(1, files + 1), (0, e, e // 2)[number % 3]))
            jobs.append((number, damaged(rng, book, shares, wrong, DAMAGE[number % len(DAMAGE)])))
            lines.append(line(book, number, words, bits(shares, jobs[-1][1])))
        data = bundle(e, book, range(1, files + 1), jobs)[:length]
        case(name, data, lines if expect is None else expect)
        return len(data)

    def slow(name, book, e, count):
        """The decoder's longest way: in every job the shares that are read first are wrong, each in another bit."""
        rng, jobs, lines = random.Random(name), [], []
        for number in range(count):
            words, shares = dealt(rng, book)
            wrong = dict(zip(range(1, e + 1), rng.sample(range(book.k), e)))
            for holder, bit in wrong.items():
                share, place = list(shares[holder]), rng.randrange(book.d)
                share[place] ^= 1 << bit
                shares[holder] = tuple(share)
            jobs.append((number, shares))
            lines.append(line(book, number, words, wrong))
        case(name, bundle(e, book, range(1, book.n + 1), jobs), lines)

    slow("long-different-bits", Book(64, 6, 63, 40), 11, 16)
    assert long("long-63-holders", Book(64, 6, 63, 20), 21, 63, 16) == 63952
    assert long("long-1000-jobs", Book(16, 2, 3, 1), 0, 2, 1000) == 60053
    assert long("long-longest-accepted", Book(32, 4, 15, 2), 2, 7, 203) == 65534
    assert long("long-65536-bytes-cut", Book(16, 2, 3, 0), 1, 3, 1000, 7, 65536) == 65536
    assert long("long-shortest-too-long", Book(8, 5, 18, 0), 1, 18, 67, 2) == 65545
    case("long-65537-zeros", bytes(65537), 2)


def write():
    FOLDER.mkdir(parents=True, exist_ok=True)
    for old in [*FOLDER.glob("*.in"), *FOLDER.glob("*.out")]:
        old.unlink()
    for name, (data, printed) in CASES.items():
        (FOLDER / f"{name}.in").write_bytes(data)
        (FOLDER / f"{name}.out").write_bytes(printed.encode())


if __name__ == "__main__":
    for group in (marked, random_bundles, extreme_books, too_many_wrong, majority, levels, low_degrees, allowances, wide_one_of_three,
                  wide_shares, positions, signed_words, job_numbers, cuts, bytes_changed, lengths_and_kinds, sequences, books, holders, strangers,
                  rising, long_inputs):
        group()
    write()
    print(f"{len(CASES)} cases, {sum(len(data) + len(printed) for data, printed in CASES.values())} bytes")
