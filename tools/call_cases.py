#!/usr/bin/env python3
"""The cases of the programs `edges` and `openings` and the answers to them, from the second implementation (reference.py).

A case is a line of fields with bars between them: the call and its edge, k, d, n, t, the lent lists, for an opening the
error bound, and what the output holds before the call; lists are numbers with spaces between them. An answer is the
call's number, for an opening the set of the wrong holders and the 64 lowest bits, and what the output then holds. Run
from the repository's top; it writes the files stdin and stdout of crates/edges and crates/openings.
"""
from reference import Book, Refused, check_book, deal, elements, open_lent, require, ring_of

BIG = 2**64 - 1
SMALL = Book(3, 2, 3, 1)  # the book of most cases
LONGEST_INPUT = 65536
ROOM = {"edges": 8, "openings": 379}  # words of a list that a program has room for
HOLDERS = 64  # entries of the lowest bits
OLD_BIT, NO_BIT = 7, 255  # what they hold before a call, and of a holder that is not wrong after it


# ---------------------------------------------------------------- the calls on lent words, from the second implementation

def operands(book, lists, out):
    """The ring of the calls on elements, and the elements. Order 1, 2, 3."""
    check_book(book)
    require(all(len(words) == book.d for words in lists) and len(out) == book.d, 2)
    ring = ring_of(book.k, book.d)
    require(all(map(ring.in_width, lists)), 3)
    return ring


def call_add(book, a, b, out):
    return operands(book, [a, b], out).add(a, b)


def call_multiply(book, a, b, out):
    return operands(book, [a, b], out).mul(a, b)


def call_invert(book, a, b, out):
    return operands(book, [a], out).inverse(tuple(a))


def call_deal(book, job, coefficients, out):
    """The lengths of lent lists count in words, so they are judged here."""
    check_book(book)
    require((len(job), len(coefficients), len(out)) == (book.d, book.t * book.d, book.n * book.d), 2)
    shares = deal(book, job, elements(coefficients, book.d))
    return [word for i in sorted(shares) for word in shares[i]]


def call_open(book, holders, words, e, out):
    """The words, the set of the wrong holders, and the lowest bits. The output's length is judged with the other lengths."""
    check_book(book)
    require(len(words) == len(holders) * book.d and len(out) == book.d, 2)
    job, wrong = open_lent(book, holders, words, e)
    return job, sum(1 << i - 1 for i in wrong), [wrong.get(i, NO_BIT) for i in range(1, HOLDERS + 1)]


# ---------------------------------------------------------------- lines

def text(numbers):
    return " ".join(map(str, numbers))


class Cases:
    """The lines that a program reads and the lines that it prints."""

    def __init__(self):
        self.asked, self.answers = [], []

    def line(self, name, book, lists, answer):
        assert not set(name) & set("|\n")
        self.asked.append("|".join([name, *map(str, book), *map(text, lists)]))
        self.answers.append(f"{name}: {text(answer)}")

    def element(self, name, book, a, b, out):
        """A call on elements: the number, and what the output holds."""
        call = {"add": call_add, "multiply": call_multiply, "invert": call_invert}[name.split(",")[0]]
        try:
            answer = [0, *call(book, a, b, out)]
        except Refused as refused:
            answer = [refused.number, *out]
        self.line(name, book, [a, b, out], answer)

    def reading(self, edge, k, word):
        assert word < 2**k
        self.line("reading, " + edge, Book(k, 2, 3, 1), [[word], [], []], [ring_of(k, 2).signed(word)])

    def deal(self, edge, book, job, coefficients, size=None, old=None):
        """The output holds nines, unless its old words are given, and is as long as the call needs, unless its size is."""
        out = old or [9] * (book.n * book.d if size is None else size)
        try:
            answer = [0, *call_deal(book, job, coefficients, out)]
        except Refused as refused:
            answer = [refused.number, *out]
        self.line("deal, " + edge, book, [job, coefficients, [], out], answer)

    def open(self, edge, book, holders, words, e, size=None, old=None):
        out = old or [9] * (book.d if size is None else size)
        try:
            job, wrong, lowest = call_open(book, holders, words, e, out)
            answer = [0, wrong, *lowest, *job]
        except Refused as refused:
            answer = [refused.number, 0, *[OLD_BIT] * HOLDERS, *out]
        self.line("open, " + edge, book, [holders, words, [e], out], answer)

    def write(self, crate):
        asked = "".join(line + "\n" for line in self.asked)
        assert len(asked) < LONGEST_INPUT, len(asked)
        assert all(field.count(" ") < ROOM[crate] for line in self.asked for field in line.split("|")[5:])
        assert len(set(self.answers)) == len(self.answers)
        for name, content in (("stdin", asked), ("stdout", "".join(line + "\n" for line in self.answers))):
            with open(f"crates/{crate}/{name}", "w") as file:
                file.write(content)
        print(crate, len(self.asked), "cases", len(asked), "bytes")


# ---------------------------------------------------------------- edges: the calls on elements

def add(cases, edge, book, a, b, size=2):
    cases.element("add, " + edge, book, a, b, [9] * size)


def multiply(cases, edge, book, a, b, size=2):
    cases.element("multiply, " + edge, book, a, b, [9] * size)


def invert(cases, edge, book, a, size=2):
    cases.element("invert, " + edge, book, a, [], [9] * size)


def books(cases):
    """Each parameter at the ends of its range, and outside."""
    add(cases, "k 0", Book(0, 2, 3, 1), [0, 0], [0, 0])
    add(cases, "k 1", Book(1, 2, 3, 1), [1, 0], [1, 1])
    add(cases, "k 64", Book(64, 2, 3, 1), [BIG, 5], [1, 7])
    add(cases, "k 65", Book(65, 2, 3, 1), [0, 0], [0, 0])
    add(cases, "k 2^64 - 1", Book(BIG, 2, 3, 1), [0, 0], [0, 0])
    add(cases, "d 0", Book(3, 0, 0, 0), [], [], 0)
    add(cases, "d 1", Book(3, 1, 1, 0), [1], [1], 1)
    add(cases, "d 7", Book(3, 7, 3, 1), [1] * 7, [1] * 7, 7)
    add(cases, "d 2^64 - 1", Book(3, BIG, 3, 1), [1, 2], [3, 4])
    add(cases, "d 6, n 63, t 62", Book(3, 6, 63, 62), [1, 2, 3, 4, 5, 6], [7] * 6, 6)
    add(cases, "d 6, n 64", Book(3, 6, 64, 1), [1, 2, 3, 4, 5, 6], [7] * 6, 6)
    add(cases, "n 0", Book(3, 2, 0, 0), [1, 2], [3, 4])
    add(cases, "n 1, t 0", Book(3, 2, 1, 0), [1, 2], [3, 4])
    add(cases, "n 1, t 1", Book(3, 2, 1, 1), [1, 2], [3, 4])
    add(cases, "n 3, t 2", Book(3, 2, 3, 2), [1, 2], [3, 4])
    add(cases, "n 3, t 3", Book(3, 2, 3, 3), [1, 2], [3, 4])
    add(cases, "n 4 with d 2", Book(3, 2, 4, 1), [1, 2], [3, 4])
    add(cases, "n 2^64 - 1, t 2^64 - 2", Book(3, 2, BIG, BIG - 1), [1, 2], [3, 4])
    add(cases, "n 15 with d 4", Book(3, 4, 15, 1), [1, 2, 3, 4], [4, 3, 2, 1], 4)
    add(cases, "n 16 with d 4", Book(3, 4, 16, 1), [1, 2, 3, 4], [4, 3, 2, 1], 4)


def element_lengths(cases):
    add(cases, "first one word short", SMALL, [1], [3, 4])
    add(cases, "first one word long", SMALL, [1, 2, 3], [3, 4])
    add(cases, "first without words", SMALL, [], [3, 4])
    add(cases, "second one word short", SMALL, [1, 2], [3])
    add(cases, "second one word long", SMALL, [1, 2], [3, 4, 5])
    invert(cases, "operand one word short", SMALL, [1])
    invert(cases, "operand one word long", SMALL, [1, 2, 3])
    add(cases, "output one word short", SMALL, [1, 2], [3, 4], 1)
    add(cases, "output one word long", SMALL, [1, 2], [3, 4], 3)
    add(cases, "output without words", SMALL, [1, 2], [3, 4], 0)
    multiply(cases, "output one word long", SMALL, [1, 2], [3, 4], 3)
    invert(cases, "output one word short", SMALL, [1, 3], 1)
    # two faults at once
    add(cases, "parameters before length", Book(0, 2, 3, 1), [1], [3, 4])
    multiply(cases, "parameters before width", Book(3, 2, 4, 1), [8, 2], [3, 4])
    add(cases, "length before width", SMALL, [8, 2], [3, 4], 1)
    multiply(cases, "length before width", SMALL, [8, 2], [3])
    invert(cases, "length before width", SMALL, [1, 8], 1)
    # the old words of an output that is kept
    cases.element("add, output keeps its words", SMALL, [1, 8], [3, 4], [6, 5])
    cases.element("multiply, output keeps its words", SMALL, [1, 8], [3, 4], [6, 5])
    cases.element("invert, output keeps its words", SMALL, [1, 8], [], [6, 5])


def widths(cases):
    add(cases, "7 at k 3", SMALL, [7, 3], [7, 1])
    add(cases, "8 at k 3, first", SMALL, [8, 3], [7, 1])
    add(cases, "8 at k 3, last", SMALL, [7, 3], [7, 8])
    add(cases, "2 at k 1", Book(1, 2, 3, 1), [2, 0], [0, 0])
    add(cases, "2^63 at k 63", Book(63, 2, 3, 1), [0, 2**63], [0, 0])
    add(cases, "2^63 at k 64", Book(64, 2, 3, 1), [0, 2**63], [3, 2**63])
    multiply(cases, "8 at k 3", SMALL, [0, 1], [8, 1])
    multiply(cases, "2^64 - 1 at k 64", Book(64, 2, 3, 1), [BIG, 0], [BIG, 0])
    invert(cases, "8 at k 3", SMALL, [0, 8])
    invert(cases, "k 65", Book(65, 2, 3, 1), [0, 1])


def products(cases):
    multiply(cases, "(0,1) by (0,1)", SMALL, [0, 1], [0, 1])
    multiply(cases, "(0,1) by (1,1)", SMALL, [0, 1], [1, 1])
    multiply(cases, "X^3 by X at k 64", Book(64, 4, 15, 1), [0, 0, 0, 1], [0, 1, 0, 0], 4)
    for d in range(2, 7):  # each row of the table of moduli
        top, x, largest = [0] * (d - 1) + [1], [0, 1] + [0] * (d - 2), [BIG] * d
        multiply(cases, f"X^{d - 1} by X at k 8, d {d}", Book(8, d, 3, 1), top, x, d)
        multiply(cases, f"largest words at k 64, d {d}", Book(64, d, 3, 1), largest, largest, d)
        invert(cases, f"X^{d - 1} at k 64, d {d}", Book(64, d, 3, 1), top, d)
    invert(cases, "(0,1)", SMALL, [0, 1])
    invert(cases, "one", SMALL, [1, 0])
    invert(cases, "(2,4), zero modulo two", SMALL, [2, 4])
    invert(cases, "zero", SMALL, [0, 0])
    invert(cases, "(3,0) at k 64", Book(64, 2, 3, 1), [3, 0])
    invert(cases, "X at k 64, d 6", Book(64, 6, 63, 1), [0, 1, 0, 0, 0, 0], 6)


FIRST = [(0, 3), (4, 4), (7, 5)]  # shares of job (5,2), other coefficient (3,1): M4
SECOND = [(2, 5), (0, 5), (4, 3)]  # of job (6,7), other coefficient (4,6)
FACTOR = (2, 7)


def shares(cases):
    """Shares added, and multiplied by one element; `openings` opens what comes out."""
    for i, (x, y) in enumerate(zip(FIRST, SECOND), 1):
        add(cases, f"shares of holder {i}", SMALL, x, y)
    for i, x in enumerate(FIRST, 1):
        multiply(cases, f"share of holder {i}", SMALL, FACTOR, x)


def readings(cases):
    cases.reading("127 at k 8", 8, 127)
    cases.reading("128 at k 8", 8, 128)
    cases.reading("255 at k 8", 8, 255)
    cases.reading("0 at k 1", 1, 0)
    cases.reading("1 at k 1", 1, 1)
    cases.reading("2^63 - 1 at k 64", 64, 2**63 - 1)
    cases.reading("2^63 at k 64", 64, 2**63)
    cases.reading("2^64 - 1 at k 64", 64, BIG)


# ---------------------------------------------------------------- openings: dealing

def dealings(cases):
    cases.deal("M4", SMALL, [5, 2], [3, 1])
    cases.deal("job (6,7), coefficient (4,6)", SMALL, [6, 7], [4, 6])
    cases.deal("t 0", Book(3, 2, 3, 0), [5, 2], [])
    cases.deal("t 2", Book(3, 2, 3, 2), [5, 2], [3, 1, 0, 7])
    cases.deal("n 1", Book(3, 2, 1, 0), [5, 2], [])
    cases.deal("k 1", Book(1, 2, 3, 1), [1, 0], [1, 1])
    cases.deal("largest words at k 64", Book(64, 2, 3, 1), [BIG, BIG], [BIG, BIG])
    cases.deal("k 0", Book(0, 2, 3, 1), [0, 0], [0, 0])
    cases.deal("n 4 with d 2", Book(3, 2, 4, 1), [5, 2], [3, 1])
    cases.deal("t 3 with n 3", Book(3, 2, 3, 3), [5, 2], [3, 1, 1, 1, 1, 1])
    cases.deal("t 2^64 - 1", Book(3, 2, 3, BIG), [5, 2], [3, 1])
    cases.deal("job one word short", SMALL, [5], [3, 1])
    cases.deal("job one word long", SMALL, [5, 2, 0], [3, 1])
    cases.deal("coefficients one word short", SMALL, [5, 2], [3])
    cases.deal("coefficients one word long", SMALL, [5, 2], [3, 1, 0])
    cases.deal("no coefficients", SMALL, [5, 2], [])
    cases.deal("a coefficient with t 0", Book(3, 2, 3, 0), [5, 2], [3, 1])
    cases.deal("output one word short", SMALL, [5, 2], [3, 1], 5)
    cases.deal("output one word long", SMALL, [5, 2], [3, 1], 7)
    cases.deal("output without words", SMALL, [5, 2], [3, 1], 0)
    cases.deal("wide word in the job", SMALL, [5, 8], [3, 1])
    cases.deal("wide word in a coefficient", SMALL, [5, 2], [8, 1])
    cases.deal("book before length", Book(65, 2, 3, 1), [5], [3, 1])
    cases.deal("length before wide word", SMALL, [5, 8], [3])
    cases.deal("output before wide word", SMALL, [5, 8], [3, 1], 5)
    cases.deal("output keeps its words", SMALL, [5, 8], [3, 1], old=[1, 2, 3, 4, 5, 6])


# ---------------------------------------------------------------- openings: the marked ones, and those nearest to them

ALL = [1, 2, 3]
FLAT = [0, 3, 4, 4, 7, 5]
CONSTANT = Book(3, 2, 3, 0)


def marked(cases):
    cases.open("M5", SMALL, ALL, FLAT, 0)
    cases.open("M6", SMALL, ALL, [0, 3, 4, 4, 3, 5], 0)
    cases.open("M7", SMALL, [1, 3], [0, 3, 3, 5], 0)
    cases.open("M8", SMALL, ALL, FLAT, 1)
    cases.open("M9", CONSTANT, ALL, [5, 2, 5, 2, 1, 2], 1)
    cases.open("M10", CONSTANT, ALL, [5, 2, 1, 2, 7, 2], 1)
    # near misses
    cases.open("M9 with holder 1 changed", CONSTANT, ALL, [1, 2, 5, 2, 5, 2], 1)
    cases.open("M9 with holder 2 changed", CONSTANT, ALL, [5, 2, 1, 2, 5, 2], 1)
    cases.open("M9 with e 0", CONSTANT, ALL, [5, 2, 5, 2, 1, 2], 0)
    cases.open("one wrong in bit 0 and one in bit 1, e 1", CONSTANT, ALL, [0, 0, 1, 0, 2, 0], 1)
    cases.open("k 1", Book(1, 2, 3, 0), ALL, [1, 0, 1, 1, 1, 0], 1)
    cases.open("one wrong in its last bit alone", CONSTANT, ALL, [5, 2, 5, 6, 5, 2], 1)
    cases.open("n 1", Book(3, 2, 1, 0), [1], [5, 2], 0)
    cases.open("the last holder alone, t 0", CONSTANT, [3], [5, 2], 0)
    cases.open("output's old words", SMALL, ALL, FLAT, 0, old=[6, 1])


def books_and_few(cases):
    cases.open("k 0", Book(0, 2, 3, 1), ALL, [0] * 6, 0)
    cases.open("k 65", Book(65, 2, 3, 1), ALL, [0] * 6, 0)
    cases.open("d 1", Book(3, 1, 1, 0), [1], [0], 0)
    cases.open("d 7", Book(3, 7, 3, 0), [1], [0] * 7, 0)
    cases.open("n 0", Book(3, 2, 0, 0), [], [], 0)
    cases.open("n 16 with d 4", Book(3, 4, 16, 0), [1], [0] * 4, 0)
    cases.open("n 15 with d 4", Book(3, 4, 15, 0), [15], [1, 2, 3, 4], 0)
    cases.open("t 3 with n 3", Book(3, 2, 3, 3), ALL, [0] * 6, 0)
    cases.open("no shares", SMALL, [], [], 0)
    cases.open("no shares, t 0", CONSTANT, [], [], 0)
    cases.open("no shares, e 2^64 - 1", CONSTANT, [], [], BIG)
    cases.open("one share with t 1", SMALL, [2], [4, 4], 0)
    cases.open("two shares with e 1", CONSTANT, [1, 2], [5, 2, 5, 2], 1)
    cases.open("e 2^64 - 1", SMALL, ALL, FLAT, BIG)
    cases.open("e 2^63", SMALL, ALL, FLAT, 2**63)
    cases.open("e 2^63 - 1, t 0", CONSTANT, ALL, FLAT, 2**63 - 1)


def lengths_and_holders(cases):
    cases.open("words one short", SMALL, ALL, FLAT[:-1], 0)
    cases.open("words one long", SMALL, ALL, FLAT + [0], 0)
    cases.open("a share too few", SMALL, ALL, FLAT[:-2], 0)
    cases.open("a share too many", SMALL, [1, 2], FLAT, 0)
    cases.open("words without holders", SMALL, [], [0, 3], 0)
    cases.open("holders without words", SMALL, ALL, [], 0)
    cases.open("output one word short", SMALL, ALL, FLAT, 0, 1)
    cases.open("output one word long", SMALL, ALL, FLAT, 0, 3)
    cases.open("output without words", SMALL, ALL, FLAT, 0, 0)
    cases.open("holder 0", SMALL, [0, 1, 2], FLAT, 0)
    cases.open("holder n + 1", SMALL, [1, 2, 4], FLAT, 0)
    cases.open("holder 2^64 - 1", SMALL, [1, 2, BIG], FLAT, 0)
    cases.open("holder repeated", SMALL, [1, 2, 2], FLAT, 0)
    cases.open("holders fall", SMALL, [1, 3, 2], FLAT, 0)
    # two faults at once: 1, 2, 4, 5, 6
    cases.open("book before length", Book(3, 2, 4, 1), ALL, FLAT[:-1], 0)
    cases.open("length before holder", SMALL, [0, 1, 2], FLAT[:-1], 0)
    cases.open("output before holder", SMALL, [0, 1, 2], FLAT, 0, 1)
    cases.open("output, with a wide word", SMALL, ALL, [8] + FLAT[1:], 0, 1)
    cases.open("holder, with a wide word", SMALL, [1, 1, 2], [0, 3, 4, 8, 7, 5], 0)
    cases.open("holder before too few", SMALL, [4], [0, 3], 0)
    cases.open("too few before no curve", SMALL, ALL, [0, 3, 4, 4, 3, 5], 1)


def wide(cases):
    """A share with a wide word is present, and wrong (paper 02, K1)."""
    cases.open("wide word first, e 0", SMALL, ALL, [8] + FLAT[1:], 0)
    cases.open("wide word last, e 0", SMALL, ALL, FLAT[:-1] + [8], 0)
    cases.open("no word is wide at k 64", Book(64, 2, 3, 1), ALL, [BIG] * 6, 0)
    cases.open("one wide, right in its low bits", CONSTANT, ALL, [5, 2, 5 + 8, 2, 5, 2], 1)
    cases.open("the first wide in both words", CONSTANT, ALL, [8, BIG, 5, 2, 5, 2], 1)
    cases.open("one wide and one wrong", CONSTANT, ALL, [5, 2, 5 + 8, 2, 1, 2], 1)
    cases.open("two wide, e 1", CONSTANT, ALL, [5, 2, 5 + 8, 2, 5, 2 + 8], 1)
    cases.open("all wide", CONSTANT, ALL, [5 + 8, 2] * 3, 1)
    cases.open("one share, wide", CONSTANT, [3], [5 + 8, 2], 0)
    cases.open("too few, one of them wide", CONSTANT, [1, 2], [5, 2, 5 + 8, 2], 1)
    cases.open("too few, all of them wide", SMALL, [1], [0, 8], 0)
    cases.open("one wide, k 1", Book(1, 2, 3, 0), ALL, [1, 0, 1, 2, 1, 0], 1)
    cases.open("one wide, k 63", Book(63, 2, 3, 0), ALL, [1, 2**62, 1 + 2**63, 2**62, 1, 2**62], 1)
    cases.open("two wide of five, t 0, output's old words", Book(8, 3, 5, 0), [1, 2, 3, 4, 5], [256, 0, 0] * 2 + [7, 8, 9] * 3, 2, old=[1, 2, 3])
    cases.open("three wide of five, output kept", Book(8, 3, 5, 0), [1, 2, 3, 4, 5], [256, 0, 0] * 3 + [7, 8, 9] * 2, 2, old=[1, 2, 3])


def lowest(cases):
    """The lowest bit over all words of a wrong share, wide words at their full 64 bits (paper 02, K4). The right share is (5, 2, 0)."""
    right, three = (5, 2, 0), [1, 2, 3]

    def case(edge, changes, bits, holders=three, k=6):
        """The shares that differ, and by hand the bits that are told of their holders."""
        book, e = Book(k, 3, 7, 0), (len(holders) - 1) // 2
        words = [word for i in holders for word in changes.get(i, right)]
        assert open_lent(book, holders, words, e) == (right, dict(zip(changes, bits))), edge
        cases.open("lowest bit, " + edge, book, holders, words, e)

    case("word 0 in bit 5, word 2 in bit 1", {2: (5 ^ 32, 2, 2)}, [1])
    case("word 0 in bit 1, word 2 in bit 5", {3: (5 ^ 2, 2, 32)}, [1])
    case("bits 1 and 5 of one word", {1: (5, 2 ^ 34, 0)}, [1])
    case("bit 0", {1: (5, 3, 0)}, [0])
    case("the top bit", {2: (5, 2, 32)}, [5])
    case("the top bit at k 64", {3: (5, 2 + 2**63, 0)}, [63], k=64)
    case("all bits", {2: (5 ^ 63, 2 ^ 63, 63)}, [0])
    case("wide, bit k", {3: (5 + 64, 2, 0)}, [6])
    case("wide, bit 63", {1: (5, 2, 2**63)}, [63])
    case("wide in bits 63 and k", {2: (5 + 2**63, 2, 64)}, [6])
    case("wide, and wrong in a later word", {2: (5 + 64, 2, 4)}, [2])
    case("wide, and wrong in an earlier word", {3: (5 ^ 16, 2 + 2**40, 0)}, [4])
    case("wide and wrong in one word", {1: (5, 2 ^ 72, 0)}, [3])
    case("two wrong, one wide", {2: (5, 2, 2**20), 4: (5, 2 ^ 16, 8)}, [20, 3], [1, 2, 3, 4, 7])
    case("others absent", {3: (5 ^ 4, 2, 0), 5: (1, 1, 1)}, [2, 0], [3, 4, 5, 6, 7])
    # holder 63 is the last that a book can have, and entry 64 is nobody's
    cases.open("lowest bit, holders 1 and 63", Book(64, 6, 63, 0), [1, 2, 31, 62, 63], [1] + [0] * 28 + [2**62], 2)


# ---------------------------------------------------------------- openings: several wrong shares

def several(cases):
    """Job (1,2,3) and coefficient (31,5,8), with k 5, d 3, n 7, t 1."""
    book = Book(5, 3, 7, 1)
    good = deal(book, (1, 2, 3), [(31, 5, 8)])

    def case(edge, e, changes, without=()):
        words = {i: list(share) for i, share in good.items() if i not in without}
        for holder, place, word in changes:
            words[holder][place] = word
        cases.open(edge, book, sorted(words), [word for i in sorted(words) for word in words[i]], e)

    case("none wrong", 2, [])
    case("two wrong in bit 0", 2, [(1, 0, 1), (2, 1, 28)])
    case("two wrong in the top bit", 2, [(3, 2, 0), (7, 0, 3)])
    case("one wrong in bit 0 and one in bit 3", 2, [(2, 2, 16), (6, 1, 13)])
    case("three wrong", 2, [(2, 2, 16), (4, 0, 30), (6, 1, 13)])
    case("two wrong, e 1", 1, [(2, 2, 16), (6, 1, 13)])
    case("one of two wrong missing, e 1", 1, [(2, 2, 16)], [6])
    case("one wrong of five, e 2", 2, [(2, 2, 16)], [3, 6])
    case("one wrong of five, e 1", 1, [(2, 2, 16)], [3, 6])
    # the allowance falls by those dropped at a level
    case("two wrong in bit 0 and one in bit 4", 2, [(1, 0, 1), (2, 1, 24), (7, 0, 3)])
    # and by those with wide words, here 32 more than the right ones
    case("two wide", 2, [(1, 0, good[1][0] + 32), (7, 2, good[7][2] + 32)])
    case("one wide and one wrong in bit 3", 2, [(2, 2, good[2][2] + 32), (6, 1, 13)])
    case("one wide and wrong, one wide", 2, [(2, 2, 16 + 32), (4, 0, good[4][0] + 32)])
    case("two wide and one wrong", 2, [(1, 0, good[1][0] + 32), (3, 1, BIG), (6, 1, 13)])
    case("one wide and two wrong", 2, [(1, 0, good[1][0] + 32), (2, 2, 16), (6, 1, 13)])
    case("three wide", 2, [(i, 0, good[i][0] + 32) for i in (1, 4, 7)])
    case("two wide of six, e 2", 2, [(i, 0, good[i][0] + 32) for i in (1, 4)], [3])
    case("two wide of five, e 2", 2, [(i, 0, good[i][0] + 32) for i in (1, 4)], [3, 6])
    case("two wide of five, e 1", 1, [(i, 0, good[i][0] + 32) for i in (1, 4)], [3, 6])


def linear(cases):
    """What `edges` adds and multiplies, one by one."""
    ring = ring_of(SMALL.k, SMALL.d)
    sums = [ring.add(x, y) for x, y in zip(FIRST, SECOND)]
    multiples = [ring.mul(FACTOR, x) for x in FIRST]
    cases.open("sums of shares, jobs (5,2) and (6,7)", SMALL, ALL, sum(sums, ()), 0)
    cases.open("shares of (5,2) times (2,7)", SMALL, ALL, sum(multiples, ()), 0)


def draw(seed, count):
    """Words from a linear congruence."""
    words = []
    for _ in range(count):
        seed = (seed * 6364136223846793005 + 1442695040888963407) % 2**64
        words.append(seed)
    return words


def spoil(words, first, by):
    """Adds to every 54th word: one word of every ninth share, with d 6."""
    return [(word + by) % 2**64 if i >= first and (i - first) % 54 == 0 else word for i, word in enumerate(words)]


def large(cases):
    """The largest n, with every holder's share; as many of them wrong as can be told, and one more."""
    job, holders = draw(1, 6), list(range(1, 64))
    book, coefficients = Book(64, 6, 63, 20), draw(2, 120)
    words = call_deal(book, job, coefficients, [9] * 378)
    cases.deal("63 shares, t 20", book, job, coefficients)
    cases.open("63 shares, t 20", book, holders, words, 21)
    for first, by in ((2, 1), (20, 2**31), (38, 2**63)):
        words = spoil(words, first, by)
    cases.open("21 of them wrong, in bits 0, 31 and 63", book, holders, words, 21)
    words = spoil(words, 332, 1)
    cases.open("22 of them wrong", book, holders, words, 21)
    book = Book(8, 6, 63, 20)
    words = call_deal(book, [word >> 56 for word in job], [word >> 56 for word in coefficients], [9] * 378)
    for first, by in ((2, 2**8), (20, 2**63), (38, 2**32)):
        words = spoil(words, first, by)
    cases.open("21 of 63 wide, t 20", book, holders, words, 21)
    words = spoil(words, 332, 2**8)
    cases.open("22 of 63 wide, t 20", book, holders, words, 21)
    book, coefficients = Book(64, 6, 63, 62), draw(3, 372)
    words = call_deal(book, job, coefficients, [9] * 378)
    cases.deal("63 shares, t 62", book, job, coefficients)
    cases.open("63 shares, t 62", book, holders, words, 0)
    cases.open("63 shares, t 62, e 1", book, holders, words, 1)


def main():
    edges, openings = Cases(), Cases()
    for part in (books, element_lengths, widths, products, shares, readings):
        part(edges)
    for part in (dealings, marked, books_and_few, lengths_and_holders, wide, lowest, several, linear, large):
        part(openings)
    edges.write("edges")
    openings.write("openings")


main()
