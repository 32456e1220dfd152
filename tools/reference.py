#!/usr/bin/env python3
"""A second implementation of papers 01 and 02 (K1 to K6), for comparison: ring, dealing, opening, file writer, bundle reader, listing, mending, desk,
job text.

Without arguments this is the program `open`: a bundle on standard input, its listing on standard output. With `--mend` it prints what `mend` does,
with `--text` what `jobtext` does. `--selftest` checks the paper's examples, and three ways of opening against each other.

Opening goes other ways than the library's Newton interpolation and key equation:
  open_by_definition  tries every polynomial (tiny books);
  open_by_subsets     lays a curve through every t + 1 shares, over the ring, and counts who differs (few subsets);
  open_by_jumps       lays one curve, jumps to the lowest bit at which a share leaves it, and decodes there with Gao.
"""
import itertools
import random
import re
import struct
import sys
from collections import namedtuple
from functools import lru_cache

# "one fixed modulus for each d": the exponents of its terms below X^d.
MODULUS = {2: (0, 1), 3: (0, 1), 4: (0, 1), 5: (0, 2), 6: (0, 1)}
LONGEST_INPUT = 65536
MOST_JOBS = 1000
MOST_OPENINGS = 1000  # of a month

Book = namedtuple("Book", "k d n t")


class Refused(Exception):
    """A declined call; `number` is the paper's."""

    def __init__(self, number):
        super().__init__(f"refused {number}")
        self.number = number


def require(holds, number):
    """Decline with `number` unless `holds`."""
    if not holds:
        raise Refused(number)


def number_of(call, *lent):
    """What the sister call gives: 0, or the number with which `call` declines."""
    try:
        call(*lent)
    except Refused as refused:
        return refused.number
    return 0


# ---------------------------------------------------------------- ring

class Ring:
    """Elements are tuples of d words: "the coefficients of a polynomial in X, constant first"."""

    def __init__(self, k, d):
        self.k, self.d, self.mask = k, d, (1 << k) - 1
        self.zero = (0,) * d
        self.one = (1,) + (0,) * (d - 1)

    def add(self, a, b):
        """ "Sums are taken word by word modulo 2^k." """
        return tuple((x + y) & self.mask for x, y in zip(a, b))

    def sub(self, a, b):
        return tuple((x - y) & self.mask for x, y in zip(a, b))

    def mul(self, a, b):
        """ "Products are reduced modulo 2^k and one fixed modulus for each d." """
        product = [0] * (2 * self.d - 1)
        for i, x in enumerate(a):
            if x:
                for j, y in enumerate(b):
                    product[i + j] += x * y
        for i in range(2 * self.d - 2, self.d - 1, -1):
            for j in MODULUS[self.d]:
                product[i - self.d + j] -= product[i]
        return tuple(x & self.mask for x in product[:self.d])

    def power(self, a, exponent):
        result = self.one
        while exponent:
            if exponent & 1:
                result = self.mul(result, a)
            a = self.mul(a, a)
            exponent >>= 1
        return result

    def inverse(self, a):
        """ "An element has an inverse when it is not zero modulo 2; for one that is, the inverse call gives zero."

        b = a^(2^d - 2) is an inverse modulo 2, so ab = 1 - u with u even, and 1 / (1 - u) = (1 + u)(1 + u^2)(1 + u^4)..,
        where u^64 is zero.
        """
        if all(x % 2 == 0 for x in a):
            return self.zero
        result = self.power(a, 2**self.d - 2)
        u = self.sub(self.one, self.mul(a, result))
        for _ in range(6):
            result = self.mul(result, self.add(self.one, u))
            u = self.mul(u, u)
        return result

    def point(self, holder):
        """ "Holder i has the point whose word j is bit j of i"; 0 gives the point 0, which is no holder's."""
        return tuple(holder >> j & 1 for j in range(self.d))

    def value(self, polynomial, x):
        """ "The sum of the free term, the second coefficient times the point, the third times the point's square .." """
        result, power = self.zero, self.one
        for coefficient in polynomial:
            result = self.add(result, self.mul(coefficient, power))
            power = self.mul(power, x)
        return result

    def in_width(self, words):
        """ "A word is in width when it is below 2^k." """
        return all(0 <= x <= self.mask for x in words)

    def signed(self, word):
        """ "A word w below 2^(k-1) means w; otherwise w - 2^k." """
        return word if word < 1 << self.k - 1 else word - (1 << self.k)


ring_of = lru_cache(None)(Ring)


def check_book(book, jobs=0):
    """1 | "k, d, n, t or J is outside its range"."""
    k, d, n, t = book
    require(1 <= k <= 64 and 2 <= d <= 6 and 1 <= n <= 2**d - 1 and 0 <= t <= n - 1 and jobs <= MOST_JOBS, 1)


def elements(flat, d):
    """A flat list of words as elements of d words."""
    return [tuple(flat[i:i + d]) for i in range(0, len(flat), d)]


def deal(book, job, coefficients):
    """The n shares of `job`; the t further coefficients of the dealing polynomial are lent. Order 1, 2, 3."""
    check_book(book)
    ring = ring_of(book.k, book.d)
    polynomial = [tuple(job)] + [tuple(c) for c in coefficients]
    require(len(polynomial) == book.t + 1 and all(len(c) == book.d for c in polynomial), 2)
    require(all(map(ring.in_width, polynomial)), 3)
    return {i: ring.value(polynomial, ring.point(i)) for i in range(1, book.n + 1)}


# ---------------------------------------------------------------- curves through shares, over the ring

@lru_cache(None)
def inverse_difference(k, d, i, j):
    """ "The difference of two points, or of a point and 0, has an inverse." """
    ring = ring_of(k, d)
    return ring.inverse(ring.sub(ring.point(i), ring.point(j)))


@lru_cache(1 << 12)
def denominators(k, d, holders):
    """For each i of `holders` the product of 1 / (x_i - x_j) over the others."""
    ring, result = ring_of(k, d), []
    for i in holders:
        product = ring.one
        for j in holders:
            if j != i:
                product = ring.mul(product, inverse_difference(k, d, i, j))
        result.append(product)
    return result


@lru_cache(1 << 14)
def weights(k, d, holders, x):
    """Lagrange's weights of the values at `holders` in the value at x, a further holder or 0."""
    ring = ring_of(k, d)
    whole = ring.one
    for j in holders:
        whole = ring.mul(whole, ring.sub(ring.point(x), ring.point(j)))
    return [ring.mul(ring.mul(whole, inverse_difference(k, d, x, i)), denominator)
            for i, denominator in zip(holders, denominators(k, d, holders))]


def through(ring, shares, holders, x):
    """The value at x of the polynomial of degree below len(holders) that meets the shares of `holders`, modulo 2^k."""
    if x in holders:
        return ring.add(shares[x], ring.zero)
    result = ring.zero
    for i, weight in zip(holders, weights(ring.k, ring.d, holders, x)):
        result = ring.add(result, ring.mul(weight, shares[i]))
    return result


# ---------------------------------------------------------------- opening: each gives (words, wrong holders) or None

# The words of a share may be wide. They are compared with those of a value as they stand, so that such a share differs
# "from every polynomial" (paper 02, K1). The wrong holders, rising, come each with the lowest bit that differs (K4):
# {holder: bit}.


def lowest_difference(share, value):
    """K4: "the lowest bit position at which any of its words differs, or that none does", which is None.

    "A wide word is compared at its full 64 bits with the value": bits from k on are bits like the others.
    """
    if share == value:
        return None
    return next(bit for bit in range(64) if any(x >> bit & 1 != y >> bit & 1 for x, y in zip(share, value)))


def open_by_definition(ring, t, shares, e):
    """The words of 6: a "polynomial of degree at most t" that "differs from e shares or fewer"; every one is tried."""
    every = list(itertools.product(range(ring.mask + 1), repeat=ring.d))
    for polynomial in itertools.product(every, repeat=t + 1):
        bits = {i: lowest_difference(share, ring.value(polynomial, ring.point(i))) for i, share in shares.items()}
        wrong = {i: bit for i, bit in bits.items() if bit is not None}
        if len(wrong) <= e:
            return polynomial[0], wrong
    return None


def open_by_subsets(ring, t, shares, e):
    """A polynomial that differs from at most e of t + 1 + 2e shares meets t + 1 of them, and these fix it."""
    for holders in itertools.combinations(shares, t + 1):
        wrong = {}
        for i in shares:
            bit = lowest_difference(shares[i], through(ring, shares, holders, i))
            if bit is not None:
                wrong[i] = bit
                if len(wrong) > e:
                    break
        else:
            return through(ring, shares, holders, 0), wrong
    return None


def open_by_jumps(ring, t, shares, e):
    """Lay a curve F through the first t + 1 shares still in. If at most the allowance differ, it is the answer.

    Otherwise let v be the lowest bit at which a share leaves F. A polynomial P within the allowance meets t + 1
    shares, so P = F + 2^v G, and G modulo 2 is within the allowance of (share - F) / 2^v modulo 2: a word that Gao
    decodes. The shares wrong there are dropped "and the allowance falls by their number". At least one falls, as
    the word is zero at t + 1 points but not everywhere, and a word of degree at most t cannot be so. Where v is k or
    more, shares leave F in wide words alone, so that P is F, which is not within the allowance. Two numbers first differ
    at the lowest bit of their difference.
    """
    inside, allowance = dict(shares), e
    while True:
        holders = tuple(inside)[:t + 1]

        def gaps(those):
            """What F leaves of shares, in numbers that may be negative."""
            return {i: [x - y for x, y in zip(share, through(ring, inside, holders, i))] for i, share in those.items()}

        left = gaps(inside)
        if sum(map(any, left.values())) <= allowance:
            wrong = {i: lowest_of(gap) for i, gap in gaps(shares).items() if any(gap)}
            return through(ring, inside, holders, 0), wrong
        v = min(lowest_of(gap) for gap in left.values() if any(gap))
        if v >= ring.k:
            return None
        word = {i: sum((gap[j] >> v & 1) << j for j in range(ring.d)) for i, gap in left.items()}
        wrong = gao(field_of(ring.d), t, word, allowance)
        if wrong is None:
            return None
        assert wrong, "a level that is decoded drops a share"
        allowance -= len(wrong)
        for i in wrong:
            del inside[i]


def lowest_of(gap):
    """The lowest bit of some numbers, not all zero."""
    return min((number & -number).bit_length() - 1 for number in gap if number)


class Field:
    """The field of 2^d elements; bit j of an element is its word j. X generates it for each of the five moduli."""

    def __init__(self, d):
        self.order = 2**d - 1
        modulus = 2**d + sum(1 << j for j in MODULUS[d])
        self.exp, x = [], 1
        for _ in range(self.order):
            self.exp.append(x)
            x <<= 1
            if x >> d:
                x ^= modulus
        self.log = {x: i for i, x in enumerate(self.exp)}
        assert len(self.log) == self.order

    def mul(self, a, b):
        return self.exp[(self.log[a] + self.log[b]) % self.order] if a and b else 0

    def div(self, a, b):
        return self.exp[(self.log[a] - self.log[b]) % self.order] if a else 0

    def value(self, polynomial, x):
        result = 0
        for coefficient in reversed(polynomial):
            result = self.mul(result, x) ^ coefficient
        return result

    def product(self, f, g):
        """Of polynomials, as lists with the free term first and no zero at the end."""
        result = [0] * (len(f) + len(g) - 1 if f and g else 0)
        for i, a in enumerate(f):
            for j, b in enumerate(g):
                result[i + j] ^= self.mul(a, b)
        return trimmed(result)

    def divided(self, f, g):
        """Quotient and remainder of polynomials."""
        rest, quotient = list(f), [0] * max(0, len(f) - len(g) + 1)
        for shift in range(len(f) - len(g), -1, -1):
            quotient[shift] = self.div(rest[shift + len(g) - 1], g[-1])
            for i, b in enumerate(g):
                rest[shift + i] ^= self.mul(quotient[shift], b)
        return trimmed(quotient), trimmed(rest)


field_of = lru_cache(None)(Field)


def trimmed(f):
    while f and not f[-1]:
        f.pop()
    return f


def plus(f, g):
    return trimmed([a ^ b for a, b in itertools.zip_longest(f, g, fillvalue=0)])


def gao(field, t, word, e):
    """The holders at which `word` differs from the polynomial of degree at most t that is within e of it, or None.

    The remainders of the extended Euclid of prod(x - x_i) and the interpolation of the whole word are followed to the
    first of degree below (m + t + 1) / 2; it is the locator, its cofactor, times the polynomial looked for.
    """
    m, everywhere = len(word), [1]
    for i in word:
        everywhere = field.product(everywhere, [i, 1])
    interpolation = []
    for i, y in word.items():
        others, _ = field.divided(everywhere, [i, 1])
        factor = field.div(y, field.value(others, i))
        interpolation = plus(interpolation, field.product([factor] if factor else [], others))
    (r0, v0), (r1, v1) = (everywhere, []), (interpolation, [1])
    while 2 * (len(r1) - 1) >= m + t + 1:
        quotient, rest = field.divided(r0, r1)
        (r0, v0), (r1, v1) = (r1, v1), (rest, plus(v0, field.product(quotient, v1)))
    answer, rest = field.divided(r1, v1)
    if rest or len(answer) > t + 1:
        return None
    wrong = [i for i, y in word.items() if field.value(answer, i) != y]
    return wrong if len(wrong) <= e else None


def open_shares(book, shares, e):
    """Words and wrong holders from {holder: words}. Order 5, 6; what is a fault of the book or list is judged before."""
    require(len(shares) >= book.t + 1 + 2 * e, 5)
    answer = open_by_jumps(ring_of(book.k, book.d), book.t, shares, e)
    require(answer is not None, 6)
    return answer


def open_lent(book, holders, words, e):
    """Opening of lent shares: d words for each lent holder. Order 1, 2, 4, 5, 6: "Opening one job no longer gives 3". """
    check_book(book)
    require(len(words) == len(holders) * book.d, 2)
    require(all(1 <= i <= book.n for i in holders) and all(a < b for a, b in zip(holders, holders[1:])), 4)
    return open_shares(book, dict(zip(holders, elements(words, book.d))), e)


# ---------------------------------------------------------------- bytes of a file

HEADING, JOB, ORDER = 1, 2, 16
LENGTHS = {HEADING: {19}, JOB: {10 + 8 * d for d in MODULUS}, ORDER: {3}}


def record(kind, body):
    """ "A 4-byte length, then a 2-byte kind, then a body, all little-endian. The length counts kind and body." """
    return struct.pack("<IH", 2 + len(body), kind) + body


def order(e):
    return record(ORDER, bytes([e]))


def heading(book, holder, archive, jobs):
    """ "k, d, n, t, holder (a byte each), archive number (8 bytes), job count J (4 bytes)." """
    return record(HEADING, struct.pack("<5BQI", *book, holder, archive, jobs))


def job(number, words):
    """ "Job number (8 bytes), then d words of 8 bytes." """
    return record(JOB, struct.pack(f"<{1 + len(words)}Q", number, *words))


def write_file(book, holder, archive, numbers, words):
    """The file of one holder; order 1, 2, 4, 7, 3."""
    check_book(book, len(numbers))
    require(len(words) == len(numbers) * book.d, 2)
    require(1 <= holder <= book.n, 4)
    require(all(a < b for a, b in zip(numbers, numbers[1:])), 7)
    require(ring_of(book.k, book.d).in_width(words), 3)
    return heading(book, holder, archive, len(numbers)) + b"".join(map(job, numbers, elements(words, book.d)))


def read_record(data, at):
    """Kind, body and the moved cursor, or None at the end; the read "judges nothing else"."""
    require(at <= len(data), 7)
    if at == len(data):
        return None
    require(len(data) - at >= 6, 7)
    length, kind = struct.unpack_from("<IH", data, at)
    require(kind in LENGTHS and length in LENGTHS[kind] and len(data) - at >= 4 + length, 7)
    return kind, data[at + 6:at + 4 + length], at + 4 + length


class Files:
    """Files that belong together: book, archive, job numbers, and the job bodies of each under its holder, in the order of the bytes.

    "The first fault in byte order counts; inside one heading the order is 7, 1, 4, 8, and inside one job 7, 8."
    """

    def __init__(self):
        self.first, self.numbers, self.files, self.parts = None, None, {}, []

    @staticmethod
    def expect(data, at, kind):
        """The record that the sequence asks for; any other, or the end, is 7."""
        read = read_record(data, at)
        require(read is not None and read[0] == kind, 7)
        return read[1:]

    def read_file(self, data, start):
        body, at = self.expect(data, start, HEADING)
        k, d, n, t, holder, archive, jobs = struct.unpack("<5BQI", body)
        book = Book(k, d, n, t)
        check_book(book, jobs)
        require(max(self.files, default=0) < holder <= n, 4)
        self.first = self.first or (book, archive, jobs)
        require(self.first == (book, archive, jobs), 8)
        bodies, numbers = [], []
        for place in range(jobs):
            body, at = self.expect(data, at, JOB)
            require(len(body) == 8 + 8 * d, 7)
            number, = struct.unpack_from("<Q", body)
            require(not numbers or numbers[-1] < number, 7)
            require(self.numbers is None or self.numbers[place] == number, 8)
            bodies.append(body)
            numbers.append(number)
        self.numbers = numbers
        self.files[holder] = bodies
        self.parts.append((holder, start, at - start))
        return at


class Bundle(Files):
    """A bundle read whole: e, and its files."""

    def __init__(self, data):
        super().__init__()
        (self.e,), at = self.expect(data, 0, ORDER)
        while at < len(data) or not self.files:  # "a bundle has no file": 7, as the heading is missing
            at = self.read_file(data, at)

    @property
    def book(self):
        return self.first[0]

    def words(self, holder, place):
        return struct.unpack_from(f"<{self.book.d}Q", self.files[holder][place], 8)

    def shares(self, place):
        """ "The shares present for a job of a bundle are the d words of that job in each of its files." """
        return {holder: self.words(holder, place) for holder in self.files}

    def total(self, holder, a, b):
        """The sum of one file's shares over the places a to b - 1; a word of them out of width gives 3."""
        ring, total = ring_of(self.book.k, self.book.d), (0,) * self.book.d
        for place in range(a, b):
            require(ring.in_width(self.words(holder, place)), 3)
            total = ring.add(total, self.words(holder, place))
        return total

    def check_run(self, a, b):
        """9 | "a run from a to b has a above b, or b above J"."""
        require(a <= b <= len(self.numbers), 9)


def check_file(data):
    """One file by itself: "bytes follow where a file must end" is its last fault."""
    require(Files().read_file(data, 0) == len(data), 7)


def read_step(data, cursor):
    """A read as four words: 0 for a record and 1 for the end, the kind, and where the body starts and how long it is."""
    read = read_record(data, cursor)
    if read is None:
        return 1, 0, cursor, 0
    kind, body, at = read
    return 0, kind, at - len(body), len(body)


def describe(data):
    """Nine words: e, k, d, n, t, archive number, jobs, files, bytes of a file."""
    bundle = Bundle(data)
    book, archive, jobs = bundle.first
    return bundle.e, *book, archive, jobs, len(bundle.parts), bundle.parts[0][2]


def job_number(data, place):
    """The number of the job at a place. Order: the bundle's faults, 9."""
    bundle = Bundle(data)
    require(place < len(bundle.numbers), 9)
    return bundle.numbers[place]


def file_part(data, index):
    """Holder, offset and length of a file. Order: the bundle's faults, 9."""
    bundle = Bundle(data)
    require(index < len(bundle.parts), 9)
    return bundle.parts[index]


def fetch(data, holder, place):
    """The body of a job record, by holder and place. Order: the bundle's faults, 4, 9."""
    bundle = Bundle(data)
    require(holder in bundle.files, 4)
    require(place < len(bundle.numbers), 9)
    return bundle.files[holder][place]


def total(data, holder, a, b):
    """One holder's sum over a run. Order: the bundle's faults, 4, 9, 3."""
    bundle = Bundle(data)
    require(holder in bundle.files, 4)
    bundle.check_run(a, b)
    return bundle.total(holder, a, b)


def add_total(data, holder, a, b, running):
    """K3: "exactly the lent element plus the run's total". Order: the bundle's faults, 4, 2, 9, 3, of the element "too"."""
    bundle = Bundle(data)
    require(holder in bundle.files, 4)
    require(len(running) == bundle.book.d, 2)
    bundle.check_run(a, b)
    ring = ring_of(bundle.book.k, bundle.book.d)
    require(ring.in_width(running), 3)
    return ring.add(running, bundle.total(holder, a, b))


def open_place(data, place):
    """Words and wrong holders of one job. Order: the bundle's faults, 9, 5, 6."""
    bundle = Bundle(data)
    require(place < len(bundle.numbers), 9)
    return open_shares(bundle.book, bundle.shares(place), bundle.e)


def open_run(data, a, b):
    """ "Each file's shares over it are added and the sums opened as one job's shares, with the bundle's e."

    Order: the bundle's faults, 9, 3, 5, 6, of a run of one place too.
    """
    bundle = Bundle(data)
    bundle.check_run(a, b)
    return open_shares(bundle.book, {i: bundle.total(i, a, b) for i in bundle.files}, bundle.e)


# ---------------------------------------------------------------- the desk (paper 02, K5): a record is "an allowance Q .. and a count"

def desk_start(desk, q):
    """The record after "the start of a month". Order 2, 1: "a Q above 1,000 gives 1 there too and starts nothing"."""
    require(len(desk) == 2, 2)
    require(q <= MOST_OPENINGS, 1)
    return q, 0


def desk_open(desk, data, place):
    """The record after "the opening of one job by its place", and what that gave: "only an opening that gives words adds one".

    Order: 2 of the record, 1 of its Q, the bundle's faults, 9, 10 "when the count is Q or more", 5, 6.
    """
    require(len(desk) == 2, 2)
    q, count = desk
    require(q <= MOST_OPENINGS, 1)
    bundle = Bundle(data)
    require(place < len(bundle.numbers), 9)
    require(count < q, 10)
    words = open_shares(bundle.book, bundle.shares(place), bundle.e)
    return (q, count + 1), words


# ---------------------------------------------------------------- mending (paper 02, K2)

def mended_shares(bundle, place):
    """ "Every wrong share replaced by its polynomial's value"; "a job that answers 5 or 6 keeps its bytes".

    The right shares lie on the polynomial, and any t + 1 of them fix it.
    """
    book, shares = bundle.book, bundle.shares(place)
    try:
        _, wrong = open_shares(book, shares, bundle.e)
    except Refused:
        return shares
    right = tuple(i for i in shares if i not in wrong)[:book.t + 1]
    return {i: through(ring_of(book.k, book.d), shares, right, i) if i in wrong else share for i, share in shares.items()}


def mended(data):
    """The bytes of the mended bundle, written anew record by record, or the number with which the bundle is declined."""
    try:
        bundle = Bundle(data)
    except Refused as refused:
        return refused.number
    book, archive, jobs = bundle.first
    columns = [mended_shares(bundle, place) for place in range(jobs)]
    return order(bundle.e) + b"".join(
        heading(book, i, archive, jobs) + b"".join(job(number, column[i]) for number, column in zip(bundle.numbers, columns))
        for i in bundle.files)


# ---------------------------------------------------------------- job text (paper 02, K6): "one lens job as five lines"

# "Job and axis are whole numbers; the other three have exactly two decimals." "No leading zeros, but at least one digit, before any point", and a
# minus sign only before a negative value, so not before a zero. No number in range has more than 20 digits.
DIGITS = "(?:0|[1-9][0-9]{0,19})"
NUMBER, WHOLE, HUNDREDTHS = DIGITS, f"(?!-0)-?{DIGITS}", rf"(?!-0\.00)-?{DIGITS}\.[0-9][0-9]"
FORMS = {"JOB": NUMBER, "SPH": HUNDREDTHS, "CYL": HUNDREDTHS, "AX": WHOLE, "CTHICK": HUNDREDTHS}
TEXT = re.compile("".join(f"{label}=({form})\r\n" for label, form in FORMS.items()).encode())


def check_text_book(book):
    """ "Only books with d 4 have this text, others give 1." """
    check_book(book)
    require(book.d == 4, 1)


def decimals(hundredths):
    """Hundredths, "exactly two decimals"."""
    whole, rest = divmod(abs(hundredths), 100)
    return f"{'-' if hundredths < 0 else ''}{whole}.{rest:02}"


def write_text(book, number, words):
    """The five lines of a job, "each ended by CR LF". Order 1, 2, 3; an output is judged after these, "since its length depends on the words"."""
    check_text_book(book)
    require(len(words) == 4, 2)
    ring = ring_of(book.k, book.d)
    require(ring.in_width(words), 3)
    sphere, cylinder, axis, thickness = map(ring.signed, words)
    lines = f"JOB={number}", f"SPH={decimals(sphere)}", f"CYL={decimals(cylinder)}", f"AX={axis}", f"CTHICK={decimals(thickness)}"
    return "".join(line + "\r\n" for line in lines).encode()


def read_text(book, data):
    """The number and the words of the one job that has this text. Order 1, 11.

    11 is for "any other, missing or further line or a number outside the book's signed range, the job number's range being 0 to 2^64 - 1".
    """
    check_text_book(book)
    found = TEXT.fullmatch(data)
    require(found is not None, 11)
    number, *values = (int(part.replace(b".", b"")) for part in found.groups())
    half = 1 << book.k - 1
    require(number < 2**64 and all(-half <= value < half for value in values), 11)
    return number, tuple(value % (1 << book.k) for value in values)


# ---------------------------------------------------------------- the programs

def joined(items):
    return ",".join(map(str, items)) or "-"


def joined_bits(wrong):
    """{holder: bit} as the listing has it."""
    return joined(f"{holder}/{bit}" for holder, bit in wrong.items())


def job_line(bundle, place):
    """Job number; `open` or the number 5 or 6; "wrong holders rising, or `-`; the signed words, or `-`."

    K4: "the listing prints the holder, a slash and the position".
    """
    try:
        words, wrong = open_shares(bundle.book, bundle.shares(place), bundle.e)
    except Refused as refused:
        return f"{bundle.numbers[place]} {refused.number} - -"
    signed = ring_of(bundle.book.k, bundle.book.d).signed
    return f"{bundle.numbers[place]} open {joined_bits(wrong)} {joined(map(signed, words))}"


def change_lines(bundle, place):
    """ "Each changed place as `10 holder 3`, by job and then by holder"; a job that keeps its bytes "is printed as `11 refused 6`". """
    number = bundle.numbers[place]
    try:
        _, wrong = open_shares(bundle.book, bundle.shares(place), bundle.e)
    except Refused as refused:
        return [f"{number} refused {refused.number}"]
    return [f"{number} holder {holder}" for holder in wrong]


def accepted(data):
    """The bundle that a program reads. "Input that is too long gives 2 before any record is looked at." """
    require(len(data) <= LONGEST_INPUT, 2)
    return Bundle(data)


def text(data, head, lines_of):
    """What a program prints: `head` and then the lines of each place, or `refused N` alone."""
    try:
        bundle = accepted(data)
    except Refused as refused:
        return f"refused {refused.number}\n"
    lines = [line for place in range(len(bundle.numbers)) for line in lines_of(bundle, place)]
    return "".join(line + "\n" for line in head + lines)


def listing(data):
    """What `open` prints."""
    return text(data, ["job state wrong words"], lambda bundle, place: [job_line(bundle, place)])


def report(data):
    """What `mend` prints. No first line is asked for, so a bundle in which nothing changes prints nothing."""
    return text(data, [], change_lines)


def text_of_place(bundle, place):
    """The text of a job that opens; one that answers 5 or 6 has none, and is printed as `mend` prints it."""
    try:
        words, _ = open_shares(bundle.book, bundle.shares(place), bundle.e)
    except Refused as refused:
        return f"{bundle.numbers[place]} refused {refused.number}\n"
    return write_text(bundle.book, bundle.numbers[place], words).decode()


def job_texts(data):
    """What `jobtext` prints: the texts one after another. A book that has none is declined as a bundle is."""
    try:
        bundle = accepted(data)
        check_text_book(bundle.book)
    except Refused as refused:
        return f"refused {refused.number}\n"
    return "".join(text_of_place(bundle, place) for place in range(len(bundle.numbers)))


# ---------------------------------------------------------------- self-test

SAMPLE_BOOK = Book(3, 2, 3, 0)
SAMPLE_JOBS = {10: [(5, 2), (5, 2), (1, 2)], 11: [(5, 2), (1, 2), (7, 2)]}


def sample(jobs=None):
    """The paper's input of 256 bytes, perhaps with other shares."""
    jobs = jobs or SAMPLE_JOBS
    columns = zip(*jobs.values())
    return order(1) + b"".join(write_file(SAMPLE_BOOK, holder, 7, list(jobs), sum(shares, ()))
                               for holder, shares in enumerate(columns, 1))


def answer(book, holders, shares, e):
    """(words, wrong), or the number."""
    try:
        return open_lent(book, holders, sum(shares, ()), e)
    except Refused as refused:
        return refused.number


def test_marked():
    """M1 to M12, in the paper's order, and the examples beside them."""
    ring, line = ring_of(3, 2), Book(3, 2, 3, 1)
    assert ring.mul((0, 1), (0, 1)) == (7, 7)
    assert ring.mul((0, 1), (1, 1)) == (7, 0)
    assert ring.inverse((0, 1)) == (7, 7)
    assert list(deal(line, (5, 2), [(3, 1)]).values()) == [(0, 3), (4, 4), (7, 5)]
    assert answer(line, [1, 2, 3], [(0, 3), (4, 4), (7, 5)], 0) == ((5, 2), {})
    assert answer(line, [1, 2, 3], [(0, 3), (4, 4), (3, 5)], 0) == 6
    assert answer(line, [1, 3], [(0, 3), (3, 5)], 0) == ((1, 6), {})
    assert answer(line, [1, 2, 3], [(0, 3), (4, 4), (7, 5)], 1) == 5
    assert answer(SAMPLE_BOOK, [1, 2, 3], SAMPLE_JOBS[10], 1) == ((5, 2), {3: 2})
    assert answer(SAMPLE_BOOK, [1, 2, 3], SAMPLE_JOBS[11], 1) == 6
    assert ring_of(64, 4).mul((0, 0, 0, 1), (0, 1, 0, 0)) == (2**64 - 1, 2**64 - 1, 0, 0)
    assert [ring_of(8, 2).signed(w) for w in (127, 128)] == [127, -128]
    assert ring_of(1, 2).signed(1) == -1
    assert answer(SAMPLE_BOOK, [], [()], 0) == 5
    assert answer(SAMPLE_BOOK, [1, 2, 3], [(1, 2), (5, 2), (5, 2)], 1) == ((5, 2), {1: 2})
    assert [number_of(check_book, Book(1, 4, n, 0)) for n in (15, 16)] == [0, 1]
    assert [number_of(check_book, Book(1, 4, 1, 0), jobs) for jobs in (1000, 1001)] == [0, 1]


def test_wide():
    """K1: a wide share is present, and differs from every polynomial, whatever its low bits are."""
    right, wide, wrong = (5, 2), (5 + 8, 2), (1, 2)
    assert answer(SAMPLE_BOOK, [1, 2, 3], [wide, right, right], 1) == (right, {1: 3})
    assert answer(SAMPLE_BOOK, [1, 2, 3], [right, right, (8, 2**64 - 1)], 1) == (right, {3: 0})
    assert answer(SAMPLE_BOOK, [1, 2, 3], [right, right, wide], 0) == 6
    assert answer(SAMPLE_BOOK, [1, 2, 3], [right, wide, wide], 1) == 6
    assert answer(SAMPLE_BOOK, [1, 2, 3], [right, wide, wrong], 1) == 6
    assert answer(SAMPLE_BOOK, [1, 2], [right, wide], 1) == 5  # too few by number, though the wide one is one of them
    assert answer(SAMPLE_BOOK, [1], [wide], 0) == 6
    data = order(1) + b"".join(heading(SAMPLE_BOOK, i, 7, 2) + job(1, right) + job(2, wide if i == 3 else right) for i in (1, 2, 3))
    assert listing(data) == "job state wrong words\n1 open - -3,2\n2 open 3/3 -3,2\n"
    assert open_run(data, 0, 1) == (right, {}) and [number_of(open_run, data, *run) for run in ((1, 2), (0, 2))] == [3, 3]
    assert [number_of(total, data, holder, 1, 2) for holder in (2, 3)] == [0, 3]


def test_lowest():
    """K4: the lowest bit over all words, wide ones at their full 64 bits, for each wrong holder."""
    right = (5, 2, 0)
    for share, bit in (((5, 2, 0), None), ((4, 2, 0), 0), ((1, 2, 0), 2), ((5, 2, 4), 2), ((5 ^ 32, 2, 2), 1), ((5 ^ 2, 2, 32), 1), ((7, 6, 7), 0),
                       ((5 + 8, 2, 0), 3), ((5, 2 + 2**63, 0), 63), ((5 + 2**40, 2, 2**20), 20), ((5 + 8, 6, 0), 2), ((5, 2, 2**64 - 1), 0)):
        assert lowest_difference(share, right) == lowest_difference(right, share) == bit
        for k in (3, 4, 64):
            book, wrong = Book(k, 3, 5, 0), {} if bit is None else {4: bit}
            assert answer(book, [1, 2, 4], [right, right, share], 1) == (right, wrong)
            assert answer(book, [1, 2, 4, 5], [right, right, share, right], 1) == (right, wrong)
    both = [(5, 2, 0), (5, 2, 4), (5, 2, 0), (5 + 16, 3, 0), (5, 2, 0)]
    assert answer(Book(3, 3, 5, 0), [1, 2, 3, 4, 5], both, 2) == (right, {2: 2, 4: 0})
    line = Book(3, 3, 7, 1)
    shares = deal(line, right, [(3, 1, 0)])
    shares[3], shares[7] = (tuple(x ^ y for x, y in zip(shares[i], by)) for i, by in ((3, (4, 0, 2)), (7, (8, 0, 4))))
    assert answer(line, list(shares), list(shares.values()), 2) == (right, {3: 1, 7: 2})


def test_bundle():
    """The paper's sample, and the calls on a bundle."""
    data = sample()
    assert len(data) == 256
    assert listing(data) == "job state wrong words\n10 open 3/2 -3,2\n11 6 - -\n"
    assert fetch(data, 3, 0) == struct.pack("<3Q", 10, 1, 2)
    assert total(data, 1, 0, 2) == (2, 4) and total(data, 1, 2, 2) == (0, 0)
    assert open_place(data, 0) == open_run(data, 0, 1) == ((5, 2), {3: 2}) and open_run(data, 2, 2) == ((0, 0), {})
    assert [number_of(fetch, data, *where) for where in ((0, 9), (4, 0), (1, 2), (1, 1))] == [4, 4, 9, 0]
    assert [number_of(open_run, data, a, b) for a, b in ((1, 0), (0, 3), (3, 3), (0, 2), (0, 1))] == [9, 9, 9, 6, 0]
    assert number_of(open_place, data, 1) == 6 and number_of(open_place, data, 2) == 9
    assert listing(data + bytes(LONGEST_INPUT)) == "refused 2\n"
    at, kinds = 0, []
    while (read := read_record(data, at)) is not None:
        kinds.append(read[0])
        at = read[2]
    assert kinds == [16] + 3 * [1, 2, 2] and at == 256
    assert number_of(read_record, data, 257) == number_of(read_record, b"", 1) == 7 and read_record(b"", 0) is None
    assert describe(data) == (1, 3, 2, 3, 0, 7, 2, 3, 83)
    assert [job_number(data, place) for place in (0, 1)] == [10, 11] and number_of(job_number, data, 2) == 9
    assert [file_part(data, index) for index in range(3)] == [(1, 7, 83), (2, 90, 83), (3, 173, 83)] and number_of(file_part, data, 3) == 9
    assert [number_of(check_file, data[a:b]) for a, b in ((7, 90), (7, 89), (7, 91), (7, 173), (0, 256), (0, 0))] == [0, 7, 7, 7, 7, 7]
    assert [read_step(data, at) for at in (0, 7, 226, 256)] == [(0, 16, 6, 1), (0, 1, 13, 17), (0, 2, 232, 24), (1, 0, 256, 0)]
    with_cuts = [number_of(Bundle, data[:cut]) for cut in range(257)]
    assert [cut for cut, number in enumerate(with_cuts) if number == 0] == [90, 173, 256]
    assert set(with_cuts) == {0, 7}


def test_added():
    """K3 on the paper's sample: sums over runs and files, and what is declined, of an empty run too."""
    data, lent = sample(), (7, 5)
    assert add_total(data, 1, 0, 2, lent) == (1, 1) and add_total(data, 1, 0, 2, (0, 0)) == total(data, 1, 0, 2)
    assert add_total(data, 1, 1, 2, add_total(data, 1, 0, 1, lent)) == (1, 1)
    assert add_total(data, 3, 0, 2, add_total(data, 2, 0, 2, lent)) == (5, 5)
    assert [add_total(data, 3, place, place, lent) for place in range(3)] == 3 * [lent]
    assert [number_of(add_total, data, holder, 1, 0, (8,)) for holder in (0, 4, 1)] == [4, 4, 2]
    assert [number_of(add_total, data, 1, 0, 3, words) for words in ((), (7,), (8, 5, 0), (8, 5), lent)] == [2, 2, 2, 9, 9]
    assert [number_of(add_total, data, 1, a, b, (7, 8)) for a, b in ((0, 2), (0, 0), (2, 2), (1, 0), (3, 3))] == [3, 3, 3, 9, 9]
    assert number_of(add_total, data[:255], 0, 1, 0, ()) == 7
    late = data[:-1] + b"\1"  # the last word of all
    assert [number_of(add_total, late, 3, a, b, lent) for a, b in ((0, 1), (0, 2), (1, 2), (2, 2))] == [0, 3, 3, 0]


def test_desk():
    """K5 on the paper's sample, whose job 10 opens and whose job 11 gives 6: what is counted, and the order of what is declined."""
    data, two_files, first = sample(), sample()[:173], ((5, 2), {3: 2})
    assert [desk_start(desk, q) for desk, q in (((2**64 - 1, 7), 1000), ((3, 3), 0))] == [(1000, 0), (0, 0)]
    assert [number_of(desk_start, (3, 1), q) for q in (1000, 1001, 2**64 - 1)] == [0, 1, 1]
    assert [number_of(desk_start, desk, 1001) for desk in ((), (3,), (3, 1, 0))] == [2, 2, 2]
    assert desk_open((2, 0), data, 0) == ((2, 1), first) and desk_open((1000, 999), data, 0) == ((1000, 1000), first)
    assert [number_of(desk_open, (2, 1), data, place) for place in (0, 1, 2)] == [0, 6, 9]
    for closed in ((0, 0), (2, 2), (2, 3), (0, 2**64 - 1), (1000, 1000), (1000, 2**64 - 1)):
        assert [number_of(desk_open, closed, data, place) for place in (0, 1, 2, 2**64 - 1)] == [10, 10, 9, 9]
        assert [number_of(desk_open, closed, two_files, place) for place in (0, 2)] == [10, 9]
        assert number_of(desk_open, closed, data[:255], 0) == 7
    assert [number_of(desk_open, desk, two_files, 0) for desk in ((1, 0), (1001, 0))] == [5, 1]  # too few for e = 1
    for q in (1001, 2**63, 2**64 - 1):  # "before the bundle is read"
        assert [number_of(desk_open, (q, count), part, 2) for count in (0, q) for part in (data, b"")] == 4 * [1]
    assert [number_of(desk_open, desk, part, 0) for desk in ((), (1001,), (1001, 0, 0)) for part in (data, b"")] == 6 * [2]


def test_month(rng):
    """ "Over any calls after a start .. the count is the number of openings that gave words since the last start, and never exceeds Q". """
    bundles = sample(), sample()[:173], sample()[:255], sample({10: [(5, 2)] * 3, 11: [(7, 0)] * 3})
    for _ in range(40):
        q, gave = rng.randrange(6), 0
        desk = desk_start((rng.getrandbits(64), rng.getrandbits(64)), q)
        for _ in range(25):
            data, place, new = rng.choice(bundles), rng.randrange(3), rng.choice((0, 1, 4, 1000, 1001, 2**64 - 1))
            without, number = number_of(open_place, data, place), number_of(desk_open, desk, data, place)
            assert number == (10 if gave == q and without in (0, 5, 6) else without)
            if number == 0:
                desk, words = desk_open(desk, data, place)
                gave += 1
                assert words == open_place(data, place)
            if rng.random() < 0.1 and number_of(desk_start, desk, new) == 0:
                desk, q, gave = desk_start(desk, new), new, 0
            assert desk == (q, gave) and gave <= q


def test_mended():
    """K2 on the paper's sample: one share replaced, job 11 as it was; wide words replaced whole; what is declined."""
    data, new = sample(), sample({**SAMPLE_JOBS, 10: [(5, 2)] * 3})
    assert report(data) == "10 holder 3\n11 refused 6\n" and mended(data) == new
    assert report(new) == "11 refused 6\n" and mended(new) == new
    assert listing(new) == "job state wrong words\n10 open - -3,2\n11 6 - -\n"
    two_files = data[:173]  # too few for e = 1
    assert report(two_files) == "10 refused 5\n11 refused 5\n" and mended(two_files) == two_files
    right, wide = (5, 2), (5 + 8, 2**64 - 1)

    def three(wrong):
        return order(1) + b"".join(heading(SAMPLE_BOOK, i, 7, 1) + job(1, wide if i in wrong else right) for i in (1, 2, 3))

    assert report(three([3])) == "1 holder 3\n" and mended(three([3])) == three([])
    assert report(three([])) == "" and mended(three([])) == three([])
    assert report(three([1, 2])) == "1 refused 6\n" and mended(three([1, 2])) == three([1, 2])
    assert [mended(x) for x in (b"", sample()[:255], order(1) + heading(Book(3, 2, 3, 3), 1, 7, 0))] == [7, 7, 1]
    assert report(b"") == "refused 7\n" and report(bytes(LONGEST_INPUT + 1)) == "refused 2\n"
    assert report(order(255) + heading(SAMPLE_BOOK, 1, 7, 0)) == ""


LENS_BOOK, LENS = Book(16, 4, 3, 0), (-325 % 2**16, 50, 90, 218)
LENS_LINES = b"JOB=10", b"SPH=-3.25", b"CYL=0.50", b"AX=90", b"CTHICK=2.18"


def lines_text(lines):
    return b"".join(line + b"\r\n" for line in lines)


def test_text():
    """K6: the numbers as they are written, the order of what is declined, and the program on bundles of books with and without this text."""
    lens = lines_text(LENS_LINES)
    assert write_text(LENS_BOOK, 10, LENS) == lens and read_text(LENS_BOOK, lens) == (10, LENS)
    assert [decimals(x) for x in (5, -5, -100, 0, 99, 100, -99, 12345)] == ["0.05", "-0.05", "-1.00", "0.00", "0.99", "1.00", "-0.99", "123.45"]
    one = Book(1, 4, 1, 0)
    assert write_text(one, 0, (1, 0, 1, 1)) == lines_text([b"JOB=0", b"SPH=-0.01", b"CYL=0.00", b"AX=-1", b"CTHICK=-0.01"])
    longest = write_text(Book(64, 4, 1, 0), 2**64 - 1, (2**63,) * 4)
    assert longest.endswith(b"AX=-9223372036854775808\r\nCTHICK=-92233720368547758.08\r\n") and len(longest) == 135
    faulty = Book(0, 4, 3, 0), Book(65, 4, 3, 0), Book(16, 4, 16, 0), Book(16, 4, 0, 0), Book(16, 4, 3, 3)
    for book in (*faulty, *(Book(16, d, 3, 0) for d in (1, 2, 3, 5, 6, 7))):
        assert [number_of(write_text, book, 10, words) for words in (LENS, LENS[:3], (2**64 - 1,) * 4)] == [1, 1, 1]
        assert number_of(read_text, book, lens) == number_of(read_text, book, b"") == 1
    wide = (2**16, *LENS[1:])
    assert [number_of(write_text, LENS_BOOK, 10, words) for words in ((), wide[:3], (*wide, 0), wide, (0, 0, 0, 2**64 - 1))] == [2, 2, 2, 3, 3]
    job_10, job_11 = [LENS, LENS, (0, 0, 0, 0)], [LENS, (0, 0, 0, 0), (1, 0, 0, 0)]
    files = [heading(LENS_BOOK, i, 7, 2) + job(10, a) + job(11, b) for i, (a, b) in enumerate(zip(job_10, job_11), 1)]
    data = order(1) + b"".join(files)
    assert job_texts(data) == lens.decode() + "11 refused 6\n" and job_texts(data[:-len(files[2])]) == "10 refused 5\n11 refused 5\n"
    assert job_texts(order(0) + heading(LENS_BOOK, 1, 7, 0)) == "" and job_texts(order(0) + heading(SAMPLE_BOOK, 1, 7, 0)) == "refused 1\n"
    assert [job_texts(x) for x in (sample(), sample()[:255], b"", bytes(LONGEST_INPUT + 1))] == [f"refused {number}\n" for number in (1, 7, 7, 2)]


def near_misses():
    """Lines that stand instead of one of the example's, by place; each is declined."""
    numbers = b"", b"-0", b"+10", b"010", b"10.00", b" 10", b"10 ", b"-1", b"%d" % 2**64, b"1" + 5000 * b"0"
    yield from ((0, b"JOB=" + x) for x in numbers)
    numbers = (b"", b"-0.00", b"+1.00", b"01.00", b"-01.00", b".50", b"-.50", b"1.5", b"1.500", b"1", b"1.", b"1,50", b"1.50 ", b"- 1.50", b"1e2",
               b"0x1.00", "\uff11.00".encode(), b"1.0\xb2", b"327.68", b"-327.69", b"655.36", b"184467440737095519.66")
    yield from ((place, label + x) for place, label in ((1, b"SPH="), (2, b"CYL="), (4, b"CTHICK=")) for x in numbers)
    numbers = b"", b"-0", b"+90", b"090", b"-090", b"90.0", b"90.00", b"90 ", b"32768", b"-32769", b"65626", b"%d" % (2**64 + 90)
    yield from ((3, b"AX=" + x) for x in numbers)
    for place, line in enumerate(LENS_LINES):
        label, value = line.split(b"=")
        others = b"", line.lower(), b" " + line, label + b" =" + value, label + b"= " + value, label + b":" + value, label + value, value
        further = line + b"\r", line + b"\n", line + b"\0", line + b"\r\n", line + b"\r\n" + line, LENS_LINES[place - 1]
        yield from ((place, x) for x in others + further)


def test_text_declined(rng):
    """ "Text that export would not write is declined, so one job has one text": near misses, every change of one byte, all jobs of small books."""
    lens = lines_text(LENS_LINES)
    for place, line in near_misses():
        lines = *LENS_LINES[:place], line, *LENS_LINES[place + 1:]
        assert number_of(read_text, LENS_BOOK, lines_text(lines)) == 11, line
    others = [lens[:at] for at in range(len(lens))] + [lens + x for x in (b"\0", b"\r", b"\n", b" ", b"\r\n", b"JOB=10\r\n", lens)]
    others += [lens.replace(b"\r\n", end) for end in (b"\n", b"\r", b"\n\r", b"")]
    others += [lines_text(LENS_LINES[:at] + LENS_LINES[at + 1:]) for at in range(5)]
    others += [lines_text(lines) for lines in itertools.permutations(LENS_LINES) if lines != LENS_LINES]
    assert {number_of(read_text, LENS_BOOK, x) for x in others} == {11}
    for at, byte in itertools.product(range(len(lens)), range(256)):
        other = lens[:at] + bytes([byte]) + lens[at + 1:]
        if other != lens and number_of(read_text, LENS_BOOK, other) == 0:  # another number, so another text
            assert lens[at] in b"-0123456789" and byte in b"0123456789" and write_text(LENS_BOOK, *read_text(LENS_BOOK, other)) == other
    for k in (1, 2):
        book, every = Book(k, 4, 15, 14), list(itertools.product(range(2**k), repeat=4))
        texts = [write_text(book, 7, words) for words in every]
        assert len(set(texts)) == 2**(4 * k) and [read_text(book, x) for x in texts] == [(7, words) for words in every]
    for _ in range(2000):
        book, number = Book(rng.randint(1, 64), 4, 15, 14), rng.choice((0, 2**64 - 1, rng.getrandbits(rng.randint(1, 64))))
        half = 1 << book.k - 1
        words = tuple(rng.choice((0, half - 1, half, 2 * half - 1, rng.getrandbits(book.k))) for _ in range(4))
        assert read_text(book, write_text(book, number, words)) == (number, words)


def random_element(rng, ring):
    return tuple(rng.getrandbits(ring.k) for _ in range(ring.d))


def test_ring(rng):
    """Laws of the ring on random elements, inverses, and "the difference of two points .. has an inverse"."""
    for d in MODULUS:
        for k in (1, 2, 3, 8, 33, 64):
            ring = ring_of(k, d)
            for _ in range(20):
                a, b, c = (random_element(rng, ring) for _ in range(3))
                assert ring.mul(a, ring.mul(b, c)) == ring.mul(ring.mul(a, b), c) and ring.mul(a, b) == ring.mul(b, a)
                assert ring.mul(a, ring.add(b, c)) == ring.add(ring.mul(a, b), ring.mul(a, c))
                unit = any(x % 2 for x in a)
                assert ring.mul(a, ring.inverse(a)) == ring.one if unit else ring.inverse(a) == ring.zero
        for i in range(2**d):
            for j in range(i):
                difference = ring.sub(ring.point(i), ring.point(j))
                assert ring.mul(difference, inverse_difference(64, d, i, j)) == ring.one


def random_shares(rng, ring, n, t):
    """Shares of some holders: dealt, and then changed, moved to a second polynomial, made wide, or several of these, in some of them."""
    first, second = ([random_element(rng, ring) for _ in range(t + 1)] for _ in range(2))
    if rng.random() < 0.5:  # agree in all but the high bits
        low = rng.randrange(ring.k)
        second = [ring.add(a, tuple(x << low & ring.mask for x in b)) for a, b in zip(first, second)]
    shares, often = {}, rng.choice((0, 1))
    for i in sorted(rng.sample(range(1, n + 1), rng.choice((rng.randint(t + 1, n), n)))):
        polynomial = second if rng.random() < 0.3 * often else first
        shares[i] = ring.value(polynomial, ring.point(i))
        if rng.random() < 0.2 * often:
            change = [0] * ring.d
            change[rng.randrange(ring.d)] = 1 << rng.randrange(ring.k)
            shares[i] = ring.add(shares[i], tuple(change))
    if ring.k < 64 and rng.random() < 0.5:
        for i in rng.sample(sorted(shares), rng.randint(0, (len(shares) - t - 1) // 2 + 1)):
            shares[i] = widened(rng, ring, shares[i], rng.randint(1, ring.d))
    return shares


def widened(rng, ring, share, count):
    """`share` with bits above the width in `count` of its words."""
    words = list(share)
    for j in rng.sample(range(ring.d), count):
        words[j] += rng.choice((1, rng.randrange(1, 1 << 64 - ring.k), (1 << 64 - ring.k) - 1)) << ring.k
    return tuple(words)


def test_openings(rng, rounds):
    """The ways of opening against each other; gives how often each answer came."""
    seen = {"open": 0, "6": 0, "open with a wide share": 0, "6 with a wide share": 0, "by definition": 0}
    for _ in range(rounds):
        d = rng.choice((2, 2, 3, 3, 4, 5, 6))
        n, k = rng.randint(1, min(2**d - 1, 9)), rng.choice((1, 2, 3, 4, 5, 8, 16, 31, 63, 64))
        t, ring = rng.choice((rng.randrange(n), rng.randrange(n // 3 + 1))), ring_of(k, d)
        shares = random_shares(rng, ring, n, t)
        most = (len(shares) - t - 1) // 2
        e = rng.choice((rng.randint(0, most), most))
        result = open_by_jumps(ring, t, shares, e)
        assert result == open_by_subsets(ring, t, shares, e), (ring.k, d, t, shares, e)
        if k * d * (t + 1) <= 8:
            assert result == open_by_definition(ring, t, shares, e), (ring.k, d, t, shares, e)
            seen["by definition"] += 1
        wide = "" if all(map(ring.in_width, shares.values())) else " with a wide share"
        seen[("open" if result else "6") + wide] += 1
    return seen


def test_large(rng):
    """Books too large for the subsets: dealt jobs with at most e wrong shares open to themselves, with exact names."""
    for book, e in ((Book(64, 6, 63, 20), 21), (Book(63, 6, 63, 0), 31), (Book(17, 5, 31, 10), 10), (Book(64, 4, 15, 4), 5)):
        ring = ring_of(book.k, book.d)
        for _ in range(3):
            words = random_element(rng, ring)
            shares = deal(book, words, [random_element(rng, ring) for _ in range(book.t)])
            wrong = {i: rng.randrange(ring.k) for i in sorted(rng.sample(sorted(shares), rng.randint(0, e)))}
            for i, bit in wrong.items():  # higher bits change where the sum carries
                shares[i] = ring.add(shares[i], (1 << bit,) + ring.zero[1:])
            assert open_shares(book, shares, e) == (words, wrong)
            if ring.k < 64:
                wide = {i: widened(rng, ring, share, 1) if i in wrong and rng.random() < 0.5 else share for i, share in shares.items()}
                assert open_shares(book, wide, e) == (words, wrong)
            by = random_element(rng, ring)
            if any(x % 2 for x in by):  # "dealt shares so multiplied .. open to the job times that element", and the lowest bits stay
                scaled = {i: ring.mul(by, share) for i, share in shares.items()}
                assert open_shares(book, scaled, e) == (ring.mul(by, words), wrong)


def test_mending(rng):
    """Dealt jobs with at most e wrong shares are mended to what was dealt; one with more wide shares than that stays as it is."""
    for book, e in ((Book(3, 2, 3, 0), 1), (Book(1, 3, 7, 2), 2), (Book(33, 4, 9, 2), 3), (Book(63, 6, 63, 20), 21), (Book(64, 5, 31, 0), 15)):
        ring, changed, dealt, lines = ring_of(book.k, book.d), [], [], []
        for number in range(4):
            shares = deal(book, random_element(rng, ring), [random_element(rng, ring) for _ in range(book.t)])
            lost = number == 2 and book.k < 64
            wrong = sorted(rng.sample(sorted(shares), e + 1 if lost else rng.randint(0, e)))
            other = {i: widened(rng, ring, shares[i], 1) if lost else ring.add(shares[i], (1 << rng.randrange(ring.k),) + ring.zero[1:])
                     for i in wrong}
            changed.append({**shares, **other})
            dealt.append(changed[-1] if lost else shares)
            lines += [f"{number} refused 6"] if lost else [f"{number} holder {i}" for i in wrong]
        data, new = (order(e) + b"".join(
            heading(book, i, 7, len(columns)) + b"".join(job(number, column[i]) for number, column in enumerate(columns))
            for i in range(1, book.n + 1)) for columns in (changed, dealt))
        assert mended(data) == new and report(data).splitlines() == lines


def test_runs(rng):
    """The opened total of a run is the sum of its jobs, with the holders wrong in it named, and reads as the signed sum; a file's total added to an
    element is that of the parts added one after the other."""
    book, e, jobs = Book(32, 3, 6, 1), 2, 5
    ring = ring_of(book.k, book.d)
    for _ in range(20):
        dealt = [tuple(rng.randrange(-2**28, 2**28) & ring.mask for _ in range(book.d)) for _ in range(jobs)]
        columns = [deal(book, words, [random_element(rng, ring)]) for words in dealt]
        columns[3][5] = ring.add(columns[3][5], (0, 0, 1 << 31))
        files = [write_file(book, i, 7, list(range(jobs)), sum((c[i] for c in columns), ())) for i in range(1, 7)]
        a, b = sorted(rng.choices(range(jobs + 1), k=2))
        data, middle, lent = order(e) + b"".join(files), rng.randint(a, b), random_element(rng, ring)
        words, wrong = open_run(data, a, b)
        assert wrong == ({5: 31} if a <= 3 < b else {})
        for i in range(1, 7):
            assert add_total(data, i, a, b, lent) == ring.add(lent, total(data, i, a, b))
            assert add_total(data, i, middle, b, add_total(data, i, a, middle, lent)) == add_total(data, i, a, b, lent)
        for j in range(book.d):
            assert ring.signed(words[j]) == sum(ring.signed(word[j]) for word in dealt[a:b])


def selftest():
    rng = random.Random(1)
    test_marked()
    test_wide()
    test_lowest()
    test_bundle()
    test_added()
    test_desk()
    test_mended()
    test_text()
    test_ring(rng)
    test_runs(rng)
    seen = test_openings(rng, 6000)
    test_large(rng)
    test_mending(rng)
    test_month(rng)
    test_text_declined(rng)
    print("self-test passed; openings compared:", ", ".join(f"{count} {name}" for name, count in seen.items()))


if __name__ == "__main__":
    if sys.argv[1:] == ["--selftest"]:
        selftest()
    elif sys.argv[1:] == ["--mend"]:
        sys.stdout.write(report(sys.stdin.buffer.read()))
    elif sys.argv[1:] == ["--text"]:
        sys.stdout.write(job_texts(sys.stdin.buffer.read()))
    elif sys.argv[1:]:
        sys.exit("usage: reference.py [--selftest | --mend | --text] < bundle")
    else:
        sys.stdout.write(listing(sys.stdin.buffer.read()))
