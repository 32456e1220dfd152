#!/usr/bin/env python3
"""The cases of the program `formats` and the answers to them, from a second implementation.

Written from paper 01 ("Bytes of a file", "When a call declines"): it reads records one after another and stops at
the first fault. Run from the repository's top; it writes crates/formats/stdin and crates/formats/stdout.
"""
import struct

VALUES = [0, 1, 2, 3, 4, 16, 17, 65, 255]


# ---- writing

def record(kind, body, length=None):
    return struct.pack('<IH', 2 + len(body) if length is None else length, kind) + body


def heading(k, d, n, t, holder, archive, jobs):
    return record(1, bytes([k, d, n, t, holder]) + struct.pack('<QI', archive, jobs))


def job(number, words):
    return record(2, struct.pack('<Q', number) + b''.join(struct.pack('<Q', w) for w in words))


def order(e):
    return record(16, bytes([e]))


def file(book, holder, archive, jobs):
    return heading(*book, holder, archive, len(jobs)) + b''.join(job(*j) for j in jobs)


# ---- reading

class Fault(Exception):
    def __init__(self, number):
        self.number = number


def read(bs, at):
    """The record at a position: kind, body and the position after it; 7 where there is none."""
    if len(bs) - at < 6:
        raise Fault(7)
    length, kind = struct.unpack_from('<IH', bs, at)
    lengths = {1: [19], 2: [10 + 8 * d for d in range(2, 7)], 16: [3]}
    if length not in lengths.get(kind, []) or at + 4 + length > len(bs):
        raise Fault(7)
    return kind, bs[at + 6:at + 4 + length], at + 4 + length


def need(ok, number):
    if not ok:
        raise Fault(number)


def read_file(bs, at, first, previous):
    """A file at a position: its heading, its job numbers and the position after it. `first` is the first file's, or None."""
    kind, body, at = read(bs, at)
    need(kind == 1, 7)
    k, d, n, t, holder, archive, jobs = struct.unpack('<BBBBBQI', body)
    need(1 <= k <= 64 and 2 <= d <= 6 and 1 <= n <= 2 ** d - 1 and 0 <= t <= n - 1 and jobs <= 1000, 1)
    need(1 <= holder <= n and holder > previous, 4)
    same = (k, d, n, t, archive, jobs)
    need(first is None or first[0] == same, 8)
    numbers = []
    for place in range(jobs):
        kind, body, at = read(bs, at)
        need(kind == 2 and len(body) == 8 + 8 * d, 7)
        number = struct.unpack_from('<Q', body)[0]
        need(not numbers or numbers[-1] < number, 7)
        need(first is None or first[1][place] == number, 8)
        numbers.append(number)
    return same, numbers, holder, at


def bundle_fault(bs):
    try:
        kind, _, at = read(bs, 0)
        need(kind == 16, 7)
        first, previous = None, 0
        while True:
            if at == len(bs) and first is not None:
                return 0
            same, numbers, previous, at = read_file(bs, at, first, previous)
            first = first or (same, numbers)
    except Fault as fault:
        return fault.number


def file_fault(bs):
    try:
        at = read_file(bs, 0, None, 0)[3]
        need(at == len(bs), 7)
        return 0
    except Fault as fault:
        return fault.number


def trace(bs):
    out, at = '', 0
    while at < len(bs):
        try:
            kind, _, at = read(bs, at)
        except Fault:
            return out + 'x'
        out += {1: '1', 2: '2', 16: 'o'}[kind]
    return out + 'e'


# ---- the cases

def sample():
    """The paper's bundle of 256 bytes."""
    words = [[(5, 2), (5, 2)], [(5, 2), (1, 2)], [(1, 2), (7, 2)]]
    return order(1) + b''.join(file((3, 2, 3, 0), i + 1, 7, list(zip([10, 11], words[i]))) for i in range(3))


def parts(bs):
    """Where each record of a good bundle stands."""
    at, out = 0, []
    while at < len(bs):
        out.append(at)
        at = read(bs, at)[2]
    return out


def cases():
    book = (3, 2, 3, 0)
    jobs = [(10, (5, 2)), (11, (6, 1))]
    small = order(1) + file(book, 1, 7, jobs) + file(book, 3, 7, jobs)
    good = sample()
    assert len(good) == 256
    yield 's', small
    yield 'c', good
    # each record's length and kind
    for at in parts(small):
        for length in [0, 1, 2, 2 ** 32 - 1]:
            yield 'c', small[:at] + struct.pack('<I', length) + small[at + 4:]
        for kind in [0, 3, 17, 65535, 256 + small[at + 4]]:
            yield 'c', small[:at + 4] + struct.pack('<H', kind) + small[at + 6:]
    # the order missing, doubled, late, alone, of another length
    a, b = file(book, 1, 7, jobs), file(book, 3, 7, jobs)
    for bs in [a + b, order(1) * 2 + a + b, a + order(1) + b, a + b + order(1), order(1), b'', record(16, b'') + a, record(16, bytes(2)) + a]:
        yield 'c', bs
    # a heading where a job must stand, and a job where a heading must
    head, rest = a[:23], a[23:]
    yield 'c', order(1) + head + head + rest
    yield 'c', order(1) + head + rest[:30] + head + rest[30:]
    yield 'c', order(1) + rest
    yield 'c', order(1) + a + rest
    yield 'c', order(1) + a + job(12, (0, 0)) + b
    # bytes after the end
    yield 'c', small + b'\0'
    yield 'c', small + bytes(23)
    yield 'c', small + record(1, bytes(17))
    # the count of jobs: 0, 1,000 announced and missing, 1,001, one more and one fewer
    empty = order(0) + file(book, 2, 9, [])
    yield 'c', empty
    yield 'c', empty + file(book, 2, 9, [])
    yield 'c', empty + file(book, 3, 9, [])
    for count in [1000, 1001, 2 ** 32 - 1]:
        yield 'c', order(0) + heading(*book, 2, 9, count)
        yield 'f', heading(*book, 2, 9, count)
    for count in [1, 3]:
        yield 'c', order(1) + heading(*book, 1, 7, count) + rest
    # ranges
    for four in [(3, 4, 15, 0), (3, 4, 16, 0), (3, 4, 15, 14), (3, 4, 15, 15), (64, 6, 63, 62), (65, 6, 63, 62), (1, 2, 1, 0), (0, 2, 1, 0), (3, 2, 3, 2),
                 (3, 2, 4, 2), (3, 1, 1, 0), (3, 7, 3, 0), (3, 2, 0, 0), (255, 255, 255, 255)]:
        for holder in [0, 1, four[2], (four[2] + 1) % 256]:
            yield 'c', order(9) + file(four, holder, 0, [])
            yield 'f', file(four, holder, 0, [])
    # holders that do not rise, and strangers: ranges first, then holders, then belonging
    for second in [(book, 1, 7, jobs), (book, 2, 7, jobs), (book, 4, 7, jobs), (book, 0, 7, jobs), ((3, 2, 3, 1), 2, 7, jobs), ((4, 2, 3, 0), 2, 7, jobs),
                   ((3, 3, 3, 0), 2, 7, [(10, (1, 2, 3))] * 2), ((3, 2, 2, 0), 2, 7, jobs), ((3, 2, 2, 0), 3, 7, jobs), (book, 2, 8, jobs),
                   ((3, 2, 4, 0), 2, 8, jobs), ((3, 2, 3, 1), 1, 7, jobs), (book, 2, 7, jobs[:1]), (book, 2, 7, jobs[1:] + jobs[:1]),
                   (book, 2, 7, [(10, (0, 0)), (12, (0, 0))]), (book, 2, 7, [(9, (0, 0)), (11, (0, 0))]), (book, 2, 7, [(11, (0, 0)), (11, (0, 0))])]:
        yield 'c', order(1) + a + file(*second)
    # a stranger whose jobs are damaged, a stranger that is cut, an early stranger and a late fault
    yield 'c', order(1) + a + heading(*book, 2, 8, 2) + bytes(9)
    yield 'c', order(1) + a + heading(*book, 2, 8, 2)[:22]
    yield 'c', order(1) + a + file(book, 2, 7, [(10, (0, 0)), (12, (0, 0))]) + b'\1'
    # job numbers: from 0, equal, falling, the largest; words of any width
    big = 2 ** 64 - 1
    for numbers in [(0, 1), (5, 5), (5, 4), (big - 1, big), (big, 0)]:
        yield 'c', order(255) + file(book, 1, big, [(n, (big, 2 ** 63)) for n in numbers])
        yield 'f', file(book, 1, big, [(n, (big, 2 ** 63)) for n in numbers])
    # one file alone: cut, followed, a bundle
    for bs in [a, a[:-1], a[:23], a + b'\0', a + b, order(1) + a, b'', a[:53]]:
        yield 'f', bs
    # the cursor: it judges records one by one, and nothing else
    for bs in [small, small[:-1], b'', bytes(6), order(0) * 3, heading(0, 0, 0, 0, 0, 0, 9999) + order(7), rest + head,
               b''.join(record(2, bytes(8 + 8 * d)) for d in range(2, 7)), record(2, bytes(16)), record(2, bytes(64)), record(2, bytes(25)),
               order(1) + record(1, bytes(16)), order(1) + record(3, bytes(25)), order(1) + bytes(5), small[:7] + struct.pack('<I', 2 ** 32 - 1) + small[11:]]:
        yield 'r', bs


def main():
    asked, answers = [], []
    for kind, bs in cases():
        assert len(bs) <= 512
        asked.append('%s %s\n' % (kind, bs.hex()))
        if kind == 'c':
            answers.append('%d\n' % bundle_fault(bs))
        elif kind == 'f':
            answers.append('%d\n' % file_fault(bs))
        elif kind == 'r':
            answers.append(trace(bs) + '\n')
        else:
            answers.append(''.join(str(bundle_fault(bs[:n])) for n in range(len(bs))) + '\n')
            for value in VALUES:
                answers.append(''.join(str(bundle_fault(bs[:i] + bytes([value]) + bs[i + 1:])) for i in range(len(bs))) + '\n')
    text = ''.join(asked)
    assert len(text) <= 65536, len(text)
    open('crates/formats/stdin', 'w').write(text)
    open('crates/formats/stdout', 'w').write(''.join(answers))
    print(len(asked), 'cases', len(text), 'bytes')


main()
