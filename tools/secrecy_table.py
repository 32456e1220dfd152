#!/usr/bin/env python3
"""How often shares and jobs come together in the smallest books, over all coefficients, from the reference implementation: what the example secrecy
of rust/yikescanvas prints from the library."""
import collections
import itertools
import sys

sys.dont_write_bytecode = True
import reference as r


def lists(k, count):
    """All lists of words of k bits, the first word moving fastest."""
    return [tuple(reversed(x)) for x in itertools.product(range(2**k), repeat=count)]


def text(words):
    return ','.join(map(str, words))


def dealings(book):
    for job in lists(book.k, book.d):
        for drawn in lists(book.k, book.t * book.d):
            yield job, drawn, r.deal(book, job, r.elements(drawn, book.d))


def coefficients(book):
    """The coefficient of each share and job of lab 2, where t is 1."""
    found = {(shares[2], job): drawn for job, drawn, shares in dealings(book)}
    elements = lists(book.k, book.d)
    yield 'k %d, d %d, n %d, t %d, lab 2: the coefficient with which each job (across) gives each share (down)' % book
    yield '     ' + ''.join(' %4s' % text(job) for job in elements)
    for share in elements:
        yield '%5s' % text(share) + ''.join(' %4s' % text(found[share, job]) for job in elements)


def counts(book):
    """For t labs and for t + 1: the least and the most that a list of their shares comes with a job, and with how many jobs each comes."""
    groups = [g for size in (book.t, book.t + 1) for g in itertools.combinations(range(1, book.n + 1), size)]
    times = {g: collections.Counter() for g in groups}
    for job, _, shares in dealings(book):
        for group in groups:
            times[group][tuple(shares[i] for i in group), job] += 1
    for group in groups:
        held = [tuple(r.elements(x, book.d)) for x in lists(book.k, len(group) * book.d)]
        told = [[times[group][x, job] for job in lists(book.k, book.d)] for x in held]
        every = sum(told, [])
        met = sorted({sum(n > 0 for n in row) for row in told})
        yield '%d %d %d %d  %-5s %7d %6d %6d %5d %13s' % (
            *book, text(group) or 'none', len(held), 2**(book.k * book.d), min(every), max(every), ' to '.join(map(str, met)))


def main():
    print('\n'.join(coefficients(r.Book(1, 2, 3, 1))))
    print('\nhow often a list of shares and a job come together')
    print('k d n t  labs   shares   jobs  least  most  jobs of each')
    for k in (1, 2):
        for t in range(3):
            print('\n'.join(counts(r.Book(k, 2, 3, t))))


if __name__ == '__main__':
    main()
