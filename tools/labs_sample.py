#!/usr/bin/env python3
"""Writes samples/labs.bundle: six jobs in the labs' own book (d 4), eleven files of fifteen, some shares wrong."""
import pathlib
import random
import sys

sys.dont_write_bytecode = True
sys.path.insert(0, str(pathlib.Path(__file__).parent))
import reference as r

BOOK = r.Book(16, 4, 15, 4)
E = 3
JOBS = {
    501: (-225, -75, 180, 210),
    502: (150, 0, 0, 415),
    507: (-600, -125, 15, 160),
    510: (75, -250, 92, 330),
    511: (-1050, -50, 170, 145),
    523: (0, -100, 45, 200),
}
HOLDERS = [1, 2, 3, 5, 6, 8, 9, 11, 12, 14, 15]
# job number, holder, word, bits that changed
DAMAGE = [(502, 3, 3, 0x8000), (507, 5, 0, 1), (507, 12, 1, 0x00FF), (507, 15, 2, 0x4000), (511, 1, 3, 0x0200)]
LOST = [523]  # more than E shares of these are wrong


def main():
    rng = random.Random(523)
    k, d, n, t = BOOK
    words = {h: {} for h in HOLDERS}
    for number, job in JOBS.items():
        secret = [w % 2**k for w in job]
        shares = r.deal(BOOK, secret, [[rng.randrange(2**k) for _ in range(d)] for _ in range(t)])
        for h in HOLDERS:
            words[h][number] = list(shares[h])
    for number, holder, word, bits in DAMAGE:
        words[holder][number][word] ^= bits
    for number in LOST:
        for holder in HOLDERS[:E + 1]:
            words[holder][number][holder % d] ^= 1 << holder
    data = r.order(E)
    for h in HOLDERS:
        flat = [w for number in JOBS for w in words[h][number]]
        data += r.write_file(BOOK, h, 2026, list(JOBS), flat)
    here = pathlib.Path(__file__).parent.parent / "samples"
    here.mkdir(exist_ok=True)
    (here / "labs.bundle").write_bytes(bytes(data))


main()
