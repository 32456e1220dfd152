#!/usr/bin/env python3
"""Whether README.md and docs/REFERENCE.md say what is so: the bundle taken apart, byte by byte, what `open` lists of it and what `mend` prints; the
job text of the labs' sample; the tables of refusals, of allowances and of what 65,536 bytes hold; README's samples; the kit's identity.

  tools/documents.py OPEN MEND JOBTEXT exit 1, with a line for each, if something is otherwise; the arguments are the programs
  tools/documents.py --block NAME      the block of docs/REFERENCE.md under the mark NAME: dump, listing, report, text, program, printed; or of
                                       docs/SECRECY.md: coefficients, counts"""
import pathlib
import re
import subprocess
import sys

sys.dont_write_bytecode = True
TOP = pathlib.Path(__file__).resolve().parent.parent
sys.path.insert(0, str(TOP / 'tools'))
import reference as r

REFERENCE = (TOP / 'docs/REFERENCE.md').read_text(encoding='utf-8')
SECRECY = (TOP / 'docs/SECRECY.md').read_text(encoding='utf-8')
README = (TOP / 'README.md').read_text(encoding='utf-8')
LABS = (TOP / 'samples/labs.bundle').read_bytes()


def block(name):
    """The code block that follows a mark."""
    return re.search(r'<!-- %s -->\n```\w*\n(.*?)```' % name, REFERENCE + SECRECY, re.S).group(1)


def rows(text, start):
    """The cells of the rows of the table that begins with a line, without its two lines of head."""
    lines = text[text.index(start):].split('\n')[2:]
    for line in lines[:next(i for i, x in enumerate(lines) if not x.startswith('|'))]:
        yield [cell.strip() for cell in line.strip('|').split('|')]


def dump():
    """The bytes of the dump, whose lines begin where they say; they are the paper's sample."""
    data = bytearray()
    for line in block('dump').splitlines():
        at, digits = line.split(None, 1)
        if int(at) != len(data):
            yield 'the dump: a line says %s and stands at %d' % (at, len(data))
        data += bytes.fromhex(digits)
    if data != r.sample():
        yield 'the dump is not the sample'
    at = 0
    for place, what in rows(REFERENCE, '| bytes | what they say |'):
        ends = [int(x) for x in re.split(', | to ', place)]
        told = re.match('`([0-9a-f ]+)`', what)
        if ends[0] != at:
            yield 'the bytes taken apart: %s does not follow' % place
        if told and bytes.fromhex(told.group(1)) != data[ends[0]:ends[-1] + 1]:
            yield 'the bytes taken apart: other bytes stand at %s' % place
        at = ends[-1] + 1
    if at != len(data):
        yield 'the bytes taken apart end at %d' % at


def prints(program, data):
    """What a program prints of an input."""
    return subprocess.run([program], input=data, capture_output=True, check=True).stdout.decode()


def printed(program, what):
    """What a program prints of the dump, and of README's sample."""
    if prints(program, bytes(r.sample())) != block(what):
        yield 'the %s of the dump is otherwise' % what
    sample = prints(program, LABS)
    if ''.join('    %s\n' % line for line in sample.splitlines()) not in README:
        yield 'README.md has another %s of samples/labs.bundle' % what


def text(program):
    """What `jobtext` prints of the labs' sample, where each of the five lines of a job ends in CR LF, which the page cannot show."""
    right = re.sub(r'(?m)^((?:JOB|SPH|CYL|AX|CTHICK)=.*)$', r'\1\r', block('text'))
    if prints(program, LABS) != right:
        yield 'the text of samples/labs.bundle is otherwise'


def capacity():
    for files, *jobs in rows(REFERENCE, '| files | d 2 |'):
        for d, told in zip(range(2, 7), jobs):
            most = max(j for j in range(r.MOST_JOBS + 1) if 7 + int(files) * (23 + j * (14 + 8 * d)) <= r.LONGEST_INPUT)
            if told != ('-' if int(files) > 2**d - 1 else str(most)):
                yield 'what 65,536 bytes hold: %s files at d %d have %d jobs' % (files, d, most)


def allowances():
    for book, e, right, noticed in rows(REFERENCE, '| m, t | e |'):
        m, t = map(int, book.split(', '))
        if int(right) != int(e) or int(noticed) != m - t - 1 - int(e) or m < t + 1 + 2 * int(e):
            yield 'the table of allowances: %s, e %s' % (book, e)


def refusals():
    """Numbers and names of the two tables, the header and the Rust wrapper."""
    told = {int(row[0]): row for row in rows(REFERENCE, '| number | word | in C, in Rust |')}
    header = (TOP / 'include/yikescanvas.h').read_text(encoding='utf-8')
    wrapper = (TOP / 'rust/yikescanvas/src/lib.rs').read_text(encoding='utf-8')
    numbers = header.split('YIKES_OK = 0,', 1)[1].split('}', 1)[0]
    in_c = {int(n): name for name, n in re.findall(r'(YIKES_\w+) = (\d+)', numbers)}
    in_rust = {int(n): name for name, n in re.findall(r'Refusal::(\w+) => (\d+),', wrapper)}
    if not set(told) == set(in_c) == set(in_rust):
        yield 'the refusals are not those of the header and of the Rust wrapper'
    for n, row in told.items():
        if row[2] != '`%s`, `%s`' % (in_c.get(n), in_rust.get(n)):
            yield 'refusal %d has other names' % n
    if [(int(a), b) for a, b, *_ in rows(README, '| number | word |')] != [(n, row[1]) for n, row in told.items()]:
        yield 'README.md has other refusals'


def kit():
    """The kit that the documents name is the one here; another one is told, and is no fault of theirs."""
    here = subprocess.run(['rt', 'version'], capture_output=True, text=True, check=True).stdout.strip()
    for name in ('README.md', 'docs/THEOREMS.md'):
        if '`%s`' % here not in (TOP / name).read_text(encoding='utf-8'):
            print('note: %s names another kit than %s' % (name, here), file=sys.stderr)


def main():
    if sys.argv[1] == '--block':
        sys.stdout.write(block(sys.argv[2]))
        return 0
    found = [*dump(), *printed(sys.argv[1], 'listing'), *printed(sys.argv[2], 'report'), *text(sys.argv[3]), *capacity(), *allowances(), *refusals()]
    kit()
    for fault in found:
        print(fault)
    return 1 if found else 0


if __name__ == '__main__':
    sys.exit(main())
