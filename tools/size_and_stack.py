#!/usr/bin/env python3
"""The size of each exported call and the stack that it uses, as the table of docs/PERFORMANCE.md: `tools/build.sh boundary` first.

Size is the bytes of the call's own code, and of all the code that it reaches, each function once. Stack is what tests/boundary/stack.c measures."""
import os, re, subprocess, sys, tempfile

root = os.path.join(os.path.dirname(os.path.abspath(__file__)), '..')
library = os.path.join(os.environ.get('YIKES_LIB_DIR', os.path.join(root, 'target/staticlib')), 'libboundary.a')


def run(*command):
    return subprocess.run(command, check=True, capture_output=True, text=True).stdout


def functions(program):
    """The size of each function of a linked program, and the functions that it calls or jumps to."""
    sizes, names, calls, here = {}, {}, {}, None
    for line in run('nm', '-S', program).splitlines():
        fields = line.split()
        if len(fields) == 4 and fields[2] in 'tT':
            sizes[fields[3]] = int(fields[1], 16)
            names[int(fields[0], 16)] = fields[3]
    for line in run('objdump', '-d', '--no-show-raw-insn', program).splitlines():
        head = re.match(r'^([0-9a-f]+) <(.+)>:$', line)
        if head:
            here = head.group(2)
            calls.setdefault(here, set())
            continue
        jump = re.search(r'\t(?:call|jmp|j[a-z]+)\s+([0-9a-f]+) <([^>+]+)>', line)
        if jump and here and jump.group(2) != here:
            calls[here].add(jump.group(2))
    return sizes, calls


def reached(name, calls):
    found, left = set(), [name]
    while left:
        f = left.pop()
        if f not in found:
            found.add(f)
            left += calls.get(f, ())
    return found


def main():
    with tempfile.TemporaryDirectory() as work:
        program = os.path.join(work, 'stack')
        run('cc', '-O2', '-std=c99', '-I', os.path.join(root, 'include'), os.path.join(root, 'tests/boundary/stack.c'), library, '-o', program)
        stacks = [line.split() for line in run(program).splitlines()]
        sizes, calls = functions(program)
    print('| call | its own code, bytes | with all that it calls | stack, bytes |\n|---|---|---|---|')
    whole = set()
    for name, stack in stacks:
        all_of = {f for f in reached(name, calls) if f in sizes}
        whole |= all_of
        print(f'| `{name}` | {sizes[name]:,} | {sum(sizes[f] for f in all_of):,} | {int(stack):,} |')
    print(f'\nAll calls together: {sum(sizes[f] for f in whole):,} bytes of code.')


if __name__ == '__main__':
    sys.exit(main())
