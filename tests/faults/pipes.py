#!/usr/bin/env python3
"""pipes.py NAME PROGRAM INPUT OUTPUT: the program on pipes that are not ready at once, or whose reader goes away. Prints the cases that fail."""
import fcntl
import os
import subprocess
import sys
import time

NAME, PROGRAM, INPUT, OUTPUT = sys.argv[1:5]
with open(INPUT, 'rb') as file:
    GIVEN = file.read()
with open(OUTPUT, 'rb') as file:
    WANTED = file.read()
PIPE_SIZE = 4096
failed = 0


def check(name, good):
    global failed
    if not good:
        failed += 1
        print('faults: %s: %s' % (NAME, name))


def start(source, sink):
    """The program between two descriptors, with SIGPIPE ignored, as Python has it."""
    program = subprocess.Popen([PROGRAM], stdin=source, stdout=sink, stderr=subprocess.PIPE, restore_signals=False)
    os.close(source)
    os.close(sink)
    return program


def small_pipe():
    source, sink = os.pipe()
    fcntl.fcntl(sink, fcntl.F_SETPIPE_SZ, PIPE_SIZE)
    return source, sink


def read_slowly(source, most):
    text = b''
    while len(text) < most:
        time.sleep(0.002)
        part = os.read(source, min(512, most - len(text)))
        if not part:
            break
        text += part
    return text


def given():
    return os.open(INPUT, os.O_RDONLY)


# a slow reader of a pipe on which writes do not wait
source, sink = small_pipe()
os.set_blocking(sink, False)
program = start(given(), sink)
time.sleep(0.1)
text = read_slowly(source, len(WANTED) + 1)
check('a slow reader gets the whole text', text == WANTED and program.communicate()[1] == b'' and program.returncode == 0)
os.close(source)

# a slow writer of a pipe on which reads do not wait
source, sink = small_pipe()
os.set_blocking(source, False)
answers, answer_sink = os.pipe()
program = start(source, answer_sink)
for at in range(0, len(GIVEN), 4096):
    time.sleep(0.005)
    os.write(sink, GIVEN[at:at + 4096])
time.sleep(0.05)
os.close(sink)
text = read_slowly(answers, len(WANTED) + 1)
check('a slow writer is waited for', text == WANTED and program.communicate()[1] == b'' and program.returncode == 0)
os.close(answers)

# readers that go away, at once, within the first line, after it and later
for count in (0, 1, WANTED.index(b'\n') + 1, 5000):
    source, sink = small_pipe()
    program = start(given(), sink)
    text = read_slowly(source, count)
    os.close(source)
    said = program.communicate()[1]
    check('a reader that goes away after %d bytes is told of' % count,
          text == WANTED[:count] and said.startswith(b'%s: standard output: ' % NAME.encode()) and program.returncode == 0)

sys.exit(1 if failed else 0)
