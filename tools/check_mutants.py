#!/usr/bin/env python3
"""Slightly wrong sources and C texts: nothing crashes, every status is one of the stated ones, and an independent
reader, annotator and machine agree.

Bytes and tokens of the examples and of the programs in ../shared are changed; `check` has to answer as the reference does, and
what is accepted has to run as it does. The C texts that `build` writes of the examples, and some that are written by hand, are
changed likewise and given to `crun`. A minute each. Words: how many of each, and another program than the one that
is built here. Where ../shared is missing the check is skipped. The last line is 'N passed, M failed'."""
import glob
import os
import random
import re
import subprocess
import sys
import tempfile
import time

from references import SHARED, TOP, Verdicts, asked, ended, unready, use

SECONDS = 30
BOUND = 3000
LONGEST = 10
MACHINE = os.path.join(SHARED, 'csub', 'crun.py')
# Version 2 and operations on unsigned words are not there yet.
LATER = re.compile(rb'\A/\* C-sub 2|\bRPY_U(DIV|MOD|SHR|LT|LE)\b')
TOKEN = re.compile(rb'\w+|\s|[^\w\s]')


def read(name):
    with open(name, 'rb') as file:
        return file.read()


def run(words):
    """Status, output and errors; a run that lasts is no fault, and has status None."""
    try:
        done = subprocess.run(words, capture_output=True, timeout=LONGEST)
    except subprocess.TimeoutExpired:
        return None, b'', b''
    return done.returncode, done.stdout, done.stderr


def changed(rng, text):
    """A text with one to three small changes of bytes or tokens."""
    for _ in range(rng.randrange(1, 4)):
        if rng.random() < 0.3:
            at = rng.randrange(len(text) + 1)
            text = text[:at] + rng.choice([b'', bytes([rng.randrange(256)])]) + text[at + rng.randrange(2):]
            continue
        found = list(TOKEN.finditer(text))
        if not found:
            return text
        one, other = rng.choice(found), rng.choice(found)
        new = rng.choice([b'', other.group(), one.group() * 2, str(rng.choice([0, 1, 2, 7, 1 << 62, 1 << 63, 1 << 64])).encode()])
        text = text[:one.start()] + new + text[one.end():]
    return text


class Mutants(Verdicts):
    def __init__(self, program, orafix):
        super().__init__()
        self.program = program
        self.orafix = orafix
        self.lasting = 0
        self.statuses = {}

    def compare(self, what, got, want):
        self.statuses[got[0]] = self.statuses.get(got[0], 0) + 1
        self.told(what, got == want, got, want)

    def source(self, seed, text):
        with open('a.py', 'wb') as file:
            file.write(text)
        got = run([self.program, 'check', 'a.py'])
        want = self.orafix.run(['check', 'a.py'])
        # Which of several conflicts is shown is free.
        if got[0] == want[0] == 4:
            got = want = 4, b'', b''
        self.compare('source %d, check' % seed, got, want)
        if got[0] != 0:
            return
        words = ['run', '--steps', str(BOUND), 'a.py']
        got = run([self.program] + words)
        if got[0] is None:
            self.lasting += 1
            return
        self.compare('source %d, run' % seed, got, self.orafix.run(words))

    def text(self, seed, text):
        if LATER.search(text):
            return
        with open('c.c', 'wb') as file:
            file.write(text)
        got = run([self.program, 'crun', '--steps', str(BOUND), 'c.c'])
        if got[0] is None:
            self.lasting += 1
            return
        self.compare('C text %d' % seed, got, run([sys.executable, MACHINE, '--steps', str(BOUND), 'c.c']))


def sources():
    for name in sorted(glob.glob(os.path.join(TOP, 'examples', '*.py'))):
        yield read(name)
    for name in sorted(glob.glob(os.path.join(SHARED, 'programs', '*', '*.py'))):
        yield read(name)


def texts(program):
    for name in sorted(glob.glob(os.path.join(TOP, 'examples', '*.py'))):
        yield run([program, 'build', name])[1]
    for name in sorted(glob.glob(os.path.join(SHARED, 'csub', 'examples', '*.c'))):
        if os.path.getsize(name) < 100000:
            yield read(name)


def main():
    numbers, program = asked()
    stopped = unready('mutants', program, 'fuzz')
    if stopped is not None:
        return stopped
    use('fuzz')
    import orafix
    mutants = Mutants(program, orafix)

    def work():
        for whole, each in ((list(sources()), mutants.source), (list(texts(program)), mutants.text)):
            start = time.time()
            for seed in range(numbers[0] if numbers else 10000):
                if not numbers and time.time() - start > SECONDS:
                    break
                rng = random.Random(seed)
                each(seed, changed(rng, rng.choice(whole)))
        return 0

    with tempfile.TemporaryDirectory() as folder:
        os.chdir(folder)
        broken = orafix.run_with_stack(work)
        os.chdir(TOP)
    print('mutants: by status %r, %d ran on' % (sorted(mutants.statuses.items()), mutants.lasting))
    return ended(mutants.passed, mutants.failed) or (1 if broken else 0)


if __name__ == '__main__':
    sys.exit(main())
