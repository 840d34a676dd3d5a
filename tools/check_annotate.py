#!/usr/bin/env python3
"""Checks and annotates programs with the program and compares status, refusal and the text of the annotation with an
independent annotator.

The programs are all of those in ../shared/programs, as many random ones as the first word says (600 without one), and
as many with a wrong type as the second says (600). Of a conflict the status is compared alone: which of several is shown
is free. The reference gives each pass of a `finally` body elements of its own; here the passes share those of a node, so
the reference is made to share them too. Where ../shared is missing the check is skipped. The last line is 'N passed, M
failed'."""
import glob
import os
import random
import re
import shlex
import subprocess
import sys
import tempfile
import time

from references import PROGRAM, SHARED, ended, number, unready, use

SECONDS = 40
CONFLICT = re.compile(rb'[^\n:]*:\d+: conflict: [^\n]+\n')

# Programs whose answer is known without a reference.
RETURNS = b'def entry_point(argv):\n    return 0\n'
BOX = b"""class Box(object):
    def __init__(self, v):
        self.v = v
def find(n):
    if n > 3:
        return Box(n)
    return None
def entry_point(argv):
    b = find(len(argv) + 4)
    if b is not None:
        print b.v
    return 0
"""
BOXED = b"""a.Box.__init__(self: a.Box, v: int+) -> None
a.find(n: int+) -> a.Box?
a.entry_point(argv: list#0) -> int+
a.Box.v: int+
list#0: str
"""
BRANCHES = b"""def entry_point(argv):
    if len(argv) > 1:
        x = 1
    else:
        x = 'a'
    print x
    return 0
"""
FAMILY = b"""def f(a):
    return a
def g(a, b):
    return a + b
TABLE = {'f': f, 'g': g}
def entry_point(argv):
    h = TABLE['f']
    return h(1)
"""
LONG = RETURNS + b'#' + b'x' * 1048538 + b'\n'
KNOWN = [
    ('check', BRANCHES, 4, b'', b'a.py:6: conflict: name\n'),
    ('build', BRANCHES, 4, b'', b'a.py:6: conflict: name\n'),
    ('check', BRANCHES.replace(b'    print x\n', b''), 0, b'ok\n', b''),
    ('annotate', BOX, 0, BOXED, b''),
    ('check', b"def bad():\n    return 1 + 'a'\n" + RETURNS, 0, b'ok\n', b''),
    ('check', FAMILY, 5, b'', b'a.py:8: family\n'),
    ('check', b'def entry_point(argv):\n    if len(argv) > 1:\n        x = 1\n    return x\n', 5, b'', b'a.py:4: maybe unbound\n'),
    ('check', b'L = [1, 2]\ndef entry_point(argv):\n    L.append(3)\n    return len(L)\n', 5, b'', b'a.py:3: constant modified\n'),
    ('check', b'def entry_point(argv):\n    return\n', 5, b'', b'a.py:1: entry point result\n'),
    ('check', LONG, 0, b'ok\n', b''),
    ('check', LONG + b'\n', 15, b'', b'a.py: too long\n'),
    ('check', b'', 3, b'', b'a.py:1: no entry point\n'),
    ('check', RETURNS.replace(b'    ', b'\t'), 2, b'', b'a.py:2: bad indent\n'),
    ('check', RETURNS + b'  x = 1\n', 2, b'', b'a.py:3: bad indent\n'),
    ('check', b'\0', 2, b'', b'a.py:1: bad byte\n'),
    ('check', b'x = 1 $\n', 2, b'', b'a.py:1: bad byte\n'),
    ('check', b'x = 09\n', 2, b'', b'a.py:1: bad number\n'),
    ('check', b'x = 9223372036854775808\n', 2, b'', b'a.py:1: bad number\n'),
    ('check', b'x = ' + b'(' * 17, 2, b'', b'a.py:1: limit brackets\n'),
    ('check', b''.join(b' ' * k + b'if 1:\n' for k in range(34)), 2, b'', b'a.py:34: limit blocks\n'),
    ('check', b'x = 1' + b' + 1' * 65 + b'\n', 2, b'', b'a.py:1: limit operators\n'),
    ('check', b'x = 1' + b' + 1' * 64 + b'\n', 3, b'', b'a.py:1: no entry point\n'),
    ('check', b"x = '''a\n", 2, b'', b'a.py:1: open string\n'),
    ('check', RETURNS[:-1], 0, b'ok\n', b''),
    ('check', RETURNS.replace(b'\n', b'\r\n'), 0, b'ok\n', b''),
]


def read(name):
    with open(name, 'rb') as file:
        return file.read()


def corpus():
    """The files of each command of each program."""
    seen = set()
    for folder in sorted(glob.glob(os.path.join(SHARED, 'programs', '*', ''))):
        for command in sorted(glob.glob(folder + 'cmd*')):
            words = shlex.split(read(command).decode('latin-1'))
            words = words[:words.index('--')] if '--' in words else words
            files = tuple(w for w in words if w.endswith('.py') and os.path.exists(folder + w))
            if files and (folder, files) not in seen:
                seen.add((folder, files))
                yield os.path.basename(folder[:-1]), [(os.path.basename(f), read(folder + f)) for f in files]


def generated(generate, seeds):
    for seed in seeds:
        made = generate(seed, seed % 5 + 1)
        yield 'seed %d' % seed, [(name, text.encode('latin-1')) for name, text in made.files]


def mutants(mutate, whole, seeds):
    for seed in seeds:
        name, files = whole[random.Random(seed).randrange(len(whole))]
        changed, _ = mutate(files, seed, 'type')
        yield '%s, mutant %d' % (name, seed), changed


def call(folder, command, files):
    for name, source in files:
        with open(os.path.join(folder, name), 'wb') as file:
            file.write(source)
    words = [PROGRAM, command] + [name for name, _ in files]
    done = subprocess.run(words, cwd=folder, capture_output=True, timeout=60)
    return done.returncode, done.stdout, done.stderr


def agree(got, want):
    if want[0] == 4:
        return got[0] == 4 and got[1] == b'' and CONFLICT.fullmatch(got[2]) is not None
    return got == want


def share_nodes(annotate):
    """Makes the reference go on with the element that all passes of a node have together."""
    def done(self, node, elem, operands):
        known = self.a.node_elem
        if elem[0] == 'conflict':
            self.conflict(node, operands)
        old = known.get(node.id)
        both = elem if old is None else self.a.join(old, elem)
        if both[0] == 'conflict':
            self.conflict(node, operands)
        if old is None or self.a.norm(both) != self.a.norm(old):
            self.a.version += 1
        known[node.id] = self.cur[node.id] = both
        if both == annotate.UNREACHED:
            raise annotate.Stop()
        return both
    annotate.FunctionPass.done = done


class Tester:
    def __init__(self, folder, oracle):
        self.folder = folder
        self.oracle = oracle
        self.passed = self.failed = 0
        self.statuses = {}

    def compare(self, name, command, files, want):
        got = call(self.folder, command, files)
        good = agree(got, want)
        self.passed += good
        self.failed += not good
        if not good and self.failed <= 10:
            print('differs: %s, %s\n  got  %d %r %r\n  want %d %r %r' % (
                (name, command) + (got[0], got[1][-300:], got[2][:300]) + (want[0], want[1][-300:], want[2][:300])))

    def answer(self, command, files):
        back = os.getcwd()
        for name, source in files:
            with open(os.path.join(self.folder, name), 'wb') as file:
                file.write(source)
        os.chdir(self.folder)
        try:
            return self.oracle([command] + [name for name, _ in files])
        finally:
            os.chdir(back)

    def both(self, name, files):
        want = self.answer('annotate', files)
        self.statuses[want[0]] = self.statuses.get(want[0], 0) + 1
        self.compare(name, 'annotate', files, want)
        self.compare(name, 'check', files, (want[0], b'ok\n' if want[0] == 0 else b'', want[2]))


def main():
    stopped = unready('annotate', PROGRAM, 'oracle', 'fuzz')
    if stopped is not None:
        return stopped
    use('oracle', 'fuzz')
    import annotate
    import gen
    import mutate
    import orafix
    share_nodes(annotate)
    random_count = number(1, 600)
    mutant_count = number(2, 600)
    seconds = SECONDS if len(sys.argv) < 2 else 100000
    start = time.time()
    tester = None

    def work():
        nonlocal tester
        with tempfile.TemporaryDirectory() as folder:
            tester = Tester(folder, orafix.run)
            for command, source, *want in KNOWN:
                tester.compare('a known program', command, [('a.py', source)], tuple(want))
            whole = list(corpus())
            near = whole + list(generated(gen.generate, range(1000000, 1000100)))
            made = [whole, generated(gen.generate, range(random_count)), mutants(mutate.mutate, near, range(mutant_count))]
            for kind in made:
                for name, files in kind:
                    if time.time() - start > seconds:
                        print('annotate: stopped after %d seconds' % seconds)
                        return 0
                    tester.both(name, files)
        return 0

    broken = orafix.run_with_stack(work)
    print('annotate: programs by status: %r' % (sorted(tester.statuses.items()),))
    return ended(tester.passed, tester.failed) or (1 if broken else 0)


if __name__ == '__main__':
    sys.exit(main())
