#!/usr/bin/env python3
"""Builds programs with the program and compares which are refused for a name, in which file, on which line and with
which words, with an independent reading of the modules.

The programs are all of those in ../shared, and as many slightly wrong ones as the first word says (4,000 without
one, of which more than 2,000 are modules still): names, numbers and lines are changed, and imports, constants and
classes put before the first line. A third of them have the files of two programs. Where ../shared is missing the
check is skipped. A program that the reference
takes has to be built or answered by a later status. The last line is 'N passed, M failed'."""
import glob
import keyword
import os
import random
import re
import shlex
import subprocess
import sys
import tempfile
import time

from references import PROGRAM, SHARED, ended, number, unready, use

SECONDS = 40
NAME = re.compile(rb'[A-Za-z_][A-Za-z_0-9]*')
NUMBERS = [b'0', b'63', b'64', b'9223372036854775807', b'1 << 62', b'(-1)', b"'q'", b'1 / 0', b'7 % 0']
WORDS = [b'None', b'True', b'os', b'sys', b'object', b'Exception', b'range', b'entry_point', b'write', b'maxint']
VALUES = ['1', '[1, 2]', '(1, None)', "{'a': 1, 'a': 2}", '-5 // 2', '1 << 63', '~7', '[] + []', 'sys.maxint',
          "'a' + 'b'", '3 * -4 % 5 ^ 6 & 7 | 8']
LINES = [b'def q(a, b=1 + 2, c=[1], *d):\n    for a in range(0, 9, -1):\n        e = [z for z in a if z]\n'
         b'    return a.keys()',
         b'class Q4(object):\n    N = 1\n    def m(self): self.N = 2',
         b'class Q5(object):\n    k = 1\n    def k(self): pass',
         b'class Q6(IndexError):\n    def m(me):\n        me.zz = 1\n        try: pass\n'
         b'        except (Q6, KeyError), e: me.q += e\n    def zz(x): pass']


# Programs whose answer is known without a reference.
RETURNS = b'def entry_point(argv):\n    return 0\n'
BOXES = b'class Box(object):\n    pass\ndef entry_point(argv):\n    Box()\n    return 0\n'
KNOWN = [
    ([('a', b'')], 3, b'a.py:1: no entry point\n'),
    ([('a', b'from b import C\ndef entry_point(argv):\n    return C\n'), ('b', b'D = 1\n')], 3, b'a.py:1: unknown name\n'),
    ([('a', b'import b\n' + RETURNS), ('b', b'X = 1\nY = X << 63\n')], 3, b'b.py:2: bad constant\n'),
    ([('a', RETURNS), ('b', b'class A: pass\nclass A: pass\n')], 3, b'b.py:2: bound twice\n'),
    ([('a', b'class A(B): pass\nclass B: pass\n' + RETURNS)], 3, b'a.py:1: bad base\n'),
    ([('a', b'import c\n' + RETURNS), ('b', b'')], 3, b'a.py:1: no module\n'),
    ([('m%d' % i, BOXES) for i in range(64)], 0, b''),
    ([('m%d' % i, RETURNS) for i in range(65)], 15, b'too many files\n'),
]


def programs():
    """The files of each command of each program, by module name."""
    seen = set()
    for folder in sorted(glob.glob(os.path.join(SHARED, 'programs', '*', ''))):
        for command in sorted(glob.glob(folder + 'cmd*')):
            with open(command) as file:
                words = shlex.split(file.read())
            words = words[:words.index('--')] if '--' in words else words
            files = tuple(w for w in words if w.endswith('.py') and os.path.exists(folder + w))
            if files and (folder, files) not in seen:
                seen.add((folder, files))
                yield os.path.basename(folder[:-1]), [(os.path.basename(f)[:-3], read(folder + f)) for f in files]


def read(name):
    with open(name, 'rb') as file:
        return file.read()


def before(names, others, choose):
    """A line to put before the first one."""
    name, other = choose(names).decode(), choose(others)
    return choose([b'import ' + other.encode(), ('from %s import %s' % (other, name)).encode(),
                   ('%s = %s' % (name, choose(VALUES + [name, '%s.%s' % (other, name)]))).encode(),
                   ('class %s(%s): pass' % (name, choose(['object', 'Exception', name, other + '.' + name]))).encode(),
                   choose(LINES)])


def changed(files, seed):
    """The files with one to three changes."""
    rng = random.Random(seed)
    files = list(files)
    for _ in range(rng.choice([1, 1, 1, 2, 3])):
        at = rng.randrange(len(files))
        module, source = files[at]
        names = [m.group() for _, text in files for m in NAME.finditer(text)]
        places = list(NAME.finditer(source))
        lines = source.split(b'\n')
        how = rng.random()
        if not places:
            continue
        if how < 0.45:
            place = rng.choice(places)
            word = rng.choice(names if rng.random() < 0.7 else WORDS)
            source = source[:place.start()] + word + source[place.end():]
        elif how < 0.6:
            numbers = list(re.finditer(rb'\b\d+\b', source))
            if numbers:
                place = rng.choice(numbers)
                source = source[:place.start()] + rng.choice(NUMBERS) + source[place.end():]
        elif how < 0.75:
            line = rng.randrange(len(lines))
            if rng.random() < 0.5:
                lines.insert(rng.randrange(len(lines) + 1), lines[line])
            else:
                del lines[line]
            source = b'\n'.join(lines)
        else:
            others = [m for m, _ in files if m != module] + ['os', 'sys', 'nomod']
            source = before(names, others, rng.choice) + b'\n' + source
        files[at] = (module, source)
    return files


def mutants(whole, count):
    for seed in range(count):
        rng = random.Random(seed * 7 + 1)
        name, files = whole[rng.randrange(len(whole))]
        if rng.random() < 0.35:
            taken = set(module for module, _ in files)
            files = files + [(m, s) for m, s in whole[rng.randrange(len(whole))][1] if m not in taken]
        yield '%s, seed %d' % (name, seed), changed(files, seed)


def fits(files):
    """Whether words may name the files, and each keeps its limit."""
    names = [module for module, _ in files]
    barred = set(keyword.kwlist) - {'None', 'True', 'False', 'nonlocal', 'async', 'await'} | {'print', 'exec', 'os', 'sys', 'rpython'}
    return (all(re.fullmatch('[A-Za-z_][A-Za-z_0-9]*', name) and name not in barred for name in names)
            and len(set(names)) == len(names) and all(len(source) <= 1048576 for _, source in files))


def reference(files, tokens, grammar, names):
    """None where a file is no module; else the line on `err`, which is empty where no name is at fault."""
    try:
        named = [(module, grammar.parse(tokens.tokens(source))) for module, source in files]
    except (tokens.TokenFault, grammar.Syntax):
        return None
    try:
        names.resolve(named, 15)
    except names.NameFault as fault:
        return '%s.py:%d: %s\n' % (files[fault.file][0], fault.line, names.FAULT_TEXT[fault.kind])
    return ''


def build(folder, files):
    for module, source in files:
        with open(os.path.join(folder, module + '.py'), 'wb') as file:
            file.write(source)
    words = [PROGRAM, 'build'] + [module + '.py' for module, _ in files]
    return subprocess.run(words, cwd=folder, capture_output=True, timeout=60)


def main():
    stopped = unready('names', PROGRAM, 'oracle')
    if stopped is not None:
        return stopped
    use('oracle')
    sys.setrecursionlimit(20000)
    import grammar
    import names
    import tokens
    count = number(1, 4000)
    whole = list(programs())
    passed = failed = refused = 0
    start = time.time()
    with tempfile.TemporaryDirectory() as folder:
        for files, status, said in KNOWN:
            done = build(folder, files)
            good = (done.returncode, done.stderr) == (status, said) and (status == 0) == (done.stdout != b'')
            passed += good
            failed += not good
            if not good:
                print('differs: %r\n  got  %d %r\n  want %d %r' % (files[:2], done.returncode, done.stderr, status, said))
        for name, files in whole + list(mutants(whole, count)):
            if time.time() - start > SECONDS:
                print('names: stopped after %d seconds' % SECONDS)
                break
            want = reference(files, tokens, grammar, names) if fits(files) else None
            if want is None:
                continue
            done = build(folder, files)
            refused += want != ''
            if want:
                good = done.returncode == 3 and done.stderr == want.encode() and done.stdout == b''
            else:
                good = done.returncode in (0, 4, 5)
            passed += good
            failed += not good
            if not good:
                print('differs: %s\n  got  %d %r\n  want %r' % (name, done.returncode, done.stderr, want))
    print('names: %d of them are refused' % refused)
    return ended(passed, failed)


if __name__ == '__main__':
    sys.exit(main())
