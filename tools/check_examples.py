#!/usr/bin/env python3
"""Runs the examples by `run`, `llrun`, and `build` with `crun`, as their first lines say and without arguments.

What a run without arguments prints is compared with what stands in examples/expected, and every run with Python 2,
where that is there (pairs of a dict come in another order there, so lines are compared in order but for
these). Every block that a run makes is released. A word names another program to try than the one that is built here.
The last line is 'N passed, M failed'."""
import glob
import os
import re
import shlex
import shutil
import subprocess
import sys
import tempfile

from references import TOP, asked, ended, unready

# Their output is in the order of a dict.
UNORDERED = ['json', 'words']
# A function that knows the scope which knows it is a cycle of references, and these are not released.
CYCLES = ['lisp']
TALLY = re.compile(rb'tally: made (\d+), gone (\d+), left (\d+)\n')


def run(words):
    done = subprocess.run(words, capture_output=True, timeout=600)
    return done.returncode, done.stdout, done.stderr


def python2():
    found = sorted(glob.glob(os.path.expanduser('~/.pyenv/versions/2.7*/bin/python')))
    return found[-1] if found else shutil.which('python2')


def shown(text):
    """The arguments of the command that the documentation of an example shows."""
    found = re.search(r'^    rpy run examples/\w+\.py(.*)$', text, re.M)
    return shlex.split(found.group(1)) if found else None


class Examples:
    def __init__(self, program, python):
        self.program = program
        self.python = python
        self.passed = self.failed = 0

    def told(self, what, got, want):
        if got == want:
            self.passed += 1
        else:
            self.failed += 1
            print('%s: %r, and not %r' % (what, got, want))

    def runs(self, name, file, words):
        """What a run prints and its last line, the same of all commands."""
        status, out, err = run([self.program, 'run', '--tally', file] + words)
        found = TALLY.search(err)
        self.told(name + ', status', status, 0)
        released = found is not None and (found.group(3) == b'0') == (name.split()[0] not in CYCLES)
        self.told(name + ', left', (err, released), (err, True))
        ending = TALLY.sub(b'', err)
        self.told(name + ', llrun', run([self.program, 'llrun', file] + words), (status, out, ending))
        built = run([self.program, 'build', file])
        self.told(name + ', build', (built[0], built[2]), (0, b''))
        with tempfile.TemporaryDirectory() as folder:
            text = os.path.join(folder, 'text.c')
            with open(text, 'wb') as f:
                f.write(built[1])
            self.told(name + ', crun', run([self.program, 'crun', text] + words), (status, out, ending))
        return out, ending

    def compared(self, stem, name, file, words, out, ending):
        if self.python is None:
            return
        status, want, _ = run([self.python, file] + words[1:])
        if stem in UNORDERED:
            out, want = sorted(out.split()), sorted(want.split())
        self.told(name + ', Python 2', (out, ending), (want, b'returned %d\n' % status))

    def add(self, file):
        stem = os.path.basename(file)[:-3]
        with open(file, encoding='utf-8') as f:
            words = shown(f.read())
        self.told(stem + ' shows its command', words is not None, True)
        out, ending = self.runs(stem, file, [])
        with open(os.path.join(TOP, 'examples', 'expected', stem + '.txt'), 'rb') as f:
            self.told(stem, out + ending, f.read())
        self.compared(stem, stem, file, [], out, ending)
        if words:
            name = stem + ' as shown'
            self.compared(stem, name, file, words, *self.runs(name, file, words))


def main():
    _, program = asked()
    stopped = unready('examples', program)
    if stopped is not None:
        return stopped
    examples = Examples(program, python2())
    for file in sorted(glob.glob(os.path.join(TOP, 'examples', '*.py'))):
        examples.add(file)
    return ended(examples.passed, examples.failed)


if __name__ == '__main__':
    sys.exit(main())
