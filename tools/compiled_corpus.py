#!/usr/bin/env python3
"""Compiles the C text of every program in ../shared/programs that runs, by gcc with its address sanitizer, and runs it.

What is printed and how a run ends have to be as `run` answers, with no report of the sanitizer (blocks that are left count for
none). It takes minutes, and is no part of the gate. A word names another program than the one that is built here. The last
line is 'N passed, M failed'."""
import glob
import os
import re
import shlex
import subprocess
import sys
import tempfile
from concurrent.futures import ThreadPoolExecutor

from references import PROGRAM, SHARED

CBUILD = os.path.join(SHARED, 'csub', 'cbuild.sh')
SANITIZED = dict(os.environ, ASAN_OPTIONS='detect_leaks=0')
REPORT = re.compile(rb'\n(tally|leaks?)\b.*', re.S)


def run(words, **more):
    done = subprocess.run(words, capture_output=True, timeout=900, **more)
    return done.returncode, done.stdout, done.stderr


def cases():
    """The folder, the files, the arguments and the bound of each run; each text once."""
    for folder in sorted(glob.glob(os.path.join(SHARED, 'programs', '*', ''))):
        for command in sorted(glob.glob(folder + 'cmd*')):
            with open(command, encoding='latin-1') as file:
                words = shlex.split(file.read())
            if not words or words[0] != 'run':
                continue
            ends = words.index('--') if '--' in words else len(words)
            options, args = words[1:ends], words[ends + 1:]
            files = [word for word in options if word.endswith('.py')]
            steps = options[options.index('--steps') + 1] if '--steps' in options else '1000000000'
            if files and all(os.path.exists(folder + file) for file in files):
                yield folder, command, files, args, steps


class Corpus:
    def __init__(self, program):
        self.program = program
        self.passed = self.failed = self.others = 0

    def told(self, what, got, want):
        if got == want:
            self.passed += 1
        else:
            self.failed += 1
            print('%s: %r, and not %r' % (what, got, want), flush=True)

    def add(self, case):
        folder, command, files, args, steps = case
        name = os.path.join(os.path.basename(folder[:-1]), os.path.basename(command))
        status, out, err = run([self.program, 'run', '--steps', steps] + files + ['--'] + args, cwd=folder)
        if status not in (0, 10, 11, 12):
            self.others += 1
            return
        with tempfile.TemporaryDirectory() as made:
            text, binary = os.path.join(made, 'text.c'), os.path.join(made, 'text')
            built = run([self.program, 'build'] + files, cwd=folder)
            with open(text, 'wb') as file:
                file.write(built[1])
            compiled = run(['sh', CBUILD, text, binary, '-O1', '-fsanitize=address', '-DRPY_CHECK'])
            self.told(name + ', gcc', compiled[0], 0)
            if compiled[0] == 0:
                got = run([binary] + args, env=dict(SANITIZED, RPY_STEPS=steps))
                ending = REPORT.sub(b'', got[2]).strip()
                self.told(name, (got[1], ending), (out, err.strip()))


def main():
    if not os.path.isdir(os.path.join(SHARED, 'programs')):
        print('corpus: skipped, the programs in ../shared are not here')
        return 0
    corpus = Corpus(os.path.abspath(sys.argv[1]) if sys.argv[1:] else PROGRAM)
    with ThreadPoolExecutor(2) as pool:
        list(pool.map(corpus.add, cases()))
    print('corpus: %d commands run to no ending' % corpus.others)
    print('%d passed, %d failed' % (corpus.passed, corpus.failed))
    return 1 if corpus.failed or corpus.passed == 0 else 0


if __name__ == '__main__':
    sys.exit(main())
