#!/usr/bin/env python3
"""Runs the flow graphs of programs and compares output, ending and steps with an independent interpreter.

The programs are the accepted ones of ../shared/programs, with a large bound on steps and ten smaller ones each, and as
many random ones as the first word says (1,000 without one). Where ../shared is missing the check is skipped. The last
line is 'N passed, M failed'."""
import glob
import os
import shlex
import subprocess
import sys
import time

from references import SHARED, TOP, ended, number, unready, use

PROGRAM = os.path.join(TOP, 'crates', 'meaning_check', 'out', 'meaning_check')
MOST = 20000
SECONDS = 40
BATCH = 200


def piece(text):
    return b'%d %s\n' % (len(text), text)


class Programs:
    def __init__(self, oracle, meaning):
        self.oracle = oracle
        self.meaning = meaning
        self.waiting = []
        self.passed = self.failed = self.programs = 0
        self.start = time.time()

    def wanted(self, annotated, args, bound):
        """Output, ending and the steps left, as the graphs' run writes them."""
        out = []
        ran = self.meaning.run(annotated, args, bound, out.append)
        ending = self.oracle.ending(ran, 15)
        left = '' if ran.kind == 'running' else ' %d' % (bound - ran.steps)
        return ran.steps, (''.join(out) + '\n@@ ' + ending + left).encode('latin-1')

    def add(self, name, files, sources, args, smaller):
        annotated = self.oracle.front(files, sources, 15)
        steps, full = self.wanted(annotated, args, MOST)
        bounds = {MOST: full}
        for k in range(smaller):
            bound = steps * k // smaller
            bounds[bound] = self.wanted(annotated, args, bound)[1]
        modules = b''.join(
            piece(os.path.basename(file).rsplit('.py', 1)[0].encode()) + piece(source)
            for file, source in zip(files, sources))
        words = b''.join(piece(arg.encode('latin-1')) for arg in ['program'] + args)
        for bound, want in sorted(bounds.items()):
            case = b'%d\n%d\n%s%d\n%s' % (bound, 1 + len(args), words, len(files), modules)
            self.waiting.append(('%s, %d steps' % (name, bound), case, want))
        self.programs += 1
        if len(self.waiting) >= BATCH:
            self.flush()

    def flush(self):
        """Runs the waiting cases in one process."""
        told = b''.join(piece(case) for _, case, _ in self.waiting)
        done = subprocess.run([PROGRAM], input=told, capture_output=True, timeout=600)
        parts = done.stdout.split(b'\n@@@@\n')
        for k, (name, _, want) in enumerate(self.waiting):
            got = parts[k] if k < len(parts) else b'status %d' % done.returncode
            if got == want or (want.endswith(b'steps spent') and got.rsplit(b' ', 1)[0] == want):
                self.passed += 1
            else:
                self.failed += 1
                print('%s: %r, and not %r' % (name, got[-200:], want[-200:]))
        self.waiting = []


def corpus(programs):
    for folder in sorted(glob.glob(os.path.join(SHARED, 'programs', '*', ''))):
        os.chdir(folder)
        seen = set()
        for command in sorted(glob.glob('cmd*')):
            with open(command) as file:
                words = shlex.split(file.read())
            if not words or words[0] not in ('run', 'llrun', 'check', 'annotate', 'build'):
                continue
            try:
                asked = programs.oracle.read_words(words)
                args = list(getattr(asked, 'args', None) or [])
                if (tuple(asked.files), tuple(args)) in seen:
                    continue
                seen.add((tuple(asked.files), tuple(args)))
                sources = programs.oracle.read_files(asked.files)
                name = os.path.basename(os.path.dirname(folder))
                programs.add(name, asked.files, sources, args, 10)
            except programs.oracle.Refused:
                pass


def fuzz(check, programs, generate, count, seconds, smaller):
    for seed in range(count):
        if time.time() - programs.start > seconds:
            print('%s: stopped after %d seconds, at seed %d' % (check, seconds, seed))
            return
        made = generate(seed, 5)
        sources = [text.encode('latin-1') for _, text in made.files]
        try:
            programs.add('seed %d' % seed, [name for name, _ in made.files], sources, list(made.args), smaller)
        except programs.oracle.Refused:
            pass


def done(programs, work):
    programs.oracle.run_with_stack(work)
    print('%d programs' % programs.programs)
    return ended(programs.passed, programs.failed)


def main():
    if not os.path.exists(PROGRAM):
        print('flow: left out, its program stands outside the gate (tools/outside.sh)')
        return 0
    stopped = unready('flow', PROGRAM, 'oracle', 'fuzz')
    if stopped is not None:
        return stopped
    use('oracle', 'fuzz')
    import gen
    import meaning
    import oracle
    programs = Programs(oracle, meaning)

    def work():
        corpus(programs)
        fuzz('flow', programs, gen.generate, number(1, 1000), SECONDS, 3)
        programs.flush()
        return 0

    return done(programs, work)


if __name__ == '__main__':
    sys.exit(main())
