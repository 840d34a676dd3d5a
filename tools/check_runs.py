#!/usr/bin/env python3
"""Runs random programs by `run`, `llrun` and `build` with `crun`, and compares with an independent interpreter.

What is printed, how the run ends and the status have to agree, at a large bound on steps and at smaller ones. The
blocks that are left are at most three for each value that the program still holds, so none where it holds none. The
texts of the first programs of each level also run under an independent machine for C texts, which looks at the counts
of all blocks at each step, and the first of all as gcc compiles them, where it is there. Words: how many programs of
each level (as many as the time allows without one, and at most 1000), and the levels (1 to 5: words; strings and
tuples; classes and function values; exceptions; everything). A word that is no number names another program to try
than the one that is built here. Where ../shared is missing the check is skipped. The last line is 'N passed, M failed'."""
import os
import re
import shutil
import subprocess
import sys
import tempfile
import time

from references import SHARED, TOP, Verdicts, asked, ended, unready, use

CBUILD = os.path.join(SHARED, 'csub', 'cbuild.sh')
COUNTING = os.path.join(SHARED, 'csub', 'crun.py')
MOST = 300000
SECONDS = 40
COMPILED = 5
COUNTED = 10
LEVELS = [1, 2, 3, 4, 5]
TALLY = re.compile(rb'tally: made (\d+), gone (\d+), left (\d+)\n')


def run(words, **more):
    done = subprocess.run(words, capture_output=True, timeout=600, **more)
    return done.returncode, done.stdout, done.stderr


class Runs(Verdicts):
    def __init__(self, orafix, program):
        super().__init__()
        self.orafix = orafix
        self.program = program
        self.compiled = 0
        self.programs = {}
        self.counted = {}
        self.start = time.time()

    def wanted(self, names, args, bound):
        """Status, output and ending, the steps paid, and the number of values held."""
        words = ['run', '--steps', str(bound), '--steps-used', '--held'] + names + args
        status, out, err = self.orafix.run(words)
        lines = err.split(b'\n')
        if status not in (0, 10, 11, 12):
            return (status, out, err), 0, None
        held = int(lines[2].split()[1]) if lines[2:] and lines[2].startswith(b'held ') else None
        return (status, out, lines[0] + b'\n'), int(lines[1].split()[1]), held

    def tallied(self, what, got, want, held):
        found = TALLY.search(got[2])
        plain = got[0], got[1], TALLY.sub(b'', got[2])
        left = int(found.group(3)) if found else None
        good = plain == want and left is not None and (held is None or left <= 3 * held)
        self.told(what, good, got, (want, held))

    def at(self, name, names, args, bound, want, held):
        steps = ['--steps', str(bound)]
        for command in ('run', 'crun'):
            files = names if command == 'run' else ['text.c']
            got = run([self.program, command, '--tally'] + steps + files + args)
            self.tallied('%s, %s at %d steps' % (name, command, bound), got, want, held)
        got = run([self.program, 'llrun'] + steps + names + args)
        self.told('%s, llrun at %d steps' % (name, bound), got == want, got, want)

    def counts(self, level, name, args, want, held):
        """Under the independent machine the text does the same, and the count of each block is right at each step."""
        if self.counted.get(level, 0) >= COUNTED:
            return
        self.counted[level] = self.counted.get(level, 0) + 1
        status, out, err = run([sys.executable, COUNTING, '--steps', str(MOST), '--counted', '--tally', 'text.c'] + args)
        plain = err.replace(b'counted: ok\n', b'')
        self.told(name + ', counted', plain != err, err, 'counted: ok')
        self.tallied(name + ', counted', (status, out, plain), want, held)

    def compiles(self, name, args, want):
        """The text as gcc compiles it prints and ends the same."""
        if shutil.which('gcc') is None or want[0] != 0:
            return
        self.compiled += 1
        status, _, err = run(['sh', CBUILD, 'text.c', 'text', '-O0'])
        if status != 0:
            self.told(name + ', gcc', False, err, '')
            return
        got = run([os.path.join('.', 'text')] + args[1:], env=dict(os.environ, RPY_STEPS=str(MOST)))
        self.told(name + ', as gcc compiles it', got[1] == want[1] and want[2].strip() in got[2], got, want)

    def add(self, level, seed, made, bounds):
        name = 'level %d, seed %d' % (level, seed)
        for file, text in made.files:
            with open(file, 'w', encoding='latin-1', newline='') as f:
                f.write(text)
        names = [file for file, _ in made.files]
        args = ['--'] + list(made.args)
        want, steps, full = self.wanted(names, args, MOST)
        if want[0] not in (0, 10, 11, 12):
            return
        status, text, err = run([self.program, 'build'] + names)
        self.told(name + ', build', status == 0, (status, err), 0)
        if status != 0:
            return
        with open('text.c', 'wb') as f:
            f.write(text)
        self.at(name, names, args, MOST, want, full)
        for k in range(bounds):
            bound = steps * k // bounds
            less, _, held = self.wanted(names, args, bound)
            self.at(name, names, args, bound, less, held)
        self.programs[level] = self.programs.get(level, 0) + 1
        self.counts(level, name, args, want, full)
        if self.compiled < COMPILED:
            self.compiles(name, args, want)


def main():
    numbers, program = asked()
    stopped = unready('runs', program, 'fuzz')
    if stopped is not None:
        return stopped
    use('fuzz')
    import gen
    import orafix
    count = numbers[0] if numbers else 1000
    levels = numbers[1:] or LEVELS
    runs = Runs(orafix, program)

    def work():
        for seed in range(count):
            for level in levels:
                if not numbers and time.time() - runs.start > SECONDS:
                    print('runs: stopped after %d seconds' % SECONDS)
                    return 0
                runs.add(level, seed, gen.generate(seed, level), 3)
        return 0

    with tempfile.TemporaryDirectory() as folder:
        os.chdir(folder)
        orafix.run_with_stack(work)
        os.chdir(TOP)
    for level in sorted(runs.programs):
        print('level %d: %d programs, %d of them counted' % (level, runs.programs[level], runs.counted.get(level, 0)))
    print('%d compiled by gcc' % runs.compiled)
    return ended(runs.passed, runs.failed)


if __name__ == '__main__':
    sys.exit(main())
