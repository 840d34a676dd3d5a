#!/usr/bin/env python3
"""The texts that `build` writes of random programs, under the machine of ../shared/csub in this process: each prints and ends as
the reference meaning says, at a bound on steps and at a smaller one, holds at most three blocks for each value held, none
without cycles, and has right counts at each step; `crun` says the same at the larger bound. Words: the first seed, the one behind the last, the
level (5), processes (1), and another program than the one that is built here. The last line is 'N passed, M failed'."""
import os
import random
import sys
import tempfile
from concurrent.futures import ProcessPoolExecutor

import check_runs
from references import TOP, asked, ended, unready, use

MOST = 5000
TOGETHER = 20


class Counted(check_runs.Runs):
    def __init__(self, orafix, csub, program):
        super().__init__(orafix, program)
        self.csub = csub

    def meant(self, annotated, args, bound):
        """Status, output and ending, the steps paid, and the number of values held."""
        out = []
        ran = self.orafix.meaning.run(annotated, args, bound, out.append, True)
        ending = self.orafix.oracle.ending(ran, 15) + '\n'
        want = self.orafix.oracle.STATUS[ran.kind], ''.join(out).encode('latin-1'), ending.encode('latin-1')
        return want, ran.steps, ran.held

    def at(self, name, text, args, bound, want, held):
        """The text ends the same under the machine of the references, with each count right at each step."""
        machine = self.csub.Machine(text, [b'program'] + [arg.encode('latin-1') for arg in args], bound, 1, None)
        end = machine.run()
        left = machine.watch.made - machine.watch.gone
        got = end.status(), bytes(machine.out), end.text() + b'\n'
        good = got == want and machine.broken is None and (held is None or left <= 3 * held)
        self.told('%s, counted at %d steps' % (name, bound), good, (got, left, machine.broken), (want, held))

    def by_crun(self, name, args, bound, want, held):
        got = check_runs.run([self.program, 'crun', '--tally', '--steps', str(bound), 'text.c', '--'] + args)
        self.tallied('%s, crun at %d steps' % (name, bound), got, want, held)

    def add(self, level, seed, made):
        name = 'level %d, seed %d' % (level, seed)
        for file, text in made.files:
            with open(file, 'w', encoding='latin-1', newline='') as f:
                f.write(text)
        names = [file for file, _ in made.files]
        args = list(made.args)
        status, text, err = check_runs.run([self.program, 'build'] + names)
        try:
            annotated = self.orafix.oracle.front(names, [text.encode('latin-1') for _, text in made.files], 15)
        except self.orafix.oracle.Refused as refused:
            want = refused.status, b'', (refused.line + '\n').encode('latin-1')
            self.told(name + ', build', (status, text, err) == want, (status, err), want)
            return
        self.told(name + ', build', status == 0, (status, err), 0)
        if status != 0:
            return
        with open('text.c', 'wb') as f:
            f.write(text)
        read = self.csub.read_text(text)
        want, steps, held = self.meant(annotated, args, MOST)
        self.at(name, read, args, MOST, want, held)
        self.by_crun(name, args, MOST, want, held)
        less = random.Random(seed).randrange(steps) if steps else 0
        want, _, held = self.meant(annotated, args, less)
        self.at(name, read, args, less, want, held)


def chunk(program, level, first, last):
    """Passed, failed and what differs, of the seeds from `first` to before `last`."""
    use('fuzz', 'csub')
    import csub
    import gen
    import orafix
    counted = Counted(orafix, csub, program)

    def work():
        for seed in range(first, last):
            counted.add(level, seed, gen.generate(seed, level))
        return 0

    with tempfile.TemporaryDirectory() as folder:
        os.chdir(folder)
        broken = orafix.run_with_stack(work)
        os.chdir(TOP)
    print('seeds %d to %d: %d passed, %d failed%s' % (first, last - 1, counted.passed, counted.failed, ', broken off' if broken else ''), flush=True)
    return counted.passed, counted.failed + (1 if broken else 0)


def main():
    numbers, program = asked()
    stopped = unready('counted programs', program, 'fuzz', 'oracle', 'csub')
    if stopped is not None:
        return stopped
    first, last, level, processes = (numbers + [0, 100, 5, 1][len(numbers):])[:4]
    passed = failed = 0
    with ProcessPoolExecutor(processes) as pool:
        parts = [pool.submit(chunk, program, level, seed, min(seed + TOGETHER, last)) for seed in range(first, last, TOGETHER)]
        for part in parts:
            more, worse = part.result()
            passed += more
            failed += worse
    return ended(passed, failed)


if __name__ == '__main__':
    sys.exit(main())
