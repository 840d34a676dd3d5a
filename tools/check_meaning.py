#!/usr/bin/env python3
"""Runs programs by the interpreter of trees and compares output, ending, steps and what is held with an independent
interpreter.

The programs are the accepted ones of ../shared/programs and as many random ones as the first word says (400 without
one), each with a large bound on steps and ten smaller ones; a second word says after how many seconds no more are
begun. One small program more is run with every bound. What a run holds is computed here from the roots and the objects that the interpreter tells. Where ../shared is
missing the check is skipped. The last line is 'N passed, M failed'."""
import functools
import gc
import os
import re
import resource
import subprocess
import sys
import types

import check_flow
from references import number, unready, use

PROGRAM = check_flow.PROGRAM
piece = check_flow.piece
SMALLER = 10
COUNT = 400
SECONDS = 40
STACK = 4 << 30

# A program that comes to each of the places at which the two read what is held in different ways.
PLACES = b"""def lose(d):
    del d['k']
    return 'x'
def joined(s, t='t'):
    return s + t
def entry_point(argv):
    d = {'k': 'ab'}
    d['k'] += lose(d)
    for c in 'xy':
        print c
    print d['k'] and joined('q') or joined('r', 's')
    d[joined('u')], d['w'] = 'a', joined('b')
    return 0
"""
PIECES = re.compile(rb'[s(]|\d+,')


def weight_and_references(values):
    """How many strings and tuples stand in values, and the objects that they refer to."""
    pieces = PIECES.findall(values)
    references = [int(text[:-1]) for text in pieces if text.endswith(b',')]
    return len(pieces) - len(references), references


def from_cycles(references):
    """The objects that can be reached from one on a cycle: those that are left once, again and again, an object to
    which nothing that is left refers is taken away."""
    counts = [0] * len(references)
    for there in references:
        for object in there:
            counts[object] += 1
    free = [object for object, count in enumerate(counts) if count == 0]
    left = set(range(len(references)))
    while free:
        object = free.pop()
        left.discard(object)
        for other in references[object]:
            counts[other] -= 1
            if counts[other] == 0:
                free.append(other)
    return left


def held(prebuilt, roots, objects):
    """The objects, but for the prebuilt ones, that can be reached from the roots or from an object on a cycle, and the
    strings and tuples in the roots and in these objects, each as often as it stands."""
    told = [weight_and_references(values) for values in objects]
    total, waiting = weight_and_references(roots)
    waiting += from_cycles([references for _, references in told])
    seen = set()
    while waiting:
        object = waiting.pop()
        if object not in seen:
            seen.add(object)
            weight, references = told[object]
            waiting += references
            if object >= prebuilt:
                total += 1 + weight
    return total


def told_run(part):
    """Output, ending and steps left as they stand, and what is held, of what the interpreter told of a run."""
    pieces = part.rsplit(b'\n@@ ', 3)
    if len(pieces) < 4:
        return part, None
    return pieces[0], held(int(pieces[1]), pieces[2], pieces[3].split(b' ')[:-1])


def read_as_we_do(meaning):
    """The other interpreter, but at the four places where its authors took the larger reading of what is held:
    a call's parameters at the cost of its entry, where the arguments are held as they are; the item of a turn at the
    turn's cost, before it is read; the left operand of `and` and `or` while the right one is evaluated; the old value
    and the right side of an augmented assignment while the new value is stored. And at the one place where they took
    the smaller one: where a target in a tuple stores its item, this is held besides the tuple."""

    whole, roots_of_all = meaning.Compiler, meaning.roots_at

    class Compiler(whole):
        def __init__(self, annotated):
            whole.__init__(self, annotated)
            self.entries = set()
            self.rights = []
            self.augmented = None
            # All runs of a program share its lines.
            self.first = not hasattr(annotated, 'kept')
            if self.first:
                annotated.kept = self.lines, self.held_at, self.fail_line, self.entries
            self.lines, self.held_at, self.fail_line, self.entries = annotated.kept

        def function(self, f):
            if self.first:
                whole.function(self, f)

        def pay1(self):
            last = self.lines[-1].strip()
            hidden = [self.held.pop()] if last.startswith('for ') else []
            whole.pay1(self)
            self.held += hidden
            if last.startswith('if 0: '):
                self.entries.add(len(self.lines))

        def ex_Logic(self, e):
            self.rights.append(e.right)
            try:
                return whole.ex_Logic(self, e)
            finally:
                self.rights.pop()

        def expr(self, e):
            if not self.rights or e is not self.rights[-1]:
                return whole.expr(self, e)
            left = self.held.pop()
            try:
                return whole.expr(self, e)
            finally:
                self.held.append(left)

        def do_Aug(self, s):
            self.augmented = len(self.held)
            try:
                whole.do_Aug(self, s)
            finally:
                self.augmented = None

        def target(self, t, value):
            # The targets of a comprehension on the right side are none of the assignment's.
            saved, self.augmented = self.augmented, None
            try:
                whole.target(self, t, value)
            finally:
                self.augmented = saved

        def store(self, t, parts, value):
            all_held = self.held
            if self.augmented is not None:
                self.held = all_held[:self.augmented] + parts + [value]
            elif value not in all_held:
                self.held = all_held + [value]
            try:
                whole.store(self, t, parts, value)
            finally:
                self.held = all_held

    def roots_at(tb, compiler, args):
        roots = [args]
        while tb is not None:
            at_entry = tb.tb_frame.f_code.co_filename == meaning.CODE_NAME and tb.tb_lineno in compiler.entries
            if not at_entry:
                frame = types.SimpleNamespace(tb_frame=tb.tb_frame, tb_lineno=tb.tb_lineno, tb_next=None)
                roots += roots_of_all(frame, compiler, args)[1:]
            tb = tb.tb_next
        return roots

    meaning.Compiler, meaning.roots_at = Compiler, roots_at
    meaning.compile = functools.lru_cache(maxsize=4)(compile)


def on_large_stack():
    _, most = resource.getrlimit(resource.RLIMIT_STACK)
    wanted = STACK if most == resource.RLIM_INFINITY else min(STACK, most)
    resource.setrlimit(resource.RLIMIT_STACK, (wanted, most))


class Programs(check_flow.Programs):
    def wanted(self, annotated, args, bound):
        """The steps that a run pays; its output, ending and the steps left as the interpreter writes them, and what it
        holds, which nobody says of a run that failed."""
        out = []
        # The other interpreter looks for cycles among all objects that Python watches: so it watches none of before.
        gc.collect()
        gc.freeze()
        ran = self.meaning.run(annotated, args, bound, out.append, True)
        ending = self.oracle.ending(ran, 15)
        text = '%s\n@@ %s %d' % (''.join(out), ending, bound - ran.steps)
        return ran.steps, (text.encode('latin-1'), ran.held)

    def flush(self):
        gc.unfreeze()
        told = b''.join(piece(case) for _, case, _ in self.waiting)
        done = subprocess.run([PROGRAM, 'trees'], input=told, capture_output=True, timeout=600, preexec_fn=on_large_stack)
        parts = done.stdout.split(b'\n@@@@\n')
        for k, (name, _, want) in enumerate(self.waiting):
            got = told_run(parts[k]) if k < len(parts) else (b'status %d' % done.returncode, None)
            if got == want or (want[1] is None and got[0] == want[0]):
                self.passed += 1
            else:
                self.failed += 1
                print('%s: %r holding %s, and not %r holding %s' % (name, got[0][-200:], got[1], want[0][-200:], want[1]))
        self.waiting = []


def main():
    if not os.path.exists(PROGRAM):
        print('meaning: left out, its program stands outside the gate (tools/outside.sh)')
        return 0
    stopped = unready('meaning', PROGRAM, 'oracle', 'fuzz')
    if stopped is not None:
        return stopped
    count = number(1, COUNT)
    seconds = number(2, SECONDS)
    use('oracle', 'fuzz')
    import gen
    import meaning
    import oracle
    read_as_we_do(meaning)
    programs = Programs(oracle, meaning)

    def work():
        programs.add('places', ['places.py'], [PLACES], [], 60)
        check_flow.corpus(programs)
        check_flow.fuzz('meaning', programs, gen.generate, count, seconds, SMALLER)
        programs.flush()
        return 0

    return check_flow.done(programs, work)


if __name__ == '__main__':
    sys.exit(main())
