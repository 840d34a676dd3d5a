#!/usr/bin/env python3
"""Runs `build`, `run`, `crun` and `annotate` of the stack language with request number N for memory refused, for every N.

Each run has to answer 13 or its usual status. It takes minutes, and is no part of the gate. Words: another program than the one
that is built here, and sources in place of examples/stack.py. The last line is 'N passed, M failed'."""
import os
import subprocess
import sys
import tempfile

from references import PROGRAM, TOP

STACK = os.path.join(TOP, 'examples', 'stack.py')


def refused(folder, program, words):
    """The usual status, the number of requests, and how often and where first each status came."""
    told = os.path.join(folder, 'told')
    preloaded = dict(os.environ, LD_PRELOAD=os.path.join(folder, 'refused.so'), REFUSED=told)
    usual = subprocess.run([program] + words, capture_output=True).returncode
    again = subprocess.run([program] + words, stdout=subprocess.DEVNULL, stderr=subprocess.DEVNULL, env=preloaded).returncode
    with open(told) as file:
        lines = [line.split() for line in file]
    statuses = {int(status): (int(often), int(first)) for status, often, first in lines[1:]}
    if again != usual:
        statuses[again] = (1, 0)
    return usual, int(lines[0][1]), statuses


def main():
    sources = [os.path.abspath(word) for word in sys.argv[1:] if word.endswith('.py')] or [STACK]
    others = [os.path.abspath(word) for word in sys.argv[1:] if not word.endswith('.py')]
    program = others[0] if others else PROGRAM
    passed = failed = 0
    with tempfile.TemporaryDirectory() as folder:
        shared = os.path.join(folder, 'refused.so')
        subprocess.run(['gcc', '-shared', '-fPIC', '-O1', os.path.join(TOP, 'tools', 'refused_memory.c'), '-o', shared], check=True)
        text = os.path.join(folder, 'text.c')
        with open(text, 'wb') as file:
            subprocess.run([program, 'build'] + sources, stdout=file, check=True)
        for command in (['build'] + sources, ['run', '--tally'] + sources, ['crun', '--tally', text], ['annotate'] + sources):
            usual, requests, statuses = refused(folder, program, command)
            wrong = {status: found for status, found in statuses.items() if status not in (13, usual)}
            passed += sum(often for status, (often, _) in statuses.items() if status in (13, usual))
            failed += sum(often for often, _ in wrong.values())
            print('%s: %d requests, statuses (how often, where first): %r' % (command[0], requests, statuses), flush=True)
    print('%d passed, %d failed' % (passed, failed))
    return 1 if failed or passed == 0 else 0


if __name__ == '__main__':
    sys.exit(main())
