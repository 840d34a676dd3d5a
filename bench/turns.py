#!/usr/bin/env python3
"""Seconds of the processor that two programs of many turns take under `run`: one fills a dict with 100,000 entries, one fills and
empties a list of 100,000 strings. Beside them, in the same run, a fixed loop of Python, which tells how fast the machine is: it takes
0.3 seconds on one of the usual speed. A word names another program to measure than the one that is built here. Prints a line each, and
judges nothing."""
import os
import resource
import subprocess
import sys
import tempfile
import time

TOP = os.path.dirname(os.path.dirname(os.path.abspath(__file__)))
PROGRAM = os.path.abspath(sys.argv[1]) if sys.argv[1:] else os.path.join(TOP, 'crates', 'rpy', 'out', 'rpy')
TIMES = 3
FILLS_A_DICT = '''def entry_point(argv):
    d = {}
    i = 0
    while i < 100000:
        d[i * 7] = i
        i += 1
    return len(d)
'''
EMPTIES_A_LIST = '''def entry_point(argv):
    l = []
    i = 0
    while i < 100000:
        l.append(str(i))
        i += 1
    n = 0
    while len(l) > 0:
        n += len(l.pop())
    return n
'''


def spent():
    used = resource.getrusage(resource.RUSAGE_CHILDREN)
    return used.ru_utime + used.ru_stime


def loop():
    """Seconds of a fixed loop."""
    before = time.process_time()
    total = 0
    for i in range(3000000):
        total += i * i
    return time.process_time() - before


def turns(file):
    """Seconds of a run, and how it ended."""
    before = spent()
    done = subprocess.run([PROGRAM, 'run', file], capture_output=True)
    return spent() - before, done.stderr.decode().strip()


def main():
    with tempfile.TemporaryDirectory() as folder:
        for name, source in (('fills a dict', FILLS_A_DICT), ('empties a list', EMPTIES_A_LIST)):
            file = os.path.join(folder, 'a.py')
            with open(file, 'w') as f:
                f.write(source)
            (seconds, ending), fixed = min(turns(file) for _ in range(TIMES)), min(loop() for _ in range(TIMES))
            print('%s: %.2f seconds, %.1f times the fixed loop of %.2f seconds; %s' % (name, seconds, seconds / fixed, fixed, ending))


if __name__ == '__main__':
    main()
