#!/usr/bin/env python3
"""Measures how long the program takes to resolve the names of large programs, with all that comes before.

The source of the sample program for K is K functions and an entry point that calls each once; its names are resolved and it is then
answered by a later status. Twice as many functions should take about twice as long."""
import os
import subprocess
import sys
import tempfile
import time

TOP = os.path.dirname(os.path.dirname(os.path.abspath(__file__)))
PROGRAM = os.path.join(TOP, 'crates', 'rpy', 'out', 'rpy')


def sample(k):
    lines = []
    for i in range(k):
        lines += ['def f%d(x):' % i, '    while x > 1000:', '        x = x // 2', '    return x * 3 + %d' % i]
    lines += ['def entry_point(argv):', '    x = 1']
    lines += ['    x = f%d(x)' % i for i in range(k)]
    lines += ['    print x', '    return x', '']
    return '\n'.join(lines)


def seconds(folder, source):
    path = os.path.join(folder, 'sample.py')
    with open(path, 'w') as file:
        file.write(source)
    start = time.time()
    done = subprocess.run([PROGRAM, 'build', path], capture_output=True)
    return time.time() - start, done.returncode


def main():
    if not os.path.exists(PROGRAM):
        print('the program is not built')
        return 1
    with tempfile.TemporaryDirectory() as folder:
        for k in (1250, 2500, 5000, 10000):
            source = sample(k)
            taken, status = min(seconds(folder, source) for _ in range(3))
            print('%5d functions, %7d bytes: %.2f s, status %d' % (k, len(source), taken, status))
    return 0


if __name__ == '__main__':
    sys.exit(main())
