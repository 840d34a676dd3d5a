#!/usr/bin/env python3
"""How long `check` takes, and how much memory, on chains of functions that one entry point calls one after the other.

Each call needs the result of the one before, so the annotation grows through the functions one by one. The first word
says how many there are at first (1,000 without one); then twice as many."""
import os
import resource
import subprocess
import sys
import tempfile
import time

TOP = os.path.dirname(os.path.dirname(os.path.abspath(__file__)))
PROGRAM = os.path.join(TOP, 'crates', 'rpy', 'out', 'rpy')


def chain(count):
    parts = ['def f%d(x):\n    while x > 1000:\n        x = x // 2\n    return x * 3 + %d\n' % (i, i) for i in range(count)]
    calls = ''.join('    x = f%d(x)\n' % i for i in range(count))
    return ''.join(parts) + 'def entry_point(argv):\n    x = 1\n' + calls + '    print x\n    return x\n'


def checked(source):
    with tempfile.TemporaryDirectory() as folder:
        with open(os.path.join(folder, 'a.py'), 'w') as file:
            file.write(source)
        start = time.time()
        done = subprocess.run([PROGRAM, 'check', 'a.py'], cwd=folder, capture_output=True)
        return done.returncode, time.time() - start


def main():
    if not os.path.exists(PROGRAM):
        print('check: the program is not built')
        return 1
    count = int(sys.argv[1]) if len(sys.argv) > 1 else 1000
    good = True
    for many in (count, 2 * count):
        source = chain(many)
        status, seconds = checked(source)
        good = good and status == 0
        most = resource.getrusage(resource.RUSAGE_CHILDREN).ru_maxrss
        print('%d functions, %d bytes: status %d, %.2f s, at most %d bytes of memory a byte' % (
            many, len(source), status, seconds, most * 1024 // len(source)))
    return 0 if good else 1


if __name__ == '__main__':
    sys.exit(main())
