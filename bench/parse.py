#!/usr/bin/env python3
"""Measures `build` on sources of assignments: seconds for a quarter, a half and all of 1 MiB, and how much longer
each takes than the one before. Each source is no module of the first path, so that it is read and parsed alone.
Prints one line for each, and judges none."""
import os
import resource
import subprocess
import sys
import tempfile
import time

TOP = os.path.dirname(os.path.dirname(os.path.abspath(__file__)))
PROGRAM = os.path.join(TOP, 'crates', 'rpy', 'out', 'rpy')
LARGEST = 1048576
FORMS = [('assignments', 'a = 1\n'), ('sums', 'a = b + c * 2\n'), ('calls', 'a = f(b, c[1], "x")\n')]


def seconds(folder, line, size):
    """The least of three runs on a source of this size, and the status."""
    with open(os.path.join(folder, 'a.py'), 'w') as file:
        file.write(line * (size // len(line)))
    least = None
    for _ in range(3):
        start = time.time()
        done = subprocess.run([PROGRAM, 'build', 'a.py'], cwd=folder, capture_output=True, timeout=300)
        spent = time.time() - start
        least = spent if least is None else min(least, spent)
    return least, done.returncode


def main():
    if not os.path.exists(PROGRAM):
        print('parse: the program is not built')
        return 1
    with tempfile.TemporaryDirectory() as folder:
        for name, line in FORMS:
            before = None
            for size in (LARGEST // 4, LARGEST // 2, LARGEST):
                spent, status = seconds(folder, line, size)
                more = '' if before is None else ', %.2f times as long' % (spent / before)
                print('%s: %d bytes, status %d, %.3f s%s' % (name, size, status, spent, more))
                before = spent
        most = resource.getrusage(resource.RUSAGE_CHILDREN).ru_maxrss
        print('most memory of a run: %d MiB' % (most // 1024))
    return 0


if __name__ == '__main__':
    sys.exit(main())
