#!/usr/bin/env python3
"""How the text of flow graphs grows with the source.

Functions with the same locals, once and twice as many: the bytes of the text, how they grow, and the seconds. One
function with twice as many statements on the same locals grows alike."""
import os
import subprocess
import sys
import tempfile
import time

TOP = os.path.dirname(os.path.dirname(os.path.abspath(__file__)))
PROGRAM = os.path.join(TOP, 'crates', 'rpy', 'out', 'rpy')
BODY = ('    while a > b:\n        a = a - b\n        if a % 2 == 0 and b > 1:\n            b = b + 1\n'
        '    try:\n        a = a / b\n    except ZeroDivisionError:\n        a = 0\n    finally:\n        b = 1\n')


def functions(count):
    return (''.join('def f%d(a, b):\n%s    return a\n' % (i, BODY) for i in range(count))
            + 'def entry_point(argv):\n    return f0(7, 2)\n')


def statements(count):
    return 'def f(a, b):\n%s    return a\ndef entry_point(argv):\n    return f(7, 2)\n' % (BODY * count)


def drawn(source):
    with tempfile.TemporaryDirectory() as folder:
        with open(os.path.join(folder, 'a.py'), 'w') as file:
            file.write(source)
        start = time.time()
        done = subprocess.run([PROGRAM, 'flow', 'a.py'], cwd=folder, capture_output=True)
        return done.returncode, len(done.stdout), time.time() - start


def main():
    if not os.path.exists(PROGRAM):
        print('flow: the program is not built')
        return 1
    count = int(sys.argv[1]) if len(sys.argv) > 1 else 1000
    worst = 0.0
    for name, make in (('functions', functions), ('statements', statements)):
        before = None
        for many in (count, 2 * count):
            status, size, seconds = drawn(make(many))
            growth = '' if before is None else ', %.2f times as long' % (size / before)
            worst = max(worst, size / before if before else 0)
            print('%d %s: status %d, %d bytes%s, %.2f s' % (many, name, status, size, growth, seconds))
            before = size
    return 0 if worst < 2.2 else 1


if __name__ == '__main__':
    sys.exit(main())
