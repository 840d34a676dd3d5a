#!/usr/bin/env python3
"""Builds first-path programs with the program and runs their texts under an independent machine for C-sub.

What each text prints, how it ends and with which status is compared with an independent interpreter of the
language, at several bounds on steps. Both references lie in ../shared beside the checkout; where they are
missing the check is skipped. The last line is 'N passed, M failed'."""
import os
import subprocess
import sys
import tempfile

from references import PROGRAM, SHARED, ended, unready

CRUN = os.path.join(SHARED, 'csub', 'crun.py')
ORACLE = os.path.join(SHARED, 'oracle', 'oracle.py')

BODIES = [
    ['return 0'],
    ['print 9223372036854775807 + 1', 'return 0'],
    ['print 0 - 9223372036854775807 - 2', 'return 9223372036854775807'],
    ['x = 2 * 3 - 10', 'y = x * x', 'print y', 'x = y - x', 'print x', 'return x'],
    ['print 9', 'print 10', 'print 99', 'print 100', 'print 1000000007', 'return 7'],
    ['a = 0 - 1', 'print a', 'print a * 10', 'print a * 9', 'print a * 11', 'return a'],
    ['n = 3037000500', 'print n * n', 'print n * n * n', 'return n * n'],
    ['_x9 = 1', '_x9 = _x9 + _x9', '_x9 = _x9 + _x9', 'print _x9', 'return _x9 - 4'],
    ['x = 1'] + ['x = x * 3 + 1'] * 60 + ['print x', 'return x'],
    ['print 1' + ' + 1' * 64, 'print 1' + ' - 1' * 64, 'print 2' + ' * 2' * 63, 'return 5' + ' * 5' * 30],
    ['big = 9223372036854775807', 'small = 0 - big - 1', 'print small', 'print small - 1', 'print small * small', 'print big * 2', 'return small'],
]

# Other spellings of such programs.
SPELLED = [
    'def entry_point(a):  # one line\n\n  x=(2*(3))-10;y = x*x\n  print y\n\n  return 0x10+007+y',
    'def entry_point(argv):\r\n    x = 1 + \\\r\n      2\r\n    print(x)\r\n    return x\r\n',
    'def entry_point(argv): return (1 +\n2 # two\n)',
]

REFUSED = [
    (['return x'], 3), (['x = 1'], 5), (['return argv'], 5), (['return 9223372036854775808'], 2),
    (['print 1' + ' + 1' * 65, 'return 0'], 2), (['None = 1', 'return 0'], 3),
    (['return 1 +'], 2), (['x += 1', 'return 0'], 5),
]


def run(words):
    done = subprocess.run(words, capture_output=True, timeout=60)
    return done.stdout, done.stderr, done.returncode


def written(body):
    return 'def entry_point(argv):\n' + ''.join('    %s\n' % line for line in body)


def main():
    stopped = unready('first path', PROGRAM, 'csub/crun.py', 'oracle/oracle.py')
    if stopped is not None:
        return stopped
    passed = failed = 0
    with tempfile.TemporaryDirectory() as folder:
        source, text = os.path.join(folder, 'a.py'), os.path.join(folder, 'a.c')
        for body in [written(body) for body in BODIES] + SPELLED:
            with open(source, 'w', newline='') as f:
                f.write(body)
            out, err, status = run([PROGRAM, 'build', source])
            with open(text, 'wb') as f:
                f.write(out)
            for bound in ['0', '1', '2']:
                got = run([sys.executable, CRUN, '--steps', bound, text])
                want = run([sys.executable, ORACLE, 'run', '--steps', bound, source])
                if status == 0 and err == b'' and got == want:
                    passed += 1
                else:
                    failed += 1
                    print('differs at --steps %s: %r\n  got  %r\n  want %r' % (bound, body, got, want))
        for body, wanted in REFUSED:
            with open(source, 'w') as f:
                f.write(written(body))
            out, err, status = run([PROGRAM, 'build', source])
            if (out, status) == (b'', wanted):
                passed += 1
            else:
                failed += 1
                print('refused otherwise: %r gives %r, status %d' % (body, err, status))
    return ended(passed, failed)


if __name__ == '__main__':
    sys.exit(main())
