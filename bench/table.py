#!/usr/bin/env python3
"""Prints a table of speeds: `check` and `build` in lines a second, with the growth from one size to the next; `crun` in statements a
second; and six of the examples by `run`, by `llrun`, as gcc -O2 compiles their C text, and by Python 2.7.

Times are those of the processor, the best of three, and ratios are of one run of this script. What is missing (gcc, the header of the C
subset in ../shared, Python 2.7) leaves its column empty. A word names another program to measure than the one that is built
here. Judges nothing."""
import glob
import os
import platform
import resource
import subprocess
import sys
import tempfile

TOP = os.path.dirname(os.path.dirname(os.path.abspath(__file__)))
PROGRAM = os.path.abspath(sys.argv[1]) if sys.argv[1:] else os.path.join(TOP, 'crates', 'rpy', 'out', 'rpy')
CBUILD = os.path.join(os.path.dirname(TOP), 'shared', 'csub', 'cbuild.sh')
SIZES = [1000, 10000, 40000]
FIB = ': fib dup 2 < IF ELSE dup 1 - fib swap 2 - fib + THEN ; %d fib .'
EXAMPLES = [
    ('sieve', ['200000']),
    ('queens', ['7']),
    ('mandelbrot', []),
    ('stack', (FIB % 18).split()),
    ('lisp', ['(define (fib n) (if (< n 2) n (+ (fib (- n 1)) (fib (- n 2))))) (fib 14)']),
    ('regex', ['(a|b)*a(a|b)(a|b)(a|b)(a|b)(a|b)', 'abbab' * 1200]),
]
LOOP = '''/* C-sub 1 */
#include "rpy_prim.h"
static Signed f0(void);
/* loop */
static Signed f0(void)
{
    Signed v0;
    Bool v1;
b0:
    v0 = 0L;
    goto b1;
b1:
    v0 = RPY_ADD(v0, 1L);
    v1 = RPY_LT(v0, %dL);
    if (v1) goto b1; else goto b2;
b2:
    return 0L;
}
'''


def seconds(words, times=3, **more):
    """The least time of the processor that a command takes; None where it answers no usual status."""
    best = None
    for _ in range(times):
        before = resource.getrusage(resource.RUSAGE_CHILDREN)
        done = subprocess.run(words, stdout=subprocess.DEVNULL, stderr=subprocess.DEVNULL, **more)
        after = resource.getrusage(resource.RUSAGE_CHILDREN)
        if done.returncode not in (0, 10, 11, 12):
            return None
        took = after.ru_utime + after.ru_stime - before.ru_utime - before.ru_stime
        best = took if best is None else min(best, took)
    return best


def source(lines):
    """A program of so many lines: functions of eight lines that call the one before."""
    made = ['def f0(n):', '    return n']
    i = 0
    while len(made) + 10 <= lines:
        i += 1
        made += ['def f%d(n):' % i, '    total = 0', '    for k in range(n):', '        total += k * %d' % i, '        if total > 1000:',
                 "            print 'large', total", '    text = str(total) + %r' % ('t%d' % i), '    return f%d(len(text))' % (i - 1)]
    made += ['def entry_point(argv):', '    return f%d(len(argv))' % i]
    return '\n'.join(made) + '\n'


def translation(folder):
    print('| Lines | `check`, lines a second | `build`, lines a second | growth of `build` |')
    print('| --- | --- | --- | --- |')
    last = None
    for size in SIZES:
        name = os.path.join(folder, 'a.py')
        text = source(size)
        lines = text.count('\n')
        with open(name, 'w') as file:
            file.write(text)
        check, build = seconds([PROGRAM, 'check', name]), seconds([PROGRAM, 'build', name])
        growth = '%.1f for %.1f times the lines' % (build / last[0], lines / last[1]) if last else ''
        print('| %d | %.0f | %.0f | %s |' % (lines, lines / check, lines / build, growth), flush=True)
        last = build, lines
    print()


def statements(folder):
    name = os.path.join(folder, 'c.c')
    turns = 20000000
    with open(name, 'w') as file:
        file.write(LOOP % turns)
    print('`crun`: %.0f million plain statements a second\n' % (turns * 3 / seconds([PROGRAM, 'crun', name]) / 1e6), flush=True)


def python2():
    found = sorted(glob.glob(os.path.expanduser('~/.pyenv/versions/2.7*/bin/python')))
    return found[-1] if found else None


def compiled(folder, file):
    """The program as gcc compiles its C text, or None."""
    text, binary = os.path.join(folder, 'text.c'), os.path.join(folder, 'text')
    with open(text, 'wb') as out:
        if subprocess.run([PROGRAM, 'build', file], stdout=out).returncode != 0 or not os.path.exists(CBUILD):
            return None
    return binary if subprocess.run(['sh', CBUILD, text, binary]).returncode == 0 else None


def shown(took):
    return '' if took is None else '%.3f' % took


def examples(folder):
    print('| Example | `run` | `llrun` | gcc -O2 | Python 2.7 | Python 2.7 : gcc |')
    print('| --- | --- | --- | --- | --- | --- |')
    python = python2()
    for name, args in EXAMPLES:
        file = os.path.join(TOP, 'examples', name + '.py')
        by_run = seconds([PROGRAM, 'run', file, '--'] + args)
        by_llrun = seconds([PROGRAM, 'llrun', file, '--'] + args)
        binary = compiled(folder, file)
        by_gcc = seconds([binary] + args) if binary else None
        by_python = seconds([python, file] + args) if python else None
        ratio = '%.1f' % (by_python / by_gcc) if by_gcc and by_python else ''
        print('| %s | %s | %s | %s | %s | %s |' % (name, shown(by_run), shown(by_llrun), shown(by_gcc), shown(by_python), ratio), flush=True)
    print('\nSeconds of the processor.')


def main():
    print('%s, %d processors\n' % (platform.machine(), os.cpu_count()))
    with tempfile.TemporaryDirectory() as folder:
        translation(folder)
        statements(folder)
        examples(folder)
    return 0


if __name__ == '__main__':
    sys.exit(main())
