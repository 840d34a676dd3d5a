#!/usr/bin/env python3
"""Runs C texts with the program's command crun, and compares what each run prints, how it ends and its status.

The cases lie in ../shared beside the checkout, with what they must answer; where they are missing the check is
skipped. Those that are marked 'sure' count, and those marked 'choice', where the rules can be read in more than one
way and both sides read them alike; what is free is left out. Texts with forms that the subset here does not have yet
(version 2, operations on unsigned words) are left out, and counted in a line of their own. Each run is bounded in
time. The last line is 'N passed, M failed'."""
import os
import re
import subprocess
import sys
from concurrent.futures import ThreadPoolExecutor

from references import PROGRAM, SHARED, ended, unready

CASES = os.path.join(SHARED, 'csub', 'examples')
SECONDS = 60

# forms that are not there yet
LATER = re.compile(rb'\A/\* C-sub 2 \*/\n|\bRPY_U(DIV|MOD|SHR|LT|LE)\(')

# options of the reference alone
OWN = {b'--counted', b'--counted-every', b'--peak', b'--paid', b'--check', b'--slow', b'--work'}


def plain(field):
    """A field without its escapes: \\n, \\\\, \\xNN, and \\e for nothing."""
    out, i = bytearray(), 0
    while i < len(field):
        if field[i] != '\\':
            out += field[i].encode()
            i += 1
            continue
        kind = field[i + 1]
        if kind == 'x':
            out.append(int(field[i + 2:i + 4], 16))
            i += 4
            continue
        out += {'n': b'\n', '\\': b'\\', 't': b'\t', 'e': b''}[kind]
        i += 2
    return bytes(out)


def cases():
    with open(os.path.join(CASES, 'cases.tsv'), encoding='utf-8') as f:
        next(f)
        for line in f:
            name, words, status, out, err, mark = line.rstrip('\n').split('\t')
            words = [plain(w) for w in words.split(' ')] if words else []
            if mark.startswith(('sure', 'choice')) and not OWN.intersection(words):
                yield name, words, int(status), plain(out), plain(err)


def is_later(words):
    """Whether a file that is named has a form that is not there yet."""
    for word in words:
        path = os.path.join(CASES.encode(), word)
        if word and os.path.isfile(path):
            with open(path, 'rb') as f:
                if LATER.search(f.read()):
                    return True
    return False


def verdict(case):
    name, words, status, out, err = case
    try:
        done = subprocess.run([PROGRAM.encode(), b'crun'] + words, cwd=CASES, capture_output=True, timeout=SECONDS)
    except subprocess.TimeoutExpired:
        return '%s: no end within %d seconds' % (name, SECONDS)
    for what, got, wanted in [('status', done.returncode, status), ('out', done.stdout, out), ('err', done.stderr, err)]:
        if got != wanted:
            return '%s: %s is %.200r, not %.200r' % (name, what, got, wanted)
    return None


def main():
    stopped = unready('C texts', PROGRAM, 'csub/examples/cases.tsv')
    if stopped is not None:
        return stopped
    every = list(cases())
    here = [case for case in every if not is_later(case[1])]
    print('C texts: %d cases left out, with forms that are not there yet' % (len(every) - len(here)))
    with ThreadPoolExecutor(max_workers=2) as pool:
        faults = list(pool.map(verdict, here))
    for fault in faults:
        if fault:
            print(fault)
    failed = sum(1 for fault in faults if fault)
    return ended(len(faults) - failed, failed)


if __name__ == '__main__':
    sys.exit(main())
