#!/usr/bin/env python3
"""Builds sources with the program and compares which are refused, on which line and with which words, with an
independent tokenizer and parser.

The sources are all files of the programs in ../shared, those that are refused as such among them, and as many
slightly wrong ones as the first word says (2,000 without one). Where ../shared is missing the check is skipped. A
source that the reference takes has to be built or answered by a later status. The last line is 'N passed, M
failed'."""
import glob
import os
import random
import subprocess
import sys
import tempfile
import time

from references import PROGRAM, SHARED, ended, number, unready, use

SECONDS = 40
LIMIT = 1048576


def reference(source, tokens, grammar):
    """The line and the words of the refusal, or None."""
    try:
        listed = tokens.tokens(source)
    except tokens.TokenFault as fault:
        return '%d: %s' % (tokens.line_of(source, fault.at), tokens.FAULT_TEXT[fault.kind])
    try:
        grammar.parse(listed)
    except grammar.Syntax as fault:
        return '%d: syntax' % listed[fault.index].line
    return None


def sources_of_programs():
    for name in sorted(glob.glob(os.path.join(SHARED, 'programs', '*', '*.py'))):
        with open(name, 'rb') as file:
            yield os.path.relpath(name, SHARED), file.read()


def mutants(sources, count, mutate):
    for seed in range(count):
        name, source = sources[random.Random(seed).randrange(len(sources))]
        how = ('byte', 'token')[seed % 2]
        files, said = mutate.mutate([('a.py', source)], seed, how)
        yield '%s, seed %d: %s' % (name, seed, said), files[0][1]


def main():
    stopped = unready('sources', PROGRAM, 'oracle', 'fuzz')
    if stopped is not None:
        return stopped
    use('oracle', 'fuzz')
    sys.setrecursionlimit(20000)
    import grammar
    import mutate
    import tokens
    count = number(1, 2000)
    whole = list(sources_of_programs())
    passed = failed = refused = 0
    start = time.time()
    with tempfile.TemporaryDirectory() as folder:
        for name, source in whole + list(mutants(whole, count, mutate)):
            if time.time() - start > SECONDS:
                print('sources: stopped after %d seconds' % SECONDS)
                break
            if len(source) > LIMIT:
                continue
            with open(os.path.join(folder, 'a.py'), 'wb') as file:
                file.write(source)
            done = subprocess.run([PROGRAM, 'build', 'a.py'], cwd=folder, capture_output=True, timeout=60)
            want = reference(source, tokens, grammar)
            refused += want is not None
            if want is None:
                good = done.returncode not in (2, 13) and 0 <= done.returncode <= 15
            else:
                good = done.returncode == 2 and done.stderr == b'a.py:%s\n' % want.encode() and done.stdout == b''
            if good:
                passed += 1
            else:
                failed += 1
                print('differs: %s\n  got  %d %r\n  want %r' % (name, done.returncode, done.stderr, want))
    print('sources: %d of them are refused' % refused)
    return ended(passed, failed)


if __name__ == '__main__':
    sys.exit(main())
