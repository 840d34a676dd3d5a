#!/usr/bin/env python3
"""Counts the machine's statements for a store into a dict and for a look-up, at 1,000 and at 100,000 entries, by the independent machine
for C texts in ../shared, without which nothing is measured. A word names another program to measure than the one that is
built here. Prints a table, and judges nothing."""
import os
import re
import subprocess
import sys
import tempfile

TOP = os.path.dirname(os.path.dirname(os.path.abspath(__file__)))
PROGRAM = os.path.abspath(sys.argv[1]) if sys.argv[1:] else os.path.join(TOP, 'crates', 'rpy', 'out', 'rpy')
MACHINE = os.path.join(os.path.dirname(TOP), 'shared', 'csub', 'crun.py')
SIZES = [1000, 100000]
SOURCE = '''def key(i):
    return %(key)s
def entry_point(argv):
    d = {}
    i = 0
    while i < %(size)d:
        %(store)s
        i += 1
    i = 0
    n = 0
    while i < %(size)d:
        %(look)s
        i += 1
    return n
'''
STORE, LOOK = 'd[key(i)] = i', 'n += d[key(i)]'
NO_STORE, NO_LOOK = 'key(i)', 'key(i)'


def statements(folder, **parts):
    """How many statements a run takes."""
    source, text = os.path.join(folder, 'a.py'), os.path.join(folder, 'a.c')
    with open(source, 'w') as file:
        file.write(SOURCE % parts)
    with open(text, 'wb') as file:
        subprocess.run([PROGRAM, 'build', source], stdout=file, check=True)
    done = subprocess.run([sys.executable, MACHINE, '--peak', text], capture_output=True)
    return int(re.search(rb'statements (\d+)', done.stderr).group(1))


def main():
    if not os.path.exists(MACHINE):
        print('dicts: skipped, the machine in ../shared is not here')
        return 0
    print('| Keys | Entries | statements a store | statements a look-up |')
    print('| --- | --- | --- | --- |')
    with tempfile.TemporaryDirectory() as folder:
        for name, key in (('words', 'i * 7'), ('strings', "'k' + str(i)")):
            for size in SIZES:
                all_of = statements(folder, key=key, size=size, store=STORE, look=LOOK)
                stores = statements(folder, key=key, size=size, store=STORE, look=NO_LOOK)
                none = statements(folder, key=key, size=size, store="d[0] = 0" if name == 'words' else "d['a'] = 0", look=NO_LOOK)
                print('| %s | %d | %.0f | %.0f |' % (name, size, (stores - none) / size, (all_of - stores) / size), flush=True)
    return 0


if __name__ == '__main__':
    sys.exit(main())
