"""Brainfuck, with the jumps found before the run.

    rpy run examples/brainfuck.py -- '++++++++[>++++++++<-]>+.+.+.'
"""
import os


def jumps_of(text):
    """For each bracket the place of its partner; None where the brackets do not fit."""
    jumps = [0] * len(text)
    opened = []
    at = 0
    while at < len(text):
        if text[at] == '[':
            opened.append(at)
        elif text[at] == ']':
            if not opened:
                return None
            start = opened.pop()
            jumps[start] = at
            jumps[at] = start
        at += 1
    if opened:
        return None
    return jumps


def run(text, jumps, given):
    tape = [0]
    place = 0
    read = 0
    at = 0
    while at < len(text):
        c = text[at]
        if c == '>':
            place += 1
            if place == len(tape):
                tape.append(0)
        elif c == '<':
            if place > 0:
                place -= 1
        elif c == '+':
            tape[place] = (tape[place] + 1) & 255
        elif c == '-':
            tape[place] = (tape[place] - 1) & 255
        elif c == '.':
            os.write(1, chr(tape[place]))
        elif c == ',':
            tape[place] = 0
            if read < len(given):
                tape[place] = ord(given[read])
                read += 1
        elif c == '[':
            if tape[place] == 0:
                at = jumps[at]
        elif c == ']':
            if tape[place] != 0:
                at = jumps[at]
        at += 1


HELLO = ('++++++++[>++++[>++>+++>+++>+<<<<-]>+>+>->>+[<]<-]>>.>---.+++++++..+++.>>.<-.'
         '<.+++.------.--------.>>+.>++.')


def entry_point(argv):
    text = HELLO
    given = ''
    if len(argv) > 1:
        text = argv[1]
    if len(argv) > 2:
        given = argv[2]
    jumps = jumps_of(text)
    if jumps is None:
        print 'the brackets do not fit'
        return 1
    run(text, jumps, given)
    return 0


if __name__ == '__main__':
    import sys
    sys.exit(entry_point(sys.argv))
