"""A stack language.

Words are numbers, the words of the table below, `: NAME .. ;` for a word of one's own, and
`IF .. ELSE .. THEN`. Numbers wrap at 64 bits.

    rpy run examples/stack.py -- : square dup '*' ';' 7 square .
"""


class StackUnderflow(Exception):
    pass


class DivisionByZero(Exception):
    pass


class EndOfText(Exception):
    pass


class UnknownWord(Exception):
    def __init__(self, word):
        self.word = word


class Op(object):
    """One instruction; `run` gives the place of the next one."""

    def run(self, machine, at):
        return at + 1


class Push(Op):
    def __init__(self, value):
        self.value = value

    def run(self, machine, at):
        machine.push(self.value)
        return at + 1


class Primitive(Op):
    def __init__(self, function):
        self.function = function

    def run(self, machine, at):
        self.function(machine)
        return at + 1


class Call(Op):
    """Calls a word by its number, so that one that calls itself is no cycle of references."""

    def __init__(self, number):
        self.number = number

    def run(self, machine, at):
        machine.run(machine.words[self.number])
        return at + 1


class Jump(Op):
    def __init__(self):
        self.to = 0

    def run(self, machine, at):
        return self.to


class Branch(Jump):
    """Goes on at `to` where the top is zero."""

    def run(self, machine, at):
        if machine.pop() == 0:
            return self.to
        return at + 1


class Machine(object):
    def __init__(self, words):
        self.words = words
        self.stack = []

    def push(self, value):
        self.stack.append(value)

    def pop(self):
        try:
            return self.stack.pop()
        except IndexError:
            raise StackUnderflow

    def run(self, code):
        at = 0
        while at < len(code):
            at = code[at].run(self, at)


def add(machine):
    b = machine.pop()
    machine.push(machine.pop() + b)


def subtract(machine):
    b = machine.pop()
    machine.push(machine.pop() - b)


def multiply(machine):
    b = machine.pop()
    machine.push(machine.pop() * b)


def divide(machine):
    b = machine.pop()
    if b == 0:
        raise DivisionByZero
    machine.push(machine.pop() / b)


def less(machine):
    b = machine.pop()
    machine.push(int(machine.pop() < b))


def dup(machine):
    a = machine.pop()
    machine.push(a)
    machine.push(a)


def drop(machine):
    machine.pop()


def swap(machine):
    b = machine.pop()
    a = machine.pop()
    machine.push(b)
    machine.push(a)


def show(machine):
    print machine.pop()


WORDS = {
    '+': add, '-': subtract, '*': multiply, '/': divide, '<': less,
    'dup': dup, 'drop': drop, 'swap': swap, '.': show,
}


class Compiler(object):
    def __init__(self, words):
        self.words = words
        self.at = 0
        self.numbers = {}
        self.codes = []

    def next(self):
        if not self.more():
            raise EndOfText
        word = self.words[self.at]
        self.at += 1
        return word

    def more(self):
        return self.at < len(self.words)

    def block(self, ends):
        """The instructions up to one of the words that end a block."""
        code = []
        while self.more():
            word = self.next()
            if word in ends:
                break
            self.word(word, code)
        return code

    def word(self, word, code):
        if word == ':':
            body = []
            self.numbers[self.next()] = len(self.codes)
            self.codes.append(body)
            body.extend(self.block([';']))
        elif word == 'IF':
            self.branch(code)
        elif word in self.numbers:
            code.append(Call(self.numbers[word]))
        elif word in WORDS:
            code.append(Primitive(WORDS[word]))
        else:
            code.append(Push(self.number(word)))

    def number(self, word):
        try:
            return int(word)
        except ValueError:
            raise UnknownWord(word)

    def branch(self, code):
        branch = Branch()
        code.append(branch)
        while self.more():
            word = self.next()
            if word == 'THEN':
                break
            if word == 'ELSE':
                jump = Jump()
                code.append(jump)
                branch.to = len(code)
                branch = jump
            else:
                self.word(word, code)
        branch.to = len(code)


DEMO = [
    ':', 'square', 'dup', '*', ';', '7', 'square', '.',
    ':', 'fact', 'dup', '2', '<', 'IF', 'drop', '1', 'ELSE', 'dup', '1', '-', 'fact', '*', 'THEN', ';',
    '10', 'fact', '.',
]


def entry_point(argv):
    words = DEMO
    if len(argv) > 1:
        words = argv[1:]
    compiler = Compiler(words)
    try:
        code = compiler.block([])
        Machine(compiler.codes).run(code)
    except StackUnderflow:
        print 'the stack is empty'
        return 1
    except UnknownWord, e:
        print 'unknown word: ' + e.word
        return 1
    except DivisionByZero:
        print 'division by zero'
        return 1
    except EndOfText:
        print 'a name is missing'
        return 1
    return 0


if __name__ == '__main__':
    import sys
    sys.exit(entry_point(sys.argv))
