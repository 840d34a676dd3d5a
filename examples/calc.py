"""A calculator of words: `+ - * / %`, brackets, names, `NAME = ..`; each argument is a line.

    rpy run examples/calc.py -- 'x = 6 * (3 + 4)' 'x / 5' 'x % 5'
"""


class CalcError(Exception):
    def __init__(self, text):
        self.text = text


class Calculator(object):
    def __init__(self):
        self.names = {}
        self.line = ''
        self.at = 0

    def blanks(self):
        while self.at < len(self.line) and self.line[self.at].isspace():
            self.at += 1

    def peek(self):
        self.blanks()
        if self.at < len(self.line):
            return self.line[self.at]
        return '\0'

    def word(self):
        """The letters and digits from the place on."""
        start = self.at
        while self.at < len(self.line) and (self.line[self.at].isalpha() or self.line[self.at].isdigit()):
            self.at += 1
        return self.line[start:self.at]

    def run(self, line):
        self.line = line
        self.at = 0
        if self.peek().isalpha():
            name = self.word()
            if self.peek() == '=':
                self.at += 1
                value = self.sum()
                self.names[name] = value
                return self.whole(value)
        self.at = 0
        return self.whole(self.sum())

    def whole(self, value):
        if self.peek() != '\0':
            raise CalcError('not read: ' + self.line[self.at:])
        return value

    def sum(self):
        value = self.product()
        while True:
            c = self.peek()
            if c == '+':
                self.at += 1
                value = value + self.product()
            elif c == '-':
                self.at += 1
                value = value - self.product()
            else:
                return value

    def product(self):
        value = self.atom()
        while True:
            c = self.peek()
            if c == '*':
                self.at += 1
                value = value * self.atom()
            elif c == '/':
                self.at += 1
                value = value / self.divisor()
            elif c == '%':
                self.at += 1
                value = value % self.divisor()
            else:
                return value

    def divisor(self):
        value = self.atom()
        if value == 0:
            raise CalcError('division by zero')
        return value

    def atom(self):
        c = self.peek()
        if c == '(':
            self.at += 1
            value = self.sum()
            if self.peek() != ')':
                raise CalcError('no closing bracket')
            self.at += 1
            return value
        if c == '-':
            self.at += 1
            return -self.atom()
        word = self.word()
        if c.isdigit():
            try:
                return int(word)
            except ValueError:
                raise CalcError('no number: ' + word)
        if word in self.names:
            return self.names[word]
        raise CalcError('no value: ' + word)


DEMO = ['x = 6 * (3 + 4)', 'x / 5', '-x % 5', '1 / (x - 42)', '2 +']


def entry_point(argv):
    lines = DEMO
    if len(argv) > 1:
        lines = argv[1:]
    calculator = Calculator()
    status = 0
    for line in lines:
        try:
            print calculator.run(line)
        except CalcError, e:
            print 'error: ' + e.text
            status = 1
    return status


if __name__ == '__main__':
    import sys
    sys.exit(entry_point(sys.argv))
