"""A regular-expression matcher by Thompson's construction: all states are followed at once.

Patterns have characters, `.`, `|`, `*`, `+`, `?` and brackets; a pattern has to fit the whole text.

    rpy run examples/regex.py -- '(a|b)*abb' ababb abab
"""

CHARACTER = 0
ANY = 1
SPLIT = 2
MATCH = 3


class PatternError(Exception):
    pass


class Program(object):
    """States by their numbers, so that a loop among them is no cycle of references."""

    def __init__(self):
        self.kinds = []
        self.characters = []
        self.first = []
        self.second = []

    def state(self, kind, c):
        self.kinds.append(kind)
        self.characters.append(c)
        self.first.append(-1)
        self.second.append(-1)
        return len(self.kinds) - 1

    def split(self, first):
        state = self.state(SPLIT, '\0')
        self.first[state] = first
        return state

    def close(self, fragment, state):
        for end in fragment.ends:
            if self.first[end] < 0:
                self.first[end] = state
            else:
                self.second[end] = state


class Fragment(object):
    """A start, and the states whose way out is still open."""

    def __init__(self, start, ends):
        self.start = start
        self.ends = ends


class Parser(object):
    def __init__(self, pattern):
        self.pattern = pattern
        self.at = 0
        self.program = Program()

    def peek(self):
        if self.at < len(self.pattern):
            return self.pattern[self.at]
        return '\0'

    def alternatives(self):
        left = self.sequence()
        while self.peek() == '|':
            self.at += 1
            right = self.sequence()
            split = self.program.split(left.start)
            self.program.second[split] = right.start
            left = Fragment(split, left.ends + right.ends)
        return left

    def sequence(self):
        left = self.repeated()
        while self.at < len(self.pattern) and self.peek() != '|' and self.peek() != ')':
            right = self.repeated()
            self.program.close(left, right.start)
            left = Fragment(left.start, right.ends)
        return left

    def repeated(self):
        inner = self.atom()
        while self.peek() == '*' or self.peek() == '+' or self.peek() == '?':
            c = self.peek()
            self.at += 1
            split = self.program.split(inner.start)
            if c == '*':
                self.program.close(inner, split)
                inner = Fragment(split, [split])
            elif c == '+':
                self.program.close(inner, split)
                inner = Fragment(inner.start, [split])
            else:
                inner = Fragment(split, inner.ends + [split])
        return inner

    def atom(self):
        if self.at >= len(self.pattern):
            raise PatternError
        c = self.pattern[self.at]
        self.at += 1
        if c == '(':
            inner = self.alternatives()
            if self.peek() != ')':
                raise PatternError
            self.at += 1
            return inner
        if c == '*' or c == '+' or c == '?' or c == ')' or c == '|':
            raise PatternError
        kind = CHARACTER
        if c == '.':
            kind = ANY
        state = self.program.state(kind, c)
        return Fragment(state, [state])


class Matcher(object):
    def __init__(self, pattern):
        parser = Parser(pattern)
        whole = parser.alternatives()
        if parser.at < len(pattern):
            raise PatternError
        self.program = parser.program
        self.program.close(whole, self.program.state(MATCH, '\0'))
        self.start = whole.start
        self.marks = [-1] * len(self.program.kinds)
        self.step = 0

    def follow(self, state, states):
        """Adds a state, and what is reached from it without a character."""
        if state < 0 or self.marks[state] == self.step:
            return
        self.marks[state] = self.step
        if self.program.kinds[state] == SPLIT:
            self.follow(self.program.first[state], states)
            self.follow(self.program.second[state], states)
        else:
            states.append(state)

    def takes(self, state, c):
        kind = self.program.kinds[state]
        return kind == ANY or (kind == CHARACTER and self.program.characters[state] == c)

    def matches(self, text):
        self.step += 1
        states = []
        self.follow(self.start, states)
        for c in text:
            self.step += 1
            later = []
            for state in states:
                if self.takes(state, c):
                    self.follow(self.program.first[state], later)
            states = later
        for state in states:
            if self.program.kinds[state] == MATCH:
                return True
        return False


DEMO = ['(a|b)*abb', 'abb', 'babaabb', 'abab', '']


def entry_point(argv):
    words = DEMO
    if len(argv) > 2:
        words = argv[1:]
    try:
        matcher = Matcher(words[0])
    except PatternError:
        print 'no pattern: ' + words[0]
        return 1
    for text in words[1:]:
        if matcher.matches(text):
            print 'matches', text
        else:
            print 'fails', text
    return 0


if __name__ == '__main__':
    import sys
    sys.exit(entry_point(sys.argv))
