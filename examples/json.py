"""Reads a text in JSON, without fractions, and writes it with indentation.

    rpy run examples/json.py -- '{"a": [1, 2, {"b": null}], "c": "text"}'
"""


class JsonError(Exception):
    def __init__(self, at):
        self.at = at


class Value(object):
    def write(self, indent, lines, first):
        """Adds lines, of which the first begins with the given text."""
        lines.append(first + 'null')


class Atom(Value):
    def __init__(self, text):
        self.text = text

    def write(self, indent, lines, first):
        lines.append(first + self.text)


class Array(Value):
    def __init__(self):
        self.items = []

    def write(self, indent, lines, first):
        lines.append(first + '[')
        inner = indent + '  '
        for i in range(len(self.items)):
            self.items[i].write(inner, lines, inner)
            if i + 1 < len(self.items):
                lines[-1] = lines[-1] + ','
        lines.append(indent + ']')


class Object(Value):
    def __init__(self):
        self.members = {}

    def write(self, indent, lines, first):
        lines.append(first + '{')
        inner = indent + '  '
        left = len(self.members)
        for name, value in self.members.items():
            value.write(inner, lines, inner + '"' + name + '": ')
            left -= 1
            if left > 0:
                lines[-1] = lines[-1] + ','
        lines.append(indent + '}')


class Reader(object):
    def __init__(self, text):
        self.text = text
        self.at = 0

    def peek(self):
        while self.at < len(self.text) and self.text[self.at].isspace():
            self.at += 1
        if self.at < len(self.text):
            return self.text[self.at]
        return '\0'

    def expect(self, c):
        if self.peek() != c:
            raise JsonError(self.at)
        self.at += 1

    def string(self):
        self.expect('"')
        start = self.at
        while self.at < len(self.text) and self.text[self.at] != '"':
            if self.text[self.at] == '\\':
                self.at += 1
            self.at += 1
        text = self.text[start:self.at]
        self.expect('"')
        return text

    def value(self):
        c = self.peek()
        if c == '{':
            return self.object()
        if c == '[':
            return self.array()
        if c == '"':
            return Atom('"' + self.string() + '"')
        return self.bare()

    def object(self):
        made = Object()
        self.expect('{')
        while self.peek() != '}':
            if len(made.members) > 0:
                self.expect(',')
            self.peek()
            name = self.string()
            self.expect(':')
            made.members[name] = self.value()
        self.at += 1
        return made

    def array(self):
        made = Array()
        self.expect('[')
        while self.peek() != ']':
            if len(made.items) > 0:
                self.expect(',')
            made.items.append(self.value())
        self.at += 1
        return made

    def bare(self):
        start = self.at
        while self.at < len(self.text):
            c = self.text[self.at]
            if not c.isalpha() and not c.isdigit() and c != '-':
                break
            self.at += 1
        text = self.text[start:self.at]
        if text == 'null':
            return Value()
        if text == 'true' or text == 'false':
            return Atom(text)
        try:
            return Atom(str(int(text)))
        except ValueError:
            raise JsonError(start)


DEMO = '{"name": "rpy", "counts": [1, -2, 3], "empty": {}, "deep": {"yes": true, "none": null}}'


def entry_point(argv):
    text = DEMO
    if len(argv) > 1:
        text = argv[1]
    reader = Reader(text)
    try:
        value = reader.value()
        if reader.peek() != '\0':
            raise JsonError(reader.at)
    except JsonError, e:
        print 'no JSON from byte', e.at, 'on'
        return 1
    lines = []
    value.write('', lines, '')
    for line in lines:
        print line
    return 0


if __name__ == '__main__':
    import sys
    sys.exit(entry_point(sys.argv))
