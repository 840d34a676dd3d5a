"""A register machine and its assembler.

Lines are separated by `;`. A line is a label `NAME:`, or an instruction:
`set R N`, `add R S`, `sub R S`, `mul R S`, `jump L`, `zero R L` (jumps where R is 0), `out R`, `halt`.

    rpy run examples/register.py -- 'set a 6; set f 1; loop: ; zero a end; mul f a; set o 1; sub a o; jump loop; end: ; out f'
"""

SET = 0
ADD = 1
SUB = 2
MUL = 3
JUMP = 4
ZERO = 5
OUT = 6
HALT = 7

# The operation, and the number of its operands.
OPERATIONS = {
    'set': (SET, 2), 'add': (ADD, 2), 'sub': (SUB, 2), 'mul': (MUL, 2),
    'jump': (JUMP, 1), 'zero': (ZERO, 2), 'out': (OUT, 1), 'halt': (HALT, 0),
}


class AssemblerError(Exception):
    def __init__(self, line, text):
        self.line = line
        self.text = text


class Instruction(object):
    def __init__(self, operation, a, b):
        self.operation = operation
        self.a = a
        self.b = b


class Assembler(object):
    def __init__(self):
        self.registers = {}
        self.labels = {}
        self.code = []

    def register(self, name):
        if name not in self.registers:
            self.registers[name] = len(self.registers)
        return self.registers[name]

    def words(self, line):
        return [word for word in line.split(' ') if word]

    def find_labels(self, lines):
        at = 0
        for line in lines:
            words = self.words(line)
            if len(words) == 1 and words[0].endswith(':'):
                name = words[0]
                self.labels[name[:-1]] = at
            elif words:
                at += 1

    def label(self, name, line):
        try:
            return self.labels[name]
        except KeyError:
            raise AssemblerError(line, 'no label ' + name)

    def instruction(self, words, line):
        name = words[0]
        if name not in OPERATIONS:
            raise AssemblerError(line, 'no instruction ' + name)
        operation, count = OPERATIONS[name]
        if len(words) != count + 1:
            raise AssemblerError(line, 'a wrong number of operands')
        if operation == HALT:
            return Instruction(operation, 0, 0)
        if operation == JUMP:
            return Instruction(operation, 0, self.label(words[1], line))
        a = self.register(words[1])
        if operation == ZERO:
            return Instruction(operation, a, self.label(words[2], line))
        if operation == SET:
            try:
                return Instruction(operation, a, int(words[2]))
            except ValueError:
                raise AssemblerError(line, 'no number ' + words[2])
        if operation == OUT:
            return Instruction(operation, a, 0)
        return Instruction(operation, a, self.register(words[2]))

    def assemble(self, text):
        lines = text.split(';')
        self.find_labels(lines)
        number = 0
        for line in lines:
            number += 1
            words = self.words(line)
            if words and not words[0].endswith(':'):
                self.code.append(self.instruction(words, number))


def run(code, count):
    registers = [0] * count
    at = 0
    while at < len(code):
        each = code[at]
        a = each.a
        b = each.b
        at += 1
        operation = each.operation
        if operation == SET:
            registers[a] = b
        elif operation == ADD:
            registers[a] += registers[b]
        elif operation == SUB:
            registers[a] -= registers[b]
        elif operation == MUL:
            registers[a] *= registers[b]
        elif operation == JUMP:
            at = b
        elif operation == ZERO:
            if registers[a] == 0:
                at = b
        elif operation == OUT:
            print registers[a]
        else:
            break


DEMO = 'set a 10; set f 1; set o 1; loop:; zero a end; mul f a; sub a o; jump loop; end:; out f'


def entry_point(argv):
    text = DEMO
    if len(argv) > 1:
        text = argv[1]
    assembler = Assembler()
    try:
        assembler.assemble(text)
    except AssemblerError, e:
        print 'line', e.line, e.text
        return 1
    run(assembler.code, len(assembler.registers))
    return 0


if __name__ == '__main__':
    import sys
    sys.exit(entry_point(sys.argv))
