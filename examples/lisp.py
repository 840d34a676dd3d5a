"""A tiny Lisp: numbers, symbols, pairs, `quote if define lambda let begin`, closures.

    rpy run examples/lisp.py -- '(define (f n) (if (< n 2) n (+ (f (- n 1)) (f (- n 2))))) (f 15)'
"""


class LispError(Exception):
    def __init__(self, text):
        self.text = text


class Value(object):
    def text(self):
        return '()'


class Nil(Value):
    pass


class Number(Value):
    def __init__(self, number):
        self.number = number

    def text(self):
        return str(self.number)


class Symbol(Value):
    def __init__(self, name):
        self.name = name

    def text(self):
        return self.name


class Pair(Value):
    def __init__(self, head, tail):
        self.head = head
        self.tail = tail

    def text(self):
        parts = []
        each = self
        while True:
            parts.append(each.head.text())
            tail = each.tail
            if isinstance(tail, Pair):
                each = tail
            else:
                if not isinstance(tail, Nil):
                    parts.append('.')
                    parts.append(tail.text())
                return '(' + ' '.join(parts) + ')'


class Builtin(Value):
    def __init__(self, function):
        self.function = function

    def text(self):
        return '<builtin>'


class Closure(Value):
    def __init__(self, names, body, scope):
        self.names = names
        self.body = body
        self.scope = scope

    def text(self):
        return '<closure>'


class Scope(object):
    def __init__(self, outer):
        self.names = {}
        self.outer = outer

    def find(self, name):
        scope = self
        while scope is not None:
            if name in scope.names:
                return scope.names[name]
            scope = scope.outer
        raise LispError('no value: ' + name)


# ---- reading

def tokens_of(text):
    tokens = []
    word = ''
    for c in text:
        if c == '(' or c == ')' or c == "'" or c.isspace():
            if word:
                tokens.append(word)
            word = ''
            if not c.isspace():
                tokens.append(c + '')
        else:
            word += c
    if word:
        tokens.append(word)
    return tokens


class Reader(object):
    def __init__(self, tokens):
        self.tokens = tokens
        self.at = 0

    def more(self):
        return self.at < len(self.tokens)

    def next(self):
        if not self.more():
            raise LispError('the text ends too early')
        token = self.tokens[self.at]
        self.at += 1
        return token

    def value(self):
        token = self.next()
        if token == '(':
            return self.rest()
        if token == ')':
            raise LispError('a bracket too many')
        if token == "'":
            return Pair(Symbol('quote'), Pair(self.value(), Nil()))
        try:
            return Number(int(token))
        except ValueError:
            return Symbol(token)

    def rest(self):
        if not self.more():
            raise LispError('the text ends too early')
        if self.tokens[self.at] == ')':
            self.at += 1
            return Nil()
        head = self.value()
        return Pair(head, self.rest())


# ---- values

def pair(value):
    if isinstance(value, Pair):
        return value
    raise LispError('no pair: ' + value.text())


def number(value):
    if isinstance(value, Number):
        return value.number
    raise LispError('no number: ' + value.text())


def name_of(value):
    if isinstance(value, Symbol):
        return value.name
    raise LispError('no symbol: ' + value.text())


def items(value):
    found = []
    while isinstance(value, Pair):
        found.append(value.head)
        value = value.tail
    return found


def argument(args, i):
    if i < len(args):
        return args[i]
    raise LispError('an argument is missing')


def truth(value):
    return not isinstance(value, Nil)


def boolean(flag):
    if flag:
        return Number(1)
    return Nil()


# ---- builtin functions

def add(args):
    total = 0
    for arg in args:
        total += number(arg)
    return Number(total)


def multiply(args):
    total = 1
    for arg in args:
        total *= number(arg)
    return Number(total)


def subtract(args):
    return Number(number(argument(args, 0)) - number(argument(args, 1)))


def less(args):
    return boolean(number(argument(args, 0)) < number(argument(args, 1)))


def equal(args):
    return boolean(argument(args, 0).text() == argument(args, 1).text())


def cons(args):
    return Pair(argument(args, 0), argument(args, 1))


def car(args):
    return pair(argument(args, 0)).head


def cdr(args):
    return pair(argument(args, 0)).tail


BUILTINS = {
    '+': add, '*': multiply, '-': subtract, '<': less, '=': equal, 'cons': cons, 'car': car, 'cdr': cdr,
}


# ---- evaluation

def evaluate(value, scope):
    if isinstance(value, Symbol):
        return scope.find(value.name)
    if isinstance(value, Pair):
        return form(value, scope)
    return value


def sequence(body, scope):
    last = evaluate(Nil(), scope)
    for each in body:
        last = evaluate(each, scope)
    return last


def define(args, scope):
    target = argument(args, 0)
    if isinstance(target, Pair):
        name = name_of(target.head)
        names = [name_of(each) for each in items(target.tail)]
        scope.names[name] = Closure(names, args[1:], scope)
        return Symbol(name)
    name = name_of(target)
    scope.names[name] = evaluate(argument(args, 1), scope)
    return Symbol(name)


def form(value, scope):
    head = value.head
    args = items(value.tail)
    if isinstance(head, Symbol):
        name = head.name
        if name == 'quote':
            return argument(args, 0)
        if name == 'if':
            if truth(evaluate(argument(args, 0), scope)):
                return evaluate(argument(args, 1), scope)
            return sequence(args[2:], scope)
        if name == 'define':
            return define(args, scope)
        if name == 'lambda':
            return Closure([name_of(each) for each in items(argument(args, 0))], args[1:], scope)
        if name == 'begin':
            return sequence(args, scope)
    function = evaluate(head, scope)
    return call(function, [evaluate(each, scope) for each in args])


def call(function, args):
    if isinstance(function, Builtin):
        return function.function(args)
    if isinstance(function, Closure):
        if len(args) != len(function.names):
            raise LispError('a wrong number of arguments')
        scope = Scope(function.scope)
        for i in range(len(args)):
            scope.names[function.names[i]] = args[i]
        return sequence(function.body, scope)
    raise LispError('no function: ' + function.text())


DEMO = """
(define (map f l) (if l (cons (f (car l)) (map f (cdr l))) l))
(define (fib n) (if (< n 2) n (+ (fib (- n 1)) (fib (- n 2)))))
(map fib '(1 2 3 4 5 6 7 8 9 10))
(define (adder n) (lambda (m) (+ n m)))
(map (adder 10) '(1 2 3))
"""


def entry_point(argv):
    text = DEMO
    if len(argv) > 1:
        text = argv[1]
    scope = Scope(None)
    for name in BUILTINS:
        scope.names[name] = Builtin(BUILTINS[name])
    try:
        reader = Reader(tokens_of(text))
        while reader.more():
            print evaluate(reader.value(), scope).text()
    except LispError, e:
        print 'error: ' + e.text
        return 1
    return 0


if __name__ == '__main__':
    import sys
    sys.exit(entry_point(sys.argv))
