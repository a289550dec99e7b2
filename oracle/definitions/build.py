"""Writes cases by hand: a script as a tree, a library as packages; text, tokens, node numbers and slots follow from it.

    case([let("a", num("1")), call("f", ident("a"))], library=[package("p", function("f", [("x", "Int")], "Int"))])

Types are "Void", "Bool", "Int", "Double", "Str", option(t), array_of(t), record_of(("a", t), ..), foreign("N"), slot("T") (library only).
The text stands as a reader would write it, and every token holds its bytes, so that a case lies in the domain of equality.
"""
from bench_case import Parts, join_case

KINDS = {"Void": 1, "Bool": 2, "Int": 3, "Double": 4, "Str": 5}
OPERATORS = ["+", "-", "*", "/", "%", "==", "!=", "<", ">"]


def option(t):
    return ("option", t)


def array_of(t):
    return ("array", t)


def record_of(*fields):
    return ("record", fields)


def foreign(name):
    return ("foreign", name)


def slot(name):
    return ("slot", name)


# nodes: functions of a Script that write their text and their record, and return their number

def atom(text, kind):
    return lambda s: s.node(0, s.token(text), KINDS[kind])


def num(text="1"):
    return atom(text, "Int")


def dbl(text="2.0"):
    return atom(text, "Double")


def true():
    return atom("true", "Bool")


def string(text="s"):
    return lambda s: s.node(0, s.quoted(text), KINDS["Str"])


def ident(name):
    return lambda s: s.node(1, s.token(name))


def binary(left, op, right):
    def write(s):
        own = s.slot()
        l = left(s)
        token = s.token(op)
        r = right(s)
        return s.node(2, token, OPERATORS.index(op), l, r, slot=own)
    return write


def unary(op, right):
    def write(s):
        own, token = s.slot(), s.token(op)
        return s.node(3, token, OPERATORS.index(op), right(s), slot=own)
    return write


def let(name, right):
    def write(s):
        own = s.slot()
        s.write("let")
        token = s.token(name)
        s.write("=")
        return s.node(4, token, right(s), slot=own)
    return write


def fn(name, args, ret, *body):
    def write(s):
        own = s.slot(1 + len(args))
        s.write("fn")
        token = s.token(name)
        s.write("(")
        pairs = [w for arg, t in args for w in (s.token(arg), s.type(t))]
        s.write(")")
        returned = s.type(ret)
        return s.node(5, token, returned, len(args), *pairs, *s.block(body), slot=own)
    return write


def match(cases, default):
    """cases: (condition, [body..])"""
    def write(s):
        own, words = s.slot(), [len(cases)]
        s.write("match {")
        for condition, body in cases:
            at = len(words)
            words += [0, condition(s)]
            words[at] = s.token("{")
            nodes = [node(s) for node in body]
            s.write("}")
            words += [len(nodes)] + nodes
        words.append(s.token("{"))
        words += [node(s) for node in default]
        s.write("} }")
        return s.node(6, *words, slot=own)
    return write


def call_of(target, *args):
    def write(s):
        own, t = s.slot(), target(s)
        s.write("(")
        given = [a(s) for a in args]
        s.write(")")
        return s.node(7, t, *given, slot=own)
    return write


def call(name, *args):
    return call_of(ident(name), *args)


def package_call(pkg, name, *args):
    return call_of(field(ident(pkg), name), *args)


def field(target, name):
    def write(s):
        own, t = s.slot(), target(s)
        s.write(".")
        return s.node(8, t, s.token(name), slot=own)
    return write


def cast(left, to):
    def write(s):
        own, l = s.slot(), left(s)
        token = s.token("as")
        return s.node(9, token, l, s.type(to), slot=own)
    return write


def imports(*paths):
    def write(s):
        token = s.token("import")
        return s.node(10, token, *[s.quoted(p) for p in paths])
    return write


def extern(name, *functions):
    """functions: (name, [(arg, type)..], return type)"""
    def write(s):
        own, token, words = s.slot(), s.token("extern"), []
        pkg = s.quoted(name)
        for f, args, ret in functions:
            s.write("fn")
            at = len(words)
            words += [s.token(f), 0, len(args)]
            words += [w for arg, t in args for w in (s.token(arg), s.type(t))]
            words[at + 1] = s.type(ret)
        return s.node(11, token, pkg, len(functions), *words, slot=own)
    return write


def record(*fields):
    def write(s):
        own, token, words = s.slot(), s.token("{"), []
        for name, value in fields:
            words += [s.token(name), value(s)]
        s.write("}")
        return s.node(12, token, *words, slot=own)
    return write


def array(*members):
    def write(s):
        own, token = s.slot(), s.token("[")
        nodes = [m(s) for m in members]
        s.write("]")
        return s.node(13, token, *nodes, slot=own)
    return write


class Script:
    def __init__(self):
        self.text, self.nodes, self.types, self.slots = bytearray(), [], [], 0

    def write(self, text):
        self.text += text.encode() + b" "

    def token(self, text):
        data, at = text.encode(), len(self.text)
        self.text += data + b" "
        return 12 << 28 | at << 8 | len(data)

    def quoted(self, text):
        self.text += b'"'
        word = self.token(text)
        self.text[-1:] = b'" '
        return word

    def slot(self, count=1):
        self.slots += count
        return self.slots - count

    def node(self, kind, *words, slot=None):
        slot = self.slot() if slot is None else slot
        self.nodes.append([kind << 28 | len(words) + 2, slot] + list(words))
        return len(self.nodes) - 1

    def block(self, body):
        self.write("{")
        nodes = [node(self) for node in body]
        self.write("}")
        return nodes

    def record(self, kind, *words):
        self.types.append([kind << 28 | len(words) + 1] + list(words))
        return len(self.types) - 1

    def type(self, t):
        if isinstance(t, str):
            return self.record(0, self.token(t), KINDS[t])
        if t[0] == "foreign":
            return self.record(1, self.token(t[1]))
        if t[0] in ("option", "array"):
            return self.record(2 if t[0] == "option" else 3, self.type(t[1]))
        token, words = self.token("Record"), []
        for name, inner in t[1]:
            words += [self.token(name), self.type(inner)]
        return self.record(4, token, *words)

    def image(self, roots):
        words = [len(self.nodes), len(self.types), len(roots), self.slots] + roots
        for r in self.nodes + self.types:
            words += r
        return words


def function(name, args, ret, slots=False):
    return name, args, ret, slots


def package(name, *functions):
    return name, functions


class Library:
    def __init__(self):
        self.text, self.pool, self.words = bytearray(), [], []

    def payload(self, name):
        data, at = name.encode(), len(self.text)
        self.text += data
        return 1 << 24 | at << 8 | len(data)

    def name(self, name):
        return 12 << 28 | self.payload(name)

    def type(self, t):
        if isinstance(t, str):
            return KINDS[t] << 28
        if t[0] in ("foreign", "slot"):
            return (9 if t[0] == "foreign" else 10) << 28 | self.payload(t[1])
        if t[0] in ("option", "array"):
            self.pool.append(self.type(t[1]))
            return (6 if t[0] == "option" else 7) << 28 | len(self.pool) - 1
        pairs = [w for name, inner in t[1] for w in (self.name(name), self.type(inner))]
        self.pool += [len(t[1])] + pairs
        return 8 << 28 | len(self.pool) - 1 - len(pairs)

    def add(self, pkg):
        name, functions = pkg
        self.words += [self.name(name), len(functions)]
        for f, args, ret, slots in functions:
            self.words += [self.name(f), 1 if slots else 0, len(args)]
            for arg, t in args:
                self.words += [self.name(arg), self.type(t)]
            self.words.append(self.type(ret))


def parts(roots, library=()):
    script, lib = Script(), Library()
    numbers = [root(script) for root in roots]
    for pkg in library:
        lib.add(pkg)
    return Parts(bytes(script.text), script.image(numbers), bytes(lib.text), [len(lib.pool), len(library)] + lib.pool + lib.words)


def case(roots, library=()):
    return join_case(parts(roots, library))
