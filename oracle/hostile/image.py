"""Images and libraries near document 01's limits: names are words that may share their bytes, nodes and types are numbers.

Every word knows what its place holds (a class below), so that damage can be done by it. Tokens hold the bytes of the Rust's `as_str`, so that an
undamaged case lies in the domain of equality.
"""
import os
import random
import sys

sys.path.insert(0, os.path.join(os.path.dirname(os.path.abspath(__file__)), "..", "definitions"))
from bench_case import Parts, join_case  # noqa: E402, F401

MOST_WORDS, MOST_BYTES, MOST_NODES, MOST_TYPES, MOST_ROOTS, MOST_SLOTS = 8192, 65536, 2048, 512, 512, 4096
VOID, BOOL, INT, DOUBLE, STR = (k << 28 for k in range(1, 6))
OPTION, ARRAY, RECORD, FOREIGN, SLOT = range(6, 11)
OPERATORS = ["+", "-", "*", "/", "%", "==", "!=", "<", ">"]
TYPE_NAMES = {1: "Void", 2: "Bool", 3: "Int", 4: "Double", 5: "Str"}


class Head(int):
    """The first word of a record."""


class Name(int):
    pass


class Part(int):
    """The number of a node or of a type expression."""


class Count(int):
    """How many, or a flag."""


class Slot(int):
    pass


class Type(int):
    """A type word, or a kind."""


CLASSES = (Head, Name, Part, Count, Slot, Type)


def block(style, count, length):
    """Bytes that hold `count` names of this length, and where each begins.

    last      equal but for the last bytes (at least length - 18 are equal)
    middle    equal but for some bytes in the middle
    late      equal but for some bytes at three quarters
    moved     equal but for two bytes, at a place that changes from name to name
    parts     of parts of 16 bytes, each one of two: any two names differ in other parts than the next two
    front     equal but for the first bytes
    first     different from the first byte on
    same      all equal, at different places
    anagram   the same bytes in another order: alike for a sum of bytes
    wide      of characters of three bytes
    short     of four letters, whatever the length asked for
    head      of 15 bytes, whatever the length asked for: three letters, then bytes that are equal in all
    """
    if style in ("last", "middle", "late"):
        data, places = bytearray(), []
        first = {"last": 2, "middle": length // 2 - 8, "late": length // 4 - 8}[style]
        for j in range(-(-count // 17)):
            at = len(data)
            data += b"a" * length + bytes([98 + j // 24, 98 + j % 24])
            places += [at + s for s in range(first, first + 17)]
        return bytes(data + b"a" * (first + 17)), places[:count]
    if style == "front":
        data, places = bytearray(b"a" * 20), []
        for j in range(-(-count // 17)):
            places += [len(data) - s for s in range(17)]
            data += bytes([98 + j // 24, 98 + j % 24]) + b"a" * length
        return bytes(data), places[:count]
    if style == "moved":
        data, places = bytearray(b"a" * length), []
        for j in range(-(-count // (length - 2))):
            places += [len(data) - s * 100 % (length - 2) for s in range(length - 2)]
            data += bytes([98 + j // 24, 98 + j % 24]) + b"a" * length
        return bytes(data), places[:count]
    if style == "parts":
        register, data = 1, bytearray()
        for _ in range(count + length // 16):
            register = register >> 1 ^ (0xD008 if register & 1 else 0)
            data += b"aaaaaaa" + (b"b" if register & 1 else b"a") + b"aaaaaaaa"
        return bytes(data), [16 * i for i in range(count)]
    if style == "head":
        letters = b"bcdefghijklmnopqrstuvwxyz"
        heads = (bytes([a, b, c]) for a in letters for b in letters for c in letters)
        return b"".join(head + b"a" * 12 for head, _ in zip(heads, range(count))), [15 * k for k in range(count)]
    if style == "same":
        return b"a" * (length + count), list(range(count))
    if style == "anagram":
        data, places = bytearray(), []
        for j in range(-(-count // length)):
            unit = bytearray(b"a" * length)
            unit[j % length], unit[(7 * j + 3) % length] = 98, 99
            places += [len(data) + s for s in range(length)]
            data += unit + unit
        return bytes(data), places[:count]
    draw = random.Random("%s %d" % (style, length))
    if style == "wide":
        data = "".join(chr(draw.randrange(0x4E00, 0x9FFF)) for _ in range(count + length // 3)).encode()
        return data, [3 * i for i in range(count)]
    if style == "short":
        names = sorted({bytes(draw.choices(b"abcdefghijklmnopqrstuvwxyz", k=4)) for _ in range(2 * count + 10)})
        return b"".join(names[:count]), [4 * i for i in range(count)]
    return bytes(draw.choices(b"abcdefghijklmnopqrstuvwxyz", k=count + length)), list(range(count))


STYLES = ("last", "middle", "late", "moved", "parts", "front", "first", "same", "anagram", "wide", "short", "head")


class Text:
    def __init__(self, bit):
        self.bit, self.data, self.at = bit, bytearray(b" "), {}

    def word(self, name):
        """A name that stands where it stood before, if it did."""
        data = name.encode()
        if data not in self.at:
            self.at[data] = len(self.data)
            self.data += data + b" "
        return self.place(self.at[data], len(data))

    def place(self, start, length):
        return Name(12 << 28 | self.bit << 24 | start << 8 | length)

    def names(self, style, count, length=255):
        """The same style, count and length give the same bytes in every text."""
        data, places = block(style, count, length)
        length = {"short": 4, "head": 15, "wide": length // 3 * 3}.get(style, length)
        start = len(self.data)
        self.data += data
        return [self.place(start + p, length) for p in places]


class Image:
    def __init__(self):
        self.text, self.nodes, self.types, self.roots, self.slots, self.shared = Text(0), [], [], [], 0, {}

    def node(self, kind, *words, arguments=0):
        self.nodes.append([Head(kind << 28 | len(words) + 2), Slot(self.slots)] + list(words))
        self.slots += 1 + arguments
        return len(self.nodes) - 1

    def root(self, *nodes):
        self.roots += nodes

    def atom(self, kind=3):
        return self.node(0, self.text.word({2: "true", 3: "1", 4: "2.0", 5: "s"}[kind]), Type(kind))

    def ident(self, name):
        return self.node(1, name)

    def bin(self, left, right, op="+"):
        return self.node(2, self.text.word(op), Type(OPERATORS.index(op)), Part(left), Part(right))

    def unary(self, right, op="-"):
        return self.node(3, self.text.word(op), Type(OPERATORS.index(op)), Part(right))

    def let(self, name, right):
        return self.node(4, name, Part(right))

    def fn(self, name, args, ret, body):
        pairs = [w for n, t in args for w in (n, Part(t))]
        return self.node(5, name, Part(ret), Count(len(args)), *pairs, *map(Part, body), arguments=len(args))

    def match(self, cases, default):
        words = [Count(len(cases))]
        for condition, body in cases:
            words += [self.text.word("{"), Part(condition), Count(len(body))] + list(map(Part, body))
        return self.node(6, *words, self.text.word("{"), *map(Part, default))

    def call(self, target, *args):
        return self.node(7, Part(target), *map(Part, args))

    def own_call(self, name, *args):
        return self.call(self.ident(name), *args)

    def package_call(self, package, name, *args):
        return self.call(self.field(self.ident(package), name), *args)

    def field(self, target, name):
        return self.node(8, Part(target), name)

    def cast(self, left, to):
        return self.node(9, self.text.word("as"), Part(left), Part(to))

    def imports(self, *paths):
        return self.node(10, self.text.word("import"), *paths)

    def extern(self, name, functions):
        """functions: (name, [(argument, type)..], return type)"""
        words = []
        for f, args, ret in functions:
            words += [f, Part(ret), Count(len(args))] + [w for n, t in args for w in (n, Part(t))]
        return self.node(11, self.text.word("extern"), name, Count(len(functions)), *words)

    def record(self, pairs):
        return self.node(12, self.text.word("{"), *[w for n, v in pairs for w in (n, Part(v))])

    def array(self, *members):
        return self.node(13, self.text.word("["), *map(Part, members))

    # type expressions

    def type(self, kind, *words):
        self.types.append([Head(kind << 28 | len(words) + 1)] + list(words))
        return len(self.types) - 1

    def plain(self, kind=3):
        """One type expression for each kind, however often it is used."""
        if kind not in self.shared:
            self.shared[kind] = self.type(0, self.text.word(TYPE_NAMES[kind]), Type(kind))
        return self.shared[kind]

    def foreign(self, name):
        return self.type(1, name)

    def option(self, inner):
        return self.type(2, Part(inner))

    def array_type(self, inner):
        return self.type(3, Part(inner))

    def record_type(self, pairs):
        return self.type(4, self.text.word("Record"), *[w for n, t in pairs for w in (n, Part(t))])

    def words(self):
        head = [Count(len(self.nodes)), Count(len(self.types)), Count(len(self.roots)), Count(self.slots)]
        return head + [Part(r) for r in self.roots] + [w for r in self.nodes + self.types for w in r]

    def fits(self):
        return (len(self.words()) <= MOST_WORDS and len(self.text.data) <= MOST_BYTES and len(self.nodes) <= MOST_NODES
                and len(self.types) <= MOST_TYPES and len(self.roots) <= MOST_ROOTS and self.slots <= MOST_SLOTS)


class Library:
    def __init__(self):
        self.text, self.pool, self.packages = Text(1), [], []

    def wrap(self, kind, inner):
        self.pool.append(Type(inner))
        return Type(kind << 28 | len(self.pool) - 1)

    def record(self, pairs):
        at = len(self.pool)
        self.pool.append(Count(len(pairs)))
        self.pool += [w for n, t in pairs for w in (n, Type(t))]
        return Type(RECORD << 28 | at)

    def slot(self, name):
        return Type(SLOT << 28 | name & 0xFFFFFFF)

    def foreign(self, name):
        return Type(FOREIGN << 28 | name & 0xFFFFFFF)

    def package(self, name, functions=()):
        """functions: (group, [(argument, type)..], return type, flag)"""
        words = [name, Count(len(functions))]
        for group, args, ret, flag in functions:
            words += [group, Count(flag), Count(len(args))] + [w for n, t in args for w in (n, Type(t))] + [Type(ret)]
        self.packages.append(words)

    def words(self):
        return [Count(len(self.pool)), Count(len(self.packages))] + self.pool + [w for p in self.packages for w in p]

    def fits(self):
        return len(self.words()) <= MOST_WORDS and len(self.text.data) <= MOST_BYTES


def parts(image, library=None):
    library = library or Library()
    if not image.fits() or not library.fits():
        raise ValueError("past a limit: image of %d words, %d nodes, %d types, %d roots, %d slots, %d bytes; library of %d words, %d bytes" % (
            len(image.words()), len(image.nodes), len(image.types), len(image.roots), image.slots, len(image.text.data), len(library.words()),
            len(library.text.data)))
    return Parts(bytes(image.text.data), image.words(), bytes(library.text.data), library.words())


def case(image, library=None):
    return join_case(parts(image, library))
