"""Inputs by hand: images and libraries as lists of words, each word with what its place holds, for damage by its rule."""
from collections import namedtuple

from refusals import Lent

Parts = namedtuple("Parts", "script image text library")
# what a word's place holds: `head`, `slot`, `name`, `part`, `type`, `count`, `number`; the first number that its rule refuses, where it has one
Role = namedtuple("Role", "what limit")

BENCH = Lent(4097, 8192, 8192, 1536, 65536, 16384)

# Parts of texts that are not well formed, by RFC 3629: lone bytes, cut characters, overlong forms, surrogates, past U+10FFFF.
SPOILT = [b"\x80", b"\xbf", b"\xc3", b"\xe2\x82", b"\xf0\x9f\x98", b"\xc0\x80", b"\xc1\xbf", b"\xe0\x9f\xbf", b"\xed\xa0\x80", b"\xf0\x8f\xbf\xbf",
          b"\xf4\x90\x80\x80", b"\xf5\x80\x80\x80", b"\xff", b"a\x80", b"\xc3\xa9\xa9", b"\xe2\x82\xac\x82"]
SOUND = [b"", b"\x00", b"\x7f", b"\xc2\x80", b"\xdf\xbf", b"\xe0\xa0\x80", b"\xed\x9f\xbf", b"\xee\x80\x80", b"\xef\xbf\xbf", b"\xf0\x90\x80\x80",
         b"\xf4\x8f\xbf\xbf"]


class Text:
    """A text; names are put at its end, unless it holds them already."""

    def __init__(self, bit):
        self.bytes, self.bit = bytearray(b"'"), bit

    def name(self, data):
        at = bytes(self.bytes).find(data)
        if at < 0:
            at = len(self.bytes)
            self.bytes += data
        return 12 << 28 | self.bit << 24 | at << 8 | len(data)


class Image:
    """Records in order; `slot` is the next free slot. A node's words after its slot are given with their roles."""

    def __init__(self):
        self.text, self.nodes, self.types, self.roots, self.slot = Text(0), [], [], [], 0

    def name(self, data=b"name"):
        return self.text.name(data), Role("name", None)

    def part(self, number):
        return number, Role("part", len(self.nodes))

    def type(self, number):
        return number, Role("type", "T")

    def node(self, kind, *words, arguments=0):
        slot = self.slot, Role("slot", "V")
        self.slot += 1 + arguments
        self.nodes.append([(kind << 28 | len(words) + 2, Role("head", None)), slot] + list(words))
        return len(self.nodes) - 1

    def type_record(self, kind, *words):
        self.types.append([(kind << 28 | len(words) + 1, Role("type head", None))] + list(words))
        return len(self.types) - 1

    # nodes

    def atom(self, kind=3):
        return self.node(0, self.name(b"12"), number(kind, 6))

    def ident(self, data=b"x"):
        return self.node(1, self.name(data))

    def binary(self, left, right, operator=0):
        return self.node(2, self.name(b"+"), number(operator, 9), self.part(left), self.part(right))

    def unary(self, right, operator=1):
        return self.node(3, self.name(b"-"), number(operator, 9), self.part(right))

    def let(self, right):
        return self.node(4, self.name(b"let"), self.part(right))

    def fn(self, returns, arguments, body):
        pairs = [w for a in arguments for w in (self.name(b"arg"), self.type(a))]
        return self.node(5, self.name(b"fn"), self.type(returns), count(len(arguments)), *pairs, *map(self.part, body), arguments=len(arguments))

    def match(self, cases, default):
        words = [count(len(cases))]
        for condition, body in cases:
            words += [self.name(b"{"), self.part(condition), count(len(body))] + list(map(self.part, body))
        return self.node(6, *words, self.name(b"}"), *map(self.part, default))

    def call(self, target, *arguments):
        return self.node(7, self.part(target), *map(self.part, arguments))

    def field(self, target):
        return self.node(8, self.part(target), self.name(b"field"))

    def cast(self, left, type_number):
        return self.node(9, self.name(b"as"), self.part(left), self.type(type_number))

    def imports(self, *paths):
        return self.node(10, self.name(b"import"), *map(self.name, paths))

    def extern(self, *functions):
        words = [self.name(b"extern"), self.name(b"pkg"), count(len(functions))]
        for returns, arguments in functions:
            words += [self.name(b"f"), self.type(returns), count(len(arguments))]
            words += [w for a in arguments for w in (self.name(b"arg"), self.type(a))]
        return self.node(11, *words)

    def record(self, *values):
        return self.node(12, self.name(b"{"), *[w for v in values for w in (self.name(b"field"), self.part(v))])

    def array(self, *members):
        return self.node(13, self.name(b"["), *map(self.part, members))

    # types

    def type_atom(self, kind=3):
        return self.type_record(0, self.name(b"int"), number(kind, 6))

    def type_foreign(self):
        return self.type_record(1, self.name(b"Foreign"))

    def type_wrap(self, kind, inner):
        return self.type_record(kind, (inner, Role("part", len(self.types))))

    def type_fields(self, *fields):
        return self.type_record(4, self.name(b"{"), *[w for t in fields for w in (self.name(b"field"), (t, Role("part", len(self.types))))])

    def chain(self, length, step):
        """A node of this depth."""
        at = self.atom()
        for _ in range(length - 1):
            at = step(at)
        return at

    def words(self, slots=None, roots=None):
        """(words, roles)"""
        roots = self.roots if roots is None else roots
        slots = self.slot if slots is None else slots
        sizes = {"T": len(self.types), "V": slots}
        head = [number(len(self.nodes), 2049), number(len(self.types), 513), number(len(roots), 513), number(slots, 4097)]
        head += [(r, Role("part", len(self.nodes))) for r in roots]
        both = head + [w for record in self.nodes + self.types for w in record]
        return [w for w, _ in both], [Role(r.what, sizes.get(r.limit, r.limit)) for _, r in both]

    def parts(self, library=None, **given):
        text, words = (bytes(library.text.bytes), library.words()[0]) if library else (b"", [0, 0])
        return Parts(bytes(self.text.bytes), self.words(**given)[0], text, words)


def number(n, limit):
    return n, Role("number", limit)


def count(n):
    return n, Role("count", None)


class Library:
    def __init__(self):
        self.text, self.pool, self.packages = Text(1), [], []

    def name(self, data=b"name"):
        return self.text.name(data), Role("name", None)

    def add(self, kind, payload=0, limit=None):
        """A type word of the pool; its index."""
        self.pool.append((kind << 28 | payload, Role("pool type", limit)))
        return len(self.pool) - 1

    def named(self, kind, data):
        return self.add(kind, self.text.name(data) & 0xFFFFFFF)

    def wrap(self, kind, inner):
        return self.add(kind, inner, len(self.pool))

    def fields(self, *types):
        """A field list; its index."""
        at = len(self.pool)
        self.pool.append((len(types), Role("count", None)))
        for t in types:
            self.pool += [self.name(b"field"), (t, Role("pool type", None))]
        return at

    def type(self, word):
        return word, Role("library type", len(self.pool))

    def function(self, group, flag, arguments, returns):
        words = [self.name(group), number(flag, 2), count(len(arguments))]
        for t in arguments:
            words += [self.name(b"arg"), self.type(t)]
        return words + [self.type(returns)]

    def package(self, name, *functions):
        self.packages.append([self.name(name), count(len(functions))] + [w for f in functions for w in f])

    def words(self):
        head = [count(len(self.pool)), count(len(self.packages))]
        both = head + self.pool + [w for p in self.packages for w in p]
        return [w for w, _ in both], [r for _, r in both]


def word(kind, payload=0):
    return kind << 28 | payload


def all_kinds():
    """An image with each of the 14 kinds of nodes and 5 kinds of type records, and every list not empty."""
    i = Image()
    for kind in (3, 1):
        i.type_atom(kind)
    foreign = i.type_foreign()
    option = i.type_wrap(2, 0)
    array = i.type_wrap(3, foreign)
    fields = i.type_fields(option, array)
    both = i.binary(i.atom(2), i.atom(5), 8)
    body = i.let(i.unary(i.atom(4)))
    fn = i.fn(0, [fields, option], [body, i.ident()])
    cases = [(i.ident(), [i.atom()]), (i.atom(2), []), (i.ident(), [i.atom(), i.atom()])]
    choice = i.match(cases, [i.atom(), i.ident()])
    own = i.call(i.ident(), choice)
    of_package = i.call(i.field(i.ident()), own, both)
    cast = i.cast(of_package, array)
    imported = i.imports(b"io", "é€😀".encode())
    declared = i.extern((0, [fields, foreign]), (1, []), (2, [0]))
    whole = i.array(i.record(cast, i.atom()), i.ident())
    i.roots = [fn, imported, declared, whole]
    return i


def all_pool_kinds():
    """A library with each kind of pool word, field lists, slots at some depth, groups of several."""
    l = Library()
    l.text.bytes += b"".join(SPOILT)
    i, s = l.add(3), l.named(10, b"T")
    l.add(1), l.add(2), l.add(4), l.add(5)
    foreign = l.named(9, b"Foreign")
    option, array = l.wrap(6, i), l.wrap(7, s)
    inner = l.fields(word(3), word(6, option), l.text.name(b"U") & 0xFFFFFFF | 10 << 28)
    record = l.wrap(8, inner)
    outer = l.fields(word(8, inner), word(7, foreign))
    l.wrap(8, outer)
    none = l.fields()
    l.package(b"pkg", l.function(b"group", 0, [word(3)], word(1)), l.function(b"map", 1, [word(7, array), word(8, inner)], word(6, s)),
              l.function(b"group", 0, [word(5), word(6, option)], word(8, none)))
    l.package(b"empty")
    l.package(b"pkg", l.function(b"slot", 1, [word(8, outer)], word(7, record)), l.function(b"other", 1, [], word(2)))
    return l
