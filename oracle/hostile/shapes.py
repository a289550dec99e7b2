"""The deepest and widest shapes, for the stack: bindings/stack/ measures them.

    shapes()    (name, case) of each

A shape is nodes of one kind (or several in turn) in each other, 64 deep in all, over a bottom that needs stack of its own; or one node, library or type
that is as wide as can be; or a large library or image that is refused.
"""
import random

from image import INT, STR, Image, Library, case, join_case, parts

DEEPEST, TALL = 64, 30


class Shape:
    """An image and a library under the names that every shape uses."""

    def __init__(self):
        self.i, self.l, self.nested = Image(), Library(), 0
        i, l = self.i, self.l
        w = l.text.word
        t, x = l.slot(w("T")), w("x")
        tall, open_tall, other, fields, open_fields = INT, t, STR, INT, t
        for n in range(TALL - 1):
            tall, open_tall, other = (l.wrap(6 + n % 2, inner) for inner in (tall, open_tall, other))
            fields, open_fields = l.record([(x, fields)]), l.record([(x, open_fields)])
        wrapped, tall_pairs = t, INT
        for n in range(TALL - 1):
            wrapped, tall_pairs = l.wrap(7, wrapped), l.record([(x, tall_pairs), (w("y"), INT)])
        inner = l.record([(x, INT)])
        wide = l.record([(x, inner)] * 60)
        self.functions = [
            (w("flat"), [], wide, 0), (w("tall_pairs"), [], tall_pairs, 0), (w("wrap"), [(x, t)], wrapped, 1), (w("wide_too"), [(x, wide)], INT, 0),
            (w("tall"), [], tall, 0), (w("fields"), [], fields, 0), (w("int"), [(x, INT)], INT, 0), (w("take"), [(x, tall)], INT, 0),
            (w("slotted"), [(x, open_tall)], open_tall, 1), (w("records"), [(x, open_fields)], open_fields, 1), (w("two"), [(x, t), (w("y"), t)], t, 1),
            (w("g"), [(x, other)], INT, 0), (w("g"), [(x, fields)], INT, 0), (w("g"), [(x, tall)], INT, 0)]
        i.root(i.imports(i.text.word("p")))
        i.root(i.fn(i.text.word("f"), [(i.text.word("x"), i.plain())], i.plain(), [i.atom()]))
        for name in ("tall", "fields", "flat", "tall_pairs"):
            i.root(i.let(i.text.word(name), self.of(name)))

    def of(self, name, *args):
        return self.i.package_call(self.i.text.word("p"), self.i.text.word(name), *args)

    def value(self, name):
        return self.i.ident(self.i.text.word(name))

    def name(self):
        self.nested += 1
        return self.i.text.word("n%d" % self.nested)

    def case(self):
        self.l.package(self.l.text.word("p"), self.functions)
        return case(self.i, self.l)


# One level more: (shape, node) -> node

LEVELS = {
    "match": lambda s, n: s.i.match([(s.i.atom(2), [s.i.atom()])], [n]),
    "case": lambda s, n: s.i.match([(s.i.atom(2), [n])], [s.i.atom()]),
    "condition": lambda s, n: s.i.match([(n, [s.i.atom()])], [s.i.atom()]),
    "array": lambda s, n: s.i.array(n),
    "second member": lambda s, n: s.i.array(s.i.atom(), n),
    "record": lambda s, n: s.i.record([(s.i.text.word("x"), n)]),
    "second value": lambda s, n: s.i.record([(s.i.text.word("x"), s.i.atom()), (s.i.text.word("y"), n)]),
    "call": lambda s, n: s.i.own_call(s.i.text.word("f"), n),
    "package call": lambda s, n: s.of("int", n),
    "slotted call": lambda s, n: s.of("two", n, s.i.atom()),
    "group call": lambda s, n: s.of("g", n),
    "fn": lambda s, n: s.i.fn(s.name(), [(s.i.text.word("x"), s.i.plain())], s.i.plain(), [n]),
    "cast": lambda s, n: s.i.cast(n, s.i.plain(4)),
    "left": lambda s, n: s.i.bin(n, s.i.atom()),
    "right": lambda s, n: s.i.bin(s.i.atom(), n),
    "unary": lambda s, n: s.i.unary(n),
    "let": lambda s, n: s.i.let(s.name(), n),
    "field": lambda s, n: s.i.field(n, s.i.text.word("x")),
}


# The bottom: shape -> (node, its depth)

def tall_expression(s, width=1):
    t = s.i.plain()
    for n in range(TALL - 1):
        t = s.i.record_type([(s.i.text.word("x"), t)] * width) if n % 3 == 2 else s.i.option(t)
    return t


def tall_span(s):
    """An argument whose span covers a type expression of 480 levels. It is never made: the Fn is of a name already met, and not visited."""
    t = s.i.plain()
    for _ in range(480):
        t = s.i.option(t)
    return s.i.own_call(s.i.text.word("f"), s.i.fn(s.i.text.word("f"), [], s.i.plain(), [s.i.cast(s.i.atom(), t)])), 4


def call(name, *values):
    return lambda s: (s.of(name, *[s.value(v) for v in values]), 3)


BOTTOMS = {
    "atom": lambda s: (s.i.atom(), 1),
    "ident": lambda s: (s.i.ident(s.i.text.word("missing")), 1),
    "import": lambda s: (s.i.imports(s.i.text.word("none")), 1),
    "extern": lambda s: (s.i.extern(s.name(), [(s.i.text.word("x"), [(s.i.text.word("x"), tall_expression(s))], s.i.plain())]), 1),
    "fn": lambda s: (s.i.fn(s.name(), [(s.i.text.word("x"), tall_expression(s))], s.i.plain(), [s.i.ident(s.i.text.word("x"))]), 2),
    "cast": lambda s: (s.i.cast(s.i.atom(), tall_expression(s)), 2),
    "cast of a tall type": lambda s: (s.i.cast(s.value("fields"), s.i.plain()), 2),
    "members of tall types": lambda s: (s.i.array(s.value("tall"), s.value("fields")), 2),
    "equal members": lambda s: (s.i.array(s.value("fields"), s.of("fields")), 4),
    "record of tall types": lambda s: (s.i.record([(s.i.text.word("x"), s.value("fields"))]), 2),
    "operands of tall types": lambda s: (s.i.bin(s.value("fields"), s.value("tall")), 2),
    "branches of tall types": lambda s: (s.i.match([(s.i.atom(2), [s.value("tall")])], [s.value("fields")]), 2),
    "own call": lambda s: (s.i.own_call(s.i.text.word("f"), s.value("fields")), 2),
    "package call": call("take", "tall"),
    "wrong argument": call("take", "fields"),
    "group, last": call("g", "tall"),
    "group, none": lambda s: (s.of("g", s.i.atom()), 3),
    "slotted": call("slotted", "tall"),
    "slotted, records": call("records", "fields"),
    "slotted, wrong": call("slotted", "fields"),
    "slot conflict": call("two", "fields", "tall"),
    "wrapped, wide": call("wrap", "flat"),
    "wrapped, wide, made there": lambda s: (s.of("wrap", s.of("flat")), 4),
    "wrapped, too deep": call("wrap", "tall_pairs"),
    "wrapped, too deep, made there": lambda s: (s.of("wrap", s.of("tall_pairs")), 4),
    "wide argument": call("wide_too", "flat"),
    "array of a tall type": lambda s: (s.i.array(s.value("tall_pairs")), 2),
    "slotted, made there": lambda s: (s.of("records", s.of("fields")), 4),
    "tall field": lambda s: (s.i.field(s.value("fields"), s.i.text.word("none")), 2),
    "tall span": tall_span,
    "undefined": lambda s: (s.of("none", s.i.atom()), 3),
}


def nested(kinds, bottom, deepest=DEEPEST):
    s = Shape()
    node, depth = BOTTOMS[bottom](s)
    for k in range(deepest - depth):
        node = LEVELS[kinds[k % len(kinds)]](s, node)
    s.i.root(node)
    return s.case()


# Width

def wide_node(make):
    def of(s):
        s.i.root(make(s))
    return of


def atoms(s, n):
    return [s.i.atom() for _ in range(n)]


def names(s, n):
    return s.i.text.names("first", n, 20)


def wide_fn(s):
    s.i.root(s.i.fn(s.name(), [(n, s.i.plain()) for n in names(s, 3500)], s.i.plain(), [s.i.atom()]))


def wide_call(s):
    x = names(s, 1000)
    s.i.root(s.i.fn(s.i.text.word("h"), [(n, s.i.plain()) for n in x], s.i.plain(), [s.i.atom()]), s.i.own_call(s.i.text.word("h"), *atoms(s, 1000)))


def wide_package_call(s):
    x = s.l.text.names("first", 1500, 20)
    s.functions.append((s.l.text.word("wide"), [(n, INT) for n in x], INT, 0))
    s.i.root(s.of("wide", *atoms(s, 1500)))


def wide_slotted(count, through_record):
    """A slotted function of many slots, each returned."""
    def of(s):
        x = s.l.text.names("first", count, 20)
        taken = [(n, s.l.slot(n)) for n in x]
        returned = s.l.record(taken)
        if through_record:
            s.functions.append((s.l.text.word("make"), [], s.l.record([(n, INT) for n in x]), 0))
        s.functions.append((s.l.text.word("wide"), [(x[0], returned)] if through_record else taken, returned, 1))
        s.i.root(s.of("wide", *([s.of("make")] if through_record else atoms(s, count))))
    return of


def wide_plain_slotted(s):
    """A slotted function of a wide type that has no slot: fields are gone through all the same."""
    wide = s.l.record([(n, INT) for n in s.l.text.names("first", 3600, 12)])
    s.functions += [(s.l.text.word("make"), [], wide, 0), (s.l.text.word("wide"), [(s.l.text.word("x"), wide)], INT, 1)]
    s.i.root(s.of("wide", s.of("make")))


def wide_return(s):
    """A wide return type with one slot, which does not fit into the types buffer a second time: refusal 7."""
    x, t = s.l.text.names("first", 3500, 12), s.l.slot(s.l.text.word("T"))
    s.functions.append((s.l.text.word("wide"), [(s.l.text.word("x"), t)], s.l.record([(n, INT) for n in x[:-1]] + [(x[-1], t)]), 1))
    s.i.root(s.of("wide", s.i.atom()))


def wide_group(s):
    x = s.l.text.names("first", 1500, 20)
    s.functions += [(s.l.text.word("wide"), [(n, INT) for n in x[:-1]] + [(x[-1], t)], INT, 0) for t in (STR, INT)]
    s.i.root(s.of("wide", *atoms(s, 1500)))


def wide_types(s, used=lambda s, t: s.i.root(s.i.cast(s.i.atom(), t)), fields=3800):
    used(s, s.i.record_type([(n, s.i.plain()) for n in names(s, fields)]))


def chain(length, kind):
    """Type expressions, each inside the next: past 32 levels refusal 8 comes, after the innermost was made first."""
    def of(s):
        t = s.i.plain()
        for _ in range(length):
            t = s.i.option(t) if kind == "option" else s.i.record_type([(s.i.text.word("x"), t)] * (1 if kind == "record" else 7))
        s.i.root(s.i.cast(s.i.atom(), t))
    return of


def wide_field(s):
    x = s.l.text.names("first", 3600, 12)
    s.functions.append((s.l.text.word("make"), [], s.l.record([(n, INT) for n in x]), 0))
    s.i.root(s.i.field(s.of("make"), s.i.text.names("first", 3600, 12)[-1]), s.i.array(s.of("make"), s.of("make")), s.i.cast(s.of("make"), s.i.plain()))


def wide_extern(s):
    s.i.root(s.i.extern(s.name(), [(n, [], s.i.plain()) for n in names(s, 2600)]))


def wide_extern_function(s):
    s.i.root(s.i.extern(s.name(), [(s.name(), [(n, s.i.plain()) for n in names(s, 3900)], s.i.plain())]))


WIDE = {
    "record": wide_node(lambda s: s.i.record([(n, s.value("tall")) for n in names(s, 1580)])),
    "record, poisoned": wide_node(lambda s: s.i.record([(n, s.i.ident(n)) for n in names(s, 250)])),
    "array": wide_node(lambda s: s.i.array(*atoms(s, 1600))),
    "match": wide_node(lambda s: s.i.match([(s.i.atom(2), [s.i.atom()]) for _ in range(650)], [s.i.atom()])),
    "body": wide_node(lambda s: s.i.match([], atoms(s, 1600))),
    "fn": wide_fn,
    "call": wide_call,
    "package call": wide_package_call,
    "slotted call": wide_slotted(1500, False),
    "slotted call, record": wide_slotted(1150, True),
    "slotted call, no slot": wide_plain_slotted,
    "slotted call, return type": wide_return,
    "group": wide_group,
    "import": wide_node(lambda s: s.i.imports(*[s.i.text.word("p")] * 7900)),
    "extern": wide_extern,
    "extern function": wide_extern_function,
    "type expression": wide_types,
    "type expression of an argument": lambda s: wide_types(s, lambda s, t: s.i.root(s.i.fn(s.name(), [(s.i.text.word("x"), t)], s.i.plain(), [s.i.atom()]))),
    "type expression of an extern": lambda s: wide_types(s, lambda s, t: s.i.root(s.i.extern(s.name(), [(s.i.text.word("x"), [], t)]))),
    "options in a type expression": chain(500, "option"),
    "records in a type expression": chain(500, "record"),
    "wide records in a type expression": chain(450, "wide"),
    "pool record": wide_field,
}


def wide(name):
    s = Shape()
    WIDE[name](s)
    return s.case()


def deep_and_wide(kind, name):
    """What is wide below nodes 60 deep."""
    s = Shape()
    before = len(s.i.roots)
    WIDE[name](s)
    node = s.i.roots.pop()
    del s.i.roots[before + 1:]
    for _ in range(DEEPEST - 4):
        node = LEVELS[kind](s, node)
    s.i.root(node)
    return s.case()


# Refused inputs

def refused():
    """(name, case): a large library or image with a fault near its end."""
    l = Library()
    x = l.text.names("first", 1000, 20)
    a, r = l.record([(n, l.slot(n)) for n in x]), l.record([(n, l.slot(n)) for n in reversed(x)])
    l.package(x[0], [(n, [(x[0], a)], r, 1) for n in x[:600]])
    p = parts(Image(), l)
    for name, at, word in (("return type", len(p.library) - 1, 0x80000000 | 8000), ("flag", 2 + 4002 + 2 + 1, 2), ("pool word", 4000, 11 << 28), ("none", 0, p.library[0])):
        words = list(p.library)
        words[at] = word
        yield "library, " + name, join_case(p._replace(library=words))
    s = Shape()
    wide_node(lambda s: s.i.array(*atoms(s, 1600)))(s)
    s.l.package(s.l.text.word("p"), s.functions)
    p = parts(s.i, s.l)
    for name, at, word in (("last word", len(p.image) - 1, 0xFFFFFFFF), ("claimed twice", 4, p.image[5]), ("slot", 4 + 3 + 1, 9999)):
        words = list(p.image)
        words[at] = word
        yield "image, " + name, join_case(p._replace(image=words))
    s = Shape()
    node = s.i.atom()
    for _ in range(DEEPEST):
        node = s.i.unary(node)
    s.i.root(node)
    yield "depth 65", s.case()


def mixed(count, seed=1):
    for k in range(count):
        rng = random.Random("shapes %d %d" % (seed, k))
        kinds, bottom = [rng.choice(sorted(LEVELS)) for _ in range(DEEPEST)], rng.choice(sorted(BOTTOMS))
        try:
            yield "mixed %d over %s" % (k, bottom), nested(kinds, bottom)
        except ValueError:
            pass


def less_deep():
    """Depth, name and case of shapes that are not as deep as can be."""
    for deepest in (8, 16, 24, 32, 48):
        for kind in LEVELS:
            for bottom in BOTTOMS:
                yield deepest, "%d deep, %s over %s" % (deepest, kind, bottom), nested([kind], bottom, deepest)


def shapes(mixes=60):
    yield "empty", case(Image())
    for kind in LEVELS:
        for bottom in BOTTOMS:
            yield "%s over %s" % (kind, bottom), nested([kind], bottom)
    yield from mixed(mixes)
    for name in WIDE:
        yield "wide %s" % name, wide(name)
    for kind in ("match", "case", "fn", "call", "left"):
        for name in ("slotted call, record", "slotted call, no slot", "slotted call, return type", "type expression", "options in a type expression", "pool record"):
            try:
                yield "%s over wide %s" % (kind, name), deep_and_wide(kind, name)
            except ValueError:
                pass
    yield from refused()
