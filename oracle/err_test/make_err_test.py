#!/usr/bin/env python3
"""Makes the input and the expected output of the test program `err_test`, from hand-made scripts.

Each case is a script whose check raises one diagnostic (or several, of which the last is meant). The
script is run through the Rust (`../build/oracle --full`), and its `diag` and `primary` lines are the
expected output. The program gets the same names, types and spans as the parameters of the one
function that writes that diagnostic. All cases share one script text, one library text and one
library.

    python3 make_err_test.py ../../crates/err_test
"""
import os
import struct
import subprocess
import sys

HERE = os.path.dirname(os.path.abspath(__file__))
ORACLE = os.path.join(HERE, "..", "build", "oracle")
ATOM, IDENT, BIN, UNARY, LET, FN, MATCH, CALL, FIELD, CAST, IMPORT, EXTERN, RECORD, ARRAY = range(14)
VOID, BOOL, INT, DOUBLE, STR, UNKNOWN = (k << 28 for k in (1, 2, 3, 4, 5, 11))
OPERATORS = ["+", "-", "*", "/", "%", "==", "!=", "<", ">"]
LONG = ("a name of 255 bytes, é and so on; " * 9).encode()[:255]
WIDE = "é漢字𝄞".encode()


class Text:
    """A text that grows, and the words of names in it."""

    def __init__(self, bit):
        self.bytes, self.bit, self.known = b"\n", bit, {}

    def name(self, s):
        s = s if isinstance(s, bytes) else s.encode()
        if s not in self.known:
            self.known[s] = 12 << 28 | self.bit << 24 | len(self.bytes) << 8 | len(s)
            self.bytes += s + b"\n"
        return self.known[s]


script, library = Text(0), Text(1)


class Types:
    """Words of a types buffer."""

    def __init__(self, words=()):
        self.words = list(words)

    def wrap(self, kind, inner):
        self.words.append(inner)
        return kind << 28 | len(self.words) - 1

    def option(self, inner):
        return self.wrap(6, inner)

    def array(self, inner):
        return self.wrap(7, inner)

    def record(self, *fields):
        at = len(self.words)
        self.words.append(len(fields))
        for name, ty in fields:
            self.words += [name, ty]
        return 8 << 28 | at


def named(kind, word):
    return kind << 28 | word & 0xFFFFFFF


pool = Types()
FD = named(9, library.name("Fd"))
T = named(10, library.name("T"))
ALL = pool.record(
    (library.name("a"), VOID), (library.name(""), BOOL), (library.name(LONG), INT), (library.name(WIDE), DOUBLE),
    (library.name("s"), STR), (library.name("o"), pool.option(INT)), (library.name("r"), pool.array(STR)), (library.name("f"), FD),
)
DEEP = ALL
for i in range(29):  # depth 3 and 29 more: 32
    DEEP = pool.option(DEEP) if i % 2 else pool.array(DEEP)
VALUES = [VOID, BOOL, INT, DOUBLE, STR, pool.option(INT), pool.array(pool.option(STR)), pool.record(), ALL, FD, DEEP,
          pool.record((library.name("x"), pool.record((library.name("y"), INT))))]
ARRAY_OF_T = pool.array(T)

# name, flag, arguments, return type
FUNCTIONS = [("g%d" % i, 0, [], w) for i, w in enumerate(VALUES)]
FUNCTIONS += [
    ("many", 0, [("a", INT)], INT), ("many", 0, [], INT), ("many", 0, [("a", STR), ("b", DEEP)], INT),
    ("some", 0, [("a", INT)], INT), ("some", 0, [("a", STR), ("b", BOOL)], STR),
    ("hundred", 0, [("a%d" % i, INT) for i in range(100)], INT),
    ("takes", 0, [(WIDE, ALL)], INT), ("two", 1, [("a", T), (LONG, T)], INT), ("arr", 1, [("", ARRAY_OF_T)], INT),
]
library_words, starts = [], {}
head = [len(pool.words), 1] + pool.words + [library.name("lib"), len(FUNCTIONS)]
for group, flag, args, ret in FUNCTIONS:
    library_words += [library.name(group), flag]
    starts.setdefault(group, []).append(len(library_words))
    library_words += [len(args)]
    for n, t in args:
        library_words += [library.name(n), t]
    library_words += [ret]
LIBRARY = head + library_words


class Image:
    """A script: nodes, type expressions and roots. Each node has a slot of its own."""

    def __init__(self):
        self.nodes, self.types, self.roots, self.slots = [], [], [], 0

    def node(self, kind, *words, more=0):
        self.nodes.append([kind << 28 | len(words) + 2, self.slots, *words])
        self.slots += 1 + more
        return len(self.nodes) - 1

    def type(self, kind, *words):
        self.types.append([kind << 28 | len(words) + 1, *words])
        return len(self.types) - 1

    def root(self, n):
        self.roots.append(n)

    def uses(self):
        self.root(self.node(IMPORT, script.name("import"), script.name("lib")))

    def ident(self, s):
        return self.node(IDENT, script.name(s))

    def of(self, pkg, name, *args):
        return self.node(CALL, self.node(FIELD, self.ident(pkg), script.name(name)), *args)

    def value(self, word):
        return self.of("lib", "g%d" % VALUES.index(word))

    def atom_type(self, kind, s):
        return self.type(0, script.name(s), kind)

    def fn(self, name, args, ret, *body):
        words = [w for n, t in args for w in (script.name(n), t)]
        return self.node(FN, script.name(name), ret, len(args), *words, *body, more=len(args))

    def words(self):
        out = [len(self.nodes), len(self.types), len(self.roots), self.slots, *self.roots]
        for r in self.nodes + self.types:
            out += r
        return out


CASES, lists = [], []  # (image, code, parameters); word lists that parameters refer to


def case(code, image, *params):
    CASES.append((image, code, params))


def new():
    i = Image()
    i.uses()
    return i


# types that only scripts have, after the pool
extra = Types(pool.words)
FD_HERE = named(9, script.name("Handle"))
OPTION_FD_HERE = extra.option(FD_HERE)
RECORD_UNKNOWN = extra.record((script.name("a"), UNKNOWN))

i = Image()
i.root(i.node(ARRAY, script.name("[")))
case(1, i, script.name("["))

for first, ty in [(INT, STR), (ALL, DEEP)]:
    i = new()
    i.root(i.node(ARRAY, script.name("["), i.value(first), i.value(ty)))
    case(2, i, "span", first, ty)

for n in [b"", LONG, WIDE]:
    i = Image()
    i.root(i.ident(n))
    case(3, i, script.name(n))

SAME = [DEEP, ALL, VOID, STR, DOUBLE, DOUBLE, FD, BOOL, VALUES[6]]
for op, s in enumerate(OPERATORS):
    i = new()
    i.root(i.node(BIN, script.name(s), op, i.value(SAME[op]), i.value(SAME[op])))
    case(4, i, script.name(s), op, SAME[op])
i = Image()
empty = [i.node(RECORD, script.name("{"), script.name("a"), i.node(ARRAY, script.name("["))) for _ in "12"]
i.root(i.node(BIN, script.name("=="), 5, *empty))
case(4, i, script.name("=="), 5, RECORD_UNKNOWN)

OTHER = [INT, DEEP, VALUES[7], VALUES[11], INT, STR, INT, DOUBLE, FD]
for op, s in enumerate(OPERATORS):
    i = new()
    i.root(i.node(BIN, script.name(s), op, i.value(SAME[op]), i.value(OTHER[op])))
    case(5, i, script.name(s), op, SAME[op], OTHER[op])

for op, ty in [(0, BOOL), (1, DEEP), (4, INT), (6, VOID)]:
    i = new()
    i.root(i.node(UNARY, script.name(OPERATORS[op]), op, i.value(ty)))
    case(6, i, script.name(OPERATORS[op]), op, ty)

i = new()
i.root(i.node(LET, script.name("x"), i.value(VOID)))
case(7, i, script.name("x"))

for n in ["f", b"", LONG, WIDE]:
    i = Image()
    for _ in "12":
        i.root(i.fn(n, [], i.atom_type(1, "Void")))
    case(8, i, script.name(n))

for n, ret, ty in [("f", INT, STR), (WIDE, OPTION_FD_HERE, DEEP)]:
    i = new()
    if ret == INT:
        t, token = i.atom_type(3, "Int"), script.name("Int")
    else:
        t, token = i.type(2, i.type(1, script.name("Handle"))), script.name("Handle")
    i.root(i.fn(n, [], t, i.value(ty)))
    case(9, i, token, script.name(n), ret, ty)

i = new()
i.root(i.node(CAST, script.name("as"), i.value(INT), i.atom_type(3, "Int")))
case(10, i, script.name("as"), INT)
i = Image()
h = i.type(2, i.type(1, script.name("Handle")))
i.root(i.fn("h", [(WIDE, h)], h, i.node(CAST, script.name("as"), i.ident(WIDE), h)))
case(10, i, script.name("as"), OPTION_FD_HERE)

for ty in [BOOL, DEEP]:
    i = new()
    i.root(i.node(CAST, script.name("as"), i.value(ty), i.atom_type(4, "Double")))
    case(11, i, script.name("as"), ty, DOUBLE)

for ty in [INT, DEEP]:
    i = new()
    i.root(i.node(FIELD, i.value(ty), script.name(WIDE)))
    case(12, i, script.name(WIDE), ty)

for ty, n in [(ALL, "b"), (VALUES[7], b""), (VALUES[11], LONG)]:
    i = new()
    i.root(i.node(FIELD, i.value(ty), script.name(n)))
    case(13, i, script.name(n), ty)

i = new()
i.root(i.node(CALL, i.node(FIELD, i.value(INT), script.name("f"))))
case(14, i, script.name("f"))

for n in ["io", b"", LONG, WIDE]:
    i = Image()
    i.root(i.of(n, "f"))
    case(15, i, script.name(n))

for n in ["none", b"", LONG, WIDE]:
    i = new()
    i.root(i.of("lib", n))
    case(16, i, script.name("lib"), script.name(n))

for n in ["f", b"", LONG, WIDE]:
    i = Image()
    i.root(i.node(CALL, i.ident(n)))
    case(17, i, script.name(n))

for group, given in [("many", [DEEP]), ("many", [INT, INT]), ("some", []), ("some", [ALL, VOID, FD])]:
    i = new()
    i.root(i.of("lib", group, *[i.value(t) for t in given]))
    at = len(lists)
    lists += given + starts[group]
    case(18, i, script.name(group), script.name("lib"), script.name(group), at, len(given), at + len(given), len(starts[group]))

# the last two parameters of a call: its package, or 0, and its name
i = Image()
i.root(i.fn("f", [("a", i.atom_type(3, "Int"))], i.atom_type(3, "Int")))
i.root(i.node(CALL, i.ident("f")))
case(19, i, script.name("f"), 1, 0, 0, script.name("f"))
for name, count, given in [("hundred", 100, 0), ("takes", 1, 12)]:
    i = new()
    i.root(i.of("lib", name, *[i.value(INT) for _ in range(given)]))
    case(19, i, script.name(name), count, given, script.name("lib"), script.name(name))

i = new()
i.root(i.fn(LONG, [(WIDE, i.atom_type(3, "Int"))], i.atom_type(1, "Void")))
i.root(i.node(CALL, i.ident(LONG), i.value(DEEP)))
case(20, i, "span", script.name(WIDE), INT, DEEP, 0, script.name(LONG))
i = new()
i.root(i.of("lib", "takes", i.value(VALUES[7])))
case(20, i, "span", library.name(WIDE), ALL, VALUES[7], script.name("lib"), script.name("takes"))
i = new()
i.root(i.of("lib", "arr", i.value(INT)))
case(20, i, "span", library.name(b""), ARRAY_OF_T, INT, script.name("lib"), script.name("arr"))

for one, two in [(INT, STR), (DEEP, ALL)]:
    i = new()
    i.root(i.of("lib", "two", i.value(one), i.value(two)))
    case(21, i, "span", library.name("T"), one, two, script.name("lib"), script.name("two"))

i = new()
i.root(i.of("lib", "two", i.value(VOID), i.value(VOID)))
case(22, i, "span", library.name("T"), script.name("lib"), script.name("two"))

for ty in [INT, DEEP]:
    i = new()
    i.root(i.node(MATCH, 1, script.name("{"), i.value(ty), 0, script.name("match")))
    case(23, i, script.name("{"), ty)

for ty, default in [(INT, STR), (DEEP, ALL)]:
    i = new()
    i.root(i.node(MATCH, 1, script.name("{"), i.value(BOOL), 1, i.value(ty), script.name("match"), i.value(default)))
    case(24, i, script.name("{"), default, ty)

i = Image()
i.root(i.node(IMPORT, script.name("import")))
case(25, i, script.name("import"))

for n in ["net", b"", LONG, WIDE]:
    i = Image()
    i.root(i.node(IMPORT, script.name("import"), script.name(n)))
    case(26, i, script.name(n))


def words(ws):
    return struct.pack("<%dI" % len(ws), *ws)


def answer(image):
    """The last diagnostic's lines, by the Rust."""
    parts = [script.bytes, words(image.words()), library.bytes, words(LIBRARY)]
    sizes = [len(parts[0]), len(image.words()), len(parts[2]), len(LIBRARY)]
    rows = subprocess.run([ORACLE, "--full"], input=words(sizes) + b"".join(parts), stdout=subprocess.PIPE, check=True).stdout
    lines = rows.split(b"\n")
    at = [k for k, line in enumerate(lines) if line.startswith(b"diag ")]
    if not at:
        raise SystemExit("no diagnostic: " + rows.decode(errors="replace")[:300])
    last = lines[at[-1]:at[-1] + 2]
    return last if last[1].startswith(b"primary ") else last[:1]


def main(folder):
    out, rows = [], b""
    seen = set()
    for image, code, params in CASES:
        lines = answer(image)
        _, got, start, length, _ = lines[0].split(b" ", 4)
        if int(got) != code:
            raise SystemExit("code %d expected: %r" % (code, lines))
        seen.add(code)
        ws = [code]
        for p in params:
            ws += [int(start), int(length)] if p == "span" else [p]
        out += ws + [0] * (8 - len(ws))
        rows += b"\n".join(lines) + b"\n"
    if seen != set(range(1, 27)):
        raise SystemExit("not every code")
    # refusal 9: the first case again, where the record and the texts just fit, and one less; these lines are document 01's, not the Rust's
    first = rows.split(b"\n")
    size = len(first[0].split(b" ", 4)[4]) + len(first[1][len("primary "):])
    for what, most in [("words", 6), ("bytes", size), ("diagnostics", 256), ("limit", 65536)]:
        rows += b"%s %d told\n%s %d refused\n" % (what.encode(), most, what.encode(), most - 1 if what in ("words", "bytes") else most + 1)
    parts = [script.bytes, library.bytes, words(extra.words), words(library_words), words(lists), words(out)]
    sizes = [len(parts[0]), len(parts[1]), len(extra.words), len(library_words), len(lists), len(out)]
    with open(os.path.join(folder, "stdin"), "wb") as f:
        f.write(words(sizes) + b"".join(parts))
    with open(os.path.join(folder, "stdout"), "wb") as f:
        f.write(rows)
    print(len(CASES), "cases;", sizes, "first takes", size)


main(sys.argv[1])
