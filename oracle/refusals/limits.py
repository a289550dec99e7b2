"""Cases at the limits of document 01: each met, and passed by one."""
import random

from build import BENCH, Image, Parts, all_kinds, all_pool_kinds, word

EMPTY = Parts(b"", [0, 0, 0, 0], b"", [0, 0])
NAME = word(12)  # of length 0
LIBRARY_NAME = word(12, 1 << 24)


def idents(n, first_slot=0):
    return [w for i in range(n) for w in (0x10000003, first_slot + i, NAME)]


def image_of(words, script=b""):
    return EMPTY._replace(image=words, script=script)


def library_of(words, text=b""):
    return EMPTY._replace(library=words, text=text)


def counts():
    """N, T, R and V at their limits and one past them."""
    foreign = [0x10000002, NAME]
    for n in (0, 1, 2047, 2048, 2049):
        yield image_of([n, 0, 0, 4096] + idents(n))
    for t in (1, 511, 512, 513):
        yield image_of([0, t, 0, 0] + foreign * t)
    for r in (1, 511, 512, 513):
        yield image_of([600, 0, r, 600] + list(range(r)) + idents(600))
    for r, n in ((3, 2), (3, 3), (1, 0), (512, 1)):
        yield image_of([n, 0, r, n] + list(range(r)) + idents(n))
    for v in (0, 1, 2, 4095, 4096, 4097):
        yield image_of([1, 0, 0, v, 0x10000003, 0, NAME])
        yield image_of([1, 0, 0, v, 0x10000003, max(v, 1) - 1, NAME])
        yield image_of([1, 0, 0, v, 0x10000003, v, NAME])
    all_at_once = [2048, 512, 512, 4096] + list(range(512)) + idents(2048) + foreign * 512
    yield image_of(all_at_once)
    for at in range(4):
        for w in (all_at_once[at] + 1, all_at_once[at] - 1, 0xFFFFFFFF, 0x80000000 | all_at_once[at], 0):
            yield image_of(all_at_once[:at] + [w] + all_at_once[at + 1:])
    for n in (0, 1, 2, 3, 4, 5, 515, 516, 517, 6659, 6660, 6661, 7683):
        yield image_of(all_at_once[:n])


def long_images():
    """Images of 8,192 words: met, passed by one word, and by what a head asks for."""
    for extra in (-2, -1, 0, 1, 2):
        long = 8192 - 4 - 3 + extra
        head = [0xA0000000 | long, 1] + [NAME] * (long - 2)
        yield image_of([2, 0, 0, 2] + idents(1) + head)
        yield image_of([2, 0, 0, 2] + [head[0], 0] + head[2:] + idents(1, 1))
        yield image_of([2, 0, 0, 2] + idents(1) + head[:-1])
        yield image_of([1, 1, 0, 1] + idents(1) + [0x40000000 | long + (long & 1), NAME] + [NAME, 0] * (long // 2))
        yield image_of([1, 2, 0, 1] + idents(1) + [0x10000002, NAME] + [0x40000000 | long - 2, NAME] + [NAME, 0] * (long // 2 - 2))
    whole = [1, 0, 0, 1, 0xA0000000 | 8188, 0] + [NAME] * 8186
    for more in (0, 1, 2, 3, 10):
        yield image_of(whole + [0] * more)
        yield image_of([1, 0, 0, 1] + idents(1) + [0] * (8185 + more))
    yield image_of([2] + whole[1:] + [0])
    yield image_of([2] + whole[1:4] + [0xA0000000 | 8185, 0] + [NAME] * 8183 + idents(1, 0))
    for at in (6, 7, 4000, 8190, 8191):
        yield image_of(whole[:at] + [0] + whole[at + 1:])
        yield image_of(whole[:at] + [0] + whole[at + 1:] + [0])
    for f in (2728, 2729, 2730):  # Extern functions, 3 words each
        yield image_of([1, 1, 0, 1, 0xB0000000 | 5 + 3 * f, 0, NAME, NAME, f] + [NAME, 0, 0] * f + [0x10000002, NAME])
    for a in (2047, 2048, 4089, 4090, 4091):  # Fn arguments, 2 words and a slot each
        yield image_of([1, 1, 0, 4096, 0x50000000 | 5 + 2 * a, 0, NAME, 0, a] + [NAME, 0] * a + [0x10000002, NAME])
    for c in (2727, 2728, 2729, 2730):  # cases of a Match
        yield image_of([2, 0, 0, 2] + idents(1) + [0x60000000 | 4 + 3 * c, 1, c] + [NAME, 0, 0] * c + [NAME])


def fn_slots():
    """An Fn's slots below V, at its own slot and at its argument count."""
    for v in (4, 4096):
        for slot in (0, v - 4, v - 3, v - 2, v - 1, v):
            for a in (0, 1, 2, 3, 4):
                yield image_of([1, 1, 1, v, 0, 0x50000000 | 5 + 2 * a, slot, NAME, 0, a] + [NAME, 0] * a + [0x10000002, NAME])
    for a in (0xFFFFFFFF, 0x80000000, 0x80000001, 0x7FFFFFFF):
        yield image_of([1, 1, 1, 9, 0, 0x50000007, 0, NAME, 0, a, NAME, 0, 0x10000002, NAME])


def long_libraries():
    """Libraries of 8,192 words: pool, packages, functions, arguments."""
    void = word(1)
    for p in (0, 1, 8189, 8190, 8191, 8192, 0x7FFFFFFF, 0x80000000, 0xFFFFFFFF):
        yield library_of([p, 0] + [void] * min(p, 8192))
    for p in (8190,):
        yield library_of([p, 0] + [void] * (p - 1))
        yield library_of([p, 0] + [void] * (p + 1))
        yield library_of([p, 1] + [void] * p + [LIBRARY_NAME, 0])
    for n in (4094, 4095, 4096):
        yield library_of([0, n] + [LIBRARY_NAME, 0] * n)
    for n in (4095, 0x40000000, 0x80000000, 0xFFFFFFFF):
        yield library_of([1, n, void] + [LIBRARY_NAME, 0] * min(n, 4095))
    for f in (2046, 2047, 2048, 0x40000000, 0xFFFFFFFF):
        yield library_of([0, 1, LIBRARY_NAME, f] + [LIBRARY_NAME, 0, 0, void] * min(f, 2048))
    for f in (2046, 2047):
        yield library_of([0, 2, LIBRARY_NAME, f] + [LIBRARY_NAME, 0, 0, void] * f + [LIBRARY_NAME, 0])
        yield library_of([0, 2, LIBRARY_NAME, 0, LIBRARY_NAME, f] + [LIBRARY_NAME, 0, 0, void] * f)
    for a in (4091, 4092, 4093, 0x80000000, 0x7FFFFFFF, 0xFFFFFFFF):
        yield library_of([0, 1, LIBRARY_NAME, 1, LIBRARY_NAME, 0, a] + [LIBRARY_NAME, void] * min(a, 4093) + [void])
    for a in (4090, 4091):
        yield library_of([0, 1, LIBRARY_NAME, 2, LIBRARY_NAME, 0, 0, void, LIBRARY_NAME, 0, a - 2] + [LIBRARY_NAME, void] * (a - 2) + [void])
        yield library_of([0, 2, LIBRARY_NAME, 1, LIBRARY_NAME, 0, a] + [LIBRARY_NAME, void] * a + [void] + [LIBRARY_NAME, 0])
    for n in (4093, 4094, 4095):  # fields of a list that fills the pool
        yield library_of([1 + 2 * n, 0, n] + [LIBRARY_NAME, void] * n)
        yield library_of([2 + 2 * n, 0, n] + [LIBRARY_NAME, void] * n + [word(8, 0)])
        yield library_of([2 * n, 0, n] + [LIBRARY_NAME, void] * n)
    for more in (1, 2, 10):
        yield library_of([8190, 0] + [void] * 8190 + [0] * more)
        yield library_of([0, 0] + [0] * (8189 + more))
    for k in (6, 7):
        yield library_of([8190, 0, void] + [word(k, i) for i in range(8189)])
        yield library_of([8190, 0, void] + [word(k, i) for i in range(8188)] + [word(k, 8189)])


def pool_words():
    """Every kind at each place of a small pool, and referring to each."""
    t = LIBRARY_NAME | 1
    pool = [word(3), word(1), 2, t, word(10, 1 << 24 | 1), t, word(6, 0), 0, word(8, 2), word(7, 4), word(8, 7), word(9, 1 << 24)]
    for at in (0, 2, 4, 7, 8, 11):
        for k in (5, 6, 8, 10, 11):
            for p in (0, 2, 3, 4, 7, 10, 11, 12, 1 << 24 | 1):
                yield library_of([12, 0] + pool[:at] + [word(k, p)] + pool[at + 1:], b"T")
    for k in range(16):
        for p in list(range(0, 14)) + [1 << 24 | 1, 1 << 24 | 2, 1 << 24 | 1 << 8, 1 << 24 | 1 << 8 | 1, 1, 3 << 24 | 1]:
            yield library_of([12, 1] + pool + [t, 1, t, 0, 0, word(k, p)], b"T")
            if k in (6, 7, 8, 10):
                yield library_of([12, 1] + pool + [t, 1, t, 1, 1, t, word(k, p), word(10, 1 << 24 | 1)], b"T")
                yield library_of([12, 1] + pool + [t, 1, t, 1, 1, t, word(8, 2), word(k, p)], b"T")


def groups_of_several():
    """Flags of groups, within a package and across packages."""
    a, b = LIBRARY_NAME | 1, LIBRARY_NAME | 1 << 8 | 1
    same = LIBRARY_NAME | 2 << 8 | 1  # the same bytes at another place
    function = lambda name, flag: [name, flag, 0, word(1)]
    for flags in range(8):
        f, g, h = flags & 1, flags >> 1 & 1, flags >> 2
        for names in ((a, a, a), (a, b, a), (a, same, b), (b, a, same), (a, b, LIBRARY_NAME), (LIBRARY_NAME,) * 3):
            yield library_of([0, 1, a, 3] + sum((function(n, x) for n, x in zip(names, (f, g, h))), []), b"aba")
            yield library_of([0, 2, a, 2] + function(names[0], f) + function(names[1], g) + [a, 1] + function(names[2], h), b"aba")
    for flag in (2, 3, 0x80000000, 0xFFFFFFFF):
        yield library_of([0, 1, a, 1] + function(a, flag), b"aba")
        yield library_of([0, 1, a, 2] + function(a, 1) + function(same, flag), b"aba")


def slot_rules():
    """Slots under flags, in arguments and return types, by bytes."""
    t, u, same = (word(10, 1 << 24 | at << 8 | 1) for at in (0, 1, 2))
    pool = [t, u, same, word(6, 0), 1, LIBRARY_NAME, word(7, 3), word(8, 4), word(3)]
    types = [t, u, same, word(6, 0), word(7, 1), word(6, 2), word(8, 4), word(6, 8), word(3)]
    for flag in (0, 1):
        for x in types:
            for y in types:
                yield library_of([9, 1] + pool + [LIBRARY_NAME, 1, LIBRARY_NAME, flag, 1, LIBRARY_NAME, x, y], b"TUT")
        for x in types[:3] + types[6:]:
            for y in types[:3]:
                yield library_of([9, 1] + pool + [LIBRARY_NAME, 1, LIBRARY_NAME, flag, 2, LIBRARY_NAME, x, LIBRARY_NAME, u, y], b"TUT")


def texts():
    """Texts of 65,536 bytes and one more; names at their ends."""
    for n in (65535, 65536, 65537):
        text = b"a" * n
        for start, long in ((0, 255), (65535, 0), (65535, 1), (65535, 2), (65280, 255), (65281, 255), (65282, 255), (65534, 1)):
            w = word(12, start << 8 | long)
            yield image_of([1, 0, 1, 1, 0, 0x10000003, 0, w], text)
            yield library_of([0, 1, w | 1 << 24, 0], text)
    yield Parts(b"a" * 65537, [0, 0, 0, 0], b"", [1])
    yield Parts(b"a" * 65537, [9], b"a" * 65537, [1])
    yield Parts(b"a" * 65537, [], b"", [0, 0])
    yield Parts(b"", [], b"a" * 65537, [])
    for long in (254, 255):
        for n in (long - 1, long, long + 1):
            yield image_of([1, 0, 1, 1, 0, 0x10000003, 0, word(12, long)], b"b" * n)
    for start in (0, 1, 2, 3, 4):
        for long in (0, 1, 2, 3, 4):
            yield image_of([1, 0, 1, 1, 0, 0x10000003, 0, word(12, start << 8 | long)], b"\xe2\x82\xac")


def depths():
    """Depth 63 to 66 through each part of each kind, reachable or not."""
    steps = [
        lambda i, n: i.unary(n), lambda i, n: i.let(n), lambda i, n: i.field(n), lambda i, n: i.cast(n, 0), lambda i, n: i.binary(n, i.atom()),
        lambda i, n: i.binary(i.atom(), n), lambda i, n: i.fn(0, [], [n]), lambda i, n: i.fn(0, [0], [i.atom(), n]), lambda i, n: i.match([(n, [])], []),
        lambda i, n: i.match([(i.atom(), [n])], []), lambda i, n: i.match([], [i.atom(), n]), lambda i, n: i.match([(i.atom(), []), (n, [])], []),
        lambda i, n: i.call(i.field(n)), lambda i, n: i.call(i.ident(), n), lambda i, n: i.call(i.ident(), i.atom(), n), lambda i, n: i.record(n),
        lambda i, n: i.record(i.atom(), n), lambda i, n: i.array(n), lambda i, n: i.array(i.atom(), i.atom(), n),
    ]
    for reachable in (True, False):
        for length in (63, 64, 65):
            for step in steps:
                i = Image()
                i.type_atom()
                top = step(i, i.chain(length - 1, i.unary))
                yield i.parts(roots=[top] if reachable else [])
    for step in steps[:4]:
        i = Image()
        i.type_atom()
        at = i.atom()
        while len(i.nodes) < 70:
            at = step(i, at)
        i.roots = [at]
        yield i.parts()
    for first, second in ((64, 65), (65, 64), (65, 65), (66, 70), (64, 64)):
        i = Image()
        a, b = i.chain(first, i.unary), i.chain(second, i.let)
        i.roots = [b, a]
        yield i.parts()
        i.roots = [i.binary(a, b)]
        yield i.parts()
    i = Image()
    deep = i.chain(1600, i.unary)
    yield i.parts(roots=[deep])
    source = random.Random(5)
    for _ in range(6):
        i = Image()
        i.type_atom()
        at = i.atom()
        for _ in range(60):
            at = source.choice(steps)(i, at)
        yield from ends(i, at, steps, source)


def ends(i, at, steps, source):
    """Of a node of depth 61: many ways to 62 and more."""
    nodes, slot = list(i.nodes), i.slot
    for k in range(18):
        i.nodes, i.slot, top = list(nodes), slot, at
        for _ in range((1, 2, 3, 4, 4, 5, 7)[k % 7]):
            top = source.choice(steps)(i, top)
        yield i.parts(roots=[top])


def claims():
    """Each pair of claimants of a node, of a slot, of a root."""
    def pair(first, second, late=0):
        i = Image()
        i.type_atom()
        part = i.ident()
        first(i, part)
        for _ in range(late):
            i.atom()
        if second:
            second(i, part)
        return i
    takers = [
        lambda i, n: i.unary(n), lambda i, n: i.let(n), lambda i, n: i.field(n), lambda i, n: i.cast(n, 0), lambda i, n: i.binary(n, i.atom()),
        lambda i, n: i.binary(i.atom(), n), lambda i, n: i.fn(0, [0], [n]), lambda i, n: i.match([(n, [])], []), lambda i, n: i.match([(i.atom(), [n])], []),
        lambda i, n: i.match([], [n]), lambda i, n: i.call(n), lambda i, n: i.call(i.ident(), n), lambda i, n: i.record(n), lambda i, n: i.array(i.atom(), n),
    ]
    for first in takers:
        for second in takers:
            yield pair(first, second).parts()
        yield pair(first, None, 2).parts(roots=[0])
        yield pair(first, None, 2).parts(roots=[1, 2, 1])
        yield pair(first, None, 2).parts(roots=[2, 3])
    twice = [
        lambda i, n: i.binary(n, n), lambda i, n: i.fn(0, [0], [n, n]), lambda i, n: i.match([(n, [n])], []), lambda i, n: i.match([(n, [])], [n]),
        lambda i, n: i.match([], [n, n]), lambda i, n: i.call(n, n), lambda i, n: i.call(i.ident(), n, n), lambda i, n: i.record(n, n), lambda i, n: i.array(n, n),
    ]
    for both in twice:
        for late in (0, 3):
            i = pair(both, None, late)
            yield i.parts()
            yield i.parts(roots=[0, 0])
    yield from slot_claims()


def slot_claims():
    """Slots owned twice, by nodes and by arguments; a part and a slot at once."""
    def image(slots, arguments):
        words = [len(slots), 1, 0, 8]
        for slot, a in zip(slots, arguments):
            words += [0x10000003, slot, NAME] if a is None else [0x50000000 | 5 + 2 * a, slot, NAME, 0, a] + [NAME, 0] * a
        return image_of(words + [0x10000002, NAME])
    for a in (None, 0, 1, 2):
        for b in (None, 0, 1, 2):
            for slot in range(6):
                yield image((2, slot), (a, b))
    yield image((0, 1, 0), (None, None, None))
    yield image((0, 1, 2, 1, 0), (None,) * 5)
    for x in range(3):
        for y in range(3):
            for roots in ([], [0], [1, 1]):
                yield image_of([4, 0, len(roots), 4] + roots + idents(2) + [0x30000005, x + 1, NAME, 0, 0, 0x30000005, 3, NAME, 0, y])


def rooms():
    """Refusals 1 and 6: each buffer as long as needed, and one short; the order of the refusals."""
    i = all_kinds()
    i.fn(0, [0, 0, 0], [])
    i.fn(0, [], [])
    parts = i.parts(all_pool_kinds())
    slots, functions = i.slot + 1, 3 * 3 + 2 * 5
    for s in (0, 1, slots - 2, slots - 1, slots, slots + 1, 4097):
        for f in (0, functions - 1, functions, functions + 1, 8192):
            yield parts, BENCH._replace(slots=s, functions=f)
    for scratch in (0, 1, 8192, 16383, 16384, 16385, 32768):
        for s in (slots - 1, slots):
            yield parts, BENCH._replace(slots=s, scratch=scratch)
    for lent in (BENCH._replace(types=0), BENCH._replace(diagnostics=0), BENCH._replace(messages=0), BENCH._replace(types=0, diagnostics=0, messages=0)):
        yield parts, lent
        yield parts, lent._replace(functions=functions - 1)
    for v in (0, 1, 4095, 4096):
        for s in (v, v + 1, v + 2):
            yield image_of([0, 0, 0, v]), BENCH._replace(slots=s, functions=0)
    for n in (1, 2, 30):
        i = Image()
        i.type_atom()
        i.roots = [i.fn(0, [0] * (k % 4), []) for k in range(n)]
        needed = sum(3 + 2 * (k % 4) for k in range(n))
        for f in (needed - 1, needed, needed + 1):
            yield i.parts(), BENCH._replace(functions=f, slots=i.slot + 1)
        for f in (needed - 1, needed, needed + 1):
            yield i.parts(roots=[]), BENCH._replace(functions=f)
    yield from random_rooms()
    yield from order()


def random_rooms():
    """Images with several Fns, in buffers near what they need."""
    source = random.Random(7)
    for _ in range(40):
        i, needed = Image(), 0
        i.type_atom()
        for _ in range(source.randrange(1, 7)):
            arguments = source.choice((0, 0, 1, 2, 9))
            body = [i.atom() for _ in range(source.randrange(3))]
            if source.randrange(3):
                i.roots.append(i.fn(0, [0] * arguments, body))
            else:
                i.fn(0, [0] * arguments, body)
            needed += 3 + 2 * arguments
        slots = i.slot + source.choice((0, 0, 3))
        for s, f, scratch in ((slots + 1, needed, 16384), (slots, needed, 16384), (slots + 1, needed - 1, 16384), (slots, needed - 1, 16384),
                              (slots + 1, needed, 16383), (slots + 9, needed + 9, 16384), (slots + 1, needed, source.randrange(16384))):
            yield i.parts(slots=slots), BENCH._replace(slots=s, functions=f, scratch=scratch)


def order():
    """Every subset of the six refusals in one input: the smallest number comes."""
    for faults in range(64):
        i = Image()
        i.type_atom()
        i.fn(0, [0], [])
        if faults & 8:
            i.ident(), i.unary(1), i.unary(1)
        if faults & 16:
            i.chain(65, i.unary)
        parts = i.parts()
        if faults & 2:
            parts = parts._replace(library=[0, 1])
        if faults & 4:
            parts = parts._replace(image=parts.image + [0])
        lent = BENCH._replace(scratch=16383 if faults & 1 else 16384, functions=4 if faults & 32 else 5)
        yield parts, lent
        yield parts, lent._replace(functions=8192, slots=i.slot if faults & 32 else i.slot + 1)


def first_words():
    """Short lists: none, one, two words, at values near what their rules allow."""
    for w in (0, 1, 2, 2048, 2049, 8191, 0x10000000, 0xFFFFFFFF):
        yield image_of([w])
        yield library_of([w])
        for v in (0, 1, 2048, 8191, 0x40000000):
            yield image_of([w, v])
            yield library_of([w, v])
            yield image_of([0, v, w])
            yield library_of([0, v, w])
            yield image_of([0, 0, w, v])
    yield image_of([])
    yield library_of([])
    yield EMPTY


def groups():
    bench = lambda cases: ((p, BENCH) for p in cases)
    yield "N, T, R, V", bench(counts())
    yield "images of 8,192 words", bench(long_images())
    yield "slots of an Fn", bench(fn_slots())
    yield "libraries of 8,192 words", bench(long_libraries())
    yield "pool words", bench(pool_words())
    yield "groups of several", bench(groups_of_several())
    yield "slots under flags", bench(slot_rules())
    yield "texts of 65,536 bytes, name lengths", bench(texts())
    yield "depth 63 to 66", bench(depths())
    yield "claims", bench(claims())
    yield "lent lengths, and the order of refusals", rooms()
    yield "short lists", bench(first_words())
