"""Wide types, and functions of many slots."""
import random

from family import UpTo, family
from image import INT, OPTION, RECORD, STR, STYLES, Count, Image, Library, Type


@family(fields=UpTo(100, 4000), reads=UpTo(16, 1000), style=STYLES)
def fields_read(fields, reads, style):
    """A record type of the pool, and reads of its last field."""
    i, l = Image(), Library()
    reads = min(reads, 1015)
    l.package(l.text.word("p"), [(l.text.word("make"), [], l.record([(n, INT) for n in l.text.names(style, fields)]), 0)])
    p, r, last = i.text.word("p"), i.text.word("r"), i.text.names(style, fields)[-1]
    i.root(i.imports(p), i.let(r, i.package_call(p, i.text.word("make"))))
    i.root(i.match([], [i.field(i.ident(r), last) for _ in range(reads)]))
    return i, l


@family(fields=UpTo(100, 2000), members=UpTo(16, 1500), style=STYLES, apart=(0, 1, 2), in_match=(0, 1))
def wide_types_compared(fields, members, style, apart, in_match):
    """Members of an array (or branches of a match), all of record types of many fields: one, two equal ones, or two whose names are the same words."""
    i, l = Image(), Library()
    names = l.text.names(style, fields)
    one = l.record([(n, INT) for n in names])
    other = l.record([(n, INT) for n in (again(l.text, names, style) if apart == 1 else names)]) if apart else one
    l.package(l.text.word("p"), [(l.text.word("one"), [], one, 0), (l.text.word("other"), [], other, 0)])
    p, r, s = i.text.word("p"), i.text.word("r"), i.text.word("s")
    i.root(i.imports(p), i.let(r, i.package_call(p, i.text.word("one"))), i.let(s, i.package_call(p, i.text.word("other"))))
    members = min(members, 620 if in_match else 2000)
    if in_match:
        i.root(i.match([(i.atom(2), [i.ident(s)]) for _ in range(members)], [i.ident(r)]))
    else:
        i.root(i.array(i.ident(r), *[i.ident(s) for _ in range(members)]))
    return i, l


def again(text, names, style):
    """The same names at another place, if the text has room for them; else the same words."""
    return text.names(style, len(names)) if 2 * len(text.data) < 60000 else names


@family(candidates=UpTo(2, 600), calls=UpTo(1, 500), fields=UpTo(1, 900), style=STYLES, hit=(0, 1), apart=(0, 1))
def group_of_wide_types(candidates, calls, fields, style, hit, apart):
    """A group of several, whose argument types are records that differ in the last field from what is given; the last candidate fits, or none."""
    i, l = Image(), Library()
    names, g, x = l.text.names(style, fields), l.text.word("g"), l.text.word("x")
    given = l.record([(n, INT) for n in names])
    others = again(l.text, names, style) if apart else names
    wanted = l.record([(n, INT) for n in others[:-1]] + [(others[-1], STR)])
    candidates = min(candidates, (8150 - len(l.pool) - 8) // 6)
    kinds = [wanted] * (candidates - hit) + [given] * hit
    l.package(l.text.word("p"), [(l.text.word("make"), [], given, 0)] + [(g, [(x, t)], INT, 0) for t in kinds])
    p, r, own = i.text.word("p"), i.text.word("r"), i.text.word("g")
    calls = min(calls, 500 if hit else 200)
    i.root(i.imports(p), i.let(r, i.package_call(p, i.text.word("make"))))
    i.root(i.match([], [i.package_call(p, own, i.ident(r)) for _ in range(calls)]))
    return i, l


@family(args=UpTo(2, 1500), candidates=UpTo(2, 500), calls=UpTo(1, 50), style=STYLES)
def group_of_many_arguments(args, candidates, calls, style):
    """A group of several with many arguments, of which the last differs; the last candidate fits."""
    i, l = Image(), Library()
    candidates = max(2, min(candidates, 8100 // (4 + 2 * args)))
    args = min(args, (8100 // candidates - 4) // 2)
    calls = max(1, min(calls, 2000 // (args + 3), 8000 // (5 * args + 12)))
    x, g = l.text.names(style, args), l.text.word("g")
    l.package(l.text.word("p"), [(g, [(n, INT) for n in x[:-1]] + [(x[-1], INT if c == candidates - 1 else STR)], INT, 0) for c in range(candidates)])
    p, own = i.text.word("p"), i.text.word("g")
    i.root(i.imports(p))
    i.root(i.match([], [i.package_call(p, own, *[i.atom() for _ in range(args)]) for _ in range(calls)]))
    return i, l


@family(candidates=UpTo(2, 600), calls=UpTo(1, 500), fields=UpTo(1, 900), style=STYLES, apart=(0, 1))
def group_returns(candidates, calls, fields, style, apart):
    """Calls of a group with a poisoned argument: the return types, wide and equal but not the same, are compared."""
    i, l = Image(), Library()
    names, g, x = l.text.names(style, fields), l.text.word("g"), l.text.word("x")
    one, other = l.record([(n, INT) for n in names]), l.record([(n, INT) for n in (again(l.text, names, style) if apart else names)])
    candidates = min(candidates, (8150 - len(l.pool)) // 6)
    l.package(l.text.word("p"), [(g, [(x, INT)], other if n else one, 0) for n in range(candidates)])
    p, own, bad = i.text.word("p"), i.text.word("g"), i.text.word("bad")
    calls = min(calls, 500)
    i.root(i.imports(p), i.let(bad, i.ident(bad)))
    i.root(i.match([], [i.package_call(p, own, i.ident(bad)) for _ in range(calls)]))
    return i, l


@family(candidates=UpTo(2, 1360), calls=UpTo(1, 500), style=STYLES)
def foreign_group(candidates, calls, style):
    """A group of several, each of another Foreign with a long name; the last fits."""
    i, l = Image(), Library()
    candidates = min(candidates, 1355)
    names, g, x = l.text.names(style, candidates), l.text.word("g"), l.text.word("x")
    l.package(l.text.word("p"), [(l.text.word("make"), [], l.foreign(names[-1]), 0)] + [(g, [(x, l.foreign(n))], INT, 0) for n in names])
    p, own, r = i.text.word("p"), i.text.word("g"), i.text.word("r")
    i.root(i.imports(p), i.let(r, i.package_call(p, i.text.word("make"))))
    i.root(i.match([], [i.package_call(p, own, i.ident(r)) for _ in range(min(calls, 500))]))
    return i, l


@family(fields=UpTo(100, 2700), of=("pool", "arguments", "record"), style=("short", "last"))
def words_of_a_wide_type(fields, of, style):
    """One wide record type, and as many words of it as fit: in the pool, as arguments, as fields of another record."""
    i, l = Image(), Library()
    wide = l.record([(n, INT) for n in l.text.names(style, fields)])
    room, x = 8150 - len(l.pool), l.text.word("x")
    if of == "pool":
        l.pool += [wide] * room
    elif of == "record":
        wide = l.record([(x, wide)] * (room // 2))
    l.package(l.text.word("p"), [(l.text.word("make"), [(x, wide)] * (room // 2 - 2 if of == "arguments" else 1), wide, 0)])
    return i, l


@family(fields=UpTo(100, 2000), uses=UpTo(16, 1500), use=("record", "array", "arrays", "argument", "fields"), style=STYLES)
def values_of_a_wide_type(fields, uses, use, style):
    """One wide record type of the pool, and values of it as fields, members and arguments."""
    i, l = Image(), Library()
    names, x = l.text.names(style, fields), l.text.word("x")
    wide = l.record([(n, INT) for n in names])
    other = l.record([(n, INT) for n in again(l.text, names, style)])
    l.package(l.text.word("p"), [(l.text.word("make"), [], wide, 0), (l.text.word("take"), [(x, other)], INT, 0)])
    p, r = i.text.word("p"), i.text.word("r")
    i.root(i.imports(p), i.let(r, i.package_call(p, i.text.word("make"))))
    if use == "record":
        i.root(i.record([(n, i.ident(r)) for n in i.text.names("first", min(uses, 1580))]))
    elif use == "array":
        i.root(i.array(*[i.ident(r) for _ in range(uses)]))
    elif use == "arrays":
        i.root(i.match([], [i.array(i.ident(r)) for _ in range(min(uses, 1000))]))
    elif use == "argument":
        i.root(i.match([], [i.package_call(p, i.text.word("take"), i.ident(r)) for _ in range(min(uses, 500))]))
    else:
        i.root(i.match([], [i.record([(r, i.ident(r))]) for _ in range(min(uses, 800, (8150 - len(l.pool)) // 3))]))
    return i, l


# Slots

@family(args=UpTo(2, 1900), fields=UpTo(1, 2000), style=STYLES, apart=(0, 1))
def one_slot(args, fields, style, apart):
    """A slotted function whose arguments are all the same slot, given values of one wide type or of two equal ones."""
    i, l = Image(), Library()
    args = min(args, (8150 - 4 * fields) // 2)
    names, t = l.text.names(style, fields), l.slot(l.text.word("T"))
    kinds = [l.record([(n, INT) for n in names]) for _ in range(2)]
    room = (8100 - len(l.pool)) // 2 - 8
    args = max(1, min(args, room))
    l.package(l.text.word("p"), [(l.text.word("one"), [], kinds[0], 0), (l.text.word("other"), [], kinds[apart], 0),
                                 (l.text.word("f"), [(n, t) for n in [names[0]] * args], t, 1)])
    p, r, o = i.text.word("p"), i.text.word("r"), i.text.word("o")
    i.root(i.imports(p), i.let(r, i.package_call(p, i.text.word("one"))), i.let(o, i.package_call(p, i.text.word("other"))))
    i.root(i.package_call(p, i.text.word("f"), i.ident(r), *[i.ident(o) for _ in range(args - 1)]))
    return i, l


@family(slots=UpTo(16, 1900), calls=UpTo(1, 400), style=STYLES, ret=("int", "one", "all", "options"), repeat=(1, 2))
def slotted_records(slots, calls, style, ret, repeat):
    """A slotted function of a record of many slots, given a record of as many fields; its return type has none, one or all of the slots."""
    i, l = Image(), Library()
    slots = min(slots, {"int": 1900, "one": 1900, "all": 1300, "options": 1100}[ret])
    names = l.text.names(style, slots)
    made = l.record([(names[0], INT)] * slots)
    taken = l.record([(names[0], l.slot(n)) for n in names])
    returned = {"int": INT, "one": l.slot(names[0])}.get(ret) or l.record([(names[0], l.wrap(OPTION, l.slot(n)) if ret == "options" else l.slot(n))
                                                                            for n in names[:slots if ret == "all" else slots // 2]])
    args = [(names[0], taken)] * repeat
    l.package(l.text.word("p"), [(l.text.word("make"), [], made, 0), (l.text.word("f"), args, returned, 1)])
    p, r = i.text.word("p"), i.text.word("r")
    i.root(i.imports(p), i.let(r, i.package_call(p, i.text.word("make"))))
    room = 8192 - len(l.pool)
    calls = min(calls, 8000 // (12 + 4 * repeat), 2000 // (3 + repeat), room // (2 * slots + 2) if ret in ("all", "options") else 10 ** 6)
    i.root(i.match([], [i.package_call(p, i.text.word("f"), *[i.ident(r) for _ in range(repeat)]) for _ in range(calls)]))
    return i, l


@family(slots=UpTo(16, 1900), style=STYLES, ret=("int", "one", "all"), calls=UpTo(1, 20))
def slotted_arguments(slots, style, ret, calls):
    """A slotted function of many arguments, each a slot of its own."""
    i, l = Image(), Library()
    calls = min(calls, 2000 // (slots + 4))
    calls = max(1, calls)
    slots = min(slots, 2000 // calls - 4, 7900 // calls // 5 - 4)
    names = l.text.names(style, slots)
    returned = {"int": INT, "one": l.slot(names[0])}.get(ret) or l.record([(names[0], l.slot(n)) for n in names])
    l.package(l.text.word("p"), [(l.text.word("f"), [(n, l.slot(n)) for n in names], returned, 1)])
    p = i.text.word("p")
    i.root(i.imports(p), i.match([], [i.package_call(p, i.text.word("f"), *[i.atom() for _ in range(slots)]) for _ in range(calls)]))
    return i, l


def ordered(names, order):
    """A sort may be slow for some of these."""
    up = sorted(names, key=lambda w: (w >> 8) & 0xFFFF)
    if order == "shuffled":
        random.Random(1).shuffle(up)
    return {"up": up, "down": up[::-1], "shuffled": up, "pipe": up[::2] + up[1::2][::-1], "given": list(names)}[order]


@family(functions=UpTo(1, 1000), slots=UpTo(16, 2000), style=STYLES, names=("one", "all"), order=("given", "up", "down", "shuffled", "pipe"))
def return_slots(functions, slots, style, names, order):
    """Slotted functions over one pool: argument and return type are records of many slots. Refusal 2 looks each return slot up."""
    i, l = Image(), Library()
    functions = min(functions, (8150 - 4 * slots) // 6)
    held = ordered(l.text.names(style, slots), order)
    a = l.record([(held[0], l.slot(n)) for n in held])
    r = l.record([(held[0], l.slot(n)) for n in (reversed(held) if names == "all" else [held[-1]] * slots)])
    fs = l.text.names("short", functions)
    l.package(l.text.word("p"), [(g, [(held[0], a)], r, 1) for g in fs])
    return i, l


@family(slots=UpTo(16, 8000), style=STYLES, order=("given", "up", "down", "shuffled", "pipe"))
def pool_slots(slots, style, order):
    """Slots alone in the pool, as many as fit, and one slotted function."""
    i, l = Image(), Library()
    names = l.text.names(style, min(slots, 4000 if style in ("last", "middle", "front") else 8000))
    l.pool += [l.slot(n) for n in ordered(names, order) * 2][:slots]
    t = l.slot(names[0])
    l.package(l.text.word("p"), [(l.text.word("f"), [(l.text.word("x"), t)], l.wrap(OPTION, t), 1)])
    return i, l


@family(pairs=UpTo(1, 4000), style=("last", "first"))
def pairs_after_a_fault(pairs, style):
    """An argument list whose first name is none: what follows it must not be gone through."""
    i, l = Image(), Library()
    t = l.slot(l.text.names(style, 100)[-1])
    l.pool.append(t)
    p = l.text.word("p")
    l.packages.append([p, Count(1), p, Count(1), Count(pairs)] + [t, Type(RECORD << 28)] * pairs + [t])
    return i, l


@family(functions=UpTo(100, 2040), style=STYLES, args=(0, 1), flags=("all", "last", "first", "half"))
def groups(functions, style, args, flags):
    """Functions of one package, of which some are slotted: the rule on groups compares names."""
    i, l = Image(), Library()
    functions = min(functions, 8180 // (4 + 2 * args))
    names = l.text.names("last" if style == "same" else style, functions)
    flagged = {"all": lambda n: 1, "last": lambda n: int(n == functions - 1), "first": lambda n: int(n == 0), "half": lambda n: n % 2}[flags]
    l.package(l.text.word("p"), [(g, [(g, INT)] * args, INT, flagged(n)) for n, g in enumerate(names)])
    return i, l


@family(functions=UpTo(100, 2040), packages=UpTo(1, 16), style=("last", "first"))
def one_group(functions, packages, style):
    """Functions all of one name of 255 bytes, none slotted."""
    i, l = Image(), Library()
    functions = min(functions, (8190 - 2 * packages) // 4)
    g = l.text.names(style, packages)
    for p in g:
        l.package(p, [(g[0], [], INT, 0)] * (functions // packages))
    return i, l
