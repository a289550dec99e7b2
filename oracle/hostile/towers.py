"""Towers: a type that holds the last one k times, some levels of it."""
from family import S3, family
from image import INT, OPTION, Image, Library

TOWER_USES = ("plain", "same", "apart", "match", "message", "cast", "call", "slotted", "slotted_apart", "field", "array", "returned", "unknown")


def tower_waits(use, **_):
    return S3 if use in ("apart", "slotted_apart") else None


@family(waits=tower_waits, k=(1, 2, 3, 8, 20, 64, 200), levels=(2, 3, 5, 8, 12, 20, 28, 30), use=TOWER_USES)
def script_tower(k, levels, use):
    """Records in lets, each holds the last one k times."""
    i, l = Image(), Library()
    a, f = i.text.names("short", 64), i.text.names("short", k)
    levels = min(levels, 1900 // ((k + 2) * (2 if "apart" in use else 1)), 7800 // ((5 * k + 8) * (2 if "apart" in use else 1)))

    def tower(first):
        i.root(i.let(a[first], i.record([(f[0], i.array() if use == "unknown" else i.atom())])))
        for n in range(1, levels):
            i.root(i.let(a[first + n], i.record([(name, i.ident(a[first + n - 1])) for name in f])))
        return a[first + levels - 1]
    top = tower(0)
    other = tower(32) if "apart" in use else top
    l.package(l.text.word("p"), [(l.text.word("id"), [(l.text.word("x"), l.slot(l.text.word("T")))], l.wrap(OPTION, l.slot(l.text.word("T"))), 1),
                                 (l.text.word("two"), [(l.text.word(n), l.slot(l.text.word("T"))) for n in "xy"], l.slot(l.text.word("T")), 1),
                                 (l.text.word("int"), [(l.text.word("x"), INT)], INT, 0)])
    p, x = i.text.word("p"), i.text.word("x")
    if use in ("same", "apart", "unknown"):
        i.root(i.array(i.ident(top), i.ident(other)))
    elif use == "match":
        i.root(i.match([(i.atom(2), [i.ident(top)])], [i.ident(top)]))
    elif use == "message":
        i.root(i.bin(i.ident(top), i.ident(top)), i.field(i.ident(top), x))
    elif use == "cast":
        i.root(i.cast(i.ident(top), i.plain()))
    elif use == "call":
        i.root(i.imports(p), i.package_call(p, i.text.word("int"), i.ident(top)))
    elif use == "slotted":
        i.root(i.imports(p), i.package_call(p, i.text.word("id"), i.ident(top)))
    elif use == "slotted_apart":
        i.root(i.imports(p), i.package_call(p, i.text.word("two"), i.ident(top), i.ident(other)))
    elif use == "field":
        i.root(*[i.field(i.ident(top), f[0]) for _ in range(20)])
    elif use == "array":
        i.root(*[i.array(i.ident(top)) for _ in range(20)])
    elif use == "returned":
        i.root(i.fn(x, [], i.plain(), [i.ident(top)]))
    return i, l


POOL_USES = ("none", "made", "same", "apart", "slotted", "slotted_ret", "unbound", "group", "message", "members", "array")


def pool_waits(use, **_):
    return S3 if use in ("apart", "slotted", "slotted_ret", "group") else None


@family(waits=pool_waits, k=(1, 2, 3, 8, 20, 64, 200), levels=(2, 3, 5, 8, 12, 20, 28, 30), use=POOL_USES, slots=(0, 1))
def pool_tower(k, levels, use, slots):
    """Records in the pool, each holds the last one k times."""
    i, l = Image(), Library()
    f = l.text.names("short", k)
    levels = min(levels, 2600 // (2 * k + 1))

    def tower(bottom):
        for _ in range(levels):
            bottom = l.record([(name, bottom) for name in f])
        return bottom
    w, x = l.text.word, l.text.word("x")
    one, t = tower(INT), l.slot(w("T"))
    other = tower(INT)
    open_one = tower(t) if slots or use in ("slotted", "slotted_ret", "unbound") else one
    flag = 1 if open_one is not one else 0
    l.package(w("p"), [(w("make"), [], one, 0), (w("take"), [(x, one)], INT, 0), (w("other"), [(x, other)], INT, 0),
                       (w("open"), [(x, open_one)], INT, flag), (w("both"), [(x, t), (w("y"), open_one)], open_one, 1),
                       (w("int"), [(x, INT)], INT, 0),
                       (w("g"), [(x, other)], INT, 0), (w("g"), [(x, INT)], INT, 0)])
    p = i.text.word("p")

    def of(name, *args):
        return i.package_call(p, i.text.word(name), *args)
    if use != "none":
        i.root(i.imports(p))
    if use == "made":
        i.root(of("make"))
    elif use == "same":
        i.root(of("take", of("make")))
    elif use == "apart":
        i.root(of("other", of("make")))
    elif use == "slotted":
        i.root(of("open", of("make")))
    elif use == "slotted_ret":
        i.root(of("both", i.atom(), of("make")))
    elif use == "unbound":
        i.root(of("both", i.atom(), i.atom()))
    elif use == "group":
        i.root(of("g", of("make")))
    elif use == "message":
        i.root(of("int", of("make")))
    elif use == "members":
        i.root(i.array(*[of("make") for _ in range(100)]))
    elif use == "array":
        i.root(*[i.array(of("make")) for _ in range(100)])
    return i, l


@family(k=(1, 2, 3, 8, 20, 200), levels=(2, 3, 5, 8, 12, 20, 31, 40, 500), use=("cast", "argument", "extern", "calls", "empty"), every=(1, 2))
def type_tower(k, levels, use, every):
    """Type expressions: a record of k fields, each the last one; `every` 2 puts an Option between."""
    i = Image()
    f = i.text.names("short", k)
    t = i.record_type([]) if use == "empty" else i.plain()
    for n in range(min(levels, 480 // every, 7000 // (2 * k + 2 + every))):
        t = i.record_type([(name, t) for name in f])
        if every == 2:
            t = i.option(t)
    x = i.text.word("x")
    if use == "argument":
        i.root(i.fn(x, [(f[0], t)], t, [i.ident(f[0])]))
    elif use == "extern":
        i.root(i.extern(x, [(x, [(f[0], t)], t)]))
    elif use == "calls":
        i.root(i.fn(x, [(f[0], t)], i.plain(), [i.atom()]), i.own_call(x, i.cast(i.atom(), t)))
    else:
        i.root(i.cast(i.atom(), t))
    return i, None
