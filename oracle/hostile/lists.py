"""Names in lists, and nodes in great number or depth."""
from family import UpTo, family
from image import INT, STYLES, Image, Library


@family(packages=UpTo(16, 4080), paths=(1, 2), style=STYLES, functions=(0, 1, 3))
def imports(packages, paths, style, functions):
    """Packages, all imported, `paths` times over."""
    i, l = Image(), Library()
    packages = min(packages, 8180 // (2 + 4 * functions), 8100 // paths)
    names = l.text.names(style, packages)
    for name in names:
        l.package(name, [(name, [], INT, 0)] * functions)
    i.root(i.imports(*(i.text.names(style, packages) * paths)))
    return i, l


@family(packages=UpTo(16, 4080), calls=UpTo(16, 400), style=STYLES, last=(0, 1))
def package_calls(packages, calls, style, last):
    """Imported packages, then calls of the one found last (or first)."""
    i, l = Image(), Library()
    packages, calls = min(packages, 4090), min(calls, (8150 - packages) // 11)
    names, f = l.text.names(style, packages), l.text.word("f")
    for n, name in enumerate(names):
        l.package(name, [(f, [], INT, 0)] if n in (0, packages - 1) else [])
    own = i.text.names(style, packages)
    i.root(i.imports(*own))
    for _ in range(calls):
        i.root(i.package_call(own[0 if last else -1], i.text.word("f")))
    return i, l


@family(functions=UpTo(16, 2040), calls=UpTo(16, 510), style=STYLES, flag=(0, 1))
def functions_of_a_package(functions, calls, style, flag):
    """Functions of one package, and calls of the last."""
    i, l = Image(), Library()
    names = l.text.names(style if style != "same" or not flag else "last", functions)
    l.package(l.text.word("p"), [(name, [], INT, flag) for name in names])
    own, p = i.text.names(style if style != "same" or not flag else "last", functions), i.text.word("p")
    i.root(i.imports(p))
    for _ in range(calls):
        i.root(i.package_call(p, own[-1]))
    return i, l


@family(functions=UpTo(16, 1020), calls=UpTo(16, 500), style=STYLES, body=(0, 1))
def own_functions(functions, calls, style, body):
    """Fns, and calls of the first; with a body each calls the one before it."""
    i = Image()
    functions = min(functions, 500 if body else 1020)
    names = i.text.names(style, functions)
    calls = min(calls, (2040 - functions * (3 if body else 1)) // 2, (8100 - functions * (13 if body else 6)) // 7)
    owner = []
    for n, name in enumerate(names):
        inside = [i.own_call(names[n - 1])] if body and n else []
        owner.append(i.fn(name, [], i.plain(1), inside))
    owner += [i.own_call(names[0]) for _ in range(calls)]
    i.root(i.match([], owner))
    return i, None


@family(args=UpTo(100, 3000), idents=UpTo(16, 700), style=STYLES, missing=(0, 1))
def arguments_in_scope(args, idents, style, missing):
    """An Fn of many arguments, and its body names the first, or none of them."""
    i = Image()
    names = i.text.names(style, args + 1)
    idents = min(idents, (8150 - 2 * args) // 4, 200 if missing else 2000)
    body = [i.ident(names[-1] if missing else names[0]) for _ in range(idents)]
    i.root(i.fn(i.text.word("f"), [(n, i.plain()) for n in names[:-1]], i.plain(1), body + [i.match([], [])]))
    return i, None


@family(lets=UpTo(100, 1000), idents=UpTo(0, 680), style=STYLES)
def lets(lets, idents, style):
    """Lets in one block, each of the first one, then idents that name the first."""
    i = Image()
    lets = min(lets, 1020)
    idents = min(idents, 2040 - 2 * lets, (8150 - 8 * lets) // 4)
    names = i.text.names(style, lets)
    body = [i.let(names[0], i.atom())] + [i.let(n, i.ident(names[0])) for n in names[1:]]
    i.root(i.match([], body + [i.ident(names[0]) for _ in range(max(idents, 0))]))
    return i, None


@family(externs=UpTo(1, 1300), functions=UpTo(0, 1000), calls=UpTo(0, 400), style=STYLES)
def externs(externs, functions, calls, style):
    """Externs (each with functions), and calls of the first one's last function."""
    i = Image()
    functions = min(functions, max(0, 7600 // externs - 6) // 3)
    calls = min(calls, (8100 - externs * (6 + 3 * functions)) // 11) if functions else 0
    names = i.text.names(style, max(externs, functions))
    body = [i.extern(names[n], [(f, [], i.plain()) for f in names[:functions]]) for n in range(externs)]
    body += [i.package_call(names[0], names[functions - 1]) for _ in range(calls)]
    i.root(i.match([], body))
    return i, None


# Depth and width of nodes

@family(depth=UpTo(2, 62), wide=UpTo(1, 30), kind=("array", "call", "record", "match", "bin", "fn", "field"), style=("last", "short"))
def deep(depth, wide, kind, style):
    """Nodes in nodes, each with some leaves beside."""
    i = Image()
    wide = max(1, min(wide, 1900 // (depth * (2 if kind == "match" else 1)), 7000 // (depth * (13 if kind == "match" else 8))))
    names = i.text.names(style, 64)
    at = i.atom()
    i.root(i.fn(names[0], [(n, i.plain()) for n in (names * 2)[:wide + 1]], i.plain(), [i.atom()])) if kind == "call" else None
    for d in range(depth):
        leaves = [i.atom() for _ in range(wide)]
        if kind == "array":
            at = i.array(at)
        elif kind == "call":
            at = i.own_call(names[0], at, *leaves)
        elif kind == "record":
            at = i.field(i.record([(names[0], at)] + [(names[(k + 1) % 64], v) for k, v in enumerate(leaves)]), names[0]) if d % 2 else at
        elif kind == "match":
            at = i.match([(i.atom(2), [v]) for v in leaves], [at])
        elif kind == "bin":
            at = i.bin(at, leaves[0])
        elif kind == "fn":
            at = i.fn(i.text.names(style, 64)[d] if len(i.text.data) < 60000 else names[d], [], i.plain(1), [at] + leaves + [i.match([], [])])
        else:
            at = i.unary(at)
    i.root(at)
    return i, None


@family(diagnostics=(16, 256), kind=("ident", "call", "package", "field", "import", "let"), style=STYLES)
def diagnostics(diagnostics, kind, style):
    """As many diagnostics as there may be, or as fill the messages."""
    i = Image()
    names = i.text.names(style, 16 if style == "last" else 250)
    r = i.text.word("r")
    i.root(i.let(r, i.record([(n, i.atom()) for n in names[:200]])))
    body = []
    for k in range(diagnostics):
        n = names[k % len(names)]
        body.append({"ident": lambda: i.ident(n), "call": lambda: i.own_call(n), "package": lambda: i.package_call(n, n),
                     "field": lambda: i.field(i.ident(r), i.text.word("none")), "import": lambda: i.imports(n),
                     "let": lambda: i.let(n, i.match([], []))}[kind]())
    i.root(i.match([], body))
    return i, None


@family(cases=UpTo(16, 1100), differ=(0, 1), condition=(0, 1))
def match_cases(cases, differ, condition):
    """A match of many cases; bodies are empty where the nodes do not suffice."""
    i = Image()
    bodies = cases <= 600
    cases = min(cases, 600 if bodies else 1100)
    cs = [(i.atom(3 if condition and n < 100 else 2), [i.atom(5 if differ and n < 100 else 3)] if bodies else []) for n in range(cases)]
    i.root(i.match(cs, [i.atom()] if bodies else []))
    return i, None


@family(fields=UpTo(10, 1300), records=UpTo(1, 1000), style=STYLES)
def records(fields, records, style):
    """Record literals of many fields; each array of two is compared."""
    i = Image()
    fields = min(fields, 1900 // records, (8100 - 4 * records) // (6 * records))
    names = i.text.names(style, max(fields, 1))
    i.root(i.array(*[i.record([(n, i.atom()) for n in names[:fields]]) for _ in range(records)]))
    return i, None
