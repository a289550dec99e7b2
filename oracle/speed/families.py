"""Scripts that grow: for each family the case of size n, all in the domain of equality and answered with no refusal."""
import os
import sys

sys.path.insert(0, os.path.join(os.path.dirname(os.path.abspath(__file__)), "..", "definitions"))
from build import (array, array_of, binary, call, case, field, fn, function, ident, imports, let, match, num, option, package, package_call,  # noqa: E402
                   record, slot, true, unary)


def nested(times, wrap, inner):
    for _ in range(times):
        inner = wrap(inner)
    return inner


def lets(n):
    return case([let("a0", num())] + [let("a%d" % i, ident("a%d" % (i - 1))) for i in range(1, n)])


def functions(n):
    def body(i):
        return call("f%d" % (i - 1), ident("x")) if i else ident("x")
    return case([fn("f%d" % i, [("x", "Int")], "Int", body(i)) for i in range(n)])


def operators(n):
    return case([binary(binary(num(), "+", num("2")), "<", unary("-", num("3"))) for _ in range(n)])


def members(n):
    return case([array(*[num() for _ in range(n)])])


def cases_of_a_match(n):
    return case([match([(true(), [num()]) for _ in range(n)], [num()])])


def fields(n):
    names = ["f%d" % i for i in range(n)]
    return case([let("r", record(*[(name, num()) for name in names]))] + [field(ident("r"), name) for name in names])


def depth(n):
    return case([nested(62, lambda inner: unary("-", inner), num()) for _ in range(n)])


def package_calls(n):
    library = [package("p", *[function("f%d" % i, [("x", "Int")], "Int") for i in range(n)])]
    return case([imports("p")] + [package_call("p", "f%d" % i, num()) for i in range(n)], library)


def a_group_of_several(n):
    types = [nested(i // 3, option, t) for i, t in zip(range(96), ["Bool", "Str", "Double"] * 32)][:n]
    library = [package("p", *[function("f", [("x", t)], "Int") for t in types + ["Int"]])]
    return case([imports("p")] + [package_call("p", "f", num()) for _ in range(n)], library)


def slotted_calls(n):
    t = slot("T")
    library = [package("g", function("first", [("x", array_of(t)), ("y", t)], option(t), True))]
    return case([imports("g")] + [package_call("g", "first", array(num()), num()) for _ in range(n)], library)


def diagnostics(n):
    return case([ident("missing%d" % i) for i in range(n)])


def doubled_records(n):
    """Each record holds the last twice: types of 2^n parts, compared."""
    roots = [let("r0", record(("a", num())))]
    roots += [let("r%d" % i, record(("a", ident("r%d" % (i - 1))), ("b", ident("r%d" % (i - 1))))) for i in range(1, n)]
    return case(roots + [array(ident("r%d" % (n - 1)), ident("r%d" % (n - 1)))])


# what n counts, how to make one, sizes
FAMILIES = [
    ("lets, each of the last one", lets, (64, 128, 256, 512)),
    ("functions, each calls the last one", functions, (32, 64, 128, 256)),
    ("expressions of three operators", operators, (32, 64, 128, 256)),
    ("members of an array", members, (200, 400, 800, 1600)),
    ("cases of a match", cases_of_a_match, (80, 160, 320, 640)),
    ("fields of a record, each read once", fields, (32, 64, 128, 256)),
    ("expressions of depth 63", depth, (3, 6, 12, 24)),
    ("functions of a package, each called once", package_calls, (64, 128, 256, 500)),
    ("functions of a group, called as often", a_group_of_several, (12, 24, 48, 96)),
    ("calls of a slotted function", slotted_calls, (40, 80, 160, 320)),
    ("diagnostics", diagnostics, (32, 64, 128, 256)),
    ("records, each holds the last one twice", doubled_records, (6, 8, 10, 12)),
]
