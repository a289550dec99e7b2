#!/usr/bin/env python3
"""Cases by hand: writes cases/handmade.batch.gz (each for one reading) and cases/large.batch.gz (the limits of what is used), and beside
each the Rust's rows (.full.gz), with the oracle.

  make_cases.py [--oracle PATH]
  make_cases.py --list          names, numbers and scripts
"""
import argparse
import gzip
import os
import subprocess
import tempfile

from bench_case import batch_of, join_case, split_case
from build import (array, array_of, binary, call, call_of, case, cast, dbl, extern, field, fn, foreign, function, ident, imports, let, match,
                   num, option, package, package_call, parts, record, record_of, slot, string, true, unary)

HERE = os.path.dirname(os.path.abspath(__file__))
T, U = slot("T"), slot("U")



def nested(times, wrap, inner):
    return nested(times - 1, wrap, wrap(inner)) if times else inner


def deep(depth):
    """Types of a depth: in a literal, a type expression, and a slot that is filled."""
    return [let("a", nested(depth - 1, array, num())), fn("f", [("x", nested(depth - 1, option, "Int"))], "Int", num()), call("f", ident("a")),
            imports("g"), package_call("g", "first", ident("a"))]


# a library of slotted functions
SLOTTED = [package(
    "g",
    function("one", [("x", T)], T, True),
    function("two", [("x", T), ("y", T)], array_of(T), True),
    function("first", [("x", array_of(T))], option(T), True),
    function("three", [("x", record_of(("a", T), ("b", U), ("c", T))), ("y", U)], record_of(("u", U), ("t", option(T))), True),
    function("pair", [("x", record_of(("a", T), ("b", U)))], record_of(("t", T), ("u", array_of(U))), True),
    function("both", [("x", array_of(T)), ("y", option(T))], T, True),
    function("nested", [("x", record_of(("a", array_of(T)), ("b", option(U))))], record_of(("u", array_of(U)), ("t", option(option(T)))), True),
)]
# two packages of a name, and groups of several
PACKAGES = [
    package("p", function("f", [("x", "Int")], "Int"), function("h", [("x", "Str")], "Str")),
    package("p", function("f", [("x", "Str")], "Str")),
    package("q",
            function("s", [("x", "Int")], "Str"), function("s", [("x", "Int"), ("y", "Int")], "Str"), function("s", [("x", "Bool")], "Str"),
            function("d", [("x", "Int")], "Int"), function("d", [("x", "Str")], "Str"), function("d", [], "Int")),
]
HANDMADE = [
    ("field order", [array(record(("x", num()), ("y", dbl())), record(("y", dbl()), ("x", num()))),
                     fn("f", [("r", record_of(("x", "Int"), ("y", "Int")))], "Int", num()),
                     call("f", record(("y", num()), ("x", num())))], []),
    ("field names", [array(record(("x", num())), record(("y", num())))], []),
    ("poisoned member", [array(num(), ident("z"), dbl(), ident("w")), array(ident("z"), ident("w"))], []),
    ("differing member ends", [array(num(), dbl(), ident("z"))], []),
    ("same cast", [let("a", cast(num(), "Int")), binary(ident("a"), "+", num()),
                   let("b", cast(array(num()), array_of("Int"))), array(ident("b"), ident("b"))], []),
    ("held import", [extern("p", ("f", [("x", "Bool")], "Bool")), imports("p"), package_call("p", "f", true()), package_call("p", "f", num())],
     PACKAGES),
    ("first package", [imports("p", "p"), package_call("p", "f", num()), package_call("p", "f", string()), package_call("p", "h", string())], PACKAGES),
    ("extern replaces", [imports("p"), extern("p", ("k", [], "Int")), package_call("p", "k"), package_call("p", "f", num())], PACKAGES),
    ("extern twice", [extern("e", ("k", [], "Int"), ("l", [("x", "Int")], "Int")), extern("e", ("k", [], "Str")), binary(package_call("e", "k"), "+", num()),
                      package_call("e", "l", num())], []),
    ("let after poison", [let("a", ident("z")), ident("a"), binary(ident("a"), "+", num()), let("b", let("c", num())), ident("b"),
                          binary(ident("b"), "+", num()), ident("c")], []),
    ("poison hides", [let("a", num()), let("a", ident("z")), binary(ident("a"), "+", string())], []),
    ("body sees arguments only", [let("a", num()), fn("f", [("x", "Int")], "Int", ident("a")), fn("g", [("x", "Int")], "Int", ident("x")), ident("a"),
                                  ident("x")], []),
    ("arguments before lookup", [call("f", ident("z")), package_call("n", "f", ident("z"), ident("w")), imports("p"),
                                 package_call("p", "gone", ident("z")), call_of(field(record(("a", num())), "a"), ident("z"))], PACKAGES),
    ("cast type before operand", [cast(array(num()), option("Int")), cast(ident("z"), array_of("Str"))], []),
    ("record type order", [fn("f", [("x", record_of(("a", option("Int")), ("b", array_of(array_of("Str"))))), ("y", option("Bool"))],
                              record_of(("c", array_of("Int"))), ident("y"))], []),
    ("extern type order", [extern("e", ("k", [("x", option("Int")), ("y", array_of("Str"))], array_of(option("Bool")))),
                           package_call("e", "k", num(), array(string()))], []),
    ("values order", [record(("a", array(num())), ("b", array(string())), ("c", record(("d", array(dbl())))))], []),
    ("conflict keeps bindings", [imports("g"), package_call("g", "three", record(("a", num()), ("b", string()), ("c", dbl())), num()),
                                 package_call("g", "two", num(), dbl())], SLOTTED),
    ("void in a slot", [imports("g"), package_call("g", "one", let("a", num())), package_call("g", "two", num(), let("b", num())),
                        package_call("g", "two", let("c", num()), num())], SLOTTED),
    ("slots bind by position", [imports("g"), package_call("g", "pair", record(("b", num()), ("a", string()))),
                                package_call("g", "pair", record(("a", num()))),
                                package_call("g", "pair", record(("a", num()), ("b", string()), ("c", dbl())))], SLOTTED),
    ("slots applied in order", [imports("g"), package_call("g", "three", record(("a", num()), ("b", array(string())), ("c", num())), array(string())),
                                package_call("g", "both", array(num()), num())], SLOTTED),
    ("fields applied in order", [imports("g"), let("r", record(("a", array(num())), ("b", package_call("g", "first", array(string()))))),
                                 package_call("g", "nested", ident("r"))], SLOTTED),
    ("unbound slots", [imports("g"), package_call("g", "first", num()), package_call("g", "both", num(), num())], SLOTTED),
    ("passed over", [imports("g"), let("a", package_call("g", "first", num())), package_call("g", "one", ident("a")),
                     package_call("g", "both", ident("a"), ident("a")), fn("f", [("x", "Int")], "Int", num()), call("f", ident("a"))], SLOTTED),
    ("wrong count", [imports("g"), package_call("g", "one"), package_call("g", "one", num(), num()), binary(package_call("g", "one"), "+", string()),
                     fn("f", [("x", "Int")], "Int", num()), call("f", string(), ident("z")), binary(call("f"), "+", num())], SLOTTED),
    ("bad conditions", [match([(num(), [dbl()]), (string(), [dbl()]), (ident("z"), [dbl(), string()])], [dbl()])], []),
    ("poisoned default", [match([(true(), [num()]), (true(), [string()])], [ident("z")]),
                          match([(true(), [ident("z")]), (true(), [string()])], [num()])], []),
    ("recursion", [fn("f", [("x", "Int")], "Int", call("f", ident("x"))), fn("g", [], "Int", call("h")), fn("h", [], "Int", num())], []),
    ("span of a return", [fn("f", [], option(array_of("Int")), num()), fn("g", [("x", "Int")], "Str", ident("x"))], []),
    ("span of a member", [array(num(), binary(dbl(), "+", dbl("3.0"))), array(num(), array(num(), num())), array(num(), record(("a", num()), ("b", num()))),
                          array(num(), cast(num(), "Double")), array(num(), field(record(("a", dbl())), "a")), array(num(), unary("-", dbl()))], []),
    ("span of an argument", [fn("f", [("x", "Bool")], "Int", num()), call("f", call("f", true())), call("f", let("a", num())),
                             call("f", match([(true(), [num()])], [num(), num()])), call("f", fn("k", [("y", "Int")], "Int", num(), num())),
                             call("f", imports("p", "q")), call("f", extern("e", ("k", [("x", option("Int"))], array_of("Str"))))], PACKAGES),
    ("repeated arguments", [fn("f", [("x", "Int"), ("x", "Str")], "Str", ident("x")), call("f", num(), string())], []),
    ("repeated fields", [let("a", record(("x", num()), ("x", string()))), binary(field(ident("a"), "x"), "+", num())], []),
    ("frames", [match([(true(), [let("a", num()), ident("a")])], [num()]), ident("a"), match([(let("b", num()), [ident("b")])], [ident("b")]), ident("b"),
                fn("f", [], "Int", match([(true(), [let("c", num())])], [let("c", num())]), ident("c"))], []),
    ("unary", [unary("-", num()), unary("+", dbl()), unary("*", num()), unary("-", string()), unary("-", ident("z"))], []),
    ("operators", [binary(true(), "==", true()), binary(string(), "!=", string()), binary(dbl(), "==", dbl()), binary(dbl(), "<", dbl()),
                   binary(true(), "<", true()), binary(dbl(), "%", dbl()), binary(num(), "%", dbl()), binary(num(), ">", dbl()), binary(num(), "==", dbl()),
                   binary(num(), "/", num()), binary(string(), "-", string())], []),
    ("groups", [imports("q"), package_call("q", "s", num()), package_call("q", "s", num(), num()), package_call("q", "s", string()),
                package_call("q", "s"), package_call("q", "s", ident("z")), package_call("q", "d", num()), package_call("q", "d", string()),
                package_call("q", "d"), package_call("q", "d", dbl()), package_call("q", "d", ident("z"))], PACKAGES),
    ("paths not found", [imports("x", "p", "y"), package_call("p", "f", num()), imports()], PACKAGES),
    ("defined already", [fn("f", [("x", option("Int"))], array_of("Int"), ident("z")), fn("f", [("x", option("Int"))], "Str", ident("w"), string()),
                         call("f", num())], []),
    ("unknown inside", [array(record(("a", array())), record(("a", num()))), array(record(("a", num())), record(("a", array()))),
                        fn("f", [("x", "Int")], "Int", num()), call("f", record(("a", array()))), let("r", record(("a", record(("b", array()))))),
                        field(field(ident("r"), "a"), "b"), binary(ident("r"), "==", ident("r"))], []),
    ("unknown field", [let("a", field(record(("a", array())), "a")), ident("a"), array(field(record(("a", array())), "a"))], []),
    ("let of a call", [fn("f", [], "Void"), let("a", call("f")), ident("a"), fn("g", [], "Int"), let("b", call("g")), binary(ident("b"), "+", num())], []),
    ("foreign", [fn("f", [("x", foreign("A"))], foreign("B"), ident("x")), fn("g", [("x", foreign("A"))], foreign("A"), ident("x"))], []),
    ("both operands", [binary(ident("z"), "+", ident("w")), record(("a", ident("z")), ("b", num()))], []),
    ("casts", [cast(num(), "Double"), cast(dbl(), "Int"), cast(true(), "Int"), cast(num(), "Bool"), cast(true(), "Double"), cast(dbl(), "Bool"),
               cast(string(), "Int"), cast(num(), "Str"), cast(array(num()), array_of("Str")), cast(string(), "Str")], []),
    ("fields", [field(num(), "a"), let("r", record(("a", num()), ("b", record(("c", string()))))), field(ident("r"), "c"),
                field(field(ident("r"), "b"), "c"), field(array(ident("r")), "a")], []),
    ("type depth 32", deep(32), SLOTTED),
    ("type depth 33 in a literal", [nested(32, array, num())], []),
    ("type depth 33 in a type expression", [cast(ident("z"), nested(32, option, "Int"))], []),
    ("type depth 33 in a filled slot", [let("a", nested(31, array, num())), imports("g"), package_call("g", "one", ident("a")),
                                        package_call("g", "two", ident("a"), ident("a"))], SLOTTED),
    ("full at the end", [ident("z")], []),
    ("pool alone", [num()], SLOTTED),
]


def long_messages(last):
    """8 messages that show a long type, 9 that show a long name, and a last one: 65,419 bytes and 20 + `last`."""
    long = record(*[("n" * 255, num())] * 30)
    return [let("r", long)] + [field(ident("r"), "z") for _ in range(8)] + [ident("m" * 255) for _ in range(9)] + [ident("l" * last)]


def whole_pool(*roots):
    """A library whose pool is as long as can be: 8,190 words."""
    return parts(roots)._replace(library=[8190, 0] + [3 << 28] * 8190)


# The limits of what is used: cases of their own, since each takes antt up to a minute.
LARGE = [
    ("256 diagnostics", parts([ident("x") for _ in range(256)])),
    ("257 diagnostics", parts([ident("x") for _ in range(257)])),
    ("8,192 type words", whole_pool(array(num()), array(num()))),
    ("8,193 type words", whole_pool(array(num()), array(num()), array(num()))),
    ("65,536 message bytes", parts(long_messages(97))),
    ("65,537 message bytes", parts(long_messages(98))),
]


# the sets: names and cases
SETS = {
    "handmade": [(name, case(roots, library)) for name, roots, library in HANDMADE],
    "large": [(name, join_case(p)) for name, p in LARGE],
}


def number(made, name):
    """The number of a case."""
    return [n for n, _ in SETS[made]].index(name)


def main():
    p = argparse.ArgumentParser(description=__doc__, formatter_class=argparse.RawDescriptionHelpFormatter)
    p.add_argument("--oracle", default=os.path.join(HERE, "..", "build", "oracle"))
    p.add_argument("--list", action="store_true")
    options = p.parse_args()
    for made, cases in SETS.items():
        if options.list:
            for k, (name, c) in enumerate(cases):
                print("%s %d %s: %s" % (made, k, name, split_case(c).script.decode()[:1000]))
            continue
        path = os.path.join(HERE, "cases", made)
        batch = batch_of([c for _, c in cases])
        with open(path + ".batch.gz", "wb") as f:
            f.write(gzip.compress(batch, mtime=0))
        with tempfile.NamedTemporaryFile() as plain:
            plain.write(batch)
            plain.flush()
            out = subprocess.run([options.oracle, "--domain", "--full", "--counts", "--batch", plain.name], stdout=subprocess.PIPE, check=True).stdout
        with open(path + ".full.gz", "wb") as f:
            f.write(gzip.compress(out, mtime=0))
        print("%s: %d cases" % (made, len(cases)))


if __name__ == "__main__":
    main()
