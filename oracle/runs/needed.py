#!/usr/bin/env python3
"""For each hypothesis of request S-11 scripts that meet all the others, and whose run gets stuck or gives a value that does not fit.

  needed.py > needed.txt

The hypotheses: (1) no diagnostic; (2) a let stands only as a root or a body's own statement; (3) an Fn only as a root; (4) a package
function gives a value of its return type or halts the run. Of each script the Rust (`../build/oracle`) says which diagnostics it has; that
the others are met is tried here. Printed are the text, the words of image and library in hexadecimal as document 01 prints row (a), one
record a line, the same as decimal lists, and the run under a budget of 20 steps with the Open `Written` of opens.py (number k is
k).

Exit status: 1 if a script does not show what it should.
"""
import sys
from collections import namedtuple

import checked
from build import (array, binary, call, cast, dbl, extern, field, fn, function, ident, imports, let, match, num, package, package_call,
                   parts, record, slot, string, true, unary)
from machine import run
from opens import Written
from program import KIND_NAMES
from promise import misfits
from values import shown

BUDGET = 20
STR = ("str", b"s")
# hypothesis: the one that is not met; codes: the diagnostics that the Rust must give; shows: part of what the run must show
Example = namedtuple("Example", "hypothesis title parts answers codes shows")


def skipped_let():
    condition = field(record(("a", let("x", num("1"))), ("b", true())), "b")
    return [match([(true(), [num("1")]), (condition, [num("2")])], [num("3")]), ident("x")]


def short_skipped_let():
    """The same with empty bodies: fewer words."""
    return [match([(true(), []), (field(record(("a", let("x", num("1"))), ("b", true())), "b"), [])], []), ident("x")]


ONE = fn("f", [], "Int", num("1"))
G = extern("p", ("g", [], "Int"))
SAME = [package("m", function("same", [("it", slot("T"))], slot("T"), True))]

EXAMPLES = [
    Example(1, "an unbound name", parts([ident("x")]), [], [3], "unbound name"),
    Example(1, "a missing field", parts([field(record(("a", num("1"))), "b")]), [], [13], "missing field"),
    Example(1, "a field of what is no record", parts([field(num("1"), "a")]), [], [12], "missing field"),
    Example(1, "a condition that is not Bool", parts([match([(num("1"), [])], [])]), [], [23], "condition not Bool"),
    Example(1, "a wrong argument count", parts([fn("f", [], "Void"), call("f", num("1"))]), [], [19], "wrong argument count"),
    Example(1, "an operator on kinds its rule lacks", parts([binary(num("1"), "+", dbl("2.0"))]), [], [5], "operator on kinds"),
    Example(1, "% on two Doubles", parts([binary(dbl("1.0"), "%", dbl("2.0"))]), [], [4], "operator on kinds"),
    Example(1, "a cast to the same kind, which the check types", parts([cast(num("1"), "Int")]), [], [10], "operator on kinds"),
    Example(1, "a call without declaration", parts([call("f")]), [], [17], "call without declaration"),
    Example(1, "a body of another type", parts([fn("f", [], "Int", string("s")), call("f")]), [], [9], 'gave "s", slot'),
    Example(1, "members that differ: no slot type", parts([array(num("1"), string("s"))]), [], [2], "has type None"),
    Example(2, "a let in a condition that is not tried", parts(skipped_let()), [], [], "unbound name"),
    Example(2, "the same, shorter", parts(short_skipped_let()), [], [], "unbound name"),
    Example(3, "an Fn as an operand", parts([unary("+", ONE)]), [], [], "misplaced node"),
    Example(3, "an Fn as a let's right side", parts([let("x", ONE), ident("x")]), [], [], "misplaced node"),
    Example(3, "an Fn as a body's last statement", parts([match([], [ONE])]), [], [], "misplaced node"),
    Example(4, "a package function of return type Int that gives a Str", parts([G, package_call("p", "g")]), [(1, 0, STR)], [], 'gave "s", slot'),
    Example(4, "the same under an operator", parts([G, unary("+", package_call("p", "g"))]), [(2, 0, STR)], [], "operator on kinds"),
    Example(4, "a slotted one, its slot filled as at the call with Int, that gives a Str",
            parts([imports("m"), package_call("m", "same", num("1"))], SAME), [None, (1, 1, STR)], [], 'gave "s", slot'),
]


def word(w):
    return "%08X" % w if w >= 1 << 28 else "%X" % w


def image_lines(image):
    """Counts, roots, and a record a line; a record's first word always in eight digits, as document 01 prints it."""
    nodes, types, roots, _ = image[:4]
    lines, at = [" ".join(word(w) for w in image[:4]), " ".join(word(w) for w in image[4:4 + roots])], 4 + roots
    for k in range(nodes + types):
        size = image[at] & 0xFFFFFFF
        name = "n%d %s" % (k, KIND_NAMES[image[at] >> 28]) if k < nodes else "t%d" % (k - nodes)
        lines.append(("%08X " % image[at] + " ".join(word(w) for w in image[at + 1:at + size])).ljust(60) + name)
        at += size
    return lines


def broken(program, result):
    """What the run shows, in words."""
    found = misfits(program, result)
    return found + (["stuck: %s, at node %d" % (result.why, result.at)] if result.ending == "stuck" else [])


def as_claimed(example, program, told, found):
    """That the named hypothesis alone is not met, and that the run shows it."""
    unmet = {1: bool(told), 2: bool(program.misplaced_lets), 3: bool(program.misplaced_fns), 4: bool(example.answers)}
    return ([code for code, _ in told] == example.codes and any(example.shows in why for why in found)
            and all(unmet[h] == (h == example.hypothesis) for h in unmet))


def show(number, example):
    program, told = checked.by_hand(example.parts)
    result = run(program, Written(example.answers), BUDGET)
    found = broken(program, result)
    p = example.parts
    print("\n## %d. Hypothesis %d: %s\n" % (number, example.hypothesis, example.title))
    print("script   %s" % p.script.decode())
    if p.text:
        print("library text   %s" % p.text.decode())
    print("library   %s" % " ".join(word(w) for w in p.library))
    print("image\n    " + "\n    ".join(image_lines(p.image)))
    print("decimal  script %s\n         image %s" % (list(p.script), p.image))
    print("         library text %s\n         library %s" % (list(p.text), p.library))
    print("diagnostics of the Rust   %s" % ("; ".join("%d %s" % t for t in told) or "none"))
    if example.answers:
        print("package answers   %s" % ", ".join("%s to the call with slot %d" % (shown(v), q) for q, _, v in filter(None, example.answers)))
    print("run      %s, %d steps of %d, roots run %d, nodes entered %s" % (
        result.ending, result.steps, BUDGET, result.roots_run, " ".join(map(str, result.entered))))
    print("values   %s" % ("; ".join("node %d %s" % (n, shown(v)) for n, _, v in result.given) or "none"))
    print("shows    %s" % "; ".join(found))
    return as_claimed(example, program, told, found)


def main():
    print("# Request S-11: what each hypothesis is needed for. Made by `needed.py > needed.txt`.")
    wrong = [k for k, example in enumerate(EXAMPLES, 1) if not show(k, example)]
    print("\n%s" % ("not as claimed: %s" % wrong if wrong else "all as claimed"))
    sys.exit(1 if wrong else 0)


if __name__ == "__main__":
    main()
