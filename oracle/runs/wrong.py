"""Wrong readings of request S-11, each a small change of the machine, of the table of calls, of the Opens or of what scripts are taken.

`against_wrong.py` says which are shut out by the promises and on which scripts. Some cannot be: a script without a diagnostic has no name
that only its caller binds and no % on Double, and a call's slot has its declaration's return type filled. Of those the hand-made script has
a diagnostic, or there is none, and only the difference between the two machines can be shown.
"""
from collections import namedtuple

from values import VOID_VALUE  # first: it puts the definitions' folder on the path
from build import (array, atom, binary, call, dbl, extern, field, fn, function, ident, imports, let, match, num, package, package_call,
                   parts, record, slot, string, true)
from machine import Run
from model_words import EXTERN, FN, IDENT
from opens import Open
from program import Package, Program

# lets_placed: whether scripts with a let as an operand are left out; by_hand: parts of a script that tells the reading apart
Reading = namedtuple("Reading", "about program run open lets_placed by_hand")


def changed(rules, **by_kind):
    """The rules with some in place of others: n5=f for kind 5."""
    return [by_kind.get("n%d" % k, rule) for k, rule in enumerate(rules)]


class CallerNames(Run):
    def own_call(self, n, declaration, given):
        _, names, body = self.nodes[declaration.fn][2]
        self.own_calls += 1
        before, self.frames = self.frames, self.frames + [self.arguments(names, given)]
        value = self.body(body)
        self.frames = before
        return value


class RunTime(Run):
    """Packages in force where the run stands."""

    def __init__(self, *given):
        Run.__init__(self, *given)
        self.packages = {}

    def declare(self, n, what):
        if self.nodes[n][0] == EXTERN:
            self.program.externed(self.packages, n)
        else:
            self.program.imported(self.packages, what)
        return VOID_VALUE

    def declaration(self, n):
        if self.nodes[self.nodes[n][2][0]][0] == IDENT:
            return self.program.calls.get(n)
        return self.program.package_function(self.packages, n)

    def ask(self, n, given):
        """An answer that is honest to the declaration in force, of an Open that makes answers by type."""
        if not hasattr(self.open, "answer_of"):
            return Run.ask(self, n, given)
        return self.open.answer_of(self.question(), self.program.filled_return(n, self.declaration(n).declared))

    RULES = changed(Run.RULES, n10=declare, n11=declare)


class LastCandidate(Program):
    def candidate(self, candidates, given):
        return len(candidates) - 1 if candidates else None


class LastEqual(Program):
    def candidate(self, candidates, given):
        equal = [place for place, c in enumerate(candidates) if c.args == given]
        return equal[-1] if equal else None


class Remainder(Run):
    @staticmethod
    def kinds_of(op):
        return Run.kinds_of(0 if op == 4 else op)


class FnValue(Run):
    def root(self, n):
        Run.root(self, n)
        if self.nodes[n][0] == FN:
            self.given.append((n, self.nodes[n][1], VOID_VALUE))


class SlotHonest(Open):
    @staticmethod
    def returns_of(program):
        return {program.nodes[n][1]: program.slot_types[program.nodes[n][1]]
                for n, c in program.calls.items() if isinstance(c, Package)}


class FirstArgument(Run):
    def arguments(self, names, given):
        return dict(reversed(list(zip(names, given))))


class NoFrame(Run):
    """A Match's body in the frame around it."""

    def body(self, nodes):
        value = VOID_VALUE
        for n in nodes:
            value = self.node(n)
        return value


class NoFrameFn(Run):
    """A function's body in its caller's frame."""

    def own_call(self, n, declaration, given):
        _, names, body = self.nodes[declaration.fn][2]
        self.own_calls += 1
        self.frames[-1].update(self.arguments(names, given))
        value = VOID_VALUE
        for statement in body:
            value = self.node(statement)
        return value


class TargetEntered(Run):
    def call(self, n, what):
        self.enter(what[0])
        return Run.call(self, n, what)

    RULES = changed(Run.RULES, n7=call)


class EveryBody(Run):
    """A Match runs the bodies of all true conditions."""

    def match(self, n, what):
        cases, default = what
        found = [self.body(body) for condition, body in cases if self.node(condition)[1]]
        return found[0] if found else self.body(default)

    RULES = changed(Run.RULES, n6=match)


class OneMore(Run):
    """A step more than the budget."""

    def __init__(self, program, open_, budget):
        Run.__init__(self, program, open_, budget + 1)


def of(kind):
    return lambda program, open_, budget: kind(program, open_, budget).whole()


def reading(about, by_hand, program=Program, run=Run, open_=Open, lets_placed=True):
    return Reading(about, program, of(run), open_, lets_placed, by_hand)


RIGHT = reading("this reading", None)

GROUP = [package("m", function("of", [("n", "Int")], "Int"), function("of", [("n", "Str")], "Str"))]
EQUAL = [package("m", function("of", [("n", "Int")], "Int"), function("of", [("n", "Int")], "Str"))]
SAME = [package("m", function("same", [("it", slot("T"))], slot("T"), True))]


def in_condition():
    """A let that a run may skip."""
    skipped = field(record(("a", let("x", num("1"))), ("b", true())), "b")
    return [match([(true(), [num("1")]), (skipped, [num("2")])], [num("3")]), ident("x")]


READINGS = {
    "caller-names": reading("a body that sees its caller's names", parts(
        [fn("f", [], "Int", ident("x")), let("x", num("1")), call("f")]), run=CallerNames),
    "run-time": reading("a call by the declaration in force at run time", parts(
        [extern("p", ("g", [], "Int")), fn("f", [], "Int", package_call("p", "g")), extern("p", ("g", [], "Str")), call("f")]), run=RunTime),
    "last-candidate": reading("a group's last candidate", parts(
        [imports("m"), package_call("m", "of", num("1"))], GROUP), program=LastCandidate),
    "last-equal": reading("of a group's equal candidates the last", parts(
        [imports("m"), package_call("m", "of", num("1"))], EQUAL), program=LastEqual),
    "remainder": reading("% on Double allowed in the run", parts([binary(dbl(), "%", dbl())]), run=Remainder),
    "let-anywhere": reading("a let as an operand allowed", parts(in_condition()), lets_placed=False),
    "fn-value": reading("an Fn that gives a value", parts([fn("f", [], "Int", num("1"))]), run=FnValue),
    "slot-honest": reading("package answers honest by the call's slot type only", parts(
        [imports("m"), package_call("m", "same", num("1"))], SAME), open_=SlotHonest),
    "first-argument": reading("of equal argument names the first is bound", parts(
        [fn("f", [("a", "Int"), ("a", "Str")], "Str", ident("a")), call("f", num("1"), string())]), run=FirstArgument),
    "no-frame": reading("a Match's body without a frame", parts(
        [let("x", num("1")), match([(true(), [let("x", string()), num("2")])], [num("3")]), binary(ident("x"), "+", num("1"))]), run=NoFrame),
    "no-frame-fn": reading("a function's body without a frame", parts(
        [let("x", num("1")), fn("f", [], "Int", let("x", string()), num("2")), call("f"), binary(ident("x"), "+", num("1"))]), run=NoFrameFn),
    "target-entered": reading("a call's target is entered", parts([fn("f", [], "Int", num("1")), call("f")]), run=TargetEntered),
    "every-body": reading("the bodies of all true conditions are run", parts(
        [match([(true(), [num("1")]), (true(), [num("2")])], [num("3")]), array(atom("true", "Bool"))]), run=EveryBody),
    "one-more": reading("a step more than the budget", parts([num("1"), num("2")]), run=OneMore),
}
