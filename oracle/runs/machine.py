"""A run of the nodes of an image with a budget of steps: a second reading of request S-11, written from the documents.

One step for each node entered; a call's target is never entered. Parts from left to right. A Match tries its conditions in order and runs
the body of the first true one, else the default; other bodies are not run. A body has a frame of its own, which ends with it, and its value
is its last node's, void where it has none. A function body sees its arguments and its own lets only.

What S-11 leaves open is asked of an Open, whose methods are

    number(k)                        a number: of a literal, of + - * / %, of unary + -, of a cast to Int or Double
    answer(k, slot, values)          a package function's answer to the call with that slot, or HALT
    compare(op, kind, left, right)   a comparison of two numbers, by operator number and kind of type
    to_bool(kind, number)            a cast of a number to Bool

k counts the questions asked, numbers and answers alike, from 0; the other two are fixed functions of the whole run, and not counted.
"""
import sys
from collections import namedtuple

from values import VOID_VALUE  # first: it puts the definitions' folder on the path
from model_words import BOOL, DOUBLE, FN, INT, STR
from program import Own

# ending: ended, halted, spent or stuck; why and at: of a stuck one, the node whose rule is stuck
Result = namedtuple("Result", "ending why at roots_run steps questions own_calls entered given")

HALT = object()
ENDED, HALTED, SPENT, STUCK = "ended", "halted", "spent", "stuck"
UNBOUND, NO_FIELD, NOT_BOOL = "unbound name", "missing field", "condition not Bool"
WRONG_COUNT, WRONG_KINDS = "wrong argument count", "operator on kinds its rule lacks"
NO_DECLARATION, MISPLACED = "call without declaration", "misplaced node"

ARITHMETIC, REMAINDER, EQUALITY = (0, 1, 2, 3), (4,), (5, 6)
NUMBERS = {"int": INT, "double": DOUBLE}
# a node takes a few of Python's frames, and a script of endless calls as many nodes as its budget
DEEP = 400000


class Stop(Exception):
    """The run is over before its last root."""

    def __init__(self, ending, why=None, at=None):
        Exception.__init__(self)
        self.ending, self.why, self.at = ending, why, at


class Run:
    def __init__(self, program, open_, budget):
        self.program, self.nodes, self.open, self.left = program, program.nodes, open_, budget
        self.frames = [{}]
        self.roots_run = self.questions = self.own_calls = 0
        self.entered, self.given = [], []

    def whole(self):
        """Every root in order, until something stops the run: its state at the end."""
        sys.setrecursionlimit(DEEP)
        ending, why, at = ENDED, None, None
        try:
            for n in self.program.roots:
                self.root(n)
                self.roots_run += 1
        except Stop as stop:
            ending, why, at = stop.ending, stop.why, stop.at
        return Result(ending, why, at, self.roots_run, len(self.entered), self.questions, self.own_calls, self.entered, self.given)

    # nodes

    def enter(self, n):
        if self.left == 0:
            raise Stop(SPENT)
        self.left -= 1
        self.entered.append(n)

    def root(self, n):
        """An Fn that stands as a root is entered and has no value; any other root is a node like others."""
        if self.nodes[n][0] == FN:
            self.enter(n)
        else:
            self.node(n)

    def node(self, n):
        """A node's value. An Fn has none, so that one that stands where a value is asked for is not even entered."""
        k, slot, what = self.nodes[n]
        if k == FN:
            raise Stop(STUCK, MISPLACED, n)
        self.enter(n)
        value = self.RULES[k](self, n, what)
        self.given.append((n, slot, value))
        return value

    def body(self, nodes):
        self.frames.append({})
        value = VOID_VALUE
        for n in nodes:
            value = self.node(n)
        self.frames.pop()
        return value

    # what is left open

    def question(self):
        self.questions += 1
        return self.questions - 1

    def number(self, made):
        return (made, self.open.number(self.question()))

    # rules

    def atom(self, n, what):
        k, data = what
        if k == BOOL:
            return ("bool", data == b"true")
        if k == STR:
            return ("str", data)
        return self.number("int" if k == INT else "double")

    def ident(self, n, name):
        for frame in reversed(self.frames):
            if name in frame:
                return frame[name]
        raise Stop(STUCK, UNBOUND, n)

    def bin(self, n, what):
        op, left, right = what
        l, r = self.node(left), self.node(right)
        if l[0] != r[0] or l[0] not in self.kinds_of(op):
            raise Stop(STUCK, WRONG_KINDS, n)
        if op in ARITHMETIC or op in REMAINDER:
            return self.number(l[0])
        if l[0] in NUMBERS:
            return ("bool", self.open.compare(op, NUMBERS[l[0]], l[1], r[1]))
        return ("bool", (l[1] == r[1]) == (op == EQUALITY[0]))

    @staticmethod
    def kinds_of(op):
        """The kinds that both sides of an operator may have, document 01's table: < and > as +."""
        if op in REMAINDER:
            return ("int",)
        return ("int", "bool", "str") if op in EQUALITY else ("int", "double")

    def unary(self, n, what):
        op, right = what
        value = self.node(right)
        if op > 1 or value[0] not in NUMBERS:
            raise Stop(STUCK, WRONG_KINDS, n)
        return self.number(value[0])

    def let(self, n, what):
        name, right = what
        value = self.node(right)
        self.frames[-1][name] = value
        return VOID_VALUE

    def match(self, n, what):
        cases, default = what
        for condition, body in cases:
            value = self.node(condition)
            if value[0] != "bool":
                raise Stop(STUCK, NOT_BOOL, n)
            if value[1]:
                return self.body(body)
        return self.body(default)

    def field(self, n, what):
        target, name = what
        value = self.node(target)
        if value[0] == "object":
            for field, v in value[1]:
                if field == name:
                    return v
        raise Stop(STUCK, NO_FIELD, n)

    def cast(self, n, what):
        left, to = what
        value = self.node(left)
        if (value[0], to) in (("int", DOUBLE), ("double", INT), ("bool", INT)):
            return self.number("double" if to == DOUBLE else "int")
        if (value[0], to) == ("int", BOOL):
            return ("bool", self.open.to_bool(INT, value[1]))
        raise Stop(STUCK, WRONG_KINDS, n)

    def nothing(self, n, what):
        """Import and Extern: what they declare was fixed by the check's visits."""
        return VOID_VALUE

    def record(self, n, pairs):
        fields = []
        for name, part in pairs:
            fields.append((name, self.node(part)))
        return ("object", tuple(fields))

    def array(self, n, members):
        found = []
        for m in members:
            found.append(self.node(m))
        return ("array", tuple(found))

    # calls

    def call(self, n, what):
        _, args = what
        given = []
        for a in args:
            given.append(self.node(a))
        declaration = self.declaration(n)
        if declaration is None:
            raise Stop(STUCK, NO_DECLARATION, n)
        if isinstance(declaration, Own):
            return self.own_call(n, declaration, given)
        if len(given) != len(declaration.declared.args):
            raise Stop(STUCK, WRONG_COUNT, n)
        value = self.ask(n, given)
        if value is HALT:
            raise Stop(HALTED)
        return value

    def declaration(self, n):
        return self.program.calls.get(n)

    def ask(self, n, given):
        return self.open.answer(self.question(), self.nodes[n][1], tuple(given))

    def own_call(self, n, declaration, given):
        _, names, body = self.nodes[declaration.fn][2]
        if len(given) != len(names):
            raise Stop(STUCK, WRONG_COUNT, n)
        self.own_calls += 1
        before, self.frames = self.frames, [self.arguments(names, given)]
        value = self.body(body)
        self.frames = before
        return value

    def arguments(self, names, given):
        """Of equal names the last is bound."""
        return dict(zip(names, given))

    # by kind; an Fn has no rule
    RULES = [atom, ident, bin, unary, let, None, match, call, field, cast, nothing, nothing, record, array]


def run(program, open_, budget):
    return Run(program, open_, budget).whole()
