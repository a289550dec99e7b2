"""Opens by chance, each a function of what it is asked: the same questions get the same answers under every budget.

The answers of package functions are honest to the declaration that the call has, its slots filled as at the call, and not to the type in the
call's slot: that the two agree is part of what is tried. That answers depend on the question's number, not on the values given, is no loss:
in a run the number decides the values.
"""
from machine import HALT
from program import Package
from values import mixed, value_of


class Open:
    """`halting`: an answer in so many halts the run, 0 for none."""

    def __init__(self, program, seed, halting=0):
        self.seed, self.halting = seed, halting
        self.returns = self.returns_of(program)

    @staticmethod
    def returns_of(program):
        """{slot of a package call: the type that an honest answer has}."""
        return {program.nodes[n][1]: program.returned(n) for n, c in program.calls.items() if isinstance(c, Package)}

    def number(self, k):
        return mixed(self.seed, 1, k) % 5

    def compare(self, op, kind, left, right):
        return mixed(self.seed, 2, op, kind, left, right) % 2 == 1

    def to_bool(self, kind, number):
        return mixed(self.seed, 3, kind, number) % 2 == 1

    def answer(self, k, slot, values):
        return self.answer_of(k, self.returns[slot])

    def answer_of(self, k, type_):
        if self.halting and mixed(self.seed, 5, k) % self.halting == 0:
            return HALT
        return value_of(type_, mixed(self.seed, 6, k))


class Written:
    """An Open that can be written out: the rest small sums, the answers of packages in a list of (slot, how many values, value).

    The k-th of the list answers question k, if it comes from that slot with so many values; every other call halts the run.
    `against_definitions.py` gives the definitions the same functions.
    """

    def __init__(self, answers=()):
        self.answers = list(answers)

    def number(self, k):
        return k

    def compare(self, op, kind, left, right):
        return (op + kind + left + right) % 2 == 0

    def to_bool(self, kind, number):
        return (kind + number) % 2 == 0

    def answer(self, k, slot, values):
        if k < len(self.answers) and self.answers[k] is not None and self.answers[k][:2] == (slot, len(values)):
            return self.answers[k][2]
        return HALT


class Writing(Written):
    """A Written that makes its list while a script is run: honest answers by chance, some of which halt."""

    def __init__(self, program, seed):
        Written.__init__(self)
        self.seed, self.returns = seed, Open.returns_of(program)

    def answer(self, k, slot, values):
        self.answers += [None] * (k - len(self.answers))
        if mixed(self.seed, 5, k) % 8 == 0:
            return HALT
        self.answers.append((slot, len(values), value_of(self.returns[slot], mixed(self.seed, 6, k))))
        return self.answers[k][2]
