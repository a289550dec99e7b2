"""Scripts by chance that meet the hypotheses of request S-11, for what `../build/cases` seldom makes: own functions that are called.

That generator puts lets and Fns anywhere and calls few functions, so most of its scripts are left out here and few runs come to a body.
These have functions that call each other and themselves, packages declared anew between a function and its call, groups of several, slots,
equal argument names, and few names, so that lets in bodies meet the names outside. The tree is made in the order of the check's visits.
"""
import random

import values  # noqa: F401  (puts the definitions' folder on the path)
from build import (array, array_of, atom, binary, call, cast, dbl, extern, field, fn, foreign, function, ident, imports, let, match, num,
                   option, package, package_call, parts, record, record_of, slot, string, unary)

NAMES = ("a", "b", "c", "x", "yy")
PLAIN = ("Int", "Double", "Bool", "Str")
MADE = (option("Int"), foreign("File"), option(array_of("Str")))
LIBRARY = (
    package("box", *[function("make%d" % i, [], t) for i, t in enumerate(MADE)],
            function("first", [("from", array_of(slot("T")))], option(slot("T")), True),
            function("same", [("it", slot("T"))], slot("T"), True),
            function("pair", [("l", slot("T")), ("r", slot("U"))], record_of(("l", slot("T")), ("r", array_of(slot("U")))), True),
            function("log", [("it", "Str")], "Void")),
    package("many", function("of", [("n", "Int")], "Int"), function("of", [("n", "Str")], "Str"),
            function("of", [("n", "Int"), ("m", "Int")], "Double"), function("of", [("n", "Bool")], "Int"),
            function("of", [("n", "Int")], "Str"), function("of", [("n", array_of("Int"))], array_of("Bool"))),
    package("p", function("g", [], "Int"), function("h", [("n", "Int")], "Str")),
    package("p", function("g", [], "Str")))


class Maker:
    def __init__(self, seed, number):
        self.pick = random.Random(seed * 1000003 + number)
        self.frames, self.own, self.packages, self.room = [{}], {}, {}, self.pick.choice((8, 20, 60, 120))
        # one script in twenty has lets as operands: those are left out, unless a wrong reading takes them
        self.loose = self.pick.randrange(20) == 0

    # types

    def type(self, depth=2):
        chance = self.pick.randrange(10)
        if depth == 0 or chance < 6:
            return self.pick.choice(PLAIN)
        if chance < 7:
            return array_of(self.type(depth - 1))
        if chance < 9:
            return record_of(*[(self.pick.choice(NAMES), self.type(depth - 1)) for _ in range(self.pick.randrange(1, 4))])
        return self.pick.choice(MADE)

    # what is in reach

    def bound(self, wanted):
        seen = {}
        for frame in self.frames:
            seen.update(frame)
        return [name for name, t in seen.items() if t == wanted]

    def functions_giving(self, wanted):
        """Package functions without slots: (package, function, argument types); of a group the first of equal argument types counts."""
        found = []
        for pkg, functions in self.packages.items():
            for k, (name, args, ret, slots) in enumerate(functions):
                types = [t for _, t in args]
                earlier = any(f[0] == name and [t for _, t in f[1]] == types for f in functions[:k])
                if ret == wanted and not slots and not earlier:
                    found.append((pkg, name, types))
        return found

    # expressions

    def expression(self, wanted, size):
        self.room -= 1
        size = size if self.room > 0 else 0
        names = self.bound(wanted)
        if names and self.pick.randrange(3) == 0:
            return ident(self.pick.choice(names))
        makers = [self.plain]
        if size:
            makers += [self.plain, self.choice, self.own_call, self.own_call, self.package_call, self.slotted_call, self.taken_field]
        made = self.pick.choice(makers)(wanted, size)
        return made if made is not None else self.plain(wanted, size)

    def plain(self, wanted, size):
        """A node whose own rule gives the type; of a type that no rule makes, a binding or a package's answer."""
        if wanted in PLAIN:
            return getattr(self, wanted.lower())(size)
        if wanted == "Void":
            return match([], [])
        if wanted[0] == "array":
            return array(*[self.expression(wanted[1], size // 2) for _ in range(self.pick.randrange(1, 3))])
        if wanted[0] == "record":
            return record(*[(name, self.expression(t, size // 2)) for name, t in wanted[1]])
        names = self.bound(wanted)
        if names:
            return ident(self.pick.choice(names))
        return package_call("box", "make%d" % MADE.index(wanted)) if wanted in MADE else self.option_first(wanted)

    def option_first(self, wanted):
        return package_call("box", "first", array(self.expression(wanted[1], 0)))

    def int(self, size):
        chance = self.pick.randrange(5) if size else 0
        if chance < 2:
            return num(str(self.pick.randrange(3)))
        if chance == 2:
            return unary(self.pick.choice("+-"), self.expression("Int", size - 1))
        if chance == 3:
            return cast(self.expression(self.pick.choice(("Double", "Bool")), size - 1), "Int")
        return self.two("Int", self.pick.choice("+-*/%"), size)

    def double(self, size):
        chance = self.pick.randrange(5) if size else 0
        if chance < 2:
            return dbl("%d.5" % self.pick.randrange(3))
        if chance == 2:
            return unary(self.pick.choice("+-"), self.expression("Double", size - 1))
        return cast(self.expression("Int", size - 1), "Double") if chance == 3 else self.two("Double", self.pick.choice("+-*/"), size)

    def bool(self, size):
        chance = self.pick.randrange(6) if size else 0
        if chance < 1:
            return atom(self.pick.choice(("true", "false")), "Bool")
        if chance == 1:
            return cast(self.expression("Int", size - 1), "Bool")
        if chance == 2:
            return self.two("Double", self.pick.choice("<>"), size)
        if chance == 3:
            return self.two(self.pick.choice(("Bool", "Str")), self.pick.choice(("==", "!=")), size)
        return self.two("Int", self.pick.choice(("==", "!=", "<", ">")), size)

    def str(self, size):
        return string(self.pick.choice(("", "s", "true")))

    def two(self, kind, op, size):
        left = self.expression(kind, size // 2)
        return binary(left, op, self.expression(kind, size // 2))

    def choice(self, wanted, size):
        cases = []
        for _ in range(self.pick.randrange(3)):
            condition = self.with_let(size // 2) if self.loose else self.expression("Bool", size // 2)
            cases.append((condition, self.body(wanted, size // 2)))
        return match(cases, self.body(wanted, size // 2))

    def with_let(self, size):
        """A condition that binds a name where it stands."""
        bound = self.let(size)
        return field(record(("l", bound), ("r", self.expression("Bool", size))), "r")

    def body(self, wanted, size):
        self.frames.append({})
        made = [self.statement(size) for _ in range(self.pick.choice((0, 0, 1, 2)))]
        if wanted != "Void" or self.pick.randrange(2):
            made.append(self.let(size) if wanted == "Void" and self.pick.randrange(2) else self.expression(wanted, size))
        elif made:
            made.append(match([], []))
        self.frames.pop()
        return made

    def taken_field(self, wanted, size):
        """The first field of a name is the one that is taken."""
        name, others = self.pick.choice(NAMES), [(self.pick.choice(NAMES), self.type(1)) for _ in range(2)]
        fields = [(n, t) for n, t in others if n != name] + [(name, wanted)] + [(name, "Str")] * self.pick.randrange(2)
        return field(self.expression(record_of(*fields), size // 2), name)

    # calls

    def own_call(self, wanted, size):
        found = [(name, args) for name, (args, ret) in self.own.items() if ret == wanted]
        if not found:
            return None
        name, args = self.pick.choice(found)
        return call(name, *[self.expression(t, size // 2) for t in args])

    def package_call(self, wanted, size):
        found = self.functions_giving(wanted)
        if not found:
            return None
        pkg, name, types = self.pick.choice(found)
        return package_call(pkg, name, *[self.expression(t, size // 2) for t in types])

    def slotted_call(self, wanted, size):
        if wanted == "Void":
            return package_call("box", "log", self.expression("Str", size // 2))
        if wanted[0] == "option":
            return package_call("box", "first", self.expression(array_of(wanted[1]), size // 2))
        if self.pick.randrange(2):
            return package_call("box", "same", self.expression(wanted, size // 2))
        left = self.expression(wanted, size // 2)
        return field(package_call("box", "pair", left, self.expression(self.type(1), size // 2)), "l")

    # statements

    def let(self, size):
        name, t = self.pick.choice(NAMES), self.type()
        made = let(name, self.expression(t, size))
        self.frames[-1][name] = t
        return made

    def statement(self, size):
        chance = self.pick.randrange(12)
        if chance < 6:
            return self.let(size)
        return self.declare() if chance == 6 else self.expression(self.pick.choice((self.type(), "Void")), size)

    def declare(self):
        """An Import or an Extern: of p in place of what it was, its g of another return type."""
        if self.pick.randrange(4) == 0:
            path = self.pick.choice(("p", "many"))
            held = {name: functions for name, functions in reversed(LIBRARY)}
            self.packages.setdefault(path, held[path])
            return imports(path)
        name = self.pick.choice(("p", "p", "many", "ext"))
        functions = [("g", [], self.type())]
        functions += [("h", [("n", self.type(0))], self.type(1)) for _ in range(self.pick.randrange(3))]
        self.packages[name] = [f + (False,) for f in functions]
        return extern(name, *functions)

    def function(self, name):
        args = [(self.pick.choice(NAMES), self.type(1)) for _ in range(self.pick.randrange(4))]
        ret = self.pick.choice((self.type(), "Int", "Void"))
        self.own[name] = ([t for _, t in args], ret)
        before, self.frames = self.frames, [dict(args)]
        made = fn(name, args, ret, *self.body(ret, 6))
        self.frames = before
        return made

    def script(self):
        self.packages["box"] = [f for f in LIBRARY[0][1]]
        roots, functions = [imports("box")], 0
        while self.room > 0:
            if functions < 5 and self.pick.randrange(3) == 0:
                roots.append(self.function("f%d" % functions))
                functions += 1
            else:
                roots.append(self.statement(8))
            self.room -= 1
        for name, (args, ret) in self.own.items():
            if self.pick.randrange(3):
                roots.append(call(name, *[self.expression(t, 3) for t in args]))
        return parts(roots, LIBRARY)


def script(seed, number):
    """The script of that number."""
    return Maker(seed, number).script()
