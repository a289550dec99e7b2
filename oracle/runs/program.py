"""A checked script as a run sees it: its nodes, the type in each slot, and the declaration that each call has.

Request S-11 fixes functions and packages "by the declarations in force when the call was visited": so the table of calls is made once,
by one pass over the nodes in the order of the check's visits, and a run never looks a function up again. A body is visited once, where its
Fn stands; a run may come to it many times, and always finds what the visit found.

The pass is exact for a script without a diagnostic. Of others (needed.py) it passes over the few visits that a fault saves.
"""
from collections import namedtuple

import values  # noqa: F401  (puts the definitions' folder on the path)
from model_words import (ARRAY, ATOM, BIN, CALL, CAST, EXTERN, FIELD, FN, FOREIGN, IDENT, IMPORT, LET, MATCH, OPTION, RECORD,
                         RECORD_NODE, SLOT, UNARY, Words, kind, payload)

KIND_NAMES = ("Atom", "Ident", "Bin", "Unary", "Let", "Fn", "Match", "Call", "Field", "Cast", "Import", "Extern", "Record", "Array")
ROOT, STATEMENT, OPERAND = "root", "statement", "operand"

# a package function: argument types, return type, whether it has slots
Declared = namedtuple("Declared", "args ret slots")
# a package held: the Extern's node, or N plus the library package's position; and {function: [Declared]}
Held = namedtuple("Held", "origin groups")
# what a call has: an own function's Fn node, or a package function; group is how many candidates there were, place the one among them
Own = namedtuple("Own", "fn")
Package = namedtuple("Package", "declared group place origin")


def bind(expected, given, bindings):
    """Finds what the slots of an argument type stand for at a call; the first finding of a name is kept."""
    if given is None:
        return
    if expected[0] == SLOT:
        bindings.setdefault(expected[1], given)
    elif expected[0] == given[0] and expected[0] in (OPTION, ARRAY):
        bind(expected[1], given[1], bindings)
    elif expected[0] == given[0] == RECORD:
        for (_, e), (_, g) in zip(expected[1], given[1]):
            bind(e, g, bindings)


def filled(type_, bindings):
    """A type with its slots filled."""
    if type_[0] == SLOT:
        return bindings.get(type_[1], type_)
    if type_[0] in (OPTION, ARRAY):
        return (type_[0], filled(type_[1], bindings))
    if type_[0] == RECORD:
        return (RECORD, tuple((name, filled(t, bindings)) for name, t in type_[1]))
    return type_


def detail(words, k, rest):
    """A node's words, with every name by its bytes."""
    if k == ATOM:
        return rest[1], words.name(rest[0])
    if k == IDENT:
        return words.name(rest[0])
    if k == LET:
        return words.name(rest[0]), rest[1]
    if k == FN:
        n = rest[2]
        return words.name(rest[0]), [words.name(rest[3 + 2 * i]) for i in range(n)], rest[3 + 2 * n:]
    if k == MATCH:
        cases, _, default = words.cases(rest)
        return [(condition, body) for _, condition, body in cases], default
    if k == FIELD:
        return rest[0], words.name(rest[1])
    if k == RECORD_NODE:
        return [(words.name(rest[i]), rest[i + 1]) for i in range(1, len(rest), 2)]
    if k == CAST:
        at = words.at_type[rest[2]]
        return rest[1], words.image[at + 2] if kind(words.image[at]) == 0 else None
    if k in (BIN, UNARY):
        return rest[1:]
    if k == CALL:
        return rest[0], rest[1:]
    return rest[1:] if k != EXTERN else rest


class Program:
    """Made of a script and the check's answer: its slots and types are the buffers after the check."""

    def __init__(self, parts, slots, types):
        self.parts, self.words = parts, Words(parts, types)
        self.count, self.roots, self.void = self.words.count, self.words.roots, self.words.void
        self.nodes = []
        for n in range(self.count):
            k, slot, rest = self.words.node_words(n)
            self.nodes.append((k, slot, detail(self.words, k, rest)))
        self.slot_types = [self.words.unfolded(w) if w else None for w in slots[:self.void + 1]]
        self.calls, self.own, self.packages = {}, {}, {}
        self.visited, self.misplaced_lets, self.misplaced_fns = [], [], []
        self.in_body_of, self.recursive, self.replaced, self.packages_in_bodies = None, False, False, False
        self.library = self.read_library()
        self.first_misplaced = None
        for k, n in enumerate(self.roots):
            self.visit(n, ROOT)
            if self.first_misplaced is None and not self.placed():
                self.first_misplaced = k

    # declarations

    def read_library(self):
        """Packages in order: (name, {function: [Declared]})."""
        words, out = self.parts.library, []
        at = 2 + words[0]
        for _ in range(words[1]):
            name, functions, at = words[at], words[at + 1], at + 2
            groups = {}
            for _ in range(functions):
                group, flag, n = words[at:at + 3]
                args = [self.words.unfolded(words[at + 4 + 2 * i]) for i in range(n)]
                ret = self.words.unfolded(words[at + 3 + 2 * n])
                groups.setdefault(self.words.name(group), []).append(Declared(args, ret, flag == 1))
                at += 4 + 2 * n
            out.append((self.words.name(name), groups))
        return out

    def type_expression(self, t):
        """The type that a type record of the image stands for."""
        words, at = self.words, self.words.at_type[t]
        head = words.image[at]
        if kind(head) == 0:
            return (words.image[at + 2],)
        if kind(head) == 1:
            return (FOREIGN, words.name(words.image[at + 1]))
        if kind(head) in (2, 3):
            return (OPTION if kind(head) == 2 else ARRAY, self.type_expression(words.image[at + 1]))
        count = (payload(head) - 2) // 2
        pairs = [(words.image[at + 2 + 2 * i], words.image[at + 3 + 2 * i]) for i in range(count)]
        return (RECORD, tuple((words.name(name), self.type_expression(inner)) for name, inner in pairs))

    def imported(self, packages, paths):
        """Puts in force what an Import of these paths brings: nothing for a name that is held."""
        for path in paths:
            name = self.words.name(path)
            found = [Held(self.count + k, groups) for k, (lib, groups) in enumerate(self.library) if lib == name]
            if name not in packages and found:
                packages[name] = found[0]

    def externed(self, packages, n):
        """Puts in force what the Extern n declares, in place of what its name had."""
        groups, rest = {}, self.nodes[n][2]
        for name, ret, args in self.words.externs(rest):
            declared = Declared([self.type_expression(t) for _, t in args], self.type_expression(ret), False)
            groups.setdefault(self.words.name(name), []).append(declared)
        packages[self.words.name(rest[1])] = Held(n, groups)

    def given_types(self, args):
        return [self.slot_types[self.nodes[a][1]] for a in args]

    def candidate(self, candidates, given):
        """Of a group of several the first whose every argument type is equal: its place in the group."""
        for place, c in enumerate(candidates):
            if c.args == given:
                return place
        return None

    def package_function(self, packages, n):
        """The declaration that a call through a field has among these packages."""
        target, args = self.nodes[n][2]
        pkg, name = self.nodes[target][2]
        if self.nodes[pkg][0] != IDENT:
            return None
        held = packages.get(self.nodes[pkg][2])
        candidates = held.groups.get(name, []) if held else []
        place = 0 if len(candidates) == 1 else self.candidate(candidates, self.given_types(args))
        return None if not candidates or place is None else Package(candidates[place], len(candidates), place, held.origin)

    def declaration(self, n):
        """The declaration that a call has at this point of the pass."""
        target, _ = self.nodes[n][2]
        k, _, what = self.nodes[target]
        if k == IDENT:
            self.recursive = self.recursive or what in self.own and self.own[what] == self.in_body_of
            return Own(self.own[what]) if what in self.own else None
        self.packages_in_bodies = self.packages_in_bodies or self.in_body_of is not None
        return self.package_function(self.packages, n)

    def filled_return(self, n, declared):
        """A declared return type, its slots filled as at the call n."""
        return filled(declared.ret, self.bindings(n, declared)) if declared.slots else declared.ret

    def returned(self, n):
        return self.filled_return(n, self.calls[n].declared)

    def bindings(self, n, declared):
        found = {}
        for expected, given in zip(declared.args, self.given_types(self.nodes[n][2][1])):
            bind(expected, given, found)
        return found

    # the pass

    def parts_of(self, n):
        """A node's visited parts in order, each with how it stands there."""
        k, _, what = self.nodes[n]
        if k == BIN:
            return [(what[1], OPERAND), (what[2], OPERAND)]
        if k in (UNARY, LET):
            return [(what[1], OPERAND)]
        if k in (FIELD, CAST):
            return [(what[0], OPERAND)]
        if k == FN:
            return [(b, STATEMENT) for b in what[2]]
        if k == CALL:
            return [(a, OPERAND) for a in what[1]]
        if k == RECORD_NODE:
            return [(v, OPERAND) for _, v in what]
        if k == MATCH:
            found = []
            for condition, body in what[0]:
                found += [(condition, OPERAND)] + [(b, STATEMENT) for b in body]
            return found + [(b, STATEMENT) for b in what[1]]
        return [] if k in (ATOM, IDENT, IMPORT, EXTERN) else [(m, OPERAND) for m in what]

    def visit(self, n, stands):
        k, _, what = self.nodes[n]
        self.visited.append(n)
        if k == LET and stands == OPERAND:
            self.misplaced_lets.append(n)
        if k == FN and stands != ROOT:
            self.misplaced_fns.append(n)
        before = self.in_body_of
        if k == FN:
            if what[0] in self.own:
                return
            self.own[what[0]] = self.in_body_of = n
        for part, how in self.parts_of(n):
            self.visit(part, how)
        self.in_body_of = before
        if k == CALL:
            self.calls[n] = self.declaration(n)
        elif k == IMPORT:
            self.imported(self.packages, what)
        elif k == EXTERN:
            self.replaced = self.replaced or self.words.name(what[1]) in self.packages
            self.externed(self.packages, n)

    def roots_before_misplaced(self):
        """How many roots stand before the first that holds a let or an Fn elsewhere."""
        return len(self.roots) if self.first_misplaced is None else self.first_misplaced

    def placed(self):
        """The two hypotheses on where a let and an Fn stand."""
        return not self.misplaced_lets and not self.misplaced_fns
