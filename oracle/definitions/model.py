"""The walk as an executable model: what the Rust does, with document 01's words, buffers and refusals 7, 8 and 9.

Written from the Rust's source and document 01, not from the definitions. Its rows are compared with the Rust's (`compare.py model`); what
the Rust cannot show, the words in each buffer and the node of a refusal, rests on document 01 alone.

    check(parts, lent) -> Answer      for inputs that refusals 1 to 6 accept

`lent` are the lists slots, functions, types, diagnostics, messages, scratch. They are left alone: an Answer has the buffers afterwards.
"""
import sys
from collections import namedtuple

from model_types import Refused, Types
from model_words import BOOL, DOUBLE, FN, IDENT, INT, RECORD, SLOT, STR, UNKNOWN, VOID, ARRAY, kind, payload, token_span, word

Answer = namedtuple("Answer", "number place counts buffers")

OPERATORS = [b"+", b"-", b"*", b"/", b"%", b"==", b"!=", b"<", b">"]


class Signature:
    def __init__(self, args, ret, slots=False):
        self.args, self.ret, self.slots = args, ret, slots      # args: (name, type) words


class Walk(Types):
    def __init__(self, parts, lent):
        Types.__init__(self, parts, lent[2])
        self.slots, self.functions, self.diagnostics, self.messages = [list(lent[i]) for i in (0, 1, 3, 4)]
        self.env = [{}]
        self.own = {}
        self.packages = {}
        self.libs = self.read_library()

    # the library

    def read_library(self):
        words, out = self.parts.library, []
        at = 2 + words[0]
        for _ in range(words[1]):
            name, functions, at = words[at], words[at + 1], at + 2
            groups = {}
            for _ in range(functions):
                group, flag, n = words[at:at + 3]
                pairs = [(words[at + 3 + 2 * i], words[at + 4 + 2 * i]) for i in range(n)]
                groups.setdefault(self.name(group), []).append(Signature(pairs, words[at + 3 + 2 * n], flag == 1))
                at += 4 + 2 * n
            out.append((self.name(name), groups))
        return out

    # steps

    def report(self, n, code, span, message, primary=b""):
        _, _, told, at = self.used
        size = len(message) + len(primary)
        if told >= min(len(self.diagnostics) // 6, 256) or at + size > min(len(self.messages), 65536):
            raise Refused(9, n)
        self.diagnostics[6 * told:6 * told + 6] = [word(13, code), span[0], span[1], at, len(message), len(primary)]
        self.messages[at:at + size] = message + primary
        self.used[2] += 1
        self.used[3] += size

    def known(self, slot, w):
        self.slots[slot] = w
        return slot

    def ty(self, slot):
        return self.slots[slot]

    def bound(self, name):
        for frame in reversed(self.env):
            if name in frame:
                return True, frame[name]
        return False, None

    # rules: a slot, or None for Poison

    def block(self, nodes):
        self.env.append({})
        last = self.void
        for n in nodes:
            last = self.node(n)
        self.env.pop()
        return last

    def node(self, n):
        k, slot, rest = self.node_words(n)
        return self.RULES[k](self, n, slot, rest)

    def atom(self, n, slot, rest):
        return self.known(slot, word(rest[1], 0))

    def ident(self, n, slot, rest):
        found, w = self.bound(self.name(rest[0]))
        if not found:
            self.report(n, 3, token_span(rest[0]), b"binding `" + self.name(rest[0]) + b"` not found")
            return None
        return None if w is None else self.known(slot, w)

    def bin(self, n, slot, rest):
        token, op = rest[0], rest[1]
        left, right = self.node(rest[2]), self.node(rest[3])
        if left is None or right is None:
            return None
        l, r = self.ty(left), self.ty(right)
        if op <= 3:
            takes, wants = {(INT, INT): INT, (DOUBLE, DOUBLE): DOUBLE}, (b", want Int or Double", b"")
        elif op == 4:
            takes, wants = {(INT, INT): INT}, (b", want Int", b", want both sides Int")
        elif op <= 6:
            takes = {(INT, INT): BOOL, (BOOL, BOOL): BOOL, (STR, STR): BOOL}
            wants = (b", want Int, Bool or Str", b", want both sides Int, Bool or Str")
        else:
            takes, wants = {(INT, INT): BOOL, (DOUBLE, DOUBLE): BOOL}, (b", want Int or Double for both sides", b"")
        result = takes.get((kind(l), kind(r)))
        if result is not None:
            return self.known(slot, word(result, 0))
        quoted = b'"' + OPERATORS[op] + b'"'
        if self.same(l, r):
            self.report(n, 4, token_span(token), b"Unsupported type " + self.show(l) + b" for " + quoted + wants[0])
        else:
            self.report(n, 5, token_span(token), b"Incompatible types " + self.show(l) + b" and " + self.show(r) + b" for " + quoted + wants[1])
        return None

    def unary(self, n, slot, rest):
        right = self.node(rest[2])
        if right is None:
            return None
        w = self.ty(right)
        if rest[1] <= 1 and kind(w) in (INT, DOUBLE):
            return self.known(slot, word(kind(w), 0))
        self.report(n, 6, token_span(rest[0]), b'Unary "' + OPERATORS[rest[1]] + b'" requires Int or Double, got ' + self.show(w))
        return None

    def let(self, n, slot, rest):
        right, binding = self.node(rest[1]), None
        if right is not None:
            if kind(self.ty(right)) == VOID:
                self.report(n, 7, token_span(rest[0]), b"RHS of let has to return a value, but it didnt")
            else:
                binding = self.ty(right)
        self.env[-1][self.name(rest[0])] = binding
        return self.known(slot, word(VOID, 0))

    def fn(self, n, slot, rest):
        name_word, ret_type, count = rest[:3]
        name = self.name(name_word)
        if name in self.own:
            self.report(n, 8, token_span(name_word), b"`" + name + b"` is already defined")
            return None
        before, self.env = self.env, [{}]
        args = []
        for i in range(count):
            arg, t = rest[3 + 2 * i], rest[4 + 2 * i]
            w = self.type_from(n, t)
            self.slots[slot + 1 + i] = w
            self.env[-1][self.name(arg)] = w
            args.append((arg, w))
        ret = self.type_from(n, ret_type)
        self.own[name] = Signature(args, ret)
        entry = [name_word, count] + [x for pair in args for x in pair] + [ret]
        at = self.used[0]
        self.functions[at:at + len(entry)] = entry
        self.used[0] += len(entry)
        computed = self.block(rest[3 + 2 * count:])
        if computed is not None and not self.same(self.ty(computed), ret):
            self.report(n, 9, token_span(self.type_token(ret_type)),
                        b"`" + name + b"` should return " + self.show(ret) + b", but returns " + self.show(self.ty(computed)))
        self.env = before
        return self.known(slot, ret)

    def match(self, n, slot, rest):
        cases, _, body = self.cases(rest)
        branches = []
        for token, condition, nodes in cases:
            c = self.node(condition)
            if c is not None and self.ty(c) != word(BOOL, 0):
                self.report(n, 23, token_span(token), b"Match conditions must be Bool, got " + self.show(self.ty(c)) + b" instead")
            branches.append((token, self.block(nodes)))
        default = self.block(body)
        if default is None:
            return None
        for token, branch in branches:
            if branch is not None and not self.same(self.ty(branch), self.ty(default)):
                self.report(n, 24, token_span(token), b"Match cases must resolve to the same type, but got "
                            + self.show(self.ty(default)) + b" and " + self.show(self.ty(branch)))
        return self.known(slot, self.ty(default))

    def field(self, n, slot, rest):
        target = self.node(rest[0])
        if target is None:
            return None
        w, name = self.ty(target), self.name(rest[1])
        if kind(w) != RECORD:
            self.report(n, 12, token_span(rest[1]), self.show(w) + b" can not be indexed in this way")
            return None
        for field, t in self.fields(w):
            if self.name(field) == name:
                self.known(slot, t)
                return None if kind(t) == UNKNOWN else slot
        self.report(n, 13, token_span(rest[1]), self.show(w) + b" does not have a field called " + name)
        return None

    def cast(self, n, slot, rest):
        to = self.type_from(n, rest[2])
        left = self.node(rest[1])
        if left is None:
            return None
        w = self.ty(left)
        if (kind(w), kind(to)) in ((INT, DOUBLE), (DOUBLE, INT), (BOOL, INT), (INT, BOOL)):
            return self.known(slot, to)
        message = b"Can not cast " + self.show(w) + b" to " + self.show(to)
        if self.same(w, to):
            self.report(n, 10, token_span(rest[0]), message, b"unnecessary cast")
            return self.known(slot, to)
        self.report(n, 11, token_span(rest[0]), message)
        return None

    def imports(self, n, slot, rest):
        if len(rest) == 1:
            self.report(n, 25, token_span(rest[0]), b"Import without any paths to import is considered invalid")
        for path in rest[1:]:
            name = self.name(path)
            if name in self.packages:
                continue
            found = [groups for lib, groups in self.libs if lib == name]
            if found:
                self.packages[name] = found[0]
            else:
                self.report(n, 26, token_span(path), b"Wasnt able to find a package named `" + name + b"`")
        return self.known(slot, word(VOID, 0))

    def extern(self, n, slot, rest):
        groups = {}
        for name, ret, args in self.externs(rest):
            pairs = [(arg, self.type_from(n, t)) for arg, t in args]
            groups.setdefault(self.name(name), []).append(Signature(pairs, self.type_from(n, ret)))
        self.packages[self.name(rest[1])] = groups
        return self.known(slot, word(VOID, 0))

    def record(self, n, slot, rest):
        pairs = []
        for i in range(1, len(rest), 2):
            value = self.node(rest[i + 1])
            pairs.append((rest[i], word(UNKNOWN, 0) if value is None else self.ty(value)))
        return self.known(slot, self.add_record(n, pairs))

    def array(self, n, slot, rest):
        members = rest[1:]
        if not members:
            self.report(n, 1, token_span(rest[0]), b"Can not infer the element type of an empty array", b"empty array")
            return None
        first = self.node(members[0])
        poisoned = first is None
        for member in members[1:]:
            m = self.node(member)
            if m is None or first is None or self.contains(self.ty(m), UNKNOWN) or self.contains(self.ty(first), UNKNOWN):
                poisoned = True
                continue
            if not self.same(self.ty(m), self.ty(first)):
                shown = self.show(self.ty(m))
                self.report(n, 2, self.span(member), b"Array members must all have the same type, expected "
                            + self.show(self.ty(first)) + b" but got " + shown, b"this member is of type " + shown)
                return None
        return None if poisoned else self.known(slot, self.add(n, ARRAY, [self.ty(first)]))

    # calls

    def call(self, n, slot, rest):
        target, args = rest[0], rest[1:]
        k, _, words = self.node_words(target)
        if k == IDENT:
            name = self.name(words[0])
            for a in args:
                self.node(a)
            if name not in self.own:
                self.report(n, 17, token_span(words[0]), b"Call to undefined function `" + name + b"`")
                return None
            return self.call_one(n, slot, words[0], name, self.own[name], args)
        pkg_node, name_word = words
        pkg_kind, _, pkg_words = self.node_words(pkg_node)
        if pkg_kind != IDENT:
            self.report(n, 14, token_span(name_word), b"only package functions can be called through field syntax")
            return None
        poisoned = False
        for a in args:
            poisoned = self.node(a) is None or poisoned
        pkg, name = self.name(pkg_words[0]), self.name(name_word)
        if pkg not in self.packages:
            self.report(n, 15, token_span(pkg_words[0]), b"Can't find package `" + pkg + b"`", b"package used here")
            return None
        full = pkg + b"." + name
        candidates = self.packages[pkg].get(name, [])
        if not candidates:
            self.report(n, 16, token_span(name_word), b"Call to undefined function `" + full + b"`")
            return None
        if len(candidates) == 1:
            return self.call_one(n, slot, name_word, full, candidates[0], args)
        if not poisoned:
            given = [self.ty(self.slot_of(a)) for a in args]
            for c in candidates:
                if len(c.args) == len(given) and all(self.same(t, g) for (_, t), g in zip(c.args, given)):
                    return self.known(slot, c.ret)
            listed = lambda ts: b", ".join(self.show(t) for t in ts)
            self.report(n, 18, token_span(name_word), b"no specialisation of `" + full + b"` accepts (" + listed(given)
                        + b"); available: " + b" | ".join(listed([t for _, t in c.args]) for c in candidates))
        if all(self.same(c.ret, candidates[0].ret) for c in candidates):
            return self.known(slot, candidates[0].ret)
        return None

    def call_one(self, n, slot, token, shown, sig, args):
        if len(args) != len(sig.args):
            self.report(n, 19, token_span(token), b"`" + shown + b"` requires %d arguments, got %d" % (len(sig.args), len(args)))
            return None if sig.slots else self.known(slot, sig.ret)
        bindings = {}
        for a, (arg_name, expected) in zip(args, sig.args):
            w = self.ty(self.slot_of(a))
            if w == 0 or self.contains(w, UNKNOWN):
                continue
            if sig.slots:
                if self.contains(w, SLOT):
                    continue        # passed over
                fault = self.bind(expected, w, bindings)
                if fault is not None:
                    name, new = fault
                    start = b"`" + shown + b"` can not bind " + name + b" to "
                    if new is None:
                        self.report(n, 22, self.span(a), start + b"Void", b"this argument is of type Void")
                    else:
                        self.report(n, 21, self.span(a), start + self.show(new) + b", it is already bound to " + self.show(bindings[name]),
                                    b"this argument binds " + name + b" to " + self.show(new))
                    continue
                expected = self.applied(n, expected, bindings)
            if not self.same(expected, w):
                arg = self.name(arg_name)
                self.report(n, 20, self.span(a), b"`" + shown + b"` expected " + arg + b":" + self.show(expected) + b", got " + arg + b":"
                            + self.show(w) + b" instead", b"this argument is of type " + self.show(w))
        return self.known(slot, self.applied(n, sig.ret, bindings) if sig.slots else sig.ret)

    RULES = [atom, ident, bin, unary, let, fn, match, call, field, cast, imports, extern, record, array]

    # the whole

    def begin(self):
        self.slots[:self.void + 1] = [0] * self.void + [word(VOID, 0)]
        pool = self.parts.library[2:2 + self.parts.library[0]]
        if len(pool) > min(len(self.types), 8192):
            raise Refused(7, self.count)
        self.types[:len(pool)] = pool
        self.used[1] = len(pool)
        measured = [w for w in pool if VOID <= kind(w) <= UNKNOWN]
        measured += [w for _, groups in self.libs for sigs in groups.values() for s in sigs for w in [t for _, t in s.args] + [s.ret]]
        if any(self.depth(w) > 32 for w in measured):
            raise Refused(8, self.count)

    def run(self):
        self.begin()
        for n in self.roots:
            self.node(n)


def check(parts, lent):
    sys.setrecursionlimit(20000)
    walk = Walk(parts, lent)
    try:
        walk.run()
    except Refused as r:
        return Answer(r.number, r.place, (0, 0, 0, 0), [[0] * len(b) for b in lent])
    return Answer(0, 0, tuple(walk.used), [walk.slots, walk.functions, walk.types, walk.diagnostics, walk.messages, [0] * len(lent[5])])


def function_words(parts):
    """Refusal 6's sum: 3 + 2 × arguments over all Fn nodes."""
    image = parts.image
    at, total = 4 + image[2], 0
    for _ in range(image[0]):
        if kind(image[at]) == FN:
            total += 3 + 2 * image[at + 4]
        at += payload(image[at])
    return total


def full_rows(parts, answer):
    """Rows as the oracle prints them with --full --counts."""
    if answer.number:
        return b"refused %d %d\n" % (answer.number, answer.place)
    walk = Walk(parts, answer.buffers)
    out = [b"slot %d " % i + walk.show(w) for i, w in enumerate(walk.slots[:walk.void + 1]) if w]
    told, at = answer.counts[2], 0
    while at < answer.counts[0]:
        n = walk.functions[at + 1]
        args = [walk.name(walk.functions[at + 2 + 2 * i]) + b": " + walk.show(walk.functions[at + 3 + 2 * i]) for i in range(n)]
        out.append(b"fn " + walk.name(walk.functions[at]) + b" (" + b" ".join(args) + b") -> " + walk.show(walk.functions[at + 2 + 2 * n]))
        at += 3 + 2 * n
    for i in range(told):
        head, start, size, begin, length, primary = walk.diagnostics[6 * i:6 * i + 6]
        out.append(b"diag %d %d %d " % (payload(head), start, size) + bytes(walk.messages[begin:begin + length]))
        if primary:
            out.append(b"primary " + bytes(walk.messages[begin + length:begin + length + primary]))
    out.append(b"counts %d %d %d %d" % answer.counts)
    out.append(b"end %d" % told)
    return b"\n".join(out) + b"\n"
