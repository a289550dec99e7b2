#!/usr/bin/env python3
"""Puts wrong readings into refusals.py, one at a time, and counts the cases of crates/refusals_test that tell each. Every one must be told.

  mutations.py [TEXT]    only those that hold TEXT
"""
import os
import sys
import types

import refusals
from stream import replay

HERE = os.path.dirname(os.path.abspath(__file__))
STDIN = os.path.join(HERE, "..", "..", "crates", "refusals_test", "stdin")

# (what stands in refusals.py, what is put there)
WRONG = [
    ("WORDS, TEXT = 8192, 65536", "WORDS, TEXT = 8191, 65536"), ("WORDS, TEXT = 8192, 65536", "WORDS, TEXT = 8193, 65536"),
    ("WORDS, TEXT = 8192, 65536", "WORDS, TEXT = 8192, 65535"), ("WORDS, TEXT = 8192, 65536", "WORDS, TEXT = 8192, 65537"),
    ("NODES, TYPES, ROOTS, SLOTS = 2048, 512, 512, 4096", "NODES, TYPES, ROOTS, SLOTS = 2047, 512, 512, 4096"),
    ("NODES, TYPES, ROOTS, SLOTS = 2048, 512, 512, 4096", "NODES, TYPES, ROOTS, SLOTS = 2049, 512, 512, 4096"),
    ("NODES, TYPES, ROOTS, SLOTS = 2048, 512, 512, 4096", "NODES, TYPES, ROOTS, SLOTS = 2048, 511, 512, 4096"),
    ("NODES, TYPES, ROOTS, SLOTS = 2048, 512, 512, 4096", "NODES, TYPES, ROOTS, SLOTS = 2048, 513, 512, 4096"),
    ("NODES, TYPES, ROOTS, SLOTS = 2048, 512, 512, 4096", "NODES, TYPES, ROOTS, SLOTS = 2048, 512, 511, 4096"),
    ("NODES, TYPES, ROOTS, SLOTS = 2048, 512, 512, 4096", "NODES, TYPES, ROOTS, SLOTS = 2048, 512, 513, 4096"),
    ("NODES, TYPES, ROOTS, SLOTS = 2048, 512, 512, 4096", "NODES, TYPES, ROOTS, SLOTS = 2048, 512, 512, 4095"),
    ("NODES, TYPES, ROOTS, SLOTS = 2048, 512, 512, 4096", "NODES, TYPES, ROOTS, SLOTS = 2048, 512, 512, 4097"),
    ("DEPTH, SCRATCH = 64, 16384", "DEPTH, SCRATCH = 63, 16384"), ("DEPTH, SCRATCH = 64, 16384", "DEPTH, SCRATCH = 65, 16384"),
    ("DEPTH, SCRATCH = 64, 16384", "DEPTH, SCRATCH = 64, 16383"), ("DEPTH, SCRATCH = 64, 16384", "DEPTH, SCRATCH = 64, 16385"),
    # places
    ("raise Fault(len(self.words))", "raise Fault(len(self.words) - 1)"), ("self.hold(self.at + self.owed <= WORDS)", "pass"),
    ("raise Fault(self.at - 1)", "raise Fault(self.at)"), ("raise Fault(self.at)", "raise Fault(len(self.words))"),
    ("if self.at < len(self.words):  # D11", "if False:"), ("self.hold(word < limit)", "self.hold(word <= limit)"),
    # names
    ("p >> 24 == bit and", "p >> 24 & 1 == bit and"), ("p >> 24 == bit and", "p >> 25 == 0 and"), ("start + length <= len(text) and", "start <= len(text) and"),
    ("start + length <= len(text) and", "start + length < len(text) and"), ("and well_formed(text[start:start + length])", ""),
    ("and well_formed(text[start:start + length])", "and well_formed(text)"), ("kind(word) == NAME and", ""),
    ("and well_formed(text[start:start + length])", "and length > 0 and well_formed(text[start:start + length])"),
    # the pool
    ("        return p == 0\n", "        return True\n"), ("return p < own and p in self.slots", "return p < own and (p in self.slots or p in self.counts)"), ("return p < own and p in self.slots", "return p < own"),
    ("return p < own and p in self.counts and", "return p < own and p not in self.slots and"), ("<= own  # D12, D13", "< own"),
    ("        return good_payload(p, self.text, 1)", "        return True"), ("VOID <= k <= STR:", "VOID <= k <= STR or k == 11:"),
    ("VOID <= k <= STR:", "0 <= k <= STR:"), ("VOID <= k <= STR:", "VOID < k <= STR:"), ("reader.hold(index + 1 + 2 * count <= size)", "pass"),
    ("reader.hold(index + 1 + 2 * count <= size)", "reader.hold(index + 2 * count <= size)"),
    # functions of the library
    ("reader.hold(1 not in groups.get(group, []))", "pass"), ("(flag == 1 and group not in groups)", "flag == 1"),
    ("(flag == 1 and group not in groups)", "group not in groups"), ("            groups = {}\n", "            groups = reader.__dict__.setdefault('groups', {})\n"),
    ("reader.hold(library_type(reader, pool, flag) <= held)", "library_type(reader, pool, flag)"), ("reader.hold(flag == 1 or not slots)", "pass"),
    ("reader.hold(pool.good(word, pool.size))", "reader.hold(pool.good(word, pool.size - 1))"), ("reader.owe(4 * functions)", "reader.owe(3 * functions)"),
    ("reader.owe(2 * packages)", "reader.owe(packages)"), ("        reader.owe(size)\n", ""), ("    reader.owe(2 * count)\n", ""),
    ("frozenset([name_bytes(p, self.text)])", "frozenset([p])"), ("            return self.slots[p]\n", "            return frozenset()\n"),
    ("frozenset().union(*[self.slots[p + 2 + 2 * i] for i in range(self.counts[p])])", "frozenset()"),
    # records of the image
    ("FEWEST = (4, 3, 6, 5, 4, 5, 4, 3, 4, 5, 3, 5, 3, 3)", "FEWEST = (4, 3, 6, 5, 4, 6, 4, 3, 4, 5, 3, 5, 3, 3)"),
    ("FEWEST = (4, 3, 6, 5, 4, 5, 4, 3, 4, 5, 3, 5, 3, 3)", "FEWEST = (4, 3, 6, 5, 4, 5, 5, 3, 4, 5, 3, 5, 3, 3)"),
    ("FEWEST = (4, 3, 6, 5, 4, 5, 4, 3, 4, 5, 3, 5, 3, 3)", "FEWEST = (4, 3, 6, 5, 4, 5, 4, 4, 4, 5, 3, 5, 3, 3)"),
    ("FEWEST = (4, 3, 6, 5, 4, 5, 4, 3, 4, 5, 3, 5, 3, 3)", "FEWEST = (4, 3, 6, 5, 4, 5, 4, 3, 4, 5, 4, 5, 3, 3)"),
    ("FEWEST = (4, 3, 6, 5, 4, 5, 4, 3, 4, 5, 3, 5, 3, 3)", "FEWEST = (4, 3, 6, 5, 4, 5, 4, 3, 4, 5, 3, 6, 3, 3)"),
    ("FEWEST = (4, 3, 6, 5, 4, 5, 4, 3, 4, 5, 3, 5, 3, 3)", "FEWEST = (4, 3, 6, 5, 4, 5, 4, 3, 4, 5, 3, 5, 3, 4)"),
    ("return k != REC or length % 2 == 1", "return True"), ("if k > ARR or", "if k > 15 or"), ("reader.hold(2 <= reader.word() <= 5)", "reader.hold(1 <= reader.word() <= 5)"),
    ("reader.hold(2 <= reader.word() <= 5)", "reader.hold(2 <= reader.word() <= 4)"), ("reader.hold(1 <= reader.word() <= 5)", "reader.hold(2 <= reader.word() <= 5)"),
    ("reader.hold(1 <= reader.word() <= 5)", "reader.hold(1 <= reader.word() <= 6)"), ("reader.below(9)\n        parts = [reader.part(), ", "reader.below(8)\n        parts = [reader.part(), "),
    ("reader.below(9)\n        parts = [reader.part()]", "reader.below(10)\n        parts = [reader.part()]"),
    ("self.below(len(self.nodes))", "self.below(len(self.nodes) + 1)"), ("reader.hold(reader.nodes[target].kind in (IDENT, FIELD))", "pass"),
    ("kind in (IDENT, FIELD)", "kind in (IDENT,)"), ("kind in (IDENT, FIELD)", "kind in (FIELD,)"), ("reader.hold(reader.at + 2 * count <= end)  # D3", "reader.hold(reader.at + 2 * count < end)"),
    ("reader.hold(slot + count < reader.slot_count)", "pass"), ("slot + count < reader.slot_count", "slot + count <= reader.slot_count"),
    ("reader.hold(reader.at + 3 * cases + 1 <= end)", "reader.hold(reader.at + 3 * cases <= end)"), ("body + 3 * left + 1 <= end", "body + 3 * left <= end"),
    ("body + 3 * left + 1 <= end", "body + 1 <= end"), ("and (functions > 0 or reader.at == end)", ""), ("and (left > 0 or needed == end)", ""),
    ("2 * count + 3 * left", "2 * count"), ("reader.owe(length - 3)", "reader.owe(0)"), ("reader.owe(length - 2)", "reader.owe(0)"), ("length >= 2 and length % 2 == 0", "length >= 2"),
    ("    if k in (2, 3):\n        reader.below(number)", "    if k in (2, 3):\n        reader.below(number + 1)"), ("        reader.name()\n        reader.below(number)", "        reader.name()\n        reader.below(reader.types)"),
    ("roots = [reader.below(n) for", "roots = [reader.below(n + 1) for"), ("reader.owe(3 * n)", "reader.owe(4 * n)"),
    # 4 to 6, and the order
    ("(owned, range(n.slot, n.slot + 1 + n.arguments))", "(owned, [n.slot])"), ("((claimed, n.parts), (owned", "((claimed, set(n.parts)), (owned"),
    ("len(set(roots)) < len(roots) or claimed & set(roots)", "claimed & set(roots)"), ("or claimed & set(roots) else None", "else None"),
    ("return len(nodes) if", "return len(nodes) - 1 if"), ("if depths[i] > DEPTH:", "if depths[i] > DEPTH and any(i in m.parts for m in nodes):"),
    ("default=0))", "default=1))"), ("[depths[p] for p in n.parts]", "[depths[p] for p in n.parts[:1]]"), ("[depths[p] for p in n.parts]", "[depths[p] for p in n.parts[-1:]]"),
    ("[depths[p] for p in n.parts]", "[depths[p] for p in n.parts[n.kind == CALL:]]"), ("lent.slots < slot_count + 1", "lent.slots < slot_count"),
    ("3 + 2 * n.arguments for", "2 + 2 * n.arguments for"), ("3 + 2 * n.arguments for", "3 + n.arguments for"), ("for n in nodes if n.is_fn)", "for n in nodes)"),
    ("parts = [target] + [", "parts = ["),
]


def answers(module, cases):
    for lists, lent, _ in cases:
        try:
            yield module.refusal(*lists, module.Lent(*lent))
        except Exception as e:  # a wrong reading may run into what the right one shuts out
            yield repr(e)


def main():
    with open(refusals.__file__) as f:
        source = f.read()
    with open(STDIN, "rb") as f:
        cases = [([bytes(x) if k % 2 == 0 else x for k, x in enumerate(lists)], list(lent), expected) for lists, lent, expected in replay(f.read())]
    untold = 0
    wrong = [w for w in WRONG if len(sys.argv) < 2 or sys.argv[1] in w[0] + w[1]]
    for old, new in wrong:
        if source.count(old) < 1:
            raise SystemExit("not in refusals.py: " + old)
        module = types.ModuleType("wrong")
        exec(compile(source.replace(old, new, 1), "wrong", "exec"), module.__dict__)
        told = sum(got != case[2] for got, case in zip(answers(module, cases), cases))
        untold += told == 0
        print("%5d  %s  ->  %s%s" % (told, old.strip(), new.strip(), "" if told else "   NOT TOLD"))
    print("%d wrong readings, %d not told" % (len(wrong), untold))
    return 1 if untold else 0


if __name__ == "__main__":
    sys.exit(main())
