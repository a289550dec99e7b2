#!/usr/bin/env python3
"""Writes the inputs that docs/DIFFERENCES.md names, beside this script, in the bench's format (document 01, "Bench rows").

leftover_slot.bin    a leftover slot given to a slotted function: the Rust stops dead
passed_over.bin      a leftover slot inside an Array where Int is expected: the Rust reports 20 twice, document 01 once
"""
import os
import struct
import sys

HERE = os.path.dirname(os.path.abspath(__file__))
sys.path.insert(0, os.path.join(HERE, "..", "rows"))
from make_rows import ATOM, CALL, FIELD, IDENT, IMPORT, INT, image, rec  # noqa: E402

ARRAY_TY, OPTION_TY, SLOT_TY = 7, 6, 10


class Text:
    """A text that grows, and the words of its parts."""

    def __init__(self, library):
        self.bytes, self.bit = b"", library << 24

    def part(self, part):
        start = len(self.bytes)
        self.bytes += part
        return 12 << 28 | self.bit | start << 8 | len(part)

    def skip(self, part):
        self.bytes += part


def word(kind, payload=0):
    return kind << 28 | payload


def case(script, image_words, text, library):
    head = struct.pack("<4I", len(script), len(image_words), len(text), len(library))
    return (head + script + struct.pack("<%dI" % len(image_words), *image_words) + text
            + struct.pack("<%dI" % len(library), *library))


def library():
    """Package p: take(o: Option<T>) -> T, list(o: Option<T>) -> Array<T>, both(n: Int x: T) -> T."""
    t = Text(True)
    slot = word(SLOT_TY, t.part(b"T") & 0x0FFFFFFF)
    arg = t.part(b"o")
    words = [1, 1, slot, t.part(b"p"), 3]
    words += [t.part(b"take"), 1, 1, arg, word(OPTION_TY, 0), slot]
    words += [t.part(b"list"), 1, 1, arg, word(OPTION_TY, 0), word(ARRAY_TY, 0)]
    words += [t.part(b"both"), 1, 2, t.part(b"n"), word(INT), t.part(b"x"), slot, slot]
    return t.bytes, words


class Script:
    """Nodes in the order in which they are finished, one slot each."""

    def __init__(self):
        self.text, self.nodes, self.roots = Text(False), [], []

    def node(self, kind, *words):
        self.nodes.append(rec(kind, len(self.nodes), *words))
        return len(self.nodes) - 1

    def int(self, digits):
        return self.node(ATOM, self.text.part(digits), INT)

    def call(self, name, *args):
        """p.name(args): the target's tokens come before the arguments' in the text."""
        pkg = self.text.part(b"p")
        self.text.skip(b".")
        field = self.text.part(name)
        self.text.skip(b"(")
        made = []
        for k, arg in enumerate(args):
            self.text.skip(b" " if k else b"")
            made.append(arg())
        self.text.skip(b")")
        target = self.node(FIELD, self.node(IDENT, pkg), field)
        return self.node(CALL, target, *made)

    def case(self):
        text, words = library()
        return case(self.text.bytes, image(self.nodes, [], self.roots, len(self.nodes)), text, words)


def script(build):
    s = Script()
    token = s.text.part(b"import")
    s.text.skip(b" \"")
    path = s.text.part(b"p")
    s.text.skip(b"\"\n")
    s.roots.append(s.node(IMPORT, token, path))
    s.roots.append(build(s))
    return s.case()


CASES = {
    "leftover_slot": lambda s: s.call(b"take", lambda: s.call(b"take", lambda: s.int(b"1"))),
    "passed_over": lambda s: s.call(b"both", lambda: s.call(b"list", lambda: s.int(b"1")), lambda: s.int(b"2")),
}

if __name__ == "__main__":
    for name, build in CASES.items():
        with open(os.path.join(HERE, name + ".bin"), "wb") as f:
            f.write(script(build))
