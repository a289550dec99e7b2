#!/usr/bin/env python3
"""Holds refusals.py to the stored answers of oracle/definitions/cases: boundary, limits and random."""
import os
import sys

HERE = os.path.dirname(os.path.abspath(__file__))
sys.path.insert(0, os.path.join(HERE, "..", "definitions"))
from bench_case import content, read_batch, split_case  # noqa: E402
from refusals import Lent, refusal  # noqa: E402

CASES = os.path.join(HERE, "..", "definitions", "cases")
BENCH = Lent(4097, 8192, 8192, 1536, 65536, 16384)


def expected(line):
    """The answer of a line of NAME.answers, and the lengths lent."""
    words, lent = line.partition("#")[0].split(), BENCH
    if "lent" in words:
        at = words.index("lent")
        slots, functions, scratch = [int(w) for w in words[at + 1:at + 4]]
        words, lent = words[:at], BENCH._replace(slots=slots, functions=functions, scratch=scratch)
    return (None if words[0] == "accepted" else (int(words[1]), int(words[2]))), lent


def main():
    differ = 0
    for name in ("boundary", "limits", "random"):
        cases = read_batch(os.path.join(CASES, name + ".cases"))
        lines = content(os.path.join(CASES, name + ".answers")).decode().splitlines()
        assert len(cases) == len(lines)
        for k, (case, line) in enumerate(zip(cases, lines)):
            (want, lent), p = expected(line), split_case(case)
            got = refusal(p.script, p.image, p.text, p.library, lent)
            if got != want:
                differ += 1
                print("%s %d: stored %s, here %s  # %s" % (name, k, want, got, line.partition("#")[2].strip()))
        print("%s: %d cases" % (name, len(cases)))
    print("%d differ" % differ)
    return 1 if differ else 0


if __name__ == "__main__":
    sys.exit(main())
