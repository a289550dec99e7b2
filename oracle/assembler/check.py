#!/usr/bin/env python3
"""Tests the assembler: each example gives its case, and stored cases come back from their text as the same bytes.

  check.py [--every N] [BATCH..]

Examples: examples/NAME.txt gives the bytes of ../rows/NAME.bin, ../differences/NAME.bin, or, if NAME.rows stands beside it, a case with these
rows of the Rust (../build/oracle, if it is built). Cases: all shipped rows and differences, every N-th (default 5) of the stored cases of
../definitions/cases, and all of the batches named.
"""
import argparse
import collections
import glob
import os
import subprocess
import sys

HERE = os.path.dirname(os.path.abspath(__file__))
sys.path.insert(0, os.path.join(HERE, "..", "definitions"))
from assemble import assembled  # noqa: E402
from bench_case import content, read_batch  # noqa: E402
from disassemble import disassembled  # noqa: E402

ORACLE = os.path.join(HERE, "..", "build", "oracle")


def example(path):
    """Why an example is wrong, or None."""
    name = os.path.splitext(os.path.basename(path))[0]
    case = assembled(content(path).decode())
    for folder in ("rows", "differences"):
        shipped = os.path.join(HERE, "..", folder, name + ".bin")
        if os.path.exists(shipped):
            return None if case == content(shipped) else "gives other bytes than " + shipped
    rows = os.path.splitext(path)[0] + ".rows"
    if not os.path.exists(rows) or not os.path.exists(ORACLE):
        return "has nothing to be compared with" if not os.path.exists(rows) else None
    got = subprocess.run([ORACLE, "--domain"], input=case, stdout=subprocess.PIPE, check=True).stdout
    return None if got == content(rows) else "has other rows"


def main():
    p = argparse.ArgumentParser(description=__doc__, formatter_class=argparse.RawDescriptionHelpFormatter)
    p.add_argument("--every", type=int, default=5)
    p.add_argument("batches", nargs="*")
    o = p.parse_args()
    wrong, examples = 0, sorted(glob.glob(os.path.join(HERE, "examples", "*.txt")))
    for path in examples:
        why = example(path)
        if why:
            wrong += 1
            print(os.path.basename(path), why)
    files = [[f] for folder in ("rows", "differences") for f in sorted(glob.glob(os.path.join(HERE, "..", folder, "*.bin")))]
    cases = [(f[0], 0, content(f[0])) for f in files]
    for f in sorted(glob.glob(os.path.join(HERE, "..", "definitions", "cases", "*.gz"))):
        if f.endswith((".batch.gz", ".cases.gz")):
            cases += [(f, k, c) for k, c in enumerate(read_batch(f)) if k % o.every == 0]
    for f in o.batches:
        cases += [(f, k, c) for k, c in enumerate(read_batch(f))]
    how = collections.Counter()
    for f, k, case in cases:
        text = disassembled(case)
        starts = [line.split(" ")[0] for line in text.splitlines()]
        how["as bytes" if "bytes" in starts else "image or library as words" if {"image", "library"} & set(starts) else "in the form"] += 1
        if assembled(text) != case:
            wrong += 1
            print("%s, case %d: its text gives other bytes" % (os.path.basename(f), k))
    print("%d examples, %d cases (%s); %d wrong" % (len(examples), len(cases), ", ".join("%d %s" % (n, w) for w, n in sorted(how.items())), wrong))
    sys.exit(1 if wrong else 0)


if __name__ == "__main__":
    main()
