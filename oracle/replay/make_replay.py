#!/usr/bin/env python3
"""Makes the first replay: random cases in the domain of equality, and the Rust's rows of them.

  make_replay.py --out DIR [--rows] [--tools DIR]

writes DIR/stdin and DIR/stdout (README.md says their form). --rows: the bench's rows alone; else `primary` and `counts` lines too.
--tools: where `oracle` and `cases` stand (default ../build). Ends with status 1 if a quota is not held.
"""
import argparse
import collections
import os
import re
import struct
import subprocess
import sys
import tempfile

HERE = os.path.dirname(os.path.abspath(__file__))
sys.path.insert(0, os.path.join(HERE, "..", "definitions"))
from bench_case import batch_of, compared, read_batch, read_rows  # noqa: E402

SEEDS = range(1001, 1009)
MADE = 1500         # for each seed
LEAST = 40          # cases with each code
# for each seed, of the cases with a diagnostic and of those with none: so many of more bytes than .., and no more than ..
EACH = ((140, 0, 1700), (4, 1700, 4000), (2, 4000, 12000), (1, 12000, 65536))
CODES = range(1, 27)


def with_batch(cases, run):
    with tempfile.NamedTemporaryFile() as f:
        f.write(batch_of(cases))
        f.flush()
        return run(f.name)


def oracle(tools, cases, *flags):
    """The Rust's rows of each case."""
    def run(path):
        with tempfile.NamedTemporaryFile() as out:
            subprocess.run([os.path.join(tools, "oracle"), *flags, "--batch", path], stdout=out, check=True)
            return read_rows(out.name)
    return with_batch(cases, run)


def generate(tools, seed, count):
    with tempfile.NamedTemporaryFile() as out:
        subprocess.run([os.path.join(tools, "cases"), "generate", "--seed", str(seed), "--count", str(count)],
                       stdout=out, stderr=subprocess.DEVNULL, check=True)
        return read_batch(out.name)


def codes(rows):
    return [int(c) for c in re.findall(rb"^diag (\d+) ", rows, re.M)]


def some(pairs):
    """Numbers of cases of each size class of EACH."""
    out = set()
    for count, least, most in EACH:
        for faulty in (False, True):
            out |= set([k for k, (c, has) in enumerate(pairs) if least < len(c) <= most and bool(has) == faulty][:count])
    return out


def chosen(tools):
    """Cases of all seeds; then, for a code that stands in fewer than LEAST of them, the smallest others that have it."""
    taken, left, tally = [], [], collections.Counter()
    for seed in SEEDS:
        cases = generate(tools, seed, MADE)
        rows = oracle(tools, cases, "--domain")
        pairs = [(c, set(codes(r))) for c, r in zip(cases, rows) if compared(r)]
        first = some(pairs)
        taken += [p[0] for k, p in enumerate(pairs) if k in first]
        left += [p for k, p in enumerate(pairs) if k not in first]
        for k in first:
            tally.update(pairs[k][1])
    for case, has in sorted(left, key=lambda p: len(p[0])):
        if any(tally[c] < LEAST for c in has):
            taken.append(case)
            tally.update(has)
    return taken


def main():
    p = argparse.ArgumentParser(description=__doc__, formatter_class=argparse.RawDescriptionHelpFormatter)
    p.add_argument("--out", required=True)
    p.add_argument("--rows", action="store_true")
    p.add_argument("--tools", default=os.path.join(HERE, "..", "build"))
    options = p.parse_args()
    cases = chosen(options.tools)
    flags = [] if options.rows else ["--full", "--counts"]
    rows = oracle(options.tools, cases, *flags)
    assert len(rows) == len(cases) and all(map(compared, rows))
    stdin = struct.pack("<I", len(cases)) + batch_of(cases)
    stdout = b"--\n".join(rows)
    for name, data in (("stdin", stdin), ("stdout", stdout)):
        with open(os.path.join(options.out, name), "wb") as f:
            f.write(data)
    told, met = collections.Counter(), collections.Counter()
    for r in rows:
        told.update(codes(r))
        met.update(set(codes(r)))
    print("%d cases, %d with no diagnostic; stdin %d bytes, stdout %d bytes" % (len(cases), sum(not codes(r) for r in rows), len(stdin), len(stdout)))
    print("bytes of a case: median %d, largest %d" % (sorted(map(len, cases))[len(cases) // 2], max(map(len, cases))))
    print("cases with each code:", ", ".join("%d: %d" % (c, met[c]) for c in CODES))
    short = [c for c in CODES if met[c] < LEAST]
    if short or len(cases) < 2000:
        sys.exit("too few: codes %s, %d cases" % (short, len(cases)))


if __name__ == "__main__":
    main()
