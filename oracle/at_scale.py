#!/usr/bin/env python3
"""Runs generated, damaged and out-of-domain cases through a program of the checker, and through the Rust, and reports differences.

  at_scale.py PROGRAM [--seed S] [--seeds K] [--count N] [--damaged N] [--outside N] [--full] [--single] [--keep DIR] [--tools DIR]

PROGRAM reads many cases from standard input (replay/README.md, "In the domain of equality": a count, then each case with its length) and
prints the rows of each, a line `--` between two. With --single it is the bench, which reads one case: a process for each. With --full it
prints `primary` and `counts` lines too.

For each of the seeds S, S + 1, .. (K of them) N cases are generated in the domain of equality, damaged copies of them made, and N generated
outside the domain. What is expected:

  in the domain                          the Rust's rows
  lengths that do not fit                `input`
  refusals 2 to 5                        number and place by refusals/refusals.py; that one comes is compared with the Rust's reader
  outside the domain, refusals 7 to 9    definitions/model.py

Each difference is printed, and with --keep the case (.bin), what is expected (.expect) and what came (.got) are left in DIR.
Exit status: 0 no difference, 1 some, 2 a program failed.
"""
import argparse
import collections
import os
import struct
import subprocess
import sys
import tempfile
import time

HERE = os.path.dirname(os.path.abspath(__file__))
for folder in ("definitions", "refusals"):
    sys.path.insert(0, os.path.join(HERE, folder))
import model  # noqa: E402
from bench_case import batch_of, split_case  # noqa: E402
from refusals import Lent, refusal  # noqa: E402

BENCH = Lent(4097, 8192, 8192, 1536, 65536, 16384)
CHUNK = 1000  # cases for one process


def run(command, stdin=b""):
    """What a program writes; a program that fails ends all."""
    with tempfile.TemporaryFile() as given, tempfile.TemporaryFile() as written:
        given.write(stdin)
        given.seek(0)
        ended = subprocess.run(command, stdin=given, stdout=written, stderr=subprocess.PIPE)
        if ended.returncode:
            print("%s ended with %d: %s" % (command[0], ended.returncode, ended.stderr.decode(errors="replace")[:500]), file=sys.stderr)
            sys.exit(2)
        written.seek(0)
        return written.read()


def cases_of(batch):
    at, out = 0, []
    while at < len(batch):
        (size,) = struct.unpack_from("<I", batch, at)
        out.append(batch[at + 4:at + 4 + size])
        at += 4 + size
    return out


def answers(written, count):
    """The rows of each case. Names may hold a line `--` of their own only where the number of parts shows it."""
    rows = written.split(b"\n--\n")
    rows = [r + b"\n" for r in rows[:-1]] + rows[-1:]
    return rows if len(rows) == count else None


class Scale:
    def __init__(self, options):
        self.options, self.differences, self.tally = options, 0, collections.Counter()

    def tool(self, name, *words, stdin=b""):
        return run([os.path.join(self.options.tools, name), *words], stdin)

    # what is expected

    def rust(self, cases):
        """The Rust's rows of each case, the reason before those of a case outside the domain."""
        flags = ["--domain"] + (["--full", "--counts"] if self.options.full else [])
        with tempfile.NamedTemporaryFile() as f:
            f.write(batch_of(cases))
            f.flush()
            rows = answers(self.tool("oracle", *flags, "--batch", f.name), len(cases))
        return rows if rows else [self.tool("oracle", *flags, stdin=c) for c in cases]

    def expected(self, case, rows):
        """(what kind of case it is, its rows)"""
        first = rows.split(b"\n", 1)[0].split(b" ")
        if first[0] == b"input":
            return "input", b"input\n"
        if first[0] not in (b"bad-input", b"outside"):
            return "in the domain", rows
        parts = split_case(case)
        refused = refusal(*parts, BENCH)
        if (refused is not None) != (first[0] == b"bad-input"):
            return "the two readings differ", b"refusals.py: %r, the Rust's reader: %s\n" % (refused, first[0])
        if refused:
            return "refused %d" % refused[0], b"refused %d %d\n" % refused
        answer = model.check(parts, [[0] * n for n in BENCH])
        rows = model.full_rows(parts, answer)
        if not self.options.full:
            rows = b"".join(l for l in rows.splitlines(True) if l.split(b" ")[0] not in (b"primary", b"counts"))
        return "refused %d" % answer.number if answer.number else "answered outside the domain", rows

    # what comes

    def program(self, cases):
        if self.options.single:
            return [run([self.options.program], c) for c in cases]
        written = run([self.options.program], struct.pack("<I", len(cases)) + batch_of(cases))
        rows = answers(written, len(cases))
        return rows if rows else [run([self.options.program], struct.pack("<I", 1) + batch_of([c])) for c in cases]

    def compare(self, kind, seed, cases):
        for start in range(0, len(cases), CHUNK):
            some = cases[start:start + CHUNK]
            for k, (case, rows, got) in enumerate(zip(some, self.rust(some), self.program(some))):
                what, wanted = self.expected(case, rows)
                self.tally[what] += 1
                if got != wanted:
                    self.difference("%s-%d-%d" % (kind, seed, start + k), what, case, wanted, got)

    def difference(self, name, what, case, wanted, got):
        self.differences += 1
        if self.differences <= 20:
            lines = [(w, g) for w, g in zip(wanted.split(b"\n") + [b""], got.split(b"\n") + [b""]) if w != g]
            w, g = lines[0] if lines else (wanted[-80:], got[-80:])
            print("%s (%s, %d bytes): expected %s, got %s" % (name, what, len(case), w[:200], g[:200]))
        if self.options.keep:
            os.makedirs(self.options.keep, exist_ok=True)
            for end, data in ((".bin", case), (".expect", wanted), (".got", got)):
                with open(os.path.join(self.options.keep, name + end), "wb") as f:
                    f.write(data)

    def seed(self, seed):
        o = self.options
        made = self.tool("cases", "generate", "--seed", str(seed), "--count", str(o.count))
        self.compare("domain", seed, cases_of(made))
        if o.damaged and made:
            self.compare("damaged", seed, cases_of(self.tool("cases", "damage", "--seed", str(seed), "--count", str(o.damaged), stdin=made)))
        if o.outside:
            self.compare("outside", seed, cases_of(self.tool("cases", "generate", "--seed", str(seed), "--count", str(o.outside), "--outside")))


def main():
    p = argparse.ArgumentParser(description=__doc__, formatter_class=argparse.RawDescriptionHelpFormatter)
    p.add_argument("program")
    for name, number in (("--seed", 1), ("--seeds", 1), ("--count", 1000), ("--damaged", 300), ("--outside", 100)):
        p.add_argument(name, type=int, default=number)
    p.add_argument("--full", action="store_true")
    p.add_argument("--single", action="store_true")
    p.add_argument("--keep")
    p.add_argument("--tools", default=os.path.join(HERE, "build"))
    options = p.parse_args()
    scale, began = Scale(options), time.monotonic()
    for seed in range(options.seed, options.seed + options.seeds):
        scale.seed(seed)
    for what, count in sorted(scale.tally.items()):
        print("%8d  %s" % (count, what))
    print("%8d  cases in %.0f s, %d differences" % (sum(scale.tally.values()), time.monotonic() - began, scale.differences))
    sys.exit(1 if scale.differences else 0)


if __name__ == "__main__":
    main()
