#!/usr/bin/env python3
"""Times the proved check against the Rust's, and prints tables for docs/PERFORMANCE.md.

  speed.py [--runs N] [--each N] [--seed S] [--tools DIR]

Needs crates/shelfstork/out/libshelfstork.a ((cd crates/shelfstork && rt lib); another folder: SHELFSTORK_LIB) and ../build.sh. Builds the driver in
../build/speed. --runs: runs of each case, of which the median counts; --each: random cases of each size.
"""
import argparse
import os
import platform
import statistics
import subprocess
import sys
import tempfile

HERE = os.path.dirname(os.path.abspath(__file__))
sys.path.insert(0, os.path.join(HERE, "..", "definitions"))
from bench_case import batch_of, compared, read_batch, read_rows  # noqa: E402
from families import FAMILIES  # noqa: E402

CLASSES = ((0, 1024), (1024, 2048), (2048, 4096), (4096, 8192), (8192, 16384), (16384, 32768), (32768, 65536))


def build():
    target = os.path.join(HERE, "..", "build", "speed")
    env = dict(os.environ, RUSTC_BOOTSTRAP="1", CARGO_TARGET_DIR=target)
    subprocess.run(["cargo", "build", "--release", "--offline", "--quiet"], cwd=HERE, env=env, check=True)
    return os.path.join(target, "release", "speed")


def timed(driver, runs, cases):
    """For each case: bytes, nodes, microseconds of the check, of the Rust, of decoding."""
    with tempfile.NamedTemporaryFile() as f:
        f.write(batch_of(cases))
        f.flush()
        out = subprocess.run([driver, str(runs), f.name], stdout=subprocess.PIPE, check=True, text=True).stdout
    rows = [list(map(int, l.split())) for l in out.splitlines()]
    return [(size, nodes, own / 1e3, rust / 1e3, decoding / 1e3) for size, nodes, own, rust, decoding in rows]


def random_cases(tools, seed, each):
    """Cases in the domain of equality, `each` of each size class."""
    held = {c: [] for c in CLASSES}
    for s in range(seed, seed + 40):
        with tempfile.NamedTemporaryFile() as made, tempfile.NamedTemporaryFile() as rows:
            subprocess.run([os.path.join(tools, "cases"), "generate", "--seed", str(s), "--count", "1000"], stdout=made, stderr=subprocess.DEVNULL, check=True)
            subprocess.run([os.path.join(tools, "oracle"), "--domain", "--batch", made.name], stdout=rows, check=True)
            for case, row in zip(read_batch(made.name), read_rows(rows.name)):
                for c in CLASSES:
                    if c[0] < len(case) <= c[1] and len(held[c]) < each and compared(row):
                        held[c].append(case)
        if all(len(h) == each for h in held.values()):
            break
    return held


def machine():
    with open("/proc/cpuinfo") as f:
        for line in f:
            if line.startswith("model name"):
                return line.split(":", 1)[1].strip()
    return platform.machine()


def main():
    p = argparse.ArgumentParser(description=__doc__, formatter_class=argparse.RawDescriptionHelpFormatter)
    p.add_argument("--runs", type=int, default=15)
    p.add_argument("--each", type=int, default=40)
    p.add_argument("--seed", type=int, default=301)
    p.add_argument("--tools", default=os.path.join(HERE, "..", "build"))
    o = p.parse_args()
    driver = build()
    print("One core of %s; medians of %d runs, times in microseconds.\n" % (machine(), o.runs))
    print("| bytes of a case | cases | check | Rust | check / Rust | Rust with decoding | check / that |\n|---|---|---|---|---|---|---|")
    for (least, most), cases in random_cases(o.tools, o.seed, o.each).items():
        if cases:
            rows = timed(driver, o.runs, cases)
            middle = lambda of: statistics.median(map(of, rows))  # noqa: E731
            print("| %s to %s | %d | %.1f | %.1f | %.2f | %.1f | %.2f |" % (
                format(least, ","), format(most, ","), len(rows), middle(lambda r: r[2]), middle(lambda r: r[3]), middle(lambda r: r[2] / r[3]),
                middle(lambda r: r[3] + r[4]), middle(lambda r: r[2] / (r[3] + r[4]))), flush=True)
    print("\n| what grows | n | nodes | check | Rust | check / Rust | check: times the row above | Rust: times the row above |\n|---|---|---|---|---|---|---|---|")
    for name, make, sizes in FAMILIES:
        before = None
        for n, row in zip(sizes, timed(driver, o.runs, [make(n) for n in sizes])):
            grown = "%.1f | %.1f" % (row[2] / before[2], row[3] / before[3]) if before else " | "
            print("| %s | %d | %d | %.1f | %.1f | %.2f | %s |" % (name if not before else "", n, row[1], row[2], row[3], row[2] / row[3], grown), flush=True)
            before = row


if __name__ == "__main__":
    main()
