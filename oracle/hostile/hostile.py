#!/usr/bin/env python3
"""Looks for inputs within document 01's limits that take long, beside the Rust's time.

  hostile.py [--seed S] [--count N] [--damaged N] [--family NAME..] [--worst N] [--limit MS] [--runs N] [--save FOLDER]
  hostile.py --case "script_tower k=20 levels=8 use=plain" ..
  hostile.py --file CASE..

Without --case and --file: the stored worst cases (worst.txt), then N cases drawn from the families (towers.py, lists.py, wide.py) and N damaged ones. Prints the slowest
and ends with the findings: cases over 50 ms and over four times the Rust. Status 1 if there is a finding that waits for nothing.
Needs what ../speed/speed.py needs: crates/shelfstork/out/libshelfstork.a (another folder: SHELFSTORK_LIB) and ../build.sh.
"""
import argparse
import os
import random
import resource
import signal
import subprocess
import sys
import tempfile
from collections import namedtuple

HERE = os.path.dirname(os.path.abspath(__file__))
sys.path.insert(0, HERE)
sys.path.insert(1, os.path.join(HERE, "..", "definitions"))
from bench_case import batch_of  # noqa: E402
from families import FAMILIES, made, to_line  # noqa: E402

# Allowed: 50 ms on one core, or four times the Rust where that is longer.
MOST_MS, TIMES = 50, 4
# Times the limit that the Rust has where the first run leaves a case open.
LONGER = 5
MEMORY = 4 << 30
AT_ONCE = 100

# line, waits: what the case waits for, or None; case: bytes
Hostile = namedtuple("Hostile", "line waits case")
# ms: least processor time, None where the limit was met; told: what the side answers
Timed = namedtuple("Timed", "ms decoding told limit")


def build():
    target = os.path.join(HERE, "..", "build", "speed")
    env = dict(os.environ, RUSTC_BOOTSTRAP="1", CARGO_TARGET_DIR=target)
    subprocess.run(["cargo", "build", "--release", "--offline", "--quiet"], cwd=os.path.join(HERE, "..", "speed"), env=env, check=True)
    return os.path.join(target, "release", "one_side")


def side(driver, which, limit, runs, cases):
    """A Timed for each case. A case that ends the driver is told so, and the driver begins again after it."""
    out = []
    with tempfile.NamedTemporaryFile() as f:
        f.write(batch_of(cases))
        f.flush()
        while len(out) < len(cases):
            run = subprocess.run([driver, which, str(limit), str(runs), str(len(out)), f.name], stdout=subprocess.PIPE, stderr=subprocess.DEVNULL, text=True,
                                 preexec_fn=lambda: resource.setrlimit(resource.RLIMIT_AS, (MEMORY, MEMORY)))
            decoded = None
            for row in run.stdout.splitlines():
                took, *told = row.split()
                if took == "decoded":
                    decoded = int(told[0]) / 1e6
                    continue
                decoding = int(told.pop(0)) / 1e6 if which == "rust" else 0
                out.append(Timed(int(took) / 1e6, decoding, tuple(told), limit))
                decoded = None
            if len(out) < len(cases):
                why = "stopped by %d" % -run.returncode if run.returncode != -signal.SIGPROF else "limit" if which == "own" or decoded is not None else "decoding"
                out.append(Timed(None, decoded or 0, (why,), limit))
    return out


def differ(own, rust):
    """Whether both answered, and not the same. Refusals 7 to 9 are not the Rust's."""
    if own.ms is None or rust.ms is None:
        return False
    if rust.told[0] == "bad-input":
        return own.told[0] not in ("2", "3", "4", "5")
    if rust.told[0] == "panic" or own.told[0] in ("7", "8", "9"):
        return False
    return own.told[0] != "0" or own.told[2:] != rust.told[1:]


def at_least(t):
    """Milliseconds."""
    return t.limit if t.ms is None else t.ms


def allowed(rust):
    """Milliseconds. A case that the oracle does not decode in time says nothing of the Rust."""
    return MOST_MS if rust.told == ("decoding",) else max(MOST_MS, TIMES * at_least(rust))


def over(own, rust):
    """Whether it is a finding, also where neither side ends."""
    return at_least(own) > allowed(rust) or own.ms is None and rust.ms is None


def settled(driver, h, own, rust):
    """Cases of which the limit leaves open whether they are findings are run once more, with longer limits."""
    if own.ms is not None or h.waits or at_least(own) > allowed(rust):
        return h, own, rust
    if rust.ms is None:
        rust, = side(driver, "rust", LONGER * rust.limit, 1, [h.case])
    if rust.ms is not None:
        own, = side(driver, "own", int(allowed(rust)) + 1, 1, [h.case])
    return h, own, rust


def shown(t):
    if t.ms is None:
        return "over %d" % t.limit if t.told == ("limit",) else " ".join(t.told)
    if t.told[0] in ("bad-input", "panic"):
        return t.told[0]
    return "%.2f" % t.ms


def row(h, own, rust):
    answer = "" if own.ms is None else "answered, %s diagnostics" % own.told[2] if own.told[0] == "0" else "refused %s %s" % own.told[:2]
    return "| `%s` | %s | %s | %.2f | %s | %s |" % (h.line, shown(own), shown(rust), rust.decoding, answer, h.waits or "")


def stored():
    with open(os.path.join(HERE, "worst.txt")) as f:
        lines = [l.strip() for l in f if l.strip() and not l.startswith("#")]
    return [of_one(l) for l in lines]


def of_one(line):
    case, waits = made(line)
    return Hostile(line, waits, case)


def drawn(seed, count, damaged, names):
    out = []
    for k in range(count + damaged):
        rng = random.Random("hostile %d %d" % (seed, k))
        name = rng.choice(names)
        line = to_line(name, FAMILIES[name].draw(rng))
        try:
            out.append(of_one(line if k < count else "damaged %d %s" % (rng.randrange(10 ** 6), line)))
        except ValueError:
            pass  # parameters that lead past a limit
    return out


def timed(driver, o, cases):
    """(case, own, Rust's), a part of the cases at a time."""
    out = []
    for at in range(0, len(cases), AT_ONCE):
        part = cases[at:at + AT_ONCE]
        bytes_of = [h.case for h in part]
        both = zip(part, side(driver, "own", o.limit, o.runs, bytes_of), side(driver, "rust", o.limit, o.runs, bytes_of))
        out += [settled(driver, *r) for r in both]
        if o.progress:
            print("%d of %d" % (at + len(part), len(cases)), file=sys.stderr, flush=True)
    return out


def save(folder, results):
    os.makedirs(folder, exist_ok=True)
    for h, _, _ in results:
        with open(os.path.join(folder, h.line.replace(" ", "_").replace("/", "_") + ".bin"), "wb") as f:
            f.write(h.case)


def main():
    p = argparse.ArgumentParser(description=__doc__, formatter_class=argparse.RawDescriptionHelpFormatter)
    p.add_argument("--seed", type=int, default=1)
    p.add_argument("--count", type=int, default=300)
    p.add_argument("--damaged", type=int, default=300)
    p.add_argument("--family", nargs="+", default=sorted(FAMILIES))
    p.add_argument("--worst", type=int, default=30, help="how many of the slowest are shown")
    p.add_argument("--limit", type=int, default=2000, help="milliseconds of processor time for a case's runs of one side")
    p.add_argument("--runs", type=int, default=5)
    p.add_argument("--no-stored", action="store_true")
    p.add_argument("--progress", action="store_true")
    p.add_argument("--save", help="a folder for the findings, in the bench's format")
    p.add_argument("--case", nargs="+")
    p.add_argument("--file", nargs="+")
    o = p.parse_args()
    if o.case or o.file:
        cases = [of_one(l) for l in o.case or ()]
        for path in o.file or ():
            with open(path, "rb") as f:
                cases.append(Hostile(os.path.basename(path), None, f.read()))
    else:
        cases = ([] if o.no_stored else stored()) + drawn(o.seed, o.count, o.damaged, o.family)
    results = timed(build(), o, cases)
    results.sort(key=lambda r: -at_least(r[1]))
    print("%d cases; processor time of one core in ms, the least of up to %d runs, limit %d ms.\n" % (len(results), o.runs, o.limit))
    head = "| case | check | Rust | decoding | answer | waits for |\n|---|---|---|---|---|---|"
    print(head)
    for r in results[:o.worst]:
        print(row(*r))
    unlike = [r for r in results if differ(r[1], r[2])]
    if unlike:
        print("\nThe two answers differ:\n\n%s" % head)
        for r in unlike:
            print(row(*r), r[1].told, r[2].told)
    found = [r for r in results if over(r[1], r[2])]
    new = [r for r in found if not r[0].waits]
    print("\n%d over %d ms and over %d times the Rust, of which %d wait for nothing:\n\n%s" % (len(found), MOST_MS, TIMES, len(new), head))
    for r in found:
        print(row(*r))
    if o.save:
        save(o.save, found + unlike)
    return 1 if new or unlike else 0


if __name__ == "__main__":
    sys.exit(main())
