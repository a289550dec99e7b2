#!/usr/bin/env python3
"""How much stack the check needs: measured on the deepest and widest shapes, and summed from the compiled frames. Fails past the bound.

  stack.py [--lib FOLDER] [--all]

1. Each shape of ../../oracle/hostile/shapes.py is run on a painted stack (stack.c): the bytes below the caller's frame that were written.
   Shapes that are less deep are held to what is said of their depth.
2. All shapes are run on the program's own stack under `ulimit -s` of the bound and what the driver needs by itself (an empty image's run), and for the
   worst of each group the least `ulimit -s` is looked for.
3. frames.py sums the frames along the longest chain of calls. What was measured is at most that, and near it.
"""
import argparse
import os
import resource
import subprocess
import sys
import tempfile

HERE = os.path.dirname(os.path.abspath(__file__))
sys.path.insert(0, HERE)
sys.path.insert(1, os.path.join(HERE, "..", "..", "oracle", "hostile"))
sys.path.insert(2, os.path.join(HERE, "..", "..", "oracle", "definitions"))
import frames  # noqa: E402
from bench_case import batch_of  # noqa: E402
from shapes import less_deep, shapes  # noqa: E402

# Bytes of stack that the check may take, whatever it is given.
BOUND = 196608
# And where nodes are at most d deep: the greater of the first, which refusals 1 to 6 take, and the second + d times the third (shelfstork.h).
REFUSALS, WALK, LEVEL = 58856, 34944, 2384
# The measured most is at least this part of the sum.
NEAR = 0.85
PAGE = 4096
# For all shapes in a row: they take well below one second of processor time.
SECONDS = 120
BENCH = os.path.join(HERE, "..", "..", "target", "bin", "bench")


def compile_driver(lib, made):
    driver = os.path.join(made, "stack")
    subprocess.run([os.environ.get("CC", "cc"), "-O1", "-std=gnu99", "-Wall", "-Wextra", "-I" + os.path.join(HERE, ".."), os.path.join(HERE, "stack.c"),
                    "-L" + lib, "-lshelfstork", "-Wl,-z,now", "-o", driver], check=True)
    return driver


def batch(made, cases):
    path = os.path.join(made, "cases")
    with open(path, "wb") as f:
        f.write(batch_of(cases))
    return path


def painted(driver, made, cases):
    """(bytes, number, place) of each."""
    out = subprocess.run([driver, "painted", batch(made, cases)], stdout=subprocess.PIPE, check=True, text=True, env={}, timeout=SECONDS).stdout
    return [tuple(map(int, l.split())) for l in out.splitlines()]


def ends(command, kilobytes, stdin=None):
    """Whether a command comes to its end under `ulimit -s` of so many."""
    def limited():
        resource.setrlimit(resource.RLIMIT_STACK, (1024 * kilobytes, resource.RLIM_INFINITY))
        resource.setrlimit(resource.RLIMIT_CORE, (0, 0))
    try:
        run = subprocess.run(command, input=stdin, stdout=subprocess.DEVNULL, stderr=subprocess.DEVNULL, env={}, preexec_fn=limited, timeout=SECONDS)
    except (OSError, subprocess.TimeoutExpired):
        return False
    return run.returncode == 0


def least(command, stdin=None):
    """The least `ulimit -s`, in KB, to a page."""
    low, high = 0, 8192
    while high - low > PAGE // 1024:
        middle = (low + high) // 2
        if ends(command, middle, stdin):
            high = middle
        else:
            low = middle
    return high


def group_of(name):
    return name if name.startswith("wide") else "wide below" if " over wide " in name else name.split(" over ")[0].split(",")[0].split(" ")[0]


def main():
    p = argparse.ArgumentParser(description=__doc__, formatter_class=argparse.RawDescriptionHelpFormatter)
    p.add_argument("--lib", default=os.environ.get("SHELFSTORK_LIB") or os.path.join(HERE, "..", "..", "crates", "shelfstork", "out"))
    p.add_argument("--all", action="store_true", help="print every shape")
    o = p.parse_args()
    named = list(shapes())
    with tempfile.TemporaryDirectory() as made:
        driver = compile_driver(o.lib, made)
        measured = list(zip(named, painted(driver, made, [c for _, c in named])))
        if o.all:
            for (name, _), (size, number, place) in measured:
                print("%9s  %s%s" % (format(size, ","), name, "" if number == 0 else " (refused %d %d)" % (number, place)))
        groups = {}
        for (name, c), (size, number, _) in measured:
            if size > groups.get(group_of(name), (0,))[0]:
                groups[group_of(name)] = (size, name, c, number)
        empty, floor = named[0][1], (measured[0][1][0] + 1023) // 1024
        own = least([driver, "plain", batch(made, [empty])]) - floor
        print("stack of the check in bytes, %d shapes; least `ulimit -s` in KB without the driver's own %d" % (len(named), own))
        for size, name, c, number in sorted(groups.values(), reverse=True):
            under = least([driver, "plain", batch(made, [c])]) - own
            print("%9s  %4d KB  %s%s" % (format(size, ","), under, name, "" if number == 0 else " (refused %d)" % number))
        most, worst = max((size, name) for (name, _), (size, _, _) in measured)
        answered = max(size for _, (size, number, _) in measured if number == 0)
        within = ends([driver, "plain", batch(made, [c for _, c in named])], own + BOUND // 1024)
        shallow = list(less_deep())
        over = [(size, name) for (d, name, _), (size, _, _) in zip(shallow, painted(driver, made, [c for _, _, c in shallow])) if size > max(REFUSALS, WALK + LEVEL * d)]
    try:
        summed, chain = frames.worst(os.path.join(o.lib, "libshelfstork.a"))
    except ValueError as why:
        print("stack: frames.py: %s" % why)
        return 1
    print("summed from the frames: %s" % format(summed, ","))
    for line in chain:
        print("    " + line)
    if os.path.exists(BENCH):
        print("the bench takes %d KB besides, for its own buffers" % (least([BENCH], empty) - floor))
    print("measured: %s at most, %s of inputs that are answered" % (format(most, ","), format(answered, ",")))
    faults = []
    if most > BOUND:
        faults.append("%s takes %s bytes, more than %s" % (worst, format(most, ","), format(BOUND, ",")))
    for size, name in over[:5]:
        faults.append("%s takes %s bytes, more than is said of its depth" % (name, format(size, ",")))
    if WALK + 64 * LEVEL < summed or REFUSALS < measured[0][1][0]:
        faults.append("what is said of depths does not come to the sum, %s" % format(summed, ","))
    if not within:
        faults.append("the shapes do not all end under `ulimit -s` %d" % (own + BOUND // 1024))
    if summed > BOUND:
        faults.append("the sum is more than %s" % format(BOUND, ","))
    if not NEAR * summed <= most <= summed:
        faults.append("measured %s and summed %s do not agree" % (format(most, ","), format(summed, ",")))
    for fault in faults:
        print("stack: " + fault)
    if not faults:
        print("stack: at most %s bytes measured, %s summed, %s allowed" % tuple(format(n, ",") for n in (most, summed, BOUND)))
    return 1 if faults else 0


if __name__ == "__main__":
    sys.exit(main())
