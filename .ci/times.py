#!/usr/bin/env python3
"""The seconds of every crate, from what the gate printed, as the table of docs/LANDINGS.md.

    .ci/run >gate.log; .ci/times.py gate.log           seconds of each crate, its edits and their seconds
    .ci/times.py gate.log before.log                   the same beside an earlier run

The seconds are of wall time with RT_JOBS jobs beside each other, so that they are more than a crate takes alone.
"""
import re
import sys

PROVED = re.compile(r"^rt: (\w+) proved \((\d+) s\)$")
REFUSED = re.compile(r"^rt: must-fail (\w+)/\S+: refused, as it must be \(.*?(\d+) s\)$")


def read(path):
    """Each crate's seconds, and the seconds of each of its edits."""
    crates, edits = {}, {}
    with open(path, encoding="utf-8") as file:
        for line in file:
            found = PROVED.match(line.rstrip())
            if found:
                crates[found.group(1)] = int(found.group(2))
            found = REFUSED.match(line.rstrip())
            if found:
                edits.setdefault(found.group(1), []).append(int(found.group(2)))
    return crates, edits


def main():
    runs = [read(path) for path in sys.argv[1:3]]
    crates, edits = runs[0]
    print("| crate | proof | edits | all edits |" + (" before: proof | edits |" if runs[1:] else ""))
    print("|---|---|---|---|" + ("---|---|" if runs[1:] else ""))
    for name in sorted(crates, key=lambda n: -(crates[n] + sum(edits.get(n, [])))):
        mine = edits.get(name, [])
        row = f"| `{name}` | {crates[name]} | {len(mine) or ''} | {sum(mine) or ''} |"
        if runs[1:]:
            row += f" {runs[1][0].get(name, '')} | {sum(runs[1][1].get(name, [])) or ''} |"
        print(row)
    for number, (crates, edits) in enumerate(runs):
        total = sum(map(sum, edits.values()))
        print(f"{['now', 'before'][number]}: {len(crates)} crates {sum(crates.values())} s, {sum(map(len, edits.values()))} edits {total} s")


if __name__ == "__main__":
    main()
