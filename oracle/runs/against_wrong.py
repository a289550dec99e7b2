#!/usr/bin/env python3
"""Which wrong readings of request S-11 (wrong.py) the promises shut out, and on which scripts.

  against_wrong.py [--seed S] [--count N] [--made M] [--only NAME] [--list]

For each reading, of the N cases of `../build/cases`, of the M scripts of make_scripts.py and of its hand-made script: how many break a promise
(the model's rows being the Rust's for each), and how many give another result than the right reading. A reading that no promise can shut
out is to give another result on its hand-made script, which then has a diagnostic, named here; `slot-honest` alone can do neither, since a
call's slot type is its declaration's return type filled as at the call, which is tried at every call.

Exit status: 1 if a reading but `slot-honest` is told apart by nothing.
"""
import argparse
import sys

import checked
from promise import budgets, of_calls, series
from runs import opens_of
from values import mixed
from wrong import READINGS, RIGHT


def results(reading, parts, answer, chance):
    """(what every run gave, whether a promise is broken); nothing for a script that the reading leaves out."""
    program = checked.program_of(parts, answer, reading.program)
    if reading.lets_placed and program.misplaced_lets or program.misplaced_fns:
        return None, False
    found, broken = [], bool(of_calls(program))
    limits = budgets(program.count, chance)
    for open_ in opens_of(program, chance, 2, reading.open):
        try:
            some, why = series(program, open_, limits, reading.run)
        except (IndexError, KeyError, TypeError) as stopped:
            # a wrong machine may come to what a right one cannot
            some, why = [repr(stopped)], ["stopped dead"]
        found.append(some)
        broken = broken or bool(why)
    return found, broken


def told_apart(reading, scripts, right):
    """(scripts that break a promise, scripts whose results differ from the right reading's, scripts run)."""
    broken = differ = ran = 0
    for case, (expected, _) in zip(scripts, right):
        found, why = results(reading, case.parts, case.answer, case.chance)
        ran += found is not None
        broken += why
        differ += expected is not None and found != expected
    return broken, differ, ran


def by_hand(reading):
    """What the hand-made script shows, in words; and whether it tells the reading apart."""
    _, told = checked.by_hand(reading.by_hand)
    answer = checked.answer_of(reading.by_hand)
    found, broken = results(reading, reading.by_hand, answer, mixed(1))
    expected, right_broken = results(RIGHT, reading.by_hand, answer, mixed(1))
    if told:
        return "with diagnostic %d: results %s" % (told[0][0], "differ" if found != expected else "alike"), found != expected
    words = "breaks a promise" if broken and not right_broken else "results differ" if found != expected else "nothing"
    return words, words != "nothing"


def main():
    p = argparse.ArgumentParser(description=__doc__, formatter_class=argparse.RawDescriptionHelpFormatter)
    p.add_argument("--seed", type=int, default=1)
    p.add_argument("--count", type=int, default=2000)
    p.add_argument("--made", type=int, default=400)
    p.add_argument("--only", choices=sorted(READINGS))
    p.add_argument("--list", action="store_true", help="the names, and what each reads")
    options = p.parse_args()
    if options.list:
        print("\n".join("%-16s%s" % (name, r.about) for name, r in READINGS.items()))
        return
    sources = [("cases", list(checked.without_diagnostic("case", options.seed, checked.generated(options.seed, options.count)))),
               ("made", list(checked.without_diagnostic("made", options.seed, checked.made(options.seed, options.made))))]
    right = {name: [results(RIGHT, c.parts, c.answer, c.chance) for c in scripts] for name, scripts in sources}
    missed = []
    for name, reading in READINGS.items():
        if options.only in (None, name):
            told, apart = by_hand(reading)
            shown, caught = [], apart
            for source, scripts in sources:
                broken, differ, ran = told_apart(reading, scripts, right[source])
                shown.append("%s: %d break a promise, %d differ, of %d" % (source, broken, differ, ran))
                caught = caught or broken > 0
            print("%-16s%s\n    %s; by hand: %s" % (name, reading.about, "; ".join(shown), told))
            sys.stdout.flush()
            if not caught and name != "slot-honest":
                missed.append(name)
    print("told apart by nothing: %s" % (", ".join(missed) or "none"))
    sys.exit(1 if missed else 0)


if __name__ == "__main__":
    main()
