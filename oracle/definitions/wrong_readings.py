#!/usr/bin/env python3
"""Puts wrong readings of document 01 into a copy of the definitions, one at a time, and sees that a stored case catches each.

  wrong_readings.py [--repo DIR] [--only TEXT] [--search]

A reading is caught if a theorem that holds of the definitions (compare.py) is refuted when the reading stands in them. Each names the
cases that are expected to catch it; only those are computed. --search computes all small stored cases instead, and names every one that
catches it. Fails if an edit does not apply, if the edited definitions are not accepted by antt, or if no case catches it.
"""
import argparse
import os
import sys

from bench_case import read_batch, read_rows
from compare import HERE, answer_lines, answers_claims, buffers_claims, decide, rows_claims
from definitions import Definitions, Failed, past_limit
from make_cases import SETS
from readings import READINGS

# which lengths `buffers` lends here
KINDS = ["exact", "more", "short"]


def stored(mode, name):
    """All claims of a stored set, by number of the case."""
    where = os.path.join(HERE, "cases", name)
    if mode == "answers":
        cases = read_batch(where + ".cases")
        return answers_claims(cases, answer_lines(where + ".answers", cases))
    cases = read_batch(where + ".batch")
    if mode == "rows":
        return rows_claims(cases, read_rows(where + ".full"), True)[0]
    return buffers_claims(cases, ["past"] if name == "large" else KINDS, 1)


class Stored:
    """The claims of stored cases, read once."""

    def __init__(self, search):
        self.search, self.claims = search, {}

    def all(self, mode, name):
        if (mode, name) not in self.claims:
            self.claims[mode, name] = stored(mode, name)
        return self.claims[mode, name]

    def of(self, caught):
        """(mode, set, claim) of the cases that are to catch a reading, or of all that are searched."""
        if self.search:
            sets = SEARCHED + sorted({(mode, name) for mode, name, _ in caught if mode == "answers"})
            return [(mode, name, c) for mode, name in sets for c in self.all(mode, name)]
        found = []
        for mode, name, case in caught:
            some = [(mode, name, c) for c in self.all(mode, name) if c.number == case]
            if not some:
                raise Failed("no case %s in %s, %s" % (case, name, mode))
            found += some
        return found


SEARCHED = [("rows", "handmade"), ("rows", "readings"), ("buffers", "handmade"), ("buffers", "orders"), ("buffers", "depths")]


def shown(mode, name, claim):
    label = SETS[name][claim.number][0] if name in SETS else "case %d" % claim.number
    return "%s: %s%s" % (name, label, "" if mode == "rows" else " (%s)" % claim.about)


def without_any(definitions, claims):
    """All of it holds of the definitions as they are: what does not."""
    failed, took = decide(definitions, claims)
    for claim, why in failed:
        print("without any reading: case %d (%s)\n%s" % (claim.number, claim.about, why[:800]))
    print("%d theorems hold of the definitions as they are (%.0f s)" % (len(claims) - len(failed), took))
    return ["without any reading: case %d (%s)" % (claim.number, claim.about) for claim, _ in failed]


def put_in(definitions, label, edits, found):
    """With a reading in the definitions: whether a case catches it."""
    undo = []
    try:
        for edit in edits:
            undo.append(definitions.edit(*edit))
        failed, took = decide(definitions, [c for _, _, c in found])
    except Failed as why:
        print("%s: NOT TRIED\n%s" % (label, str(why)[-1500:]))
        return False
    finally:
        for back in reversed(undo):
            back()
    refuted = {id(claim) for claim, why in failed if not past_limit(why)}
    caught_by = [shown(mode, name, c) for mode, name, c in found if id(c) in refuted]
    limited = len(failed) - len(refuted)
    print("%s: %s (%.0f s)%s" % (label, "caught by " + "; ".join(caught_by[:4]) if caught_by else "CAUGHT BY NONE of %d" % len(found), took,
                                 ", %d past the step limit" % limited if limited else ""))
    return bool(caught_by)


def main():
    p = argparse.ArgumentParser(description=__doc__, formatter_class=argparse.RawDescriptionHelpFormatter)
    p.add_argument("--repo", default=os.path.join(HERE, "..", ".."))
    p.add_argument("--only", help="readings whose label contains this")
    p.add_argument("--search", action="store_true", help="compute all small stored cases")
    p.add_argument("--work", help="folder of the temporary repository, which is left there")
    options = p.parse_args()
    chosen = [r for r in READINGS if not options.only or options.only in r[0]]
    cases = Stored(options.search)
    definitions = Definitions(options.repo, options.work)
    plain = {id(c): c for _, _, caught, _ in chosen for _, _, c in cases.of(caught)}
    bad = without_any(definitions, list(plain.values()))
    for label, edits, caught, opens in chosen:
        definitions.opens = opens
        if not put_in(definitions, label, edits, cases.of(caught)):
            bad.append("not caught: " + label)
        sys.stdout.flush()
    definitions.remove()
    print("%d readings, %d not caught" % (len(chosen), len([b for b in bad if b.startswith("not caught")])))
    for line in bad:
        print("  " + line)
    sys.exit(1 if bad else 0)


if __name__ == "__main__":
    main()
