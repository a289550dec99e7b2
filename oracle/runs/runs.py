#!/usr/bin/env python3
"""Runs generated scripts that pass the check, and tries the promises of request S-11 on every run.

  runs.py [--seed S] [--seeds K] [--count N] [--made M] [--opens O] [--wrong NAME] [--only "seed S case K"]
  runs.py --sample K

For each of the seeds S, S + 1, .. (K of them) scripts come from three makers, by which a report names them:

  case   N cases of `../build/cases generate`
  cut    those of them with a let or an Fn elsewhere than S-11 allows, up to the first root that holds one
  made   M scripts of make_scripts.py: own functions that are called

Each is checked by the Rust (`../build/oracle`) and by `../definitions/model.py`, whose rows must be the Rust's. Taken are those with no
diagnostic in which a let stands only as a root or a body's own statement and an Fn only as a root, visited nodes alone. Each is run with O
Opens (numbers, comparisons and package answers by chance, a function of seed, case and question; the first of
them never halts the run), each under some eight budgets from 0 to 4 N + 40, N being the nodes. Tried:

  never stuck; every value fits the type in its node's slot; no Fn gives a value
  budget N or more, no own call, not halted: ended within N steps, every root run
  ended or halted under one budget: alike under every larger one (values, nodes entered, questions, own calls)
  spent: no step is left, and what was run is the beginning of the run with a larger budget
  each package call: its declared types, slots filled as at the call, equal the types in the slots of its arguments and its own

It prints how many scripts and runs there were, how they ended, and what the scripts hold. A failure is printed with seed and case number.

--wrong NAME runs another reading in place of this one; `against_wrong.py --list` names them. A wrong reading that the promises shut out fails.
--sample K prints instead, of K small scripts, the text and how each run ended: how sample.txt is made.

Exit status: 0 all promises held, 1 one is broken or the model differs from the Rust.
"""
import argparse
import collections
import sys
import time

import checked
from opens import Open
from program import KIND_NAMES, Own, Package
from promise import budgets, of_calls, series
from values import mixed, shown
from wrong import READINGS, RIGHT

HALTING = (0, 3, 12, 0, 40)


def contents(program):
    """What a script holds, for the count of scripts."""
    held = {KIND_NAMES[program.nodes[n][0]] for n in program.visited}
    calls = list(program.calls.values())
    packages = [c for c in calls if isinstance(c, Package)]
    for name, there in (("own call", any(isinstance(c, Own) for c in calls)), ("package call", packages),
                        ("slotted call", any(c.declared.slots for c in packages)),
                        ("group of several", any(c.group > 1 for c in packages)),
                        ("candidate not the first", any(c.place for c in packages)),
                        ("recursion", program.recursive), ("package call in a function", program.packages_in_bodies),
                        ("Extern in place of a package", program.replaced)):
        if there:
            held.add(name)
    return held


class Tally:
    def __init__(self):
        self.scripts = self.runs = self.nodes = self.values = 0
        self.makers, self.left_out = collections.Counter(), collections.Counter()
        self.endings, self.held, self.ran = collections.Counter(), collections.Counter(), collections.Counter()
        self.failures = []

    def script(self, maker, program, results):
        self.scripts += 1
        self.makers[maker] += 1
        self.nodes += program.count
        self.held.update(contents(program))
        self.runs += len(results)
        self.endings.update(r.ending for r in results)
        self.values += sum(len(r.given) for r in results)
        packages = {n for n, c in program.calls.items() if isinstance(c, Package)}
        for name, there in (("an own call", any(r.own_calls for r in results)),
                            ("a question", any(r.questions for r in results)),
                            ("a package call", any(not packages.isdisjoint(r.entered) for r in results))):
            self.ran[name] += there

    def show(self, took):
        print("%d scripts that meet the hypotheses, %d nodes, %d runs, %d values given, %.0f s" % (
            self.scripts, self.nodes, self.runs, self.values, took))
        print("makers: " + ", ".join("%s (%d)" % kv for kv in sorted(self.makers.items())))
        print("left out of those without a diagnostic: " + (", ".join("%s (%d)" % kv for kv in sorted(self.left_out.items())) or "none"))
        print("endings: " + ", ".join("%s (%d)" % kv for kv in sorted(self.endings.items())))
        print("scripts that hold: " + ", ".join("%s (%d)" % kv for kv in sorted(self.held.items(), key=lambda kv: -kv[1])))
        print("scripts that in some run came to: " + ", ".join("%s (%d)" % kv for kv in sorted(self.ran.items())))
        for line in self.failures[:20]:
            print(line)
        print("%d failures" % len(self.failures))


def opens_of(program, chance, count, kind=Open):
    """The Opens of a script: the first never halts."""
    return [kind(program, mixed(chance, i), HALTING[i % len(HALTING)]) for i in range(count)]


def try_script(case, reading, opens, tally):
    program = checked.program_of(case.parts, case.answer, reading.program)
    if not case.agrees:
        tally.failures.append("%s: the model differs from the Rust" % case.name)
        return
    if reading.lets_placed and program.misplaced_lets or program.misplaced_fns:
        tally.left_out["a let or an Fn stands elsewhere, %s" % case.name.split()[2]] += 1
        return
    broken, results = ["%s: %s" % (case.name, why) for why in of_calls(program)], []
    limits = budgets(program.count, case.chance)
    for i, open_ in enumerate(opens_of(program, case.chance, opens, reading.open)):
        found, why = series(program, open_, limits, reading.run)
        results += found
        broken += ["%s open %d: %s" % (case.name, i, w) for w in why]
    tally.script(case.name.split()[2], program, results)
    tally.failures += broken


def checked_scripts(seed, count, made):
    """All scripts of a seed that have no diagnostic."""
    yield from checked.without_diagnostic("case", seed, checked.generated(seed, count))
    yield from checked.without_diagnostic("cut", seed, checked.cut(seed, count))
    yield from checked.without_diagnostic("made", seed, checked.made(seed, made))


def try_seeds(options, reading, tally):
    for seed in range(options.seed, options.seed + options.seeds):
        for case in checked_scripts(seed, options.count, options.made):
            if options.only is None or case.name == options.only:
                try_script(case, reading, options.opens, tally)


def small(found, count):
    """So many scripts of a few nodes."""
    taken = []
    for case in found:
        program = checked.program_of(case.parts, case.answer)
        if len(taken) < count and case.agrees and program.placed() and 2 <= program.count <= 20 and len(case.parts.script) <= 400:
            taken.append((case, program))
    return taken


def readable(text):
    """Text in one line, what cannot be printed by its number."""
    return "".join(c if c.isprintable() else "\\x%02x" % ord(c) for c in text)


def sample(options):
    """Small scripts with their endings, in text."""
    print("# runs.py --seed %d --count %d --made %d --sample %d" % (options.seed, options.count, options.made, options.sample))
    cases = checked.without_diagnostic("case", options.seed, checked.generated(options.seed, options.count))
    made = checked.without_diagnostic("made", options.seed, checked.made(options.seed, options.made))
    for case, program in small(cases, options.sample // 2) + small(made, options.sample - options.sample // 2):
        text = readable(" ".join(case.parts.script.decode("utf-8", "replace").split()))
        print("\n%s: %d nodes, %d roots: %s" % (case.name, program.count, len(program.roots), text))
        limits = sorted({program.count // 2, program.count, 4 * program.count + 40})
        for i, open_ in enumerate(opens_of(program, case.chance, 2)):
            for budget, r in zip(limits, series(program, open_, limits)[0]):
                last = readable(shown(r.given[-1][2])) if r.given else "none"
                print("  open %d budget %d: %s, %d steps, %d roots, %d questions, %d own calls, last value %s" % (
                    i, budget, r.ending, r.steps, r.roots_run, r.questions, r.own_calls, last))


def main():
    p = argparse.ArgumentParser(description=__doc__, formatter_class=argparse.RawDescriptionHelpFormatter)
    p.add_argument("--seed", type=int, default=1)
    p.add_argument("--seeds", type=int, default=1, help="so many seeds from --seed on")
    p.add_argument("--count", type=int, default=2000, help="cases of ../build/cases for each seed")
    p.add_argument("--made", type=int, default=500, help="scripts of make_scripts.py for each seed")
    p.add_argument("--opens", type=int, default=3, help="Opens for each script")
    p.add_argument("--only", help="one script, by the name that a report gives it")
    p.add_argument("--wrong", choices=sorted(READINGS), help="run a wrong reading instead")
    p.add_argument("--sample", type=int, default=0, help="print so many small scripts with their endings")
    options = p.parse_args()
    if options.sample:
        sample(options)
        return
    tally, began = Tally(), time.time()
    try_seeds(options, READINGS[options.wrong] if options.wrong else RIGHT, tally)
    tally.show(time.time() - began)
    sys.exit(1 if tally.failures else 0)


if __name__ == "__main__":
    main()
