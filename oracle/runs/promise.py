"""What request S-11 promises of the runs of a script that meets its hypotheses, tried on one script.

`series` runs a script with one Open under several budgets and returns what is broken, each as one line of text.
"""
import machine
from machine import ENDED, HALTED, SPENT, STUCK
from model_words import FN
from program import Package, filled
from values import fits, mixed, shown


def budgets(count, chance):
    """0, 1, below N, N, a little more, and some times N."""
    below = [mixed(chance, i) % count for i in range(2)] if count else []
    return sorted({0, 1, count, count + 1 + chance % 3, 2 * count + 7, 4 * count + 40, *below})


def misfits(program, result):
    """Values that do not fit the type in their node's slot, and an Fn that gave one."""
    found = []
    for n, slot, value in result.given:
        if program.nodes[n][0] == FN:
            found.append("the Fn %d gave %s" % (n, shown(value)[:200]))
        type_ = program.slot_types[slot]
        if type_ is None or not fits(value, type_):
            found.append("node %d gave %s, slot %d has type %s" % (n, shown(value)[:200], slot, type_))
    return found


def of_one(program, budget, result):
    """What one run breaks."""
    found = misfits(program, result)
    if result.ending == STUCK:
        found.append("stuck: %s, at node %d" % (result.why, result.at))
    if result.ending == SPENT and result.steps != budget:
        found.append("spent after %d steps" % result.steps)
    if result.steps > budget:
        found.append("%d steps taken" % result.steps)
    if budget >= program.count and result.own_calls == 0 and result.ending != HALTED:
        if result.ending != ENDED or result.steps > program.count or result.roots_run != len(program.roots):
            found.append("no own call, but %s after %d steps and %d roots" % (result.ending, result.steps, result.roots_run))
    if result.ending == ENDED and result.roots_run != len(program.roots):
        found.append("ended after %d roots of %d" % (result.roots_run, len(program.roots)))
    return found


def of_two(shorter, longer):
    """What two runs with the same Open break, the second with the larger budget."""
    if shorter.ending != SPENT:
        return [] if shorter == longer else ["a run that %s does not end alike under a larger budget" % shorter.ending]
    began = longer.entered[:shorter.steps] == shorter.entered and longer.given[:len(shorter.given)] == shorter.given
    return [] if began else ["a run that was spent is not the beginning of one with a larger budget"]


def series(program, open_, limits, run=machine.run):
    """Runs with one Open: (results by rising budget, what is broken)."""
    results, found = [], []
    for budget in limits:
        result = run(program, open_, budget)
        found += ["budget %d: %s" % (budget, why) for why in of_one(program, budget, result)]
        if results:
            found += ["budget %d: %s" % (budget, why) for why in of_two(results[-1], result)]
        results.append(result)
    return results, found


def of_calls(program):
    """That the filled declaration of each package call agrees with the slots: what makes an honest answer fit."""
    found = []
    for n, call in program.calls.items():
        if call is None:
            found.append("the call %d has no declaration" % n)
        elif isinstance(call, Package):
            args = program.nodes[n][2][1]
            bindings = program.bindings(n, call.declared)
            if [filled(t, bindings) for t in call.declared.args] != program.given_types(args):
                found.append("the call %d: argument types differ from the arguments' slots" % n)
            if program.returned(n) != program.slot_types[program.nodes[n][1]]:
                found.append("the call %d: its filled return type differs from its slot's" % n)
    return found
