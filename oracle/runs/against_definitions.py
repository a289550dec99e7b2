#!/usr/bin/env python3
"""Holds the definitions of crates/runs/specs to this machine, by computing them.

  against_definitions.py [--seed S] [--cases N] [--made M] [--nodes K] [--work DIR] [--repo DIR] [--only NUMBER] [--wrong NAME]

For each script and budget one theorem, `what the definitions make of this script, this Open and this budget ≡ what machine.py makes of it`,
proved by refl, in a temporary repository as in ../definitions: `rt check` decides, and nothing is written into the repository. The definitions
have their own check of the script (`checkRun`) and their own table of calls (`scriptRun`); compared are how the run ended, roots run (of a
run that ended), steps left, questions asked, own calls, the nodes entered and every value given with its node and slot, in order. One more
theorem for each script compares the whole table of calls (`tableOf`): of each call its node, slot, the declaring Fn or Extern node or N plus
the library package's position, the position in the group, and of a package function its declared types and the types given.

Scripts: N cases of `../build/cases` and M of make_scripts.py, of at most K nodes, that meet the hypotheses of S-11; those of needed.py, which
do not; those of wrong.py and of scripts/. The Open is opens.py's `Written`, whose package answers are made once for each script, honest ones by chance.
Budgets: one that is spent, if there is one, and one that is more than enough, or 60.

--wrong NAME lets a wrong reading of wrong.py compute what is expected, where that is something else: every theorem must then fail.

Exit status: 0 all are computed and agree (with --wrong: none does), 1 some are not or do not, 2 the check itself failed.
"""
import argparse
import os
import sys
from collections import namedtuple

from values import mixed  # first: it puts the definitions' folder on the path
import checked
import definitions
import model
import needed
from bench_case import split_case
from definitions import Definitions, Failed, buffers, inputs, numbers, past_limit, theorem
from machine import ENDED, HALTED, SPENT, STUCK
from model_words import ARRAY, FOREIGN, OPTION, RECORD, SLOT
from opens import Writing, Written
from program import Own
from wrong import READINGS, RIGHT

HERE = os.path.dirname(os.path.abspath(__file__))
MOST = 60

HEAD = """use lib.ListN.{length}
use Rattle·tok.specs.Step.{Result, ok, refused}
use Rattle·runs.specs.Value.{Value, Members, Named, void, bool, int, double, str, nothing, just, array, object, foreign, end, and, noName, called, count}
use Rattle·runs.specs.Machine.{Open, NodeValue, State, Stopped, Why, halted, spent, stuck, Fault, unboundName, missingField, badCondition, badCount, badOperands, undefined, misplaced}
use Rattle·runs.specs.Declared.{Target, own, external, Chosen}
use Rattle·runs.specs.Promise.{tableOf}
use Rattle·runs.specs.Run.{scriptRun}
use Rattle·ptype.specs.Ty.{Ty, plain, wrap, rec, named, noField, field}
"""

TAIL = """
even : ℕ → Bool
even zero = true
even (suc zero) = false
even (suc (suc n)) = even n

record Given : Type 0 where
  slot : ℕ
  size : ℕ
  value : Value

ifAsked : Option Given → (slot size : ℕ) → Option Value
ifAsked none slot size = none
ifAsked (some g) slot size = elim (eqb (g .slot) slot && eqb (g .size) size) [ true ↦ some (g .value) | false ↦ none ]

answerAt : List (Option Given) → (k slot size : ℕ) → Option Value
answerAt [] k slot size = none
answerAt (a ∷ rest) zero slot size = ifAsked a slot size
answerAt (a ∷ rest) (suc k) slot size = answerAt rest k slot size

written : List (Option Given) → Open
written given = record { number = λ k. k; compare = λ op k a b. even (op + k + a + b); toBool = λ k a. even (k + a); answer = λ k slot vs. answerAt given k slot (count vs) }

faultNumber : Fault → ℕ
faultNumber unboundName = 3
faultNumber missingField = 4
faultNumber badCondition = 5
faultNumber badCount = 6
faultNumber badOperands = 7
faultNumber undefined = 8
faultNumber misplaced = 9

stopNumber : Why → ℕ
stopNumber halted = 1
stopNumber spent = 2
stopNumber (stuck f) = faultNumber f

record Told : Type 0 where
  ending : ℕ
  rootsRun : ℕ
  left : ℕ
  asked : ℕ
  calls : ℕ
  entered : List ℕ
  values : List NodeValue

toldOf : (ending rootsRun : ℕ) → State → Told
toldOf e k s = record { ending = e; rootsRun = k; left = s .left; asked = s .asked; calls = s .calls; entered = s .entered; values = s .values }

told : Result State Stopped ℕ → Told
told (ok k s) = toldOf 0 k s
told (refused x) = toldOf (stopNumber (x .why)) 0 (x .state)

record CallTold : Type 0 where
  call : ℕ
  slot : ℕ
  origin : ℕ
  position : ℕ
  types : List (List Ty)

callTold : Chosen → Target → CallTold
callTold c (own f) = record { call = c .call; slot = c .slot; origin = f .node; position = 0; types = [] }
callTold c (external o p sig given) = record { call = c .call; slot = c .slot; origin = o; position = p; types = sig .params ∷ (sig .ret ∷ []) ∷ given ∷ [] }

tableTold : List Chosen → List CallTold
tableTold [] = []
tableTold (c ∷ cs) = callTold c (c .target) ∷ tableTold cs
"""
OPENED = "scriptRun even ifAsked answerAt written faultNumber stopNumber toldOf told callTold tableTold"

ENDINGS = {ENDED: 0, HALTED: 1, SPENT: 2}
FAULTS = {"unbound name": 3, "missing field": 4, "condition not Bool": 5, "wrong argument count": 6,
          "operator on kinds its rule lacks": 7, "call without declaration": 8, "misplaced node": 9}

# one theorem: the script's name and parts, the package answers, the budget, and what machine.py makes of it; budget and result are None
# where it is about the table of calls
Claim = namedtuple("Claim", "name parts program answers budget result")


# antt

def value_text(value):
    kind = value[0]
    if kind == "bool":
        return "(bool %s)" % ("true" if value[1] else "false")
    if kind in ("int", "double"):
        return "(%s %d)" % (kind, value[1])
    if kind == "str":
        return "(str %s)" % numbers(value[1])
    if kind == "just":
        return "(just %s)" % value_text(value[1])
    if kind == "array":
        return "(array " + "".join("(and %s " % value_text(v) for v in value[1]) + "end" + ")" * (len(value[1]) + 1)
    if kind == "object":
        return "(object " + "".join("(called %s %s " % (numbers(n), value_text(v)) for n, v in value[1]) + "noName" + ")" * (len(value[1]) + 1)
    if kind == "foreign":
        return "(foreign %s %d)" % (numbers(value[1]), value[2])
    return kind


def answers_text(answers):
    rows = ["none" if a is None else "some (record { slot = %d; size = %d; value = %s })" % (a[0], a[1], value_text(a[2])) for a in answers]
    return "(%s[])" % "".join("%s ∷ " % r for r in rows)


def type_text(type_):
    kind = type_[0]
    if kind in (OPTION, ARRAY):
        return "(wrap %d %s)" % (kind, type_text(type_[1]))
    if kind == RECORD:
        return "(rec " + "".join("(field %s %s " % (numbers(n), type_text(t)) for n, t in type_[1]) + "noField" + ")" * (len(type_[1]) + 1)
    return "(named %d %s)" % (kind, numbers(type_[1])) if kind in (FOREIGN, SLOT) else "(plain %d)" % kind


def types_text(types):
    return "(%s[])" % "".join("%s ∷ " % type_text(t) for t in types)


def table_text(program):
    """The calls of a script, the last visited first; those without a declaration are in no table."""
    rows = []
    for n, call in reversed(list(program.calls.items())):
        if isinstance(call, Own):
            origin, place, types = call.fn, 0, "[]"
        elif call is not None:
            origin, place, declared = call.origin, call.place, call.declared
            given = types_text(program.given_types(program.nodes[n][2][1]))
            types = "(%s ∷ %s ∷ %s ∷ [])" % (types_text(declared.args), types_text([declared.ret]), given)
        if call is not None:
            rows.append("record { call = %d; slot = %d; origin = %d; position = %d; types = %s }" % (n, program.nodes[n][1], origin, place, types))
    return "(%s[])" % "".join("%s ∷ " % r for r in rows)


def told_text(claim):
    r = claim.result
    ending = FAULTS[r.why] if r.ending == STUCK else ENDINGS[r.ending]
    given = ["record { node = %d; slot = %d; value = %s }" % (n, slot, value_text(v)) for n, slot, v in reversed(r.given)]
    return "record { ending = %d; rootsRun = %d; left = %d; asked = %d; calls = %d; entered = %s; values = (%s[]) }" % (
        ending, r.roots_run if r.ending == ENDED else 0, max(0, claim.budget - r.steps), r.questions, r.own_calls,
        numbers(reversed(r.entered)), "".join("%s ∷ " % g for g in given))


def theorem_of(number, claim):
    parts = claim.parts
    answer = checked.answer_of(parts)
    _, types, told, used = answer.counts
    lengths = (parts.image[3] + 1, model.function_words(parts), types, 6 * told, used, 16384)
    lent = buffers([[7] * n for n in lengths])
    if claim.result is None:
        left = "tableTold (tableOf (%s) (checkRun (%s) (%s)))" % (inputs(parts), inputs(parts), lent)
        return theorem("case%d" % number, left, table_text(claim.program))
    left = "told (scriptRun (%s) (checkRun (%s) (%s)) (written %s) %d)" % (
        inputs(parts), inputs(parts), lent, answers_text(claim.answers), claim.budget)
    return theorem("case%d" % number, left, told_text(claim))


# scripts

def claims_of(name, parts, reading, answers=None):
    """The claims of one script: its package answers are made by a run under the largest budget."""
    answer = checked.answer_of(parts)
    program = checked.program_of(parts, answer, reading.program)
    if answers is None:
        making = Writing(program, mixed(len(parts.script), sum(parts.image) & 0xFFFF))
        reading.run(program, making, MOST)
        answers = making.answers
    whole = reading.run(program, Written(answers), MOST)
    budgets = {MOST, mixed(whole.steps) % whole.steps if whole.steps else 0}
    claims = [Claim(name, parts, program, answers, b, reading.run(program, Written(answers), b)) for b in sorted(budgets)]
    return claims + [Claim(name, parts, program, [], None, None)]


def otherwise(claims):
    """Of what a wrong reading expects that which the right one does not, the first forty."""
    found = []
    for c in claims:
        program = checked.program_of(c.parts, checked.answer_of(c.parts))
        if c.result is None and c.program.calls != program.calls or c.result and c.result != RIGHT.run(program, Written(c.answers), c.budget):
            found.append(c)
    return found[:40]


def small(found, count, most):
    """So many of these scripts, of few nodes, that meet the hypotheses."""
    taken = []
    for case in found:
        if len(taken) < count and case.agrees and 0 < case.parts.image[0] <= most and len(case.parts.script) < 600:
            if checked.program_of(case.parts, case.answer).placed():
                taken.append((case.name, case.parts))
    return taken


def by_hand():
    """The scripts of needed.py with their answers, those of wrong.py, and those in scripts/."""
    sys.path.insert(0, os.path.join(HERE, "..", "assembler"))
    from assemble import assembled
    found = [("needed %d" % k, e.parts, e.answers) for k, e in enumerate(needed.EXAMPLES, 1)]
    found += [("wrong %s" % name, reading.by_hand, None) for name, reading in READINGS.items()]
    folder = os.path.join(HERE, "scripts")
    for file in sorted(os.listdir(folder)) if os.path.isdir(folder) else []:
        with open(os.path.join(folder, file), encoding="utf-8") as f:
            found.append((file, split_case(assembled(f.read())), None))
    return found


def all_claims(options, reading):
    claims = [c for name, parts, answers in by_hand() for c in claims_of(name, parts, reading, answers)]
    cases = checked.without_diagnostic("case", options.seed, checked.generated(options.seed, 20 * options.cases))
    made = checked.without_diagnostic("made", options.seed, checked.made(options.seed, 8 * options.made))
    for name, parts in small(cases, options.cases, options.nodes) + small(made, options.made, options.nodes):
        claims += claims_of(name, parts, reading)
    return claims


def report(numbered, failed, took):
    for k in sorted(failed):
        claim, what = numbered[k], "not computed, antt's step limit" if past_limit(failed[k]) else "does not agree"
        text = " ".join(claim.parts.script.decode("utf-8", "replace").split())
        print("theorem %d: %s: %s, %s\n  %s\n%s" % (
            k, what, claim.name, "table of calls" if claim.result is None else "budget %d" % claim.budget, text, failed[k][:1500]))
    claims = [c for c in numbered.values() if c.result is not None]
    limited = sum(past_limit(why) for why in failed.values())
    endings = {}
    for claim in claims:
        endings[claim.result.ending] = endings.get(claim.result.ending, 0) + 1
    print("%d scripts, %d theorems computed in %.0f s (%d runs, %d tables), %d do not agree, %d past antt's step limit" % (
        len({c.name for c in claims}), len(numbered) - limited, took, len(claims), len(numbered) - len(claims), len(failed) - limited, limited))
    print("endings: " + ", ".join("%s (%d)" % kv for kv in sorted(endings.items())))
    print("theorems with own calls %d, with a package's answer %d, of more than one root %d; %d values compared" % (
        sum(c.result.own_calls > 0 for c in claims), sum(any(c.answers) for c in claims), sum(c.parts.image[2] > 1 for c in claims),
        sum(len(c.result.given) for c in claims)))


def main():
    p = argparse.ArgumentParser(description=__doc__, formatter_class=argparse.RawDescriptionHelpFormatter)
    p.add_argument("--seed", type=int, default=1)
    p.add_argument("--cases", type=int, default=120, help="scripts of ../build/cases")
    p.add_argument("--made", type=int, default=120, help="scripts of make_scripts.py")
    p.add_argument("--nodes", type=int, default=40, help="leave out scripts of more nodes")
    p.add_argument("--repo", default=os.path.join(HERE, "..", ".."))
    p.add_argument("--work", help="folder of the temporary repository, which is left there")
    p.add_argument("--only", type=int, help="one theorem by its number")
    p.add_argument("--wrong", choices=sorted(READINGS), help="a wrong reading says what is expected")
    options = p.parse_args()
    definitions.TOPS.append(("runs", "Run"))
    top, bottom = definitions.HEAD.split("\n\n", 1)
    definitions.HEAD = top + "\n" + HEAD + "\n" + bottom + TAIL
    definitions.OPEN += " " + OPENED
    claims = otherwise(all_claims(options, READINGS[options.wrong])) if options.wrong else all_claims(options, RIGHT)
    numbered = {k: c for k, c in enumerate(claims) if options.only in (None, k)}
    computed = Definitions(options.repo, options.work)
    try:
        theorems = [("case%d" % k, theorem_of(k, c)) for k, c in numbered.items()]
        failed, took = computed.check(theorems, say=lambda line: print(line, flush=True))
    except Failed as why:
        print("the check failed, and not at a case:\n%s" % why)
        sys.exit(2)
    finally:
        computed.remove()
    if options.wrong:
        print("%s: %d theorems of the wrong reading, %d do not hold" % (options.wrong, len(numbered), len(failed)))
        sys.exit(0 if len(failed) == len(numbered) else 1)
    report(numbered, {int(n[4:]): w for n, w in failed.items()}, took)
    sys.exit(1 if failed else 0)


if __name__ == "__main__":
    main()
