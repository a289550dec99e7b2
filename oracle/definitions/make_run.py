#!/usr/bin/env python3
"""Writes `specs/Run.antt` of the crates `refusals`, `rules` and `runs` anew: the definitions as computations, each with the names of all that it
rests on. Run it, then `rt fmt`, after an `unfoldable` definition was added, renamed or removed.

  make_run.py [--repo DIR]
"""
import argparse
import os
import re

HERE = os.path.dirname(os.path.abspath(__file__))

REFUSALS = """-- The refusals as a computation, for examples: to unfold `refusalRun` is to unfold all that it rests on. A definition.
use mathlib.Core.Option.{Option}
use Rattle·tok.specs.Step.{Refusal}
use Rattle·refusals·specs.specs.Inputs.{Inputs, Buffers}
%(uses)s
unfoldable pub refusalRun : Inputs → Buffers → Option Refusal
%(unfolding)s
refusalRun = refusalOf
"""

RULES = """-- The check, its rows and what the promises speak of as computations, for examples: to unfold one of these is to unfold all that it
-- rests on. Definitions.
use Prim.Native.Nat.{ℕ}
use mathlib.Core.List.{List}
use Rattle·tok.specs.Step.{Result, Refusal}
use Rattle·ast.specs.Node.{Node}
use Rattle·refusals.specs.Inputs.{Inputs, Buffers}
use Rattle·rules·specs.specs.World.{World}
use Rattle·rules·specs.specs.Steps.{Done}
use Rattle·rules·specs.specs.Check.{Ended}
use Rattle·rules·specs.specs.Promises.{Entry}
%(uses)s
unfoldable pub checkRun : Inputs → Buffers → Ended
%(unfolding)s
checkRun = checkOf

unfoldable pub rowsRun : Inputs → Buffers → List ℕ
%(unfolding)s
rowsRun i b = rowsOf i (checkOf i b)

unfoldable pub visitedRun : (image : List ℕ) → List Node
%(unfolding)s
visitedRun = visitedIn

unfoldable pub slotsRun : (image : List ℕ) → List ℕ
%(unfolding)s
slotsRun = visitedSlots

unfoldable pub entriesRun : Inputs → Ended → List Entry
%(unfolding)s
entriesRun = entriesOf

unfoldable pub walkRun : Inputs → (k : ℕ) → World → Result World Refusal Done
%(unfolding)s
walkRun = walkFirst

unfoldable pub laterRun : Inputs → (k : ℕ) → World → Result World Refusal Done
%(unfolding)s
laterRun = walkLater
"""

SCRIPTS = """-- A script's run as a computation, for examples: to unfold `scriptRun` is to unfold all that it rests on, the check too. A definition.
use Prim.Native.Nat.{ℕ}
use Rattle·tok.specs.Step.{Result}
use Rattle·refusals.specs.Inputs.{Inputs}
use Rattle·rules.specs.Check.{Ended}
use Rattle·runs·specs.specs.Machine.{Open, State, Stopped}
use Rattle·rules.specs.Run.{checkRun}
use Rattle·runs·specs.specs.Promise.{runIn}
%(uses)s
unfoldable pub scriptRun : Inputs → Ended → Open → (budget : ℕ) → Result State Stopped ℕ
%(unfolding)s checkRun
scriptRun = runIn
"""

# the crate, the files that its computations are made of, the text, and what is unfolded already by a computation that the text names
CHECK = ("rules", ["Rows", "Promises"])
RUNS = [("refusals", ["Refusals"], REFUSALS, None), CHECK + (RULES, None), ("runs", ["Promise"], SCRIPTS, CHECK)]


def source(repo, module):
    with open(os.path.join(repo, "crates", module[0], "specs", module[1] + ".antt"), encoding="utf-8") as f:
        return f.read()


def used(text):
    """The (crate, file) of each `use` line that names a file of specs."""
    return re.findall(r"^use Rattle·([a-z0-9_]+)(?:·specs)?(?:\.specs)?\.specs\.([A-Za-z0-9]+)[.\s]", text, re.M)


def modules(repo, crate, files):
    """The modules that these files rest on, themselves too, those lower down first."""
    out = []

    def visit(module):
        if module in out or not os.path.exists(os.path.join(repo, "crates", module[0], "specs", module[1] + ".antt")):
            return
        for below in used(source(repo, module)):
            visit(below)
        out.append(module)

    for file in files:
        visit((crate, file))
    return out


def unfoldable(text):
    """The names of the `unfoldable` definitions, those in a `module` or a `mutual` block too."""
    names, inside = [], None
    for line in text.split("\n"):
        depth = len(line) - len(line.lstrip())
        alone = re.match(r" *unfoldable pub (\S+) ", line)
        if alone:
            names.append(alone.group(1))
        if inside is not None and line and depth <= inside:
            inside = None
        if line.strip() == "unfoldable mutual":
            inside = depth
        member = re.match(r" *pub (\S+) :", line)
        if inside is not None and depth == inside + 2 and member:
            names.append(member.group(1))
    return names


def lists(repo, crate, files, named):
    """The `use` lines and the `unfolding` line. A name that two files have is written whole."""
    already = modules(repo, *named) if named else []
    found = [(m, n) for m in modules(repo, crate, files) if m not in already for n in unfoldable(source(repo, m))]
    often = {}
    for _, name in found:
        often[name] = often.get(name, 0) + 1
    uses, words = {}, []
    for (home, file), name in found:
        path = ("Rattle·%s·specs.specs.%s" if home == crate else "Rattle·%s.specs.%s") % (home, file)
        if often[name] == 1:
            uses.setdefault(path, []).append(name)
        words.append(name if often[name] == 1 else path + "." + name)
    lines = "".join("use %s.{%s}\n" % (path, ", ".join(names)) for path, names in uses.items())
    return {"uses": lines, "unfolding": "unfolding " + " ".join(words)}


def main():
    p = argparse.ArgumentParser(description=__doc__, formatter_class=argparse.RawDescriptionHelpFormatter)
    p.add_argument("--repo", default=os.path.join(HERE, "..", ".."))
    a = p.parse_args()
    for crate, files, text, named in RUNS:
        with open(os.path.join(a.repo, "crates", crate, "specs", "Run.antt"), "w", encoding="utf-8") as f:
            f.write(text % lists(a.repo, crate, files, named))


main()
