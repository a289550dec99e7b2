#!/usr/bin/env python3
"""Spells this repository's own definitions and lemmas as today's Rattle does: words in snake case, a dash between two names.

    tools/respell_names.py [--list]      at the top, once, right after the kit's port.py; --list only prints OLD NEW

A name is turned where a file of crates/ declares it in specs/ or proofs/: a definition, a lemma, a field, a constructor. It is turned in every .antt and .rt file
and in every must-fail edit. Strings stay. Names that Rattle makes for goals and steps (in Proof.antt) are not looked at. Functions of src/ keep their names.
"""
import collections
import glob
import os
import re
import sys

NAME = r"[^\s(){}.;,@\"«»\[\]\\λ→]+"
DECLARED = re.compile(r"^[ \t]*(?:(?:pub|abbrev|unfoldable|opaque)[ \t]+)*(" + NAME + r")(?:[ \t]+[({][^\n]*?[)}])*[ \t]+:(?:[ \t]|$)", re.M)
PATTERN = re.compile(r"^[ \t]*(?:\| )?(" + NAME + r") :(?: |$)", re.M)
SPLIT = re.compile(r"(\"(?:[^\"\\\n]|\\.)*\")")
# names that would fall together with another one
APART = {}
# lemmas (and a field) that port.py had spelled so already, and whose name a definition takes now
TAKEN = {x: x + "_lem" for x in "entry_length no_wrap cases_end in_group set_known all_among go_on same_bytes own_room fn_row never_stuck none_left row_fine".split()}
TAKEN["most_bytes"] = "bytes_within"


def without_comments(text):
    return re.sub(r"(?<![^\s(){},;])--[^\n]*", "", text)


def snake(part):
    if not part or part[0].isupper():
        return part
    part = re.sub(r"([a-z0-9₀-₉'])([A-Z])", r"\1_\2", part)
    return "".join(c.lower() if c.isascii() else c for c in part)


def antt_files(root):
    return [f for f in sorted(glob.glob(root + "/crates/*/**/*.antt", recursive=True)) if "/out/" not in f]


def collected(root):
    names = set()
    known = set()
    for f in antt_files(root):
        if "/Proof.antt" in f or "/Proof/" in f:
            continue
        text = without_comments(open(f, encoding="utf-8").read())
        for m in DECLARED.finditer(text):
            names.add(m.group(1))
        for m in re.finditer(r"use [^\n{]*\{([^}]*)\}", text):
            known |= {x.strip().split(" as ")[-1] for x in m.group(1).split(",")}
    return names, known


def table(root):
    names, known = collected(root)
    wanted = {n for n in names if (re.search(r"[a-z0-9'₀-₉][A-Z]", n) and not n[0].isupper()) or "-" in n}
    wanted = {n for n in wanted if re.match(r"[A-Za-z]", n) and not re.match(r"^[A-Z]", n)}
    plain = {snake(n) for n in names | known if "-" not in n} | {"length", "take", "drop", "set", "get_or", "map", "min", "max", "append"}
    made = {}
    # names of the kit's, which lemmas here share
    wanted -= {"append-nil", "and-false", "or-false"}
    for n in sorted(wanted):
        parts = [snake(p) for p in n.split("-")]
        out = parts[0]
        for a, b in zip(parts, parts[1:]):
            two = a in plain and b in plain and len(a) > 1 and len(b) > 1
            out += ("-" if two else "_") + b
        made[n] = APART.get(n, out)
    # "A lemma that would have its function's name gets `_lem`"
    by_new = collections.Counter(made.values())
    for n in made:
        if "-" in n and made[n] != n and (by_new[made[n]] > 1 or made[n] in names):
            made[n] += "_lem"
    return {a: b for a, b in made.items() if a != b}


def pieces(text, is_antt):
    return SPLIT.split(text)


TOKEN = re.compile(r"(?<![^\s(){}.;,@\"«»\[\]\\λ→`/:])" + r"([A-Za-z][^\s(){}.;,@\"«»\[\]\\λ→`/:]*)")


def turned(text, names):
    out = []
    for k, piece in enumerate(SPLIT.split(text)):
        out.append(piece if k % 2 else TOKEN.sub(lambda m: names.get(m.group(1), m.group(1)), piece))
    return "".join(out)


LONE = re.compile(r"(?<![^\s(){};,@\"«»\[\]\\λ→`])([A-Za-z][^\s(){}.;,@\"«»\[\]\\λ→`/:]*)(?!\.)")


def apart(text, is_code_proof):
    """Gives way to the definitions. In Proof.antt a step of the code may have such a name: there only a word that stands alone is a lemma."""
    pattern = LONE if is_code_proof else TOKEN
    return "".join(piece if k % 2 else pattern.sub(lambda m: TAKEN.get(m.group(1), m.group(1)), piece) for k, piece in enumerate(SPLIT.split(text)))


def clashes(root, names):
    """Names that would mean two things in some file."""
    by_new = collections.defaultdict(list)
    for a, b in names.items():
        by_new[b].append(a)
    for b, olds in sorted(by_new.items()):
        if len(olds) > 1:
            print("two:", b, olds)
    said = collections.Counter()
    for f in antt_files(root):
        text = open(f, encoding="utf-8").read()
        text = SPLIT.sub("", without_comments(text))
        tokens = set(re.findall(r"(?<![\w.'-])([A-Za-z][^\s(){}.;,@\"«»\[\]\\λ→]*)", text))
        for t in tokens & set(names):
            if names[t] in tokens:
                said[(t, names[t])] += 1
                if said[(t, names[t])] <= 3:
                    print("here:", t, names[t], os.path.relpath(f, root))


def main():
    root = os.path.abspath(os.path.join(os.path.dirname(__file__), ".."))
    names = table(root)
    if "--list" in sys.argv:
        for a, b in sorted(names.items()):
            print(a, b)
        return
    if "--clashes" in sys.argv:
        clashes(root, names)
        return
    files = antt_files(root) + glob.glob(root + "/crates/*/src/**/*.rt", recursive=True)
    files += glob.glob(root + "/crates/*/must-fail/*.edit") + glob.glob(root + "/more-edits/*/*.edit")
    for f in files:
        text = open(f, encoding="utf-8").read()
        new = text
        if f.endswith(".antt") and not re.search(r"specs/declared|/proofs/[^\n]*(?:tok/proofs/same_bytes)", f):
            new = apart(new, "/Proof.antt" in f or "/Proof/" in f)
        new = turned(new, names)
        if new != text:
            open(f, "w", encoding="utf-8").write(new)


if __name__ == "__main__":
    main()
