#!/usr/bin/env python3
"""Counts, in crates/*/src of a commit or of the working tree, the places that docs/DESIGN-PASS.md speaks of.

    tools/design_counts.py [COMMIT]

Each figure is a plain count over the text of the .rt files, comments left out; what is counted stands beside it."""
import collections
import re
import subprocess
import sys


def sources(commit):
    """Gives name and text of each .rt file, without comments."""
    if commit:
        names = subprocess.run(["git", "ls-tree", "-r", "--name-only", commit, "crates"], capture_output=True, text=True, check=True).stdout.split("\n")
    else:
        names = subprocess.run(["git", "ls-files", "crates"], capture_output=True, text=True, check=True).stdout.split("\n")
    for name in names:
        if re.fullmatch(r"crates/\w+/src/.*\.rt", name):
            if commit:
                text = subprocess.run(["git", "show", f"{commit}:{name}"], capture_output=True, text=True, check=True).stdout
            else:
                with open(name, encoding="utf8") as file:
                    text = file.read()
            yield name, "\n".join(line for line in text.split("\n") if not line.strip().startswith("//"))


def parameters(text):
    """Gives name and parameter list of each function."""
    for found in re.finditer(r"\bfn (\w+)(?:<[^>]*>)?\(", text):
        depth, at = 1, found.end()
        while depth:
            depth += {"(": 1, ")": -1}.get(text[at], 0)
            at += 1
        inside = text[found.end() : at - 1]
        yield found.group(1), re.findall(r"(?:^|,|\n)\s*(?:mut )?(\w+):", inside)


def main():
    files = list(sources(sys.argv[1] if len(sys.argv) > 1 else None))
    everything = "\n".join(text for _, text in files)

    def lines(pattern):
        return sum(1 for line in everything.split("\n") if re.search(pattern, line))

    print("functions (fn):", lines(r"\bfn \w+"))
    print("1. own enums:", ", ".join(re.findall(r"\benum (\w+)", everything)))
    print("1. comparisons with a number or constant of a kind, operator, command or refusal:", lines(r"(?:kind|\bk\b|\bop\b|\bj\b|kind\([^()]*\)) [!=]= (?:ptype::)?(?:\d+|[A-Z]+\b)"))
    print("1. refusals written as numbers:", lines(r"Refused\(\d"))
    print("3. while and loop:", lines(r"^\s*(?:'\w+: )?(?:while\b|loop \{)"))
    print("3. for:", lines(r"^\s*(?:'\w+: )?for\b"))
    print("3. steps of an index by hand (x += 1, x += 2):", lines(r"^\s*\w+ \+= [12];"))
    print("3. for over 0..s.len():", lines(r"\bfor \w+ in \(?0\.\.\w+\.len\(\)\)?(?:\.rev\(\))? \{"))
    print("4. least( and greatest(:", lines(r"\b(?:least|greatest)\("), " wide(:", lines(r"\bwide\("))
    groups = collections.Counter()
    wanted = {
        "script, library (or text)": lambda p: "script" in p and ("library" in p or "text" in p),
        "types with the texts": lambda p: "types" in p and ("script" in p or "texts" in p),
        "slots, functions, types, diagnostics, messages, scratch": lambda p: {"slots", "functions", "types", "diagnostics", "messages", "scratch"} <= set(p),
        "diagnostics, messages": lambda p: {"diagnostics", "messages"} <= set(p),
        "pairs, count": lambda p: {"pairs", "count"} <= set(p),
        "out, at": lambda p: {"out", "at"} <= set(p),
        "order, n (or end)": lambda p: "order" in p and ("n" in p or "end" in p),
        "words, flagged, from, k": lambda p: {"words", "flagged"} <= set(p),
        "image, places": lambda p: {"image", "places"} <= set(p),
        "base, depth": lambda p: {"base", "depth"} <= set(p),
        "words, from": lambda p: {"words", "from"} <= set(p),
        "args, count": lambda p: {"args", "count"} <= set(p),
        "types, used": lambda p: {"types", "used"} <= set(p),
        "pool, sums": lambda p: {"pool", "sums"} <= set(p),
    }
    for _, text in files:
        for _, names in parameters(text):
            for title, holds in wanted.items():
                groups[title] += bool(holds(names))
    for title in wanted:
        print(f"5. functions that take {title}:", groups[title])
    print("8. answers (goal.):", subprocess.run("git ls-files 'crates/*/proofs/*' | xargs cat | grep -cE '^(pub )?[a-z][A-Za-z0-9_-]* : goal\\.'", shell=True, capture_output=True, text=True).stdout.strip() if len(sys.argv) == 1 else "see the working tree")


main()
