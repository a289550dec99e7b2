#!/usr/bin/env python3
"""Which public function has which wrong edits: writes more-edits/TABLE.md, from file names FUNCTION__what.edit.

    more-edits/table.py            writes the table
    more-edits/table.py --check    tells what is wrong: a table that is old, an edit whose text does not occur exactly once or whose name
                                   is not that of the function or definition that it changes, a public function with fewer than two edits
"""
import glob
import os
import re
import sys

ROOT = os.path.dirname(os.path.dirname(os.path.abspath(__file__)))
TABLE = os.path.join(ROOT, "more-edits", "TABLE.md")
FN = re.compile(r'^ *(pub )?(?:extern "C" )?fn (\w+)', re.M)
CONST = re.compile(r"^(?:pub )?const (\w+)", re.M)
SIGNATURE = re.compile(r"^( *)(?:(?:abbrev |unfoldable )?(?:pub )?([^\s:(){}|,;=]+) :(?= )|(?:pub )?(?:record|data) ([^\s:(){}]+))")


def read(path):
    with open(path, encoding="utf-8") as file:
        return file.read()


def edits():
    """Every edit: its crate, whether the gate tries it, its file."""
    for path in sorted(glob.glob(ROOT + "/crates/*/must-fail/*.edit")):
        yield path.split("/")[-3], True, path
    for path in sorted(glob.glob(ROOT + "/more-edits/*/*.edit")):
        yield path.split("/")[-2], False, path


def parts(path):
    text = read(path)
    file = re.search(r"^file: (.*)$", text, re.M).group(1)
    old = re.search(r"^old: (.*?)^new: ", text, re.M | re.S).group(1)[:-1]
    return file, old


def definitions(text):
    """Where each definition of an antt file begins; what stands in a record or data type is its."""
    start, held = 0, None
    for line in text.splitlines(keepends=True):
        found = SIGNATURE.match(line)
        if found and not line.lstrip().startswith(("--", "use ", "module ", "mod ")):
            indent = len(found.group(1))
            if held is None or indent <= held:
                held = indent if found.group(3) else None
                yield start, found.group(2) or found.group(3)
        start += len(line)


def changed(crate, file, old):
    """The name of what an edit changes, and how often its text occurs."""
    text = read(f"{ROOT}/crates/{crate}/{file}")
    at = text.find(old)
    if file.endswith(".rt"):
        names = [(m.start(), m.group(2)) for m in FN.finditer(text)] + [(m.start(), m.group(1)) for m in CONST.finditer(text)]
    else:
        names = list(definitions(text))
    before = [name for start, name in sorted(names) if start <= at + len(old) - len(old.lstrip())]
    return (before[-1] if before else "head"), text.count(old)


def public_functions():
    """The public functions of every crate, in the order of crates.txt."""
    for line in read(ROOT + "/crates.txt").splitlines():
        if not line or line.startswith("#"):
            continue
        crate = line.split(":")[0]
        for source in ("lib.rt", "main.rt"):
            path = f"{ROOT}/crates/{crate}/src/{source}"
            if os.path.exists(path):
                for found in FN.finditer(read(path)):
                    if found.group(1):
                        yield crate, found.group(2)


def table():
    """The table, and the functions with fewer than two. An edit of laws is the function's above them whose name it has."""
    public = set(public_functions())
    by_function = {}
    for crate, in_gate, path in edits():
        function, _, what = os.path.basename(path)[:-5].partition("__")
        above = [c for c, f in public if f == function]
        if (crate, function) not in public and len(above) == 1:
            crate = above[0]
        by_function.setdefault((crate, function), []).append(what.replace("_", " ") + (" (gate)" if in_gate else ""))
    rows = ["# Wrong edits of each public function", "", "Written by `more-edits/table.py`. An edit is `FUNCTION__what.edit`, in `crates/NAME/must-fail/` (the gate tries it) or in `more-edits/NAME/`.", "", "| crate | function | edits | which |", "|---|---|---|---|"]
    few = []
    for crate, function in public_functions():
        found = by_function.get((crate, function), [])
        rows.append(f"| `{crate}` | `{function}` | {len(found)} | {'; '.join(found)} |")
        if len(found) < 2:
            few.append(f"{crate}::{function} has {len(found)}")
    return "\n".join(rows) + "\n", few


def main():
    text, few = table()
    if "--check" not in sys.argv[1:]:
        with open(TABLE, "w", encoding="utf-8") as file:
            file.write(text)
        print(f"{TABLE.split('/')[-1]}: {len(few)} public functions have fewer than two")
        return 0
    wrong = list(few)
    if not os.path.exists(TABLE) or read(TABLE) != text:
        wrong.append("TABLE.md is old")
    for crate, _, path in edits():
        file, old = parts(path)
        name, times = changed(crate, file, old)
        if times != 1:
            wrong.append(f"{path[len(ROOT) + 1:]}: its text occurs {times} times")
        if "__" not in os.path.basename(path):
            wrong.append(f"{path[len(ROOT) + 1:]}: not named FUNCTION__what (it changes {name})")
    print("\n".join(wrong) if wrong else "nothing is wrong")
    return 1 if wrong else 0


if __name__ == "__main__":
    sys.exit(main())
