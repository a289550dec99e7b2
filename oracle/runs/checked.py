"""Generated scripts, checked: the slot types that a run is held to are the Rust's.

The types come from `definitions/model.py`, which has the words of every buffer; its rows, messages and counts are compared with the Rust's
own output for every script taken, so a type that the Rust does not have is reported and not used.
"""
import os
import subprocess
import tempfile
from collections import namedtuple

from values import mixed  # first: it puts the definitions' folder on the path
import model
import make_scripts
from bench_case import batch_of, compared, join_case, read_batch, read_rows, split_case
from program import Program

BUILD = os.path.join(os.path.dirname(os.path.abspath(__file__)), "..", "build")
# as long as can be used: slots, functions, types, diagnostics, messages, scratch
BENCH = (4097, 8192, 8192, 1536, 65536, 16384)

# a checked case: how it is named, a number for its chances, its parts, the model's answer, whether the Rust's rows are the model's
Checked = namedtuple("Checked", "name chance parts answer agrees")


class Differs(Exception):
    """The model and the Rust do not agree."""


def rust_rows(cases):
    """What the Rust prints for each case."""
    with tempfile.NamedTemporaryFile() as batch, tempfile.NamedTemporaryFile() as rows:
        batch.write(batch_of(cases))
        batch.flush()
        command = [os.path.join(BUILD, "oracle"), "--full", "--counts", "--domain", "--batch", batch.name]
        subprocess.run(command, stdout=rows, check=True)
        return read_rows(rows.name)


def generated(seed, count):
    """Cases of the generator: half of them have no diagnostic."""
    with tempfile.NamedTemporaryFile() as batch:
        command = [os.path.join(BUILD, "cases"), "generate", "--seed", str(seed), "--count", str(count)]
        subprocess.run(command, stdout=batch, stderr=subprocess.DEVNULL, check=True)
        return read_batch(batch.name)


def answer_of(parts):
    return model.check(parts, [[0] * n for n in BENCH])


def made(seed, count):
    """Scripts of make_scripts.py: nearly all have no diagnostic."""
    return [join_case(make_scripts.script(seed, number)) for number in range(count)]


def without_diagnostic(name, seed, cases):
    """The cases that the Rust answers without a diagnostic, checked: `name` says how they were made."""
    for number, (case, rows) in enumerate(zip(cases, rust_rows(cases))):
        if compared(rows) and rows.endswith(b"\nend 0\n"):
            parts = split_case(case)
            answer = answer_of(parts)
            yield Checked("seed %d %s %d" % (seed, name, number), mixed(seed, number), parts, answer, model.full_rows(parts, answer) == rows)


def cut(seed, count):
    """Of the generator's cases that are left out, the roots before the first that holds a let or an Fn elsewhere; its nodes stay."""
    found = []
    for case in without_diagnostic("case", seed, generated(seed, count)):
        program, parts = program_of(case.parts, case.answer), case.parts
        kept = program.roots_before_misplaced()
        if 0 < kept < len(program.roots):
            image = parts.image[:2] + [kept] + parts.image[3:4 + kept] + parts.image[4 + len(program.roots):]
            found.append(join_case(parts._replace(image=image)))
    return found


def program_of(parts, answer, kind=Program):
    """The script as a run sees it."""
    return kind(parts, answer.buffers[0], answer.buffers[2])


def by_hand(parts, kind=Program):
    """A hand-made script: (program, diagnostics of the Rust as (code, message)); the model must agree with the Rust."""
    answer = answer_of(parts)
    (rows,) = rust_rows([join_case(parts)])
    if not compared(rows) or model.full_rows(parts, answer) != rows:
        raise Differs(rows.decode("utf-8", "replace"))
    told = [line.split(b" ", 4) for line in rows.split(b"\n") if line.startswith(b"diag ")]
    return program_of(parts, answer, kind), [(int(t[1]), t[4].decode("utf-8", "replace")) for t in told]
