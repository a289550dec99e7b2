#!/usr/bin/env python3
"""Holds the definitions to the Rust and to document 01, by computing them.

  compare.py rows    --cases FILE [--rows FILE] [--full]    rows against the Rust's
  compare.py answers --cases FILE --answers FILE            refusals 1 to 6 against expected ones
  compare.py accepts --cases FILE [--rows FILE]             whether refusals 2 to 5 come, against the Rust's reader
  compare.py buffers --cases FILE [--variants ..] [--answers FILE]
                                                            every word of every buffer, refusals 1 and 6 to 9
  compare.py model   --cases FILE [--rows FILE]             the model of `buffers` against the Rust (nothing of antt)
  compare.py stored  [--quick]                              all of cases/, in every mode

For each case one theorem, `the definition of these inputs and these buffers ≡ what is expected`, proved by refl, in a crate of a temporary
repository that holds the definitions of --repo (default: the repository that this script stands in). `rt check` decides. Nothing is
written into the repository.

FILE of --cases: a batch (bench_case.py). It and the others may be packed (.gz).

rows: FILE of --rows is what the oracle printed for the batch, with `--domain`, and with --full also `--full --counts` (primary messages
and the four used counts). Without --rows the oracle is run (--oracle). Cases that the Rust refuses, stops dead at or that lie outside the
domain of equality are left out. Buffers are lent a little longer than used, filled with numbers that no answer has there.

answers: FILE of --answers has a line for each case: `accepted` or `refused NUMBER PLACE`, then, if the lent lengths are not the bench's,
`lent SLOTS FUNCTIONS SCRATCH`; what follows a `#` is shown with a failure. Refused: number, place, counts of 0, and every buffer left as
it was. Accepted: none of refusals 1 to 6.

accepts: the oracle's reader says `bad-input` where document 01 refuses with 2 to 5, without number and place. For cases whose places
nobody has worked out: damaged ones.

buffers: what is expected is model.py's, for buffers of several lengths: those used to the last word (`exact`), a little more (`more`),
each in turn one short (`short`: 1, 6, 7 and 9), random ones near the used lengths (`near`, by --seed), and longer than the limits of what
is used (`past`). An answer's buffers are compared
word for word, what lies past the used part too; after 7 to 9 all are zero, after 1 and 6 as they were. With --answers only the cases that
it says are accepted.

A case past antt's step limit is named as not computed: it counts for nothing.

Exit status: 0 all are computed and agree, 1 some are not or do not, 2 the check itself failed.
"""
import argparse
import os
import random
import re
import subprocess
import sys
import tempfile

import model
from bench_case import compared, content, read_batch, read_rows, split_case
from definitions import Definitions, Failed, buffers, inputs, numbers, past_limit, theorem

HERE = os.path.dirname(os.path.abspath(__file__))
ORACLE = os.path.join(HERE, "..", "build", "oracle")
# as long as can be used: slots, functions, types, diagnostics, messages, scratch
BENCH = (4097, 8192, 8192, 1536, 65536, 16384)
# what fills the buffers beforehand
FILL = (71, 72, 73, 74, 75, 76)


def filled(lengths):
    return [[fill] * n for fill, n in zip(FILL, lengths)]


def used_lengths(parts):
    """The shortest buffers that are enough, and the model's answer with the bench's buffers."""
    answer = model.check(parts, filled(BENCH))
    if answer.number:
        return None, answer
    _, types, told, bytes_used = answer.counts
    return (parts.image[3] + 1, model.function_words(parts), types, 6 * told, bytes_used, 16384), answer


class Claim:
    """One theorem: `number` is the case's, `about` what is shown with a failure."""

    def __init__(self, number, about, left, right, row=b""):
        self.number, self.about, self.left, self.right, self.row = number, about, left, right, row


def rows_claims(cases, rows, full):
    claims, left_out = [], 0
    for k, (case, row) in enumerate(zip(cases, rows)):
        if not compared(row):
            left_out += 1
            continue
        parts = split_case(case)
        lengths, _ = used_lengths(parts)
        lent = buffers(filled([n + more for n, more in zip(lengths or BENCH, (2, 1, 3, 4, 5, 0))]))
        left = "fullRows (%s) (checkRun (%s) (%s))" % (inputs(parts), inputs(parts), lent) if full else "rowsRun (%s) (%s)" % (inputs(parts), lent)
        claims.append(Claim(k, "rows", left, numbers(row), row))
    return claims, left_out


def answers_claims(cases, lines):
    claims = []
    for k, (case, line) in enumerate(zip(cases, lines)):
        said, _, note = line.partition("#")
        words, lengths = said.split(), None
        if "lent" in words:
            at = words.index("lent")
            slots, functions, scratch = [int(w) for w in words[at + 1:at + 4]]
            lengths, words = (slots, functions, 5, 6, 7, scratch), words[:at]
        given = inputs(split_case(case))
        about = "%s # %s" % (" ".join(words), note.strip())
        if words[0] == "refused" and int(words[1]) <= 6:
            # 2 to 4 do not ask how much is lent
            short = (3, 4, 5, 6, 7, 16384) if int(words[1]) in (2, 3, 4) else (4097, 8192, 5, 6, 7, 16384)
            lent = buffers(filled(lengths or short))
            claims.append(Claim(k, about, "checkRun (%s) (%s)" % (given, lent), "refusedWith (refusal %s %s) (%s)" % (words[1], words[2], lent)))
        else:
            lent = buffers(filled(lengths or (4097, 8192, 5, 6, 7, 16384)))
            claims.append(Claim(k, about, "refusalRun (%s) (%s)" % (given, lent), "none"))
    return claims


def accepts_claims(cases, rows):
    claims = []
    for k, (case, row) in enumerate(zip(cases, rows)):
        first = row.split(b"\n")[0]
        if first == b"input":
            continue
        given = "refusalRun (%s) (%s)" % (inputs(split_case(case)), buffers(filled((4097, 8192, 5, 6, 7, 16384))))
        if first == b"bad-input":
            claims.append(Claim(k, "refused 2 to 5", "refuses (%s)" % given, "true"))
        else:
            claims.append(Claim(k, "accepted", given, "none"))
    return claims


def ended(answer):
    counts = "functionWords = %d; typeWords = %d; diagnostics = %d; messageBytes = %d" % answer.counts
    return "record { number = %d; place = %d; %s; after = %s }" % (answer.number, answer.place, counts, buffers(answer.buffers))


def expected(parts, lengths):
    """The answer to buffers of these lengths: refusals 1 and 6, else the model's."""
    lent = filled(lengths)
    for number, refused in ((1, lengths[5] < 16384), (6, lengths[0] < parts.image[3] + 1 or lengths[1] < model.function_words(parts))):
        if refused:
            return model.Answer(number, 0, (0, 0, 0, 0), lent)
    return model.check(parts, lent)


def variants(parts, kinds, pick):
    lengths, answer = used_lengths(parts)
    past = (parts.image[3] + 1, model.function_words(parts), 8195, 1547, 65539, 16384)
    if lengths is None and "past" in kinds:
        yield "past", past
    elif lengths is None:
        # refused however much is lent: with shorter buffers if they change nothing
        short = (parts.image[3] + 1, model.function_words(parts), 512, 96, 4096, 16384)
        again = model.check(parts, filled(short))
        yield "refused", short if again[:2] == answer[:2] else BENCH
    if lengths is None:
        return
    if "past" in kinds:
        yield "past", past
    if "exact" in kinds:
        yield "exact", lengths
    if "more" in kinds:
        yield "more", tuple(n + more for n, more in zip(lengths, (3, 2, 1, 5, 4, 2)))
    if "short" in kinds:
        for i, name in enumerate(("slots", "functions", "types", "diagnostics", "messages", "scratch")):
            if lengths[i]:
                yield name + " one short", tuple(n - (j == i) for j, n in enumerate(lengths))
    if "near" in kinds:
        near = [max(0, n + pick.choice([-40, -9, -3, -2, -1, 0, 1, 2])) for n in lengths[2:5]]
        yield "near", (lengths[0] + pick.randrange(3), lengths[1] + pick.randrange(3)) + tuple(near) + (16384,)


def buffers_claims(cases, kinds, seed):
    claims, pick = [], random.Random(seed)
    for k, case in enumerate(cases):
        parts = split_case(case)
        for name, lengths in variants(parts, kinds, pick):
            answer = expected(parts, lengths)
            about = "%s %s: %d %d" % (name, lengths, answer.number, answer.place)
            claims.append(Claim(k, about, "checkRun (%s) (%s)" % (inputs(parts), buffers(filled(lengths))), ended(answer)))
    return claims


def decide(definitions, claims, chunk=20, say=None):
    """Returns the claims that do not hold, each with what rt says, and the seconds."""
    theorems = [("case%d" % i, theorem("case%d" % i, c.left, c.right)) for i, c in enumerate(claims)]
    failed, took = definitions.check(theorems, chunk=chunk, say=say)
    return [(claims[int(name[4:])], why) for name, why in failed.items()], took


def codes_of(rows):
    codes = {}
    for row in rows:
        for code in re.findall(rb"^diag (\d+) ", row, re.M):
            codes[int(code)] = codes.get(int(code), 0) + 1
    return codes


def oracle_rows(oracle, cases_file, full=True):
    """What the Rust prints for a batch."""
    words = [oracle, "--domain"] + (["--full", "--counts"] if full else []) + ["--batch"]
    with tempfile.NamedTemporaryFile() as batch:
        batch.write(content(cases_file))
        batch.flush()
        out = subprocess.run(words + [batch.name], stdout=subprocess.PIPE, check=True).stdout
    with tempfile.NamedTemporaryFile() as rows:
        rows.write(out)
        rows.flush()
        return read_rows(rows.name)


def chosen(options, pairs):
    """The cases asked for: (number, ..)."""
    pairs = [p for p in enumerate(pairs) if len(p[1][0]) <= options.max_bytes]
    if options.only:
        wanted = {int(n) for n in options.only.split(",")}
        pairs = [p for p in pairs if p[0] in wanted]
    if options.sample:
        pairs = sorted(random.Random(options.seed).sample(pairs, min(options.sample, len(pairs))))
    return pairs


def answer_lines(path, cases):
    lines = [line for line in content(path).decode().splitlines() if line.strip()]
    if len(lines) != len(cases):
        raise Failed("%d cases, but answers for %d" % (len(cases), len(lines)))
    return lines


def claims_of(mode, options, cases_file, rows_file=None, answers_file=None):
    cases = read_batch(cases_file)
    if mode == "rows":
        rows = read_rows(rows_file) if rows_file else oracle_rows(options.oracle, cases_file, options.full)
        pairs = chosen(options, zip(cases, rows)) if len(rows) == len(cases) else None
        if pairs is None:
            raise Failed("%d cases, but rows for %d" % (len(cases), len(rows)))
        claims, left_out = rows_claims([c for _, (c, _) in pairs], [r for _, (_, r) in pairs], options.full)
        if left_out:
            print("%d of %d left out: not answered by the Rust inside the domain" % (left_out, len(pairs)))
    elif mode == "accepts":
        rows = read_rows(rows_file) if rows_file else oracle_rows(options.oracle, cases_file, True)
        pairs = chosen(options, zip(cases, rows))
        claims = accepts_claims([c for _, (c, _) in pairs], [r for _, (_, r) in pairs])
    elif mode == "answers":
        pairs = chosen(options, zip(cases, answer_lines(answers_file, cases)))
        claims = answers_claims([c for _, (c, _) in pairs], [l for _, (_, l) in pairs])
    else:
        lines = answer_lines(answers_file, cases) if answers_file else ["accepted"] * len(cases)
        pairs = [p for p in chosen(options, zip(cases, lines)) if p[1][1].split()[0] == "accepted"]
        claims = buffers_claims([c for _, (c, _) in pairs], options.variants.split(","), options.seed)
    for claim in claims:
        claim.number = pairs[claim.number][0]
    return claims


def report(title, claims, failed, took):
    for claim, why in failed:
        what = "not computed, antt's step limit" if past_limit(why) else "does not agree"
        print("%s: case %d: %s (%s)\n%s" % (title, claim.number, what, claim.about, why[:1500]))
    cases = {c.number for c in claims}
    limited = [c for c, why in failed if past_limit(why)]
    print("%s: %d cases, %d theorems computed in %.0f s, %d do not agree%s%s" % (
        title, len(cases), len(claims) - len(limited), took, len(failed) - len(limited),
        ": cases %s" % sorted({c.number for c, why in failed if not past_limit(why)}) if len(failed) > len(limited) else "",
        "; past antt's step limit: cases %s" % sorted({c.number for c in limited}) if limited else ""))
    wrong = {id(c) for c, _ in failed}
    codes = codes_of([c.row for c in claims if id(c) not in wrong])
    if codes:
        print("  codes (diagnostics): " + ", ".join("%d (%d)" % kv for kv in sorted(codes.items())))
        print("  codes missing: %s" % [c for c in range(1, 27) if c not in codes])
    numbers_met = {}
    for c in claims:
        m = re.match(r"refused (\d)|accepted|.*: (\d) \d+$", c.about)
        if m:
            n = m.group(1) or m.group(2) or "0"
            numbers_met[n] = numbers_met.get(n, 0) + 1
    if numbers_met:
        print("  numbers (theorems): " + ", ".join("%s (%d)" % kv for kv in sorted(numbers_met.items())))


def run_mode(mode, definitions, options, title, **files):
    claims = claims_of(mode, options, **files)
    failed, took = decide(definitions, claims, options.chunk, print if options.verbose else None)
    report(title, claims, failed, took)
    sys.stdout.flush()
    return not failed


def run_model(options, cases_file, rows_file):
    """The model against the Rust."""
    cases = read_batch(cases_file)
    rows = read_rows(rows_file) if rows_file else oracle_rows(options.oracle, cases_file)
    bad, done, seen = [], 0, []
    for k, (case, row) in enumerate(zip(cases, rows)):
        if not compared(row):
            continue
        parts = split_case(case)
        answer = model.check(parts, filled(BENCH))
        done += 1
        seen.append(row)
        if model.full_rows(parts, answer) != row:
            bad.append(k)
    codes = codes_of(seen)
    print("model: %d of %d cases compared with the Rust, %d differ: %s; codes missing: %s" % (
        done, len(cases), len(bad), bad[:20], [c for c in range(1, 27) if c not in codes]))
    return not bad


# what stands in cases/: (set, how many cases whose buffers are compared, 0 for all; the same with --quick), and answers
WALKED = [("readings", 0, 5), ("codes", 60, 10), ("orders", 0, 0), ("depths", 0, 5), ("handmade", 0, 10)]
ANSWERED = ["boundary", "limits", "random"]


def run_stored(definitions, options):
    where = lambda name: os.path.join(HERE, "cases", name)
    good, options.full = True, True
    for name, _, _ in WALKED:
        files = {"cases_file": where(name + ".batch"), "rows_file": where(name + ".full")}
        good &= run_model(options, **files)
        good &= run_mode("rows", definitions, options, name + ", rows", **files)
    for name, many, few in WALKED:
        options.sample = few if options.quick else many
        good &= run_mode("buffers", definitions, options, name + ", buffers", cases_file=where(name + ".batch"))
    for name in ANSWERED:
        options.sample = 100 if options.quick else 0
        files = {"cases_file": where(name + ".cases"), "answers_file": where(name + ".answers")}
        good &= run_mode("answers", definitions, options, name + ", answers", **files)
        # what is accepted is walked too: all but the longest
        options.variants, options.max_bytes = "exact", 4000
        good &= run_mode("buffers", definitions, options, name + ", buffers of the accepted", **files)
        options.max_bytes = 1 << 30
    if not options.quick:
        options.variants, options.sample = "past", 0
        good &= run_mode("buffers", definitions, options, "large, buffers", cases_file=where("large.batch"))
    return good


def main():
    p = argparse.ArgumentParser(description=__doc__, formatter_class=argparse.RawDescriptionHelpFormatter)
    p.add_argument("mode", choices=["rows", "answers", "accepts", "buffers", "model", "stored"])
    p.add_argument("--cases")
    p.add_argument("--rows")
    p.add_argument("--answers")
    p.add_argument("--full", action="store_true", help="rows: primary messages and used counts too")
    p.add_argument("--variants", default="exact,more,short,near", help="buffers: which lengths are lent")
    p.add_argument("--repo", default=os.path.join(HERE, "..", ".."))
    p.add_argument("--oracle", default=ORACLE)
    p.add_argument("--work", help="folder of the temporary repository, which is left there")
    p.add_argument("--chunk", type=int, default=20, help="theorems in one module")
    p.add_argument("--max-bytes", type=int, default=1 << 30, help="leave out longer cases")
    p.add_argument("--only", help="numbers of cases, with commas between")
    p.add_argument("--sample", type=int, default=0, help="so many cases, by --seed")
    p.add_argument("--seed", type=int, default=1)
    p.add_argument("--quick", action="store_true", help="stored: a sample of the large sets")
    p.add_argument("--verbose", action="store_true")
    options = p.parse_args()
    if options.mode == "model":
        sys.exit(0 if run_model(options, options.cases, options.rows) else 1)
    definitions = Definitions(options.repo, options.work)
    try:
        if options.mode == "stored":
            good = run_stored(definitions, options)
        else:
            good = run_mode(options.mode, definitions, options, options.mode, cases_file=options.cases, rows_file=options.rows,
                            answers_file=options.answers)
    except Failed as why:
        print("the check failed, and not at a case:\n%s" % why)
        sys.exit(2)
    finally:
        definitions.remove()
    sys.exit(0 if good else 1)


if __name__ == "__main__":
    main()
