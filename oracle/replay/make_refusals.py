#!/usr/bin/env python3
"""Makes the second replay: refusals and what every lent buffer holds afterwards.

  make_refusals.py --out DIR

writes DIR/stdin and DIR/stdout (README.md says their form). What is expected of refusals 1 to 6 is ../refusals/refusals.py's, of the walk and
of refusals 7 to 9 ../definitions/model.py's: both written from document 01 and the Rust, neither from crates/.
"""
import argparse
import collections
import functools
import os
import random
import sys

HERE = os.path.dirname(os.path.abspath(__file__))
for folder in ("definitions", "refusals"):
    sys.path.insert(0, os.path.join(HERE, "..", folder))
import make_cases  # noqa: E402  (of refusals)
import model  # noqa: E402
from bench_case import read_batch, split_case  # noqa: E402
from build import BENCH  # noqa: E402
from refusals import Lent, refusal  # noqa: E402
from stream import Stream, replay  # noqa: E402

STORED = os.path.join(HERE, "..", "definitions", "cases")
PRIME, FACTOR = 4294967291, 65599
# the longest buffers that are lent
MOST = Lent(4112, 8208, 8208, 1568, 65552, 32768)
# value and step: what the buffers hold beforehand (the README)
FILLS = ((0x47, 0), (0xFFFFFFFF, 0), (0xC0000801, 7), (0x5A5A5A5A, 0x01010101), (1, 1), (0x30000000, 0), (0, 0))
# groups of ../refusals/make_cases.py of which every so many-th case is taken; of the others, all
PICKED = {"words of an image of all kinds": 4, "words of a library of all kinds": 4, "cut, shortened and lengthened images": 3,
          "cut, shortened and lengthened libraries": 3, "names of an image": 4, "names of a library": 4, "bytes of the texts": 4,
          "heads and counts of small images": 4, "random claims": 3, "damaged random cases": 3, "pool words": 4, "slots under flags": 3,
          "claims": 3, "depth 63 to 66": 2, "lent lengths, and the order of refusals": 1}
# stored cases of the walk, and every so many-th of them
WALKED = (("handmade", 1), ("readings", 1), ("orders", 1), ("depths", 1), ("large", 1), ("codes", 4))


def filled(lent, fill):
    value, step = fill
    out = [[(value + i * step) % 2 ** 32 for i in range(n)] for n in lent]
    out[4] = [w % 256 for w in out[4]]
    return out


def total(elements):
    sum_ = 0
    for x in elements:
        sum_ = (sum_ * FACTOR + x) % PRIME
    return sum_


@functools.lru_cache(None)
def left(n, fill, bytes_):
    value, step = fill
    return total((value + i * step) % (256 if bytes_ else 2 ** 32) for i in range(n))


def expected(parts, lent, fill):
    """(number, place, counts, the six sums)"""
    refused = refusal(*parts, lent)
    if refused:
        return refused + ((0, 0, 0, 0), [left(n, fill, i == 4) for i, n in enumerate(lent)])
    answer = model.check(parts, filled(lent, fill))
    sums = [0] * 6 if answer.number else [total(b) for b in answer.buffers]
    return answer.number, answer.place, answer.counts, sums


def line(k, number, place, counts, sums):
    said = "refused %d %d" % (number, place) if number else "answered %d %d %d %d" % counts
    return "%d %s %s\n" % (k, said, " ".join(map(str, sums)))


# cases: (group, parts, lengths lent, fill)

def shorter(lent, k):
    """Of the buffers whose length refusals 1 to 6 do not read, most are lent short, so that the replay is quick."""
    if k % 16 == 0 or lent[2:5] != BENCH[2:5]:
        return lent
    return lent._replace(types=60 + k % 5, diagnostics=36 + k % 7, messages=400 + k % 9)


def before_the_walk():
    random_path = os.path.join(HERE, "..", "refusals", "random.batch.gz")
    seen, k = set(), 0
    for name, cases in make_cases.groups(random_path):
        for at, (parts, lent) in enumerate(make_cases.distinct(cases, seen)):
            if at % PICKED.get(name, 1) == 0:
                k += 1
                yield name, parts, shorter(lent, k), FILLS[k % len(FILLS)]


def lengths(parts):
    """The shortest buffers that are enough; of a refused case, short ones with which it is refused alike."""
    slots, functions = parts.image[3] + 1, model.function_words(parts)
    answer = model.check(parts, filled(BENCH, FILLS[0]))
    if answer.number == 0:
        _, types, told, bytes_ = answer.counts
        return True, Lent(slots, functions, types, 6 * told, bytes_, 16384)
    short = Lent(slots, functions, 600, 96, 4096, 16384)
    again = model.check(parts, filled(short, FILLS[0]))
    return False, short if again[:2] == answer[:2] else BENCH


def variants(parts, source):
    answered, exact = lengths(parts)
    yield "as long as used", exact
    yield "longer than the limits", exact._replace(types=8200, diagnostics=1560, messages=65552, scratch=16400)
    if not answered:
        return
    yield "longer than used", Lent(*(n + more for n, more in zip(exact, (3, 2, 1, 5, 4, 2))))
    for i, name in enumerate(Lent._fields):
        if exact[i]:
            yield name + " one short", exact._replace(**{name: exact[i] - 1})
    for _ in range(2):
        near = [max(0, n - source.choice((0, 0, 1, 2, 3, 9, 40))) for n in exact[2:5]]
        yield "near what is used", exact._replace(types=near[0], diagnostics=near[1], messages=near[2])
    yield "nothing to write into", exact._replace(types=0, diagnostics=0, messages=0)
    pool = parts.library[0]
    if pool:
        yield "the pool alone", exact._replace(types=pool)
        yield "the pool one short", exact._replace(types=pool - 1)


def walked():
    source, k = random.Random(11), 0
    for name, every in WALKED:
        for case in read_batch(os.path.join(STORED, name + ".batch"))[::every]:
            parts = split_case(case)
            for how, lent in variants(parts, source):
                k += 1
                yield how, parts, lent, FILLS[k % len(FILLS)]


class Filling(Stream):
    """Besides what `stream.py` has: 5 VALUE STEP 0, what the lent buffers hold before each case from here on."""

    fill_now = None

    def run(self, parts, lent, fill, answer):
        if self.fill_now != fill:
            self.fill_now = fill
            self.tell(5, *fill)
        self.case(parts, lent, answer[:2])


def main():
    p = argparse.ArgumentParser(description=__doc__, formatter_class=argparse.RawDescriptionHelpFormatter)
    p.add_argument("--out", required=True)
    options = p.parse_args()
    stream, lines, kept, tally = Filling(), [], [], {}
    for cases in (before_the_walk(), walked()):
        for name, parts, lent, fill in cases:
            assert all(n <= most for n, most in zip(lent, MOST)), (name, lent)
            answer = expected(parts, lent, fill)
            stream.run(parts, lent, fill, answer)
            lines.append(line(len(lines), *answer))
            kept.append((parts, lent, answer[:2] if answer[0] else None))
            tally.setdefault(name, collections.Counter())[answer[0]] += 1
    plain = Stream()
    plain.commands = [c for c in stream.commands if c[0] != 5]
    for (parts, lent, answer), (lists, lent_then, then) in zip(kept, replay(plain.bytes())):
        assert [list(part) for part in parts] == lists and list(lent) == lent_then and answer == then
    data = stream.bytes()
    with open(os.path.join(options.out, "stdin"), "wb") as f:
        f.write(data)
    with open(os.path.join(options.out, "stdout"), "w") as f:
        f.write("".join(lines))
    print("%-45s %6s  %s" % ("", "cases", "answered, and refusals 1 to 9"))
    for name, told in list(tally.items()) + [("all", sum(tally.values(), collections.Counter()))]:
        print("%-45s %6d  %s" % (name, sum(told.values()), " ".join(str(told[n]) for n in range(10))))
    print("stdin %d bytes, stdout %d bytes" % (len(data), sum(map(len, lines))))


if __name__ == "__main__":
    main()
