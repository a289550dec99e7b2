#!/usr/bin/env python3
"""Makes the cases of crates/refusals_test, with the answers of refusals.py: the crate's `stdin` and `stdout`.

  make_cases.py [--out DIR] [--random FILE]    DIR: default ../../crates/refusals_test; FILE: a batch of damaged random cases (README.md)
  make_cases.py --choose FILE                  of a batch of damaged random cases, the small ones, as random.batch.gz
  make_cases.py --sample FILE                  some hundred small ones, as FILE.cases and FILE.answers for ../definitions/compare.py answers
"""
import argparse
import collections
import gzip
import os
import random
import struct
import sys

import limits
from build import BENCH, SOUND, SPOILT, Image, Parts, all_kinds, all_pool_kinds, word
from refusals import refusal
from stream import Stream, replay

HERE = os.path.dirname(os.path.abspath(__file__))
HIGH = [1 << 24, 1 << 25, 1 << 26, 1 << 27, 1 << 28, 1 << 31]
# numbers that, times 2, 3 or 4, are small again in 32 bits
WRAPS = [0x80000000, 0x80000001, 0x40000000, 0x40000001, 0x55555556, 0xFFFFFFFF]


def values(w, role, length, text):
    """What to put in the place of a word: by its own value, and by the rule of its role."""
    out = [0, 1, w - 1, w + 1, 0xFFFFFFFF] + [w ^ bit for bit in HIGH]
    if role.limit is not None:
        out += [role.limit - 1, role.limit, role.limit + 1, w | role.limit]
    if role.what in ("head", "type head"):
        out += [w & 0xFFFFFFF | k << 28 for k in (5, 6, 11, 12, 14)] + [w & 0xF0000000 | n for n in (0, 2, 3, length, 8192, 0xFFFFFFF)]
        out += [w - 2, w + 2, w + 3]
    elif role.what == "name":
        start, long = w >> 8 & 0xFFFF, w & 0xFF
        out += [w & 0x0FFFFFFF | k << 28 for k in (0, 10, 11, 13)] + [w - 256, w + 256, w & 0xFFFFFF00, w | 0xFF]
        out += [w & 0xFF0000FF | at << 8 for at in (0, max(len(text) - long, 0), len(text) - long + 1, 0xFFFF)]
        out += [w & 0xFFFFFF00 | n for n in (max(len(text) - start, 0), len(text) - start + 1) if 0 <= n < 256]
    elif role.what == "count":
        out += WRAPS + [w + 2, w + 3, length, 4096]
    elif role.what in ("pool type", "library type"):
        out += [w & 0xFFFFFFF | k << 28 for k in range(16)]
        out += [k << 28 | p for k in (6, 7, 8) for p in range(0, (role.limit or 0) + 2, 3)]
    seen = []
    for v in out:
        if 0 <= v < 2 ** 32 and v != w and v not in seen:
            seen.append(v)
    return seen


def damaged_words(parts, which, roles):
    """Each word of one list set to other values."""
    words = getattr(parts, which)
    text = parts.script if which == "image" else parts.text
    for at, (w, role) in enumerate(zip(words, roles)):
        every = values(w, role, len(words), text)
        # there are many names: half of the values for each
        for v in every[at % 2::2] if role.what == "name" else every:
            yield parts._replace(**{which: words[:at] + [v] + words[at + 1:]})


def damaged_lists(parts, which):
    """A list cut at each place, each word left out, each word doubled, words appended."""
    words = getattr(parts, which)
    for n in range(len(words)):
        yield parts._replace(**{which: words[:n]})
    for at in range(len(words)):
        yield parts._replace(**{which: words[:at] + words[at + 1:]})
    for at in range(len(words)):
        yield parts._replace(**{which: words[:at] + words[at:at + 1] + words[at:]})
    for more in ([0], [words[-1]], [0xFFFFFFFF], words):
        yield parts._replace(**{which: words + more})


def spoilt_names(parts, which, roles):
    """Each name at parts of its text that are not well formed, and at some that are."""
    text_of, bit = ("script", 0) if which == "image" else ("text", 1)
    words, text, places = getattr(parts, which), getattr(parts, text_of), []
    for data in SPOILT + SOUND:
        places.append((len(text), len(data)))
        text += data
    parts = parts._replace(**{text_of: text})
    yield parts
    for at, role in enumerate(roles):
        if role.what == "name":
            for start, long in places[at % 3::3]:
                w = word(12, bit << 24 | start << 8 | long)
                yield parts._replace(**{which: words[:at] + [w] + words[at + 1:]})


def spoilt_text(parts):
    """Each byte of a text set to others, the texts cut."""
    for text_of in ("script", "text"):
        text = getattr(parts, text_of)
        for at in range(len(text)):
            yield parts._replace(**{text_of: text[:at] + bytes([0x80 if at % 2 else 0xC3]) + text[at + 1:]})
        for n in range(0, len(text), 3):
            yield parts._replace(**{text_of: text[:n]})


def small_images():
    """An image for each kind with its shortest and with longer lists."""
    makers = [
        lambda i: i.atom(), lambda i: i.ident(), lambda i: i.binary(i.atom(), i.ident()), lambda i: i.unary(i.atom()), lambda i: i.let(i.atom()),
        lambda i: i.fn(0, [], []), lambda i: i.fn(0, [0, 0], []), lambda i: i.fn(0, [], [i.atom()]), lambda i: i.match([], []),
        lambda i: i.match([(i.atom(), [])], []), lambda i: i.match([], [i.atom()]), lambda i: i.match([(i.atom(), [i.atom()]), (i.atom(), [])], [i.atom()]),
        lambda i: i.call(i.ident()), lambda i: i.call(i.field(i.ident()), i.atom()), lambda i: i.field(i.atom()), lambda i: i.cast(i.atom(), 0),
        lambda i: i.imports(), lambda i: i.extern(), lambda i: i.extern((0, [])), lambda i: i.extern((0, [0]), (0, [])), lambda i: i.record(),
        lambda i: i.record(i.atom(), i.ident()), lambda i: i.array(), lambda i: i.array(i.atom(), i.atom()),
    ]
    for make in makers:
        i = Image()
        i.type_atom()
        i.roots = [make(i)]
        yield i


def damaged_heads():
    """Of the small images: each head with each kind and each length near its own, each count changed."""
    for i in small_images():
        parts, (words, roles) = i.parts(), i.words()
        yield parts
        for at, (w, role) in enumerate(zip(words, roles)):
            if role.what == "head":
                lengths = range(max((w & 0xFF) - 3, 0), (w & 0xFF) + 4)
                for v in [w & 0xF0000000 | n for n in lengths] + [w & 0xFFFFFFF | k << 28 for k in range(16)]:
                    yield parts._replace(image=words[:at] + [v] + words[at + 1:])
            if role.what == "count":
                for v in (0, 1, 2, 3, 4, 5, 8192) + tuple(WRAPS):
                    yield parts._replace(image=words[:at] + [v] + words[at + 1:])


def random_claims(seed, how_many):
    """Parts, slots and roots of an image of all kinds, pointed at other numbers that their own rules allow."""
    source, i = random.Random(seed), all_kinds()
    parts, (words, roles) = i.parts(), i.words()
    places = [at for at, r in enumerate(roles) if at >= 4 and (r.what in ("part", "slot") and r.limit > 1)]
    for _ in range(how_many):
        image = list(words)
        for at in source.sample(places, source.choice((1, 1, 1, 2, 3))):
            image[at] = source.randrange(roles[at].limit)
        yield parts._replace(image=image)


def random_cases(path):
    sys.path.insert(0, os.path.join(HERE, "..", "definitions"))
    from bench_case import read_batch, split_case
    for case in read_batch(path):
        yield Parts(*split_case(case))


def groups(random_path):
    """(name, cases); a case is (parts, lengths lent)."""
    image, library = all_kinds(), all_pool_kinds()
    parts = image.parts(library)
    bench = lambda cases: ((p, BENCH) for p in cases)
    yield "words of an image of all kinds", bench(damaged_words(parts, "image", image.words()[1]))
    yield "words of a library of all kinds", bench(damaged_words(parts, "library", library.words()[1]))
    yield "cut, shortened and lengthened images", bench(damaged_lists(parts, "image"))
    yield "cut, shortened and lengthened libraries", bench(damaged_lists(parts, "library"))
    yield "names of an image", bench(spoilt_names(parts, "image", image.words()[1]))
    yield "names of a library", bench(spoilt_names(parts, "library", library.words()[1]))
    yield "bytes of the texts", bench(spoilt_text(parts))
    yield "heads and counts of small images", bench(damaged_heads())
    yield "random claims", bench(random_claims(6, 300))
    if random_path:
        yield "damaged random cases", bench(random_cases(random_path))
    yield from limits.groups()


def distinct(cases, seen):
    for parts, lent in cases:
        key = hash((parts.script, tuple(parts.image), parts.text, tuple(parts.library), lent))
        if key not in seen:
            seen.add(key)
            yield parts, lent


def line(k, answer):
    return "%d accepted\n" % k if answer is None else "%d refused %d %d\n" % ((k,) + answer)


def write(out, random_path):
    stream, lines, seen, kept = Stream(), [], set(), []
    print("%-45s %6s  %s" % ("", "cases", "none, and refusals 1 to 6"))
    total = collections.Counter()
    for name, cases in groups(random_path):
        tally = collections.Counter()
        for parts, lent in distinct(cases, seen):
            answer = refusal(*parts, lent)
            stream.case(parts, lent, answer)
            lines.append(line(len(lines), answer))
            kept.append((parts, lent, answer))
            tally[answer[0] if answer else 0] += 1
        print("%-45s %6d  %s" % (name, sum(tally.values()), " ".join(str(tally[n]) for n in range(7))))
        total += tally
    print("%-45s %6d  %s" % ("all", len(lines), " ".join(str(total[n]) for n in range(7))))
    print("%d pairs of number and place" % len({answer for _, _, answer in kept if answer}))
    data = stream.bytes()
    for (parts, lent, answer), (lists, lengths, expected) in zip(kept, replay(data)):
        assert [list(p) for p in parts] == lists and list(lent) == lengths and answer == expected
    with open(os.path.join(out, "stdin"), "wb") as f:
        f.write(data)
    with open(os.path.join(out, "stdout"), "w") as f:
        f.write("".join(lines) + "%d of %d agree\n" % (len(lines), len(lines)))
    print("stdin %d bytes, %d commands; stdout %d bytes" % (len(data), len(data) // 16, os.path.getsize(os.path.join(out, "stdout"))))


def sample(path):
    sys.path.insert(0, os.path.join(HERE, "..", "definitions"))
    from bench_case import batch_of, join_case
    cases, lines, seen = [], [], set()
    for name, made in groups(None):
        small = [c for c in distinct(made, seen) if len(join_case(c[0])) < 1600]
        for parts, lent in small[::max(1, len(small) // 16)]:
            answer = refusal(*parts, lent)
            said = "accepted" if answer is None else "refused %d %d" % answer
            cases.append(join_case(parts))
            lines.append("%s lent %d %d %d # %s\n" % (said, lent.slots, lent.functions, lent.scratch, name))
    with open(path + ".cases", "wb") as f:
        f.write(batch_of(cases))
    with open(path + ".answers", "w") as f:
        f.write("".join(lines))
    print("%d cases" % len(cases))


def choose(path):
    """Cases of like texts stand together, so that little is told of each."""
    sys.path.insert(0, os.path.join(HERE, "..", "definitions"))
    from bench_case import batch_of, join_case, read_batch, split_case
    cases = []
    for case in read_batch(path):
        try:
            cases.append(split_case(case))
        except (ValueError, struct.error):  # lengths that do not fit
            continue
    cases = [p for p in cases if len(join_case(p)) < 1400]
    cases.sort(key=lambda p: (p.script[:40], p.text[:20], len(p.image), p.image, p.library))
    with open(os.path.join(HERE, "random.batch.gz"), "wb") as f:
        f.write(gzip.compress(batch_of(map(join_case, cases)), 9, mtime=0))
    print("%d cases" % len(cases))


def main():
    parser = argparse.ArgumentParser(description=__doc__, formatter_class=argparse.RawDescriptionHelpFormatter)
    parser.add_argument("--out", default=os.path.join(HERE, "..", "..", "crates", "refusals_test"))
    parser.add_argument("--random", default=os.path.join(HERE, "random.batch.gz"))
    parser.add_argument("--choose")
    parser.add_argument("--sample")
    given = parser.parse_args()
    if given.choose:
        choose(given.choose)
    elif given.sample:
        sample(given.sample)
    else:
        write(given.out, given.random if os.path.exists(given.random) else None)


if __name__ == "__main__":
    main()
