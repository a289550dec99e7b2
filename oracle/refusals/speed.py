#!/usr/bin/env python3
"""How long refusals 1 to 6 take: the compiled program of crates/refusals_test on one case, many times over (user time, less the empty case's).

  speed.py [PROGRAM]    default: ../../crates/refusals_test/out/refusals_test
"""
import os
import subprocess
import sys
import tempfile

from build import BENCH, Image, Library, word
from limits import EMPTY, LIBRARY_NAME, image_of, library_of
from refusals import refusal
from stream import Stream

HERE = os.path.dirname(os.path.abspath(__file__))
PROGRAM = sys.argv[1] if len(sys.argv) > 1 else os.path.join(HERE, "..", "..", "target", "bin", "refusals_test")
VOID, T = word(1), word(10, 1 << 24 | 1)


def user_time(parts, times):
    """Seconds of user time for a case that none of the six refuses."""
    assert refusal(*parts, BENCH) is None
    stream = Stream()
    for _ in range(times):
        stream.case(parts, BENCH, None)
    with tempfile.TemporaryFile() as file:
        file.write(stream.bytes())
        file.seek(0)
        run = subprocess.Popen([PROGRAM], stdin=file, stdout=subprocess.PIPE)
        assert run.stdout.read().endswith(b"\n%d of %d agree\n" % (times, times))
        _, _, used = os.wait4(run.pid, 0)
        run.returncode = 0
        return used.ru_utime


def microseconds(parts):
    times = 8
    while True:
        took = user_time(parts, times)
        if took > 0.4 or times >= 40000:
            return took / times * 1e6
        times *= 4


def image(size):
    """All kinds of nodes over and over, an Import for what is left."""
    i = Image()
    foreign = (i.type_atom(), i.type_foreign())[1]
    option, array = i.type_wrap(2, 0), i.type_wrap(3, foreign)
    fields = i.type_fields(option, array)
    while len(i.words()[0]) + 170 < size:
        choice = i.match([(i.ident(), [i.atom()]), (i.atom(2), [])], [i.binary(i.atom(), i.ident())])
        cast = i.cast(i.call(i.field(i.ident()), i.call(i.ident(), choice)), array)
        i.roots += [i.fn(0, [fields, option], [i.let(i.unary(i.atom()))]), i.imports(b"io", b"net"), i.extern((0, [fields, foreign]), (1, []))]
        i.roots.append(i.array(i.record(cast, i.atom()), i.ident()))
    i.node(10, *[i.name(b"p")] * (size - len(i.words()[0]) - 2))
    return i


def library(size, flag):
    """A pool for one half, packages of 16 functions for the other."""
    l = Library()
    slot, some = l.named(10, b"T"), l.add(3)
    while len(l.pool) + 8 < size // 2:
        l.wrap(8, l.fields(word(3), word(6, l.wrap(6, some))))
    within = slot if flag else some
    free = size - len(l.words()[0])
    while free >= 2 + 8 * 16:
        l.package(b"pkg", *[l.function(b"g%d" % k, flag, [word(7, within), word(3)], word(6, within)) for k in range(16)])
        free -= 2 + 8 * 16
    return l


def functions(count, names, text):
    return library_of([0, 1, LIBRARY_NAME, count] + [w for n in names[:count] for w in (n, 0, 0, VOID)], text)


def rows():
    for size in (2048, 4096, 8192):
        yield "image of all kinds", image(size).parts()
    for size in (2048, 4096, 8192):
        yield "library, flag 0", library_of(library(size, 0).words()[0], bytes(library(size, 0).text.bytes))
    for size in (4096, 8192):
        yield "image and library, flag 0", image(size).parts(library(size, 0))
    for n in (4093, 8186):
        yield "image, names of 255 bytes", image_of([1, 0, 0, 1, word(10, n + 2), 0] + [word(12, 255)] * n, b"a" * 255)
    for size in (2048, 4096, 8192):
        yield "library, flag 1: functions times pool", library_of(library(size, 1).words()[0], bytes(library(size, 1).text.bytes))
    for n in (1023, 2047):
        names = [LIBRARY_NAME | k << 10 | 4 for k in range(n)]
        yield "one package, distinct groups", functions(n, names, b"".join(b"%04d" % k for k in range(n)))
    for n in (1023, 2047):
        yield "one package, one group of 255 bytes", functions(n, [LIBRARY_NAME | 255] * n, b"a" * 255)
    # names of 255 bytes that differ late, as slots of arguments, all of them in the return type
    text = b"".join(b"a" * 255 + bytes([33 + b // 64, 33 + b % 64]) for b in range(255))
    slots = [word(10, 1 << 24 | 257 * b + 255 - j << 8 | 255) for b in range(255) for j in range(245, 254)]
    for n in (1000, 2000):
        pool = [n] + [w for s in slots[:n] for w in (LIBRARY_NAME, s)]
        signature = [LIBRARY_NAME, 1, n] + [w for s in slots[:n][::-1] for w in (LIBRARY_NAME, s)] + [word(8, 0)]
        yield "many slots of 255 bytes", library_of([len(pool), 1] + pool + [LIBRARY_NAME, 1] + signature, text)


def main():
    least = microseconds(EMPTY)
    print("%-40s %7s %12s %10s" % ("", "words", "us", "ns a word"))
    for name, parts in rows():
        words = sum(len(l) for l in (parts.image, parts.library) if len(l) > 4)
        took = microseconds(parts) - least
        print("%-40s %7d %12.1f %10.1f" % (name, words, took, took / words * 1000), flush=True)


if __name__ == "__main__":
    main()
