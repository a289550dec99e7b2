#!/usr/bin/env python3
"""Makes the input and the expected output of the test program `types_test`.

    ../build.sh && python3 make_types_test.py ../../crates/types_test

The expected output is what the Rust programs `../build/ptype_test` and then `../build/types_test` print; the cases below are theirs, in their order.

The input has 8,192 bytes of script text, 512 of library text, and commands of four little-endian words. The first command's second word counts
those after it. Of a command's first word the top four bits say what to do; the rest is a name (document 01: start, length, and bit 24 for the
library text) whose bytes are printed first. The program has 8,448 words for types, of which 8,200 are lent at most, and 256 for lists: eight for pairs,
then how many words are lent to what adds types, and how many were used before. A part of a list is told by where it starts, in 16 bits, and in the low
8 its length. How many pairs count is the program's only other state.

     0 PAIR  at w v      two words of the types
     1 COPY  part lent   a part of the lists to the front of so many words of the types; prints whether it fits
     2 OPTION w used old, 3 ARRAY w used old, 4 OPEN n used old, 5 CLOSE w used old, 6 APPLY w used old
                         add to the words lent: Option or Array of w, a Record of n fields (whose names and types PAIR puts), nothing but a look at the
                         depth of w, and w with types put for its slots. Prints the answer and whether it is the word old; nothing if that is 0
     7 BOUND slot        prints what the slot is bound to
     8 SHOW  form room w writes into so many bytes. form % 8: 0 the type w, 1 the number w, 2 the signature at the part w of the types, 3 the types of
                         its arguments, 4 the types of the part w. form / 8, what is printed: 0 the text, or its sum if it is long, 1 the sum,
                         2 the length or ` full`, 3 the first 50 bytes of the buffer
     9 DEPTH w           prints it
    10 ASK   a b what    prints whether 0 Unknown stands in a, 1 a slot does, 2 a equals b, 3 the fields at a and b have the same word as type, 4 the types
                         of the part a of the types are shallow
    11 LIST  at w v      two words of the lists
    12 BIND  p a room    the slots of p to what stands there in a, in so many words for pairs; prints the answer
    13 COUNT n           how many pairs count
    14 PRINT             nothing more
"""
import os
import struct
import subprocess
import sys

HERE = os.path.dirname(os.path.abspath(__file__))
PAIR, COPY, OPTION, ARRAY, OPEN, CLOSE, APPLY, BOUND, SHOW, DEPTH, ASK, LIST, BIND, COUNT, PRINT = range(15)
HAS_UNKNOWN, HAS_SLOT, SAME, KEPT, SHALLOW = range(5)
TYPE, DECIMAL, SIGNATURE, ARGUMENTS, TYPES = range(5)
TEXT, SUM, ANSWER, BUFFER = range(0, 32, 8)
VOID, BOOL, INT, DOUBLE, STR, UNKNOWN = (k << 28 for k in (1, 2, 3, 4, 5, 11))
SCRIPT, LIBRARY, ROOM = 8192, 512, 100000
BEHIND = 8200  # in the types: lists that are shown or measured
LENT, GIVEN = 8, 16  # in the lists: what is lent and was used; what is copied

# `a`, `b`, `T`, `é`; from 16 on a name of 255 bytes, from 272 on another that differs in its last byte; then what commands print first
script = bytearray(b"n" * 528)
script[0:5], script[526:527] = "abTé".encode(), b"m"
# `a`, `key`; from 8 on the first of the names of 255 bytes; from 0x110 on the program's answers
library = bytearray(b"a key   " + b"n" * 256).ljust(LIBRARY, b" ")
for k, answer in enumerate([b" done", b" conflict", b" void", b" full", b" put", b" deep", b" -"]):
    library[0x110 + 16 * k:0x110 + 16 * k + len(answer)] = answer


def word(kind, payload):
    return kind << 28 | payload


def option(at):
    return word(6, at)


def array(at):
    return word(7, at)


def record(at):
    return word(8, at)


def field(start, length, bit=0):
    return word(12, bit << 24 | start << 8 | length)


def named(kind, name):
    return word(kind, name & 0xFFFFFFF)


A, B, LONG, OTHER, E, NONE = field(0, 1), field(1, 1), field(16, 255), field(272, 255), field(3, 2), field(0, 0)
LIBRARY_A, LIBRARY_LONG = field(0, 1, 1), field(8, 255, 1)
T, KEY, SLOT_A = named(10, field(2, 1)), named(10, field(2, 3, 1)), named(10, A)

commands, labels, rows, begun = [], {b"": 0}, [], []


def command(op, a=0, b=0, c=0, label=""):
    """One command; a row that was begun is printed first."""
    text = ("".join(begun) + label).encode()
    begun.clear()
    if text not in labels:
        labels[text] = len(script) << 8 | len(text)
        script.extend(text)
    commands.append(struct.pack("<4I", op << 28 | labels[text], a, b, c))


def row(label):
    """The next command begins a row, and ends the row before."""
    begun.append(("\n" if rows else "") + label)
    rows.append(label)


def place(at, words, op=PAIR):
    """Words of the types, two at a time."""
    for i in range(0, len(words), 2):
        command(op, at + i, *(words + [0])[i:i + 2])


def part(at, length):
    return at << 8 | length


# The types of ptype_test.rs.

# 0 Int, 1 Option<Int>, 2 no field, 3 `a: Array<Option<Int>> b: unknown`, 8 its fields turned, 13 with the library's `a`; 18, 21, 24 a field and
# a Foreign of the long name, of the other, of the library's; 27 T, 28 key, 29 a field of the empty name
HAND_MADE = (
    [INT, option(0), 0]
    + [2, A, array(1), B, UNKNOWN]
    + [2, B, UNKNOWN, A, array(1)]
    + [2, LIBRARY_A, array(1), B, UNKNOWN]
    + [word for name in (LONG, OTHER, LIBRARY_LONG) for word in (1, name, named(9, name))]
    + [T, KEY, 1, NONE, named(9, E)]
)
WORDS = [VOID, BOOL, INT, DOUBLE, STR, option(0), array(1), record(3), named(9, B), T, UNKNOWN, record(8), record(13), record(2), option(27)]
WORDS += [array(28), record(29), record(18), record(21), record(24)]
SIGNATURES = [[0, VOID], [1, A, INT, BOOL], [2, A, INT, B, record(3), option(0)], [3, NONE, T, LONG, array(1), B, STR, T]]
NUMBERS = [0, 7, 9, 10, 11, 99, 100, 101, 255, 256, 8191, 8192, 65535, 65536, 1000000000, 2**32 - 1]


def facts(w):
    """Depth, Unknown, slot, and the text's sum, in a row that was begun."""
    command(DEPTH, w, label=" ")
    command(ASK, w, 0, HAS_UNKNOWN, label=" ")
    command(ASK, w, 0, HAS_SLOT, label=" ")
    command(SHOW, TYPE + SUM, ROOM, w)


def same(w, others):
    for k, v in enumerate(others):
        command(ASK, w, v, SAME, label="" if k else " ")


def short(w, rooms):
    for room in range(rooms):
        row(f"short {room}")
        command(SHOW, TYPE + ANSWER, room, w)
        command(SHOW, TYPE + BUFFER, room, w)


def wrapped(i, at):
    return array(at) if i % 2 else option(at)


def chain_words(levels):
    """Int, and words that each wrap the word before: Option, then Array."""
    return [INT] + [wrapped(i, i) for i in range(levels)]


def tower(at, levels, leaf):
    """The words of records that each hold the last one twice, and the type."""
    words, w = [], leaf
    for i in range(levels):
        words += [2, A, w, B, w]
        w = record(at + 5 * i)
    return words, w


def shown_and_compared():
    place(0, HAND_MADE)
    for i, w in enumerate(WORDS):
        row(f"type {i}")
        facts(w)
    for i, w in enumerate(WORDS):
        row(f"same {i}")
        same(w, WORDS)
    short(record(3), 42)
    short(option(0), 13)
    for signature in SIGNATURES:
        place(BEHIND, signature)
        for label, what in ("signature", SIGNATURE), ("types", ARGUMENTS):
            row(label)
            command(SHOW, what + TEXT, 1000, part(BEHIND, len(signature)))
    place(BEHIND, WORDS)
    for count in 12, 0:
        row("types")
        command(SHOW, TYPES + TEXT, 1000, part(BEHIND, count))


def built():
    words = chain_words(39)
    place(0, words)
    for levels in 31, 32, 33, 39:
        row(f"chain {levels}")
        facts(words[levels])
    for levels in range(13):
        words, w = tower(0, levels, INT)
        place(0, words)
        row(f"tower {levels}")
        facts(w)
    words, w = tower(0, 12, UNKNOWN)
    place(0, words)
    row("tower 12")
    facts(w)
    towers = []
    for at, levels, leaf in (0, 12, INT), (60, 12, INT), (120, 12, STR), (180, 11, INT):
        words, w = tower(at, levels, leaf)
        place(at, words)
        towers.append(w)
    row("same tower")
    same(towers[0], towers)
    for n in NUMBERS:
        row("decimal")
        command(SHOW, DECIMAL + TEXT, 10, n)


# The types of types_test.rs.

# 0 Int, 1 T, 2 Bool, 3 Void, 4 Option<Int>, 5 Option<T>, 6 Array<Int>; then records: 7 `a: T b: T`, 12 `a: T b: key`, 17 `a: T b: Array<Int>`,
# 22 `a: Option<Int> b: Option<T>`, 27 `a: Int b: Bool`, 32 `a: Int b: Int`, 37 `b: Int a: Void`, 42 `a: Int`, 45 no field, 46 T under a
# name of 255 bytes, 49 a Foreign of that name under the other, 52 `a: T b: T é: key`, 59 `b: Int a: Int b: Array<Bool>`,
# 66 `a: Option<Int> b: Option<Int>` by two words
POOL = (
    [INT, T, BOOL, VOID, option(0), option(1), array(0)]
    + [2, A, T, B, T]
    + [2, A, T, B, KEY]
    + [2, A, T, B, array(0)]
    + [2, A, option(0), B, option(1)]
    + [2, A, INT, B, BOOL]
    + [2, A, INT, B, INT]
    + [2, B, INT, A, VOID]
    + [1, A, INT, 0]
    + [1, LONG, T, 1, OTHER, named(9, LONG)]
    + [3, A, T, B, T, E, KEY]
    + [3, B, INT, A, INT, B, array(2)]
    + [2, A, option(0), B, option(44)]
)
USED = len(POOL)
PARAMETERS = [T, option(1), array(1), array(5), record(7), record(12), record(17), record(22), record(46), record(52), INT, option(0), KEY]
PROVIDED = [INT, BOOL, VOID, option(0), array(0), option(3), array(4), record(27), record(32), record(37), record(42), record(45), record(49)]
PROVIDED += [record(59), UNKNOWN, named(9, B), array(6), record(66)]
SEQUENCE = [(T, INT), (T, INT), (T, BOOL), (KEY, BOOL), (record(12), record(27)), (record(12), record(32)), (T, VOID), (record(52), record(59))]
# the same slot by the script's `a` and by the library's
SEQUENCE += [(array(1), array(0)), (SLOT_A, INT), (named(10, LIBRARY_A), BOOL), (named(10, LIBRARY_A), INT), (record(42), record(32))]


def bind(p, a, room=8):
    command(BIND, p, a, room)


def bindings():
    for slot in T, KEY, SLOT_A:
        command(BOUND, slot)


def lend(lent, used):
    command(LIST, LENT, lent, used)


def give(w):
    """One pair: the type for T."""
    command(LIST, 0, T, w)
    command(COUNT, 1)


def open_doubled(used, w):
    """A Record that holds a type twice. The zero is so that one that is refused here shows."""
    command(PAIR, used, 0, 0)
    command(OPEN, 2, used)
    command(PAIR, used + 1, A, w)
    command(PAIR, used + 3, B, w)
    return record(used)


def wrap(i, w, used, old=0):
    """Adds Option, then Array, around a type."""
    command(ARRAY if i % 2 else OPTION, w, used, old)
    return wrapped(i, used)


def chain(levels, w, used):
    for i in range(levels):
        w = wrap(i, w, used + i)
    return w, used + levels


def bound():
    place(0, POOL)
    lend(96, USED)
    for i, p in enumerate(PARAMETERS):
        for j, a in enumerate(PROVIDED):
            command(COUNT, 0)
            row(f"bind {i} {j}")
            bind(p, a)
            bindings()
            command(APPLY, p, USED, p)
    command(COUNT, 0)
    for i, (p, a) in enumerate(SEQUENCE):
        row(f"again {i}")
        bind(p, a)
        bindings()
    for room in 3, 4:
        command(COUNT, 0)
        row(f"room {room}")
        bind(record(12), record(27), room)
    give(BOOL)
    for at, new in (17, USED), (22, USED + 1):  # before the second Record stands the Option of its field
        command(APPLY, record(at), USED)
        row(f"share {at}")
        for offset in 1, 3:
            command(ASK, at + offset, new + offset, KEPT, label=" ")


def added():
    lend(64, 0)
    row("chain 0")
    command(CLOSE, INT, 0, INT)
    w = INT
    for levels in range(1, 35):
        row(f"chain {levels}")
        if levels < 32:
            w = wrap(levels - 1, w, levels - 1, INT)
        else:
            wrap(levels - 1, w, 31, INT)  # too deep each time
    w = T
    give(INT)
    for levels in range(13):
        lend(8200, 0)
        if levels:
            w = open_doubled(5 * levels - 5, w)
        row(f"tower {levels}")
        command(CLOSE, w, 5 * levels, T)
        lend(8200, 5 * levels)
        row(f"applied {levels}")
        command(APPLY, w, 5 * levels, w)
    for levels, depth in (0, 32), (1, 31), (1, 32), (16, 16), (16, 17), (31, 1), (31, 2):
        place(0, [0] * 64)
        lend(128, 0)
        expected, used = chain(levels, T, 0)
        inner, used = chain(depth - 1, INT, used)
        give(inner)
        lend(128, used)
        row(f"deep {levels} {depth}")
        command(APPLY, expected, used, expected)


def too_short():
    place(0, POOL)
    give(INT)
    for free in range(9):
        for w in array(5), record(7), record(22), record(52):
            lend(USED + free, USED)
            row(f"short {w & 0xFFFFFFF} {free}")
            command(APPLY, w, USED, w)
    for used in 8186, 8187, 8188, 8191, 8192, 8193:
        lend(8200, used)
        row(f"limit {used}")
        command(ARRAY, INT, used, INT)
        if used + 5 <= 8192:
            w = open_doubled(used, INT)
            row(f"limit {used}")
            command(CLOSE, w, used + 5, INT)
        else:
            row(f"limit {used}")
            command(OPEN, 2, used, INT)
    # the pool where it fits and where it does not; Option and Array by turns, of depth 32 and of 33
    for words, lent in (POOL, 71), (POOL, 70), (chain_words(31), 40), (chain_words(32), 40):
        place(0, [0] * 72)
        place(BEHIND, words)
        place(GIVEN, words, LIST)
        row(f"pool {len(words)}")
        command(COPY, part(GIVEN, len(words)), lent)
        command(ASK, part(BEHIND, len(words)), 0, SHALLOW, label=" ")


def main(folder):
    shown_and_compared()
    built()
    bound()
    added()
    too_short()
    command(PRINT, label="\n")
    assert len(script) <= SCRIPT, len(script)
    with open(os.path.join(folder, "stdin"), "wb") as f:
        f.write(bytes(script).ljust(SCRIPT, b" ") + bytes(library) + struct.pack("<4I", 0, len(commands), 0, 0) + b"".join(commands))
    with open(os.path.join(folder, "stdout"), "wb") as f:
        for program in "ptype_test", "types_test":
            f.write(subprocess.run([os.path.join(HERE, "..", "build", program)], stdout=subprocess.PIPE, check=True).stdout)
    print(len(rows), "rows;", len(commands), "commands;", len(script), "bytes of script text")


if __name__ == "__main__":
    main(sys.argv[1])
