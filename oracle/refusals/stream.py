"""The input of the program crate `refusals_test`: a run of commands of four little-endian words each.

The program holds four lists (0 script text, 1 image, 2 library text, 3 library), at first all zero, and ten lengths (of the four lists, then
of the lent slots, functions, types, diagnostics, messages and scratch). A case is what the lists and lengths hold when it is run, so that
of a case only the difference to the one before it is told.

    0 COUNT 0 0                         first of all: how many commands follow
    1 LIST + 4 * STRIDE START COUNT     what the next `fill` is to do
    2 VALUE STEP 0                      fill: COUNT elements at START, START + STRIDE, .. become VALUE, VALUE + STEP, ..
    3 WHICH LENGTH 0                    a length
    4 NUMBER PLACE 0                    run a case; its refusal is expected to be this one, and number 0 means none
    8 + LIST AT W W                     a list's elements at AT and AT + 1 become these words; of a text, eight bytes from AT
"""
import struct

SIZES = (65552, 8208, 65552, 8208)
LISTS = ("script", "image", "text", "library")


def runs_of(new, old):
    """The parts (start, end) of `new` that differ from `old`, those less than four apart taken together."""
    out = []
    for i, (a, b) in enumerate(zip(new, old)):
        if a != b:
            if out and i - out[-1][1] < 4:
                out[-1][1] = i + 1
            else:
                out.append([i, i + 1])
    return out


class Stream:
    def __init__(self):
        self.lists = [[0] * size for size in SIZES]
        self.lengths = [0] * 10
        self.commands = []

    def tell(self, *words):
        self.commands.append(tuple(w % 2 ** 32 for w in words) + (0,) * (4 - len(words)))

    def fill(self, k, start, count, stride, value, step):
        self.tell(1, k + 4 * stride, start, count)
        self.tell(2, value, step)
        for i in range(count):
            self.lists[k][start + i * stride] = (value + i * step) % (2 ** 32 if k % 2 else 256)

    def data(self, k, start, end, new):
        width = 2 if k % 2 else 8
        for at in range(start, end, width):
            got = new[at:at + width] + self.lists[k][at + len(new[at:at + width]):at + width]
            if k % 2:
                self.tell(8 + k, at, *got)
            else:
                self.tell(8 + k, at, *struct.unpack("<2I", bytes(got)))
            self.lists[k][at:at + width] = got

    def change(self, k, new):
        """A list's elements: periodic parts as fills, the rest as data."""
        old = self.lists[k]
        for start, end in runs_of(new, old):
            at = start
            while at < end:
                period, count = periodic(new, at, end)
                if period:
                    for j in range(period):
                        value = new[at + j]
                        step = new[at + j + period] - value
                        self.fill(k, at + j, (count - 1 - j) // period + 1, period, value, step)
                    at += count
                else:
                    to = next_periodic(new, at, end)
                    self.data(k, at, to, new)
                    at = to

    def case(self, parts, lent, expected):
        for k, name in enumerate(LISTS):
            new = list(getattr(parts, name))
            assert len(new) <= SIZES[k]
            self.change(k, new)
            self.length(k, len(new))
        for k, n in enumerate(lent):
            self.length(4 + k, n)
        self.tell(4, *(expected or (0, 0)))

    def length(self, which, n):
        if self.lengths[which] != n:
            self.lengths[which] = n
            self.tell(3, which, n)

    def bytes(self):
        commands = [(0, len(self.commands), 0, 0)] + self.commands
        return b"".join(struct.pack("<4I", *c) for c in commands)


LEAST = 24  # elements; fewer are told as data


def periodic(new, at, end):
    """(period, how many elements from `at` on are arithmetic progressions with that period), or (0, 0)"""
    best = (0, 0)
    for period in range(1, 13):
        i = at
        while i + 2 * period < end and new[i + 2 * period] - new[i + period] == new[i + period] - new[i]:
            i += 1
        count = i + 2 * period - at
        if i > at and count >= LEAST * period ** 0.5 and count > best[1]:
            best = (period, count)
    return best


def next_periodic(new, at, end):
    for i in range(at + 8, end, 8):
        if end - i >= LEAST and periodic(new, i, end)[0]:
            return i
    return end


def replay(data):
    """The cases of a stream, as the program decodes them: (lists, lent lengths, expected)."""
    commands = [struct.unpack_from("<4I", data, at) for at in range(0, len(data), 16)]
    assert commands[0] == (0, len(commands) - 1, 0, 0)
    lists, lengths, pattern = [[0] * size for size in SIZES], [0] * 10, (0, 0, 0)
    for op, a, b, c in commands[1:]:
        if op == 1:
            pattern = (a, b, c)
        elif op == 2:
            k, stride, (_, start, count) = pattern[0] % 4, pattern[0] // 4, pattern
            for i in range(count):
                lists[k][start + i * stride] = (a + i * b) % (2 ** 32 if k % 2 else 256)
        elif op == 3:
            lengths[a] = b
        elif op == 4:
            yield [l[:n] for l, n in zip(lists, lengths)], lengths[4:], (a, b) if a else None
        else:
            k = op - 8
            lists[k][a:a + (2 if k % 2 else 8)] = [b, c] if k % 2 else struct.pack("<2I", b, c)
