"""Refusals 1 to 6 of document 01 ("Words", "Limits", "Answers that end the check"), read a second time.

`refusal(script, image, text, library, lent)` is (number, place), or None where none of the six comes. Written from document 01 and from
docs/DECISIONS.md, entries 1 to 20, where document 01 leaves a point open; not from the definitions or the code in crates/.
`# D3` names the entry that a line rests on.
"""
from collections import namedtuple

WORDS, TEXT = 8192, 65536
NODES, TYPES, ROOTS, SLOTS = 2048, 512, 512, 4096
DEPTH, SCRATCH = 64, 16384
NAME = 12

# lengths of the lent buffers
Lent = namedtuple("Lent", "slots functions types diagnostics messages scratch")
# what refusals 4 to 6 ask of a node: its parts in order, its first slot, how many arguments follow it
Node = namedtuple("Node", "kind parts slot arguments is_fn")


class Fault(Exception):
    """The place of the offending word."""

    def __init__(self, place):
        self.place = place


def kind(word):
    return word >> 28


def payload(word):
    return word & 0xFFFFFFF


class Reader:
    """Reads a list forward. `owed` is the fewest words that what was read still asks for, after the next one."""

    def __init__(self, words, owed):
        self.words, self.at, self.owed = words, 0, owed

    def word(self):
        """The next word. One that is owed and not there offends, at the list's length."""  # D2
        if self.at >= len(self.words):
            raise Fault(len(self.words))
        self.at += 1
        self.owed -= 1
        return self.words[self.at - 1]

    def hold(self, ok):
        """The rule of the word just read."""
        if not ok:
            raise Fault(self.at - 1)

    def owe(self, more):
        """The word just read asks for `more` words: it offends if no list of legal length has them all."""  # D1
        self.owed += more
        self.hold(self.at + self.owed <= WORDS)

    def below(self, limit):
        word = self.word()
        self.hold(word < limit)
        return word

    def end(self):
        if self.at < len(self.words):  # D11
            raise Fault(self.at)


def well_formed(data):
    try:
        data.decode("utf-8")
    except UnicodeDecodeError:
        return False
    return True


def name_bytes(payload_of_name, text):
    start, length = payload_of_name >> 8 & 0xFFFF, payload_of_name & 0xFF
    return text[start:start + length]


def good_payload(p, text, bit):
    """bits 0 to 7 length, 8 to 23 start, bit 24 set for the library text, 25 to 27 zero; in its text, well-formed UTF-8"""
    start, length = p >> 8 & 0xFFFF, p & 0xFF
    return p >> 24 == bit and start + length <= len(text) and well_formed(text[start:start + length])  # D9, D10


def name(reader, text, bit):
    word = reader.word()
    reader.hold(kind(word) == NAME and good_payload(payload(word), text, bit))
    return name_bytes(payload(word), text)


# The library: refusal 2.

VOID, STR, OPTION, ARRAY, RECORD, FOREIGN, SLOT = 1, 5, 6, 7, 8, 9, 10


class Pool:
    """What stands at each index read so far: the field count of a list, a name, or the slots that a type contains."""

    def __init__(self, text):
        self.text, self.counts, self.slots, self.size = text, {}, {}, 0

    def good(self, word, own):
        """Whether a type word may stand where only indices below `own` may be referred to."""
        k, p = kind(word), payload(word)
        if VOID <= k <= STR:
            return p == 0
        if k in (OPTION, ARRAY):
            return p < own and p in self.slots  # D12
        if k == RECORD:
            return p < own and p in self.counts and p + 1 + 2 * self.counts[p] <= own  # D12, D13
        if k in (FOREIGN, SLOT):
            return good_payload(p, self.text, 1)
        return False  # Unknown is not allowed; 0 and 12 to 15 are no types

    def slots_in(self, word):
        """The names of the slots that a good type word contains."""
        k, p = kind(word), payload(word)
        if k == SLOT:
            return frozenset([name_bytes(p, self.text)])
        if k in (OPTION, ARRAY):
            return self.slots[p]
        if k == RECORD:
            return frozenset().union(*[self.slots[p + 2 + 2 * i] for i in range(self.counts[p])])
        return frozenset()


def pool_type(reader, pool):
    index = reader.at - 2
    word = reader.word()
    reader.hold(pool.good(word, index))
    pool.slots[index] = pool.slots_in(word)


def read_pool(reader, pool, size):
    """a kind 0 word is a field count and its pairs follow, any other is one type word"""
    while reader.at - 2 < size:
        index = reader.at - 2
        if reader.at < len(reader.words) and kind(reader.words[reader.at]) == 0:
            count = reader.word()
            reader.hold(index + 1 + 2 * count <= size)
            for _ in range(count):
                name(reader, pool.text, 1)
                pool_type(reader, pool)
            pool.counts[index] = count
        else:
            pool_type(reader, pool)


def library_function(reader, pool, groups):
    group = name(reader, pool.text, 1)
    reader.hold(1 not in groups.get(group, []))  # D14
    flag = reader.word()
    reader.hold(flag == 0 or (flag == 1 and group not in groups))
    groups.setdefault(group, []).append(flag)
    count = reader.word()
    reader.owe(2 * count)
    held = frozenset()
    for _ in range(count):
        name(reader, pool.text, 1)
        held |= library_type(reader, pool, flag)
    reader.hold(library_type(reader, pool, flag) <= held)  # D15


def library_type(reader, pool, flag):
    word = reader.word()
    reader.hold(pool.good(word, pool.size))
    slots = pool.slots_in(word)
    reader.hold(flag == 1 or not slots)  # D15
    return slots


def library_fault(text, words):
    """The place of refusal 2, or None."""
    if len(text) > TEXT:
        return 0
    reader, pool = Reader(words, 2), Pool(text)
    try:
        size = reader.word()
        reader.owe(size)
        packages = reader.word()
        reader.owe(2 * packages)
        read_pool(reader, pool, size)
        pool.size = size
        for _ in range(packages):
            name(reader, text, 1)
            functions = reader.word()
            reader.owe(4 * functions)
            groups = {}
            for _ in range(functions):
                library_function(reader, pool, groups)
        reader.end()
    except Fault as fault:
        return fault.place
    return None


# The image: refusal 3.

ATOM, IDENT, BIN, UNARY, LET, FN, MATCH, CALL, FIELD, CAST, IMPORT, EXTERN, REC, ARR = range(14)
# the fewest words of a record of each kind; those with no more than these, and those whose further words come in pairs
FEWEST = (4, 3, 6, 5, 4, 5, 4, 3, 4, 5, 3, 5, 3, 3)
FIXED = (ATOM, IDENT, BIN, UNARY, LET, FIELD, CAST)
TYPE_FEWEST = (3, 2, 2, 2, 2)


class ImageReader(Reader):
    def __init__(self, script, words):
        super().__init__(words, 4)
        self.script, self.nodes = script, []

    def name(self):
        name(self, self.script, 0)

    def part(self):
        """A part's number is smaller than its owner's."""
        return self.below(len(self.nodes))

    def type_of_node(self):
        self.below(self.types)  # D6


def good_length(k, length):
    if k > ARR or length < FEWEST[k]:
        return False
    if k in FIXED:
        return length == FEWEST[k]
    return k != REC or length % 2 == 1


def node(reader):
    start = reader.at
    head = reader.word()
    k, length = kind(head), payload(head)
    reader.hold(good_length(k, length))
    reader.owe(length - 3)
    end = start + length
    slot = reader.below(reader.slot_count)
    arguments = 0
    parts = []
    if k == ATOM:
        reader.name()
        reader.hold(2 <= reader.word() <= 5)
    elif k == IDENT:
        reader.name()
    elif k == BIN:
        reader.name()
        reader.below(9)
        parts = [reader.part(), reader.part()]
    elif k == UNARY:
        reader.name()
        reader.below(9)
        parts = [reader.part()]
    elif k == LET:
        reader.name()
        parts = [reader.part()]
    elif k == FN:
        arguments = fn_head(reader, slot, end)
        parts = [reader.part() for _ in range(end - reader.at)]
    elif k == MATCH:
        parts = match(reader, end)
    elif k == CALL:
        target = reader.part()
        reader.hold(reader.nodes[target].kind in (IDENT, FIELD))
        parts = [target] + [reader.part() for _ in range(end - reader.at)]
    elif k == FIELD:
        parts = [reader.part()]
        reader.name()
    elif k == CAST:
        reader.name()
        parts = [reader.part()]
        reader.type_of_node()
    elif k == IMPORT:
        for _ in range(length - 2):
            reader.name()
    elif k == EXTERN:
        extern(reader, end)
    elif k == REC:
        reader.name()
        while reader.at < end:
            reader.name()
            parts.append(reader.part())
    else:
        reader.name()
        parts = [reader.part() for _ in range(end - reader.at)]
    reader.nodes.append(Node(k, parts, slot, arguments, k == FN))


def fn_head(reader, slot, end):
    reader.name()
    reader.type_of_node()
    count = reader.word()
    reader.hold(reader.at + 2 * count <= end)  # D3
    reader.hold(slot + count < reader.slot_count)  # D5
    for _ in range(count):
        reader.name()
        reader.type_of_node()
    return count


def match(reader, end):
    cases, parts = reader.word(), []
    reader.hold(reader.at + 3 * cases + 1 <= end)  # D3
    for left in reversed(range(cases)):
        reader.name()
        parts.append(reader.part())
        body = reader.word()
        reader.hold(reader.at + body + 3 * left + 1 <= end)
        parts += [reader.part() for _ in range(body)]
    reader.name()
    return parts + [reader.part() for _ in range(end - reader.at)]


def extern(reader, end):
    reader.name()
    reader.name()
    functions = reader.word()
    reader.hold(reader.at + 3 * functions <= end and (functions > 0 or reader.at == end))  # D3
    for left in reversed(range(functions)):
        reader.name()
        reader.type_of_node()
        count = reader.word()
        needed = reader.at + 2 * count + 3 * left
        reader.hold(needed <= end and (left > 0 or needed == end))
        for _ in range(count):
            reader.name()
            reader.type_of_node()


def type_record(reader, number):
    head = reader.word()
    k, length = kind(head), payload(head)
    reader.hold(k <= 4 and (length == TYPE_FEWEST[k] or (k == 4 and length >= 2 and length % 2 == 0)))
    reader.owe(length - 2)
    if k in (2, 3):
        reader.below(number)
        return
    reader.name()
    if k == 0:
        reader.hold(1 <= reader.word() <= 5)
    for _ in range((length - 2) // 2 if k == 4 else 0):
        reader.name()
        reader.below(number)


def read_image(script, words):
    """(place of refusal 3 or None, the nodes, the roots, V)"""
    if len(script) > TEXT:
        return 0, None, None, None
    reader = ImageReader(script, words)
    try:
        n = reader.below(NODES + 1)
        reader.owe(3 * n)
        reader.types = reader.below(TYPES + 1)
        reader.owe(2 * reader.types)
        roots = reader.below(ROOTS + 1)
        reader.owe(roots)
        reader.slot_count = reader.below(SLOTS + 1)
        roots = [reader.below(n) for _ in range(roots)]  # D7
        for _ in range(n):
            node(reader)
        for i in range(reader.types):
            type_record(reader, i)
        reader.end()
    except Fault as fault:
        return fault.place, None, None, None
    return None, reader.nodes, roots, reader.slot_count


# Refusals 4 to 6.

def claims_fault(nodes, roots):
    """a node claimed twice as part or root, or a slot owned twice: second claimant, nodes rising, then N for roots"""
    claimed, owned = set(), set()
    for i, n in enumerate(nodes):
        for taken, more in ((claimed, n.parts), (owned, range(n.slot, n.slot + 1 + n.arguments))):  # D16
            for x in more:
                if x in taken:
                    return i
                taken.add(x)
    return len(nodes) if len(set(roots)) < len(roots) or claimed & set(roots) else None


def depth_fault(nodes):
    depths = []
    for i, n in enumerate(nodes):
        depths.append(1 + max([depths[p] for p in n.parts], default=0))  # D17
        if depths[i] > DEPTH:
            return i
    return None


def room_fault(nodes, slot_count, lent):
    return lent.slots < slot_count + 1 or lent.functions < sum(3 + 2 * n.arguments for n in nodes if n.is_fn)  # D19


def refusal(script, image, text, library, lent):
    if lent.scratch < SCRATCH:
        return 1, 0
    place = library_fault(text, library)
    if place is not None:
        return 2, place
    place, nodes, roots, slot_count = read_image(script, image)
    if place is not None:
        return 3, place
    place = claims_fault(nodes, roots)
    if place is not None:
        return 4, place
    place = depth_fault(nodes)
    if place is not None:
        return 5, place
    return (6, 0) if room_fault(nodes, slot_count, lent) else None
