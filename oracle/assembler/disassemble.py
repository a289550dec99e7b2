"""The bench's input to text. README.md has the form. What the form cannot say of a damaged image or library is told as words."""
from assemble import assembled
from form import INSIDE, NAMED, NODES, OPERATORS, PLAIN, TYPES, Fault, quoted, split

KINDS = {v: k for k, v in PLAIN.items()}
INSIDE_OF = {v: k for k, v in INSIDE.items()}
NAMED_OF = {v: k for k, v in NAMED.items()}


class Words:
    """Words read forward; a fault where they end."""

    def __init__(self, words):
        self.words, self.at = words, 0

    def next(self):
        if self.at >= len(self.words):
            raise Fault("too short")
        self.at += 1
        return self.words[self.at - 1]

    def take(self, count):
        if count > len(self.words) - self.at:
            raise Fault("too short")
        self.at += count
        return self.words[self.at - count:self.at]

    def end(self):
        if self.at != len(self.words):
            raise Fault("too long")


def hexed(word):
    return str(word) if word < 4096 else "0x%08X" % word


def name(word, text, library):
    start, length = word >> 8 & 0xFFFF, word & 0xFF
    if word >> 28 != 12 or word >> 24 & 15 != int(library) or start + length > len(text):
        return hexed(word)
    data = text[start:start + length]
    return quoted(data) + ("" if text.find(data) == start else "@%d" % start)


class Image:
    def __init__(self, script, words):
        self.script, self.rest = script, Words(words)
        n, t, r, self.slots = self.rest.take(4)
        self.counts, self.next_slot, self.last_slot = (n, t), 0, 0
        self.roots = self.rest.take(r)
        nodes = ["  n%d: %s" % (i, self.node(i)) for i in range(n)]
        types = ["  t%d: %s" % (i, self.type_record()) for i in range(t)]
        self.rest.end()
        self.lines = (["types"] + types if types else []) + (["nodes"] + nodes if nodes else [])
        self.lines.append("roots " + " ".join(self.part(root) for root in self.roots) if self.roots else "")
        if self.slots != self.last_slot:
            self.lines.append("slots %s" % hexed(self.slots))

    def name(self, word):
        return name(word, self.script, False)

    def part(self, number):
        return "n%d" % number if number < self.counts[0] else hexed(number)

    def type(self, number):
        return "t%d" % number if number < self.counts[1] else hexed(number)

    def parts(self, numbers):
        return " ".join(map(self.part, numbers))

    def block(self, numbers):
        return "{ %s }" % self.parts(numbers) if numbers else "{ }"

    def pairs(self, words, second):
        if len(words) % 2:
            raise Fault("half a pair")
        return " ".join("%s %s" % (self.name(words[i]), second(words[i + 1])) for i in range(0, len(words), 2))

    def record(self):
        head = self.rest.next()
        if head & 0xFFFFFFF == 0:
            raise Fault("no length")
        return head >> 28, Words(self.rest.take((head & 0xFFFFFFF) - 1))

    def node(self, number):
        k, w = self.record()
        if k >= len(NODES):
            raise Fault("no kind")
        slot, arguments = w.next(), 0
        if k == 5:
            said, arguments = self.fn(w)
        else:
            said = self.RULES[k](self, w)
        w.end()
        end = "" if slot == self.next_slot else " slot %s" % hexed(slot)
        self.next_slot = slot + arguments + 1
        self.last_slot = max(self.last_slot, self.next_slot)
        return NODES[k] + " " + said + end

    def operator(self, number):
        return OPERATORS[number] if number < len(OPERATORS) else hexed(number)

    def atom(self, w):
        return "%s %s" % (self.name(w.next()), kind(w.next()))

    def ident(self, w):
        return self.name(w.next())

    def bin(self, w):
        return "%s %s %s %s" % (self.name(w.next()), self.operator(w.next()), self.part(w.next()), self.part(w.next()))

    def unary(self, w):
        return "%s %s %s" % (self.name(w.next()), self.operator(w.next()), self.part(w.next()))

    def let(self, w):
        return "%s %s" % (self.name(w.next()), self.part(w.next()))

    def fn(self, w):
        token, ret, count = w.take(3)
        pairs = self.pairs(w.take(2 * count), self.type)
        return "%s (%s) %s %s" % (self.name(token), pairs, self.type(ret), self.block(w.take(len(w.words) - w.at))), count

    def match(self, w):
        out = ""
        for _ in range(w.next()):
            token, condition, count = w.take(3)
            out += "case %s %s %s " % (self.name(token), self.part(condition), self.block(w.take(count)))
        return out + "else %s %s" % (self.name(w.next()), self.block(w.take(len(w.words) - w.at)))

    def call(self, w):
        return "%s (%s)" % (self.part(w.next()), self.parts(w.take(len(w.words) - w.at)))

    def field(self, w):
        return "%s %s" % (self.part(w.next()), self.name(w.next()))

    def cast(self, w):
        return "%s %s %s" % (self.name(w.next()), self.part(w.next()), self.type(w.next()))

    def imports(self, w):
        return "%s (%s)" % (self.name(w.next()), " ".join(map(self.name, w.take(len(w.words) - w.at))))

    def extern(self, w):
        token, package, count = w.take(3)
        out = "%s %s {" % (self.name(token), self.name(package))
        for _ in range(count):
            name_, ret, arguments = w.take(3)
            out += " fn %s (%s) %s" % (self.name(name_), self.pairs(w.take(2 * arguments), self.type), self.type(ret))
        return out + " }"

    def fields(self, w):
        return "%s { %s }" % (self.name(w.next()), self.pairs(w.take(len(w.words) - w.at), self.part))

    def array(self, w):
        return "%s [%s]" % (self.name(w.next()), self.parts(w.take(len(w.words) - w.at)))

    RULES = (atom, ident, bin, unary, let, None, match, call, field, cast, imports, extern, fields, array)

    def type_record(self):
        k, w = self.record()
        if k >= len(TYPES):
            raise Fault("no kind")
        if k == 0:
            said = self.atom(w)
        elif k == 1:
            said = self.name(w.next())
        elif k < 4:
            said = self.type(w.next())
        else:
            said = "%s { %s }" % (self.name(w.next()), self.pairs(w.take(len(w.words) - w.at), self.type))
        w.end()
        return TYPES[k] + " " + said


def kind(number):
    return KINDS.get(number, hexed(number))


class Library:
    def __init__(self, text, words):
        self.text, self.rest, self.labels = text, Words(words), set()
        pool, packages = self.rest.take(2)
        self.lines = self.pool(Words(self.rest.take(pool)))
        for _ in range(packages):
            self.package()
        self.rest.end()

    def name(self, word):
        return name(word, self.text, True)

    def type(self, word):
        k, payload = word >> 28, word & 0xFFFFFFF
        if k in KINDS and payload == 0:
            return KINDS[k]
        if k == 11 and payload == 0:
            return "Unknown"
        if k in INSIDE_OF:
            return "%s %s" % (INSIDE_OF[k], "p%d" % payload if payload in self.labels else payload)
        named = self.name(12 << 28 | payload)
        return "%s %s" % (NAMED_OF[k], named) if k in NAMED_OF and named[0] == '"' else hexed(word)

    def pairs(self, words):
        return " ".join("%s %s" % (self.name(words[i]), self.type(words[i + 1])) for i in range(0, len(words), 2))

    def pool(self, w):
        heads = []
        while w.at < len(w.words):
            at, word = w.at, w.next()
            heads.append((at, word, w.take(2 * word) if word >> 28 == 0 else None))
        self.labels = {at for at, _, _ in heads}
        lines = ["  p%d: %s" % (at, self.type(word) if pairs is None else "fields { %s }" % self.pairs(pairs)) for at, word, pairs in heads]
        return ["pool"] + lines if lines else []

    def package(self):
        package, functions = self.rest.take(2)
        self.lines.append("package %s {" % self.name(package))
        for _ in range(functions):
            group, flag, count = self.rest.take(3)
            if flag > 1:
                raise Fault("no flag")
            pairs, ret = self.pairs(self.rest.take(2 * count)), self.type(self.rest.next())
            self.lines.append("  %sfn %s (%s) %s" % ("slotted " if flag else "", self.name(group), pairs, ret))
        self.lines.append("}")


def text_lines(word, data):
    """A text, a string for each of its lines."""
    lines = data.splitlines(True) if b"\n" in data else [data] if data else []
    return ["%s %s" % (word, quoted(line)) for line in lines]


def raw(word, words):
    lines = [" ".join(hexed(w) for w in words[i:i + 12]) for i in range(0, len(words), 12)]
    return ["%s %s" % (word, "\n  ".join(lines))]


def symbolic(make, section, text, words):
    """The lines of the image or the library, or its words if these would not give the same ones again."""
    try:
        lines = [line for line in make(text, words).lines if line]
        given = text_lines("script" if section == "image" else "text", text)
        again = split(assembled("\n".join(given + lines)))
        if getattr(again, section) == words:
            return lines
    except Fault:
        pass
    return raw(section, words)


def disassembled(data):
    parts = split(data)
    if parts is None:
        return "bytes %s\n" % quoted(data)
    lines = text_lines("script", parts.script)
    lines += symbolic(Image, "image", parts.script, parts.image)
    lines += text_lines("text", parts.text)
    lines += symbolic(Library, "library", parts.text, parts.library)
    return "\n".join(lines) + "\n"
