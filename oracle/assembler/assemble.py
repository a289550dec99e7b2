"""Text to the bench's input. README.md has the form."""
import re

from form import INSIDE, NAMED, NODES, OPERATORS, PLAIN, TYPES, Fault, Parts, join, name_word, unquoted

SECTIONS = ("script", "types", "nodes", "roots", "slots", "text", "pool", "package", "image", "library", "bytes")
LEXEME = re.compile(r"""\s+|\#[^\n]*
  |(?P<string>"(?:[^"\\]|\\.)*"(?:@\d+)?)|(?P<number>0x[0-9A-Fa-f]+|\d+)|(?P<name>[A-Za-z_]\w*)|(?P<sign>==|!=|[-+*/%<>(){}\[\]:])""", re.X | re.S)


class Lexemes:
    def __init__(self, source):
        self.all, self.at = [], 0
        at, line = 0, 1
        while at < len(source):
            m = LEXEME.match(source, at)
            if not m:
                raise Fault("line %d: %r is no part of the form" % (line, source[at]))
            if m.lastgroup:
                self.all.append((m.lastgroup, m.group(), line))
            line += m.group().count("\n")
            at = m.end()
        self.all.append(("end", "", line))

    def fail(self, wanted):
        raise Fault("line %d: %s is wanted, not %r" % (self.all[self.at][2], wanted, self.all[self.at][1]))

    def sees(self, *texts):
        return self.all[self.at][1] in texts and self.all[self.at][0] != "string"

    def is_a(self, kind):
        return self.all[self.at][0] == kind

    def next(self):
        self.at += 1
        return self.all[self.at - 1][1]

    def take(self, text):
        if not self.sees(text):
            self.fail(repr(text))
        self.at += 1

    def label_follows(self):
        return self.is_a("name") and self.all[self.at + 1][1] == ":"


class Assembler:
    """Reads the file; words that depend on labels or texts are functions until all is read."""

    def __init__(self, source):
        self.in_ = Lexemes(source)
        self.script, self.text, self.bytes = b"", b"", None
        self.nodes, self.types, self.pool, self.packages, self.roots = [], [], [], [], []
        self.numbers = {"node": {}, "type": {}, "pool": {}}
        self.slot_count, self.raw = None, {}
        while not self.in_.is_a("end"):
            self.section()

    # parts of the form

    def number(self):
        if not self.in_.is_a("number"):
            self.in_.fail("a number")
        return int(self.in_.next(), 0)

    def strings(self):
        out = b""
        while self.in_.is_a("string"):
            out += unquoted(self.in_.next())
        return out

    def name(self, library=False):
        """"bytes", "bytes"@START, or the whole word."""
        if self.in_.is_a("number"):
            return self.number()
        if not self.in_.is_a("string"):
            self.in_.fail("a string")
        string, _, start = self.in_.next().rpartition("@")
        if not start.isdigit() or not string.endswith('"'):
            string, start = string + ("@" if string else "") + start, None
        data = unquoted(string)

        def word():
            text = self.text if library else self.script
            at = text.find(data) if start is None else int(start)
            if at < 0 or text[at:at + len(data)] != data or len(data) > 255 or at > 0xFFFF:
                raise Fault("%s does not stand in its text%s" % (string, "" if start is None else " at " + start))
            return name_word(at, len(data), library)
        return word

    def reference(self, what):
        if self.in_.is_a("number"):
            return self.number()
        if not self.in_.is_a("name"):
            self.in_.fail("a %s" % what)
        label = self.in_.next()

        def word():
            if label not in self.numbers[what]:
                raise Fault("no %s is called %s" % (what, label))
            return self.numbers[what][label]
        return word

    def kind(self):
        return PLAIN[self.in_.next()] if self.in_.sees(*PLAIN) else self.number()

    def operator(self):
        return OPERATORS.index(self.in_.next()) if self.in_.sees(*OPERATORS) else self.number()

    def part(self):
        return self.reference("node")

    def type(self):
        return self.reference("type")

    def list_of(self, opening, closing, *readers):
        """What each of the readers reads, again and again, to the closing bracket."""
        self.in_.take(opening)
        out = []
        while not self.in_.sees(closing):
            out += [read() for read in readers]
        self.in_.take(closing)
        return out

    def parts(self):
        return self.list_of("{", "}", self.part)

    # nodes and types

    def node(self):
        self.label("node", self.nodes)
        k, arguments = NODES.index(self.word_of(NODES)), 0
        if k == 4:
            words = [self.name(), self.part()]
        elif k == 0:
            words = [self.name(), self.kind()]
        elif k == 1:
            words = [self.name()]
        elif k == 2:
            words = [self.name(), self.operator(), self.part(), self.part()]
        elif k == 3:
            words = [self.name(), self.operator(), self.part()]
        elif k == 5:
            name, pairs, ret = self.name(), self.list_of("(", ")", self.name, self.type), self.type()
            arguments = len(pairs) // 2
            words = [name, ret, arguments] + pairs + self.parts()
        elif k == 6:
            words = self.match()
        elif k == 7:
            words = [self.part()] + self.list_of("(", ")", self.part)
        elif k == 8:
            words = [self.part(), self.name()]
        elif k == 9:
            words = [self.name(), self.part(), self.type()]
        elif k == 10:
            words = [self.name()] + self.list_of("(", ")", self.name)
        elif k == 11:
            words = self.extern()
        elif k == 12:
            words = [self.name()] + self.list_of("{", "}", self.name, self.part)
        else:
            words = [self.name()] + self.list_of("[", "]", self.part)
        slot = self.nodes[-1][1] + self.nodes[-1][3] + 1 if self.nodes else 0
        if self.in_.sees("slot"):
            self.in_.next()
            slot = self.number()
        self.nodes.append((k, slot, words, arguments))

    def match(self):
        cases, words = 0, []
        while self.in_.sees("case"):
            self.in_.next()
            token, condition, body = self.name(), self.part(), self.parts()
            words += [token, condition, len(body)] + body
            cases += 1
        self.in_.take("else")
        return [cases] + words + [self.name()] + self.parts()

    def extern(self):
        words, functions = [self.name(), self.name()], []
        self.in_.take("{")
        while self.in_.sees("fn"):
            self.in_.next()
            name, pairs, ret = self.name(), self.list_of("(", ")", self.name, self.type), self.type()
            functions.append([name, ret, len(pairs) // 2] + pairs)
        self.in_.take("}")
        return words + [len(functions)] + sum(functions, [])

    def type_record(self):
        self.label("type", self.types)
        k = TYPES.index(self.word_of(TYPES))
        if k == 0:
            words = [self.name(), self.kind()]
        elif k == 1:
            words = [self.name()]
        elif k < 4:
            words = [self.type()]
        else:
            words = [self.name()] + self.list_of("{", "}", self.name, self.type)
        self.types.append((k, words))

    def label(self, what, held):
        label = self.in_.next()
        self.in_.take(":")
        if label in self.numbers[what]:
            raise Fault("two %ss are called %s" % (what, label))
        self.numbers[what][label] = len(held)

    def word_of(self, words):
        if not self.in_.sees(*words):
            self.in_.fail("one of " + " ".join(words))
        return self.in_.next()

    # the library

    def library_name(self):
        return self.name(True)

    def type_word(self):
        if self.in_.is_a("number"):
            return self.number()
        name = self.word_of(tuple(PLAIN) + tuple(INSIDE) + tuple(NAMED) + ("Unknown",))
        if name in PLAIN or name == "Unknown":
            return PLAIN.get(name, 11) << 28
        k, inner = (INSIDE[name], self.reference("pool")) if name in INSIDE else (NAMED[name], self.library_name())
        return lambda: k << 28 | value(inner) & 0xFFFFFFF

    def pool_word(self):
        self.label("pool", self.pool)
        if self.in_.sees("fields"):
            self.in_.next()
            pairs = self.list_of("{", "}", self.library_name, self.type_word)
            self.pool += [len(pairs) // 2] + pairs
        else:
            self.pool.append(self.type_word())

    def package(self):
        name, functions = self.library_name(), []
        self.in_.take("{")
        while self.in_.sees("fn", "slotted"):
            flag = self.in_.next() == "slotted"
            if flag:
                self.in_.take("fn")
            group, pairs, ret = self.library_name(), self.list_of("(", ")", self.library_name, self.type_word), self.type_word()
            functions.append([group, int(flag), len(pairs) // 2] + pairs + [ret])
        self.in_.take("}")
        self.packages.append([name, len(functions)] + sum(functions, []))

    # sections

    def section(self):
        word = self.word_of(SECTIONS)
        if word == "script":
            self.script += self.strings()
        elif word == "text":
            self.text += self.strings()
        elif word == "bytes":
            self.bytes = self.strings()
        elif word in ("types", "nodes", "pool"):
            read = {"types": self.type_record, "nodes": self.node, "pool": self.pool_word}[word]
            while self.in_.label_follows():
                read()
        elif word == "roots":
            while self.in_.is_a("number") or (self.in_.is_a("name") and not self.in_.sees(*SECTIONS)):
                self.roots.append(self.part())
        elif word == "slots":
            self.slot_count = self.number()
        elif word == "package":
            self.package()
        else:
            self.raw[word] = []
            while self.in_.is_a("number"):
                self.raw[word].append(self.number())

    # the words

    def image(self):
        slots = self.slot_count
        if slots is None:
            slots = max([slot + arguments + 1 for _, slot, _, arguments in self.nodes], default=0)
        words = [len(self.nodes), len(self.types), len(self.roots), slots] + self.roots
        for k, slot, rest, _ in self.nodes:
            words += [k << 28 | len(rest) + 2, slot] + rest
        for k, rest in self.types:
            words += [k << 28 | len(rest) + 1] + rest
        return words

    def library(self):
        return [len(self.pool), len(self.packages)] + self.pool + sum(self.packages, [])

    def whole(self):
        if self.bytes is not None:
            return self.bytes
        image = self.raw["image"] if "image" in self.raw else self.image()
        library = self.raw["library"] if "library" in self.raw else self.library()
        return join(Parts(self.script, list(map(value, image)), self.text, list(map(value, library))))


def value(word):
    return word() if callable(word) else word


def assembled(source):
    return Assembler(source).whole()
