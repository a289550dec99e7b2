"""What the model reads: the image's records, names, spans, and types through the types buffer."""

VOID, BOOL, INT, DOUBLE, STR, OPTION, ARRAY, RECORD, FOREIGN, SLOT, UNKNOWN = range(1, 12)
ATOM, IDENT, BIN, UNARY, LET, FN, MATCH, CALL, FIELD, CAST, IMPORT, EXTERN, RECORD_NODE, ARRAY_NODE = range(14)
PLAIN = {VOID: b"Void", BOOL: b"Bool", INT: b"Int", DOUBLE: b"Double", STR: b"Str", UNKNOWN: b"unknown"}


def kind(w):
    return w >> 28


def payload(w):
    return w & 0xFFFFFFF


def word(k, p):
    return k << 28 | p


def token_span(w):
    return (w >> 8 & 0xFFFF, w & 0xFF)


def cover(spans):
    start = min(s for s, _ in spans)
    return (start, max(s + n for s, n in spans) - start)


class Words:
    """An accepted image and the texts, and a types buffer."""

    def __init__(self, parts, types):
        self.parts, self.image, self.types = parts, parts.image, list(types)
        self.count, self.type_count, roots, self.void = parts.image[:4]
        self.roots = parts.image[4:4 + roots]
        at, self.at_node, self.at_type = 4 + roots, [], []
        for places, count in ((self.at_node, self.count), (self.at_type, self.type_count)):
            for _ in range(count):
                places.append(at)
                at += payload(self.image[at])

    def name(self, w):
        start, size = token_span(w)
        return (self.parts.text if w >> 24 & 1 else self.parts.script)[start:start + size]

    # types

    def fields(self, w):
        at = payload(w)
        return [(self.types[at + 1 + 2 * i], self.types[at + 2 + 2 * i]) for i in range(self.types[at])]

    def inner(self, w):
        return self.types[payload(w)]

    def unfolded(self, w):
        k = kind(w)
        if k in (OPTION, ARRAY):
            return (k, self.unfolded(self.inner(w)))
        if k == RECORD:
            return (k, tuple((self.name(n), self.unfolded(t)) for n, t in self.fields(w)))
        if k in (FOREIGN, SLOT):
            return (k, self.name(w))
        return (k,)

    def same(self, a, b):
        return self.unfolded(a) == self.unfolded(b)

    def contains(self, w, wanted):
        k = kind(w)
        if k in (OPTION, ARRAY):
            return self.contains(self.inner(w), wanted)
        if k == RECORD:
            return any(self.contains(t, wanted) for _, t in self.fields(w))
        return k == wanted

    def depth(self, w):
        k = kind(w)
        if k in (OPTION, ARRAY):
            return 1 + self.depth(self.inner(w))
        if k == RECORD:
            return 1 + max([self.depth(t) for _, t in self.fields(w)], default=0)
        return 1

    def show(self, w):
        k = kind(w)
        if k in (OPTION, ARRAY):
            return (b"Option<" if k == OPTION else b"Array<") + self.show(self.inner(w)) + b">"
        if k == RECORD:
            return b"Record<" + b" ".join(self.name(n) + b": " + self.show(t) for n, t in self.fields(w)) + b">"
        if k == FOREIGN:
            return b"Foreign<" + self.name(w) + b">"
        if k == SLOT:
            return self.name(w)
        return PLAIN[k]

    # records of the image

    def node_words(self, n):
        at = self.at_node[n]
        head = self.image[at]
        return kind(head), self.image[at + 1], self.image[at + 2:at + payload(head)]

    @staticmethod
    def cases(rest):
        at, out = 1, []
        for _ in range(rest[0]):
            n = rest[at + 2]
            out.append((rest[at], rest[at + 1], rest[at + 3:at + 3 + n]))
            at += 3 + n
        return out, rest[at], rest[at + 1:]

    @staticmethod
    def externs(rest):
        at, out = 3, []
        for _ in range(rest[2]):
            n = rest[at + 2]
            out.append((rest[at], rest[at + 1], [(rest[at + 3 + 2 * i], rest[at + 4 + 2 * i]) for i in range(n)]))
            at += 3 + 2 * n
        return out

    def slot_of(self, n):
        return self.image[self.at_node[n] + 1]

    # spans

    def type_token(self, t):
        at = self.at_type[t]
        return self.type_token(self.image[at + 1]) if kind(self.image[at]) in (2, 3) else self.image[at + 1]

    def span(self, n):
        k, slot, rest = self.node_words(n)
        if k in (ATOM, IDENT):
            return token_span(rest[0])
        if k == BIN:
            return cover([self.span(rest[2]), token_span(rest[0]), self.span(rest[3])])
        if k == UNARY:
            return cover([token_span(rest[0]), self.span(rest[2])])
        if k == LET:
            return cover([token_span(rest[0]), self.span(rest[1])])
        if k == FN:
            return cover([token_span(rest[0])] + [self.span(b) for b in rest[3 + 2 * rest[2]:]])
        if k == MATCH:
            cases, default, body = self.cases(rest)
            spans = []
            for token, condition, nodes in cases:
                spans += [token_span(token), self.span(condition)] + [self.span(b) for b in nodes]
            return cover(spans + [token_span(default)] + [self.span(b) for b in body])
        if k == CALL:
            return cover([self.span(part) for part in rest])
        if k == FIELD:
            return cover([self.span(rest[0]), token_span(rest[1])])
        if k == CAST:
            return cover([self.span(rest[1]), token_span(rest[0]), token_span(self.type_token(rest[2]))])
        if k == IMPORT:
            return cover([token_span(w) for w in rest])
        if k == EXTERN:
            spans = [token_span(rest[0]), token_span(rest[1])]
            for name, ret, args in self.externs(rest):
                spans.append(token_span(name))
                for arg, t in args:
                    spans += [token_span(arg), token_span(self.type_token(t))]
                spans.append(token_span(self.type_token(ret)))
            return cover(spans)
        if k == RECORD_NODE:
            spans = [token_span(rest[0])]
            for i in range(1, len(rest), 2):
                spans += [token_span(rest[i]), self.span(rest[i + 1])]
            return cover(spans)
        return cover([token_span(rest[0])] + [self.span(m) for m in rest[1:]])
