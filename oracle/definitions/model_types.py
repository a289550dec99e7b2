"""How the model adds types, and binds and applies slots (ptype.rs): refusals 7 and 8."""
from model_words import ARRAY, FOREIGN, OPTION, RECORD, SLOT, VOID, Words, kind, payload, word


class Refused(Exception):
    def __init__(self, number, place):
        Exception.__init__(self)
        self.number, self.place = number, place


class Types(Words):
    """A types buffer that grows; `used` are function words, type words, diagnostics, message bytes."""

    def __init__(self, parts, types):
        Words.__init__(self, parts, types)
        self.used = [0, 0, 0, 0]

    def add(self, n, k, new):
        """One Option, Array or Record added by node n: 7, then 8."""
        at = self.used[1]
        if at + len(new) > min(len(self.types), 8192):
            raise Refused(7, n)
        before = self.types[at:at + len(new)]
        self.types[at:at + len(new)] = new
        if self.depth(word(k, at)) > 32:
            self.types[at:at + len(new)] = before
            raise Refused(8, n)
        self.used[1] += len(new)
        return word(k, at)

    def add_record(self, n, pairs):
        return self.add(n, RECORD, [len(pairs)] + [x for pair in pairs for x in pair])

    def type_from(self, n, t):
        """type_from_type_expr"""
        at = self.at_type[t]
        head = self.image[at]
        if kind(head) == 0:
            return word(self.image[at + 2], 0)
        if kind(head) == 1:
            return word(FOREIGN, payload(self.image[at + 1]))
        if kind(head) in (2, 3):
            inner = self.type_from(n, self.image[at + 1])
            return self.add(n, OPTION if kind(head) == 2 else ARRAY, [inner])
        pairs = [(self.image[at + 2 + 2 * i], self.image[at + 3 + 2 * i]) for i in range((payload(head) - 2) // 2)]
        return self.add_record(n, [(name, self.type_from(n, inner)) for name, inner in pairs])

    def bind(self, expected, given, bindings):
        """bind_slots: None, or (slot, type) of a conflict, (slot, None) of a Void."""
        k = kind(expected)
        if k == SLOT:
            name = self.name(expected)
            if kind(given) == VOID:
                return name, None
            if name not in bindings:
                bindings[name] = given
            elif not self.same(bindings[name], given):
                return name, given
            return None
        if k in (OPTION, ARRAY) and kind(given) == k:
            return self.bind(self.inner(expected), self.inner(given), bindings)
        if k == RECORD and kind(given) == k:
            for (_, e), (_, g) in zip(self.fields(expected), self.fields(given)):
                fault = self.bind(e, g, bindings)
                if fault is not None:
                    return fault
        return None

    def has_bound(self, w, bindings):
        k = kind(w)
        if k in (OPTION, ARRAY):
            return self.has_bound(self.inner(w), bindings)
        if k == RECORD:
            return any(self.has_bound(t, bindings) for _, t in self.fields(w))
        return k == SLOT and self.name(w) in bindings

    def applied(self, n, w, bindings):
        """apply_slot_binding"""
        if not self.has_bound(w, bindings):
            return w
        k = kind(w)
        if k == SLOT:
            return bindings[self.name(w)]
        if k in (OPTION, ARRAY):
            return self.add(n, k, [self.applied(n, self.inner(w), bindings)])
        return self.add_record(n, [(name, self.applied(n, t, bindings)) for name, t in self.fields(w)])
