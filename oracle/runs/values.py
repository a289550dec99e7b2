"""Values of a run, and which of them fit a type.

A value is a tuple whose first part says its kind:

    ("void",)  ("bool", truth)  ("int", number)  ("double", number)  ("str", bytes)  ("nothing",)  ("just", value)
    ("array", values)  ("object", ((name, value), ..))  ("foreign", type name, number)

Numbers stand for themselves alone: request S-11 leaves every number result open within its kind, so no run ever computes one, and an
Int's 3 and a Double's 3 are different values because their kinds differ. A type is an unfolded one (`Words.unfolded`).
"""
import sys
from os.path import abspath, dirname, join

sys.path.insert(0, join(dirname(abspath(__file__)), "..", "definitions"))
from model_words import ARRAY, BOOL, DOUBLE, FOREIGN, INT, OPTION, RECORD, STR, VOID  # noqa: E402

VOID_VALUE = ("void",)
NOTHING = ("nothing",)
PLAIN = {VOID: "void", BOOL: "bool", INT: "int", DOUBLE: "double", STR: "str"}


def fits(value, type_):
    """Whether a value is one of the type; nothing is one of a Slot or of Unknown, whose kinds no value has."""
    kind, made = type_[0], value[0]
    if kind in PLAIN:
        return made == PLAIN[kind]
    if kind == OPTION:
        return made == "nothing" or made == "just" and fits(value[1], type_[1])
    if kind == ARRAY:
        return made == "array" and all(fits(v, type_[1]) for v in value[1])
    if kind == RECORD:
        return (made == "object" and len(value[1]) == len(type_[1])
                and all(name == wanted and fits(v, t) for (name, v), (wanted, t) in zip(value[1], type_[1])))
    if kind == FOREIGN:
        return made == "foreign" and value[1] == type_[1]
    return False


def mixed(*numbers):
    """A number of 64 bits that depends on all of these: the only chance in a run, so that it is a function of the question asked."""
    state = 0x9E3779B97F4A7C15
    for n in numbers:
        state = (state ^ n) * 0xBF58476D1CE4E5B9 & 0xFFFFFFFFFFFFFFFF
        state ^= state >> 29
        state = state * 0x94D049BB133111EB & 0xFFFFFFFFFFFFFFFF
        state ^= state >> 32
    return state


def value_of(type_, chance):
    """A value that fits the type, chosen by a number; types with a Slot or Unknown have none, and asking for one is an error."""
    kind = type_[0]
    if kind == VOID:
        return VOID_VALUE
    if kind == BOOL:
        return ("bool", chance % 2 == 1)
    if kind in (INT, DOUBLE):
        return (PLAIN[kind], chance % 5)
    if kind == STR:
        return ("str", (b"", b"a", b"true", b"ab")[chance % 4])
    if kind == OPTION:
        return ("just", value_of(type_[1], mixed(chance, 1))) if chance % 3 else NOTHING
    if kind == ARRAY:
        return ("array", tuple(value_of(type_[1], mixed(chance, i)) for i in range(chance % 3)))
    if kind == RECORD:
        return ("object", tuple((name, value_of(t, mixed(chance, i))) for i, (name, t) in enumerate(type_[1])))
    if kind == FOREIGN:
        return ("foreign", type_[1], chance % 7)
    raise ValueError("no value fits %r" % (type_,))


def shown(value):
    """A value in one line, for a report."""
    kind = value[0]
    if kind == "bool":
        return "true" if value[1] else "false"
    if kind in ("int", "double"):
        return "%s %d" % (kind, value[1])
    if kind == "str":
        return '"%s"' % value[1].decode("utf-8", "replace")
    if kind == "just":
        return "just (%s)" % shown(value[1])
    if kind == "array":
        return "[%s]" % ", ".join(shown(v) for v in value[1])
    if kind == "object":
        return "{%s}" % ", ".join("%s: %s" % (n.decode("utf-8", "replace"), shown(v)) for n, v in value[1])
    if kind == "foreign":
        return "%s#%d" % (value[1].decode("utf-8", "replace"), value[2])
    return kind
