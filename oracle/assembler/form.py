"""The words that both directions share: kinds, operators, strings."""
import re
import struct
from collections import namedtuple

Parts = namedtuple("Parts", "script image text library")

NODES = ("atom", "ident", "bin", "unary", "let", "fn", "match", "call", "field", "cast", "import", "extern", "record", "array")
TYPES = ("atom", "foreign", "option", "array", "record")
OPERATORS = ("+", "-", "*", "/", "%", "==", "!=", "<", ">")
PLAIN = {"Void": 1, "Bool": 2, "Int": 3, "Double": 4, "Str": 5}
# type words that refer into the pool, and those with a name
INSIDE = {"Option": 6, "Array": 7, "Record": 8}
NAMED = {"Foreign": 9, "Slot": 10}


class Fault(Exception):
    pass


def join(parts):
    """The bench's input."""
    return (struct.pack("<4I", len(parts.script), len(parts.image), len(parts.text), len(parts.library)) + parts.script
            + struct.pack("<%dI" % len(parts.image), *parts.image) + parts.text + struct.pack("<%dI" % len(parts.library), *parts.library))


def split(data):
    """Its four parts, or None where the lengths do not fit."""
    if len(data) < 16:
        return None
    script, image, text, library = struct.unpack_from("<4I", data)
    if 16 + script + 4 * image + text + 4 * library != len(data):
        return None
    at = [16, 16 + script, 16 + script + 4 * image, 16 + script + 4 * image + text]
    return Parts(data[at[0]:at[1]], list(struct.unpack_from("<%dI" % image, data, at[1])),
                 data[at[2]:at[3]], list(struct.unpack_from("<%dI" % library, data, at[3])))


def name_word(start, length, library):
    return 12 << 28 | (1 << 24 if library else 0) | start << 8 | length


ESCAPES = {"n": b"\n", "t": b"\t", '"': b'"', "\\": b"\\"}
SHOWN = {ord("\n"): "\\n", ord("\t"): "\\t", ord('"'): '\\"', ord("\\"): "\\\\"}


def unquoted(string):
    """The bytes of a string as it stands in a file, quotes included."""
    out = b""
    for escaped, plain in re.findall(r'\\(x[0-9A-Fa-f]{2}|.)|([^\\])', string[1:-1], re.S):
        if plain:
            out += plain.encode()
        elif escaped[0] == "x" and len(escaped) == 3:
            out += bytes([int(escaped[1:], 16)])
        elif escaped in ESCAPES:
            out += ESCAPES[escaped]
        else:
            raise Fault("no such escape: \\" + escaped)
    return out


def quoted(data):
    """A string for these bytes: well-formed printable characters as they are."""
    out = ""
    for char in data.decode("utf-8", "surrogateescape"):
        if 0xDC80 <= ord(char) <= 0xDCFF:
            out += "\\x%02x" % (ord(char) - 0xDC00)
        elif ord(char) in SHOWN:
            out += SHOWN[ord(char)]
        elif char.isprintable():
            out += char
        else:
            out += "".join("\\x%02x" % b for b in char.encode())
    return '"%s"' % out
