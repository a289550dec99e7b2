"""Cases in the bench format of document 01, one or many.

A case: four little-endian 32-bit lengths (script bytes, image words, library text bytes, library words) and the four parts.
A batch: a run of [u32 little-endian length][case]. Any file may be packed (.gz).
"""
import gzip
import os
import struct
from collections import namedtuple

# script and text are bytes, image and library lists of words
Parts = namedtuple("Parts", "script image text library")


def content(path):
    """The bytes of a file, or of the same name packed."""
    if not os.path.exists(path) and os.path.exists(path + ".gz"):
        path += ".gz"
    with (gzip.open if path.endswith(".gz") else open)(path, "rb") as f:
        return f.read()


def read_batch(path):
    data, at, out = content(path), 0, []
    while at < len(data):
        (size,) = struct.unpack_from("<I", data, at)
        out.append(data[at + 4:at + 4 + size])
        at += 4 + size
    return out


def batch_of(cases):
    return b"".join(struct.pack("<I", len(c)) + c for c in cases)


def split_case(case):
    lengths = struct.unpack_from("<4I", case)
    sizes = [lengths[0], 4 * lengths[1], lengths[2], 4 * lengths[3]]
    if 16 + sum(sizes) != len(case):
        raise ValueError("a case whose lengths do not fit it")
    parts, at = [], 16
    for size in sizes:
        parts.append(case[at:at + size])
        at += size
    words = [list(struct.unpack("<%dI" % (len(p) // 4), p)) for p in (parts[1], parts[3])]
    return Parts(parts[0], words[0], parts[2], words[1])


def join_case(parts):
    return (struct.pack("<4I", len(parts.script), len(parts.image), len(parts.text), len(parts.library))
            + parts.script + struct.pack("<%dI" % len(parts.image), *parts.image)
            + parts.text + struct.pack("<%dI" % len(parts.library), *parts.library))


def read_rows(path):
    """The rows of each case, as the oracle prints them with --batch: separated by a line `--`."""
    rows = content(path).split(b"\n--\n")
    if rows and rows[-1].strip() in (b"", b"--"):
        rows.pop()
    return [row.strip(b"\n") + b"\n" for row in rows]


def compared(row):
    """Whether the Rust answered, inside the domain of equality."""
    return row.split(b"\n")[0].split(b" ")[0] not in (b"bad-input", b"input", b"panic", b"outside")
