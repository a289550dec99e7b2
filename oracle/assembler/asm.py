#!/usr/bin/env python3
"""Assembler and disassembler for the bench's input of document 01.

  asm.py assemble [FILE] > CASE        the readable form (README.md) to the bench's input
  asm.py disassemble [FILE] > TEXT     and back; what it prints gives the same bytes again

Without FILE, standard input.
"""
import argparse
import sys

from assemble import assembled
from disassemble import disassembled
from form import Fault


def main():
    p = argparse.ArgumentParser(description=__doc__, formatter_class=argparse.RawDescriptionHelpFormatter)
    p.add_argument("what", choices=("assemble", "disassemble"))
    p.add_argument("file", nargs="?")
    o = p.parse_args()
    data = open(o.file, "rb").read() if o.file else sys.stdin.buffer.read()
    try:
        out = assembled(data.decode()) if o.what == "assemble" else disassembled(data).encode()
    except (Fault, UnicodeDecodeError) as fault:
        sys.exit("asm.py: %s" % fault)
    sys.stdout.buffer.write(out)


if __name__ == "__main__":
    main()
