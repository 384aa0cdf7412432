#!/usr/bin/env python3
"""Makes NAME.rec out of NAME.txt, for the texts named as arguments, or else for each text beside this script.

One record a line; '#' starts a comment line. Numbers are decimal.

    O option count name     an option, its values 0..count-1, its name (the rest of the line, '-' for none)
    R i a j mask            value a of option i allows option j the values whose bits are set in mask
    L i j p q c             p * (value of i) + q * (value of j) >= c
    P option value price    what a value costs
    bytes HEX ..            these bytes as they stand, for a file that is to be broken

In a name, '\\xHH' is the byte HH; any other character stands for its UTF-8 bytes.
"""
import re
import struct
import sys
from pathlib import Path

NAME_LENGTH = 12


def name_bytes(text):
    if text == "-":
        return b""
    name = re.sub(rb"\\x([0-9a-fA-F]{2})", lambda found: bytes.fromhex(found[1].decode()), text.encode())
    if len(name) > NAME_LENGTH:
        raise ValueError(f"the name has {len(name)} bytes, more than {NAME_LENGTH}")
    return name


def numbers(text, count):
    words = text.split()
    if len(words) != count:
        raise ValueError(f"{count} numbers expected, not {len(words)}")
    return [int(word) for word in words]


def record(line):
    kind, _, rest = line.partition(" ")
    if kind == "O":
        option, count, name = rest.split(" ", 2)
        return struct.pack("<cBBx12s", b"O", int(option), int(count), name_bytes(name))
    if kind == "R":
        return struct.pack("<cBBBI8x", b"R", *numbers(rest, 4))
    if kind == "L":
        i, j, p, q, c = numbers(rest, 5)
        return struct.pack("<cBxBhhi4x", b"L", i, j, p, q, c)
    if kind == "P":
        return struct.pack("<cBBxI8x", b"P", *numbers(rest, 3))
    if kind == "bytes":
        return bytes.fromhex(rest)
    raise ValueError(f"no such kind of record: {kind}")


def make(text_file):
    made = bytearray()
    for number, line in enumerate(text_file.read_text(encoding="utf-8").splitlines(), 1):
        if not line or line.startswith("#"):
            continue
        try:
            made += record(line)
        except (ValueError, struct.error) as fault:
            sys.exit(f"{text_file}:{number}: {fault}")
    text_file.with_suffix(".rec").write_bytes(made)


def main():
    named = [Path(argument) for argument in sys.argv[1:]]
    for text_file in named or sorted(Path(__file__).parent.glob("*.txt")):
        make(text_file)


if __name__ == "__main__":
    main()
