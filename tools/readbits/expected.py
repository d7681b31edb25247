#!/usr/bin/env python3
"""Writes the inputs of the three `readbits` programs and what each must print, from document 01's words alone.

    python3 tools/readbits/expected.py ORIGINAL/src/tag_families.rs

The codes of T16H5 come from the original's file; nothing here reads or runs this repository's code.
"""
import pathlib
import re
import sys

CRATES = pathlib.Path(__file__).resolve().parents[2] / "crates"
ORIGINAL = pathlib.Path(sys.argv[1]).read_text()
CODES = [int(code, 16) for code in re.findall(r"0x(\w+)", re.search(r"T16H5: \[u64; 30\] = \[(.*?)\]", ORIGINAL, re.S)[1])]
EDGE, THRESHOLD, LIMIT = 4, 1, 4096


def turned(word):
    """One turn puts at place i * edge + j the bit from place j * edge + edge - 1 - i."""
    return sum((word >> (j * EDGE + EDGE - 1 - i) & 1) << (i * EDGE + j) for i in range(EDGE) for j in range(EDGE))


def search(word):
    """Id and turn of the first turn whose fewest differing bits are below the match threshold, or None."""
    for turn in range(4):
        differing = [bin(word ^ code).count("1") for code in CODES]
        if min(differing) < THRESHOLD:
            return differing.index(min(differing)), turn
        word = turned(word)
    return None


def lines(data):
    """Each ended by line feed or the end; nothing after a final line feed makes a line."""
    parts = data.split(b"\n")
    return parts[:-1] if parts[-1] == b"" else parts


def printed(line):
    if not re.fullmatch(rb"[0-9A-F]{4}", line):
        return b"bad"
    found = search(int(line, 16))
    return line + (b" %d %d" % found if found else b" none")


def expected(data):
    return b"".join(printed(line) + b"\n" for line in lines(data[:LIMIT]))


def program(name, data):
    (CRATES / name / "stdin").write_bytes(data)
    (CRATES / name / "stdout").write_bytes(expected(data))


# Document 01's example.
program("readbits", b"231B\n7D01\n231A\nx\n")

# Odd lines; every code in every turn; words of all kinds. It ends at the limit with a whole word and no line feed.
odd = [b"", b"231b", b"231BA", b"231", b"231B\r", b" 231B", b"231B ", b"2 1B", b"\t31B", b"", b"\0", b"231B\0", b"\x0031B", b"231G", b"231@", b"23/B", b"23:B",
       b"`31B", b"0x23", b"231B 0 0", b"+31B", b"-231", b"\xff\xfe31", b"\xef\xbc\x92", b"\r", b"none", b"bad", b"231B,7D01", b"0231B", b"31B", b"9", b"F",
       b"0000", b"FFFF", b"9999", b"AAAA", b"231B", b"7D01", b"D8C4", b"80BE", b"7" * 100, b"231B7D01" * 8]
for code in CODES:
    for _ in range(4):
        odd.append(b"%04X" % code)
        code = turned(code)
data = b"".join(line + b"\n" for line in odd)
step = 0
while len(data) + 10 <= LIMIT:
    step += 1
    data += b"%04X\n" % (step * 40503 % 65536)
data += b"." * (LIMIT - len(data) - 5) + b"\n" + b"AF2E"
assert len(data) == LIMIT
program("readbits_odd", data)

# As many bad lines as the limit leaves room for, so that nearly as much as possible is printed; the limit then cuts the line `231BA`
# after its fourth byte, and what lies beyond it is not read.
program("readbits_cut", b"\n" * (LIMIT - 4) + b"231B" + b"A\n7D01\n")
