#!/usr/bin/env python3
"""Holds the documents to the tree.

check.py          says what is untrue, and exits with 1 where anything is
check.py --write  first writes the list of definitions in docs/ARCHITECTURE.md anew

1. docs/ARCHITECTURE.md, "What a reader must believe": every file of definitions that a public contract, demand 3
   or a law of 02 leans on, with its lines. They are found by following imports from the crates in ROOTS.
2. docs/TRACE.md: each name in `code` in the column of answers stands somewhere in the tree; a must-fail edit is a file.
3. The tables of turned places: those of the code (crates/word/src/sources.rt) and the squares of docs/TURNING.md, number by
   number, are what the program `turning` printed from the formula (crates/turning/stdout), and so are the places of the
   page's example.
4. docs/LIGHT.md: the example's square is 231B, its levels are lit well enough, and the sentence on them has their numbers; the
   table of corners that are off is what the formula gives, and at one 1024th more some sample leaves its module.
"""
import re
import sys
from itertools import product, zip_longest
from pathlib import Path

ROOT = Path(__file__).resolve().parents[2]
ROOTS = ["muosleap", "muosleap_paint", "muosleap_picture", "muosleap_report", "muosleap_c", "paper", "demand3", "listed_report", "lit_reading", "readbits_lines",
         "turning_lines"]
ARCHITECTURE = ROOT / "docs/ARCHITECTURE.md"
TRACE = ROOT / "docs/TRACE.md"
TURNING = ROOT / "docs/TURNING.md"
LIGHT = ROOT / "docs/LIGHT.md"
# the families in their order: name, edge and border
FAMILIES = [("T16H5", 4, 2), ("T25H7", 5, 2), ("T25H9", 5, 2), ("T36H11", 6, 2), ("T36H11B1", 6, 1)]
# what only functions inside a crate lean on, and nobody has to believe
INNER = {"crates/lit_reading/specs/Sampleable.antt"}
SOURCES = ROOT / "crates/word/src/sources.rt"
PRINTED = ROOT / "crates/turning/stdout"
LIST = re.compile(r"(?<=<!-- definitions -->\n).*?(?=<!-- end -->)", re.S)


def crates():
    """The crates in the order of crates.txt."""
    lines = (ROOT / "crates.txt").read_text(encoding="utf8").splitlines()
    return [line.split(":")[0].split()[0] for line in lines if ":" in line and not line.startswith("#")]


def imported(file):
    """The files of definitions that a file imports."""
    for crate, module in re.findall(r"use Rattle\.(\w+)\.specs\.([\w.]+?)(?: as|\.\{|;|$)", file.read_text(encoding="utf8"), re.M):
        found = ROOT / "crates" / crate / "specs" / (module.replace(".", "/") + ".antt")
        if found.exists():
            yield found


def believed():
    """All files of definitions behind the contracts of ROOTS."""
    seen = set()
    for crate in ROOTS:
        folder = ROOT / "crates" / crate
        seen.update(file for file in folder.glob("specs/**/*.antt") if file.name != "Lib.antt")
        for source in folder.glob("src/**/*.rt"):
            seen.update(imported(source))
    seen -= {ROOT / file for file in INNER}
    waiting = list(seen)
    while waiting:
        for file in imported(waiting.pop()):
            if file not in seen:
                seen.add(file)
                waiting.append(file)
    return seen


def definitions():
    order = crates()
    files = sorted(believed(), key=lambda file: (order.index(file.relative_to(ROOT).parts[1]), file.name))
    rows = [(file.relative_to(ROOT), len(file.read_text(encoding="utf8").splitlines())) for file in files]
    text = "".join(f"- {file} ({lines})\n" for file, lines in rows)
    return f"{text}\n{len(rows)} files, {sum(lines for _, lines in rows)} lines.\n"


def untraced():
    """What docs/TRACE.md names and the tree does not have."""
    answers = [row.split("|")[-2] for row in TRACE.read_text(encoding="utf8").splitlines() if row.startswith("|")]
    names = set(re.findall(r"`([^`]+)`", "\n".join(answers)))
    edits = {edit.stem for edit in ROOT.glob("crates/*/must-fail/*.edit")}
    text = []
    for pattern in ["crates/*/src/**/*.rt", "crates/*/specs/**/*.antt", "crates/*/proofs/**/*.antt", "crates.txt", "tools/**/*.rs"]:
        text += [file.read_text(encoding="utf8") for file in ROOT.glob(pattern) if "target" not in file.parts]
    words = set(re.findall(r"[^\s(){}\[\]⌜⌝,;:.∷]+", "\n".join(text)))
    for name in sorted(names):
        known = name in edits or name in words or (ROOT / name).exists() or list(ROOT.glob(f"crates/{name}"))
        if not known and not all(part in words for part in re.split(r"[\s.]+", name.strip())):
            yield name


def numbers(text):
    return [int(number) for number in re.findall(r"\d+", text)]


def differing(file, tables, printed):
    """Where the tables of a file, pairs of an edge and its numbers, are not the printed ones."""
    if [edge for edge, _ in tables] != [edge for edge, _ in printed]:
        yield f"{file}: tables of the edges {[edge for edge, _ in tables]}, printed are {[edge for edge, _ in printed]}"
        return
    for (edge, table), (_, wanted) in zip(tables, printed):
        for place, (found, number) in enumerate(zip_longest(table, wanted)):
            if found != number:
                yield f"{file}: edge {edge}, place {place}: {found}, printed is {number}"


def misturned():
    """Where the code and docs/TURNING.md differ from what `turning` printed: a line for each edge from 4 up."""
    text, code, page = (file.read_text(encoding="utf8") for file in (PRINTED, SOURCES, TURNING))
    printed = [(edge, numbers(line)) for edge, line in enumerate(text.splitlines(), 4)]
    if "".join(" ".join(map(str, table)) + "\n" for _, table in printed) != text:
        yield "crates/turning/stdout: not lines of numbers with one space between"
    code = re.sub(r"//.*", "", code)
    tables = re.findall(r"const EDGE_(\d+): \[u8; \d+\] = \[([\d,\s]*)\];", code)
    if len(tables) != code.count("const"):
        yield "crates/word/src/sources.rt: a constant that is no table of plain numbers"
    yield from differing("crates/word/src/sources.rt", [(int(edge), numbers(table)) for edge, table in tables], printed)
    squares = re.findall(r"### Edge (\d+)\n\n```\n(.*?)```", page, re.S)
    yield from differing("docs/TURNING.md", [(int(edge), numbers(square)) for edge, square in squares], printed)
    for edge, square in squares:
        if any(len(numbers(row)) != int(edge) for row in square.splitlines()):
            yield f"docs/TURNING.md: edge {edge} is no square"
    places = [numbers(row) for row in re.findall(r"^\| \d+ \| \d+ \| [01] \|$", page, re.M)]
    if places != [[place, source, 0x231B >> source & 1] for place, source in enumerate(printed[0][1] if printed else [])]:
        yield "docs/TURNING.md: the example's places are not 231B turned by the printed table"
    if sum(bit << place for place, _, bit in places) != 0x7D01:
        yield "docs/TURNING.md: the example's places are not the bits of 7D01"


def strays(edge, border, cell, amount):
    """Whether a sample leaves its module where the painter's corners are off by so many 1024ths, up or down, along x or along y."""
    side, first = edge + 2 * border, 64 * cell
    low, high = 1024 * first - 512, 1024 * (first + side * cell) - 512
    for signs, (corners, along) in product(product((-amount, amount), repeat=4), (((low, high, high, low), 1), ((low, low, high, high), 0))):
        q0, q1, q2, q3 = (corner + sign for corner, sign in zip(corners, signs))
        for module in product(range(border, border + edge), repeat=2):
            u, v = (2 * place - side + 1 for place in module)
            over = (q0 + q1 + q2 + q3) * side + u * (q2 + q3 - q0 - q1) + v * (q1 + q2 - q0 - q3)
            if ((over + 2048 * side) // (4096 * side) - first) // cell != module[along]:
                return True
    return False


def misplaced(page):
    """Where the table of docs/LIGHT.md is not what its formula gives, or one 1024th more would be harmless too."""
    cells = numbers("".join(re.findall(r"^\| family \|(.*)\| of a cell \|$", page, re.M)))
    rows = [(name, numbers(row)) for name, row in re.findall(r"^\| (T\d+H\d+(?:B1)?) \|(.*)\| less than .*\|$", page, re.M)]
    if not cells or [name for name, _ in rows] != [name for name, _, _ in FAMILIES]:
        yield "docs/LIGHT.md: no table of corners with a row for each family"
        return
    for (name, row), (_, edge, border) in zip(rows, FAMILIES):
        side = edge + 2 * border
        if row != [(2048 * side * cell - 1) // max(4 * side, 2 * side + 4 * (edge - 1)) for cell in cells]:
            yield f"docs/LIGHT.md: the row of {name} is not what the formula gives"
        elif any(strays(edge, border, cell, most) or not strays(edge, border, cell, most + 1) for cell, most in zip(cells, row)):
            yield f"docs/LIGHT.md: the row of {name} is not where the first sample leaves its module"


def mislit():
    """Where docs/LIGHT.md's example is not what its own sentences say."""
    page = LIGHT.read_text(encoding="utf8")
    squares = [numbers(square) for square in re.findall(r"```\n((?:[ \d]+\n){4})```", page)]
    if [len(square) for square in squares] != [16, 16]:
        yield "docs/LIGHT.md: not two squares of sixteen numbers"
        return
    painted, levels = squares
    if sum(bit << 15 - place for place, bit in enumerate(painted)) != 0x231B:
        yield "docs/LIGHT.md: the example's square is not 231B"
    least, greatest = min(levels), max(levels)
    middle = (least + greatest + 1) // 2
    light, dark = ([level for bit, level in zip(painted, levels) if bit == shade] for shade in (1, 0))
    sentence = (f"The least is {least}, the greatest {greatest}, the middle {middle}. Light modules have to be at {middle + 10} or above, dark ones at {middle - 10} or below; "
                f"the lowest light one has {min(light)}, the highest dark one {max(dark)}. The contrast is {greatest - least}.")
    if sentence not in page or min(light) < middle + 10 or max(dark) > middle - 10 or greatest - least < 50:
        yield f"docs/LIGHT.md: the example is not lit well enough, or does not say: {sentence}"


def main():
    found = definitions()
    text = ARCHITECTURE.read_text(encoding="utf8")
    if "--write" in sys.argv:
        text = LIST.sub(lambda _: found, text)
        ARCHITECTURE.write_text(text, encoding="utf8")
    wrong = []
    if not LIST.search(text) or LIST.search(text)[0] != found:
        wrong.append("docs/ARCHITECTURE.md: the list of definitions is not the tree's; tools/docs/check.py --write writes it anew")
    wrong += [f"docs/TRACE.md: no `{name}` in the tree" for name in untraced()]
    wrong += misturned()
    wrong += mislit()
    wrong += misplaced(LIGHT.read_text(encoding="utf8"))
    print("\n".join(wrong) or "documents: as the tree has it")
    return 1 if wrong else 0


if __name__ == "__main__":
    sys.exit(main())
