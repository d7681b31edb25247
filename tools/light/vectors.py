#!/usr/bin/env python3
"""Writes crates/vectors_tags/data/light: pictures of painted tags under uneven light and what the readers say of them, from the papers' words alone.

    python3 tools/light/vectors.py DIR/tag_families.rs [OUTPUT]

They are for 02's ticket 8; the original has nothing like it. The families' codes come from its file; nothing here reads or runs this
repository's code.

A frame is its length in two bytes and as many bytes, the first its kind; numbers have the low byte first. An answer is refusal u8, id u16, turn u8,
differing u8 and eight f32, all 0 behind a refusal. The kinds:

    0  picture: width u16, height u16, pixels; the frames behind it are of this picture
    1  reading: family u8, quad of eight f32, answer of the quad reader
    2  list: family u8, count u8, quads, answers of the list reader
    6  painted tag: family u8, word u64, x, y, cell, turn, light, dark, lit u8 each, the quad reader's answers to starts 0 to 3 on the picture;
       lit is 1 where the picture meets ticket 8's condition for this tag
"""
import math
import os
import re
import struct
import sys
from fractions import Fraction
from typing import NamedTuple

OUT = os.path.join(os.path.dirname(os.path.abspath(__file__)), "..", "..", "crates", "vectors_tags", "data", "light")
MASK = (1 << 64) - 1
BAND, UNSURE_ALLOWED, SPREAD = 10, 3, 50
# Edge, border and match threshold of document 01's families, and the name of their codes in the original.
FAMILIES = [(4, 2, 1, "T16H5"), (5, 2, 2, "T25H7"), (5, 2, 2, "T25H9"), (6, 2, 3, "T36H11"), (6, 1, 3, "T36H11")]


class Family(NamedTuple):
    number: int
    edge: int
    border: int
    threshold: int
    codes: list

    @property
    def side(self):
        return self.edge + 2 * self.border


class Print(NamedTuple):
    """What the painter is told."""

    family: Family
    word: int
    x: int
    y: int
    cell: int
    turn: int
    light: int
    dark: int

    @property
    def span(self):
        return self.family.side * self.cell


class Answer(NamedTuple):
    refusal: int
    id: int = 0
    turn: int = 0
    differing: int = 0
    corners: tuple = (0.0,) * 8

    def packed(self):
        return struct.pack("<BHBB8f", self.refusal, self.id, self.turn, self.differing, *self.corners)


class Picture:
    def __init__(self, width, height, level):
        """Every pixel from a function of its place."""
        self.width, self.height = width, height
        self.pixels = bytearray(level(x, y) for y in range(height) for x in range(width))

    def holds(self, x, y):
        return x < self.width and y < self.height

    def at(self, x, y):
        return self.pixels[y * self.width + x]

    def put(self, x, y, level):
        self.pixels[y * self.width + x] = level


class Numbers:
    def __init__(self, seed):
        self.last = seed

    def below(self, limit):
        x = self.last
        x ^= x << 13 & MASK
        x ^= x >> 7
        self.last = (x ^ x << 17) & MASK
        return (self.last >> 20) % limit

    def between(self, low, high):
        return low + self.below(high - low + 1)

    def noise(self, *_):
        return self.below(256)

    def some(self, things, count):
        """So many different ones of the things."""
        left = list(things)
        return [left.pop(self.below(len(left))) for _ in range(count)]


def families_of(path):
    with open(path) as file:
        original = file.read()
    families = []
    for number, (edge, border, threshold, name) in enumerate(FAMILIES):
        text = re.search(rf"{name}: \[u64; \d+\] = \[(.*?)\]", original, re.S)[1]
        families.append(Family(number, edge, border, threshold, [int(code, 16) for code in re.findall(r"0x(\w+)", text)]))
    return families


# The painter.


def module_shown(row, column, turn, side):
    """The print's row and column that stand at a row and column of the tag as it lies; the border is counted too.

    The print's first corner is upper left, upper right, lower right, lower left; rows run from it clockwise.
    """
    last = side - 1
    return [(row, column), (last - column, row), (last - row, last - column), (column, last - row)][turn]


def is_light(printed, x, y):
    """Whether the painter leaves this pixel light."""
    family = printed.family
    row, column = (y - printed.y) // printed.cell, (x - printed.x) // printed.cell
    if not (0 <= row < family.side and 0 <= column < family.side):
        return True
    i, j = (place - family.border for place in module_shown(row, column, printed.turn, family.side))
    if not (0 <= i < family.edge and 0 <= j < family.edge):
        return False
    return printed.word >> (family.edge**2 - 1 - (i * family.edge + j)) & 1 == 1


def painted(printed, width, height):
    """The painted plane; refusal 14 must let the print through."""
    assert printed.word >> printed.family.edge**2 == 0 and 1 <= printed.cell <= 64 and 0 <= printed.turn <= 3
    assert 0 <= printed.dark and printed.dark + 50 <= printed.light <= 255
    assert printed.x + printed.span + 1 <= width and printed.y + printed.span + 1 <= height
    return Picture(width, height, lambda x, y: printed.light if is_light(printed, x, y) else printed.dark)


def turned_left(quad, count):
    """Corner `count` comes first."""
    return quad[2 * count :] + quad[: 2 * count]


def reversed_corners(quad):
    return tuple(number for k in (3, 2, 1, 0) for number in quad[2 * k : 2 * k + 2])


def quad_of(printed):
    """The outer corners, clockwise from the print's first."""
    left, up = printed.x - 0.5, printed.y - 0.5
    right, low = left + printed.span, up + printed.span
    return turned_left((left, up, right, up, right, low, left, low), printed.turn)


def starts_of(printed):
    return [turned_left(quad_of(printed), s) for s in range(4)]


# The readers.


def half_away(value):
    """The nearest whole number, halves away from zero."""
    whole = math.floor(abs(value) + Fraction(1, 2))
    return whole if value >= 0 else -whole


def pixel(value):
    """The pixel of a coordinate: all negatives go to 0."""
    return max(0, half_away(Fraction(value)))


def module_places(family, quad):
    """The exact place of each sampled module, i outer, j inner."""
    side = family.side
    fine = [Fraction(half_away(Fraction(number) * 1024), 1024) for number in quad]
    axes = [(q0 + q1 + q2 + q3, q2 + q3 - q0 - q1, q1 + q2 - q0 - q3) for q0, q1, q2, q3 in (fine[0::2], fine[1::2])]
    inner = range(family.border, family.border + family.edge)
    return [
        tuple((s * side + (2 * i - side + 1) * a + (2 * j - side + 1) * b) / (4 * side) for s, a, b in axes)
        for i in inner
        for j in inner
    ]


def sampled_pixels(family, quad):
    return [(pixel(x), pixel(y)) for x, y in module_places(family, quad)]


def middle_of(levels):
    """Half of least plus greatest, halves up."""
    return (min(levels) + max(levels) + 1) // 2


def bits_of(levels):
    """A refusal or 0, and the word: the first level is the highest bit."""
    middle, word = middle_of(levels), 0
    if max(levels) - min(levels) < SPREAD:
        return 11, 0
    if sum(abs(level - middle) < BAND for level in levels) > UNSURE_ALLOWED:
        return 12, 0
    for level in levels:
        word = word << 1 | (level > middle)
    return 0, word


def turned(word, edge):
    """One turn puts at place i * edge + j the bit from place j * edge + edge - 1 - i."""
    return sum((word >> (j * edge + edge - 1 - i) & 1) << (i * edge + j) for i in range(edge) for j in range(edge))


def search(word, family):
    """The first turn whose fewest differing bits are below the match threshold: id, turn, differing; or None."""
    for turn in range(4):
        differing = [(word ^ code).bit_count() for code in family.codes]
        if min(differing) < family.threshold:
            return differing.index(min(differing)), turn, min(differing)
        word = turned(word, family.edge)
    return None


def read(picture, family, quad):
    """The quad reader."""
    if any(math.isnan(number) or abs(number) >= 16_384 for number in quad):
        return Answer(8)
    if not all(picture.holds(pixel(x), pixel(y)) for x, y in zip(quad[0::2], quad[1::2])):
        return Answer(9)
    places = sampled_pixels(family, quad)
    if not all(picture.holds(x, y) for x, y in places):
        return Answer(10)
    refusal, word = bits_of([picture.at(x, y) for x, y in places])
    if refusal:
        return Answer(refusal)
    found = search(word, family)
    if found is None:
        return Answer(13)
    return Answer(0, *found, reversed_corners(turned_left(quad, found[1])))


def read_list(picture, family, quads):
    """The list reader, with 02's ticket 4: quads that share an id are refused by 18."""
    answers = [read(picture, family, quad) for quad in quads]
    ids = [answer.id for answer in answers if answer.refusal == 0]
    return [Answer(18) if answer.refusal == 0 and ids.count(answer.id) > 1 else answer for answer in answers]


# Ticket 8.


def meets(levels, lights, middle):
    """Each dark module at least 10 below the middle, each light one at least 10 above."""
    return all(level >= middle + 10 if light else level <= middle - 10 for level, light in zip(levels, lights))


class Scene:
    """A print on a plane of some size: the pixels sampled there and whether each was painted light."""

    def __init__(self, printed, width, height):
        self.printed, self.width, self.height = printed, width, height
        plane = painted(printed, width, height)
        self.places = sampled_pixels(printed.family, quad_of(printed))
        self.lights = [plane.at(x, y) == printed.light for x, y in self.places]

    def levels(self, picture):
        return [picture.at(x, y) for x, y in self.places]

    def is_lit(self, picture):
        levels = self.levels(picture)
        return max(levels) - min(levels) >= 50 and meets(levels, self.lights, middle_of(levels))

    def lit_by_whole_middle(self, picture):
        """The verdict of one who takes the middle over the whole picture."""
        return meets(self.levels(picture), self.lights, middle_of(picture.pixels))

    def show(self, picture, levels):
        for (x, y), level in zip(self.places, levels):
            picture.put(x, y, level)

    def picture(self, levels, rest):
        """The levels at the sampled pixels and the rest's everywhere else."""
        picture = Picture(self.width, self.height, rest)
        self.show(picture, levels)
        return picture


def promised(printed):
    """The answers to the four starts that ticket 8 promises, if the word has a code near enough."""
    family = printed.family
    near = [(k, (printed.word ^ code).bit_count()) for k, code in enumerate(family.codes)]
    near = [(k, misprinted) for k, misprinted in near if misprinted < family.threshold]
    assert len(near) <= 1
    corners = reversed_corners(quad_of(printed))
    return [[Answer(0, k, (4 - s) % 4, misprinted, corners) for s in range(4)] for k, misprinted in near]


class Frames:
    """The frames of the file, and how many times others were put beside a painted tag's."""

    def __init__(self):
        self.frames, self.times = [], 0

    def picture(self, picture):
        self.frames.append(struct.pack("<BHH", 0, picture.width, picture.height) + bytes(picture.pixels))

    def readings(self, picture, family, quads):
        for quad in quads:
            self.frames.append(struct.pack("<BB8f", 1, family.number, *quad) + read(picture, family, quad).packed())

    def reading_of_list(self, picture, family, quads):
        assert len(quads) <= 31
        answers = read_list(picture, family, quads)
        packed = [struct.pack("<8f", *quad) for quad in quads] + [answer.packed() for answer in answers]
        self.frames.append(struct.pack("<BBB", 2, family.number, len(quads)) + b"".join(packed))
        return [answer.refusal for answer in answers]

    def tag(self, picture, scene, lit):
        """The painted tag's frame with the verdict, which is known beforehand; the answers come back."""
        printed = scene.printed
        answers = [read(picture, printed.family, quad) for quad in starts_of(printed)]
        verdict = scene.is_lit(picture)
        assert verdict == lit
        if verdict and promised(printed):
            assert [answers] == promised(printed)
        # On any plane the starts agree, but for the turn.
        first = answers[0]
        for s, answer in enumerate(answers):
            assert answer == (first if first.refusal else first._replace(turn=(first.turn - s) % 4))
        head = struct.pack("<BBQ7B", 6, printed.family.number, *printed[1:], verdict)
        self.frames.append(head + b"".join(answer.packed() for answer in answers))
        return answers

    def packed(self):
        return b"".join(struct.pack("<H", len(frame)) + frame for frame in self.frames)


# Words, places and levels.


def misprint(code, family, count, numbers):
    for place in numbers.some(range(family.edge**2), count):
        code ^= 1 << place
    return code


def scene_of(family, word, cell, turn, numbers, corner=False, shades=None):
    """A print of the word; in the upper left corner of a plane as small as can be, or anywhere with up to two pixels more around."""
    before_x, before_y, after_x, after_y = (0 if corner else numbers.below(3) for _ in range(4))
    dark = numbers.below(206)
    light = dark + 50 if corner else numbers.between(dark + 50, 255)
    printed = Print(family, word, before_x, before_y, cell, turn, *(shades or (light, dark)))
    return Scene(printed, before_x + printed.span + 1 + after_x, before_y + printed.span + 1 + after_y)


def any_scene(family, misprinted, cell, turn, numbers, corner=False):
    code = family.codes[numbers.below(len(family.codes))]
    return scene_of(family, misprint(code, family, misprinted, numbers), cell, turn, numbers, corner)


def only_just(lights, least, greatest, numbers):
    """One dark module at the least level, one light one at the greatest, the others 10 from the middle."""
    middle = (least + greatest + 1) // 2
    levels = [middle + 10 if light else middle - 10 for light in lights]
    levels[numbers.some([k for k, light in enumerate(lights) if not light], 1)[0]] = least
    levels[numbers.some([k for k, light in enumerate(lights) if light], 1)[0]] = greatest
    return levels


def spread_out(lights, least, greatest, numbers):
    """Anything from the least level to 10 below the middle, and from 10 above it to the greatest."""
    middle = (least + greatest + 1) // 2
    levels = only_just(lights, least, greatest, numbers)
    for k, light in enumerate(lights):
        if levels[k] not in (least, greatest):
            levels[k] = numbers.between(middle + 10, greatest) if light else numbers.between(least, middle - 10)
    return levels


def moved(levels, lights, light, count, distance, numbers):
    """So many of the light or of the dark modules moved to a distance above the middle; none of them is the least or greatest."""
    middle, levels = middle_of(levels), list(levels)
    for k in numbers.some([k for k, level in enumerate(levels) if lights[k] == light and min(levels) < level < max(levels)], count):
        levels[k] = middle + distance
    return levels


def f32_before(number):
    """The f32 next below a positive one."""
    bits = struct.unpack("<I", struct.pack("<f", number))[0]
    return struct.unpack("<f", struct.pack("<I", bits - 1))[0]


def refused_quads(picture, printed):
    """Quads beside a print's own that are refused, and the numbers."""
    quad = quad_of(printed)
    # The greatest f32 below half a pixel before the end: it rounds inside as given, and outside from the nearest 1/1024.
    ends = tuple(f32_before(end - 0.5) for end in (picture.width, picture.height))
    return [
        (8, quad[:5] + (math.nan,) + quad[6:]),
        (8, (-16_384.0,) + quad[1:]),
        (9, quad[:2] + (picture.width - 0.5,) + quad[3:]),
        (10, ends * 4),
        (11, (float(printed.x), float(printed.y)) * 4),
    ]


def also(out, picture, scene):
    """Readings and lists beside a painted tag, by turns: each start read, two starts in a list, a start between refused quads, a start alone."""
    family, starts = scene.printed.family, starts_of(scene.printed)
    times, kind = divmod(out.times, 4)
    out.times += 1
    s = times % 4
    if kind == 0:
        out.readings(picture, family, starts)
    elif kind == 1:
        refusals = out.reading_of_list(picture, family, [starts[s], starts[(s + 1 + times % 3) % 4]])
        assert refusals[0] == refusals[1] != 0
    elif kind == 2:
        refused = refused_quads(picture, scene.printed)
        (one, before), (other, behind) = refused[times % 5], refused[(times + 2) % 5]
        refusals = out.reading_of_list(picture, family, [before, starts[s], behind])
        assert refusals[0::2] == [one, other]
    else:
        out.reading_of_list(picture, family, [starts[s]])


# The groups of pictures.


def only_just_lit(out, families):
    """Least and greatest 50 apart, or 51 where their sum is to be odd, at both ends of the range and inside it."""
    numbers = Numbers(8_001)
    cells = [[1, 2, 1, 3], [2, 1, 1, 1], [1, 2, 1, 1], [1, 1, 1, 2], [3, 1, 1, 1]]
    for family in families:
        for turn, ends in enumerate([(0, 50), (205, 255), (0, 51), (204, 255)]):
            misprinted = (family.threshold - 1) * ((turn + family.number) % 2)
            scene = any_scene(family, misprinted, cells[family.number][turn], turn, numbers, corner=turn != 2)
            picture = scene.picture(only_just(scene.lights, *ends, numbers), numbers.noise)
            out.picture(picture)
            answer = out.tag(picture, scene, True)[0]
            assert answer.differing == misprinted
            if (turn + family.number) % 4 > 1:
                also(out, picture, scene)
    for number, ends in [(4, (100, 150)), (2, (0, 255))]:
        scene = any_scene(families[number], families[number].threshold // 2, 1, number % 4, numbers)
        picture = scene.picture(only_just(scene.lights, *ends, numbers), numbers.noise)
        out.picture(picture)
        out.tag(picture, scene, True)


def gradients(out, families):
    """Light that rises or falls along a row, along a column, diagonally; some dark module is lighter than the painted plane's light ones."""
    numbers = Numbers(8_002)
    ways = [lambda x, y: x, lambda x, y: y, lambda x, y: (x + y) / 2, lambda x, y: 1 - x, lambda x, y: 1 - y, lambda x, y: (x + 1 - y) / 2]
    for k, way in enumerate(ways + ways[:4]):
        family = families[k % 5]
        cell = 2 if k in (1, 4) else 1
        code = family.codes[-1 if k < 5 else numbers.below(len(family.codes))]
        word = misprint(code, family, (family.threshold - 1) * (k % 2), numbers)
        scene = scene_of(family, word, cell, (k + k // 4) % 4, numbers, shades=(k + 50, k))
        (left, up), (right, low) = min(scene.places), max(scene.places)
        rises = [way(Fraction(x - left, right - left), Fraction(y - up, low - up)) for x, y in scene.places]
        levels = [(165 if light else 5) + int(85 * rise) for light, rise in zip(scene.lights, rises)]
        assert max(level for level, light in zip(levels, scene.lights) if not light) > scene.printed.light
        picture = scene.picture(levels, numbers.noise)
        out.picture(picture)
        out.tag(picture, scene, True)
        also(out, picture, scene)


def random_levels(out, families):
    """Any levels that meet the condition."""
    numbers = Numbers(8_003)
    for k, cell in enumerate([1, 1, 1, 1, 2, 3, 1]):
        family = families[k % 5]
        least = 0 if k < 3 else numbers.below(206)
        greatest = 255 if k < 3 else numbers.between(least + 50, 255)
        scene = any_scene(family, numbers.below(family.threshold), cell, (k + k // 5) % 4, numbers, corner=k > 4)
        picture = scene.picture(spread_out(scene.lights, least, greatest, numbers), numbers.noise)
        out.picture(picture)
        out.tag(picture, scene, True)
        also(out, picture, scene)


def other_words(out, families):
    """Lit words that have no code near, or have one only after turns."""
    numbers = Numbers(8_013)
    for family in families:
        number, word = family.number, family.codes[numbers.below(len(family.codes))]
        for _ in range(number):
            word = turned(word, family.edge)
        if number in (0, 4):
            word = misprint(word, family, family.threshold, numbers)
        scene = scene_of(family, word, 1, number % 4, numbers, corner=True)
        picture = scene.picture(spread_out(scene.lights, 0, 255, numbers), numbers.noise)
        out.picture(picture)
        answer = out.tag(picture, scene, True)[0]
        assert answer.refusal == 13 if number in (0, 4) else answer.turn == 4 - number


def rest_of_picture(out, families):
    """The rest is the painted plane with its shades exchanged, or 0 for its light and 255 for its dark, or all 0, or all 255, or as painted."""
    numbers = Numbers(8_004)
    rests = {
        "exchanged": lambda printed, light: printed.dark if light else printed.light,
        "opposite": lambda printed, light: 0 if light else 255,
        "black": lambda printed, light: 0,
        "white": lambda printed, light: 255,
        "painted": lambda printed, light: printed.light if light else printed.dark,
    }
    cases = [
        (0, 4, 0, "exchanged", None),
        (1, 2, 1, "opposite", (60, 110)),
        (2, 2, 0, "black", (160, 210)),
        (3, 2, 3, "white", (44, 95)),
        (4, 2, 2, "exchanged", None),
        (4, 2, 1, "opposite", None),
        (0, 1, 2, "black", (205, 255)),
        (1, 1, 3, "white", (0, 50)),
        (3, 1, 0, "painted", None),
    ]
    for k, (number, cell, turn, rest, ends) in enumerate(cases):
        family = families[number]
        scene = any_scene(family, (family.threshold - 1) * (k % 2), cell, turn, numbers, corner=k % 3 != 1)
        printed = scene.printed
        flat = [printed.light if light else printed.dark for light in scene.lights]
        levels = only_just(scene.lights, *ends, numbers) if ends else flat
        picture = scene.picture(levels, lambda x, y: rests[rest](printed, is_light(printed, x, y)))
        out.picture(picture)
        out.tag(picture, scene, True)
        also(out, picture, scene)


def too_flat(out, families):
    """Everything 10 from the middle, but least and greatest only 49 apart; the last has four unsure modules too, and 11 comes first."""
    numbers = Numbers(8_005)
    for number, least in [(0, 0), (2, 206), (4, 31)]:
        scene = any_scene(families[number], 0, 1, number % 4, numbers, corner=number != 2)
        levels = only_just(scene.lights, least, least + 49, numbers)
        assert meets(levels, scene.lights, middle_of(levels))
        if number == 4:
            levels = moved(levels, scene.lights, True, 4, 9, numbers)
        picture = scene.picture(levels, numbers.noise)
        out.picture(picture)
        answer = out.tag(picture, scene, False)[0]
        assert answer.refusal == 11
        also(out, picture, scene)


def unsure_modules(out, families):
    """Some dark and some light modules 9 from the middle: with up to three the tag is still read, with four it is 12."""
    numbers = Numbers(8_015)
    for k, (dark, light) in enumerate([(1, 0), (3, 0), (4, 0), (0, 1), (0, 2), (0, 3), (0, 4), (2, 2)]):
        family = families[[4, 0, 1, 3, 4, 2, 0, 4][k]]
        scene = any_scene(family, (family.threshold - 1) * (k % 2), 2 if k == 1 else 1, k % 4, numbers, corner=k < 7)
        levels = only_just(scene.lights, *[(0, 51), (205, 255), (100, 151), (60, 110)][k % 4], numbers)
        levels = moved(levels, scene.lights, False, dark, -9, numbers)
        levels = moved(levels, scene.lights, True, light, 9, numbers)
        picture = scene.picture(levels, numbers.noise)
        out.picture(picture)
        answers = out.tag(picture, scene, False)
        assert answers[0].refusal == 12 if dark + light > 3 else [answers] == promised(scene.printed)
        also(out, picture, scene)


def wrong_sides(out, families):
    """Modules at the middle, which reads dark, or beyond it."""
    numbers = Numbers(8_025)
    # Family, light or dark modules, how many of them, their distance above the middle, modules misprinted, modules read as differing or None for 13.
    cases = [
        (4, False, 1, 0, 0, 0),
        (4, True, 1, 0, 0, 1),
        (0, True, 1, 0, 0, None),
        (1, True, 1, 0, 1, None),
        (2, False, 1, 1, 0, 1),
        (4, False, 2, 10, 0, 2),
        (4, False, 3, 10, 0, None),
        (3, True, 2, -10, 0, 2),
        (2, True, 1, -10, 1, None),
        (0, False, 1, 25, 0, None),
        (4, True, 1, -17, 1, 2),
    ]
    for k, (number, light, count, distance, misprinted, differing) in enumerate(cases):
        code = families[number].codes[numbers.below(len(families[number].codes))]
        # The misprinted module is a dark one, so that no light module moved is the misprinted one.
        scene = scene_of(families[number], code & code - 1 if misprinted else code, 1, (k + k // 4) % 4, numbers, corner=k % 4 != 1)
        levels = moved(only_just(scene.lights, 16 * k, 16 * k + 50, numbers), scene.lights, light, count, distance, numbers)
        picture = scene.picture(levels, numbers.noise)
        out.picture(picture)
        answer = out.tag(picture, scene, False)[0]
        assert (answer.refusal, answer.differing) == ((13, 0) if differing is None else (0, differing))
        if k % 3 == 0:
            also(out, picture, scene)


def negatives(out, families):
    """Every module exchanged; a misprinted module shown as its code has it; words of one shade alone, which no light makes lit."""
    numbers = Numbers(8_035)
    for number in (0, 3):
        scene = any_scene(families[number], 0, 1, 1 + number % 2, numbers, corner=True)
        picture = scene.picture(only_just([not light for light in scene.lights], 90, 160, numbers), numbers.noise)
        out.picture(picture)
        answer = out.tag(picture, scene, False)[0]
        assert answer.refusal == 13
    code = families[4].codes[77]
    scene = scene_of(families[4], code ^ 1 << 21, 1, 2, numbers, corner=True)
    mended = Scene(scene.printed._replace(word=code), scene.width, scene.height)
    picture = scene.picture(only_just(mended.lights, 1, 52, numbers), numbers.noise)
    out.picture(picture)
    answer = out.tag(picture, scene, False)[0]
    assert answer.differing == 0
    for word in (0, (1 << 16) - 1):
        scene = scene_of(families[0], word, 1, 3, numbers, corner=True)
        picture = scene.picture([numbers.noise() for _ in scene.lights], numbers.noise)
        out.picture(picture)
        out.tag(picture, scene, False)


def whole_middles(out, families):
    """The middle over the whole picture says otherwise. Two that it alone would call lit, and two that it would not, though they are."""
    numbers = Numbers(8_045)

    def one_glares(lights, common):
        levels = [common if light else 100 for light in lights]
        levels[lights.index(True)] = 200
        return levels

    cases = [
        (4, lambda lights: one_glares(lights, 121), (0, 220), False, 13),
        (2, lambda lights: moved(one_glares(lights, 160), lights, True, 1, 9, numbers), (20, 240), False, 0),
        (0, lambda lights: only_just(lights, 0, 60, numbers), (0, 255), True, 0),
        (3, lambda lights: only_just(lights, 190, 241, numbers), (0, 255), True, 0),
    ]
    for k, (number, levels_for, (low, high), lit, refusal) in enumerate(cases):
        scene = any_scene(families[number], families[number].threshold // 2, 1, k, numbers)
        picture = scene.picture(levels_for(scene.lights), lambda x, y: numbers.between(low, high))
        # No tag reaches the last column.
        picture.put(scene.width - 1, 0, low)
        picture.put(scene.width - 1, 1, high)
        out.picture(picture)
        assert scene.lit_by_whole_middle(picture) != lit
        answer = out.tag(picture, scene, lit)[0]
        assert answer.refusal == refusal
        also(out, picture, scene)


def sheet_of(family, rows, columns, cell, turn, place, shades):
    """Prints of the table's first codes with a gap of one cell: the lower left is position 0, numbers rise along a row and then upward."""
    step = (family.side + 1) * cell
    prints = []
    for position in range(rows * columns):
        up, across = divmod(position, columns)
        x, y = place[0] + across * step, place[1] + (rows - 1 - up) * step
        prints.append(Print(family, family.codes[position], x, y, cell, turn, *shades))
    width, height = place[0] + columns * step - cell + 1, place[1] + rows * step - cell + 1
    return [Scene(printed, width, height) for printed in prints]


def sheet_frames(out, picture, scenes, lit):
    """The tags of a sheet, each also read at one start, a list of all at mixed starts, and one in which the first and the last stand twice."""
    family, starts = scenes[0].printed.family, [starts_of(scene.printed) for scene in scenes]
    out.picture(picture)
    answers = [out.tag(picture, scene, position in lit)[0] for position, scene in enumerate(scenes)]
    out.readings(picture, family, [of_tag[k % 4] for k, of_tag in enumerate(starts)])
    refusals = out.reading_of_list(picture, family, [of_tag[(3 * k + 1) % 4] for k, of_tag in enumerate(starts)])
    ids = [answer.id for answer in answers if answer.refusal == 0]
    assert refusals == [18 if answer.refusal == 0 and ids.count(answer.id) > 1 else answer.refusal for answer in answers]
    out.reading_of_list(picture, family, [starts[0][1], starts[-1][0], starts[1][3], starts[0][2], starts[-1][0]])
    return answers


def slanted_sheets(out, families):
    """Light that rises over a whole painted sheet; a dark module of one tag is lighter than a light module of another."""
    cases = [
        (0, 2, 2, 1, 0, (0, 0), 8, 0),
        (3, 2, 3, 1, 1, (0, 0), 4, 3),
        (4, 2, 2, 1, 2, (3, 1), 0, -7),
    ]
    for number, rows, columns, cell, turn, place, slope_x, slope_y in cases:
        dark = 180 if slope_y < 0 else 2
        scenes = sheet_of(families[number], rows, columns, cell, turn, place, (dark + 75, dark))

        def level(x, y):
            light = all(is_light(scene.printed, x, y) for scene in scenes)
            return min(255, max(0, dark + 75 * light + slope_x * x + slope_y * y))

        picture = Picture(scenes[0].width, scenes[0].height, level)
        levels = [(level, light) for scene in scenes for level, light in zip(scene.levels(picture), scene.lights)]
        assert max(level for level, light in levels if not light) > min(level for level, light in levels if light)
        answers = sheet_frames(out, picture, scenes, range(rows * columns))
        assert [answer.id for answer in answers] == list(range(rows * columns))


def mixed_sheets(out, families):
    """Sheets in noise; each tag is lit in its own way, or is negative, too flat, unsure or noise, or shows the code of another position."""
    numbers = Numbers(8_006)

    def levels_of(scene, way):
        lights, least = scene.lights, numbers.below(205)
        if way == "lit":
            return numbers.some([only_just, spread_out], 1)[0](lights, least, least + 50 + numbers.below(2), numbers)
        if way == "negative":
            return only_just([not light for light in lights], least, least + 50, numbers)
        if way == "flat":
            return only_just(lights, least, least + 49, numbers)
        if way == "unsure":
            return moved(only_just(lights, least, least + 51, numbers), lights, True, 4, 9, numbers)
        if way == "noise":
            return [numbers.noise() for _ in lights]
        other = scene.printed._replace(word=scene.printed.family.codes[way])
        return only_just(Scene(other, scene.width, scene.height).lights, least, least + 50, numbers)

    cases = [
        (0, 2, 2, 2, 1, (0, 0), ["lit", "lit", "lit", "lit"]),
        (4, 3, 2, 1, 3, (1, 0), ["noise", "noise", "noise", "lit", "noise", "noise"]),
        (2, 2, 2, 1, 2, (0, 0), ["lit", "negative", "flat", "unsure"]),
        (1, 2, 3, 1, 0, (2, 1), ["lit", 0, "lit", "negative", 29, "flat"]),
    ]
    for number, rows, columns, cell, turn, place, ways in cases:
        scenes = sheet_of(families[number], rows, columns, cell, turn, place, (200, 100))
        picture = Picture(scenes[0].width, scenes[0].height, numbers.noise)
        for scene, way in zip(scenes, ways):
            scene.show(picture, levels_of(scene, way))
        sheet_frames(out, picture, scenes, [position for position, way in enumerate(ways) if way == "lit"])


def check_examples(families):
    """Document 01's own examples."""
    assert turned(0x231B, 4) == 0x7D01 and turned(0x7D01, 4) == 0xD8C4 and turned(0xD8C4, 4) == 0x80BE
    assert search(0x231B, families[0]) == (0, 0, 0) and search(0x7D01, families[0]) == (0, 3, 0) and search(0x231A, families[0]) is None
    assert bits_of([0, 50])[0] == 0 and bits_of([0, 49])[0] == 11 and middle_of([0, 51]) == 26
    assert bits_of([0, 51, 17, 35, 17])[0] == 0 and bits_of([0, 51, 17, 35, 17, 35])[0] == 12 and bits_of([0, 51, 16, 36, 16, 36])[0] == 0
    quad = (0.5, 0.5, 16.5, 0.5, 16.5, 16.5, 0.5, 16.5)
    assert module_places(families[0], quad)[0] == (5.5, 5.5) and sampled_pixels(families[0], quad)[0] == (6, 6)


def main(path, output=OUT):
    families, out = families_of(path), Frames()
    check_examples(families)
    groups = [only_just_lit, gradients, random_levels, other_words, rest_of_picture]
    groups += [too_flat, unsure_modules, wrong_sides, negatives, whole_middles, slanted_sheets, mixed_sheets]
    for group in groups:
        group(out, families)
    assert len(out.packed()) <= 65_536
    with open(output, "wb") as file:
        file.write(out.packed())


main(*sys.argv[1:3])
