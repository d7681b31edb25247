#!/usr/bin/env python3
"""Writes crates/vectors_reports/data: readings written as reports, and reports read again, from the words of 02's ticket 7 alone.

    python3 tools/report/vectors.py

Nothing here reads or runs this repository's code. tools/oracle/README.md has the format of the files.
A reading is two lists: numbers, four a row (refusal, id, turn, differing modules), and the bit patterns of corner numbers, eight a row.
"""
import pathlib
import struct

OUT = pathlib.Path(__file__).resolve().parents[2] / "crates/vectors_reports/data"
MASK = (1 << 64) - 1
REFUSALS = [8, 9, 10, 11, 12, 13, 18]


# What document 02 says.


def passes(pattern):
    """Whether refusal 8 lets a corner number through: no NaN, and of magnitude below 16,384."""
    return abs(struct.unpack("<f", struct.pack("<I", pattern))[0]) < 16_384


def rows_of(numbers, corners):
    return [(numbers[4 * q : 4 * q + 4], corners[8 * q : 8 * q + 8]) for q in range(len(numbers) // 4)]


def is_reading(numbers, corners):
    """Whether whole rows, with eight corner numbers each, are such a reading."""
    ids = [row[1] for row, _ in rows_of(numbers, corners) if row[0] == 0]
    if len(set(ids)) < len(ids):
        return False
    for (refusal, id, turn, differing), own in rows_of(numbers, corners):
        if refusal == 0 and not (id < 1_024 and turn <= 3 and differing <= 63 and all(map(passes, own))):
            return False
        if refusal != 0 and not (refusal in REFUSALS and id == turn == differing == 0 and not any(own)):
            return False
    return True


def report_of(numbers, corners):
    """The report of a reading."""
    report = struct.pack("<H", len(numbers) // 4)
    for (refusal, id, turn, differing), own in rows_of(numbers, corners):
        if refusal != 0:
            report += bytes([16, refusal])
            continue
        report += bytes([1 + 2 * (turn != 0) + 4 * (differing != 0) + 8]) + struct.pack("<H", id)
        report += bytes([turn] if turn else []) + bytes([differing] if differing else []) + struct.pack("<8I", *own)
    return report


def write(numbers, corners, room):
    """The refusal, 0 where there is none, and the report, empty where there is one."""
    if len(numbers) // 4 > 1_024:
        return 19, b""
    if len(numbers) % 4 != 0 or len(corners) != 2 * len(numbers) or not is_reading(numbers, corners):
        return 20, b""
    report = report_of(numbers, corners)
    return (0, report) if len(report) <= room else (19, b"")


class Bytes:
    """The bytes of a report, taken from the front. Where there are too few, `missing` is set and zeros are taken."""

    def __init__(self, report):
        self.left, self.missing = report, False

    def take(self, form):
        size = struct.calcsize("<" + form)
        self.missing = self.missing or len(self.left) < size
        part, self.left = self.left[:size].ljust(size, b"\0"), self.left[size:]
        return struct.unpack("<" + form, part)


def reading_of(report):
    """The reading of at least two bytes, or None where nothing writes them."""
    source, met, numbers, corners = Bytes(report), set(), [], []
    for _ in range(source.take("H")[0]):
        map_byte = source.take("B")[0]
        if map_byte == 16:
            refusal = source.take("B")[0]
            if not (8 <= refusal <= 13 or refusal == 18):
                return None
            numbers += [refusal, 0, 0, 0]
            corners += 8 * [0]
        elif map_byte in [9, 11, 13, 15]:
            id = source.take("H")[0]
            turn = source.take("B")[0] if map_byte & 2 else None
            differing = source.take("B")[0] if map_byte & 4 else None
            own = source.take("8I")
            if id >= 1_024 or id in met or turn == 0 or differing == 0 or (turn or 0) > 3 or (differing or 0) > 63 or not all(map(passes, own)):
                return None
            met.add(id)
            numbers += [0, id, turn or 0, differing or 0]
            corners += own
        else:
            return None
    return None if source.missing or source.left else (numbers, corners)


def read(report, rows_room, corners_room):
    """The refusal, 0 where there is none, and the reading, empty where there is one."""
    if len(report) < 2:
        return 20, [], []
    if struct.unpack("<H", report[:2])[0] > 1_024:
        return 19, [], []
    reading = reading_of(report)
    if reading is None:
        return 20, [], []
    numbers, corners = reading
    assert is_reading(numbers, corners) and report_of(numbers, corners) == report
    if rows_room < len(numbers) or corners_room < len(corners):
        return 19, [], []
    return 0, numbers, corners


# Readings by a rule, and the digest.


def next_number(x):
    x ^= x << 13 & MASK
    x ^= x >> 7
    return (x ^ x << 17) & MASK


def drawn(seed, k):
    return next_number(next_number(next_number((seed + k) & MASK)))


def number_by_rule(seed, k):
    """Number k of the rows of a reading: about one row in eight is refused, and about every second has no differing modules."""
    q, x = k // 4, drawn(seed, k // 4)
    if x % 8 == 0:
        return [REFUSALS[x // 8 % 7], 0, 0, 0][k % 4]
    return [0, (389 * q + seed) % 1_024, x // 8 % 4, x // 64 % 64 * (x // 32 % 2)][k % 4]


def corner_by_rule(seed, k):
    """Corner number k: zero in a refused row, else any that passes."""
    if drawn(seed, k // 8) % 8 == 0:
        return 0
    x = drawn(seed ^ MASK, k)
    return (x >> 32) % 0x4680_0000 + x % 2 * 0x8000_0000


def by_rule(seed, length, corner_length):
    return [number_by_rule(seed, k) for k in range(length)], [corner_by_rule(seed, k) for k in range(corner_length)]


def digest_of(data):
    digest = 0xCBF29CE484222325
    for byte in data:
        digest = (digest ^ byte) * 0x100000001B3 & MASK
    return digest


def packed(numbers, corners):
    return struct.pack(f"<{len(numbers)}Q{len(corners)}I", *numbers, *corners)


# Frames.


class Writing:
    """Readings to be written: 1 number by number, 2 by the rule."""

    def __init__(self):
        self.frames = []

    def frame(self, kind, numbers, corners, room, given):
        refusal, report = write(numbers, corners, room)
        digest = digest_of(report) if refusal == 0 else 0
        if refusal == 0:
            assert reading_of(report) == (numbers, corners)
        self.frames.append(struct.pack("<BBHQHHH", kind, refusal, len(report), digest, len(numbers), len(corners), room) + given)
        return refusal

    def each(self, numbers, corners, room):
        return self.frame(1, numbers, corners, room, packed(numbers, corners))

    def rows(self, *rows):
        """Whole rows, with some room to spare."""
        return self.each(*joined(rows), 40 * len(rows) + 5)

    def rooms(self, *rows):
        """A reading with no room, half, one byte too few, just enough, and more."""
        size = len(report_of(*joined(rows)))
        wanted = {0: 19, size // 2: 19, size - 1: 19, size: 0, size + 1: 0, size + 50: 0}
        for room, refusal in wanted.items():
            assert self.each(*joined(rows), room) == refusal

    def by_rule(self, seed, rows, room, more=(0, 0), number=(65_535, 0), corner=(65_535, 0)):
        """By the rule, with `more` numbers and corner numbers than the rows have, and one of each another; a place past the end is none."""
        numbers, corners = by_rule(seed, 4 * rows + more[0], 8 * rows + more[1])
        for values, (place, value) in [(numbers, number), (corners, corner)]:
            if place < len(values):
                values[place] = value
        return self.frame(2, numbers, corners, room, struct.pack("<QHQHI", seed, *number, *corner))


class Reading:
    """Reports to be read: 3 as they are, 4 damaged in many ways."""

    def __init__(self):
        self.frames = []

    def each(self, report, rows_room=None, corners_room=None):
        """With two rows' room more than the first two bytes say, where nothing else is asked for."""
        rows = min(struct.unpack("<H", report[:2].ljust(2, b"\0"))[0], 1_024)
        rows_room = 4 * rows + 8 if rows_room is None else rows_room
        corners_room = 8 * rows + 16 if corners_room is None else corners_room
        refusal, numbers, corners = read(report, rows_room, corners_room)
        digest = digest_of(packed(numbers, corners)) if refusal == 0 else 0
        self.frames.append(struct.pack("<BBHQHH", 3, refusal, len(numbers) // 4, digest, rows_room, corners_room) + report)
        return refusal

    def rooms(self, report):
        """With no room, one number too few, just enough, and more, of either output."""
        rows = struct.unpack("<H", report[:2])[0]
        for rows_room in sorted({0, max(4 * rows, 1) - 1, 4 * rows, 4 * rows + 1, 4 * rows + 9}):
            for corners_room in sorted({0, max(8 * rows, 1) - 1, 8 * rows, 8 * rows + 1, 8 * rows + 17}):
                wanted = 0 if rows_room >= 4 * rows and corners_room >= 8 * rows else 19
                assert self.each(report, rows_room, corners_room) == wanted

    def damaged(self, skipped, report):
        """At each place, the end included, stands each byte, instead of as many bytes as are skipped. Returns how many are reports."""
        answers, reports = b"", 0
        for place in range(len(report) + 1):
            for byte in range(256):
                damaged = report[:place] + bytes([byte]) + report[place + skipped :]
                refusal, numbers, corners = read(damaged, 32, 64)
                answers += struct.pack("<BBQ", refusal, len(numbers) // 4, digest_of(packed(numbers, corners)) if refusal == 0 else 0)
                reports += refusal == 0
        self.frames.append(struct.pack("<BBHQB", 4, 0, reports, digest_of(answers), skipped) + report)
        return reports


# Rows.

CORNERS = [0x4144_0000, 0x4208_8000, 0xC2F6_E979, 0x3F80_0000, 0x0000_0000, 0xBF00_0001, 0x4000_0000, 0x4640_E6B7]


def joined(rows):
    return [number for row, _ in rows for number in row], [corner for _, own in rows for corner in own]


def tag(id, turn=0, differing=0, corners=CORNERS, refusal=0):
    return [refusal, id, turn, differing], list(corners)


def tag_with(place, pattern, id=7):
    return tag(id, corners=CORNERS[:place] + [pattern] + CORNERS[place + 1 :])


def refused(refusal, id=0, turn=0, differing=0, corners=8 * [0]):
    return tag(id, turn, differing, corners, refusal)


# Numbers whose low byte, two bytes or four bytes alone would pass where small numbers are asked for, and the greatest.
MUCH = [256, 1 << 16, 1 << 32, (1 << 32) + 1, 1 << 63, MASK]
# Patterns that pass: zeros, subnormal numbers, the least normal ones, the greatest below 16,384.
PASS = [0x0000_0000, 0x0000_0001, 0x0040_0000, 0x007F_FFFF, 0x0080_0000, 0x3F80_0000, 0x467F_FFFE, 0x467F_FFFF]
# Those that do not: 16,384 and on, the greatest, infinity, and NaN.
FAIL = [0x4680_0000, 0x4680_0001, 0x46FF_FFFF, 0x4700_0000, 0x7F7F_FFFF, 0x7F80_0000, 0x7F80_0001, 0x7FBF_FFFF, 0x7FC0_0000, 0x7FFF_FFFF]
NEGATIVE = 0x8000_0000
SIGNED = [(pattern + sign, pattern in PASS) for pattern in PASS + FAIL for sign in [0, NEGATIVE]]
# The seed of a reading by the rule whose 1,024th row is a tag.
LONG = 0x7005
MAPS = {9: tag(300), 11: tag(300, 2), 13: tag(300, 0, 5), 15: tag(300, 3, 63), 16: refused(11)}
MIXED = [refused(18), tag(5, 1, 2), refused(8), tag(0), tag(1_023, 3, 63), refused(13)]


def written_rows(vectors):
    """Single rows: every field at its limits."""
    accepted, no = 0, 20
    for row in MAPS.values():
        vectors.rooms(row)
    for id in [0, 1, 255, 256, 257, 1_023]:
        assert vectors.rows(tag(id)) == accepted
    for id in [1_024, 1_025, 1_279, 65_535, 65_536 + 5, *MUCH[1:], (1 << 32) + 1_023]:
        assert vectors.rows(tag(id)) == no
    for turn in range(4):
        for differing in [0, 1, 62, 63]:
            assert vectors.rows(tag(511, turn, differing)) == accepted
    for turn in [4, 5, 255, *MUCH, (1 << 32) + 3]:
        assert vectors.rows(tag(511, turn, 1)) == no
    for differing in [64, 65, 127, 255, *MUCH, (1 << 32) + 63]:
        assert vectors.rows(tag(511, 1, differing)) == no
    for refusal in [*range(1, 33), 64, 254, 255, *MUCH, 256 + 8, (1 << 32) + 9, (1 << 63) + 18]:
        assert vectors.rows(refused(refusal)) == (accepted if refusal in REFUSALS else no)
    # A refusal of 0 is none: such a row is tag 0 with all corners at the origin.
    assert vectors.rows(refused(0)) == accepted
    for more in [1, 3, 256, 1 << 32, 1 << 63]:
        for row in [refused(9, id=more), refused(9, turn=more), refused(9, differing=more)]:
            assert vectors.rows(row) == no
    # A tag with a refusal, which is neither.
    assert vectors.rows(tag(7, refusal=18)) == no and vectors.rows(tag(0, refusal=8)) == no


def written_corners(vectors):
    """Corner numbers at their limits, in tags and in refused rows, at each place."""
    for place in range(8):
        for pattern, good in SIGNED if place in [0, 7] else [(0x8000_0000, True), (0xC67F_FFFF, True), (0x4680_0000, False), (0x7FC0_0000, False)]:
            assert vectors.rows(tag_with(place, pattern)) == (0 if good else 20)
        for pattern in [0x8000_0000, 0x0000_0001, 0x3F80_0000] + ([0x7FC0_0000, 0xFF80_0000] if place in [0, 7] else []):
            corners = place * [0] + [pattern] + (7 - place) * [0]
            assert vectors.rows(refused(10, corners=corners)) == 20
    assert vectors.rows(tag(1, corners=8 * [NEGATIVE])) == 0
    assert vectors.rows(tag(1, corners=[1, 2, NEGATIVE + 3, 0x007F_FFFF, NEGATIVE + 0x007F_FFFF, NEGATIVE, 0, NEGATIVE + 1])) == 0
    # A bad corner in the last row alone, in the first alone.
    assert vectors.rows(tag(1), tag(2), tag_with(7, 0x7FC0_0000, 3)) == 20 and vectors.rows(tag_with(0, 0xC680_0000, 3), tag(2), refused(8)) == 20


def written_lists(vectors):
    """No row, several rows, repeated ids, and what is not whole."""
    accepted, no = 0, 20
    assert [vectors.each([], [], room) for room in [0, 1, 2, 3, 40]] == [19, 19, 0, 0, 0]
    vectors.rooms(*MIXED)
    vectors.rooms(*(tag(id, id % 4, id) for id in range(4)))
    assert vectors.rows(*(refused(number) for number in REFUSALS)) == accepted
    assert vectors.rows(*(refused(18) for _ in range(9))) == accepted
    # An id stands in one unrefused row. The 0 that refused rows have there is none.
    assert vectors.rows(tag(0), refused(18), refused(18)) == accepted and vectors.rows(refused(18), tag(0)) == accepted
    assert vectors.rows(tag(0), refused(18), tag(0)) == no and vectors.rows(tag(0), tag(0)) == no
    for id in [1, 255, 256, 1_023]:
        assert vectors.rows(tag(id), tag(2, 3), tag(id, 1)) == no and vectors.rows(tag(id), tag(id ^ 1), tag(id ^ 256 & 1_023)) == accepted
    assert vectors.rows(tag(5, 0, 1), tag(6, 0, 2), refused(13), tag(7), tag(6, 1)) == no
    # One bad row among good ones, at each place.
    for place in range(3):
        for bad in [refused(7), refused(14), tag(1_024), tag(9, 4), tag(9, 0, 64), refused(12, corners=7 * [0] + [NEGATIVE])]:
            assert vectors.rows(*MIXED[:place], bad, *MIXED[place:2]) == no
    # Rows that are not whole, and corner numbers that are too few or too many.
    numbers, corners = joined(MIXED)
    for length in [1, 2, 3, 5, 6, 7, 9, 23]:
        for corner_length in sorted({0, 8 * (length // 4), 8 * (length // 4 + 1)}):
            assert vectors.each(numbers[:length], corners[:corner_length], 300) == no
    for length, corner_length in [(0, 1), (0, 7), (0, 8), (4, 0), (4, 7), (4, 9), (4, 16), (8, 8), (8, 15), (8, 17), (24, 47), (24, 40)]:
        assert vectors.each(numbers[:length], corners[:corner_length], 300) == no
    # What is no reading is 20 whatever the room.
    for rows in [[tag(1_024)], [refused(7)], [tag(3), tag(3)], [refused(8, corners=7 * [0] + [NEGATIVE])]]:
        for room in [0, 1, 2, 3]:
            assert vectors.each(*joined(rows), room) == no
    assert vectors.each(numbers[:5], corners[:8], 0) == no and vectors.each(numbers[:4], corners[:7], 1) == no


def written_long(vectors):
    """1,023, 1,024, 1,025 rows by the rule."""
    for rows in [9, 100, 1_023, 1_024]:
        for seed in [0x7001, 0x7003]:
            size = len(report_of(*by_rule(seed, 4 * rows, 8 * rows)))
            assert [vectors.by_rule(seed, rows, room) for room in [0, 2, size - 1, size, size + 1, 40_000]] == [19, 19, 19, 0, 0, 0]
    # 1,024 rows with one number changed: the last row is a tag, and its id becomes that of the first tag, which is 20, or one that no tag has.
    numbers, _ = by_rule(LONG, 4_096, 0)
    tag_row, lost = numbers[::4].index(0), next(q for q in range(1_024) if numbers[4 * q] != 0)
    first, free = numbers[4 * tag_row + 1], (389 * lost + LONG) % 1_024
    assert numbers[-4] == 0 and vectors.by_rule(LONG, 1_024, 40_000, number=(4_093, first)) == 20 and vectors.by_rule(LONG, 1_024, 40_000, number=(4_093, free)) == 0
    assert vectors.by_rule(LONG, 1_024, 40_000, number=(4 * tag_row + 1, numbers[-3])) == 20 and vectors.by_rule(LONG, 1_024, 40_000, number=(4_093, 1_024)) == 20
    # The refusal of the last row, and that of a refused row.
    assert vectors.by_rule(LONG, 1_024, 40_000, number=(4_092, 18)) == 20 and vectors.by_rule(LONG, 1_024, 40_000, number=(4 * lost, 12)) == 0
    # The last corner number, and that of a refused row.
    assert [vectors.by_rule(LONG, 1_024, 40_000, corner=(8_191, pattern)) for pattern in [NEGATIVE, 0x7FC0_0000]] == [0, 20]
    assert [vectors.by_rule(LONG, 1_024, room, corner=(8 * lost + 7, NEGATIVE)) for room in [40_000, 0]] == [20, 20]
    # 1,025 rows are too many, whatever they are, whole or not, and whatever the corner numbers and the room.
    for more in [(0, 0), (1, 0), (3, 8), (0, -1), (0, 1), (0, -8_200)]:
        for room in [40_000, 0]:
            assert vectors.by_rule(LONG, 1_025, room, more) == 19
            assert vectors.by_rule(LONG, 1_025, room, more, number=(4_092, MASK), corner=(0, 0x7FC0_0000)) == 19
    assert vectors.by_rule(LONG, 1_025, 40_000, number=(4_096, 18)) == 19 and vectors.by_rule(LONG, 1_026, 65_535) == 19
    # 1,024 rows and one, two or three numbers are not.
    for more in [(1, 0), (2, 0), (3, 0), (3, 8), (0, -1), (0, 1), (0, 8), (0, -8), (0, -8_192)]:
        assert [vectors.by_rule(LONG, 1_024, room, more) for room in [40_000, 0]] == [20, 20]


def drawn_rows(vectors):
    """Readings of one to four rows, most with one thing changed."""
    x = 0x7010
    for case in range(60):
        numbers, corners = [], []
        for _ in range(1 + case % 4):
            x = next_number(x)
            row, own = refused(REFUSALS[x // 8 % 7]) if x % 4 == 0 else tag(x // 8 % 4, x // 32 % 4, x // 128 % 64 * (x // 8_192 % 2))
            numbers, corners = numbers + row, corners + own
        x = next_number(x)
        if x % 3 == 1:
            numbers[x // 4 % len(numbers)] = [0, 1, 2, 3, 4, 8, 18, 63, 64, 1 << 63][x // 256 % 10]
        if x % 3 == 2:
            corners[x // 4 % len(corners)] = [NEGATIVE, 1, 0x467F_FFFF, 0xC680_0000, 0xFFC0_0000][x // 256 % 5]
        vectors.each(numbers, corners, 40 * len(numbers))


def read_rows(vectors):
    """Single rows: maps, and every field at its limits."""

    def row(map_byte, id=300, turn=2, differing=5, corners=CORNERS, refusal=11):
        """A row with the fields that the map says, and no others."""
        fields = [struct.pack("<H", id), bytes([turn]), bytes([differing]), struct.pack("<8I", *corners), bytes([refusal])]
        return b"\1\0" + bytes([map_byte]) + b"".join(field for bit, field in enumerate(fields) if map_byte >> bit & 1)

    for map_byte in [*range(33), 41, 48, 73, 137, 144, 255]:
        assert vectors.each(row(map_byte)) == (0 if map_byte in MAPS else 20)
    # A byte missing, a byte too many.
    assert vectors.each(b"\1\0\x10") == 20 and vectors.each(row(9)[:-1]) == 20 and vectors.each(row(9) + b"\0") == 20
    # A field that is there is not 0.
    assert [vectors.each(row(11, turn=turn)) for turn in [0, 1, 3, 4, 128, 255]] == [20, 0, 0, 20, 20, 20]
    assert [vectors.each(row(13, differing=differing)) for differing in [0, 1, 63, 64, 128, 255]] == [20, 0, 0, 20, 20, 20]
    assert [vectors.each(row(15, turn=turn, differing=differing)) for turn, differing in [(0, 5), (2, 0), (0, 0), (3, 63), (4, 63), (3, 64)]] == 3 * [20] + [0, 20, 20]
    for map_byte in [9, 11, 13, 15]:
        assert [vectors.each(row(map_byte, id=id)) for id in [0, 255, 256, 1_023, 1_024, 1_280, 65_535]] == 4 * [0] + 3 * [20]
    for refusal in [*range(33), 128 + 8, 255]:
        assert vectors.each(row(16, refusal=refusal)) == (0 if refusal in REFUSALS else 20)
    for place in [0, 3, 7]:
        for pattern, good in SIGNED:
            assert vectors.each(row(9, corners=CORNERS[:place] + [pattern] + CORNERS[place + 1 :])) == (0 if good else 20)


def read_lists(vectors):
    """Few bytes, numbers of rows, repeated ids, and room."""
    for report in [b"", b"\0", b"\1", b"\xff"]:
        assert vectors.each(report) == 20 and vectors.each(report, 0, 0) == 20
    for rows in [0, 1, 2, 255, 256, 1_023, 1_024, 1_025, 1_026, 1_280, 2_048, 32_768, 65_535]:
        wanted = 0 if rows == 0 else 20 if rows <= 1_024 else 19
        assert vectors.each(struct.pack("<H", rows)) == wanted and vectors.each(struct.pack("<H", rows), 0, 0) == wanted
        assert vectors.each(struct.pack("<H", rows) + b"\0") == (19 if rows > 1_024 else 20)
    for row in MAPS.values():
        vectors.rooms(report_of(*joined([row])))
    vectors.rooms(b"\0\0")
    mixed = report_of(*joined(MIXED))
    vectors.rooms(mixed)
    # A bad report is 20 whatever the room.
    for bad in [mixed[:-1], mixed + b"\0", b"\1\0\x10\x07", b"\1\0\x11\x0b", b"\5" + mixed[1:], b"\7" + mixed[1:]]:
        assert [vectors.each(bad, *rooms) for rooms in [(100, 200), (0, 0), (0, 200), (100, 0), (4, 8)]] == 5 * [20]
    for ids in [(3, 3), (3, 4), (0, 0), (1_023, 1_023), (255, 511), (3, 4, 3), (3, 4, 4), (3, 259, 515)]:
        report = struct.pack("<H", len(ids)) + b"".join(report_of(*joined([tag(id, id % 4)]))[2:] for id in ids)
        assert vectors.each(report) == (0 if len(set(ids)) == len(ids) else 20)
    lost = report_of(*joined([refused(18)]))[2:]
    assert vectors.each(b"\3\0" + lost + report_of(*joined([tag(0)]))[2:] + lost) == 0


def read_long(vectors):
    """About 1,024 rows, of which most are refused, so that a report has few bytes."""

    def report(rows, *parts):
        return struct.pack("<H", rows) + b"".join(parts)

    lost, one, other = (report_of(*joined([row]))[2:] for row in [refused(18), tag(513, 1), tag(514, 0, 9)])
    for rows in [1_023, 1_024]:
        good = report(rows, one, (rows - 2) * lost, other)
        rooms = [(4 * rows, 8 * rows), (4 * rows + 4, 8 * rows + 8), (4 * rows - 1, 8 * rows), (4 * rows, 8 * rows - 1)]
        assert [vectors.each(good, *room) for room in rooms] == [0, 0, 19, 19]
    assert vectors.each(report(1_024, 1_024 * lost)) == 0 and vectors.each(report(1_025, 1_025 * lost)) == 19
    # An id twice, far apart; a row too many, one too few; a byte too many, one too few; another number of rows.
    bad = [report(1_024, one, 1_022 * lost, one), report(1_024, 1_025 * lost), report(1_024, 1_023 * lost), good + b"\0", good[:-1], b"\xff\3" + good[2:]]
    assert [vectors.each(report) for report in bad] == 6 * [20]
    assert vectors.each(bad[0], 0, 0) == 20


def read_damaged(vectors):
    """Small reports: with a byte put in, with a byte changed, with two bytes replaced by one, and cut behind that."""
    lists = [[], *([row] for row in MAPS.values()), [refused(18), tag(1, 0, 1), refused(8)], [tag(2), tag(3, 1, 1), tag(258)], [refused(number) for number in REFUSALS]]
    for report in (report_of(*joined(rows)) for rows in lists):
        reports = [vectors.damaged(skipped, report) for skipped in [0, 1, 2, 255]]
        assert reports[1] >= len(report) and reports[3] >= 1


def save(name, frames):
    data = b"".join(struct.pack("<H", len(frame)) + frame for frame in frames)
    assert len(data) <= 65_536
    (OUT / name).write_bytes(data)


if __name__ == "__main__":
    OUT.mkdir(parents=True, exist_ok=True)
    writing, reading = Writing(), Reading()
    for part in [written_rows, written_corners, written_lists, written_long, drawn_rows]:
        part(writing)
    for part in [read_rows, read_lists, read_long, read_damaged]:
        part(reading)
    save("writing", writing.frames)
    save("reading", reading.frames)
