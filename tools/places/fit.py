#!/usr/bin/env python3
"""Compares document 01's formula for sample places with an exact least-squares fit.

The original fits an affine map from the corners of the square of modules, (-1/2, -1/2), (-1/2, side - 1/2), (side - 1/2, side - 1/2),
(side - 1/2, -1/2) at margin 0.5, to the quad's corners, by least squares, and takes module (i, j) to the map's value there. Here the
normal equations are solved in fractions, with no rounding, for x and y each, and the places of all modules are compared with

    (S * side + (2i - side + 1) * A + (2j - side + 1) * B) / (4 * side)

for every edge 1 to 8 and border 1 to 4 and many quads: random, dented, degenerate, on and off the 1/1024 grid. It prints the counts.
"""
import random
from fractions import Fraction


def solve(matrix, right):
    """The solution of a regular system, by elimination in fractions."""
    n = len(matrix)
    rows = [row[:] + [b] for row, b in zip(matrix, right)]
    for c in range(n):
        pivot = next(r for r in range(c, n) if rows[r][c] != 0)
        rows[c], rows[pivot] = rows[pivot], rows[c]
        rows[c] = [v / rows[c][c] for v in rows[c]]
        for r in range(n):
            if r != c and rows[r][c] != 0:
                rows[r] = [v - rows[r][c] * w for v, w in zip(rows[r], rows[c])]
    return [row[n] for row in rows]


def fitted(side, values):
    """The least-squares map (a, b, c), value = a * i + b * j + c, of four corner values."""
    low, high = Fraction(-1, 2), side - Fraction(1, 2)
    source = [(low, low), (low, high), (high, high), (high, low)]
    a = [[x, y, Fraction(1)] for x, y in source]
    normal = [[sum(r[i] * r[j] for r in a) for j in range(3)] for i in range(3)]
    right = [sum(r[i] * v for r, v in zip(a, values)) for i in range(3)]
    return solve(normal, right)


def formula(side, q, i, j):
    s = sum(q)
    a = q[2] + q[3] - q[0] - q[1]
    b = q[1] + q[2] - q[0] - q[3]
    return (s * side + (2 * i - side + 1) * a + (2 * j - side + 1) * b) / (4 * side)


def quads(rng):
    for _ in range(40):
        yield [Fraction(rng.randint(-4096 * 1024, 16383 * 1024), 1024) for _ in range(4)]
    for _ in range(20):
        yield [Fraction(rng.randint(-10**9, 10**9), rng.randint(1, 10**6)) for _ in range(4)]
    yield [Fraction(0)] * 4
    yield [Fraction(7)] * 4
    yield [Fraction(0), Fraction(16), Fraction(16), Fraction(0)]
    yield [Fraction(0), Fraction(16), Fraction(3), Fraction(0)]


def main():
    rng = random.Random(1)
    compared = differ = 0
    for edge in range(1, 9):
        for border in range(1, 5):
            side = edge + 2 * border
            for q in quads(rng):
                a, b, c = fitted(side, q)
                for i in range(border, border + edge):
                    for j in range(border, border + edge):
                        compared += 1
                        differ += a * i + b * j + c != formula(side, q, i, j)
    print(f"{compared} places compared, {differ} differ")


main()
