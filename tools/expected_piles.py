#!/usr/bin/env python3
"""Prints what the program `piles` must write, from lists that are made here in other ways.

    python3 tools/expected_piles.py > crates/piles/stdout

It wants sympy, for plain changes and for a second look at binary Gray codes.
Nothing in it reads the program or what the program writes."""

from dataclasses import dataclass
from itertools import combinations, permutations, product
from math import comb

from sympy.combinatorics import Permutation
from sympy.combinatorics.graycode import GrayCode
from sympy.utilities.iterables import generate_bell


@dataclass(frozen=True)
class Pile:
    name: str
    width: int
    steady: bool
    rows: list


def ladder(rungs):
    return Pile(f"(ladder {rungs})", 1, True, [(value,) for value in range(rungs)])


def gray(*radices):
    """A value is counted down behind an odd sum and up behind an even one; in that count the rows rise."""

    def count(row):
        return [radices[k] - 1 - v if sum(row[:k]) % 2 else v for k, v in enumerate(row)]

    rows = sorted(product(*map(range, radices)), key=count)
    if set(radices) == {2}:
        assert ["".join(map(str, row)) for row in rows] == list(GrayCode(len(radices)).generate_gray())
    return Pile(f"(gray {' '.join(map(str, radices))})", len(radices), True, rows)


def door(n, t):
    """Revolving-door order by rank: with the ones at c_t > .. > c_1, counted from the right end at 0, the rank is
    C(c_t + 1, t) - C(c_(t-1) + 1, t - 1) + .., less 1 where t is odd (which shifts all alike)."""

    def rank(ones):
        return sum((-1) ** (t - k) * comb(c + 1, k) for k, c in enumerate(ones, start=1))

    chosen = sorted(combinations(range(n), t), key=rank)
    assert sorted(rank(ones) - t % 2 for ones in chosen) == list(range(comb(n, t)))
    rows = [tuple(int(n - 1 - k in ones) for k in range(n)) for ones in chosen]
    return Pile(f"(door {n} {t})", n, True, rows)


def changes(n):
    """sympy has plain changes twice, and both begin with the values in rising order and move the highest one to the
    left first: for n = 3 both give 012 021 201 210 120 102, which is the order and the direction wanted here."""
    rows = [tuple(row) for row in generate_bell(n)]
    assert rows == [tuple(Permutation.unrank_trotterjohnson(n, k).array_form) for k in range(len(rows))]
    if n == 3:
        assert rows == [(0, 1, 2), (0, 2, 1), (2, 0, 1), (2, 1, 0), (1, 2, 0), (1, 0, 2)]
    return Pile(f"(changes {n})", n, True, rows)


def choose(n, t):
    rows = sorted(row for row in product((0, 1), repeat=n) if sum(row) == t)
    return Pile(f"(choose {n} {t})", n, False, rows)


def stock(t, *stocks):
    rows = [row for row in product(*(range(most + 1) for most in stocks)) if sum(row) == t]
    return Pile(f"(stock {' '.join(map(str, stocks))} sum {t})", len(stocks), False, rows)


def words(*counts):
    letters = [value for value, count in enumerate(counts) for _ in range(count)]
    rows = sorted(set(permutations(letters)))
    return Pile(f"(words {' '.join(map(str, counts))})", len(letters), False, rows)


def reverse(pile):
    return Pile(f"(reverse {pile.name})", pile.width, pile.steady, pile.rows[::-1])


def part(first, end, pile):
    assert 0 <= first <= end <= len(pile.rows)
    return Pile(f"(part {first}..{end} {pile.name})", pile.width, pile.steady, pile.rows[first:end])


def odometer(left, right):
    rows = [l + r for l, r in product(left.rows, right.rows)]
    return Pile(f"(odometer {left.name} {right.name})", left.width + right.width, False, rows)


def swing(left, right):
    """The rows of the odometer, with each stretch of one left row turned where that row's label is odd."""
    rows = []
    for label, row in enumerate(left.rows):
        stretch = [row + other for other in right.rows]
        rows += reversed(stretch) if label % 2 else stretch
    name = f"(swing {left.name} {right.name})"
    return Pile(name, left.width + right.width, left.steady and right.steady, rows)


PILES = [
    part(2, 9, reverse(swing(gray(3, 2), door(3, 1)))),
    swing(reverse(changes(3)), part(1, 4, gray(2, 2))),
    odometer(ladder(3), reverse(swing(ladder(2), choose(3, 2)))),
    part(5, 17, reverse(odometer(changes(3), swing(door(3, 2), ladder(2))))),
    swing(door(4, 2), swing(changes(3), gray(2))),
    odometer(words(2, 1), stock(2, 2, 1, 1)),
    part(3, 4, reverse(ladder(255))),
    reverse(swing(ladder(0), changes(2))),
]


def change(row, following):
    places = [place for place, (a, b) in enumerate(zip(row, following)) if a != b]
    return f"{places[0]}-{places[-1]}"


def show(pile):
    assert len(set(pile.rows)) == len(pile.rows)
    assert all(len(row) == pile.width for row in pile.rows)
    neighbours = list(zip(pile.rows, pile.rows[1:]))
    if pile.steady:
        assert all(sum(a != b for a, b in zip(*pair)) <= 2 for pair in neighbours)
    print(f"{pile.name[1:-1]}: {len(pile.rows)} rows of {pile.width}, {'steady' if pile.steady else 'not steady'}")
    print("label,row")
    for label, row in enumerate(pile.rows):
        print(f"{label},{' '.join(map(str, row))}")
    if neighbours:
        print("changes:", *(change(*pair) for pair in neighbours))


if __name__ == "__main__":
    for pile in PILES:
        show(pile)
