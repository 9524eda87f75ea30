#!/usr/bin/env python3
"""Writes what the program bench must write where it tells no times: numbers of rows by the formulas of the literature (a
product, binomials, a factorial), every label looked up and found again, and as many rows printed as there are, up to 100,000.
Run it in the repository's root."""
import math

TURNS = 100_000
GRAY = ('gray,31,-,' + ' '.join(['2'] * 4 + ['1'] * 27), 2 ** 4), ('gray,31,-,' + ' '.join(['2'] * 31), 2 ** 31)
DOOR = ('door,32,2,-', math.comb(32, 2)), ('door,32,16,-', math.comb(32, 16))
WORDS = ('words,2,-,31 1', math.comb(32, 1)), ('words,2,-,16 16', math.comb(32, 16))
CHANGES = ('changes,6,-,-', math.factorial(6)), ('changes,12,-,-', math.factorial(12))

with open('crates/bench/stdout', 'w') as out:
    for part, rows in GRAY + DOOR + WORDS + CHANGES:
        printed = min(rows, TURNS)
        out.write(f'{part}: {rows} rows, {TURNS} of {TURNS} found again')
        out.write(''.join(f', {printed} of {printed} printed by {k}' for k in (1, 16)) + '\n')
