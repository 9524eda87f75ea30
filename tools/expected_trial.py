#!/usr/bin/env python3
"""Writes what the program trial is run on, and what it must write: a week of calls on the book of a trial of 216 rows, and
the answers that the rules give. The calls and the answers come from the simulation in reference.py, not from the library. Run it
in the repository's root.
"""
import itertools, random

from reference import Trial, changes, door, gray, join, show

random = random.Random(216)
PLAN = open('examples/bracket.plan', 'rb').read()
ROWS = join(gray([3, 2]), join(door(4, 2), changes(3), True), True)
assert PLAN == b'kind,n,t,list\ngray,2,-,3 2\ndoor,4,2,-\nchanges,3,-,-\n'
assert sorted(ROWS) == sorted(a + b + c for a in itertools.product(range(3), range(2)) for b in itertools.product(range(2), repeat=4)
    if sum(b) == 2 for c in itertools.permutations(range(3)))
assert len(ROWS) == 216

# -- the week ------------------------------------------------------------------------------------------------------------
t = Trial(PLAN, ROWS)
say = t.say
say('open 5')
book = t.book
def take(i): say(f'take {i}')
def printed(i, row=None): say(f'printed {i} {show(ROWS[book.hands[i]] if row is None else row)}')

say('# Monday: five printers, one row each')
say('counts')
for i in range(5): take(i)
say('take 2')
say('take 5')
say('take 4294967295')
say('counts')
printed(0)
say(f'printed 0 {show(ROWS[0])}')
say('spoiled 0')
printed(1, ROWS[0])
printed(1, ROWS[book.hands[1]][:-1] + (7,))
printed(1, ROWS[book.hands[1]][:-1])
printed(1, ROWS[book.hands[1]] + (0,))
say('printed 1')
printed(1)
say('spoiled 2')
say('spoiled 3')
say('spoiled 9')
say('counts')
say('')
say('# lookups, and lines that are no calls')
for l in (0, 23, 24, 107, 215, 216, 4294967295): say(f'row {l}')
for l in (0, 1, 47, 108, 215): say(f'label {show(ROWS[l])}')
for row in ((3,) + ROWS[0][1:], ROWS[0][:-1], [255] * 9, [0] * 80): say(f'label {show(row)}')
say('label')
for line in ('pause', 'open 5', 'open', 'take', 'take  1', 'take 1 ', ' take 1', 'take 01', 'take -1', 'take +1', 'take 1 2', 'Take 1',
             'take 4294967296', 'take 10000000000', 'take 1x', 'row', 'row 00', 'row 4294967296', 'label 256', 'label 0 0  0', 'label ',
             'label 0 0 0 1 2 03', 'printed', 'printed ', 'printed x', 'printed 4 1000', 'printed 1,0', 'spoiled', 'spoiled 1 1', 'counts ',
             'counts 1', 'close 1', 'closed', 'take 1\r', ' # no comment', '\xff\xfe'):
    say(line)
say('# a comment in bytes that are no UTF-8: \xff\xfe')
say('close')

def work(until, spoil):
    """Works in random order, until so many rows are on the bench."""
    while len(book.bench) < until:
        i = random.randrange(5)
        if book.hands[i] is None: take(i)
        elif random.random() < spoil: say(f'spoiled {i}')
        elif random.random() < 0.04: printed(i, random.choice(ROWS))
        else: printed(i)
for day, until, spoil in (('Tuesday', 50, 0.05), ('Wednesday', 95, 0.1), ('Thursday', 140, 0)):
    say('')
    say(f'# {day}')
    work(until, spoil)
    say('counts')
    say('close')

say('')
say('# Friday: printer 3 alone, which first empties its own lane and then helps the others')
while len(book.bench) < 205:
    if book.hands[3] is None: take(3)
    printed(3)
say('counts')
say('# the others have the rest')
work(213, 0)
for i in (4, 0, 1, 2, 3):
    if book.hands[i] is None: take(i)
held = [i for i in range(5) if book.hands[i] is not None]
say('counts')
say(f'spoiled {held[0]}')
say(f'spoiled {held[1]}')
say('counts')
take(held[1])
take(held[0])
take(held[0])
say('close')
for i in range(5):
    if book.hands[i] is not None: printed(i)
take(2)
say('spoiled 2')
say('counts')
say('close')
say('# closing changes nothing')
say('close')
say('take 0')
say('row 100')

assert len(book.bench) == 216 and sorted(book.bench) == sorted(ROWS)
told = b'\n'.join(t.write)
for n in (4, 6, 7, 8, 9, 10, 11, 12): assert b'refused %d,' % n in told, n
for path in ('crates/trial/stdin', 'examples/bracket.trial'):
    open(path, 'wb').write(b'\n'.join(t.read) + b'\n')
open('crates/trial/stdout', 'wb').write(told + b'\n')
