#!/usr/bin/env python3
"""Runs the programs lister and trial on random plans and random days of calls, and compares what they write with reference.py.

    python3 tools/compare_random.py [START [PLANS [DAYS]]]

START is where the random numbers begin. Build both programs first, by `rt run` in their folders. It is no part of the gate. It
tells how many of each outcome came, and stops at the first difference."""
import subprocess, sys
from collections import Counter
from random import Random

from reference import Fault, Huge, Trial, listing, plan_of, show, told

START, PLANS, DAYS = map(int, sys.argv[1:] + ['1', '2000', '1000'][len(sys.argv) - 1:])
random = Random(START)

KINDS = 'digits', 'gray', 'choose', 'door', 'stock', 'words', 'changes'
ODD_NUMBERS = '00', '01', '1000', '', '-', '+1', ' 1', '32', '33', '255', '256', '999'
ODD_BYTES = b'\n ,-0123456789\r\xff'

def perhaps(chance): return random.random() < chance

def number(most): return random.choice(ODD_NUMBERS) if perhaps(.02) else str(random.randint(0, most))

def part():
    kind = random.choice(KINDS) if perhaps(.98) else random.choice(('Gray', 'grays', '', ' gray', 'digit'))
    n = random.choice((0, 1, 2, 2, 3, 3, 4)) if perhaps(.93) else random.choice((5, 12, 13, 32, 33))
    least, most = {'stock': (0, 3), 'words': (0, 2)}.get(kind, (1, 4))
    entries = n if perhaps(.95) else max(0, n + random.choice((-1, 1)))
    values = ' '.join(number(most) if perhaps(.1) else str(random.randint(least, most)) for _ in range(entries))
    if (kind in ('choose', 'door', 'changes') or n == 0) and perhaps(.97): values = '-'
    t = number(4) if (kind in ('choose', 'door', 'stock')) == perhaps(.98) else '-'
    return f"{kind},{n if perhaps(.97) else number(9)},{t},{values}\n"

def damaged(text, chance):
    """The text with some bytes changed, dropped or put in."""
    text = bytearray(text)
    while text and perhaps(chance):
        place = random.randrange(len(text))
        text[place:place + random.choice((0, 1, 1))] = bytes(random.sample(ODD_BYTES, random.choice((0, 1, 1))))
    return bytes(text)

def plan(chance):
    parts = random.choice((1, 1, 2, 2, 3, 3, 3)) if perhaps(.97) else random.choice((0, 4, 5))
    return damaged(('kind,n,t,list\n' + ''.join(part() for _ in range(parts))).encode(), chance)

def call(trial):
    """A line that makes a call, mostly one that is accepted."""
    book = trial.book
    printer = random.randrange(len(book.hands) + perhaps(.02))
    held = book.hands[printer] if printer < len(book.hands) else None
    some = random.choice(trial.rows) if trial.rows and perhaps(.9) else tuple(random.choices(range(3), k=random.randrange(6)))
    if perhaps(.1): return random.choice(('counts', 'close', f'row {random.randrange(len(trial.rows) + 2)}', 'label ' + show(some)))
    if held is None and perhaps(.95): return f'take {printer}'
    if perhaps(.15): return f'spoiled {printer}'
    row = trial.rows[held] if held is not None and perhaps(.95) else some
    return f'printed {printer} ' + show(row)

def day(text):
    """What trial is to read and to write: a book on the plan, and calls until after it is closed or there are enough."""
    if not text.endswith(b'\n'): text += b'\n'  # so that the opening stands on a line of its own
    try: rows = plan_of(text)
    except Fault as fault: return text + b'open 3\ntake 0\n', told(fault).encode(), 'a fault'
    trial = Trial(text, rows)
    trial.say(f'open {random.choice((1, 2, 3, 4, 5, 9, 16)) if perhaps(.95) else random.choice((0, 17, "x", ""))}')
    for _ in range(random.choice((20, 60, 300)) if trial.book else 3):
        line = call(trial) if trial.book else 'counts'
        trial.say(damaged(line.encode(), .02).replace(b'\n', b''))
    trial.say('close')
    done = 'no book' if trial.book is None else 'closed' if len(trial.book.bench) == len(rows) else 'still open'
    return b'\n'.join(trial.read) + b'\n', b'\n'.join(trial.write) + b'\n', done

def compare(program, given, expected):
    run = subprocess.run([f'crates/{program}/out/{program}'], input=given, capture_output=True)
    if (run.stdout, run.returncode) != (expected, 0):
        sys.exit(f'{program} differs on\n{given}\nexpected\n{expected}\nand wrote, with status {run.returncode},\n{run.stdout}')

def main():
    seen = Counter()
    for _ in range(PLANS):
        text = plan(.12)
        try: expected = listing(text)
        except Huge: continue
        compare('lister', text, expected.encode())
        seen['rows' if expected[0] == 'l' else ' '.join(expected.split('\n')[1].split(',')[::2])] += 1
    for _ in range(DAYS):
        try: given, expected, done = day(plan(.01))
        except Huge: continue
        compare('trial', given, expected)
        seen['day: ' + done] += 1
    print(', '.join(f'{count} {what}' for what, count in sorted(seen.items())))

main()
