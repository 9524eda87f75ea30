"""The rules once more in plain Python, which shares nothing with the library: the rows of kinds and joins, what a plan text gives,
what the lister writes of it, a book, and what the program trial writes of a day. Rows are made as whole lists, so it is for small
plans. expected_trial.py and compare_random.py use it."""
import itertools, math

MOST = 4294967295

# -- rows ----------------------------------------------------------------------------------------------------------------
def digits(radices): return list(itertools.product(*map(range, radices)))

def gray(radices):
    if not radices: return [()]
    rest = gray(radices[1:])
    return [(a,) + r for a in range(radices[0]) for r in (rest[::-1] if a % 2 else rest)]

def choose(n, t): return [r for r in itertools.product((0, 1), repeat=n) if sum(r) == t]

def door(n, t):
    if t > n: return []
    if t == 0 or t == n: return [(0,) * n if t == 0 else (1,) * n]
    return [(0,) + r for r in door(n - 1, t)] + [(1,) + r for r in door(n - 1, t - 1)[::-1]]

def stock(stocks, t): return [r for r in itertools.product(*(range(s + 1) for s in stocks)) if sum(r) == t]

def words(counts): return sorted(set(itertools.permutations([v for v, c in enumerate(counts) for _ in range(c)])))

def changes(n):
    if n == 0: return [()]
    rows = []
    for k, row in enumerate(changes(n - 1)):
        places = range(n) if k % 2 else range(n - 1, -1, -1)
        rows += [row[:p] + (n - 1,) + row[p:] for p in places]
    return rows

def join(first, second, swing):
    return [a + b for k, a in enumerate(first) for b in (second[::-1] if swing and k % 2 else second)]

def show(row): return ' '.join(map(str, row))

# -- plan texts ----------------------------------------------------------------------------------------------------------
class Fault(Exception):
    """A number, a line and a layer."""

class Huge(Exception):
    """More rows than are made as a list here."""

LISTED = 20_000  # the most rows that are made as a list
STEADY = ('gray', 'door', 'changes')

class Part:
    """A line of a plan, with the number of its rows by a formula."""
    def __init__(self, line, number):
        try: self.fields(line)
        except ValueError: raise Fault(14, number, 'text')
        if not self.fits(): raise Fault(1, number, 'part')
        self.size, self.width = self.count(), sum(self.list) if self.kind == 'words' else self.n
        if self.size > MOST: raise Fault(2, number, 'part')

    def fields(self, line):
        kind, n, t, values = line.split(b',')
        self.kind = kind.decode('latin-1')
        if self.kind not in ('digits', 'gray', 'choose', 'door', 'stock', 'words', 'changes'): raise ValueError
        self.n, self.t, self.list = small(n), None, []
        if self.kind in ('choose', 'door', 'stock'): self.t = small(t)
        elif t != b'-': raise ValueError
        if self.n and self.kind not in ('choose', 'door', 'changes'): self.list = [small(v) for v in values.split(b' ')]
        elif values != b'-': raise ValueError

    def fits(self):
        listed = len(self.list) == self.n <= 32
        if self.kind in ('digits', 'gray'): return listed and all(1 <= r <= 255 for r in self.list)
        if self.kind == 'stock': return listed and self.t <= 32 and all(s <= 32 for s in self.list)
        if self.kind == 'words': return listed and sum(self.list) <= 32
        return self.n <= 32 and (self.t or 0) <= 32

    def count(self):
        if self.kind in ('digits', 'gray'): return math.prod(self.list)
        if self.kind in ('choose', 'door'): return math.comb(self.n, self.t)
        if self.kind == 'words': return math.factorial(sum(self.list)) // math.prod(map(math.factorial, self.list))
        if self.kind == 'changes': return math.factorial(self.n)
        ways = [1] + [0] * self.t
        for s in self.list: ways = [sum(ways[u - v] for v in range(min(s, u) + 1)) for u in range(self.t + 1)]
        return ways[self.t]

    def rows(self):
        tried = {'choose': 2 ** self.n, 'stock': math.prod(s + 1 for s in self.list), 'words': math.factorial(sum(self.list))}
        if max(self.size, tried.get(self.kind, 0)) > LISTED: raise Huge
        rows = {'digits': lambda: digits(self.list), 'gray': lambda: gray(self.list), 'choose': lambda: choose(self.n, self.t),
                'door': lambda: door(self.n, self.t), 'stock': lambda: stock(self.list, self.t), 'words': lambda: words(self.list),
                'changes': lambda: changes(self.n)}[self.kind]()
        assert len(rows) == self.size
        return rows

def small(digits):
    """A number of one to three digits."""
    if len(digits) > 3: raise ValueError
    return number(digits)

def number(digits, most=MOST):
    if not digits or set(digits) - set(b'0123456789') or len(digits) > 1 and digits[:1] == b'0' or int(digits) > most:
        raise ValueError
    return int(digits)

def plan_of(text):
    """The rows of a plan text; raises its first fault."""
    lines = text.split(b'\n')
    if len(text) > 4096 or lines.pop() or not 2 <= len(lines) <= 4: raise Fault(15, 0, 'text')
    if lines[0] != b'kind,n,t,list': raise Fault(13, 1, 'text')
    parts = [Part(line, k) for k, line in enumerate(lines[1:], 2)]
    parts += [Part(b'gray,0,-,-', 0)] * (3 - len(parts))
    width, size = parts[2].width, parts[2].size
    for k in (1, 0):
        width, size = width + parts[k].width, size * parts[k].size
        if width > 64: raise Fault(3, k + 2, 'join')
        if size > MOST: raise Fault(2, k + 2, 'join')
    if size > LISTED: raise Huge
    first, second, third = (part.rows() for part in parts)
    swing = all(part.kind in STEADY for part in parts)
    return join(first, join(second, third, swing), swing)

def told(fault): return 'number,line,layer\n%d,%d,%s\n' % fault.args

def listing(text):
    """What the lister writes of a plan text."""
    try: rows = plan_of(text)
    except Fault as fault: return told(fault)
    return 'label,row\n' + ''.join(f'{label},{show(row)}\n' for label, row in enumerate(rows[:1000]))

# -- the book ------------------------------------------------------------------------------------------------------------
class Refused(Exception):
    """The number of a refusal."""

class Book:
    def __init__(self, rows, printers):
        if not 1 <= printers <= 16: raise Refused(7)
        n = len(rows)
        self.rows = rows
        self.lanes = [list(range(i * n // printers, (i + 1) * n // printers)) for i in range(printers)]
        self.hands = [None] * printers
        self.waiting, self.bench = [], []
    def hand(self, i):
        if i >= len(self.hands): raise Refused(7)
        if self.hands[i] is None: raise Refused(10)
        return self.hands[i]
    def take(self, i):
        if i >= len(self.hands): raise Refused(7)
        if self.hands[i] is not None: raise Refused(8)
        if self.waiting: label = self.waiting.pop(0)
        elif self.lanes[i]: label = self.lanes[i].pop(0)
        else:
            longest = max(self.lanes, key=len)
            if not longest: raise Refused(9)
            label = longest.pop()
        self.hands[i] = label
        return label
    def label(self, row):
        if row not in self.rows: raise Refused(6)
        return self.rows.index(row)
    def row(self, label):
        if label >= len(self.rows): raise Refused(4)
        return self.rows[label]
    def printed(self, i, row):
        label = self.hand(i)
        if self.label(row) != label: raise Refused(11)
        self.hands[i] = None
        self.bench.append(row)
        return label
    def spoiled(self, i):
        label = self.hand(i)
        self.hands[i] = None
        self.waiting.append(label)
        return label
    def counts(self):
        return [len(self.bench), sum(h is not None for h in self.hands), len(self.waiting), sum(map(len, self.lanes))]
    def close(self):
        if len(self.bench) < len(self.rows): raise Refused(12)
        return len(self.rows)

# -- a day of calls ------------------------------------------------------------------------------------------------------
def answer(book, line):
    """The answer and the row to a line, as two texts."""
    word, *fields = line.split(b' ')
    def lone():
        [field] = fields
        return number(field)
    def scanned(some): return tuple(number(f, 255) for f in some)
    if word == b'take':
        label = book.take(lone())
        return str(label), show(book.rows[label])
    if word == b'printed':
        if not fields: raise ValueError
        printer, row = number(fields[0]), scanned(fields[1:])
        return str(book.printed(printer, row)), ''
    if word == b'spoiled': return str(book.spoiled(lone())), ''
    if word == b'row':
        label = lone()
        return str(label), show(book.row(label))
    if word == b'label': return str(book.label(scanned(fields))), ''
    if word == b'counts' and not fields: return show(book.counts()), ''
    if word == b'close' and not fields: return str(book.close()), ''
    raise ValueError

class Trial:
    """A plan text and the rows that it gives, and then lines that are said: what the program reads, and what it writes."""
    def __init__(self, text, rows):
        self.rows, self.book, self.over = rows, None, False
        self.read, self.write = [text.removesuffix(b'\n')], [b'call,answer,row']
    def say(self, line):
        if isinstance(line, str): line = line.encode('latin-1')
        self.read.append(line)
        if not line or self.over: return
        if line.startswith(b'#'):
            self.write.append(line)
            return
        try:
            if self.book is None:
                self.over = True
                _, k = line.split(b' ')
                self.book = Book(self.rows, number(k))
                self.over = False
                told, row = str(len(self.rows)), ''
            else: told, row = answer(self.book, line)
        except Refused as refused: told, row = f'refused {refused}', ''
        except ValueError: told, row = 'unknown', ''
        self.write.append(line + f',{told},{row}'.encode())
