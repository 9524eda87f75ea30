#!/usr/bin/env python3
"""Writes what the programs samples and lister are run on, and what they must write: plan texts with rows and faults that
were not made by the library. And the rows beside each plan of examples/.

Rows come from itertools (products, permutations, combinations), from sympy (Trotter-Johnson ranks), from rank formulas of
the literature (mixed-radix Gray codes, the revolving door), and from printed tables. Run it in the repository's root.
"""
import itertools, math, random
from sympy.combinatorics import Permutation

random = random.Random(7)
NAMES = 'kind,n,t,list~'
lines, plans, rows, faults = [], 0, 0, 0

def text(*parts): return NAMES + ''.join(p + '~' for p in parts)

def walk(parts, claims):
    global plans, rows
    plans += 1
    rows += len(claims)
    lines.append('|'.join([text(*parts)] + claims))

def fault(raw, told):
    global faults
    faults += 1
    lines.append(raw + '|' + told)

def show(row): return ' '.join(map(str, row))
def claims_of(listed, steady, some=12):
    out = [f'size:{len(listed)}', f'steady:{steady}']
    labels = range(len(listed)) if len(listed) <= 24 else sorted(random.sample(range(len(listed)), some) + [0, len(listed) - 1])
    return out + [f'{i}:{show(listed[i])}' for i in dict.fromkeys(labels)]

# -- lists by other means ------------------------------------------------------------------------------------------------
def digits(radices): return list(itertools.product(*[range(r) for r in radices]))

def gray_row(radices, label):
    # modular place values, and a digit turned round where the number in front of it is odd (mixed-radix reflected code)
    row, front = [], 0
    for i, r in enumerate(radices):
        below = math.prod(radices[i + 1:])
        d = label // below % r
        row.append(r - 1 - d if front % 2 else d)
        front = front * r + d
    return tuple(row)
def gray(radices): return [gray_row(radices, k) for k in range(math.prod(radices))]

def choose(n, t): return sorted(r for r in itertools.product((0, 1), repeat=n) if sum(r) == t)

def door_rank(row):
    # Knuth 7.2.1.3, the rank of a combination c_t > .. > c_1 in revolving-door order; c_j counts places from the right
    c = sorted(len(row) - 1 - i for i, v in enumerate(row) if v)
    t = len(c)
    return sum((-1) ** (t - j) * (math.comb(c[j - 1] + 1, j) - 1) for j in range(t, 0, -1)) if t else 0
def door(n, t):
    listed = choose(n, t)
    ranks = sorted((door_rank(r), r) for r in listed)
    assert [k for k, _ in ranks] == list(range(len(listed))), 'the ranks are not 0, 1, 2, ..'
    return [r for _, r in ranks]

def stock(stocks, t): return [r for r in itertools.product(*[range(s + 1) for s in stocks]) if sum(r) == t]
def words(counts):
    letters = [v for v, c in enumerate(counts) for _ in range(c)]
    return sorted(set(itertools.permutations(letters)))
def changes_row(n, label): return tuple(Permutation.unrank_trotterjohnson(n, label).array_form) if n > 1 else tuple(range(n))
def changes(n): return [changes_row(n, k) for k in range(math.factorial(n))]

# -- small walks, whole or in part ---------------------------------------------------------------------------------------
for rs in ([], [1], [5], [3, 2], [2, 2, 2], [1, 3, 1], [4, 3, 2], [255], [7, 11], [2] * 7):
    part = ','.join([str(len(rs)), '-', show(rs) if rs else '-'])
    walk(['digits,' + part], claims_of(digits(rs), 'no'))
    walk(['gray,' + part], claims_of(gray(rs), 'yes'))
for n, t in ((0, 0), (1, 0), (1, 1), (4, 2), (5, 3), (6, 1), (6, 6), (7, 3), (3, 5), (10, 4)):
    walk([f'choose,{n},{t},-'], claims_of(choose(n, t), 'no'))
    walk([f'door,{n},{t},-'], claims_of(door(n, t), 'yes'))
for st, t in (([], 0), ([], 1), ([2, 1, 1], 2), ([3, 3, 3], 4), ([0, 0], 0), ([0, 5], 3), ([32, 32], 32), ([1, 2, 3, 4], 5)):
    walk([f"stock,{len(st)},{t},{show(st) if st else '-'}"], claims_of(stock(st, t), 'no'))
for cs in ([], [0], [1], [2, 1], [1, 1, 1], [3, 0, 2], [2, 2, 2], [4], [1, 2, 3]):
    walk([f"words,{len(cs)},-,{show(cs) if cs else '-'}"], claims_of(words(cs), 'no'))
for n in range(7):
    walk([f'changes,{n},-,-'], claims_of(changes(n), 'yes'))
walk(['digits,2,-,3 2'], ['none:3 0', 'none:0', 'none:0 0 0', 'none:'])
walk(['door,4,2,-'], ['none:1 1 1 0', 'none:2 0 0 0'])
walk(['words,2,-,2 1'], ['none:0 1 1', 'none:2 0 0'])
walk(['changes,3,-,-'], ['none:0 1 1', 'none:0 1 3', 'none:0 1'])

# the permutations of 4 as printed in a figure of permutation sequences by neighbour exchange (Lenstra and Rinnooy Kan,
# "A recursive approach to the generation of combinatorial configurations"; there the values are 1 to 4)
MC1 = '1234 1243 1423 4123 4132 1432 1342 1324 3124 3142 3412 4312 4321 3421 3241 3214 2314 2341 2431 4231 4213 2413 2143 2134'
walk(['changes,4,-,-'], ['size:24'] + [f"{i}:{' '.join(str(int(v) - 1) for v in r)}" for i, r in enumerate(MC1.split())])

# -- huge walks, at some labels ------------------------------------------------------------------------------------------
def labels(size, some=6): return sorted({0, 1, size // 2, size - 2, size - 1, *(random.randrange(size) for _ in range(some))})
for rs in ([2] * 31, [255, 255, 255, 255], [200, 100, 50, 40, 100], [3] * 20, [1] * 32):
    size = math.prod(rs)
    part = f'{len(rs)},-,{show(rs)}'
    def plain(k): return tuple(k // math.prod(rs[i + 1:]) % r for i, r in enumerate(rs))
    walk(['digits,' + part], [f'size:{size}'] + [f'{k}:{show(plain(k))}' for k in labels(size)] if size > 1 else ['size:1', f'0:{show(plain(0))}'])
    walk(['gray,' + part], [f'size:{size}'] + [f'{k}:{show(gray_row(rs, k))}' for k in labels(size)] if size > 1 else ['size:1', f'0:{show(plain(0))}'])
for n, t in ((32, 16), (32, 5), (32, 31), (30, 12)):
    size = math.comb(n, t)
    some = []
    for _ in range(8):
        ones = set(random.sample(range(n), t))
        some.append(tuple(1 if i in ones else 0 for i in range(n)))
    def rising_rank(row):
        rank, left = 0, t
        for i, v in enumerate(row):
            if v:
                rank += math.comb(n - i - 1, left)
                left -= 1
        return rank
    walk([f'choose,{n},{t},-'], [f'size:{size}'] + [f'{rising_rank(r)}:{show(r)}' for r in some])
    walk([f'door,{n},{t},-'], [f'size:{size}'] + [f'{door_rank(r)}:{show(r)}' for r in some])
walk(['changes,12,-,-'], ['size:479001600'] + [f'{k}:{show(changes_row(12, k))}' for k in labels(479001600)])
for cs in ([4, 4, 4, 4], [2] * 7, [1] * 12, [16, 16], [0, 3, 0, 9, 1]):
    total, size = sum(cs), math.factorial(sum(cs))
    for c in cs: size //= math.factorial(c)
    def multinomial(left):
        m = math.factorial(sum(left))
        for c in left: m //= math.factorial(c)
        return m
    def unrank(label):
        left, row = list(cs), []
        for _ in range(total):
            for v, c in enumerate(left):
                if not c: continue
                left[v] -= 1
                m = multinomial(left)
                if label < m: row.append(v); break
                label -= m
                left[v] += 1
        return tuple(row)
    walk([f'words,{len(cs)},-,{show(cs)}'], [f'size:{size}'] + [f'{k}:{show(unrank(k))}' for k in labels(size)])
def ways(st, t):
    table = [1] + [0] * t
    for s in st: table = [sum(table[u - v] for v in range(min(s, u) + 1)) for u in range(t + 1)]
    return table[t]
for st, t in (([3] * 12, 18), ([32] * 7, 32), ([1, 2, 4, 8, 16, 32], 30), ([1] * 32, 16)):
    size = ways(st, t)
    def unrank(label):
        row, left = [], t
        for i, s in enumerate(st):
            for v in range(min(s, left) + 1):
                m = ways(st[i + 1:], left - v)
                if label < m: row.append(v); left -= v; break
                label -= m
        return tuple(row)
    walk([f'stock,{len(st)},{t},{show(st)}'], [f'size:{size}', 'steady:no'] + [f'{k}:{show(unrank(k))}' for k in labels(size)])

# -- joins ---------------------------------------------------------------------------------------------------------------
def odometer(a, b): return [x + y for x in a for y in b]
def swing(a, b): return [x + y for i, x in enumerate(a) for y in (b[::-1] if i % 2 else b)]
walk(['gray,1,-,2', 'door,2,1,-'], claims_of(swing(gray([2]), door(2, 1)), 'yes'))
walk(['gray,1,-,2', 'choose,2,1,-'], claims_of(odometer(gray([2]), choose(2, 1)), 'no'))
walk(['gray,2,-,3 2', 'door,4,2,-', 'changes,3,-,-'], claims_of(swing(gray([3, 2]), swing(door(4, 2), changes(3))), 'yes', 40))
walk(['gray,2,-,3 2', 'digits,1,-,3', 'changes,3,-,-'], claims_of(odometer(gray([3, 2]), odometer(digits([3]), changes(3))), 'no', 40))
walk(['changes,3,-,-', 'gray,2,-,2 3'], claims_of(swing(changes(3), gray([2, 3])), 'yes', 20))
walk(['choose,3,5,-', 'gray,1,-,2'], ['size:0', 'steady:no', 'none:0 0 0 0'])
walk(['door,3,5,-', 'gray,1,-,2'], ['size:0', 'steady:yes'])
walk(['gray,32,-,' + show([1] * 32), 'gray,32,-,' + show([1] * 32)], ['size:1', f'0:{show([0] * 64)}'])

# -- faults: at least one text for every way into each -------------------------------------------------------------------
for raw in ('', '~', 'kind,n,t,list', NAMES, NAMES[:-1], NAMES + 'digits,0,-,-', NAMES + '~' * 4, NAMES + 'digits,0,-,-~' * 4, 'x' * 4097,
            NAMES + 'digits,0,-,-~digits,0,-,-~digits,0,-,-~x', '^^^'): fault(raw, '15,0,text')
fault((NAMES + 'digits,1,-,' + '1 ' * 3000)[:4095] + '~~', '15,0,text')
for raw in ('kind,n,t,lists~digits,0,-,-~', 'Kind,n,t,list~x~', '~x~', 'kind,n,t~x~', ' kind,n,t,list~x~', '^~x~', 'digits,0,-,-~digits,0,-,-~'): fault(raw, '13,1,text')
for part in ('', 'digits', 'digits,0,-', 'digits,0,-,-,', 'digits,0,-,-,-', ',0,-,-', 'Digits,0,-,-', 'digit,0,-,-', 'digitss,0,-,-', '^,0,-,-', 'digits,,-,-', 'digits,00,-,-', 'digits,01,-,2',
             'digits,1000,-,2', 'digits,+1,-,2', 'digits, 1,-,2', 'digits,-,-,-', 'digits,1,,2', 'digits,1,0,2', 'digits,1,--,2', 'digits,1,-,', 'digits,1,-,-', 'digits,0,-,1', 'digits,0,-,',
             'digits,2,-,2  3', 'digits,2,-, 2 3', 'digits,2,-,2 3 ', 'digits,2,-,2 -', 'digits,2,-,2 03', 'digits,2,-,2 1234', 'digits,2,-,2;3', 'gray,1,3,2', 'gray,1,-,^', 'choose,3,-,-', 'choose,3,,-', 'choose,3,2,1',
             'choose,3,2,', 'choose,3,02,-', 'door,3,-,-', 'door,3,1,0', 'door,0,0,0', 'stock,1,-,2', 'stock,1,1,-', 'stock,0,0,0', 'words,1,1,2', 'words,1,-,-', 'words,0,-,0', 'changes,3,1,-', 'changes,3,-,3', 'changes,,-,-'):
    fault(text(part), '14,2,text')
    if part: fault(text('digits,0,-,-', part), '14,3,text')
fault(text('digits,0,-,-', 'digits,0,-,-', 'digits,0,-,x'), '14,4,text')
for part in ('digits,33,-,' + show([1] * 33), 'digits,2,-,2', 'digits,1,-,2 2', 'digits,1,-,0', 'digits,1,-,256', 'digits,999,-,1', 'gray,33,-,' + show([1] * 33), 'gray,1,-,999', 'gray,3,-,1 1', 'choose,33,1,-', 'choose,3,33,-', 'choose,999,999,-',
             'door,33,1,-', 'door,3,33,-', 'stock,33,1,' + show([1] * 33), 'stock,1,33,1', 'stock,1,1,33', 'stock,2,1,1', 'words,33,-,' + show([0] * 33), 'words,2,-,16 17', 'words,1,-,33', 'words,2,-,1', 'words,1,-,999', 'changes,33,-,-'):
    fault(text(part), '1,2,part')
    fault(text(part, 'digits,x'), '1,2,part')
for part in ('digits,32,-,' + show([2] * 32), 'gray,32,-,' + show([2] * 32), 'digits,5,-,255 255 255 255 2', 'gray,32,-,' + show([255] * 32), 'stock,32,32,' + show([32] * 32), 'words,32,-,' + show([1] * 32), 'words,13,-,' + show([1] * 13), 'words,8,-,' + show([2] * 8), 'changes,13,-,-', 'changes,32,-,-'):
    fault(text(part), '2,2,part')
    fault(text('gray,0,-,-', part), '2,3,part')
fault(text('gray,1,-,2', 'gray,32,-,' + show([1] * 32), 'gray,32,-,' + show([1] * 32)), '3,2,join')
fault(text('gray,1,-,2', 'gray,32,-,' + show([2] * 31 + [1]), 'gray,32,-,' + show([2] * 31 + [1])), '2,3,join')
fault(text('gray,16,-,' + show([2] * 16), 'gray,16,-,' + show([2] * 16)), '2,2,join')
fault(text('gray,16,-,' + show([2] * 16), 'gray,15,-,' + show([2] * 15), 'gray,1,-,2'), '2,2,join')
fault(text('gray,32,-,' + show([1] * 32), 'gray,32,-,' + show([1] * 32), 'gray,1,-,2'), '3,2,join')
# -- whole reports, and the lister -----------------------------------------------------------------------------------------
def listed(rows): return 'label,row\n' + ''.join(f'{i},{show(r)}\n' for i, r in enumerate(rows[:1000]))
def report(parts, rows): walk(parts, ['report:' + listed(rows).replace('\n', '~')])
report(['gray,2,-,3 2'], gray([3, 2]))
report(['choose,3,5,-'], choose(3, 5))
report(['digits,0,-,-'], digits([]))
report(['digits,4,-,7 6 5 5'], digits([7, 6, 5, 5]))
examples = {
    'bracket': (['gray,2,-,3 2', 'door,4,2,-', 'changes,3,-,-'], swing(gray([3, 2]), swing(door(4, 2), changes(3)))),
    'gray': (['gray,2,-,3 2'], gray([3, 2])),
    'filaments': (['stock,3,4,2 2 4', 'words,3,-,2 1 1'], odometer(stock([2, 2, 4], 4), words([2, 1, 1]))),
}
for name, (parts, rows_of) in examples.items():
    open(f'examples/{name}.plan', 'w').write(text(*parts).replace('~', '\n'))
    open(f'examples/{name}.rows', 'w').write(listed(rows_of))
open('crates/lister/stdin', 'w').write(text(*examples['bracket'][0]).replace('~', '\n'))
open('crates/lister/stdout', 'w').write(listed(examples['bracket'][1]))

assert all(len(l.split('|')[0]) <= 4097 for l in lines)
open('crates/samples/stdin', 'w', encoding='latin-1').write('\n'.join(lines) + '\n')
open('crates/samples/stdout', 'w').write(f'{plans} plans with {rows} claims, {faults} faults\n')
print(plans, rows, faults)
