#!/usr/bin/env python3
"""Respells the repository's own definitions, lemmas, their fields and their local names: snake case, and camel case for types.

usage: tools/respell_names.py [LIBRARY]      at the top of a repository, once; LIBRARY is the toolchain's library (/opt/rattle/rattle)
A name of the library, or one that the checker makes (a goal, a step of a proof), keeps its spelling, and so do strings, inputs and outputs.
It says which new names fall together with others, and then writes nothing.
"""
import collections
import os
import re
import sys

NAME = re.compile(r"[^\s(){}\[\],.;:=|@\"`]+")
KEBAB = re.compile(r"(?<![\w'.\-])[A-Za-z][\w']*(?:-[\w'*]+)+(?![\w'\-])")
FIELD = re.compile(r"\.([A-Za-z][\w']*(?:-[\w']+)+)(?![\w'\-])")
HEAD = re.compile(r"^( *)((?:(?:abbrev|opaque|unfoldable|pub|instance)\s+)*)(?:(record|data)\s+)?([A-Za-z][\w']*(?:-[\w']+)*)((?:\s+[({].*?)?)\s*:(?:\s|$)")
LONE = re.compile(r"^ *(?:(?:abbrev|opaque|unfoldable|pub)\s+)+([A-Za-z][\w']*(?:-[\w']+)*)((?:\s+[({].*?)?)\s*$")
FACTS = {"Radix-node": "IsRadixNode", "Sum-node": "IsSumNode"}
OLD_WORDS = {"getD": "get_or", "sumBy": "sum_by", "orOther": "or_other"}
PROOF_OF_A_FUNCTION = ("Answers.antt", "Invariants.antt", "Proof.antt")


def read(path):
    with open(path, encoding="utf-8") as f:
        return f.read()


def files(root, *endings):
    for folder, dirs, names in os.walk(root):
        dirs[:] = sorted(d for d in dirs if d not in ("out", ".git", "target"))
        for name in sorted(names):
            if name.endswith(endings):
                yield os.path.join(folder, name)


def answers_goals(path):
    return "/proofs/" in path and os.path.basename(path) in PROOF_OF_A_FUNCTION


def code(line):
    """The line without its comment."""
    return re.sub(r"(^|\s)--(\s.*)?$", "", line)


def respelt(name):
    """The new spelling. Two facts would get the names of structs, and three words were the library's own."""
    if name in FACTS:
        return FACTS[name]
    first, *rest = name.split("-")
    if first[0].isupper():
        return first + "".join(p[:1].upper() + p[1:] for p in rest)
    return "_".join([OLD_WORDS.get(first, first), *rest])


def declared(paths):
    """The names that the files declare at any depth, outside the answers to goals."""
    out = collections.defaultdict(set)
    for p in paths:
        if answers_goals(p):
            continue
        lines = read(p).split("\n")
        for i, line in enumerate(lines):
            m = HEAD.match(code(line))
            if not m and i + 1 < len(lines) and lines[i + 1].lstrip().startswith(":"):
                lone = LONE.match(code(line))
                if lone:
                    out[lone[1]].add(p)
            if m and m[4] not in ("use", "mod", "module"):
                out[m[4]].add(p)
    return out


def imported_from_library(paths, crates):
    """The names that the files take from the library."""
    out = set()
    for p in paths:
        for m in re.finditer(r"^\s*(?:pub |ghost )*use ([\w.']+)\.\{([^}]*)\}", read(p), re.M):
            step = m[1].split(".")
            if not (step[0] == "Rattle" and len(step) > 1 and step[1] in crates):
                out |= {w.strip().split(" as ")[0] for w in m[2].split(",")}
    return out


def goals_and_steps(text):
    """What an answer file takes from the checker: its goals, and what it imports of them."""
    made = set(re.findall(r"^(?:abbrev )?(?:pub )?(\S+) : goal\.", text, re.M))
    for m in re.finditer(r"^use [^\n]*\.(?:Goals|Given)\.\{([^}]*)\}", text, re.M):
        made |= {w.strip() for w in m[1].split(",")}
    return made


def turn(text, own, local, made):
    out = []
    for line in text.split("\n"):
        body = code(line)
        rest = line[len(body):]

        def name(m):
            w = m[0]
            return respelt(w) if w in own and w not in made or w in local else w

        def field(m):
            before = body[: m.start()]
            step = re.search(r"(?:^|[\s(\[{,])(?:c|w|l|g|goal)$", before)
            return "." + respelt(m[1]) if m[1] in own and not step else m[0]

        body = FIELD.sub(field, KEBAB.sub(name, body))
        rest = re.sub(r"`([^`\s]+)`", lambda m: "`" + respelt(m[1]) + "`" if m[1] in own else m[0], rest)
        out.append(body + rest)
    return "\n".join(out)


def turn_source(text, own):
    """Only clauses have names with a dash inside: the layout of code has blanks round a minus."""
    out = []
    for line in text.split("\n"):
        if re.match(r"\s*//", line):
            out.append(line)
            continue
        pieces = re.split(r'(b?"(?:[^"\\]|\\.)*")', line)
        for i in range(0, len(pieces), 2):
            pieces[i] = FIELD.sub(lambda m: "." + respelt(m[1]) if m[1] in own else m[0], KEBAB.sub(lambda m: respelt(m[0]) if m[0] in own else m[0], pieces[i]))
        out.append("".join(pieces))
    return "\n".join(out)


def turn_antt(path, text, own, taken):
    """A file of specs/ or proofs/: with the declared names, those that are local to it."""
    answers = answers_goals(path)
    made = goals_and_steps(text) if answers else set()
    words = {w for line in text.split("\n") for w in KEBAB.findall(code(line))}
    imported = {w.strip().split(" as ")[-1] for m in re.finditer(r"^use [^\n]*\{([^}]*)\}", text, re.M) for w in m[1].split(",")}
    local = {w for w in words if w not in own and w not in imported and w not in made and w not in taken}
    if answers:
        local &= set(re.findall(r"\blet ([A-Za-z][\w']*(?:-[\w']+)+)", text))
    clash = {w for w in local if re.search(r"(?<![\w'\-])" + re.escape(respelt(w)) + r"(?![\w'\-])", text)}
    if clash:
        print(f"look: {path}: left, since the new name stands there: {' '.join(sorted(clash))}")
    return turn(text, own, local - clash, made)


def turn_page(text, own):
    return re.sub(r"`([A-Za-z][\w'\-]*)`", lambda m: "`" + respelt(m[1]) + "`" if m[1] in own else m[0], text)


def rewrite(paths, turned):
    """Writes each file whose text turns into another, and counts them."""
    count = 0
    for path in paths:
        text = read(path)
        new = turned(path, text)
        if new != text:
            count += 1
            with open(path, "w", encoding="utf-8") as f:
                f.write(new)
    return count


def main(argv):
    library = argv[0] if argv else "/opt/rattle/rattle"
    antt = list(files("crates", ".antt"))
    theirs = set(declared(files(library, ".antt")))
    crates = set(os.listdir("crates"))
    taken = imported_from_library(antt + list(files("crates", ".rt")), crates)
    own = {n for n in declared(antt) if "-" in n and n not in taken}
    everywhere = collections.Counter()
    for p in files("crates", ".antt", ".rt"):
        everywhere.update(NAME.findall(read(p)))
    bad = []
    news = collections.defaultdict(set)
    for n in own:
        news[respelt(n)].add(n)
    for new, olds in sorted(news.items()):
        if len(olds) > 1:
            bad.append(f"{' and '.join(sorted(olds))} would both be {new}")
        if new in theirs:
            print(f"look: {new} is a name of the library too")
        if everywhere[new]:
            print(f"look: {new} stands in the repository already, {everywhere[new]} times")
    if bad:
        print("\n".join(bad))
        return 1
    turned = rewrite(antt, lambda p, text: turn_antt(p, text, own, taken))
    turned += rewrite(files("crates", ".rt"), lambda p, text: turn_source(text, own))
    turned += rewrite(files("docs", ".md"), lambda p, text: turn_page(text, own))
    print(f"{len(own)} names, {turned} files")
    return 0


if __name__ == "__main__":
    raise SystemExit(main(sys.argv[1:]))
