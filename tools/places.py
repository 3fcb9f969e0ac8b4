#!/usr/bin/env python3
"""Counts the places that docs/DESIGN-PASS.md speaks of, point by point, in crates/*/src and crates/*/proofs.

usage: tools/places.py [POINT ..]    with a point each of its places, a line each; without any the counts alone

A place of a point is
1  a struct's field that is a flag or a number code beside values (ok, found, refusal, mistake, kept, free), a function that answers a
   number for a refusal or a mistake, a function that says a mistake and answers bool, an enum of two cases of which one holds nothing;
2  a function whose tokens are nine in ten those of another, names, numbers and types aside (24 tokens or more, both of one kind: two
   tables, or none of them);
3  a loop that counts its own index: a `while` over a variable that its body steps;
4  a function of one cast, or one named for what a derive or a method of the library does;
5  a clause that stands in the contracts of three or more functions, and a function of seven or more parameters;
6  a parameter that is a buffer with a length or a place beside it, and a local buffer that a count follows;
7  a match on, or a chain of tests of, a number or a name that picks the step to run;
8  an answer to a goal, and a lemma of proofs/."""
import difflib
import re
import sys
from collections import defaultdict
from pathlib import Path

TOP = Path(__file__).resolve().parent.parent
# the crates of the program, whose functions reach files and say mistakes
PROGRAM = r"crates/(bc7|commands|baking|measuring|mapping|showing|plates|photos|row_work|reports|open_files|messages|mistakes)/"
TYPES = r"\b(?:u8|u16|u32|u64|usize|bool)\b"


class Function:
    """A function of a source file: its place, name, parameters, result, clauses and body."""

    def __init__(self, path, line, head, body):
        self.place = f"{path}:{line}"
        self.path = str(path)
        self.name = re.search(r"\bfn (\w+)", head).group(1)
        signature = re.split(r"\n\s*(?:requires|ensures|ghost)\b", head)[0]
        inside, depth, start = [], 0, signature.index("(", re.search(r"\bfn \w+", signature).end())
        for i in range(start, len(signature)):
            depth += {"(": 1, "[": 1, "<": 1, ")": -1, "]": -1}.get(signature[i], 0)
            depth -= signature[i] == ">" and signature[i - 1] != "-"
            inside.append(signature[i])
            if depth == 0:
                break
        self.parameters = [p.strip() for p in split_list("".join(inside)[1:-1]) if p.strip()]
        self.result = signature[start + len(inside):].replace("->", "").strip()
        self.clauses = re.findall(r"\b(?:requires|ensures)(?: \w+)? \{ (.*?) \}(?=\s*(?:requires|ensures|ghost|$))", head, re.S)
        self.requires = re.findall(r"\brequires(?: \w+)? \{ (.*?) \}(?=\s*(?:requires|ensures|ghost|$))", head, re.S)
        self.body = body


def split_list(text):
    depth, piece, pieces = 0, "", []
    for c in text:
        depth += {"(": 1, "[": 1, "<": 1, ")": -1, "]": -1, ">": -1}.get(c, 0)
        if c == "," and depth == 0:
            pieces.append(piece)
            piece = ""
        else:
            piece += c
    return pieces + [piece]


def functions(path):
    """The functions of a file, with the line on which each begins."""
    lines = path.read_text(encoding="utf-8").split("\n")
    found, i = [], 0
    while i < len(lines):
        if not re.match(r"\s*(pub(\(crate\))? )?(final )?(const )?(extern \"C\" )?fn \w+", lines[i]):
            i += 1
            continue
        indent = re.match(r"\s*", lines[i]).group(0)
        begin, head = i, []
        while i < len(lines) and not re.match(rf"{indent}\{{|.*\S \{{$|.*;$", lines[i]):
            head.append(lines[i])
            i += 1
        if i < len(lines) and lines[i].rstrip().endswith("{") and not lines[i].strip() == "{":
            head.append(lines[i].rstrip()[:-1])
        body = []
        if i < len(lines) and not lines[i].endswith(";"):
            i += 1
            while i < len(lines) and not re.match(rf"{indent}\}}", lines[i]):
                body.append(lines[i])
                i += 1
        elif i < len(lines):
            head.append(lines[i])
        found.append(Function(path.relative_to(TOP), begin + 1, "\n".join(head), "\n".join(body)))
        i += 1
    return found


SOURCES = sorted(TOP.glob("crates/*/src/**/*.rt"))
ALL = [f for path in SOURCES for f in functions(path)]


def lines_with(pattern, paths=SOURCES):
    for path in paths:
        for number, line in enumerate(path.read_text(encoding="utf-8").split("\n"), 1):
            if re.search(pattern, line):
                yield f"{path.relative_to(TOP)}:{number}: {line.strip()}"


def point1():
    yield from lines_with(r"^\s+(pub(\(crate\))? )?(ok|found|refusal|mistake|kept|free|good): (bool|u8|u32),$")
    for f in ALL:
        if re.search(r"refusal|mistake|declined|earlier", f.name) and re.search(r"^u(8|32)$", f.result):
            yield f"{f.place}: {f.name} answers a number"
        if f.result == "bool" and re.match(PROGRAM, f.path) and any("rt:" in p for p in f.parameters):
            yield f"{f.place}: {f.name} says a mistake and answers bool"
    for path in SOURCES:
        text = path.read_text(encoding="utf-8")
        for m in re.finditer(r"enum (\w+)[^{]*\{([^}]*)\}", text):
            cases = [c.strip() for c in re.sub(r"//.*", "", m.group(2)).split(",") if c.strip()]
            if len(cases) == 2 and sum("(" in c for c in cases) == 1:
                yield f"{path.relative_to(TOP)}: enum {m.group(1)}"


def shape(f):
    tokens = re.findall(r"\w+|[^\w\s]", re.sub(r"//.*", "", f.body))
    return tuple("N" if t[0].isdigit() else "T" if re.fullmatch(TYPES, t) else "x" if re.match(r"[A-Za-z_]", t) else t for t in tokens)


def point2():
    shapes = [(f, shape(f)) for f in ALL]
    shapes = [(f, s) for f, s in shapes if len(s) >= 24]
    twins = defaultdict(list)
    for i, (f, s) in enumerate(shapes):
        for g, t in shapes[i + 1:]:
            alike = difflib.SequenceMatcher(None, s, t, autojunk=False)
            if min(len(s), len(t)) >= 0.8 * max(len(s), len(t)) and alike.quick_ratio() >= 0.9 and alike.ratio() >= 0.9:
                twins[f].append(g)
                twins[g].append(f)
    for f, others in twins.items():
        yield f"{f.place}: {f.name} ~ {', '.join(f'{g.name} ({g.place})' for g in others)}"


def point3():
    for f in ALL:
        for m in re.finditer(r"\bwhile ([^{]*)\{", f.body):
            names = re.findall(r"\b\w+\b", m.group(1))
            if any(re.search(rf"\b{n} (\+|-)= ", f.body) for n in names):
                yield f"{f.place}: {f.name}: while {m.group(1).strip()}"


def point4():
    words = r"^(lesser|greater|least|same|copy|wide\d*|size|word|words|pixel|number|bytes|say\w*|put\w*|line|space|differences|others|fill|equal\w*)$"
    for f in ALL:
        cast = re.fullmatch(r"\s*\(?\w+(\.\w+)?\)? as \w+\s*", f.body)
        if cast or re.match(words, f.name):
            yield f"{f.place}: {f.name}"


def point5():
    where = defaultdict(list)
    for f in ALL:
        for clause in set(f.requires):
            where[" ".join(clause.split())].append(f)
    for clause, fs in sorted(where.items(), key=lambda it: -len(it[1])):
        if len(fs) >= 3:
            yield f"{len(fs)} contracts: {clause[:110]}"
    for f in ALL:
        if len(f.parameters) >= 7:
            yield f"{f.place}: {f.name} has {len(f.parameters)} parameters"


def point6():
    for f in ALL:
        buffers = [p for p in f.parameters if re.search(r"&mut \[\w+(; \w+)?\]$", p)]
        lengths = [p for p in f.parameters if re.match(r"(at|n|start|from|len|count): usize$", p)]
        if buffers and lengths:
            yield f"{f.place}: {f.name}: {', '.join(buffers + lengths)}"
        for m in re.finditer(r"let mut (\w+) = \[0u\d+; (\w+)\];", f.body):
            if re.search(rf"&(mut )?{m.group(1)}\[\.\.\w+\]|&mut {m.group(1)}, \w+\)", f.body):
                yield f"{f.place}: {f.name}: buffer {m.group(1)}"


def point7():
    for f in ALL:
        for m in re.finditer(r"match (\w+(\.\w+)?(\[\d\])?( % \d+)?) \{\s*\n\s*\d+", f.body):
            if f.path.startswith("crates/partitions"):
                continue
            yield f"{f.place}: {f.name}: match {m.group(1)}"
        chain = len(re.findall(r"else if .*(same\(|== \d)", f.body))
        if chain >= 1:
            yield f"{f.place}: {f.name}: a chain of {chain + 1} tests"


def point8():
    answers = lemmas = 0
    for path in TOP.glob("crates/*/proofs/**/*.antt"):
        text = path.read_text(encoding="utf-8")
        found = re.findall(r"^(?:    )*(?:pub )?[^\s:]+ :(?: |$)", text, re.M)
        if path.name in ("Answers.antt", "Proof.antt"):
            answers += len(re.findall(r"^pub \S+ : goal\.", text, re.M))
            lemmas += len(re.findall(r"^(?!pub |abbrev |use |--|unfold)\S+ : ", text, re.M))
        elif path.name not in ("Invariants.antt", "Lib.antt"):
            lemmas += len(found)
    yield from [f"answers {answers}", f"lemmas {lemmas}"]


POINTS = {"1": point1, "2": point2, "3": point3, "4": point4, "5": point5, "6": point6, "7": point7, "8": point8}


def main():
    wanted = sys.argv[1:]
    if any(it not in POINTS for it in wanted):
        sys.exit(__doc__)
    for point in wanted or POINTS:
        places = list(POINTS[point]())
        print(f"point {point}: {places[0] + ', ' + places[1] if point == '8' else len(places)}")
        if wanted and point != "8":
            print(*(f"    {it}" for it in places), sep="\n")


main()
