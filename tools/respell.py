#!/usr/bin/env python3
"""Respells the repository's own definitions and lemmas: words in snake case, a dash where it joins two names.

usage: python3 tools/respell.py [--list]     at the top of a checkout, once, after the kit's port.py

Definitions, lemmas and record fields of specs/ and proofs/ that were in camel case get snake case, and a lemma keeps a dash only
between two names of definitions (as `palettes-blended`); every other dash becomes `_`. A lemma that falls together with a definition
ends in `_lem`. Functions of src/, exported names, strings and goals of Rattle's own keep their spelling. Must-fail edits are respelled
with the same table, and with the words that port.py turned around them.
"""

import collections
import glob
import re
import sys

# the Rust's side of a name that the chapter's definition has, and a lemma of the kit's `get_or` that port.py took for a name by itself
OWN = {
    "dist-sq": "rust_dist_sq",
    "get_d_map": "get_or-map",
}

# the words of std that own names join
STD = set(
    "add codes decimal drop get_or length map max min not replicate set suc sum swap take then true zero".split()
)

WORD = r"[^\s(){}\[\];:,.⌜⌝→×≡λ∷+*=<>≤≢/%∙@\"`⊎←]+"
DECLARED = re.compile(r"^(\s*)(?:(?:abbrev|unfoldable|pub|data|record|ruleset)\s+)*(" + WORD + r")(?:\s[^:]*)?\s:\s")
FIELD = re.compile(r"^\s+pub (" + WORD + r") : ")
FUNCTION = re.compile(r"\bfn (\w+)")
TEXT = re.compile(r'(b?"(?:[^"\\]|\\.)*")')


def files(*patterns):
    return sorted(p for pattern in patterns for p in glob.glob(pattern, recursive=True) if "/out/" not in p)


def read(path):
    with open(path, encoding="utf-8") as f:
        return f.read()


def lemma_file(path):
    return "/specs/" in path or not path.endswith(("/Proof.antt", "/Answers.antt", "/Invariants.antt"))


def declared():
    """Each name that a file of definitions or lemmas declares, with whether a file of specs/ does."""
    names = collections.defaultdict(set)
    for path in files("crates/*/specs/**/*.antt", "crates/*/proofs/**/*.antt"):
        if not lemma_file(path):
            continue
        for line in read(path).split("\n"):
            for pattern, group in ((DECLARED, 2), (FIELD, 1)):
                m = pattern.match(line)
                if m and not line.lstrip().startswith(("--", "use ", "let ", "module ", "λ")) and m.group(group)[0].islower():
                    names[m.group(group)].add("/specs/" in path)
    return names


def snake(word):
    return re.sub(r"(?<=[a-z0-9])([A-Z])", lambda m: "_" + m.group(1).lower(), word)


def table():
    names = declared()
    functions = {f for path in files("crates/*/src/**/*.rt") for f in FUNCTION.findall(read(path))}
    known = functions | STD
    known |= {snake(n).replace("-", "_") for n, specs in names.items() if True in specs}
    turned = {}
    for n, specs in names.items():
        if n in OWN:
            turned[n] = OWN[n]
            continue
        if not (re.search("[A-Z]", n) or "-" in n):
            continue
        parts = [snake(p).replace("get_d", "get_or") for p in n.split("-")]
        new = parts[0]
        for before, after in zip(parts, parts[1:]):
            new += ("-" if before in known and after in known and True not in specs else "_") + after
        turned[n] = new
    taken = collections.defaultdict(list)
    for n in names:
        taken[turned.get(n, n)].append(n)
    for new, olds in taken.items():
        kept = [n for n in olds if True in names[n]] or [n for n in olds if "-" not in n][:1]
        for n in olds:
            if len(olds) > 1 and n not in kept:
                turned[n] = new + "_lem"
    return {n: new for n, new in turned.items() if n != new}


def respelled(text, turned, comment):
    """The text with its names respelled: in a comment only those in backticks, and those in camel case."""

    def word(m):
        return turned.get(m.group(0), m.group(0))

    def of_comment(m):
        return word(m) if re.search("[a-z][A-Z]", m.group(0)) else m.group(0)

    lines = []
    for line in text.split("\n"):
        code, mark, said = line.partition(comment)
        said = re.sub("`[^`]*`", lambda m: re.sub(WORD, word, m.group(0)), said)
        # a text that the program prints stays as it is
        code = "".join(part if part.startswith(('"', 'b"')) else re.sub(WORD, word, part) for part in re.split(TEXT, code))
        lines.append(code + mark + re.sub(WORD, of_comment, said))
    return "\n".join(lines)


# what port.py turns in specs/ and leaves in the edits of it
IN_EDITS = {"upFrom": "up_from", "getD": "get_or", "onesIn": "ones_in", "inRange": "in_range", "bitOr": "bit_or"}


def tight(edit):
    """An edit's texts with the kit's words, and projections written tight."""
    lines = []
    for line in edit.split("\n"):
        if line.startswith(("old: ", "new: ")):
            line = re.sub(r"\((\w+) \.(\w+)\)", r"\1.\2", line)
            line = re.sub(r"(?<=[\w(]) \.(\w+)", r".\1", line)
            line = re.sub(r"\b(" + "|".join(IN_EDITS) + r")\b", lambda m: IN_EDITS[m.group(1)], line)
        lines.append(line)
    return "\n".join(lines)


def main(argv):
    turned = table()
    if "--list" in argv:
        for n, new in sorted(turned.items()):
            print(n, new)
        return 0
    for path in files("crates/*/src/**/*.rt", "crates/*/specs/**/*.antt", "crates/*/proofs/**/*.antt", "crates/*/must-fail/*.edit"):
        text = read(path)
        # a function of src/ keeps its name, also where a lemma had the same
        kept = set(FUNCTION.findall(text)) if path.endswith(".rt") else set()
        new = respelled(text, {n: new for n, new in turned.items() if n not in kept}, "//" if path.endswith(".rt") else "-- ")
        if path.endswith(".edit"):
            new = tight(new.replace("(finish px c .block)", "(finish px c).block"))
        if new != text:
            with open(path, "w", encoding="utf-8") as f:
                f.write(new)
    return 0


if __name__ == "__main__":
    raise SystemExit(main(sys.argv[1:]))
