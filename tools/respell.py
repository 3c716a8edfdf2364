#!/usr/bin/env python3
"""Brings the definitions, fields and lemmas of this repository to the spelling of today's library: words in snake case, a dash only
where it joins the names of two definitions. Run once, at the top, directly after the kit's port.py:

    python3 tools/respell.py

Names of functions in src/, exported names, strings, inputs and outputs are not touched. It stops where two names would fall together, and else prints
each name with its new spelling, and where the new one stood in a file already ('look:').
"""
import collections
import glob
import re
import sys

WORD = re.compile(r"[^\s(){}\[\];,.:«»\"`=|]+")
# what a rule does not tell: a field of facts that has its definition's name, and two definitions of one name in modules of their own
BY_HAND = {"whole_length": "whole_length_lem", "character-style": "character_style_lem"}
APART = {"laid_out"}
OPERATORS = {"append", "length", "replicate", "take", "drop", "reverse", "map", "set", "cond"}


def antt():
    return sorted(glob.glob("crates/*/specs/**/*.antt", recursive=True) + glob.glob("crates/*/proofs/**/*.antt", recursive=True))


def declared():
    """name -> kinds: 'def' of specs/, 'lemma' of proofs/, 'field' of a record, 'local' of one proof of a function."""
    kinds = collections.defaultdict(set)
    for p in antt():
        proof = p.endswith("/Proof.antt")
        for line in open(p, encoding="utf-8"):
            m = re.match(r"^(?:(?:abbrev|unfoldable|pub|instance)\s+)*(?:(?:record|data)\s+)?([^\s(){}:.]+)(?:\s[^:=]*)?\s*:\s", line)
            if m and not line.startswith("--"):
                kinds[m.group(1)].add("local" if proof else "def" if "/specs/" in p else "lemma")
            m = re.match(r"^\s+pub (\S+(?: \S+)*?) :", line)
            if m:
                for n in m.group(1).split():
                    kinds[n].add("field")
            # names declared together, and those of inner definitions
            for n in re.findall(r"(?<![\w.'-])[a-z][a-z0-9]*(?:[A-Z][a-z0-9]*)+(?![\w'-])", line):
                if not n.endswith(("Ty", "Val")):
                    kinds[n].add("local" if proof else "field")
    return kinds


def snake(name):
    return re.sub(r"([a-z0-9])([A-Z])", lambda m: m.group(1) + "_" + m.group(2).lower(), name)


def spelled(name, words):
    parts = [snake(p) for p in name.split("-")]
    for k in range(1, len(parts)):
        left, right = "_".join(parts[:k]), "_".join(parts[k:])
        if left in words and right in words:
            return left + "-" + right
    return "_".join(parts)


def table():
    kinds = declared()
    old = {n for n in kinds if n[0].islower() and (re.search("[a-z0-9][A-Z]", n) or "-" in n) and kinds[n] != {"local"}}
    words = {snake(n) for n in kinds if "def" in kinds[n] and "-" not in n} | OPERATORS
    plain = {snake(n) for n in kinds if "-" not in n and kinds[n] & {"def", "lemma"}}
    names = {}
    for n in sorted(old):
        to = spelled(n, words)
        # a lemma that would have its definition's name
        if "-" in n and to in plain:
            to += "_lem"
        names[n] = to
    names.update(BY_HAND)
    groups = collections.defaultdict(set)
    for n in kinds:
        if kinds[n] != {"local"}:
            groups[names.get(n, n)].add(n)
    bad = {t: g for t, g in groups.items() if len(g) > 1 and t not in APART}
    if bad:
        sys.exit(f"names fall together: {bad}")
    fields = {n for n in names if "field" in kinds[n]}
    return names, fields


def imported(text):
    """The names that a file takes from outside this repository."""
    own = {p.split("/")[1] for p in antt()}
    got = set()
    for m in re.finditer(r"^(?:pub )?(?:ghost )?use ([\w.·+-]+?)\.\{([^}]*)\}", text, re.M):
        path = m.group(1).split(".")
        if not (path[0] == "Rattle" and len(path) > 1 and path[1] in own):
            got |= {w.strip() for w in m.group(2).split(",")}
    return got


def turned(text, names, fields):
    keep = imported(text)
    at = 0
    out = []
    for m in WORD.finditer(text):
        w = m.group()
        out.append(text[at : m.start()])
        at = m.end()
        dotted = m.start() > 0 and text[m.start() - 1] == "."
        bare = w.lstrip("¬←")
        if bare in names and bare not in keep and (not dotted or bare in fields or "-" not in bare):
            w = w[: len(w) - len(bare)] + names[bare]
        elif re.fullmatch(r"[a-z0-9-]+-spec", w) and not dotted:
            w = w.replace("-", "_")
        out.append(w)
    out.append(text[at:])
    return "".join(out)


def turned_source(text, names, fields):
    """In a source only clauses, ghost items and comments have names of definitions; strings and code keep theirs."""
    parts = re.split(r'(b?"(?:[^"\\]|\\.)*")', text)
    camel = {n: t for n, t in names.items() if re.search("[a-z0-9][A-Z]", n)}
    return "".join(p if k % 2 else turned(p, camel, fields) for k, p in enumerate(parts))


def main():
    names, fields = table()
    clashes = []
    for p in antt() + sorted(glob.glob("crates/*/src/**/*.rt", recursive=True)):
        text = open(p, encoding="utf-8").read()
        new = (turned if p.endswith(".antt") else turned_source)(text, names, fields)
        if not p.endswith("/Proof.antt"):
            before = {m.group() for m in WORD.finditer(text) if not (m.start() and text[m.start() - 1] == ".")}
            came = {names[w] for w in before if w in names and names[w] != w and w not in imported(text)}
            both = came & before
            if p.endswith(".rt"):
                both = came & set(re.findall(r"(?:[(,]|^)\s*(?:mut )?([a-z_0-9]+):", text, re.M))
            if both:
                clashes.append((p, sorted(both)))
        if new != text:
            open(p, "w", encoding="utf-8").write(new)
    for n, t in sorted(names.items()):
        print(n, t, sep="\t")
    for p, both in clashes:
        print("look:", p, *both)


if __name__ == "__main__":
    main()
