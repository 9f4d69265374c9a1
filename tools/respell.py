#!/usr/bin/env python3
"""Brings this repository's own names to today's spelling, once, after Rattle's port.py: words in snake case, `sortOf` and `set-bit` become
`sort_of` and `set_bit`. Types, modules, Rust's names and names that Rattle makes keep theirs.

usage: python3 tools/respell.py [--table]      at the top of the repository; --table prints what it would turn

A name is turned where specs/ or a lemma file of proofs/ declares it. Where two names would fall together the definition takes the word, and
the lemma has a dash, also one that port.py had given the word. A proof file's own goals (proofs/F/Proof.antt) are Rattle's names, and so is
what stands behind `c.`: they stay."""
import collections
import os
import re
import sys

DECLARED = re.compile(r"^\s*(?:(?:abbrev|unfoldable|pub)\s+)*([^\s(){}:;,.]+(?:\s+[^\s(){}:;,.]+)*)\s+:\s")
TOKEN = re.compile(r"[\w⁺₀₁₂₃'+?-]*[^\W\d][\w⁺₀₁₂₃'?-]*")
LIBRARY = re.compile(r"^use (?!Rattle\.(?!std\.))(\S+?)\.\{([^}]*)\}|^use (Rattle\.std\.\S+?)\.\{([^}]*)\}", re.M)


def files(top, *endings):
    for folder, inner, names in os.walk(top):
        inner[:] = sorted(d for d in inner if d not in ("out", ".git"))
        for name in sorted(names):
            if name.endswith(endings):
                yield os.path.join(folder, name)


def is_proof(path):
    folder, name = os.path.split(path)
    return "/proofs/" in folder + "/" and os.path.basename(folder) != "proofs" and name in ("Proof.antt", "Answers.antt", "Invariants.antt")


def read(path):
    with open(path, encoding="utf-8") as f:
        return f.read()


def snake(name):
    name = re.sub(r"(?<=[a-z0-9])([A-Z])", lambda m: "_" + m.group(1).lower(), name)
    return name.replace("-", "_")


def table():
    own, others = set(), set()
    for path in files("crates", ".antt"):
        text = read(path)
        for found in LIBRARY.finditer(text):
            others.update(w.strip() for w in (found.group(2) or found.group(4)).split(","))
        if is_proof(path):
            continue
        for line in text.splitlines():
            found = DECLARED.match(line)
            if found and not line.lstrip().startswith(("--", "use ")):
                own.update(found.group(1).split())
    turned = {n for n in own - others if re.match(r"[a-z]", n) and ("-" in n or re.search(r"[A-Z]", n))}
    kept = own | others
    made = collections.defaultdict(list)
    for n in sorted(turned):
        made[snake(n)].append(n)
    out = {}
    for new, olds in made.items():
        camel = [n for n in olds if "-" not in n]
        first = camel if camel else olds
        if len(first) > 1 or (new in kept and (new in others or not camel)):
            print("falls together, and stays:", new, olds, file=sys.stderr)
            continue
        if new in kept:
            out[new] = new.replace("_", "-")
            print("has a dash again:", out[new], file=sys.stderr)
        out[first[0]] = new
        if len(olds) > 1:
            print("keeps its dash:", [n for n in olds if n != first[0]], file=sys.stderr)
    return out


def turn(text, names, antt=True, proof=False):
    def one(m):
        word = m.group(0)
        if word not in names:
            return word
        before = text[max(0, m.start() - 200) : m.start()]
        if "-" in names[word] and (not antt or before.endswith(".")):
            return word
        if proof and before.endswith(".") and re.search(r"(?<![\w.])[a-z]\w*(\.[\w-]+)*\.$", before) and "-" in word:
            return word
        return names[word]

    return TOKEN.sub(one, text)


def main():
    names = table()
    if "--table" in sys.argv:
        for old in sorted(names):
            print(old, names[old], sep="\t")
        return
    changed = 0
    for path in files("crates", ".antt", ".rt", ".edit"):
        text = read(path)
        new = turn(text, names, path.endswith(".antt"), is_proof(path))
        if new != text:
            changed += 1
            with open(path, "w", encoding="utf-8") as f:
                f.write(new)
    print(f"{len(names)} names, {changed} files")


if __name__ == "__main__":
    main()
