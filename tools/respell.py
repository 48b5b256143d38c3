#!/usr/bin/env python3
"""Respells the definitions and lemmas of this repository as today's Rattle has them: words in snake case,
types in camel case. Run once, at the top, right after the toolchain's own script.

A name of ours is one that a file of specs/ or a lemma file of proofs/ declares. Functions of src/, strings,
inputs, outputs and the names that the check makes ('c.STEP.FIELD', goals) keep their spelling.
"""

import os
import re
import sys

MADE = ("Answers.antt", "Invariants.antt", "Lib.antt", "Proof.antt")
MARK = r"(?:(?:abbrev|unfoldable|mutual|pub) +)*"
SIGNED = re.compile(r"^ *" + MARK + r"(?P<names>[^\s(){}:;,]+(?: [^\s(){}:;,]+)*) +:(?!=) ")
TYPED = re.compile(r"^ *" + MARK + r"(?:record|data) +(?:pub +)?(?P<name>[^\s:({]+)")
TOKEN = re.compile(r"[^\s(){}\[\],;.↦λ→|⌜⌝←\"`:]+")
# A fact that had no capital, in the files that speak of it: elsewhere the word is a variable.
FACT, SPOKEN, CAPITAL = "le", re.compile(r"Algebra\.\{[^}]*(?<![\w-])le(?![\w-])|^abbrev pub le :", re.M), "Le"


def files(root):
    for folder, dirs, names in os.walk(os.path.join(root, "crates")):
        dirs[:] = sorted(d for d in dirs if d != "out")
        for name in sorted(names):
            yield folder, name


def spelled(name):
    """The name in today's spelling."""
    if name[0].isupper():
        return "".join(part[:1].upper() + part[1:] for part in name.split("-"))
    name = name.replace("-", "_")
    return re.sub(r"(?<=[a-z0-9])([A-Z])", lambda m: "_" + m.group(1).lower(), name)


def declared(root):
    found = set()
    for folder, name in files(root):
        if not name.endswith(".antt") or name in MADE:
            continue
        with open(os.path.join(folder, name), encoding="utf-8") as f:
            for line in f:
                m = TYPED.match(line)
                if m:
                    found.add(m.group("name"))
                    continue
                m = SIGNED.match(line)
                if m:
                    found.update(m.group("names").split(" "))
    return found


def respelled(text, turn):
    """The text with each name of ours turned, but for the names that the check makes."""

    def one(m):
        word = m.group()
        if word not in turn:
            return word
        before = re.search(r"[^\s(){}\[\],;|]*$", text[max(0, m.start() - 80) : m.start()]).group()
        if re.fullmatch(r"[clw]\.", before):
            return word
        return turn[word]

    return TOKEN.sub(one, text)


def main():
    root = os.path.dirname(os.path.dirname(os.path.realpath(__file__)))
    names = declared(root)
    turn = {n: spelled(n) for n in names if spelled(n) != n}
    texts = {}
    for folder, name in files(root):
        if name.endswith((".antt", ".rt", ".edit")):
            with open(os.path.join(folder, name), encoding="utf-8") as f:
                texts[os.path.join(folder, name)] = f.read()
    for path, text in texts.items():
        words = set(TOKEN.findall(text))
        for n in sorted(words & turn.keys()):
            if turn[n] in words or any(turn[n] == turn[m] for m in words & turn.keys() if m != n):
                print(f"{os.path.relpath(path, root)}: {n} would fall together with another name, as {turn[n]}")
    if "--list" in sys.argv:
        for n, t in sorted(turn.items()):
            print(n, t)
        return 0
    for path, text in texts.items():
        new = respelled(text, turn | {FACT: CAPITAL} if SPOKEN.search(text) else turn)
        if new != text:
            with open(path, "w", encoding="utf-8") as f:
                f.write(new)
    return 0


if __name__ == "__main__":
    sys.exit(main())
