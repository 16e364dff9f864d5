#!/usr/bin/env python3
"""Brings the repository's own definitions and lemmas to snake case, once, after the kit's port.py.

usage: tools/respell.py [ROOT]

Names of types and modules, names of the kit, functions of src/ and all strings stay. A name in a comment is turned inside backquotes alone.
Where two names would fall together, the lemma's takes `_law` behind it. Prints which, and fails where a name falls together with another one.
"""
import collections
import os
import re
import sys

ROOT = sys.argv[1] if len(sys.argv) > 1 else "."
WORD = re.compile(r"[^\s(){}\[\].,;:`\"⌜⌝]+")
DECLARED = re.compile(r"^\s*(?:(?:pub|abbrev|private|irreducible|opaque)\s+)*(?:record\s+|data\s+)?([A-Za-z][\w'\-→≢≡⊎₀-₉∷]*)((?:\s+[A-Za-z][\w'\-→≢≡⊎₀-₉∷]*)*)\s*(?:[({].*)?\s:\s")
USED = re.compile(r"^\s*(?:pub )?(?:ghost )?use\s+([\w.]+?)(?:\.\{(.*)\}|(?:\s+as\s+\S+))?\s*;?\s*$")
CASED = re.compile(r"^[a-z][a-z0-9]*[A-Z]")


def files(*ends):
    for folder, dirs, names in os.walk(os.path.join(ROOT, "crates")):
        dirs[:] = sorted(d for d in dirs if d not in ("out", ".git"))
        for name in sorted(names):
            if name.endswith(ends):
                yield os.path.join(folder, name)


def content(path):
    with open(path, encoding="utf-8") as f:
        return f.read()


def snake(name):
    name = name.replace("-", "_")
    if name[:1].islower():
        name = re.sub(r"(?<=[a-z0-9'])([A-Z])", lambda m: "_" + m.group(1).lower(), name)
        name = re.sub(r"[A-Z]", lambda m: m.group(0).lower(), name)
    return name


declared = collections.defaultdict(set)
kit = set()
kit_in = collections.defaultdict(set)
for path in files(".antt", ".rt"):
    for line in content(path).split("\n"):
        used = USED.match(line)
        if used:
            if not used.group(1).startswith(("Rattle.bsii_", "Rattle.sii_", "Rattle.replay")):
                for word in WORD.findall(used.group(2) or ""):
                    kit.add(word)
                    kit_in[path].add(word)
            continue
        if path.endswith(".antt") and not line.lstrip().startswith("--"):
            found = DECLARED.match(line)
            if found:
                for name in [found.group(1)] + found.group(2).split():
                    declared[name].add(path)

turned = {n for n in declared if ("-" in n or CASED.match(n)) and n not in kit}
new = {n: snake(n) for n in turned}
# Which names fall together: the definition keeps the plain name.
groups = collections.defaultdict(set)
for n in set(declared) | turned:
    groups[new.get(n, n)].add(n)
for name, olds in sorted(groups.items()):
    if len(olds) == 1:
        continue
    # a definition of specs/ first, then a camel-cased one
    olds = sorted(olds, key=lambda n: (not any("/specs/" in p for p in declared[n]), not CASED.match(n), n))
    for place, other in enumerate(olds[1:]):
        new[other] = name + "_law" + ("" if place == 0 else str(place + 1))
        print(f"{other} -> {new[other]} (beside {olds[0]} -> {new.get(olds[0], olds[0])})")
for n, to in new.items():
    if to in kit or (to in declared and to not in new and n != to):
        new[n] = to + "_law"
        print(f"{n} -> {new[n]} (beside {to})")


def turn_words(text, path):
    return WORD.sub(lambda m: turn_word(m.group(0), path), text)


def turn_word(word, path):
    if word in kit_in[path]:
        return word
    return new.get(word, word)


def turn_comment(text, path):
    return re.sub(r"`[^`]*`", lambda m: turn_words(m.group(0), path), text)


def turn_line(line, path):
    mark = "--" if path.endswith(".antt") else "//"
    parts = re.split(r'("(?:[^"\\]|\\.)*")', line) if not line.lstrip().startswith(mark) else [line]
    out = []
    for i, part in enumerate(parts):
        if i % 2:
            out.append(part)
            continue
        at = part.find(mark) if mark == "//" else (0 if part.lstrip().startswith("--") else part.find(" -- "))
        if at < 0:
            out.append(turn_words(part, path))
        else:
            out.append(turn_words(part[:at], path) + turn_comment(part[at:], path))
    return "".join(out)


for path in files(".antt", ".rt"):
    old = content(path)
    text = "\n".join(turn_line(line, path) for line in old.split("\n"))
    if text != old:
        with open(path, "w", encoding="utf-8") as f:
            f.write(text)
    if path.endswith(".rt"):
        # a function and a definition that is brought in beside it
        own = set(re.findall(r"\bfn (\w+)", text))
        for line in text.split("\n"):
            used = USED.match(line)
            if used and line.lstrip().startswith("ghost"):
                for word in WORD.findall(used.group(2) or ""):
                    if word in own:
                        print(f"look: {path}: both a function and a definition are called {word}")
print(f"{len(new)} names turned")
