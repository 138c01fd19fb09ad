#!/usr/bin/env python3
"""Respells the repository's own definitions, lemmas, fields and local names in specs/ and proofs/ as the library of the
toolchain spells its own: words in snake case, types and modules in upper camel case.

usage: python3 tools/rename_words.py [--dry]        at the top of the repository, once, after the upgrade scripts of the toolchain

A name is the repository's own where a file of specs/ or proofs/ declares or binds it. Names that the toolchain makes (goals, steps,
branches), names of its library and names of src/ stay, but for those under which contracts import a word (`ghost use .. as`).
It prints each new name, and stops where two names would fall together.
"""

import collections
import os
import re
import sys

# the repository's crates, under the names that they had before the move
OWN = r"Rattle\.(?:interface|settings|survey|slab|slab_tests|model|shard|survey_text|inspection|van)\."
DECLARED = re.compile(r"^ *((?:(?:pub|abbrev|unfoldable|data|record) )*)([^\s:{}()=.]+(?: [^\s:{}()=.]+)*)((?: [({][^=\n]*)?) :(?: (.*))?$", re.M)
TOKEN = re.compile(r"[^\s(){}\[\].,;|λ=\"`]+")
# what stays: in specs/ and proofs/ a comment, in src/ a comment or a string
STAYS = {".antt": re.compile(r"(?:^|(?<=\s))--(?= |$).*$", re.M), ".rt": re.compile(r"//.*$|\"(?:[^\"\\\n]|\\.)*\"", re.M)}
# where the plain new spelling stands for something else already
CHOSEN = {"ringOf": "ring_from", "chainOf": "chain_in", "count-in": "count_under_key"}
# a field or a local name beside a field of src/ with that name, never in one scope
APART = {"hot-weight", "cold-weight"}
# made by the toolchain: a branch of the code, an arm of a match
MADE = re.compile(r"^(?:then|else)-|^in-[A-Z]|^overflow[-_]|^offset[-_]bounds-|-requires")


def texts(kinds):
    for folder, dirs, files in os.walk("crates"):
        dirs[:] = sorted(d for d in dirs if d != "out")
        for f in sorted(files):
            if f.endswith(kinds):
                yield os.path.join(folder, f)


def read(path):
    with open(path, encoding="utf-8") as f:
        return f.read()


def without_comments(text):
    return re.sub(r"--(?: .*)?$", "", text, flags=re.M)


def old_spelling(name):
    return "-" in name[1:-1] and name[0].isalpha() or re.match(r"^[a-z][A-Za-z0-9]*[A-Z]", name) is not None


def new_spelling(name):
    if name in CHOSEN:
        return CHOSEN[name]
    parts = name.split("-")
    if name[0].isupper():
        return parts[0] + "".join(p[:1].upper() + p[1:] for p in parts[1:])
    return "_".join(re.sub(r"(?<=[a-z0-9])([A-Z])", lambda m: "_" + m[1].lower(), p) for p in parts)


def respelled(text, kind, new):
    stays = STAYS[kind].finditer(text) if kind in STAYS else []
    turned, at = [], 0
    for m in [*stays, None]:
        end = m.start() if m else len(text)
        turned.append(TOKEN.sub(lambda w: new.get(w[0], w[0]), text[at:end]))
        if m:
            turned.append(m[0])
            at = m.end()
    return "".join(turned)


def main():
    own, goals, foreign = set(), set(), collections.defaultdict(set)
    for path in texts(".antt"):
        text = read(path)
        for m in re.finditer(r"^use ([^\s{]+)\.\{([^}]*)\}", text, re.M):
            made = ".proofs." in m[1] and m[1].endswith((".Goals", ".Given"))
            if made or not re.match(OWN, m[1]):
                foreign[path] |= {w.strip().split(" ")[0] for w in m[2].split(",")}
        for m in DECLARED.finditer(without_comments(text)):
            names = m[2].split(" ")
            if m[4] and m[4].startswith("goal."):
                goals.update(names)
            else:
                own.update(names)
    for path in texts(".rt"):
        own.update(re.findall(r"\bas ([a-z]\S*?)(?=[,};\s])", "".join(re.findall(r"^\s*ghost use [^;]*;", read(path), re.M))))
    everywhere = set().union(*foreign.values())
    for path in texts(".antt"):
        for m in re.finditer(r"(?<![^\s(){}\[\],;=|λ])" + TOKEN.pattern, without_comments(read(path))):
            own.add(m[0])
    new = {n: new_spelling(n) for n in own if old_spelling(n) and n not in goals and n not in everywhere and not MADE.search(n)}
    together = collections.defaultdict(set)
    for n in own - APART:
        together[new.get(n, n)].add(n)
    fallen = {k: v for k, v in together.items() if len(v) > 1}
    for k, v in sorted(fallen.items()):
        print(f"fall together: {' '.join(sorted(v))} -> {k}")
    for n in sorted(new):
        print(n, new[n])
    for path in texts(".antt"):
        for n in foreign[path] & set(new.values()):
            print(f"hides an import: {n} in {path}")
    if "--dry" in sys.argv:
        return
    if fallen:
        raise SystemExit(1)
    for path in texts((".antt", ".rt", ".edit")):
        text = read(path)
        turned = respelled(text, os.path.splitext(path)[1], new)
        if turned != text:
            with open(path, "w", encoding="utf-8") as f:
                f.write(turned)


if __name__ == "__main__":
    main()
