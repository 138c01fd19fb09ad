#!/usr/bin/env python3
"""Lists places in src/ where a form of today's language may stand for an older one.

Run at the top of a checkout: python3 tools/design_places.py [ROOT]
It goes by text and prints a heading and the places of each kind. It judges nothing: docs/DESIGN-PASS.md
says of each place whether it is one.
"""
import collections
import difflib
import glob
import itertools
import os
import re
import sys

ROOT = sys.argv[1] if len(sys.argv) > 1 else "."


def sources():
    for path in sorted(glob.glob(os.path.join(ROOT, "crates", "*", "src", "**", "*.rt"), recursive=True)):
        with open(path, encoding="utf-8") as f:
            yield os.path.relpath(path, ROOT), f.read()


def heading(text):
    print("\n== " + text)


def grep(pattern, skip=None):
    count = 0
    for path, text in sources():
        for number, line in enumerate(text.split("\n"), 1):
            if line.strip().startswith("//"):
                continue
            if re.search(pattern, line) and not (skip and re.search(skip, line)):
                print(f"{path}:{number}: {line.strip()}")
                count += 1
    print(f"-- {count}")


def balanced(text, at):
    """The end of the bracketed text that begins at `at`."""
    pairs = {"(": ")", "{": "}", "[": "]", "<": ">"}
    close = pairs[text[at]]
    depth = 0
    for i in range(at, len(text)):
        if text[i] == text[at]:
            depth += 1
        elif text[i] == close and not (close == ">" and text[i - 1] in "-="):
            depth -= 1
            if depth == 0:
                return i
    return len(text)


def functions():
    """Path, name, parameter names and clauses of each function of src/."""
    for path, text in sources():
        for m in re.finditer(r"\bfn (\w+)", text):
            i = m.end()
            if i < len(text) and text[i] == "<":
                i = balanced(text, i) + 1
            if i >= len(text) or text[i] != "(":
                continue
            end = balanced(text, i)
            inside = text[i + 1 : end]
            names = [n for n in re.findall(r"(?:^|,)\s*(?:mut )?(\w+)\s*:", re.sub(r"<[^<>]*>|\[[^\[\]]*\]", "", inside))]
            clauses = []
            j = end
            while True:
                c = re.compile(r"\s*(?:->[^{;]*?)?\s*(requires|ensures)( \w+)? \{").match(text, j + 1)
                if not c:
                    break
                stop = balanced(text, c.end() - 1)
                clauses.append((c.group(1), text[c.end() : stop].strip()))
                j = stop
            yield path, m.group(1), names, clauses


def shape(text):
    """The text with every name, number and string of its own replaced by one sign, so that only its shape is left."""
    text = re.sub(r"//[^\n]*", "", text)
    kept = {"if", "else", "match", "for", "in", "while", "loop", "let", "mut", "return", "Some", "None", "Ok", "Err", "self"}
    return ["x" if re.fullmatch(r"[\w']+", t) and t not in kept else t for t in re.findall(r"[\w']+|[^\s\w]", text)]


def bodies():
    """Path, name and shape of the body of each function of src/ that is no test."""
    for path, text in sources():
        if path.endswith("tests.rt") or "slab_tests" in path:
            continue
        for m in re.finditer(r"\bfn (\w+)", text):
            at = m.end()
            depth = 0
            while at < len(text):
                c = text[at]
                if c in "([":
                    at = balanced(text, at)
                elif c == ";":
                    break
                elif c == "{" and not re.search(r"(requires|ensures)( \w+)? $", text[:at]):
                    yield path, m.group(1), shape(text[at : balanced(text, at) + 1])
                    break
                elif c == "{":
                    at = balanced(text, at)
                at += 1


def twins():
    found = [b for b in bodies() if len(b[2]) >= 25]
    count = 0
    for a, b in itertools.combinations(found, 2):
        if min(len(a[2]), len(b[2])) * 10 < max(len(a[2]), len(b[2])) * 8:
            continue
        alike = difflib.SequenceMatcher(None, a[2], b[2], autojunk=False).ratio()
        if alike >= 0.9:
            print(f"{alike:.2f} {a[0]}:{a[1]} ~ {b[0]}:{b[1]}")
            count += 1
    print(f"-- {count}")


def main():
    heading("1. enums")
    grep(r"^\s*(pub(\(\w+\))? )?enum ")
    heading("1. results that are small numbers, and constants in their place")
    grep(r"\bfn \w+.*-> u8\b")
    heading("2. functions whose bodies are alike but for names and numbers")
    twins()
    heading("3. loops")
    grep(r"^\s*('\w+: )?(for .* in |while |loop \{)")
    heading("3. of these, over a range of numbers from 0, or by while")
    grep(r"^\s*('\w+: )?(for \w+ in 0\.\.|while )")
    heading("4. functions that answer text, or write it")
    grep(r"\bfn \w+.*-> (&'static str|fmt::Result)")
    heading("4. equality, hashing and conversion in functions")
    grep(r"\bfn (equal|eq|hash|clone|from|try_from|number|\w+_of|\w+_at)\b")
    heading("5. clauses that stand in three functions or more")
    found = collections.defaultdict(list)
    for path, name, _, clauses in functions():
        for kind, clause in set(clauses):
            found[(kind, clause)].append(f"{os.path.basename(path)}:{name}")
    repeated = {k: v for k, v in found.items() if len(v) >= 3}
    for (kind, clause), where in sorted(repeated.items(), key=lambda kv: -len(kv[1])):
        print(f"{len(where)} x {kind} {{ {clause} }}: {', '.join(where)}")
    print(f"-- {len(repeated)} clauses, {sum(len(v) for v in repeated.values())} places")
    heading("5. groups of three parameters or more that stand in three functions or more")
    groups = collections.defaultdict(set)
    for path, name, names, _ in functions():
        for size in range(3, min(len(names), 7) + 1):
            for group in itertools.combinations(names, size):
                groups[group].add(f"{os.path.basename(path)}:{name}")
    wide = {g: w for g, w in groups.items() if len(w) >= 3}
    largest = [g for g in wide if not any(set(g) < set(h) and wide[h] == wide[g] for h in wide)]
    for group in sorted(largest, key=lambda g: (-len(wide[g]), g)):
        print(f"{len(wide[group])} x ({', '.join(group)}): {', '.join(sorted(wide[group]))}")
    print(f"-- {len(largest)} groups")
    heading("6. arrays")
    grep(r"\[[\w:<>() ]+; [\w]+\]", skip=r"Slot::vacant\(\); \d")
    heading("7. parameters that are functions")
    grep(r"\b(Fn|FnMut|FnOnce)\(|\bdyn \w")


if __name__ == "__main__":
    main()
