#!/usr/bin/env python3
"""Spells the repository's own definitions and lemmas as today's Rattle does: words in snake case, where they were camel case
(definitions) or had hyphens (lemmas). Functions of src/, exported names, strings, inputs and outputs are not touched.

usage: tools/snake_names.py [--report] [PATH ..]

Names are collected from crates/*/specs and crates/*/proofs; what is written is every .antt file, the clauses of every .rt file,
the texts of must-fail edits, and code spans of Markdown pages below PATH (default: crates, tests/must-fail, docs and the pages at
the top). Two names that would fall together in some file are kept apart: the lemma gets `_law` behind its name.
"""
import collections
import os
import re
import sys

WORD = re.compile(r"[^\s(){}.;,@\"«»\[\]`]+")
DECLARED = re.compile(r"^\s*(?:(?:abbrev|unfoldable|opaque|pub|record|data|mutual|private) +)*([a-z][^\s(){}:=,;.]*)(?: [({][^)}]*[)}])* :(?=\s|$)")
LETTERS = re.compile(r"[A-Za-z0-9_'-]+")


def files_below(top, *endings):
    if os.path.isfile(top):
        yield top
    for folder, folders, names in os.walk(top):
        folders[:] = sorted(d for d in folders if d not in ("out", ".git", "target", "build"))
        for name in sorted(names):
            if name.endswith(endings):
                yield os.path.join(folder, name)


def code_of(line):
    return line.split("--", 1)[0] if line.lstrip().startswith("--") or " -- " in line else line


def snake(name):
    name = re.sub(r"(?<=[a-z0-9])([A-Z])", lambda m: "_" + m.group(1).lower(), name)
    return name.replace("-", "_")


def is_own_style(name):
    return "-" in name or re.search(r"[a-z0-9][A-Z]", name)


def collect():
    own, words = set(), {}
    for path in files_below("crates", ".antt"):
        with open(path, encoding="utf-8") as f:
            text = f.read()
        used = set()
        for line in text.split("\n"):
            code = code_of(line)
            used.update(WORD.findall(code))
            m = DECLARED.match(line)
            if m and LETTERS.fullmatch(m.group(1)):
                own.add(m.group(1))
        words[path] = used
    for path in files_below("crates", ".rt"):
        with open(path, encoding="utf-8") as f:
            words[path] = set(WORD.findall(f.read()))
    return own, words


def table(own, words):
    turned = {n: snake(n) for n in own if is_own_style(n)}
    groups = collections.defaultdict(set)
    for n, t in turned.items():
        groups[t].add(n)
    said = []
    for n, t in sorted(turned.items()):
        others = (groups[t] | {t}) - {n}
        met = [(p, o) for o in others for p, w in words.items() if n in w and o in w]
        if not met:
            continue
        # a definition keeps the plain name, a lemma makes way
        if "-" in n:
            turned[n] = t + "_law"
            said.append(f"{n}: {t}_law, beside {sorted({o for _, o in met})} in {len(met)} files")
        elif any("-" not in o for _, o in met):
            said.append(f"look: {n} meets {sorted({o for _, o in met})} in {[p for p, _ in met][:3]}")
    taken = collections.defaultdict(set)
    for n, t in turned.items():
        taken[t].add(n)
    for t, ns in sorted(taken.items()):
        if len(ns) > 1:
            both = [p for p, w in words.items() if len(ns & w) > 1]
            if both:
                said.append(f"look: {sorted(ns)} fall together as {t} in {both[:3]}")
    return turned, said


def main(argv):
    report = "--report" in argv
    tops = [a for a in argv if not a.startswith("--")]
    own, words = collect()
    turned, said = table(own, words)
    for line in said:
        print(line)
    print(f"{len(turned)} names of {len(own)}")
    if report:
        return 0
    changed = 0
    for top in tops or ["crates", "tests/must-fail"]:
        for path in files_below(top, ".antt", ".rt", ".edit"):
            with open(path, encoding="utf-8") as f:
                text = f.read()
            new = WORD.sub(lambda m: turned.get(m.group(0), m.group(0)), text)
            if new != text:
                with open(path, "w", encoding="utf-8") as f:
                    f.write(new)
                changed += 1
    for top in tops or ["docs", "README.md", "CONTRIBUTING.md"]:
        for path in files_below(top, ".md"):
            with open(path, encoding="utf-8") as f:
                text = f.read()
            new = re.sub(r"`[^`\n]+`", lambda s: WORD.sub(lambda m: turned.get(m.group(0), m.group(0)), s.group(0)), text)
            if new != text:
                with open(path, "w", encoding="utf-8") as f:
                    f.write(new)
                changed += 1
    print(f"{changed} files written")
    return 0


if __name__ == "__main__":
    raise SystemExit(main(sys.argv[1:]))
