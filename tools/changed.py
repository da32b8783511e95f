#!/usr/bin/env python3
"""Writes the last part of docs/DESIGN-PASS.md: what changed since a commit, old and new, one above the other.

Public functions with their clauses, public types with their ghost fields, definitions of specs/, and of proofs/ the theorems that
README.md or a page of docs/ named at that commit. What moved to another file of its crate under its name is not new. Usage:
  tools/changed.py COMMIT           prints it
  tools/changed.py COMMIT --write   puts it behind the line MARK of the page
"""

import pathlib
import re
import subprocess
import sys

ROOT = pathlib.Path(__file__).resolve().parent.parent
PAGE = ROOT / "docs" / "DESIGN-PASS.md"
MARK = "## Old and new, one above the other\n"
commit = sys.argv[1]


def git(*words):
    return subprocess.run(["git", *words], cwd=ROOT, check=True, capture_output=True, text=True).stdout


def at_commit(want):
    names = [n for n in git("ls-tree", "-r", "--name-only", commit).split("\n") if want(n)]
    return {n: git("show", f"{commit}:{n}") for n in names}


def in_tree(want):
    return {n: (ROOT / n).read_text() for n in git("ls-files").split("\n") if want(n) and (ROOT / n).is_file()}


def code(n):
    return n.startswith("crates/") and "/src/" in n


def specs(n):
    return n.startswith("crates/") and "/specs/" in n and not n.endswith("/Lib.antt")


def proofs(n):
    return n.startswith("crates/") and n.count("/") == 3 and "/proofs/" in n


def one(text):
    return " ".join(text.split())


def items(files):
    """Public functions up to their body, and public types, by crate and name."""
    found = {}
    for n, t in files.items():
        crate = n.split("/")[1]
        t = re.sub(r"^ *//.*\n", "", t, flags=re.M)
        for m in re.finditer(r"^( *)(?:#\[[^\n]*\n *)*pub (?:extern \"C\" )?fn (\w+).*?\n\1\{$|^pub fn (\w+)[^\n]*\{$", t, re.S | re.M):
            text = re.sub(r"\s*\{$", "", m.group(0))
            found[(crate, "fn " + (m.group(2) or m.group(3)))] = one(text)
        for m in re.finditer(r"^(?:#\[[^\n]*\n)*pub (struct|enum|type) (\w+).*?(?:\n\}|;)$", t, re.S | re.M):
            found[(crate, f"{m.group(1)} {m.group(2)}")] = one(m.group(0))
        for m in re.finditer(r"^impl ([^\n]*) for (\w+) \{\n((?:    ghost [^\n]*\n|\n|    type [^\n]*\n)*)", t, re.M):
            found[(crate, f"impl {m.group(1)} for {m.group(2)}")] = one(m.group(0))
    return found


def definitions(files):
    found = {}
    head = re.compile(r"^(?:(?:unfoldable|abbrev|pub|data|record) )+(\S+)(?= [:(])")
    for n, t in files.items():
        crate = n.split("/")[1]
        for block in re.split(r"\n\s*\n", re.sub(r"^ *--.*\n", "", t, flags=re.M)):
            block = re.sub(r"^ *use .*\n?", "", block, flags=re.M).strip("\n")
            m = head.match(block.strip())
            if m:
                found[(crate, m.group(1))] = one(block)
    return found


def theorems(files, named):
    found = {}
    for n, t in files.items():
        crate = n.split("/")[1]
        for m in re.finditer(r"^( *)pub ([\w-]+) : (.*?)(?=^\1\2\b[^:\n]* =|^\1unfolding )", t, re.S | re.M):
            if m.group(2) in named:
                found[(crate, m.group(2))] = one(m.group(3))
    return found


def part(title, old, new):
    lines = []
    same = sum(old.get(k) == v for k, v in new.items())
    for k in sorted(set(old) | set(new)):
        if old.get(k) == new.get(k):
            continue
        lines.append(f"{k[0]} {k[1]}")
        lines += [f"- {old[k]}"] if k in old else []
        lines += [f"+ {new[k]}"] if k in new else []
        lines.append("")
    changed = sum(k in old and k in new and old[k] != new[k] for k in set(old) | set(new))
    gone, fresh = len(set(old) - set(new)), len(set(new) - set(old))
    head = f"### {title}\n\n{same} the same, {changed} changed, {gone} gone or moved, {fresh} new.\n"
    return head + ("\n```\n" + "\n".join(lines).rstrip() + "\n```\n" if lines else "")


pages = at_commit(lambda n: n == "README.md" or (n.startswith("docs/") and n.endswith(".md")))
named = set(re.findall(r"`([\w-]+)`", "\n".join(pages.values())))
text = "\n".join(
    [
        part("Public functions and types", items(at_commit(code)), items(in_tree(code))),
        part("Definitions", definitions(at_commit(specs)), definitions(in_tree(specs))),
        part("Theorems that a page named", theorems(at_commit(proofs), named), theorems(in_tree(proofs), named)),
    ]
)
if "--write" in sys.argv:
    page = PAGE.read_text()
    PAGE.write_text(page[: page.index(MARK) + len(MARK)] + "\n" + text)
else:
    print(text)
