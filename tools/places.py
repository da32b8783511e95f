#!/usr/bin/env python3
"""Counts the places of docs/DESIGN-PASS.md in crates/*/src, point by point.

Each point has one or more searches, written below as they are run. A place is a line, an enum, a struct, a loop or a function, as the
search says. Usage: tools/places.py [--list] [COMMIT]; --list prints every place, COMMIT is read in place of the work tree.
"""

import re
import subprocess
import sys

args = [a for a in sys.argv[1:] if a != "--list"]
show = "--list" in sys.argv
commit = args[0] if args else None


def run(*words):
    return subprocess.run(words, check=True, capture_output=True, text=True).stdout


def sources():
    if commit:
        names = run("git", "ls-tree", "-r", "--name-only", commit, "crates").split()
        return {n: run("git", "show", f"{commit}:{n}") for n in names if "/src/" in n and n.endswith(".rt")}
    names = [n for n in run("git", "ls-files", "crates").split() if "/src/" in n and n.endswith(".rt")]
    return {n: open(n).read() for n in names}


FILES = sources()
# a line of code: no comment
CODE = {n: [(i + 1, l) for i, l in enumerate(t.split("\n")) if not l.lstrip().startswith("//")] for n, t in FILES.items()}


def lines(pattern):
    found = []
    for n, ls in CODE.items():
        for i, l in ls:
            if re.search(pattern, l):
                found.append(f"{n}:{i}: {l.strip()}")
    return found


def blocks(head):
    """Items from a line that matches head to the line that closes it."""
    found = []
    for n, ls in CODE.items():
        i = 0
        while i < len(ls):
            if re.match(head, ls[i][1]):
                j = i
                while j < len(ls) and ls[j][1].rstrip() not in ("}", ")"):
                    j += 1
                found.append((f"{n}:{ls[i][0]}", [l for _, l in ls[i : j + 1]]))
                i = j
            i += 1
    return found


def enums():
    bad = r"^\s+(Refused\(u8\)|Unread|None(\([A-Z]\w*\))?),$"
    return [f"{at}: {b[0].strip()}" for at, b in blocks(r"(pub )?enum ") if any(re.match(bad, l) for l in b)]


def flagged():
    bad = r"^\s+(pub )?(fits|some|reads|goes|ended|by_month|refusal|case|unit|tested): (bool|u8|i64|u64)"
    return [f"{at}: {b[0].strip()}" for at, b in blocks(r"(pub )?struct ") if any(re.match(bad, l) for l in b)]


def functions():
    for n, t in FILES.items():
        for m in re.finditer(r"(?m)^( *)(?:#\[[^\n]*\n *)?(?:pub )?(?:extern \"C\" )?fn (\w+)(.*?)\n\1\}$", t, re.S):
            line = t[: m.start()].count("\n") + 1
            yield f"{n}:{line}", m.group(2), m.group(3)


def body_of(rest):
    at = rest.find("\n{")
    return rest[:at], rest[at:]


def shape(rest):
    """The signature and body with names and numbers numbered by their first place, so that twins are equal."""
    sig, body = body_of(rest)
    sig = re.split(r"\n\s+(?:requires|ensures)", sig)[0]
    text = re.sub(r"//[^\n]*", "", sig + body)
    seen = {}

    def name(m):
        w = m.group(0)
        if w in KEEP:
            return w
        return "#" + str(seen.setdefault(w, len(seen)))

    return re.sub(r"\s+", " ", re.sub(r"[A-Za-z_]\w*|\d+|b'.'|b\"[^\"]*\"", name, text)).strip()


KEEP = {"fn", "let", "mut", "if", "else", "while", "for", "in", "match", "return", "as", "true", "false", "self"}


def twins():
    groups = {}
    for at, n, rest in functions():
        if "crates/ordered_c/" in at:
            continue
        s = shape(rest)
        if s.count("#") >= 12:
            groups.setdefault(s, []).append(f"{at}: {n}")
    return [" = ".join(g) for g in groups.values() if len(g) > 1]


def facts():
    """Facts in the requires of three or more functions of the library, by their words alone."""
    where = {}
    for at, n, rest in functions():
        for clause in re.findall(r"requires \{(.*?)\}\n", rest, re.S):
            for part in clause.split("×"):
                p = re.sub(r"\s+", " ", part).strip(" ()")
                p = re.sub(r"\b[a-z]\b", "_", p)
                where.setdefault(p, set()).add(f"{at}: {n}")
    return [f"{len(fs)} functions: {p}" for p, fs in sorted(where.items()) if len(fs) > 2]


def travelling():
    """Two or more parameters that stand side by side, by name and type, in three or more functions."""
    where = {}
    for at, n, rest in functions():
        if "crates/" + at.split("/")[1] + "/" in C_CALLS:
            continue
        sig = re.split(r"\n\s+(?:requires|ensures)|\n\{| \{\n", rest)[0]
        m = re.match(r"(?:<[^>]*>)?\((.*?)\)\s*(?:->|$|\n)", sig, re.S)
        if not m:
            continue
        ps = [re.sub(r"\s+", " ", p).strip() for p in m.group(1).split(",") if p.strip()]
        for i in range(len(ps) - 1):
            where.setdefault((ps[i], ps[i + 1]), set()).add(f"{at}: {n}")
    return [f"{len(fs)} functions: {a}, {b}" for (a, b), fs in sorted(where.items()) if len(fs) > 2]


def switches():
    test = r"monthly\(|yearly\(|weekly\(|is_duration\(|kind <=|<= kind|unit ==|\.case\b"
    found = []
    for at, n, rest in functions():
        _, body = body_of(rest)
        if len(re.findall(r"\bif [^{]*(?:" + test + ")", body)) >= 2:
            found.append(f"{at}: {n}")
    return found


C_CALLS = ("crates/ordered/", "crates/ordered_c/", "crates/promises/")


def numbered(of_calls):
    found = lines(r"\b(kind|case|unit|segment): (i64|u64)")
    return [f for f in found if f.startswith(C_CALLS) == of_calls]


def printers():
    return [f"{at}: {n}" for at, n, rest in functions() if re.search(r"\bout: &mut (?:\[u8\]|Output)", body_of(rest)[0])]


def answers():
    names = run("git", "ls-tree", "-r", "--name-only", commit or "HEAD", "crates").split()
    return [n for n in names if n.endswith(("/Answers.antt", "/Invariants.antt")) and n.count("/") > 3]


POINTS = [
    ("1 own enums shaped like Option or Result: enums with a variant Refused(u8), Unread or None", enums),
    ("1 a flag or a number of a refusal or case beside values: structs with fits, some, reads, goes, ended, by_month, refusal, case, unit", flagged),
    ("1 numbers for refusals: functions that answer u8, parameters q: u8", lambda: lines(r"-> u8\b|\bq: u8\b|Refused\(\d+\)")),
    ("1 numbers for kinds, cases and units, in the crates of the C calls (ordered, ordered_c, promises)", lambda: numbered(True)),
    ("1 the same in all other crates", lambda: numbered(False)),
    ("2 twins: functions of one shape, with other names, types and numbers", twins),
    ("3 loops that count by hand: while", lambda: lines(r"^\s+while ")),
    ("3 loops over a range of indices: for i in 0..", lambda: lines(r"^\s+for \w+ in \w*\.\.")),
    ("4 equality of numbers by two tests: (x <= y) & (y <= x), !=0 pairs", lambda: lines(r"\((-?\w+(?:\.\w+)?) <= ([\w.]+)\) & \(\2 <= \1\)")),
    ("4 order, equality and copying by hand: fn same, earlier, differ, equal", lambda: lines(r"\bfn (same|earlier|differ|equals?|is_names)\b")),
    ("4 conversions by hand: fn as_count, widened, flag, pos_part, axis_of, head_tail, .._reply, segment_of, unit_of, kind_of", lambda: lines(r"\bfn (as_count|widened|flag|pos_part|axis_of|head_tail|\w+_reply|segment_of|unit_of|kind_of)\b")),
    ("4 printing by hand: functions that write text into a lent buffer", printers),
    ("5 facts in the requires of three or more functions", facts),
    ("5 parameters side by side in three or more functions, outside the crates of the C calls", travelling),
    ("6 a buffer or text and a place or length beside it", lambda: lines(r"&(mut )?\[\w+\], (at|n|from|len): usize|rows: \[|\bcount: usize|\blen: usize")),
    ("7 functions that switch on a kind, unit or case by tests", switches),
    ("8 files of answers and invariants", answers),
]

for title, search in POINTS:
    found = search()
    print(f"{len(found):5} {title}")
    if show:
        for f in found:
            print("        ", f)
