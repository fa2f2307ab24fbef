#!/usr/bin/env python3
"""places [--list] [POINT..]: counts, in crates/*/src, the places that docs/DESIGN-PASS.md speaks of; with --list each one, as FILE:LINE TEXT.

It goes by the text, so that the same rule counts before and after; what stays is named in the page."""
import glob
import os
import re
import sys

ROOT = os.path.dirname(os.path.dirname(os.path.realpath(__file__)))
FILES = sorted(glob.glob(os.path.join(ROOT, "crates", "*", "src", "**", "*.rt"), recursive=True))


def lines():
    for path in FILES:
        with open(path, encoding="utf-8") as f:
            for n, line in enumerate(f.read().split("\n"), 1):
                if not line.strip().startswith("//"):
                    yield os.path.relpath(path, ROOT), n, line


def matching(pattern):
    return [(p, n, l.strip()) for p, n, l in lines() if re.search(pattern, l)]


def functions():
    """(file, line, name, parameters, clauses, body) of each function with a body."""
    for path in FILES:
        with open(path, encoding="utf-8") as f:
            text = f.read()
        for m in re.finditer(r"^( *)(?:#\[[^\n]*\n *)*((?:pub(?:\(crate\))? )?(?:unsafe )?(?:extern \"C\" )?fn (\w+))", text, re.M):
            end = re.search(rf"^{m.group(1)}\}}", text[m.end():], re.M)
            if end is None:
                continue
            whole = text[m.start(2):m.end() + end.end()]
            opened = re.search(rf"^{m.group(1)}\{{$", whole, re.M)
            head, body = (whole[:opened.start()], whole[opened.start():]) if opened else whole.split("{", 1)
            yield os.path.relpath(path, ROOT), text.count("\n", 0, m.start(2)) + 1, m.group(3), head, body


def enums():
    """Own enums of two cases, of which one holds something: the shape of Option or Result."""
    found = []
    for path in FILES:
        with open(path, encoding="utf-8") as f:
            text = f.read()
        for m in re.finditer(r"^ *(?:pub(?:\(crate\))? )?enum (\w+)[^{\n]*\{\n(.*?)^ *\}", text, re.M | re.S):
            cases = [c for c in re.findall(r"^ *(\w+(?:\(.*\))?),$", m.group(2), re.M)]
            if len(cases) == 2 and any("(" in c for c in cases):
                found.append((os.path.relpath(path, ROOT), text.count("\n", 0, m.start()) + 1, f"enum {m.group(1)}: {', '.join(cases)}"))
    return found


def flags():
    """A field that is true or false, or an answer, in a struct that holds other things beside it."""
    found = []
    for path in FILES:
        with open(path, encoding="utf-8") as f:
            text = f.read()
        for m in re.finditer(r"^ *(?:pub(?:\(crate\))? )?struct (\w+)[^{\n;(]*\{\n(.*?)^ *\}", text, re.M | re.S):
            fields = re.findall(r"^ *(?:pub(?:\(crate\))? )?(\w+): (.*),$", m.group(2), re.M)
            for name, kind in fields:
                if len(fields) > 1 and (kind == "bool" or kind == "Answer"):
                    found.append((os.path.relpath(path, ROOT), text.count("\n", 0, m.start()) + 1, f"struct {m.group(1)}: {name}: {kind} beside {len(fields) - 1}"))
    return found


TOKEN = re.compile(r"[A-Za-z_]\w*|\d[\d_]*|[^\s\w]")
KEEP = {"if", "else", "match", "while", "for", "in", "loop", "return", "let", "mut", "fn", "as", "true", "false", "break", "continue"}


def shape(body):
    seen = {}
    out = []
    for t in TOKEN.findall(re.sub(r"//[^\n]*", "", body)):
        if re.match(r"[A-Za-z_]", t) and t not in KEEP:
            out.append(f"x{seen.setdefault(t, len(seen))}")
        elif t[0].isdigit():
            out.append("0")
        else:
            out.append(t)
    return out


def twins():
    """Functions whose bodies are equal but for names and numbers, of 12 tokens or more: all but the first of each group."""
    groups = {}
    for path, n, name, _, body in functions():
        s = shape(body)
        if len(s) >= 12:
            groups.setdefault(" ".join(s), []).append((path, n, name))
    return [(p, n, f"fn {name} ~ fn {g[0][2]} ({g[0][0]}:{g[0][1]})") for g in groups.values() for p, n, name in g[1:]]


def repeated_facts():
    """Conjuncts of `requires` that stand, but for the names of variables, in three functions or more of a crate: one row a fact and crate."""
    groups = {}
    for path, n, name, head, _ in functions():
        crate = path.split("/")[1]
        facts = set()
        for clause in re.findall(r"requires[^{\n]*\{(.*?)\}\s*(?=\n *(?:requires|ensures)|\Z|$)", head, re.S | re.M):
            for fact in clause.split("×"):
                facts.add(re.sub(r"\s+", " ", fact).strip(" ()"))
        for fact in facts:
            groups.setdefault((crate, fact), []).append((path, n, name))
    return [(g[0][0], g[0][1], f"{len(g)} functions of {crate}: {fact}") for (crate, fact), g in groups.items() if len(g) >= 3]


def lengths_beside():
    """A slice or an array as a parameter, and a count of type usize named n, m, count, held or room behind it."""
    found = []
    for path, n, name, head, _ in functions():
        flat = re.sub(r"\s+", " ", head.split("requires")[0].split("ensures")[0])
        if re.search(r": &(?:'\w+ )?(?:mut )?\[[^\]]*\].*\b(?:n|m|count|held|room): usize", flat):
            found.append((path, n, f"fn {name}"))
    for path in FILES:
        with open(path, encoding="utf-8") as f:
            text = f.read()
        for m in re.finditer(r"^ *(?:pub(?:\(crate\))? )?struct (\w+)[^{\n;(]*\{\n(.*?)^ *\}", text, re.M | re.S):
            fields = re.findall(r"^ *(?:pub(?:\(crate\))? )?(\w+): (.*),$", m.group(2), re.M)
            if any(k.startswith("[") for _, k in fields) and any(k == "usize" and re.search("count|held|filled|len", f) for f, k in fields):
                found.append((os.path.relpath(path, ROOT), text.count("\n", 0, m.start()) + 1, f"struct {m.group(1)}"))
    return found


POINTS = [
    ("1a own enums of two cases, one of which holds something", enums),
    ("1b a flag or an answer beside values", flags),
    ("1c answers compared by their numbers, numbers for answers handed out", lambda: matching(r"number\(\) *(==|!=|<|>)|number: &mut u64")),
    ("2 functions equal but for names and numbers", twins),
    ("3 while and loop", lambda: matching(r"^\s*('\w+: )?(while|loop)\b")),
    ("3 of these, an index stepped by hand", lambda: matching(r"^\s*\w+ (\+|-)= (1|2|4|8);$")),
    ("4a `field: field`", lambda: [(p, n, l) for p, n, l in matching(r"^\s*(\w+): \1,$")]),
    ("4b a test of its own for each part of an `and`", lambda: [x for x in refusals()]),
    ("4c equality, least, widening and counting of a bool as functions", lambda: matching(r"fn (same|least|wide|count)\(")),
    ("5 facts in the `requires` of three functions or more of a crate", repeated_facts),
    ("6 a slice or array with its length beside it", lengths_beside),
    ("7 a match on a number", lambda: matching(r"^\s*(b?'.'|b'.'|\d+|0x[0-9a-f]+) => ")),
]


def refusals():
    for path, n, _, _, body in functions():
        rows = body.split("\n")
        for i in range(len(rows) - 2):
            if re.match(r"\s*if .*\{$", rows[i]) and re.match(r"\s*return false;$", rows[i + 1]) and rows[i + 2].strip() == "}":
                yield path, n, rows[i].strip()


def main():
    args = sys.argv[1:]
    whole = "--list" in args
    wanted = [a for a in args if a != "--list"]
    for name, count in POINTS:
        if wanted and not any(name.startswith(w) for w in wanted):
            continue
        rows = list(count())
        print(f"{len(rows):5}  {name}")
        if whole:
            for path, n, text in rows:
                print(f"       {path}:{n} {text}")


main()
