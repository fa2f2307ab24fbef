#!/usr/bin/env python3
"""Brings this repository's own definitions and lemmas to the spelling of the Rattle that it is written for: words in snake case, a prime as an apostrophe.

usage: tools/respell.py [--list]        at the top of the repository, once, over the tree that the kit's scripts have turned

`eachKept` becomes `each_kept`; a lemma `kept-start` becomes `kept_start`, and keeps its dash where both of its sides are definitions, as in `length-drop`. Types, and facts spelled
as types, keep their capital. Functions of src/, exported names, strings, inputs and outputs are not touched. A name that would fall together with another gets `_of`.
--list prints the names and writes nothing.
"""

import os
import re
import sys

W = r"[^\s(){}.;,@\"«»\[\]\\|`]+"
TOKEN = re.compile(W)
HEAD = re.compile(r"^(?P<indent> *)(?:(?:pub|abbrev|unfoldable|data|record|infix[lr]? \d+)\s+)*(?P<names>(?:" + W + r"\s+)*?" + W + r")\s+:\s")
# Names that stay, since the logic or the kit has them.
STAYS = set("if-then-else".split())


def files(*ends):
    for folder, dirs, names in os.walk("."):
        dirs[:] = sorted(d for d in dirs if d not in ("out", ".git", "target", "node_modules"))
        for f in sorted(names):
            if f.endswith(ends):
                yield os.path.join(folder, f)[2:]


def read(path):
    with open(path, encoding="utf-8", newline="") as it:
        return it.read()


def is_function_proof(path):
    return os.path.basename(path) in ("Proof.antt", "Invariants.antt", "Answers.antt")


def declared(text):
    """The names that a file of specs/ or proofs/ declares: definitions, lemmas, constructors and fields."""
    for line in text.splitlines():
        m = HEAD.match(line)
        if m and not line.lstrip().startswith(("--", "use ", "let ", "in ", "(", "λ")):
            for n in m.group("names").split():
                yield n


def snake(name):
    return re.sub(r"(?<=[a-z0-9'])([A-Z])", lambda m: "_" + m.group(1).lower(), name)


def is_word(part):
    return re.fullmatch(r"[a-z][a-z0-9_'₀-₉]*", part) is not None


def renamed():
    """The new name of each name that changes, and the fields among them."""
    specs, proofs, fields, source, seen = {}, {}, set(), set(), set()
    for path in files(".antt"):
        if path.startswith("crates/"):
            text = read(path)
            seen |= set(re.findall(r"(?<![\w.'-])" + W, re.sub(r"--[^\n]*", "", text)))
            if not is_function_proof(path):
                for n in declared(text):
                    (specs if "/specs/" in path else proofs).setdefault(n, path)
                for block in re.findall(r"^(?:pub )?record .*\n((?:  .*\n|\n)*)", text, re.M):
                    fields |= set(re.findall(r"^  (?:pub )?(" + W + r") :", block, re.M))
    for path in files(".rt"):
        if path.startswith("crates/"):
            source |= set(re.findall(r"\b([a-z_]\w*)\s*:(?!:)", re.sub(r"//[^\n]*", "", read(path))))
    own = {**proofs, **specs}
    whole = {snake(n) for n in own if "-" not in n and re.match(r"[a-z]", n)}
    new = {}
    for n in own:
        if n in STAYS or not re.match(r"[a-z]", n) or "◌" in n:
            continue
        parts = [snake(p) for p in n.replace("′", "'").split("-")]
        out = parts[0]
        for before, after in zip(parts, parts[1:]):
            out += ("_" if is_word(before) and is_word(after) and not (before in whole and after in whole) else "-") + after
        if out != n:
            new[n] = out
    taken = (set(own) | seen) - set(new)
    # definitions first: where two fall together, the lemma is the one that gets a word more
    for n in sorted(new, key=lambda n: (n not in specs, n)):
        out = new[n]
        if n in fields:
            continue
        while out in taken or (n in specs and out in source):
            out += "_lem" if n not in specs else "_of"
        new[n] = out
        taken.add(out)
    return new, fields


def turned(path, text, new, fields):
    """`text` with the names in their new spelling: all tokens of antt, and of Rust's files the clauses and `ghost use` items; in comments and pages what has a capital or stands in backticks."""

    named = set(re.findall(r"^use \S+ as ([\w'-]+)", text, re.M)) - {"tie", "lts", "goal", "reads"}

    def token(m):
        n = m.group(0)
        # behind a dot a proof of a function names what Rattle makes, but where the dot follows a module that the file gave a name
        before = re.search(r"([\w'-]+)\.$", m.string[: m.start()])
        made = before and is_function_proof(path) and before.group(1) not in named and n not in fields and "-" in n
        return n if made else new.get(n, n)

    def camel(m):
        w = m.group(0)
        return new.get(w, w) if re.search("[a-z][A-Z]", w) else w

    def ticks(m):
        return TOKEN.sub(token, m.group(0))

    def comment(c):
        return TOKEN.sub(camel, re.sub(r"`[^`\n]*`", ticks, c))

    mark = "--" if path.endswith(".antt") else "//"
    if path.endswith(".md"):
        return comment(text)
    out = []
    for line in text.split("\n"):
        if path.endswith(".edit"):
            out.append(TOKEN.sub(token, line) if line.startswith(("old:", "new:")) else line)
            continue
        at = re.search(r"(?:^|\s)" + mark + r"(?:\s|$)", line)
        cut = at.start() if at else len(line)
        code, rest = line[:cut], line[cut:]
        out.append((TOKEN.sub(token, code) if '"' not in code else TOKEN.sub(camel, code)) + comment(rest))
    return "\n".join(out)


def main():
    new, fields = renamed()
    if "--list" in sys.argv:
        for n in sorted(new):
            print(n, new[n])
        return
    for path in [*files(".antt", ".rt", ".edit"), *(p for p in files(".md") if p == "README.md" or p.startswith("docs/"))]:
        text = read(path)
        to = turned(path, text, new, fields)
        if to != text:
            with open(path, "w", encoding="utf-8", newline="") as it:
                it.write(to)


main()
