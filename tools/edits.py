#!/usr/bin/env python3
"""edits [CRATE..]: the must-fail edits whose text doesn't fit the files as they stand, one line each; exit status 1 if there is one.

An edit of crates/NAME/must-fail/ is a line `file: PATH` and then pairs of lines `old: TEXT` and `new: TEXT`. It fits where each old text stands in the
file exactly once, after the pairs before it were applied, and the file it makes is another one. No other line is read."""
import glob
import os
import sys

ROOT = os.path.dirname(os.path.dirname(os.path.realpath(__file__)))


def read(path):
    with open(path, encoding="utf-8") as f:
        return f.read()


def parsed(text):
    """The file of an edit, and its pairs."""
    file, pairs, old = None, [], None
    for line in text.split("\n"):
        if line.startswith("file: "):
            file = line[len("file: "):].strip()
        elif line.startswith("old: "):
            old = line[len("old: "):]
        elif line.startswith("new:"):
            pairs.append((old, line[len("new:"):].removeprefix(" ")))
            old = None
    return file, pairs


def fault(path):
    """What doesn't fit, or None."""
    file, pairs = parsed(read(path))
    source = os.path.join(os.path.dirname(os.path.dirname(path)), file or "")
    if not file or not os.path.isfile(source):
        return f"no file {file}"
    if not pairs:
        return "no pair of old and new"
    before = text = read(source)
    for old, new in pairs:
        if not old or text.count(old) != 1:
            return f"{file} has {text.count(old) if old else 'no'} times: {old}"
        text = text.replace(old, new)
    return "it changes nothing" if text == before else None


def main():
    paths = sorted(glob.glob(os.path.join(ROOT, "crates", "*", "must-fail", "*.edit")))
    if sys.argv[1:]:
        paths = [p for p in paths if p.split(os.sep)[-3] in sys.argv[1:]]
    bad = 0
    for path in paths:
        said = fault(path)
        if said:
            bad += 1
            print(f"{os.path.relpath(path, ROOT)}: {said}")
    print(f"{len(paths)} edits, {bad} that don't fit")
    sys.exit(1 if bad else 0)


main()
