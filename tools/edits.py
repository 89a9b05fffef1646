#!/usr/bin/env python3
"""The must-fail edits against today's text: whether every edit applies. With --spell it writes the mechanical part of today's spelling into them first.

usage: tools/edits.py [--spell] [CRATE..]      at the top of the repository
"""
import difflib
import pathlib
import re
import sys

ROOT = pathlib.Path(__file__).resolve().parent.parent


def read(edit):
    """The file of an edit, and its pairs."""
    path, pairs, old = None, [], None
    for line in edit.read_text().split("\n"):
        if line.startswith("file: "):
            path = line[6:].strip()
        elif line.startswith("old: "):
            old = line[5:]
        elif line.startswith("new: ") or line == "new:":
            pairs.append((old, line[5:]))
    return path, pairs


def spelt(line):
    """A line of an edit as port.py spells such a line."""
    line = line.replace("′", "'").replace("getD", "get_or")
    line = re.sub(r"Rattle·(\w+)(?:·specs)?\.specs", r"Rattle.\1.specs", line)
    line = re.sub(r"(?<![\w_])_([^\w\s(){}\[\]_.,;:]+)_(?![\w_])", r"◌\1◌", line)
    line = re.sub(r"([^\s(){}]) \.([a-z]\w*)", r"\1.\2", line)
    return line


def faults(edit, path, pairs):
    where = edit.parent.parent / path
    if not where.exists():
        yield f"no file {path}", None, []
        return
    text = where.read_text()
    for old, new in pairs:
        if text.count(old) != 1:
            near = difflib.get_close_matches(old.strip(), [x.strip() for x in text.split("\n")], 2, 0.3)
            yield f"{text.count(old)} times", old, near
            continue
        text = text.replace(old, new)


def main():
    names = [a for a in sys.argv[1:] if a != "--spell"]
    edits = sorted(e for e in ROOT.glob("crates/*/must-fail/*.edit") if not names or e.parts[-3] in names)
    bad = 0
    for edit in edits:
        if "--spell" in sys.argv:
            lines = edit.read_text().split("\n")
            edit.write_text("\n".join(x[:5] + spelt(x[5:]) if x.startswith(("old: ", "new: ")) else x for x in lines))
        path, pairs = read(edit)
        for what, old, near in faults(edit, path, pairs):
            bad += 1
            print(f"{edit.parts[-3]}/{edit.stem} ({path}): {what}: {old}")
            for line in near:
                print(f"    today: {line}")
    print(f"edits: {len(edits)}, {bad} texts do not stand once")
    return 1 if bad else 0


if __name__ == "__main__":
    sys.exit(main())
