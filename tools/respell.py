#!/usr/bin/env python3
"""Brings the repository's own definitions and lemmas to the spelling of today's Rattle: words in snake case, a dash only between two names.

usage: tools/respell.py               at the top of the repository, once, after the kit's port.py: turns the names of tools/respell.tsv
       tools/respell.py --check       what would fall together, by the table made anew
       tools/respell.py --map         prints the table made anew, names old and new (tools/respell.tsv is the one that was used)

Names declared in specs/ and in the lemma files of proofs/ turn, in those files, in the clauses of src/, in proofs, in must-fail edits and in the pages of
docs/. A dash stays where both sides are names of definitions, facts or types (of this repository or of the library), as in `length-drop`; a plain word is
added with an underscore. Functions of src/, exported names, strings, inputs and outputs have no such names and stay. A file specs/Contracts.antt becomes
specs/Clauses.antt, since Rattle makes a module of the old name.
"""
import glob
import os
import re
import subprocess
import sys

WORD = re.compile(r'[^\s(){}.;,@"«»`|]+')
DECLARED = re.compile(
    r"^\s*(?:(?:pub|abbrev|unfoldable|open|data|record)\s+)*(?:\|\s*)?([^\s(){}:,;.|]+)(?:\s+\(.*\))?(?:\s+\{.*\})?\s*:(?:\s|$)", re.M)
IMPORTED = re.compile(r"\buse ([^\s;{]+)\.\{([^}]*)\}")
# Where two names would fall together, or with a name of the library or of src/.
OTHERWISE = {
    "content-numbers": "content_numbers_lem",
    "cost-in": "cost_in_lem",
    "cost-under": "cost_under_lem",
    "costs-in": "costs_in_lem",
    "driver-in": "driver_in_lem",
    "kind-in": "kind_in_lem",
    "layer-in": "layer_in_lem",
    "layers-in": "layers_in_lem",
    "mark-number": "mark_number_lem",
    "meets-timing": "meets_timing_lem",
    "nodes-in": "nodes_in_lem",
    "numbers-in": "numbers_in_lem",
    "sink-limit": "sink_limit_lem",
    "slack-without": "slack_without_lem",
    "totals-text": "totals_text_lem",
    "asked_in": "asked_in_range",
    "at_stage": "at_each_stage",
    "too_long": "too_long_is_none",
    "tagOf": "tag_for",
}


def lemma_files():
    found = []
    for p in sorted(glob.glob("crates/*/specs/**/*.antt", recursive=True) + glob.glob("crates/*/proofs/*.antt")):
        found.append(p)
    return found


def read(p):
    with open(p, encoding="utf-8") as f:
        return f.read()


def snake(part):
    return re.sub(r"(?<=[a-z0-9])[A-Z](?![A-Z]|$)", lambda m: "_" + m[0].lower(), part) if part[:1].islower() else part


def snake_all(part):
    part = snake(part)
    # A capital at the end, or before another: netA, leastZ, netAHex.
    if part[:1].islower():
        part = re.sub(r"(?<=[a-z0-9])([A-Z])", lambda m: "_" + m[0].lower(), part)
        part = re.sub(r"([A-Z])", lambda m: "_" + m[0].lower(), part)
    return part


def table():
    declared, imported = set(), set()
    for p in lemma_files():
        t = read(p)
        for m in DECLARED.finditer(t):
            declared.add(m[1])
        for m in IMPORTED.finditer(t):
            if not m[1].startswith("Rattle.") or m[1].startswith("Rattle.std"):
                imported |= {w.strip() for w in m[2].split(",")}
    heads = {snake_all(n) for n in declared | imported if "-" not in n}
    heads |= {n for n in declared | imported if "-" not in n}
    rows = {}
    for n in sorted(declared):
        if not re.match(r"[A-Za-z]", n) or n in imported or re.search(r"[◌≤≡<+*∷]", n):
            continue
        parts = [snake_all(x) for x in n.split("-")]
        new = parts[0]
        for a, b in zip(parts, parts[1:]):
            named = (a in heads or a[:1].isupper()) and (b in heads or b[:1].isupper())
            new += ("-" if named else "_") + b
        new = OTHERWISE.get(n, new)
        if new != n:
            rows[n] = new
    return rows, declared, imported


def turn(text, rows, dashed=True):
    def one(m):
        w = m[0]
        if w in rows and (dashed or "-" not in w):
            return rows[w]
        core = re.match(r"(.*?)([:'?!*]*)$", w)
        if core[1] in rows and (dashed or "-" not in core[1]):
            return rows[core[1]] + core[2]
        return w
    return WORD.sub(one, text)


def turn_antt(text, rows):
    out = []
    for line in text.split("\n"):
        m = re.search(r"(^|\s)-- ", line)
        if m and not line[:m.start()].count('"') % 2:
            code, comment = line[:m.start()], line[m.start():]
            out.append(turn(code, rows) + turn_prose(comment, rows))
        else:
            out.append(turn(line, rows))
    return "\n".join(out)


def turn_prose(text, rows):
    # In prose a name with a dash turns inside backquotes alone: outside it may be plain words.
    pieces = re.split(r"(`[^`\n]*`)", text)
    return "".join(turn(x, rows, i % 2 == 1) for i, x in enumerate(pieces))


def turn_rt(text, rows):
    out = []
    for line in text.split("\n"):
        m = re.search(r"(^|\s)//", line)
        if m and not line[:m.start()].count('"') % 2:
            out.append(turn_strings(line[:m.start()], rows) + turn_prose(line[m.start():], rows))
        else:
            out.append(turn_strings(line, rows))
    return "\n".join(out)


def turn_strings(line, rows):
    pieces = re.split(r'("(?:[^"\\]|\\.)*")', line)
    return "".join(x if i % 2 else turn(x, rows) for i, x in enumerate(pieces))


def clash(rows, declared, imported):
    by = {}
    for old, new in rows.items():
        by.setdefault(new, []).append(old)
    for new, olds in sorted(by.items()):
        if len(olds) > 1 or new in declared or new in imported:
            print("clash:", new, olds, "declared" if new in declared else "", "imported" if new in imported else "")
    for p in sorted(glob.glob("crates/*/src/*.rt")):
        t = read(p)
        ours = {rows[w] for w in WORD.findall(t) if w in rows}
        names = set(re.findall(r"\b(\w+): ", t)) | set(re.findall(r"\blet (?:mut )?(\w+)", t))
        for w in sorted(ours & names):
            print("look:", p, "has a parameter, a local or a field", w)
    for p in sorted(glob.glob("crates/**/*.antt", recursive=True)):
        t = read(p)
        words = set(WORD.findall(t))
        ours = {rows[w] for w in words if w in rows}
        for w in sorted(ours & words):
            print("look:", p, "has", w, "already")


def main(argv):
    rows, declared, imported = table()
    if "--map" in argv:
        for old, new in rows.items():
            print(old, new)
        return
    if "--check" in argv:
        clash(rows, declared, imported)
        return
    with open(os.path.join(os.path.dirname(os.path.realpath(__file__)), "respell.tsv"), encoding="utf-8") as f:
        rows = dict(line.rstrip("\n").split("\t") for line in f)
    rows["Contracts"] = "Clauses"
    for p in glob.glob("crates/**/*.antt", recursive=True):
        t = read(p)
        new = turn_antt(t, rows)
        if new != t:
            open(p, "w", encoding="utf-8").write(new)
    for p in glob.glob("crates/**/*.rt", recursive=True):
        t = read(p)
        new = turn_rt(t, rows)
        if new != t:
            open(p, "w", encoding="utf-8").write(new)
    for p in glob.glob("crates/*/specs/Contracts.antt"):
        subprocess.run(["git", "mv", p, p.replace("Contracts", "Clauses")], check=True)
    del rows["Contracts"]
    pages = ["README.md", ".ci/names.txt"] + glob.glob("docs/*.md")
    for p in pages:
        t = read(p)
        new = turn_prose(t, rows)
        if new != t:
            open(p, "w", encoding="utf-8").write(new)
    for p in glob.glob("crates/*/must-fail/*.edit"):
        t = read(p)
        new = "\n".join(turn(x, rows) if x.startswith(("old:", "new:")) else turn_prose(x, rows) for x in t.split("\n"))
        if new != t:
            open(p, "w", encoding="utf-8").write(new)


main(sys.argv[1:])
