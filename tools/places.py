#!/usr/bin/env python3
"""The places in src/ that docs/DESIGN-PASS.md counts, a number for each of its points; with a point's number, the places themselves.

usage: tools/places.py [--at COMMIT] [POINT]      at the top of the repository

It goes by text: what it finds is to be read. A place counts as kept where a line that begins `// Kept: ` stands beside it
(in the three lines above, or, of points 1 and 7, above the head of the function).
"""
import collections
import io
import pathlib
import re
import subprocess
import sys
import tarfile
import tempfile

HEAD = re.compile(r"^\s*(?:pub )?(?:const )?fn (\w+)")
LINES = {
    1: [
        ("an enum of the shape of Option or Result", r"^\s*(Refused\((u8|[A-Z]\w*)\)|Late,|Short,)"),
        ("a refusal number as a literal", r"(Refused\(\d+\)|\w*refused\(\d+\)|no_totals\(\d+\)|refusal: [1-9]\d*|return 1[0-9];|return [78];)"),
        ("a refusal as a number", r"(Refused\(u8\)|\b(refusal|answer|r|m): u8|fn \w*refusal\(.*-> u8)"),
        ("a kind as a number", r"\btag(: u32| [=!<>]=? ?\d)|< tag\b|\block: u8"),
        ("a number that stands for none", r"^\s*return (width|columns|n\.width);|NO_TERMINAL: usize|value = count|= count;"),
    ],
    3: [("a loop that counts by hand", r"^\s*while .*[<>]")],
    4: [
        ("a conversion by `as`", r" as (u8|u16|u32|u64|usize|i64)\b"),
        ("all fields of a pattern named to be left out", r"^\s*\w+: _,|\{ \w+: _"),
        ("the lesser, the greater, a difference or a conversion as a function", r"fn (lesser|earlier|minus|less|after|wide|time_of|buffer_bit|sink_places|grain)\("),
        ("a printer of numbers by hand", r"fn (put_number|put_digits|put_time|print_number|put_decimal)\("),
    ],
    6: [("a length beside a buffer", r"\b(plan|known|cost|owner|first|kids): &(mut )?\[\w+\], (stages|count)\b"), ("parallel arrays", r"^\s*let mut (ends|next|late|below) = \[")],
    7: [("a flag or a kind that says which step to run", r"\bkeep: bool|\bdue: Due|\bvias: bool")],
}
TWINS = "lesser earlier refused rounds_refused judging_refused plan_net rounds_net plan_by rounds_by plan_stages rounds_stages planned planned_rounds"
TWINS += " plan_tree best_of_rounds search_tree search_rounds found_refusal step_refusal nodes_refusal net_refusal lock_value unlock_value lock_on_desk"
TWINS += " unit_res unit_cap via_res on_value lower_load paid_cap"


def sources(commit):
    """The files of crates/*/src at a commit, or those that stand here."""
    if not commit:
        return {str(p): p.read_text() for p in sorted(pathlib.Path("crates").glob("*/src/**/*.rt"))}
    blob = subprocess.run(["git", "archive", commit, "crates"], stdout=subprocess.PIPE, check=True).stdout
    files = {}
    with tarfile.open(fileobj=io.BytesIO(blob)) as tar:
        for m in tar:
            if re.fullmatch(r"crates/\w+/src/.*\.rt", m.name):
                files[m.name] = tar.extractfile(m).read().decode()
    return dict(sorted(files.items()))


def answers(commit):
    """The Answers.antt at a commit, or those that stand here."""
    where = tempfile.mkdtemp() if commit else "."
    if commit:
        subprocess.run(f"git archive {commit} crates | tar -x -C {where}", shell=True, check=True)
    return sorted(pathlib.Path(where).glob("crates/*/proofs/**/Answers.antt")), where


def functions(text):
    """Each function: its name, its line, its parameters, its clauses."""
    lines = text.split("\n")
    for i, line in enumerate(lines):
        m = HEAD.match(line)
        if not m:
            continue
        depth, head = 0, ""
        for k in range(i, len(lines)):
            head += lines[k] + "\n"
            if lines[k].startswith("{") or lines[k].strip() == "{" or lines[k].rstrip().endswith("{") and "ensures" not in lines[k] and "requires" not in lines[k]:
                break
        inside = head[head.index("(") + 1:]
        depth, end = 1, 0
        for end, ch in enumerate(inside):
            depth += ch in "(["
            depth -= ch in ")]"
            if depth == 0:
                break
        params = [p for p in re.split(r",(?![^\[(<]*[\])>])", inside[:end]) if ":" in p]
        yield m.group(1), i, params, inside[end:]


def kept(lines, i, inside=False):
    """Whether a line beside a place says why it stays; of a place inside a function also a line above the function's head."""
    if any("// Kept: " in lines[k] for k in range(max(0, i - 3), i + 1)):
        return True
    head = next((k for k in range(i, -1, -1) if HEAD.match(lines[k])), None) if inside else None
    while head and lines[head - 1].lstrip().startswith(("//", "#[")):
        head -= 1
        if "// Kept: " in lines[head]:
            return True
    return False


def places(point, files, commit):
    if point in LINES:
        for path, text in files.items():
            lines = text.split("\n")
            for i, line in enumerate(lines):
                if line.lstrip().startswith(("//", "ghost use")):
                    continue
                for what, pattern in LINES[point]:
                    if re.search(pattern, line):
                        yield what, path, i, line.strip(), kept(lines, i, point in (1, 7))
    elif point == 2:
        for path, text in files.items():
            for name, i, _, _ in functions(text):
                if name in TWINS.split():
                    yield "one of two that differ in a type, a size or a constant", path, i, name, kept(text.split("\n"), i)
    elif point == 5:
        facts = collections.defaultdict(list)
        for path, text in files.items():
            for name, i, params, clauses in functions(text):
                if len(params) > 6:
                    yield "more than six parameters", path, i, f"{name}: {len(params)}", kept(text.split("\n"), i)
                for fact in set(re.findall(r"\b(Held|Staged|Columns|Timed|Prepared|Numbers|Problem|Rows|Linked)(?:Of|By)?\b", clauses)):
                    facts[fact].append((path, i, name, False))
        for fact, where in facts.items():
            if len(where) > 2:
                for path, i, name, k in where:
                    yield f"a fact in three contracts or more: {fact}", path, i, name, k
    elif point == 8:
        found, where = answers(commit)
        for p in found:
            lines = p.read_text().split("\n")
            for i, line in enumerate(lines):
                m = re.match(r"(\w+?)_(\d+) :", line)
                if m:
                    yield "a copy of a short lemma", str(p.relative_to(where)), i, m.group(0), False
                if re.match(r"[\w-]+ c = (search rules|omega arith|refl|tt)$", line):
                    yield "an answer by one tactic alone", str(p.relative_to(where)), i, line, False


def main():
    args = sys.argv[1:]
    commit = args[args.index("--at") + 1] if "--at" in args else None
    rest = [a for a in args if a.isdigit() and a != commit]
    files = sources(commit)
    for point in [int(a) for a in rest] or range(1, 9):
        found = list(places(point, files, commit))
        sums = collections.Counter(f[0] for f in found)
        print(f"point {point}: {len(found)} places, {sum(1 for f in found if f[4])} of them kept with a line")
        for what, n in sums.items():
            print(f"    {n:4} {what}")
        if rest:
            for what, path, i, line, k in found:
                print(f"  {path}:{i + 1}: {line[:110]}{'  (kept)' if k else ''}")


if __name__ == "__main__":
    main()
