#!/usr/bin/env python3
"""Runs the examples of a document and compares what they print with what stands there.

    docs/run_examples.py FILE.md            says what differs; exit status 1 if anything does
    docs/run_examples.py --write FILE.md    puts what they print into the document

An example is a block that opens with ```console. In it a line that begins with "$ " is a command; the lines up to the next command are what it prints, on
standard output and standard error. All commands of a document run one after the other in one new folder, in which the repository's own folders are seen.
"""
import os
import pathlib
import subprocess
import sys
import tempfile

SEEN = ["hosts", "include", "nets", "target"]


def printed(command, folder):
    """What a command prints, line by line."""
    run = subprocess.run(["bash", "-c", command], cwd=folder, stdout=subprocess.PIPE, stderr=subprocess.STDOUT, check=False)
    return run.stdout.decode().splitlines()


def with_output(lines, folder):
    """The document's lines, with what the examples print now."""
    found, inside = [], False
    for line in lines:
        if line.startswith("```"):
            inside = line == "```console"
        elif inside and not line.startswith("$ "):
            continue
        found.append(line)
        if inside and line.startswith("$ "):
            found += printed(line[2:], folder)
    return found


def main():
    write = sys.argv[1:2] == ["--write"]
    name = pathlib.Path(sys.argv[-1])
    root = pathlib.Path(__file__).resolve().parent.parent
    before = name.read_text().splitlines()
    with tempfile.TemporaryDirectory() as folder:
        for part in SEEN:
            os.symlink(root / part, pathlib.Path(folder) / part)
        now = with_output(before, folder)
    if write:
        name.write_text("\n".join(now) + "\n")
    elif now != before:
        place = next((i for i, (a, b) in enumerate(zip(before, now)) if a != b), min(len(before), len(now)))
        print(f"{name}:{place + 1}: the examples print otherwise, first here:")
        print("  there: " + (before[place] if place < len(before) else "(nothing)"))
        print("  now:   " + (now[place] if place < len(now) else "(nothing)"))
        return 1
    return 0


if __name__ == "__main__":
    sys.exit(main())
