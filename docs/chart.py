#!/usr/bin/env python3
"""Makes the sheet to hang up, docs/CHART.md, from what the program wall_chart prints.

    target/bin/wall_chart | docs/chart.py > docs/CHART.md

The numbers are the program's; nothing is computed here.
"""
import sys

SHARES = 10

HEAD = """# Wall chart: table lengths that always serve

How many entries of 64 bits to lend to planning. A net of s stages at share 1/q is never refused with 12 if the table
has at least the number in line s, column 1/q: (s + 2) × (s + 2qs). At share 1/q the plan costs at most 1/q more than
the cheapest plan that meets timing.

Made by `docs/chart.py` from what the program `wall_chart` prints. A host gets the same numbers from
`vorphiel_table_entries(s, q)`.
"""


def line(cells):
    return "| " + " | ".join(cells) + " |"


def main():
    rows = [text.split(" ") for text in sys.stdin.read().splitlines()]
    if not rows or any(len(row) != SHARES for row in rows):
        sys.exit(f"docs/chart.py: not {SHARES} numbers in each line")
    print(HEAD)
    print(line(["stages"] + [f"1/{q}" for q in range(1, SHARES + 1)]))
    print(line(["---:"] * (SHARES + 1)))
    for stages, row in enumerate(rows, 1):
        print(line([f"**{stages}**"] + row))


if __name__ == "__main__":
    main()
