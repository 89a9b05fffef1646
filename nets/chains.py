#!/usr/bin/env python3
"""How many random chains of buffers the program plans with its fixed table, by their number of stages.

    nets/chains.py PROGRAM     PROGRAM is target/bin/plan_net

A chain is a driver, buffers one after the other, and a sink; each stage is one edge. It has two layers, the second
faster and dearer, and a required time between what the fastest and the slowest plan need: so every chain has a plan in
time, and 12 is the only refusal. The chains are the same on every machine. Two lines for each range of stages: dear
chains, whose edges cost up to a million, and cheap ones, whose edges cost 1 to 3.
"""
import random
import struct
import subprocess
import sys

CHAINS = 40
RANGES = [(1, 29), (30, 34), (35, 39), (40, 44), (45, 64)]
COSTS = {"dear": (1_000, 1_000_000), "cheap": (1, 3)}
UNITS = [(8, 2), (2, 2)]  # resistance and capacitance of a unit of length on each layer


def delay(gate, length, load, units):
    """The ticks of a stage of one edge: gate delay and edge delay (docs/FORMAT.md, 5)."""
    resistance, capacitance = length * units[0], length * units[1]
    return 2 * gate * (capacitance + load) + resistance * (capacitance + 2 * load)


def chain(stages, costs, draw):
    """The bytes of a chain."""
    net = struct.pack(">BH4H", 1, 8, *UNITS[0], *UNITS[1]) + struct.pack(">BHIIq", 2, 16, 5, 0, 0)
    fast = slow = 0
    for parent in range(stages):
        length, load = draw.randint(1, 300), draw.randint(1, 50)
        on_layers = [delay(5, length, load, units) for units in UNITS]
        fast, slow = fast + min(on_layers), slow + max(on_layers)
        edge = struct.pack(">HHII", parent, length, *sorted(draw.randint(*costs) for _ in UNITS))
        if parent + 1 < stages:
            net += struct.pack(">BH", 4, 24) + edge + struct.pack(">III", load, 5, 0)
        else:
            net += struct.pack(">BH", 5, 24) + edge + struct.pack(">Iq", load, draw.randint(fast, slow))
    return net


def is_planned(program, net):
    """Whether the program plans the net; it may refuse it with 12 and nothing else."""
    line = subprocess.run([program], input=net, stdout=subprocess.PIPE, check=True).stdout.decode()
    if not line.startswith("cost ") and line != "refused 12\n":
        sys.exit(f"{program}: {line}for the net {net.hex()}")
    return line.startswith("cost ")


def main():
    if len(sys.argv) != 2:
        print("usage: nets/chains.py target/bin/plan_net", file=sys.stderr)
        return 2
    draw = random.Random(1)
    for least, most in RANGES:
        for kind, costs in COSTS.items():
            nets = [chain(draw.randint(least, most), costs, draw) for _ in range(CHAINS)]
            planned = sum(is_planned(sys.argv[1], net) for net in nets)
            print(f"{least} to {most} stages, {kind}: {planned} of {CHAINS} planned")
    return 0


if __name__ == "__main__":
    sys.exit(main())
