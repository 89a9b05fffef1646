#!/usr/bin/env python3
"""Blocks that are too large to store as text, made from their recipes: nets/blocks/large.py FOLDER writes each to FOLDER/NAME. What the report says of a block
stands in nets/blocks/NAME.text; why, is said here beside the recipe.
"""
import pathlib
import sys

MOST_BLOCK = 65_536


def field(tag, *numbers):
    """A field; its numbers are given as (value, width)."""
    payload = b"".join(value.to_bytes(width, "big") for value, width in numbers)
    return bytes([tag]) + len(payload).to_bytes(2, "big") + payload


def layers(*units):
    return field(1, *((unit, 2) for pair in units for unit in pair))


def driver(resistance):
    return field(2, (resistance, 4), (0, 4), (0, 8))


def steiner(parent, length, *costs):
    return field(3, (parent, 2), (length, 2), *((cost, 4) for cost in costs))


def buffer(parent, length, *costs):
    """Its capacitance, gate resistance and intrinsic delay are 0."""
    return field(4, (parent, 2), (length, 2), *((cost, 4) for cost in costs), (0, 4), (0, 4), (0, 4))


def sink(parent, length, *costs, capacitance=0, required=0):
    return field(5, (parent, 2), (length, 2), *((cost, 4) for cost in costs), (capacitance, 4), (required, 8))


def net_a(required=830, resistance_on_0=4, parent=0):
    """Net A, 57 bytes, or one like it: planned on layer 0 with cost 10 and a wire of 10."""
    return layers((resistance_on_0, 1), (1, 1)) + driver(1) + sink(parent, 10, 10, 20, capacitance=5, required=required)


def chain(costs):
    """Stages of these costs on the one layer, each an edge of length 1 to the next buffer, the last to a sink. Each edge takes one tick, so it meets timing."""
    *before, last = costs
    buffers = b"".join(buffer(parent, 1, cost) for parent, cost in enumerate(before))
    return layers((1, 1)) + driver(0) + buffers + sink(len(before), 1, last, required=len(costs))


def on_layer(number):
    """One edge of length L = 10 + number, with 16 layers: R x C is L^2 on layer `number` and 2 L^2 on the others, and L^2 is the required time. So this layer
    alone meets timing; it costs 100 + number."""
    length = 10 + number
    units = [(1 if layer == number else 2, 1) for layer in range(16)]
    return layers(*units) + driver(0) + sink(0, length, *range(100, 116), required=length**2)


def dear():
    """One stage of 255 edges, each at the limits of length and cost: 1,020,000 of wire, cost 255,000,000. At the grain 2^25 it costs 7 grains. The sink is
    reached at 255^2 x 4,000^2 ticks, about 10^12, so it meets timing."""
    points = b"".join(steiner(parent, 4_000, 1_000_000) for parent in range(254))
    return layers((1, 1)) + driver(0) + points + sink(254, 4_000, 1_000_000, required=10**15)


def block(nets):
    return b"".join(bytes([6]) + len(net).to_bytes(2, "big") + net for net in nets)


# A net that is refused, by number.
REFUSED = {
    1: net_a()[:-1],  # the last payload is not all there
    2: bytes(3),  # tag 0
    3: net_a(resistance_on_0=0),
    4: chain([1] * 65),  # a 64th buffer
    5: net_a(parent=1),  # the sink is node 1 itself
    6: layers((1, 1)) + driver(0),  # the driver has no child
    11: net_a(required=229),
    # 64 stages that cost 4 each, so V(1) = 128. The grain is 2, as 4 x 64 x 1 <= 2 x 128, while V(2) = 64 is too few and V(3) = 0. It takes 129 columns, and
    # 8,192 / 66 are 124.
    12: chain([4] * 64),
}

# Net A 1,092 times, 60 bytes each with its head: 65,520.
FILLED = block([net_a()] * 1_092)

RECIPES = {
    # Each number another number of times, the highest first; then a chain that is planned: 64 stages at cost 1 take 65 columns at the grain 1, and V(1) = 0.
    "all_numbers": block([REFUSED[number] for count, number in enumerate(sorted(REFUSED, reverse=True), 1) for _ in range(count)] + [chain([1] * 64)]),
    # 62 stages, so that the table has 128 columns and no entry to spare. The first net costs 127 and needs them all; the second costs 128 and is refused with
    # 12. The grain is 1: 4 x 62 x (g - 1) <= g x V(k) is false for every other, as g x V(k) is at most 128.
    "whole_table": block([chain([2] * 61 + [5]), chain([2] * 61 + [6])]),
    # A net for each layer, the highest first.
    "all_layers": block(on_layer(number) for number in reversed(range(16))),
    # The cost is above 2^32.
    "dear": block([dear()] * 23),
    # 65,536 bytes: the last net, 13 zeros, is refused with 2.
    "at_the_limit": FILLED + block([bytes(13)]),
    # One byte more, in whole fields: only the length is at fault.
    "beyond_the_limit": FILLED + block([bytes(14)]),
    # So also here, whatever the length.
    "far_beyond": block([net_a()] * 20_000),
    # One field of 65,536 bytes: zeros are no net, 2.
    "one_net": block([bytes(MOST_BLOCK - 3)]),
    # The most nets that a block can have, 65,535 bytes.
    "most_nets": block([b""] * 21_845),
    # 65,536 bytes, and the last field is cut short.
    "most_nets_cut": block([b""] * 21_845) + bytes([6]),
}


def main():
    if len(sys.argv) != 2:
        print("usage: nets/blocks/large.py FOLDER", file=sys.stderr)
        return 2
    for name, made in RECIPES.items():
        (pathlib.Path(sys.argv[1]) / name).write_bytes(made)
    return 0


if __name__ == "__main__":
    sys.exit(main())
