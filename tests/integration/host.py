#!/usr/bin/env python3
"""A host in Python over the shared object, that makes every call once on net B: what it prints is host.text, and the
version that is loaded.

    host.py LIBRARY NET
"""
import ctypes
import pathlib
import sys
from ctypes import byref, c_int64, c_size_t, c_uint8, c_uint64, c_void_p

ENTRIES = 200
DESK_ALIGNMENT = 8


class Totals(ctypes.Structure):
    """struct vorphiel_totals"""

    _fields_ = [
        ("refusal", c_uint8),
        ("nets", c_uint64),
        ("planned", c_uint64),
        ("refused", c_uint64 * 13),
        ("cost", c_uint64),
        ("lengths", c_uint64 * 16),
    ]


class Desk(ctypes.Structure):
    """struct vorphiel_desk"""

    _fields_ = [
        ("used", c_uint64),
        ("stages", c_uint64),
        ("layers", c_uint64),
        ("net", c_uint8 * 4096),
        ("plan", c_uint8 * 64),
        ("locks", c_uint8 * 64),
    ]


class Checked(ctypes.Structure):
    """struct vorphiel_checked"""

    _fields_ = [("refusal", c_uint8), ("nodes", c_uint64), ("stages", c_uint64), ("layers", c_uint64)]


class Judged(ctypes.Structure):
    """struct vorphiel_judged"""

    _fields_ = [("refusal", c_uint8), ("cost", c_uint64), ("slack", c_int64)]


def loaded(name):
    """The library, with what each call takes and gives."""
    library = ctypes.CDLL(name)
    lent, number = [c_void_p, c_size_t], [c_uint64]
    for call, takes, gives in [
        ("vorphiel_check", lent + [c_void_p] * 3, c_uint8),
        ("vorphiel_judge", lent * 2 + [c_void_p] * 2, c_uint8),
        ("vorphiel_plan", lent + number * 2 + lent * 2 + [c_void_p] * 4, c_uint8),
        ("vorphiel_plan_rounds", lent + number + lent * 2 + [c_void_p] * 4, c_uint8),
        ("vorphiel_table_entries", number * 2, c_uint64),
        ("vorphiel_report", lent, Totals),
        ("vorphiel_desk_size", [], c_uint64),
        ("vorphiel_desk_open", [c_void_p] + lent, Checked),
        ("vorphiel_desk_set", [c_void_p] + number * 2, c_uint8),
        ("vorphiel_desk_lock", [c_void_p] + number, c_uint8),
        ("vorphiel_desk_unlock", [c_void_p] + number, c_uint8),
        ("vorphiel_desk_read", [c_void_p], Judged),
        ("vorphiel_version", [], c_uint64),
    ]:
        getattr(library, call).argtypes = takes
        getattr(library, call).restype = gives
    return library


def said(call, refusal, **results):
    """A line for a call: its refusal number and its results."""
    print(call, refusal, *(f"{name} {result.value}" for name, result in results.items()), end="")


def results(kinds):
    """Room for results, by their names: i for a number that may be negative, u for the others."""
    return {name: c_int64() if kind == "i" else c_uint64() for name, kind in kinds.items()}


def answered(call, answer):
    """A line for a call that answers by a structure, its refusal number first."""
    names = [name for name, _ in answer._fields_[1:]]
    print(call, answer.refusal, *(f"{name} {getattr(answer, name)}" for name in names))


def work_at_desk(library, net):
    """Opens a desk in as many bytes as the library says, at an address for numbers of 64 bits; each change."""
    size = library.vorphiel_desk_size()
    print("desk_size", size)
    if (ctypes.sizeof(Desk), ctypes.alignment(Desk)) != (size, DESK_ALIGNMENT):
        sys.exit("host.py: a desk of another size or alignment than the library's")
    lent = (c_uint64 * (size // 8))()
    seen = Desk.from_buffer(lent)
    answered("desk_open", library.vorphiel_desk_open(lent, net, len(net)))
    for call, numbers in [("set", [1, 1]), ("lock", [1]), ("set", [1, 0]), ("unlock", [1])]:
        refusal = getattr(library, "vorphiel_desk_" + call)(lent, *numbers)
        print(f"desk_{call}", refusal, "plan", *seen.plan[:2], "locks", *seen.locks[:2])
    answered("desk_read", library.vorphiel_desk_read(lent))


def main():
    library, net = loaded(sys.argv[1]), pathlib.Path(sys.argv[2]).read_bytes()
    table, plan = (c_int64 * ENTRIES)(), (c_uint8 * 2)(0, 1)
    room = [table, len(table), plan, len(plan)]
    calls = [
        ("check", [net, len(net)], {"nodes": "u", "stages": "u", "layers": "u"}),
        ("judge", [net, len(net), plan, len(plan)], {"cost": "u", "slack": "i"}),
        ("plan", [net, len(net), 1, 4, *room], {"cost": "u", "slack": "i", "k": "u", "floor": "u"}),
        ("plan_rounds", [net, len(net), 29, *room], {"cost": "u", "slack": "i", "floor": "u", "rounds": "u"}),
    ]
    for call, lent, kinds in calls:
        found = results(kinds)
        said(call, getattr(library, "vorphiel_" + call)(*lent, *map(byref, found.values())), **found)
        print(*([" plan", *plan] if "plan" in call else [""]))
    print("table_entries", library.vorphiel_table_entries(2, 4))
    block = bytes([6]) + len(net).to_bytes(2, "big") + net
    totals = library.vorphiel_report(block, len(block))
    print("report", totals.refusal, "nets", totals.nets, "planned", totals.planned, "cost", totals.cost, end=" ")
    print("lengths", *totals.lengths[:2])
    work_at_desk(library, net)
    print("version", library.vorphiel_version())


if __name__ == "__main__":
    main()
