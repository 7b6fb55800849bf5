#!/usr/bin/env python3
"""refusals.py PROGRAM [--all] [NAME ..]: refused memory and failing devices, as the tables of docs/HOSTILE_USE.md.

Runs `refuse_memory.py` with 1 and with 4 workers, and `fail_devices.py`, on small sources and on the examples, and prints a table of what was seen of each. With --all each
allocation is refused in turn, not only the first and some of the others, which takes hours. The status is 0 where no run ended otherwise than it may.
"""
import os
import pathlib
import sys
import tempfile

import fail_devices
import preloaded
import refuse_memory


def memory_row(program, made, folder, name, every):
    one, four = (refuse_memory.tries(program, made, preloaded.place_of(folder, name), workers, every) for workers in ("1", "4"))
    wrong = one.wrong + four.wrong
    print(f"| {name} | {one.calls:,} | {one.runs + four.runs:,} | {one.memory + four.memory:,} | {one.own + four.own:,} | {len(wrong)} |", flush=True)
    return wrong


def device_row(program, made, folder, name):
    tried = fail_devices.tries(program, made, preloaded.place_of(folder, name))
    read, cut = tried.ends.get(5, 0), tried.ends.get(6, 0)
    runs = sum(tried.ends.values())
    print(f"| {name} | {len(tried.kinds)} | {runs} | {read} | {cut} | {runs - read - cut} | {len(tried.wrong)} |", flush=True)
    return tried.wrong


def table(heads, rows):
    print(f"| {' | '.join(heads)} |\n|{'---|' * len(heads)}", flush=True)
    wrong = [line for row in rows for line in row()]
    print("\n".join(["", *(f"wrong: {line}" for line in wrong), ""] if wrong else [""]))
    return len(wrong)


def main():
    words = [word for word in sys.argv[1:] if word != "--all"]
    program, every = os.path.abspath(words[0]), "--all" in sys.argv
    names = words[1:] or preloaded.names()
    with tempfile.TemporaryDirectory() as place:
        folder, memory, devices = pathlib.Path(place), pathlib.Path(place, "memory"), pathlib.Path(place, "devices")
        preloaded.write_small(folder)
        memory.mkdir()
        devices.mkdir()
        shim = preloaded.library(memory, refuse_memory.SHIM)
        lost = table(
            ["Source", "Allocations, 1 worker", "Refused in turn, 1 and 4 workers", "In status 8", "As without", "Wrong"],
            [lambda name=name: memory_row(program, shim, folder, name, every) for name in names],
        )
        failing = preloaded.library(devices, fail_devices.SHIM)
        lost += table(
            ["Source", "Calls", "Runs", "In status 5", "In status 6", "As without", "Wrong"],
            [lambda name=name: device_row(program, failing, folder, name) for name in names],
        )
    return 1 if lost else 0


if __name__ == "__main__":
    sys.exit(main())
