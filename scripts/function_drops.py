#!/usr/bin/env python3
"""function_drops.py [CRATE..]

Prints the functions in which most is dropped, the first thirty: how many drops a function has, how many steps it is lowered to, and its name. It reads
what checks kept in crates/*/out, and proves nothing. With names of crates it looks at these alone.

A value is dropped at each `?` and each `return` that it is alive at, and there it is taken apart: through structs and enums, variant by variant, down
to the next `Vec` or `Box`, whose drop is one call. The proof of a function grows faster than the number of its steps, so the first lines are those to shorten.
"""
import glob
import json
import os
import sys

MOST = 30


def is_drop(step):
    """Whether a step calls a drop."""
    return isinstance(step, dict) and "Call" in step and '::drop"' in json.dumps(step["Call"][0])[:200]


def functions(path):
    """The functions of a kept library, each with its drops and its steps, without those that are drops themselves."""
    with open(path, encoding="utf-8") as file:
        lowered = json.load(file)
    for name, function in lowered:
        steps = function.get("body") if isinstance(name, str) else None
        if isinstance(steps, list) and "+Destruct" not in name:
            yield sum(map(is_drop, steps)), len(steps), name


def main():
    """Prints the table."""
    root = os.path.dirname(os.path.dirname(os.path.abspath(__file__)))
    crates = sys.argv[1:] or ["*"]
    paths = [it for crate in crates for it in glob.glob(f"{root}/crates/{crate}/out/rlib/*.rlib/toolchain/mir.json")]
    found = sorted((it for path in paths for it in functions(path)), reverse=True)
    for drops, steps, name in found[:MOST]:
        print(f"{drops:5} drops {steps:5} steps  {name}")


main()
