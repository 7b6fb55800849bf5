#!/usr/bin/env python3
"""examples.py SAC: each example by SAC (1 worker) and by CPython, in milliseconds of a whole run, the least of three.

The work in CPython is the function of examples/expected.py that works out what the example has to print. Each run starts, reads the example's input, computes
and prints; the last line says what the start of CPython takes by itself.
"""
import os
import pathlib
import subprocess
import sys
import time

EXAMPLES = pathlib.Path(__file__).resolve().parent.parent / "examples"
MODEL = "import sys; sys.path.insert(0, sys.argv[1]); import expected; print(expected.expected(sys.argv[2])[0], end='')"
IDLE = "import sys; sys.path.insert(0, sys.argv[1]); import expected"


def least(command, tries=3):
    """Returns the least elapsed time of some runs in milliseconds, and what the last one printed."""
    times = []
    for _ in range(tries):
        begun = time.time()
        ended = subprocess.run(command, stdout=subprocess.PIPE, text=True)
        times.append(1000 * (time.time() - begun))
    return min(times), ended.stdout


def main():
    program = os.path.abspath(sys.argv[1])
    python = [sys.executable, "-c"]
    idle, _ = least([*python, IDLE, str(EXAMPLES)])
    print("| Example | sac, 1 worker | CPython |\n|---|---|---|")
    for source in sorted(EXAMPLES.glob("*.sac")):
        given = EXAMPLES / f"{source.stem}.in"
        words = ["--input", given] if given.exists() else []
        ours, text = least([program, source, *words, "--workers", "1"])
        theirs, wanted = least([*python, MODEL, str(EXAMPLES), source.stem])
        print(f"| {source.stem} | {ours:.1f} | {theirs:.1f} |{'' if text == wanted else ' the texts differ'}", flush=True)
    print(f"\nthe start of CPython: {idle:.1f}")
    return 0


if __name__ == "__main__":
    sys.exit(main())
