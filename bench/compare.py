#!/usr/bin/env python3
"""compare.py SAC [WORK..]: the same work by SAC (1, 2 and 4 workers), gcc -O2 (alone, and with 4 threads of OpenMP), NumPy, CPython and Lua, in
nanoseconds a cell and round.

A work is a program that makes an array, computes it anew in so many rounds, and prints the sum of its elements, so that each answer is compared. Its time is
that of a run with rounds less that of a run with none, the least of three. What is not installed is left out. The works are in works/: NAME.sac, work.c,
work.py (NumPy and plain loops) and work.lua.
"""
import os
import pathlib
import shutil
import subprocess
import sys
import tempfile
import time

HERE = pathlib.Path(__file__).resolve().parent / "works"
# The cells of a round; of prefix, paths, histogram and product the values that its folds combine, of scalars its turns, of fib its calls, of queens the
# fields that are tried.
CELLS = {
    "neighbours": 1_000 * 1_000,
    "life": 1_000 * 1_000,
    "flows": 1_000 * 1_000,
    "border": 1_000 * 1_000,
    "plus_one": 1_000 * 1_000,
    "sum": 1_000 * 1_000,
    "chain": 1_000 * 1_000,
    "indices": 4_096 * 4_096,
    "convolution": 1_000 * 1_000,
    "product": 200 * 200 * 200,
    "totals": 1_000 * 1_000,
    "prefix": 1_000 * 1_001 // 2,
    "histogram": 256 * 10_000,
    "mandelbrot": 200 * 200,
    "paths": 60 * 60 * 60,
    "scalars": 100_000,
    "fib": 21_891,
    "queens": 894,
}
# What work.py has no arrays of NumPy for.
NO_NUMPY = {"prefix", "histogram", "mandelbrot", "paths", "scalars", "fib", "queens"}
# A run is long enough from so many seconds on.
LONG = 0.3


def sac(program, workers, folder, sized=lambda work, text: text):
    """Returns the command of a work and so many rounds, whose source is what `sized` makes of the one in works/."""
    def command(work, rounds):
        source = folder / f"{work}{rounds}.sac"
        source.write_text(sized(work, (HERE / f"{work}.sac").read_text()).replace("ROUNDS", str(rounds)))
        return [program, source, "--workers", str(workers)]
    return command


def others(folder):
    """Returns by name the commands of what is installed."""
    found = {}
    if shutil.which("gcc"):
        made = folder / "work"
        subprocess.run(["gcc", "-O2", "-o", made, HERE / "work.c"], check=True)
        found["gcc -O2"] = lambda work, rounds: [made, work, str(rounds)]
        shared = folder / "shared"
        subprocess.run(["gcc", "-O2", "-fopenmp", "-o", shared, HERE / "work.c"], check=True)
        found["gcc -O2, 4 threads"] = lambda work, rounds: ["env", "OMP_NUM_THREADS=4", shared, work, str(rounds)]
    script = HERE / "work.py"
    if subprocess.run([sys.executable, "-c", "import numpy"], capture_output=True).returncode == 0:
        found["NumPy"] = lambda work, rounds: None if work in NO_NUMPY else [sys.executable, script, "numpy", work, str(rounds)]
    found["CPython"] = lambda work, rounds: [sys.executable, script, "plain", work, str(rounds)]
    lua = shutil.which("lua5.4") or shutil.which("lua")
    if lua:
        found["Lua"] = lambda work, rounds: [lua, HERE / "work.lua", work, str(rounds)]
    return found


def run(command):
    """Returns the elapsed seconds of a run and the number that it printed."""
    begun = time.time()
    ended = subprocess.run(command, capture_output=True, check=True, text=True)
    return time.time() - begun, int(ended.stdout.split()[-1])


def least(command, tries=3):
    return min(run(command) for _ in range(tries))


def nanoseconds(command, work):
    """Returns the time of a cell in one round, and the answer of one round."""
    idle, _ = least(command(work, 0))
    once, answer = least(command(work, 1))
    rounds = max(1, min(64, int(LONG / max(once - idle, 0.001))))
    spent = once - idle if rounds == 1 else least(command(work, rounds))[0] - idle
    return max(spent, 0) / rounds / CELLS[work] * 1e9, answer


def main():
    program = os.path.abspath(sys.argv[1])
    works = sys.argv[2:] or list(CELLS)
    wrong = 0
    with tempfile.TemporaryDirectory() as place:
        folder = pathlib.Path(place)
        ways = {f"sac, {n}": sac(program, n, folder) for n in (1, 2, 4)} | others(folder)
        print("| Work | " + " | ".join(ways) + " |")
        print("|---" * (len(ways) + 1) + "|")
        for work in works:
            row, answers = [], set()
            for command in ways.values():
                if command(work, 0) is None:
                    row.append("")
                    continue
                time_of_a_cell, answer = nanoseconds(command, work)
                row.append(f"{time_of_a_cell:.2f}")
                answers.add(answer)
            print(f"| {work} | " + " | ".join(row) + " |", flush=True)
            if len(answers) > 1:
                wrong += 1
                print(f"    answers differ: {sorted(answers)}")
    return 1 if wrong else 0


if __name__ == "__main__":
    sys.exit(main())
