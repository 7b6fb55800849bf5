#!/usr/bin/env python3
"""uneven.py SAC [SIZE..]: how SAC's workers share a loop whose rows differ a hundredfold in cost (works/triangle.sac).

Prints the elapsed seconds of whole runs with 1 and with 4 workers, the least of three, and how many times as fast 4 workers are: with no size of chunks,
where each worker has an equal share of the rows, and with each SIZE (by default 1, 16 and 64). Each answer is compared with the sums by Python.
"""
import os
import pathlib
import subprocess
import sys
import time

WORK = pathlib.Path(__file__).resolve().parent / "works" / "triangle.sac"
ROWS = 1_000
WORKERS = (1, 4)


def due():
    """Returns the line that SAC has to print."""
    rows = (sum((i * 7 + j * 13) % 256 for j in range(i + 10)) for i in range(ROWS))
    return f"int[{ROWS}]: " + " ".join(map(str, rows))


def run(command):
    """Returns the elapsed seconds of a run, and the text that it printed."""
    begun = time.time()
    ended = subprocess.run(command, capture_output=True, check=True, text=True)
    return time.time() - begun, ended.stdout.strip()


def main():
    program = os.path.abspath(sys.argv[1])
    sizes = [None, *(sys.argv[2:] or ["1", "16", "64"])]
    wanted, wrong = due(), 0
    print("| Rows in a chunk | 1 worker | 4 workers | times as fast |")
    print("|---|---|---|---|")
    for size in sizes:
        words = ["--chunk", size] if size else []
        seconds = []
        for workers in WORKERS:
            runs = [run([program, WORK, "--workers", str(workers), *words]) for _ in range(3)]
            wrong += sum(text != wanted for _, text in runs)
            seconds.append(min(elapsed for elapsed, _ in runs))
        one, four = seconds
        print(f"| {size or 'an equal share'} | {one:.3f} s | {four:.3f} s | {one / four:.2f} |", flush=True)
    if wrong:
        print(f"    {wrong} wrong answers")
    return 1 if wrong else 0


if __name__ == "__main__":
    sys.exit(main())
