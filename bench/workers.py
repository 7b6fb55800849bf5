#!/usr/bin/env python3
"""workers.py [--side N] [--tries N] SAC [WORK..]: how many times as fast four workers of SAC are as one, beside what the machine gives to four runs that
share nothing.

For each work of compare.py, in nanoseconds a cell and round: one worker alone; four runs of one worker each, side by side, by the slowest of them; four
workers with an equal share of the positions each, and with the number of chunks, behind `by`, with which they are fastest. `machine` is how many times as
much work the four runs do together as one alone: where memory or other work on the host is the limit, that is less than 4. `workers` is how many times as
fast the best run with four workers is as one, and `share` is the one by the other, in percent. A figure is the least of all tries. The tries of all kinds
of runs take turns, so that a slow minute of the host meets all of them; `median` is that of the tries' own quotients of one worker and of the best of
four, each of which compares runs of the same seconds.

The time of rounds is that of a run with them less that of a run with FIRST rounds, in which new buffers are filled for the first time. With a side, arrays
of 1,000 by 1,000 cells have N by N, and the Mandelbrot set as many points a side as a fifth of that; works without such an array are left out. `round` is
how many milliseconds one worker takes for all cells. Below the table stands how long three threads take from their start to their end: with four workers
each loop that is shared pays that once.
"""
import argparse
import concurrent.futures
import os
import pathlib
import statistics
import subprocess
import tempfile

from compare import CELLS, HERE, run, sac

# The works with phases that are shared among workers, and those of them whose size follows the side.
SHARED = ["neighbours", "life", "flows", "border", "plus_one", "sum", "chain", "indices", "convolution", "product", "totals", "prefix", "histogram", "mandelbrot", "paths"]
SQUARE = ["neighbours", "life", "flows", "border", "plus_one", "sum", "chain", "convolution", "totals", "mandelbrot"]
USUAL = 1_000
TRIES = 5
# So many rounds come before those that are measured, which one worker takes so many seconds for.
FIRST = 2
LONG = 1.0
# So many chunks has a phase where they are not an equal share of each worker.
CHUNKS = (16, 64, 256)


def sized(side):
    """Returns what makes the source of a work with arrays of this side."""
    def of_side(work, text):
        if work == "mandelbrot":
            return text.replace("200", str(side // 5))
        return text.replace("[1000, 1000]", f"[{side}, {side}]")
    return of_side


def cells_of(work, side):
    return CELLS[work] * side * side // (USUAL * USUAL) if work in SQUARE else CELLS[work]


def alone(command):
    """Returns the elapsed seconds of a run."""
    return run(command)[0]


def slowest_of_four(command):
    """Returns the elapsed seconds of the slowest of four runs side by side."""
    with concurrent.futures.ThreadPoolExecutor(4) as pool:
        return max(elapsed for elapsed, _ in pool.map(run, [command] * 4))


def positions(work, side):
    """Returns how many positions the largest loop of a work has."""
    return {"product": 200 * 200, "prefix": 1_000, "histogram": 256, "paths": 60 * 60}.get(work, cells_of(work, side))


def in_turn(kinds, work, rounds, tries):
    """Returns for each kind of run, a command and what tells its elapsed seconds, the nanoseconds of a round in each try."""
    def tried(count):
        return [[elapsed(command(work, count)) for command, elapsed in kinds] for _ in range(tries)]

    before = [min(column) for column in zip(*tried(FIRST))]
    return [[max(spent - first, 1e-9) / rounds * 1e9 for spent in column] for column, first in zip(zip(*tried(FIRST + rounds)), before)]


def starts(folder):
    """Returns the microseconds that three threads take from their start to their end, or None without gcc."""
    made = folder / "starts"
    try:
        subprocess.run(["gcc", "-O2", "-pthread", "-o", made, HERE / "starts.c"], check=True)
    except (OSError, subprocess.CalledProcessError):
        return None
    return min(float(subprocess.run([made, "2000"], capture_output=True, check=True, text=True).stdout) for _ in range(TRIES))


def main():
    parser = argparse.ArgumentParser(description=__doc__, formatter_class=argparse.RawDescriptionHelpFormatter)
    parser.add_argument("program", metavar="SAC")
    parser.add_argument("works", nargs="*", metavar="WORK")
    parser.add_argument("--side", type=int, default=USUAL)
    parser.add_argument("--tries", type=int, default=TRIES)
    given = parser.parse_args()
    program, side = os.path.abspath(given.program), given.side
    print("| Work | round | 1 worker | four runs | 4 workers | 4 workers, chunks | by | machine | workers | share | median |")
    print("|---" * 11 + "|")
    with tempfile.TemporaryDirectory() as place:
        folder = pathlib.Path(place)
        one, four = sac(program, 1, folder, sized(side)), sac(program, 4, folder, sized(side))

        def in_chunks(count):
            return lambda work, rounds: [*four(work, rounds), "--chunk", str(max(1, positions(work, side) // count))]

        kinds = [(one, alone), (one, slowest_of_four), (four, alone), *((in_chunks(count), alone) for count in CHUNKS)]
        for work in given.works or (SHARED if side == USUAL else SQUARE):
            once = alone(one(work, FIRST + 1)) - alone(one(work, FIRST))
            rounds = max(1, min(1_024, int(LONG / max(once, 0.001))))
            single, together, shares, *chunks = in_turn(kinds, work, rounds, given.tries)
            best, count = min((min(column), count) for column, count in zip(chunks, CHUNKS))
            machine, workers = 4 * min(single) / min(together), min(single) / min(best, *shares)
            median = statistics.median(each / min(fast) for each, *fast in zip(single, shares, *chunks))
            times = " | ".join(f"{n / cells_of(work, side):.2f}" for n in (min(single), min(together), min(shares), best))
            ratios = f"{machine:.2f} | {workers:.2f} | {100 * workers / machine:.0f} | {median:.2f}"
            print(f"| {work} | {min(single) / 1e6:.1f} | {times} | {count} | {ratios} |", flush=True)
        print(f"three threads, from their start to their end: {starts(folder)} microseconds")


if __name__ == "__main__":
    main()
