#!/usr/bin/env python3
"""expected.py [PROGRAM]

Works out what each example has to print, in Python and apart from `sac`, and compares it with the stored texts (NAME.out). With PROGRAM, as
../crates/sac_main/out/sac_main, also runs that program on each example, with 1 and with 4 workers, and compares what it prints.
With --write as the word, stores the texts.

Where an example's input is too large to be run plainly, there is a small one beside it (NAME.small.in, NAME.small.out).
"""
import os
import subprocess
import sys

HERE = os.path.dirname(os.path.abspath(__file__))


class Fault(Exception):
    """A run that ends with a fault: its line of text."""


def arrays(name):
    """The arrays of an input, NAME or NAME.small: a list of (shape, elements); an element is a number or a truth value."""
    path = os.path.join(HERE, f"{name}.in")
    if not os.path.exists(path):
        return []
    found = []
    with open(path, encoding="ascii") as file:
        for line in file:
            if line.strip():
                head, numbers = line.split(":")
                shape = [int(n) for n in head[head.index("[") + 1 : head.index("]")].split(",") if n.strip()]
                found.append((shape, [{"true": True, "false": False}.get(n, n) if n.isalpha() else int(n) for n in numbers.split()]))
    return found


def vector(array):
    return array[1]


def matrix(array):
    (_, columns), cells = array
    return [cells[at : at + columns] for at in range(0, len(cells), columns)] if columns else []


def number(array):
    return array[1][0]


def line(value):
    """The line of text of a number, a vector or a matrix (as nested lists), or of truth values."""
    shape = []
    cells = [value]
    while isinstance(cells[0], list):
        shape.append(len(cells[0]))
        cells = [cell for part in cells for cell in part]
    base = "bool" if isinstance(cells[0], bool) else "int"
    shown = " ".join(str(cell).lower() for cell in cells)
    return f"{base}[{','.join(map(str, shape))}]: {shown}\n"


def divided(a, b):
    """Division that truncates toward zero."""
    return abs(a) // abs(b) * (1 if (a < 0) == (b < 0) else -1)


def automaton(steps, cells):
    steps, cells = number(steps), number(cells)
    rows = [[0] * cells for _ in range(steps)]
    rows[0][cells - 2] = 1
    for t in range(1, steps):
        for j in range(1, cells - 1):
            rows[t][j] = 110 >> (4 * rows[t - 1][j - 1] + 2 * rows[t - 1][j] + rows[t - 1][j + 1]) & 1
    return [rows]


def board(n, w):
    n, w = number(n), number(w)
    return [[[1 if (i // w + j // w) % 2 == 0 else 0 for j in range(n)] for i in range(n)]]


def colouring(a):
    near, colours = matrix(a), []
    for country, row in enumerate(near):
        taken = {colours[other] for other in range(country) if row[other]}
        colours.append(next(colour for colour in range(len(near) + 1) if colour not in taken))
    return [colours]


def convolution(a, weights):
    a, weights = matrix(a), matrix(weights)
    rows, columns = len(a) - len(weights) + 1, len(a[0]) - len(weights[0]) + 1
    return [[[sum(a[i + k][j + m] * weights[k][m] for k in range(len(weights)) for m in range(len(weights[0])))
              for j in range(columns)] for i in range(rows)]]


def histogram(a, bins):
    return [[vector(a).count(b) for b in range(number(bins))]]


def knapsack(weights, values, most):
    best = {0: 0}
    for weight, value in zip(vector(weights), vector(values)):
        for load, worth in list(best.items()):
            if load + weight <= number(most):
                best[load + weight] = max(best.get(load + weight, 0), worth + value)
    return [max(best.values())]


def life(a):
    cells = matrix(a)
    for _ in range(20):
        rows, columns, new = len(cells), len(cells[0]), [[0] * len(row) for row in cells]
        for i in range(1, rows - 1):
            for j in range(1, columns - 1):
                n = sum(cells[i + k][j + m] for k in (-1, 0, 1) for m in (-1, 0, 1)) - cells[i][j]
                new[i][j] = 1 if n == 3 else cells[i][j] if n == 2 else 0
        cells = new
    return [cells]


def mandelbrot(rows, columns, limit):
    rows, columns, limit = number(rows), number(columns), number(limit)

    def turns(x, y):
        a = b = n = 0
        while divided(a * a, 4096) + divided(b * b, 4096) <= 16384 and n < limit:
            a, b, n = divided(a * a, 4096) - divided(b * b, 4096) + x, divided(2 * a * b, 4096) + y, n + 1
        return n

    return [[[turns(j * 12288 // columns - 8704, i * 10240 // rows - 5120) for j in range(columns)] for i in range(rows)]]


def norms(x, y, z):
    return [abs(number(x)), sum(map(abs, vector(y))), max(sum(map(abs, row)) for row in matrix(z))]


def paths(a):
    ways = matrix(a)
    for k in range(len(ways)):
        ways = [[min(ways[i][j], ways[i][k] + ways[k][j]) for j in range(len(ways))] for i in range(len(ways))]
    return [ways]


def prefix(a):
    a = vector(a)
    return [[sum(a[: i + 1]) for i in range(len(a))], [max(a[: i + 1]) for i in range(len(a))]]


def product(a, b):
    a, b = matrix(a), matrix(b)
    return [[[sum(x * y for x, y in zip(row, column)) for column in zip(*b)] for row in a]]


def queens(n):
    n = number(n)

    def ways(row, columns, falling, rising):
        if row == n:
            return 1
        return sum(ways(row + 1, columns | {c}, falling | {row - c}, rising | {row + c})
                   for c in range(n) if c not in columns and row - c not in falling and row + c not in rising)

    return [ways(0, frozenset(), frozenset(), frozenset())]


def quotients(a):
    a = vector(a)
    if 0 in a[1:]:
        with open(os.path.join(HERE, "quotients.sac"), encoding="ascii") as file:
            at, text = next((at, text) for at, text in enumerate(file, 1) if "a[i] / a[i + 1]" in text)
        raise Fault(f"fault F2 at {at}:{text.index('/') + 1}\n")
    return [[divided(x, y) for x, y in zip(a, a[1:])]]


def ranks(a):
    return [sorted(vector(a))]


def relax(a, steps):
    cells = matrix(a)
    for _ in range(number(steps)):
        cells = [[divided(cells[i - 1][j] + cells[i + 1][j] + cells[i][j - 1] + cells[i][j + 1], 4)
                  if 0 < i < len(cells) - 1 and 0 < j < len(cells[0]) - 1 else cells[i][j]
                  for j in range(len(cells[0]))] for i in range(len(cells))]
    return [cells]


def statistics(a):
    a = vector(a)
    return [sum(a), max(a), sum(x * len(a) > sum(a) for x in a)]


def total():
    return [2 + 3 * 4]


def transpose(a):
    a = matrix(a)
    turned = [list(column) for column in zip(*a)]
    return [turned, turned == a]


EXAMPLES = {"sum": total, **{it.__name__: it for it in (
    automaton, board, colouring, convolution, histogram, knapsack, life, mandelbrot, norms, paths, prefix, product, queens,
    quotients, ranks, relax, statistics, transpose)}}


def inputs(name):
    """The names of an example's inputs."""
    return [name, *(it for it in [f"{name}.small"] if os.path.exists(os.path.join(HERE, f"{it}.in")))]


def expected(given):
    """The text and the status that are due for an input."""
    try:
        return "".join(map(line, EXAMPLES[given.split(".")[0]](*arrays(given)))), 0
    except Fault as fault:
        return str(fault), 1


def main():
    word, wrong = (sys.argv[1:] + [""])[0], 0
    there = sorted(file[:-4] for file in os.listdir(HERE) if file.endswith(".sac"))
    for name, given in ((name, given) for name in there for given in inputs(name)):
        text, status = expected(given)
        path = os.path.join(HERE, f"{given}.out")
        if word == "--write":
            with open(path, "w", encoding="ascii") as file:
                file.write(text)
            continue
        with open(path, encoding="ascii") as file:
            if file.read() != text:
                wrong += 1
                print(f"{given}.out is not what Python works out")
        path = os.path.join(HERE, f"{given}.in")
        words = ["--input", path] if os.path.exists(path) else []
        for workers in ("1", "4") if word else ():
            run = subprocess.run([word, os.path.join(HERE, f"{name}.sac"), *words, "--workers", workers], stdout=subprocess.PIPE, text=True)
            if (run.stdout, run.returncode) != (text, status):
                wrong += 1
                print(f"{given} with {workers} workers: status {run.returncode}, and another text: {run.stdout[:200]!r}")
    print(f"{len(there)} examples, {wrong} wrong")
    return 1 if wrong else 0


if __name__ == "__main__":
    sys.exit(main())
