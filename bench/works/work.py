"""work.py WAY NAME ROUNDS: the works of this folder, by NumPy (WAY numpy) and by plain loops (WAY plain). 32-bit numbers wrap."""
import sys

SIDE, WIDE, SMALL = 1000, 4096, 200
WEIGHTS = (1, 2, 1, 2, 4, 2, 1, 2, 1)


def wrapped(number):
    return (number + 2**31) % 2**32 - 2**31


def quotient(a, b):
    """Towards zero."""
    return a // b if a >= 0 else -(-a // b)


def remainder(a, b):
    return a % b if a >= 0 else -(-a % b)


def start(work):
    if work == "life":
        return [1 if (i * 7 + j * 13) % 11 < 4 else 0 for i in range(SIDE) for j in range(SIDE)]
    return [(i * 7 + j * 13) % 256 for i in range(SIDE) for j in range(SIDE)]


# ---- plain loops

def neighbours(a):
    b = a[:]
    for i in range(1, SIDE - 1):
        for at in range(i * SIDE + 1, i * SIDE + SIDE - 1):
            b[at] = quotient(a[at - SIDE] + a[at + SIDE] + a[at - 1] + a[at + 1], 4)
    return b


def flow(here, there):
    return quotient(min(max(there - here, -50), 50), 5)


def flows(a):
    b = a[:]
    for i in range(1, SIDE - 1):
        for at in range(i * SIDE + 1, i * SIDE + SIDE - 1):
            b[at] = a[at] + flow(a[at], a[at - SIDE]) + flow(a[at], a[at + SIDE]) + flow(a[at], a[at - 1]) + flow(a[at], a[at + 1])
    return b


def life(a):
    b = [0] * (SIDE * SIDE)
    for i in range(1, SIDE - 1):
        for at in range(i * SIDE + 1, i * SIDE + SIDE - 1):
            n = (a[at - SIDE - 1] + a[at - SIDE] + a[at - SIDE + 1] + a[at - 1] + a[at + 1]
                 + a[at + SIDE - 1] + a[at + SIDE] + a[at + SIDE + 1])
            b[at] = 1 if n == 3 else a[at] if n == 2 else 0
    return b


def border(a):
    return [remainder(a[at] - a[at - SIDE] if at >= SIDE else a[at], 1000) for at in range(SIDE * SIDE)]


def chain(a):
    b = [x * 3 for x in a]
    c = [x + 7 for x in b]
    return [x % 256 for x in c]


def convolution(a):
    b = a[:]
    near = [(k - 1) * SIDE + l - 1 for k in range(3) for l in range(3)]
    for i in range(1, SIDE - 1):
        for at in range(i * SIDE + 1, i * SIDE + SIDE - 1):
            total = 0
            for step, weight in zip(near, WEIGHTS):
                total += a[at + step] * weight
            b[at] = quotient(total, 16)
    return b


def product(rounds):
    a = b = [[(i * 7 + j * 13) % 256 for j in range(SMALL)] for i in range(SMALL)]
    for _ in range(rounds):
        c = []
        for row in a:
            cells = []
            for j in range(SMALL):
                total = 0
                for k in range(SMALL):
                    total += row[k] * b[k][j]
                cells.append(total % 256)
            c.append(cells)
        a = c
    return sum(map(sum, a))


def totals(a, rounds):
    total = 0
    for t in range(rounds):
        for x in a:
            total += x * (x + t) % 7
    return total


def scalars(rounds):
    a, b = 1, 0
    for _ in range(rounds * 100000):
        a = (a * 5 + b) % 1000
        b = (b + a) % 100000
    return a + b


def fib(n):
    return fib(n - 1) + fib(n - 2) if n > 1 else n


def fibs(rounds):
    return sum(fib(20) % 1000 + t for t in range(rounds))


def prefix(rounds):
    a = [i * 7 % 256 for i in range(1000)]
    for _ in range(rounds):
        b = []
        for i in range(1000):
            total = 0
            for k in range(i + 1):
                total += a[k]
            b.append(total % 256)
        a = b
    return sum(a)


def histogram(rounds):
    a, s = [i * 7 % 256 for i in range(10000)], 0
    for t in range(rounds):
        counts = []
        for b in range(256):
            count = 0
            for x in a:
                count += 1 if x == b else 0
            counts.append(count)
        s += counts[t % 256]
        a = [(x + 1) % 256 for x in a]
    return s


def turns(x, y, limit):
    a = b = n = 0
    while a * a // 4096 + b * b // 4096 <= 16384 and n < limit:
        a, b = a * a // 4096 - b * b // 4096 + x, quotient(2 * a * b, 4096) + y
        n += 1
    return n


def mandelbrot(rounds):
    return sum(turns(j * 12288 // 200 - 8704, i * 10240 // 200 - 5120, 50 + t % 2)
               for t in range(rounds) for i in range(200) for j in range(200))


def ways(columns, row):
    if row == 6:
        return 1
    count = 0
    for column in range(6):
        if all(columns[k] != column and columns[k] - column != row - k and column - columns[k] != row - k for k in range(row)):
            count += ways(columns[:row] + [column] + columns[row + 1:], row + 1)
    return count


def queens(rounds):
    return sum(ways([0] * 6, 0) + t % 2 for t in range(rounds))


def paths(rounds):
    a = [[0 if i == j else 1 + (i * 7 + j * 13) % 256 for j in range(60)] for i in range(60)]
    for _ in range(rounds):
        b = []
        for i in range(60):
            row = []
            for j in range(60):
                least = a[i][j]
                for k in range(60):
                    way = a[i][k] + a[k][j]
                    if way < least:
                        least = way
                row.append(least)
            b.append(row)
        a = b
    return sum(map(sum, a))


WHOLE = {"product": product, "scalars": scalars, "fib": fibs, "prefix": prefix, "histogram": histogram, "mandelbrot": mandelbrot, "queens": queens,
         "paths": paths}


def by_loops(work, rounds):
    if work in WHOLE:
        return wrapped(WHOLE[work](rounds))
    if work == "totals":
        return wrapped(totals(start(work), rounds))
    if work == "indices":
        a = [0] * (WIDE + 2)
        for t in range(rounds):
            a = [i + j + t for i in range(WIDE) for j in range(WIDE)]
        return a[WIDE + 1]
    a = first = start(work)
    steps = {"neighbours": neighbours, "flows": flows, "life": life, "border": border, "chain": chain, "convolution": convolution, "plus_one": lambda a: [x + 1 for x in a],
             "sum": lambda a: [x + y for x, y in zip(first, a)]}
    for _ in range(rounds):
        a = steps[work](a)
    return wrapped(sum(a))


# ---- NumPy

def by_numpy(work, rounds):
    import numpy as np
    if work == "indices":
        a, row = np.zeros((2, 2), np.int32), np.arange(WIDE, dtype=np.int32)
        for t in range(rounds):
            a = row[:, None] + row[None, :] + np.int32(t)
        return int(a[1, 1])
    if work == "product":
        i, j = np.indices((SMALL, SMALL), dtype=np.int32)
        a = b = (i * 7 + j * 13) % 256
        for _ in range(rounds):
            a = a @ b % 256
        return wrapped(int(a.sum(dtype=np.int64)))
    i, j = np.indices((SIDE, SIDE), dtype=np.int32)
    a = ((i * 7 + j * 13) % 11 < 4).astype(np.int32) if work == "life" else (i * 7 + j * 13) % 256
    first = a
    if work == "totals":
        return wrapped(sum(int((a * (a + np.int32(t)) % 7).sum(dtype=np.int64)) for t in range(rounds)))
    for _ in range(rounds):
        if work == "neighbours":
            b = a.copy()
            total = a[:-2, 1:-1] + a[2:, 1:-1] + a[1:-1, :-2] + a[1:-1, 2:]
            b[1:-1, 1:-1] = np.trunc(total / 4).astype(np.int32) if (total < 0).any() else total // 4
            a = b
        elif work == "flows":
            inner, b = a[1:-1, 1:-1], a.copy()
            near = (a[:-2, 1:-1], a[2:, 1:-1], a[1:-1, :-2], a[1:-1, 2:])
            b[1:-1, 1:-1] += sum(np.trunc(np.clip(there - inner, -50, 50) / 5).astype(np.int32) for there in near)
            a = b
        elif work == "life":
            n = (a[:-2, :-2] + a[:-2, 1:-1] + a[:-2, 2:] + a[1:-1, :-2] + a[1:-1, 2:] + a[2:, :-2] + a[2:, 1:-1] + a[2:, 2:])
            b = np.zeros_like(a)
            b[1:-1, 1:-1] = np.where(n == 3, 1, np.where(n == 2, a[1:-1, 1:-1], 0))
            a = b
        elif work == "border":
            b = a.copy()
            b[1:] -= a[:-1]
            a = np.fmod(b, 1000)
        elif work == "plus_one":
            a = a + np.int32(1)
        elif work == "chain":
            a = (a * 3 + 7) % 256
        elif work == "convolution":
            total = sum(a[k:SIDE - 2 + k, l:SIDE - 2 + l] * np.int32(WEIGHTS[3 * k + l]) for k in range(3) for l in range(3))
            b = a.copy()
            b[1:-1, 1:-1] = total // 16
            a = b
        else:
            a = first + a
    return wrapped(int(a.sum(dtype=np.int64)))


def main():
    way, work, rounds = sys.argv[1], sys.argv[2], int(sys.argv[3])
    print((by_numpy if way == "numpy" else by_loops)(work, rounds))


main()
