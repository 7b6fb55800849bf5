#!/usr/bin/env python3
"""nests.py PROGRAM [NAME ..]: runs the greatest nests that the limits allow, of each kind in each place.

A nest puts an expression, or a statement, into itself as often as the limits on brackets and on the height of a function allow, which is found by asking the program; one more has to be
refused with P2. It stands in main, in the cells of a with-loop, which four workers compute, and in a function that calls itself 200 times, where each call stands inside the nest, in
main and in cells. Every nest keeps the number 1, which comes from the input, so that nothing is known before the run. Prints a line for each kind: how often it is nested in each
place, and each run that ends otherwise. A NAME runs this kind alone.
"""
import os
import sys

import plain_runs

LOOP = "([0] <= iv < [1])"

# What stands before and behind an expression that is 1, to make another one that is 1.
EXPRESSIONS = {
    "brackets": ("(", ")"),
    "negations": ("- - ", ""),
    "sums on the left": ("", " + 0"),
    "sums on the right": ("0 + (", ")"),
    "products in a sum": ("0 + 1 * (", ")"),
    "comparisons": ("toint(1 == ", ")"),
    "first branches": ("x == 1 ? ", " : 0"),
    "second branches": ("x == 0 ? 0 : ", ""),
    "conditions": ("(", ") == 1 ? 1 : 0"),
    "min": ("min(2, ", ")"),
    "max": ("max(", ", 0)"),
    "arguments": ("same(", ")"),
    "arguments of inline functions": ("inlined(", ")"),
    "literals": ("[", "][0]"),
    "indices": ("[0, 1][", "]"),
    "index lists": ("[[0, 1], [0, 1]][1, ", "]"),
    "dim": ("dim([", "])"),
    "shape": ("shape(with { } : genarray([1], ", "))[0]"),
    "reshape": ("reshape([1], [", "])[0]"),
    "shapes of reshape": ("reshape([", "], [1])[0]"),
    "cells": ("with { " + LOOP + " : ", "; } : fold(+, 0)"),
    "cells of arrays": ("(with { " + LOOP + " : ", "; } : genarray([1], 0))[0]"),
    "blocks of generators": ("with { " + LOOP + " { y = ", "; } : y; } : fold(+, 0)"),
    "lower bounds": ("with { ([1 - ", "] <= iv < [1]) : 1; } : fold(+, 0)"),
    "upper bounds": ("with { ([0] <= iv < [", "]) : 1; } : fold(+, 0)"),
    "steps": ("with { ([0] <= iv < [1] step [", "]) : 1; } : fold(+, 0)"),
    "widths": ("with { ([0] <= iv < [1] step [2] width [", "]) : 1; } : fold(+, 0)"),
    "shapes of arrays": ("shape(with { } : genarray([", "], 0))[0]"),
    "defaults": ("(with { } : genarray([1], ", "))[0]"),
    "arrays of modarray": ("(with { } : modarray([", "]))[0]"),
    "neutral values": ("with { } : fold(*, ", ")"),
}

# What stands before and behind statements that set y to 1.
STATEMENTS = {
    "first blocks": ("if (x == 1) { ", " } else { y = 0; }"),
    "second blocks": ("if (x == 0) { y = 0; } else { ", " }"),
    "else with an if": ("if (x == 0) { y = 0; } else if (x == 1) { ", " }"),
    "while loops": ("t = true; while (t) { t = false; ", " t = false; }"),
    "do loops": ("do { ", " } while (x == 0);"),
    "for loops": ("for (t = x == 1; t; t = false) { ", " }"),
    "blocks of generators with statements": ("z = with { " + LOOP + " { ", " } : y; } : fold(+, 0); y = z;"),
}

HELPERS = (
    "int same(int a) { return (a); }\n"
    "inline int inlined(int a) { return (a); }\n"
    "int toint(bool b) { return (b ? 1 : 0); }\n"
)


def nested(kind, count, inside):
    """A body of a function, and its value: the kind so often around an expression."""
    if kind in EXPRESSIONS:
        before, behind = EXPRESSIONS[kind]
        return "", before * count + inside + behind * count
    before, behind = STATEMENTS[kind]
    return "y = 0; " + before * count + f"y = {inside};" + behind * count, "y"


def in_main(kind, count):
    body, value = nested(kind, count, "x")
    return HELPERS + f"int main(int x) {{ {body} return ({value}); }}"


def in_cells(kind, count):
    body, value = nested(kind, count, "x")
    return HELPERS + f"int[*] main(int x) {{ return (with {{ ([0] <= [q] < [4]) {{ {body} }} : {value}; }} : genarray([4], 0)); }}"


def calling_itself(kind, count):
    body, value = nested(kind, count, "f(n - 1, x)")
    inner = "y = 1; if (n > 0) { " + body + " } " if body else f"y = 1; if (n > 0) {{ y = {value}; }} "
    return HELPERS + f"int f(int n, int x) {{ {inner} return (y); }}\n"


def calls_in_main(kind, count):
    return calling_itself(kind, count) + "int main(int x) { return (f(199, x)); }"


def calls_in_cells(kind, count):
    return calling_itself(kind, count) + "int[*] main(int x) { return (with { ([0] <= [q] < [4]) : f(199, x + q - q); } : genarray([4], 0)); }"


# The places, and what is due there.
PLACES = {
    "main": (in_main, "int[]: 1\n"),
    "cells": (in_cells, "int[4]: 1 1 1 1\n"),
    "calls": (calls_in_main, "int[]: 1\n"),
    "calls in cells": (calls_in_cells, "int[4]: 1 1 1 1\n"),
}


def run(program, source, *words):
    return plain_runs.run(program, source.encode(), b"int[]: 1", words=["--depth", "200", *words])


def greatest(program, place, kind):
    """How often a kind can be nested in a place, and the answer to one more."""
    fits, over = 0, 201
    refusal = None
    while over - fits > 1:
        middle = (fits + over) // 2
        answer = run(program, place(kind, middle), "--mode", "check")
        if answer.status == 0:
            fits = middle
        else:
            over, refusal = middle, answer
    return fits, refusal


def tries(program, kind):
    """The greatest count in each place, and what ended otherwise than it may."""
    counts, wrong = [], []
    for name, (place, due) in PLACES.items():
        count, refusal = greatest(program, place, kind)
        counts.append(f"{count} in {name}")
        if count == 0 or not refusal.text.startswith("refused P2"):
            wrong.append(f"{name}, {count + 1} of them: {refusal.shown()}")
        for workers in ("1", "4"):
            answer = run(program, place(kind, count), "--workers", workers)
            if (answer.text, answer.status) != (due, 0):
                wrong.append(f"{name}, {count} of them, {workers} workers: {answer.shown()}, {answer.seconds:.1f} seconds")
    return counts, wrong


def main():
    program = os.path.abspath(sys.argv[1])
    lost = 0
    for kind in sys.argv[2:] or [*EXPRESSIONS, *STATEMENTS]:
        counts, wrong = tries(program, kind)
        print(f"{kind}: {', '.join(counts)}; {len(wrong)} wrong", flush=True)
        for line in wrong:
            print(f"    {line}")
        lost += len(wrong)
    return 1 if lost else 0


if __name__ == "__main__":
    sys.exit(main())
