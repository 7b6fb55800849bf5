#!/usr/bin/env python3
"""limits.py PROGRAM [NUMBER ..]: each limit at its greatest value and one beyond it, where that takes too long for a row of `sac_row_tests`.

Prints a row of a table for each: what is tried, the status, the text, the seconds, and whether this is what is due. A NUMBER runs this one alone.
"""
import os
import sys

import plain_runs

BYTES, INPUT_BYTES, ELEMENTS = 1_048_576, 67_108_864, 16_777_216
SAME = "int[*] main(int[*] a) { return (shape(a)); }"
FOLD = "int main() { return (with { ([0] <= [i] < [%d]) : %s; } : fold(+, 0)); }"
FRAME = "int[*] main() { return (shape(with { } : genarray([%d, %d], %s))); }"


def padded(text, size, blank=" "):
    return text + blank * (size - len(text))


def steps(one, two):
    """Two generators whose steps have a common period, over a frame of two periods: how many indices neither holds."""
    grids = f"([0] <= [i] < [20000] step [{one}]) : 0; ([0] <= [i] < [20000] step [{two}]) : 0;"
    free = sum(1 for index in range(20_000) if index % one and index % two)
    body = f"a = with {{ {grids} }} : genarray([20000], 1);"
    return f"int main() {{ {body} return (with {{ ([0] <= iv < [20000]) : a[iv]; }} : fold(+, 0)); }}", f"int[]: {free}\n"


def parts(count):
    """A loop of so many parts, and one that reads it."""
    grids = " ".join(f"([{k}] <= [i] < [{k + 1}]) : i * {k + 1};" for k in range(count))
    body = f"a = with {{ {grids} }} : genarray([{count}], 0);"
    total = sum(k * (k + 1) for k in range(count))
    return f"int main() {{ {body} return (with {{ ([0] <= iv < [{count}]) : a[iv]; }} : fold(+, 0)); }}", f"int[]: {total}\n"


def long_body(count):
    """A loop of a body of so many bindings, and one that reads it."""
    body = "".join(f"y = y + {k};" for k in range(count))
    total = 10 * sum(range(count)) + 45
    source = f"int main() {{ a = with {{ ([0] <= [i] < [10]) {{ y = i; {body} }} : y; }} : genarray([10], 0);"
    return source + " return (with { ([0] <= iv < [10]) : a[iv]; } : fold(+, 0)); }", f"int[]: {total}\n"


def site_of(word, source):
    return f"1:{source.index(word) + 1}"


def case(name, source, text, status=0, given=None, words=()):
    return name, source, text, status, given, words


def cases():
    zeros = " 0" * ELEMENTS
    yield case("a source of 1,048,576 bytes", padded("int main() { return (14); }", BYTES), "int[]: 14\n")
    yield case("one byte more", padded("int main() { return (14); }", BYTES + 1), "refused source size\n", 2)
    yield case("1,048,576 bytes in a comment", padded("int main() { return (14); } //", BYTES, "x"), "int[]: 14\n")
    yield case("one byte more", padded("int main() { return (14); } //", BYTES + 1, "x"), "refused source size\n", 2)
    yield case("an input of 67,108,864 bytes", SAME, "int[1]: 1\n", 0, padded("int[1]: 5", INPUT_BYTES))
    yield case("one byte more", SAME, "refused input size\n", 3, padded("int[1]: 5", INPUT_BYTES + 1))
    yield case("an input of 16,777,216 elements", SAME, "int[1]: 16777216\n", 0, f"int[{ELEMENTS}]:{zeros}")
    yield case("one element more", SAME, "refused I6 at line 1\n", 3, f"int[{ELEMENTS + 1}]:{zeros} 0")
    yield case("a fold over 16,777,216 indices", FOLD % (ELEMENTS, "i % 2"), "int[]: 8388608\n")
    yield case("the same with 64 workers and chunks of 1", FOLD % (ELEMENTS, "i % 2"), "int[]: 8388608\n", 0, None, ["--workers", "64", "--chunk", "1"])
    yield case("one index more", FOLD % (ELEMENTS + 1, "i % 2"), f"fault F8 at {site_of('fold', FOLD % (ELEMENTS + 1, 'i % 2'))}\n", 1)
    yield case("cells of no element in 16,777,216 indices", FRAME % (4096, 4096, "[]"), "int[3]: 4096 4096 0\n")
    yield case("one row of indices more", FRAME % (4097, 4096, "[]"), f"fault F8 at {site_of('genarray', FRAME % (4097, 4096, '[]'))}\n", 1)
    yield case("64 workers, 4,096 chunks of 1", FOLD % (4096, "i"), "int[]: 8386560\n", 0, None, ["--workers", "64", "--chunk", "1"])
    yield case("64 workers, 4,097 chunks of 1", FOLD % (4097, "i"), "int[]: 8390656\n", 0, None, ["--workers", "64", "--chunk", "1"])
    for one, two in [(4_095, 1), (64, 63), (64, 65), (4_096, 4_096), (4_096, 4_097), (17, 241)]:
        yield case(f"steps of {one:,} and {two:,}", *steps(one, two))
    for count in (63, 64, 65, 128):
        yield case(f"a loop of {count} parts", *parts(count))
    for count in (1_000, 4_000, 4_200):
        yield case(f"a body of {count:,} sums", *long_body(count))


def main():
    program = os.path.abspath(sys.argv[1])
    chosen = {int(word) for word in sys.argv[2:]}
    lost = 0
    print("| | Tried | Status | Text | Seconds |\n|---|---|---|---|---|")
    for number, (name, source, text, status, given, words) in enumerate(cases(), 1):
        if chosen and number not in chosen:
            continue
        answer = plain_runs.run(program, source.encode(), given and given.encode(), words, seconds=1_200, processor=120)
        right = (answer.status, answer.text) == (status, text)
        lost += not right
        print(f"| {number} | {name} | {answer.status} | {answer.text[:40].strip()} | {answer.seconds:.2f} |{'' if right else f' wrong, due {status}, {text!r}'}", flush=True)
    return 1 if lost else 0


if __name__ == "__main__":
    sys.exit(main())
