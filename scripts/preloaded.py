"""A program run with a small C library in front of the system's, which counts calls and makes some of them fail, and the small sources that it is run on."""
import os
import pathlib
import subprocess

ROOT = pathlib.Path(__file__).resolve().parent.parent

# A loop in a loop, 47 deep, around a value.
DEEP = "with { ([0] <= iv < [1]) : " * 47, "; } : fold(+, 0)" * 47

# One source of each kind: a single value, two loops of which one reads the other, a few cells of an array replaced, a loop in each cell, a loop over scalars and one that replaces elements, a fault in a cell, deep nests of calls.
SMALL = {
    "value": ("int main() { return (2 + 3 * 4); }", None),
    "loop_of_a_loop": ("""int[*] main() {
  a = with { ([0] <= iv < [16]) : iv[0] * 2; } : genarray([16], 0);
  b = with { ([0] <= iv < [16]) : a[iv] + 1; } : genarray([16], 0);
  return (b);
}
""", None),
    "first_cells": ("""int[*] main(int[.] a) {
  b = with { ([0] <= iv < [4]) : a[iv] + 100; } : modarray(a);
  return (b);
}
""", "int[16]: 0 1 2 3 4 5 6 7 8 9 10 11 12 13 14 15"),
    "loop_in_each_cell": ("""int[*] main() {
  return (with { ([0] <= iv < [4]) :
      with { ([0] <= jv < [5]) : iv[0] * 10 + jv[0]; } : genarray([5], 0);
    } : genarray([4], [0, 0, 0, 0, 0]));
}
""", None),
    "fault_in_a_cell": ("""int[*] main() {
  return (with {
    ([0] <= iv < [4]) { x = 1 / (iv[0] - 1); } : with { } : genarray([0], x);
  } : genarray([4], []));
}
""", None),
    "loops_and_replacements": ("""int[*] main() {
  a = with { ([0] <= [i] < [20]) : i * 7 % 20; } : genarray([20], 0);
  s = 0;
  for (i = 0; i < 20; i++) { if (a[i] > s) { s = s + a[i] / 2; } }
  for (i = 0; i < 20; i++) { a[a[i]] = s - a[i]; }
  return (a);
}
""", None),
    "deep_calls": (f"""int f(int n) {{ r = 0; if (n > 0) {{ r = {DEEP[0]}f(n - 1){DEEP[1]}; }} return (r); }}
int main(int n) {{ return (f(n)); }}
""", "int[]: 99"),
}

# A program of this toolchain ends by `_exit`, at which descriptor 9 is told the number of calls and how many of what they gave were not given back. The library counts
# them in `calls` and `live`, and may have told more before.
TELLS = r"""
#include <stdatomic.h>
#include <stdio.h>
#include <sys/syscall.h>
#include <unistd.h>

static atomic_long calls, live;

static void tell(void) {
    char text[64];
    int length = snprintf(text, sizeof text, " %ld %ld", atomic_load(&calls), atomic_load(&live));
    syscall(SYS_write, 9, text, length);
}

void _exit(int status) {
    tell();
    for (;;) syscall(SYS_exit_group, status);
}
"""


def library(folder, text):
    """Builds the library of these lines of C in the folder."""
    source, made = folder / "shim.c", folder / "shim.so"
    source.write_text("#define _GNU_SOURCE\n" + TELLS + text)
    subprocess.run(["cc", "-O1", "-shared", "-fPIC", "-o", made, source], check=True)
    return made


def write_small(folder):
    for name, (source, given) in SMALL.items():
        (folder / f"{name}.sac").write_text(source)
        if given:
            (folder / f"{name}.in").write_text(given)


def names():
    """The small sources, and behind them the examples."""
    return [*SMALL, *sorted(it.stem for it in (ROOT / "examples").glob("*.sac"))]


def place_of(folder, name):
    return (folder if name in SMALL else ROOT / "examples") / name


def run(program, made, example, words, settings):
    """Returns the status, the text, and what the library told: of each call, how many there were, and how many are live. A run that is killed tells less."""
    words = [program, f"{example}.sac", *words]
    given = pathlib.Path(f"{example}.in")
    if given.exists():
        words += ["--input", str(given)]
    reader, writer = os.pipe()
    os.dup2(writer, 9, inheritable=True)
    os.close(writer)
    env = {"LD_PRELOAD": str(made)} | {name: str(value) for name, value in settings.items()}
    try:
        ended = subprocess.run(words, env=env, capture_output=True, pass_fds=[9], timeout=300)
    finally:
        os.close(9)
    with os.fdopen(reader) as told:
        each, calls, live = (told.read().split(" ") + ["", "", ""])[:3]
    return ended.returncode, ended.stdout, each, int(calls or 0), int(live or 0)
