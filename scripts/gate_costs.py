#!/usr/bin/env python3
"""gate_costs.py LOG [-- COMMAND..]

With a command, as `bash .ci/run`: runs it, writes what it says to LOG, and behind it what each crate cost, a line
`cost CRATE KIND SECONDS` each, where KIND is proof, tests or edits and SECONDS is processor time. A look at the processes every half second
finds the costs, so each is short by up to half a second a process. Ends with the command's status.
Then, and without a command, prints the table of a log in processor minutes, the dearest crate first.
"""
import collections
import os
import re
import subprocess
import sys
import time

TICKS = os.sysconf("SC_CLK_TCK")
KINDS = ("proof", "tests", "edits")


def process(number):
    """What a process works for, as (crate, kind), and its processor time in seconds; None if it is no check and no compiler of a crate."""
    try:
        with open(f"/proc/{number}/cmdline", "rb") as file:
            words = file.read().split(b"\0")
        checks = words[0].endswith(b"/rattle") and b"--crate-name" in words
        if not checks and not words[0].endswith(b"/clang"):
            return None
        with open(f"/proc/{number}/stat", encoding="utf-8") as file:
            fields = file.read().rsplit(")", 1)[1].split()
        where = os.readlink(f"/proc/{number}/cwd")
    except OSError:
        return None
    # LLVM's compiler works in the folder of the program or of the tests that it builds
    crate = words[words.index(b"--crate-name") + 1].decode() if checks else os.path.basename(where)
    kind = "edits" if "rt-edit-" in where else "tests" if b"--test" in words else "proof"
    return (crate, kind), (int(fields[11]) + int(fields[12])) / TICKS


def run(command, path):
    """Runs a command and notes costs, and returns its status."""
    seen, begun = {}, time.time()
    with open(path, "w", encoding="utf-8") as log:
        work = subprocess.Popen(command, stdout=log, stderr=subprocess.STDOUT)
        while work.poll() is None:
            for name in os.listdir("/proc"):
                found = process(name) if name.isdigit() else None
                if found:
                    seen[int(name), found[0]] = found[1]
            time.sleep(0.5)
        costs = collections.Counter()
        for (_, key), seconds in seen.items():
            costs[key] += seconds
        log.write(f"\nelapsed {time.time() - begun:.0f} seconds, {os.cpu_count()} processors\n")
        log.writelines(f"cost {crate} {kind} {seconds:.0f}\n" for (crate, kind), seconds in costs.items())
    return work.returncode


def show(path):
    """Prints the table of a log."""
    with open(path, encoding="utf-8", errors="replace") as log:
        text = log.read()
    costs = collections.defaultdict(dict)
    for crate, kind, seconds in re.findall(r"(?m)^cost (\w+) (\w+) (\d+)$", text):
        costs[crate][kind] = int(seconds) / 60
    print("| Crate | Proof | Tests | Edits | All |\n|---|---|---|---|---|")
    shown = sorted(costs.items(), key=lambda it: -sum(it[1].values()))
    for crate, kinds in shown:
        print(f"| {crate} | " + " | ".join(f"{kinds.get(kind, 0):.1f}" for kind in KINDS) + f" | {sum(kinds.values()):.1f} |")
    sums = [sum(kinds.get(kind, 0) for kinds in costs.values()) for kind in KINDS]
    print("| all | " + " | ".join(f"{it:.1f}" for it in sums) + f" | {sum(sums):.1f} |")
    for line in re.findall(r"(?m)^elapsed .*$", text):
        print("\n" + line)


def main():
    path, words = sys.argv[1], sys.argv[2:]
    status = run(words[1:], path) if words[:1] == ["--"] else 0
    show(path)
    return status


if __name__ == "__main__":
    sys.exit(main())
