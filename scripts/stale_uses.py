#!/usr/bin/env python3
"""stale_uses.py: the uses of definitions and lemmas of this repository whose file is not there, or has no such name. Status 1 where there is one.

It takes a few seconds, and finds what a file that was moved or a lemma that was renamed left behind, before a check does. Modules that the toolchain
writes are passed over.
"""
import functools
import os
import re
import sys

TOP = os.path.dirname(os.path.dirname(os.path.abspath(__file__)))
USE = re.compile(r"^\s*(?:ghost )?use Rattle\.(\w+)\.(specs|proofs)\.([\w.+'-]+?)(?:\.\{([^}]*)\})?(?: as \w+)?;?$", re.M)
# What stands in modules that are generated for each crate.
GENERATED = re.compile(r"^(declared|contracts)\.|\.(Goals|Given|Statement|Code|TheSendSync)$")


@functools.lru_cache(maxsize=None)
def text_of(path):
    with open(path, encoding="utf-8") as file:
        return file.read()


@functools.lru_cache(maxsize=None)
def words_of(path):
    return frozenset(re.findall(r"[^\s(){}\[\];,.]+", text_of(path)))


def stale_in(path, crates):
    """What a file uses that is not there, a line each."""
    for crate, kind, module, names in USE.findall(text_of(path)):
        if crate not in crates or GENERATED.search(module):
            continue
        file = f"crates/{crate}/{kind}/{module.replace('.', '/')}.antt"
        if not os.path.exists(file):
            yield f"{path}: no file {file}"
            continue
        for name in (it.split(" as ")[0].strip() for it in names.split(",")):
            # names with places for operands are not looked for
            if name and "◌" not in name and name not in words_of(file):
                yield f"{path}: no {name} in {file}"


def main():
    os.chdir(TOP)
    crates = set(os.listdir("crates"))
    files = [os.path.join(at, it) for at, _, found in os.walk("crates") if "/out" not in at for it in found if it.endswith((".rt", ".antt"))]
    stale = [line for path in sorted(files) for line in stale_in(path, crates)]
    print("\n".join(stale) or f"{len(files)} files, no stale use")
    return 1 if stale else 0


if __name__ == "__main__":
    sys.exit(main())
