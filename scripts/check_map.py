#!/usr/bin/env python3
"""check_map.py [--write]

Compares crates.txt, the sources, docs/ARCHITECTURE.md and the READMEs, and prints what differs. Status 1 where something does.

- A crate uses what crates.txt lists for it, no more: each use is named in one of its files, or in an edit that calls it.
- The table of docs/ARCHITECTURE.md has each crate once, below all that it stands on, and its second column lists what it
  stands on: the crates that it uses, without those that stand below another one of them.
- Each crate has a README.md, and README.md and docs/PROVED.md name no crate that is not there.

With --write the table is put in order and its second column written anew; what a crate promises stays as it is.
"""
import os
import re
import sys

TOP = os.path.dirname(os.path.dirname(os.path.abspath(__file__)))
MAP = "docs/ARCHITECTURE.md"
PROVED = "docs/PROVED.md"
HEAD = "| Crate | Stands on | What it promises the layer above |"


def text_of(path):
    with open(os.path.join(TOP, path), encoding="utf-8") as file:
        return file.read()


def uses():
    """The uses of each crate, by crates.txt."""
    found = {}
    for line in text_of("crates.txt").splitlines():
        if line.strip() and not line.startswith("#"):
            names, libraries = line.split(":")
            found[names.split()[0]] = libraries.split()
    return found


def sources(crate):
    """All that the files of a crate say, and its edits, in one text."""
    said = []
    for top in ("crates", "edits"):
        for folder, _, files in os.walk(os.path.join(TOP, top, crate)):
            if "/out/" in folder + "/":
                continue
            said += [text_of(os.path.join(folder, file)) for file in files if file.endswith((".rt", ".antt", ".edit"))]
    return "\n".join(said)


def below(crate, own, known={}):
    """The repository's crates that one stands on, those below included. What was found before is kept by crate."""
    if crate not in known:
        found = set()
        for use in own[crate]:
            found |= {use} | below(use, own)
        known[crate] = found
    return known[crate]


def layers(own):
    """The crates in an order in which each stands behind all that it uses: by height, then by name."""
    height = {}

    def height_of(crate):
        if crate not in height:
            height[crate] = 1 + max([height_of(use) for use in own[crate]], default=0)
        return height[crate]

    return sorted(own, key=lambda crate: (height_of(crate), crate))


def rows():
    """The rows of the map: each crate's two other columns, in the file's order."""
    after = text_of(MAP).split(HEAD + "\n", 1)[1].splitlines()[1:]
    found = []
    for line in after:
        if not line.startswith("|"):
            break
        found.append([part.strip() for part in line.strip("|").split("|")])
    return found


def table(own):
    """The rows as they are to be."""
    promises = {row[0]: row[2] for row in rows()}
    made = []
    for crate in layers(own):
        direct = [use for use in own[crate] if not any(use in below(other, own) for other in own[crate])]
        made.append([crate, ", ".join(direct), promises.get(crate, "")])
    return made


def shown(made):
    return "".join("| " + " | ".join(row).replace("|  |", "| |") + " |\n" for row in made)


def main():
    all_uses = uses()
    own = {crate: [use for use in libraries if use in all_uses] for crate, libraries in all_uses.items()}
    if "--write" in sys.argv[1:]:
        before, after = text_of(MAP).split(HEAD + "\n", 1)
        lines = after.splitlines(keepends=True)
        rest = next((at for at, line in enumerate(lines) if not line.startswith("|")), len(lines))
        whole = before + HEAD + "\n" + lines[0] + shown(table(own)) + "".join(lines[rest:])
        with open(os.path.join(TOP, MAP), "w", encoding="utf-8") as file:
            file.write(whole)
    wrong = []
    for crate, libraries in all_uses.items():
        said = sources(crate)
        wrong += [f"crates.txt: {crate} does not use {use}" for use in libraries if not re.search(rf"\b{use}\b", said)]
        if not os.path.isfile(os.path.join(TOP, "crates", crate, "README.md")):
            wrong.append(f"crates/{crate} has no README.md")
    folders = set(os.listdir(os.path.join(TOP, "crates")))
    wrong += [f"crates.txt does not list {name}" for name in sorted(folders - set(all_uses))]
    there, wanted = rows(), table(own)
    wrong += [f"{MAP}: says nothing of {row[0]}" for row in wanted if not row[2]]
    wrong += [f"{MAP}: there is no crate {row[0]}" for row in there if row[0] not in own]
    if not wrong and there != wanted:
        wrong += [f"{MAP}: is {a} and is to be {b}" for a, b in zip(there, wanted) if a != b][:3]
        wrong.append(f"{MAP}: the table is to be written anew, by scripts/check_map.py --write")
    for page in ("README.md", PROVED):
        for word in re.findall(r"`([a-z0-9]+(?:_[a-z0-9]+)+)(?:::[a-z_0-9]+)?`", text_of(page)):
            prefixes = {name.split("_")[0] for name in own}
            if word.split("_")[0] in prefixes and word not in own and word not in {"sac_main"}:
                wrong.append(f"{page}: there is no crate {word}")
    print("\n".join(wrong) if wrong else f"the map fits: {len(own)} crates")
    return 1 if wrong else 0


if __name__ == "__main__":
    sys.exit(main())
