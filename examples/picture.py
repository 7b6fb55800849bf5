#!/usr/bin/env python3
"""picture.py FILE PICTURE.png [SCALE]

Shows an int[.,.] of a data text as a picture: dark for the least number, light for the greatest. Each cell is SCALE by SCALE points, 1 if left
out. Takes the colours of matplotlib where numpy and matplotlib are installed, and else shades of grey.
"""
import re
import struct
import sys
import zlib


def matrix_of(path):
    """The first matrix of the text, as rows of numbers."""
    with open(path, encoding="ascii") as file:
        for line in file:
            found = re.fullmatch(r"\s*int\[\s*(\d+)\s*,\s*(\d+)\s*\]\s*:(.*)", line.strip())
            if found:
                columns, cells = int(found[2]), [int(n) for n in found[3].split()]
                return [cells[at : at + columns] for at in range(0, len(cells), columns)]
    sys.exit(f"{path} has no line int[rows,columns]: ..")


def colours_of(rows):
    """The rows as bytes of red, green and blue."""
    least, greatest = min(map(min, rows)), max(map(max, rows))
    span = max(greatest - least, 1)
    try:
        import numpy
        from matplotlib import colormaps

        return (colormaps["magma"]((numpy.array(rows) - least) / span)[:, :, :3] * 255).astype("uint8").tolist()
    except ImportError:
        return [[[(cell - least) * 255 // span] * 3 for cell in row] for row in rows]


def write_png(path, rows):
    """Writes rows of [red, green, blue] as a PNG file."""
    raw = b"".join(b"\0" + bytes(part for point in row for part in point) for row in rows)

    def chunk(kind, content):
        return struct.pack(">I", len(content)) + kind + content + struct.pack(">I", zlib.crc32(kind + content))

    with open(path, "wb") as file:
        file.write(b"\x89PNG\r\n\x1a\n" + chunk(b"IHDR", struct.pack(">IIBBBBB", len(rows[0]), len(rows), 8, 2, 0, 0, 0)))
        file.write(chunk(b"IDAT", zlib.compress(raw, 9)) + chunk(b"IEND", b""))


def main():
    if len(sys.argv) not in (3, 4):
        sys.exit(__doc__)
    scale = int(sys.argv[3]) if len(sys.argv) == 4 else 1
    points = colours_of(matrix_of(sys.argv[1]))
    write_png(sys.argv[2], [[point for point in row for _ in range(scale)] for row in points for _ in range(scale)])


if __name__ == "__main__":
    main()
