"""Whether Esri's library reads tiles of several bands that the program wrote as the program reads them.

    liblerc.py PROGRAM

Prints a line for each tile, 'ok: NAME' or 'FAILED: NAME', or one line 'skipped: WHY' where the library is not here.
"""

import ctypes
import ctypes.util
import random
import struct
import subprocess
import sys

# The letter of each pixel type for `struct`, its number in the library, and its least and greatest value, by the
# type's code in a grid.
TYPES = [("b", 0, -128, 127), ("B", 1, 0, 255), ("h", 2, -32768, 32767), ("H", 3, 0, 65535),
         ("i", 4, -2147483648, 2147483647), ("I", 5, 0, 4294967295)]


def found_library():
    for name in ("libLerc.so.4", "libLerc.so", ctypes.util.find_library("Lerc")):
        try:
            return ctypes.CDLL(name) if name else None
        except OSError:
            pass
    return None


def grid_of(code, rows, cols, depth, bands):
    """The grid file of bands, each a list of a list of values, or None, for each pixel."""
    letter = TYPES[code][0]
    magic = b"LGR1" if len(bands) == 1 else b"LGR2"
    parts = [magic, struct.pack("<BIII", code, rows, cols, depth)]
    if len(bands) > 1:
        parts.append(struct.pack("<I", len(bands)))
    for band in bands:
        parts.append(bytes(pixel is not None for pixel in band))
        values = [value for pixel in band if pixel is not None for value in pixel]
        parts.append(struct.pack(f"<{len(values)}{letter}", *values))
    return b"".join(parts)


def run(program, words, data):
    done = subprocess.run([program, "-", *words], input=data, capture_output=True, check=False)
    return done.stdout if done.returncode == 0 else None


def read_by_library(library, blob, code, rows, cols, depth, count):
    """The bands that the library reads, or None where it refuses the blob."""
    letter, number = TYPES[code][:2]
    places = rows * cols
    info = (ctypes.c_uint * 11)()
    ranges = (ctypes.c_double * 3)()
    if library.lerc_getBlobInfo(blob, len(blob), info, ranges, 11, 3) != 0:
        return None
    if tuple(info[1:6]) + (info[7],) != (number, depth, cols, rows, count, len(blob)):
        return None
    masks = (ctypes.c_ubyte * (places * count))()
    values = (ctypes.c_ubyte * (places * depth * count * struct.calcsize(letter)))()
    if library.lerc_decode(blob, len(blob), count, masks, depth, cols, rows, count, number, values) != 0:
        return None
    flat = struct.unpack(f"<{places * depth * count}{letter}", bytes(values))
    return [[list(flat[(band * places + at) * depth:(band * places + at + 1) * depth])
             if masks[band * places + at] else None for at in range(places)] for band in range(count)]


def made_bands(dice, code, rows, cols, depth, count, shape):
    """Bands of smooth or of random values. Their masks are full, one for all, each another one, or a mixture."""
    least, greatest = TYPES[code][2:]
    bands, marks = [], None
    for number in range(count):
        if shape == "full":
            marks = [True] * (rows * cols)
        elif marks is None or shape == "each" or (shape == "mixed" and dice.random() < 0.5):
            share = dice.choice([0.0, 0.2, 0.5, 0.9, 1.0]) if shape == "mixed" else dice.choice([0.2, 0.5, 0.9])
            marks = [dice.random() < share for _ in range(rows * cols)]
        span = dice.choice([0, 1, 30, 3000])
        base = dice.randint(least, greatest)
        band = []
        for at, mark in enumerate(marks):
            pixel = [min(greatest, max(least, base + number + (at % cols) + dice.randint(0, span))) for _ in range(depth)]
            band.append(pixel if mark else None)
        bands.append(band)
    return bands


def main():
    program = sys.argv[1]
    library = found_library()
    if library is None:
        print("skipped: Esri's library is not here")
        return
    dice = random.Random(15)
    for number in range(60):
        code, count = dice.randrange(6), dice.choice([2, 2, 3, 3, 4, 7, 16])
        version = dice.choice(["3", "4"])
        depth = dice.choice([1, 1, 2, 3]) if version == "4" else 1
        rows, cols = dice.choice([(1, 1), (1, 9), (8, 8), (17, 23), (40, 33)])
        shape = dice.choice(["full", "one", "each", "mixed"])
        error = dice.choice(["0", "0", "1", "5"])
        name = f"Esri's library: {count} bands of {rows} by {cols}, number {number}"
        grid = grid_of(code, rows, cols, depth, made_bands(dice, code, rows, cols, depth, count, shape))
        blobs = run(program, ["encode", version, error], grid)
        own = run(program, ["decode"], blobs) if blobs else None
        read = read_by_library(library, blobs, code, rows, cols, depth, count) if own else None
        holds = read is not None and grid_of(code, rows, cols, depth, read) == own and (error != "0" or own == grid)
        print(f"{'ok' if holds else 'FAILED'}: {name}")


main()
