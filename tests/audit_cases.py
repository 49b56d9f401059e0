"""The cases of tile_audit.sh: what an audit of bundles that are made here gives.

    audit_cases.py [PROGRAM]

The wanted lines stand here, and the reading in audit_reading.py has to give them, and so has the program where one is
named. Where a case has no lines of its own, the program is compared with the reading. Prints a line for each case, 'ok:
NAME' or 'FAILED: NAME', and last 'N passed, M failed'.
"""

import os
import random
import struct
import subprocess
import sys
import tempfile

import audit_reading as reading

FRONT = struct.pack("<4I2QQI4II", 3, 16384, 0, 5, 0, 0, 40, 131092, 3, 16, 16384, 5, 131072)
HERE = os.path.dirname(os.path.abspath(__file__))
counts = {True: 0, False: 0}


def case(name, holds):
    counts[bool(holds)] += 1
    print(("ok: " if holds else "FAILED: ") + name)


# ---- What is given: blobs

# The i16 values 10 11 12 13 with an error of 1, in version 3; and two depths of such, in version 4.
STEPS = bytes.fromhex(
    "4c657263322003000000 57a9a459 0100000004000000040000000800000048000000 02000000"
    "000000000000f03f 0000000000002440 0000000000002a40 00000000 00810a820494"
)
DEPTHS = bytes.fromhex(
    "4c657263322004000000 8251707d 01000000040000000200000004000000080000005900000002000000"
    "000000000000f03f 0000000000002440 0000000000c05940 00000000 0a0064000d006700 00 810a820494 8164820480"
)
# The four numbers 1.5, 2.25, -3.125 and 1e10, as Esri's library writes them without error: in float by version 3, and in
# double by version 4; and the floats by versions 2 and 5.
FLOATS = bytes.fromhex(
    "4c657263322003000000 ea68a377 0200000002000000040000000800000053000000 06000000"
    "0000000000000000 00000000000009c0 000000205fa00242 00000000 01 0000c03f 00001040 000048c0 f9021550"
)
DOUBLES = bytes.fromhex(
    "4c657263322004000000 eba9cee0 020000000200000001000000040000000800000077000000 07000000"
    "0000000000000000 00000000000009c0 000000205fa00242 00000000 00000000000009c0 000000205fa00242 01"
    "000000000000f83f 0000000000000240 00000000000009c0 000000205fa00242"
)
SECOND = bytes.fromhex(
    "4c657263322002000000 0200000002000000040000000800000 04f00000006000000"
    "0000000000000000 00000000000009c0 000000205fa00242 00000000 01 0000c03f 00001040 000048c0 f9021550".replace(" ", "")
)
FIFTH = bytes.fromhex(
    "4c657263322005000000 fdccf55c 02000000020000000100000004000000080000005f000000 06000000"
    "0000000000000000 00000000000009c0 000000205fa00242 00000000 000048c0 f9021550 01 0000c03f 00001040 000048c0 f9021550"
)


def summed(blob):
    """The blob with the checksum of its bytes."""
    return blob[:10] + struct.pack("<I", reading.checksum(blob[14:])) + blob[14:]


def changed(blob, at, number, size=4):
    """The blob with another number at a place, and its checksum."""
    return summed(blob[:at] + number.to_bytes(size, "little", signed=number < 0) + blob[at + size :])


def turned(data, bit):
    """The bytes with one bit turned."""
    at = bit // 8
    return data[:at] + bytes([data[at] ^ 1 << bit % 8]) + data[at + 1 :]


def whole_blob(kind, rows, cols, value):
    """A blob of version 3 whose pixels all have this value."""
    head = struct.pack("<6sI4x7I3dI", b"Lerc2 ", 3, rows, cols, rows * cols, 8, 66, kind, 0, 0.5, value, value, 0)
    return summed(head[:38] + head[42:])


# ---- What is given: bundles


def bundle_of(records, entries=()):
    """A bundle of the tiles of `records`, by slot, with these further entries."""
    index = bytearray(131072)
    behind = []
    at = 131136 + 4
    for slot, tile in sorted(records.items()):
        behind += [struct.pack("<I", len(tile)), tile]
        struct.pack_into("<Q", index, 8 * slot, at | len(tile) << 40)
        at += len(tile) + 4
    for slot, offset, size in entries:
        struct.pack_into("<Q", index, 8 * slot, offset | size << 40)
    return b"".join((FRONT, index, *behind))


def with_bytes(data, at, more):
    return data[:at] + more + data[at + len(more) :]


def first_journal(gate=1, mark=b"LBJRNL1", kind=1, slot=0, length=131136):
    return struct.pack("<B7sBBH4xQQ64s", gate, mark, kind, 0, slot, 0, length, FRONT)


def second_journal(gate=1, mark=b"LBJRNL2", kind=1, count=1, slot=0, length=131136):
    records = struct.pack("<H6xQ", slot, 0) * 64
    return struct.pack("<B7sBB6xQ64s", gate, mark, kind, count, length, FRONT) + records


# ---- Runs


def by_reading(path, words):
    status, output, told = reading.run([path, *words])
    return status, output.encode(), told.encode()


def by_program(path, words):
    done = subprocess.run([sys.argv[1], path, *words], stdin=subprocess.DEVNULL, capture_output=True, timeout=120, check=False)
    told = done.stderr
    # The second line, which names the file, is of the program alone.
    if done.returncode in (5, 7):
        first, _, second = told.partition(b"\n")
        if second.startswith(b"in "):
            told = first + b"\n"
    return done.returncode, done.stdout, told


RUNS = {"reading": by_reading}
if len(sys.argv) > 1:
    RUNS["program"] = by_program


def put_files(bundle, journal):
    for path, data in (("disk", bundle), ("disk.jnl", journal)):
        if os.path.exists(path):
            os.remove(path)
        if data is not None:
            with open(path, "wb") as file:
                file.write(data)


def stands(bundle, journal):
    """The two files are these."""
    for path, data in (("disk", bundle), ("disk.jnl", journal)):
        if data is None:
            if os.path.exists(path):
                return False
        else:
            with open(path, "rb") as file:
                if file.read() != data:
                    return False
    return True


def gives(name, bundle, words, status, output, told="", journal=None):
    """A case: each run over these files ends so, and leaves them as they are."""
    put_files(bundle, journal)
    for kind, run in RUNS.items():
        got = run("disk", words.split())
        wanted = status, output.encode(), told.encode()
        case(f"{name} ({kind})", got == wanted and stands(bundle, journal))
        if got != wanted:
            print(f"    {got}\n    wanted {wanted}")


def same(name, bundle, words, journal=None):
    """A case: the program ends as the reading does."""
    if "program" in RUNS:
        put_files(bundle, journal)
        case(name, by_program("disk", words.split()) == by_reading("disk", words.split()))


def refused(name, line, bundle, journal=None):
    gives(name, bundle, "audit 1 all", 7, "", f"store: {line}\n", journal)


NAMES = ("tiles", "bytes", "whole", "summed", "foreign", "unread", "damaged", "pixels")


def totals(**numbers):
    return "".join(f"{name} {numbers.get(name, 0)}\n" for name in NAMES)


def line(text):
    return "\t".join(text.split()) + "\n"


def one(name, tile, text, **numbers):
    """A case: the line of a bundle of this one tile, in the first slot, from its checksum on."""
    damaged = "damaged" in text
    output = line(f"0 0 131140 {len(tile)} {text}") + totals(tiles=1, bytes=len(tile), **numbers)
    told = "damaged: 1 of 1 tiles\n" if damaged else ""
    gives(name, bundle_of({0: tile}), "audit 1 all", 9 if damaged else 0, output, told)


def sum_of(tile):
    """The word of a checksum; rows with one that is known are among the cases."""
    return struct.pack("<I", reading.checksum(tile[14:])).hex()


def damaged(name, tile, reason, place):
    one(name, tile, f"{sum_of(tile)} damaged {reason} {place} - - - - - -", damaged=1)


# ---- Cases


def test_rows():
    small = whole_blob(1, 1, 1, 7)
    bundle = with_bytes(bundle_of({16382: small, 16383: STEPS}), 64 + 8 * 16382, bytes(8))
    all_totals = totals(tiles=1, bytes=72, whole=1, pixels=4)
    row = line("127 127 131210 72 57a9a459 whole - - i16 1 4 1 1 4")
    gives("a tile in the last slot", bundle, "audit 1 all", 0, row + all_totals)
    gives("a whole tile has no line of its own", bundle, "audit 1", 0, all_totals)
    for workers in (2, 7, 64):
        gives(f"the same by {workers} workers", bundle, f"audit {workers} all strict", 0, row + all_totals)
    gives("a bundle of no tiles", bundle_of({}), "audit 1 all", 0, totals())
    jpeg = bundle_of({0: b"\xff\xd8\xff"})
    row = line("0 0 131140 3 ffffffff foreign - - - - - - - -")
    counted = totals(tiles=1, bytes=3, foreign=1)
    gives("a tile of another format", jpeg, "audit 1", 0, row + counted)
    gives("is damage where it is strict", jpeg, "audit 1 strict", 9, row + counted, "damaged: 1 of 1 tiles\n")
    row = line("0 0 131140 3 ffffffff damaged BadRecord - - - - - - -")
    counted = totals(tiles=1, bytes=3, damaged=1)
    wrong = with_bytes(jpeg, 131136, b"\4\0\0\0")
    gives("another size in front of it", wrong, "audit 1", 9, row + counted, "damaged: 1 of 1 tiles\n")
    two = bundle_of({0: STEPS, 1: b"GIF"})
    row = line("0 1 131216 3 ffffffff foreign - - - - - - - -")
    counted = totals(tiles=2, bytes=75, whole=1, foreign=1, pixels=4)
    gives("of two tiles the one that is not whole", two, "audit 2 strict", 9, row + counted, "damaged: 1 of 2 tiles\n")


def test_whole():
    one("two depths", DEPTHS, "8251707d whole - - i16 1 4 2 1 4", whole=1, pixels=4)
    tile = STEPS + STEPS
    one("two bands", tile, f"{sum_of(tile)} whole - - i16 1 4 1 2 8", whole=1, pixels=8)
    tile = STEPS * 16
    one("sixteen bands", tile, f"{sum_of(tile)} whole - - i16 1 4 1 16 64", whole=1, pixels=64)
    damaged("a seventeenth", STEPS * 17, "Leftover", 16 * 72)
    none = changed(whole_blob(1, 3, 5, 0), 22, 0)
    one("no valid pixel", none, f"{sum_of(none)} whole - - u8 3 5 1 1 0", whole=1, pixels=15)
    for code, kind in enumerate(reading.TYPES):
        tile = whole_blob(code, 2, 3, 9)
        one(f"the type {kind}", tile, f"{sum_of(tile)} whole - - {kind} 2 3 1 1 6", whole=1, pixels=6)
    tile = whole_blob(5, 4096, 4096, 4294967295)
    one("as many values as can be", tile, f"{sum_of(tile)} whole - - u32 4096 4096 1 1 16777216", whole=1, pixels=16777216)


def test_damaged():
    damaged("a key that is cut", STEPS[:4], "Truncated", 4)
    damaged("a header that is cut", STEPS[:61], "Truncated", 61)
    damaged("a blob that is cut", STEPS[:71], "Truncated", 71)
    damaged("a byte behind it", STEPS + b"L", "Leftover", 72)
    damaged("a key that is cut behind it", STEPS + b"Lerc2", "Leftover", 72)
    damaged("a key behind it", STEPS + b"Lerc2 ", "Truncated", 78)
    damaged("another shape behind it", STEPS + whole_blob(2, 1, 5, 0), "BadBand", 72 + 18)
    damaged("another type behind it", STEPS + whole_blob(3, 1, 4, 0), "BadBand", 72 + 34)
    damaged("floats behind it", STEPS + FLOATS, "FloatPixels", 72 + 34)
    damaged("another version behind it", STEPS + FIFTH, "BadVersion", 72 + 6)
    damaged("a bit of its last byte", turned(STEPS, 8 * 71), "BadChecksum", 10)
    damaged("a bit of its checksum", turned(STEPS, 8 * 10), "BadChecksum", 10)
    damaged("no rows", changed(STEPS, 14, 0), "BadRows", 14)
    damaged("a type that is none", changed(STEPS, 34, 8), "BadType", 34)
    damaged("a mask where all are valid", changed(STEPS, 62, 1), "BadMaskLength", 62)
    damaged("no sweep byte", changed(STEPS, 66, 2, 1), "BadSweep", 66)
    damaged("a tag of another column", changed(STEPS, 67, 0x85, 1), "BadBlockTag", 67)
    damaged("a list of five numbers", changed(STEPS, 70, 5, 1), "BadListCount", 70)
    damaged("too few bytes of it", changed(STEPS[:71], 30, 71), "PastEnd", 71)


def test_versions():
    for name, tile in (("version 2", SECOND), ("version 5", FIFTH), ("version -1", changed(STEPS, 6, -1))):
        row = line(f"0 0 131140 {len(tile)} {sum_of(tile)} unread BadVersion 6 - - - - - -")
        counted = totals(tiles=1, bytes=len(tile), unread=1)
        gives(name, bundle_of({0: tile}), "audit 1", 0, row + counted)
        gives(f"{name} is damage where it is strict", bundle_of({0: tile}), "audit 1 strict", 9, row + counted, "damaged: 1 of 1 tiles\n")


def test_floats():
    for name, tile in (("floats", FLOATS), ("doubles", DOUBLES), ("both", FLOATS + DOUBLES), ("16 blobs of them", FLOATS * 16)):
        text = line(f"0 0 131140 {len(tile)} {sum_of(tile)} summed - - - - - - - -")
        counted = totals(tiles=1, bytes=len(tile), summed=1)
        gives(name, bundle_of({0: tile}), "audit 1 all strict", 0, text + counted)
        gives(f"{name} have no line of their own", bundle_of({0: tile}), "audit 1 strict", 0, counted)
    damaged("17 blobs of floats", FLOATS * 17, "Leftover", 16 * 83)
    damaged("floats that are cut", FLOATS[:-1], "Truncated", 82)
    damaged("doubles that are cut in the second blob", FLOATS + DOUBLES[:-1], "Truncated", 83 + 118)
    damaged("a header that is cut behind floats", FLOATS + DOUBLES[:20], "Truncated", 83 + 20)
    damaged("a bit of a float", turned(FLOATS, 8 * 82), "BadChecksum", 10)
    damaged("a bit of a double, behind floats", FLOATS + turned(DOUBLES, 8 * 100), "BadChecksum", 83 + 10)
    damaged("a bit of the greatest value", turned(FLOATS, 8 * 60), "BadChecksum", 10)
    damaged("a byte behind floats", FLOATS + b"\0", "Leftover", 83)
    damaged("whole numbers behind floats", FLOATS + STEPS, "BadBand", 83 + 34)
    damaged("depths of whole numbers behind floats", FLOATS + DEPTHS, "BadBand", 83 + 38)
    damaged("no columns behind floats", FLOATS + changed(STEPS, 18, 0), "BadCols", 83 + 18)
    damaged("another version behind floats", FLOATS + FIFTH, "BadVersion", 83 + 6)
    damaged("floats of no rows", changed(FLOATS, 14, 0), "BadRows", 14)
    damaged("floats that say another size", changed(FLOATS, 30, 82), "BadChecksum", 10)
    damaged("floats that say a size of none", changed(FLOATS, 30, 65), "BadBlobSize", 30)


def test_records():
    end = 131136 + 4 + 72

    def entry(name, offset, size, text, status=9, all_=1, **numbers):
        bundle = bundle_of({0: STEPS}, [(130, offset, size)])
        counted = totals(tiles=2, bytes=72 + size, whole=1, damaged=all_, pixels=4, **numbers)
        told = "damaged: 1 of 2 tiles\n" if status else ""
        gives(name, bundle, "audit 3", status, line(f"1 2 {offset} {size} {text}") + counted, told)

    entry("an entry behind the end", end, 5, "- damaged Beyond 0 - - - - - -")
    entry("an entry far behind the end", (1 << 40) - 1, (1 << 24) - 1, "- damaged Beyond 0 - - - - - -")
    entry("an entry over the end", end - 3, 5, "- damaged Beyond 3 - - - - - -")
    tail = sum_of(STEPS[-3:])
    entry("an entry within a record", end - 3, 3, f"{tail} damaged BadRecord - - - - - - -")
    entry("an entry in the index", 70, 3, f"{tail} damaged BadRecord - - - - - - -")
    entry("an entry of the header", 0, 3, f"{tail} damaged BadRecord - - - - - - -")
    entry("an entry of a part of a blob", 131140, 71, f"{sum_of(STEPS[:71])} damaged Truncated 71 - - - - - -")
    twice = bundle_of({0: STEPS}, [(5, 131140, 72)])
    rows = "".join(line(f"0 {col} 131140 72 57a9a459 whole - - i16 1 4 1 1 4") for col in (0, 5))
    gives("two entries of one record", twice, "audit 1 all", 0, rows + totals(tiles=2, bytes=144, whole=2, pixels=8))
    for name, tile, words in (("floats", FLOATS, ""), ("version 5", FIFTH, ""), ("a whole tile", STEPS, "all")):
        bundle = with_bytes(bundle_of({0: tile}), 131136, b"\0")
        row = line(f"0 0 131140 {len(tile)} {sum_of(tile)} damaged BadRecord - - - - - - -")
        counted = totals(tiles=1, bytes=len(tile), damaged=1)
        gives(f"{name} behind another size", bundle, f"audit 1 {words}", 9, row + counted, "damaged: 1 of 1 tiles\n")
    bundle = with_bytes(bundle_of({0: turned(STEPS, 570)}), 131136, b"\0")
    row = line(f"0 0 131140 72 {sum_of(turned(STEPS, 570))} damaged BadChecksum 10 - - - - - -")
    counted = totals(tiles=1, bytes=72, damaged=1)
    gives("a blob's fault comes before that of its record", bundle, "audit 1", 9, row + counted, "damaged: 1 of 1 tiles\n")
    empty = bundle_of({0: STEPS}, [(1, 5, 0), (2, (1 << 40) - 1, 0)])
    gives("entries of size 0 are no tiles", empty, "audit 1", 0, totals(tiles=1, bytes=72, whole=1, pixels=4))
    slack = bundle_of({0: STEPS}) + b"\1\0\0\0L"
    gives("bytes that no entry names", slack, "audit 1 strict", 0, totals(tiles=1, bytes=72, whole=1, pixels=4))


def test_unread():
    """Tiles that the machine does not read, as the reading tells of them; the program's are tested where reads can fail."""
    bundle = bundle_of({0: STEPS, 1: b"GIF", 2: FLOATS}, [(3, 1 << 39, 9)])
    status, output, told = reading.audit(bundle, b"", reading.command_of(["audit", "1"]), {0, 3})
    rows = line("0 0 131140 72 - damaged Failed - - - - - - -") + line("0 1 131216 3 ffffffff foreign - - - - - - - -")
    rows += line(f"0 3 {1 << 39} 9 - damaged Failed - - - - - - -")
    counted = totals(tiles=4, bytes=72 + 3 + 83 + 9, summed=1, foreign=1, damaged=2)
    case("tiles that are not read", (status, output, told) == (9, rows + counted, "damaged: 2 of 4 tiles\n"))


def test_full():
    """16,384 tiles of one pixel, and three of them damaged."""
    tiles = {slot: whole_blob(1, 1, 1, slot % 251) for slot in range(16384)}
    bundle = bundle_of(tiles)
    counted = totals(tiles=16384, bytes=16384 * 66, whole=16384, pixels=16384)
    gives("a full index", bundle, "audit 4", 0, counted)
    rows = ""
    for slot in (0, 4321, 16383):
        offset = 131140 + 70 * slot
        bundle = with_bytes(bundle, offset + 65, b"\1")
        tile = bundle[offset : offset + 66]
        rows += line(f"{slot // 128} {slot % 128} {offset} 66 {sum_of(tile)} damaged BadChecksum 10 - - - - - -")
    counted = totals(tiles=16384, bytes=16384 * 66, whole=16381, damaged=3, pixels=16381)
    for workers in (1, 4, 64):
        gives(f"three of them damaged, by {workers}", bundle, f"audit {workers}", 9, rows + counted, "damaged: 3 of 16384 tiles\n")
    same("each of their lines", bundle, "audit 2 all")


def test_refused():
    bundle = bundle_of({0: STEPS})
    refused("no file", "NoBundle", None)
    refused("an empty file", "NoBundle", b"")
    refused("a file of 100 bytes", "BadBundle at 100 found 100", bytes(100))
    refused("a file of 131,135 bytes", "BadBundle at 131135 found 131135", bundle[:131135])
    refused("another version", "BadBundle at 0 found 2", with_bytes(bundle, 0, b"\2"))
    refused("another number of records", "BadBundle at 4 found 16385", with_bytes(bundle, 4, b"\1"))
    refused("offsets of 6 bytes", "BadBundle at 12 found 6", with_bytes(bundle, 12, b"\6"))
    good = totals(tiles=1, bytes=72, whole=1, pixels=4)
    other = with_bytes(with_bytes(bundle, 8, b"\xff" * 4), 16, b"\xff" * 48)
    gives("the other fields are not looked at", other, "audit 1", 0, good)
    for name, make in (("first", first_journal), ("second", second_journal)):
        gives(f"a closed journal of the {name} form", bundle, "audit 1", 0, good, journal=make(0, b"?" * 7))
        refused(f"an open one of the {name} form", "JournalOpen", bundle, make())
        refused(f"one of the {name} form, of a bundle that is being built", "JournalOpen", b"", make(kind=2))
        refused(f"one of the {name} form that is longer than the bundle", "JournalOpen", bundle, make(length=1 << 40))
        refused(f"one of the {name} form beside no bundle", "JournalOpen", bytes(100), make())
        mark = reading.unsigned(b"LBJRNL3", 0, 7)
        refused(f"another mark in the {name} form", f"BadJournal at 1 found {mark}", b"", make(mark=b"LBJRNL3"))
        refused(f"another kind in the {name} form", "BadJournal at 8 found 3", bundle, make(kind=3))
        place = 24 if name == "first" else 16
        refused(f"too short a length in the {name} form", f"BadJournal at {place} found 131135", bundle, make(length=131135))
        place = 10 if name == "first" else 88
        refused(f"a slot that is none in the {name} form", f"BadJournal at {place} found 16384", bundle, make(slot=16384))
    refused("no tile in the second form", "BadJournal at 9 found 0", bundle, second_journal(count=0))
    refused("65 tiles in the second form", "BadJournal at 9 found 65", bundle, second_journal(count=65))
    gives("a journal of another length", bundle, "audit 1", 0, good, journal=b"\1" * 97)


def test_words():
    bundle = bundle_of({0: STEPS})
    usage = "usage: PATH audit N [all] [strict]\n"
    words = "", "audit", "audit 0", "audit 65", "audit 01", "audit -1", "audit x", "Audit 1", "audit 1 strict all", "audit 1 all all", "audit 1 every", "check", "audit 1 all strict all"
    for one_ in words:
        gives(f"no command: {one_!r}", bundle, one_, 1, "", usage)
    for kind, run in RUNS.items():
        case(f"no path ({kind})", run("-", ["audit", "1"]) == (5, b"", b"volume failed\n"))
        case(f"a folder ({kind})", run(".", ["audit", "1"]) == (5, b"", b"volume failed\n"))
        case(f"no command and no path ({kind})", run("-", ["audit"]) == (1, b"", usage.encode()))


def test_each_bit():
    """No bit of a record turns without its line; and what the program says of each is what the reading says."""
    bundle = bundle_of({3: STEPS, 9: whole_blob(1, 2, 2, 5)})
    command = reading.command_of(["audit", "1", "all"])
    good = reading.audit(bundle, b"", command)[1]
    bits = range(8 * 131136, 8 * len(bundle))
    case("no bit of a record turns without its line", all(reading.audit(turned(bundle, bit), b"", command)[1] != good for bit in bits))
    if "program" in RUNS:
        for bit in [*range(8 * 64), *range(8 * (64 + 24), 8 * (64 + 32)), *bits]:
            put_files(turned(bundle, bit), None)
            if by_program("disk", ["audit", "1", "all"]) != by_reading("disk", ["audit", "1", "all"]):
                case(f"bit {bit}", False)
        case("each bit of header, entry and records", True)


def test_noise():
    """Tiles with bytes at random, most of them with the checksum that fits, by several workers."""
    chance = random.Random(1)
    for number in range(20):
        tiles = {}
        for slot in chance.sample(range(16384), 200):
            tile = bytearray(chance.choice((STEPS, DEPTHS, FLOATS, DOUBLES, whole_blob(4, 5, 5, -1))))
            for _ in range(chance.choice((0, 1, 1, 2))):
                tile[chance.randrange(len(tile))] = chance.choice((0, 1, 2, 255, chance.randrange(256)))
            tiles[slot] = summed(bytes(tile)) if chance.random() < 0.8 else bytes(tile)
        same(f"tiles at random, {number}", bundle_of(tiles), f"audit {1 + 3 * number} all strict")


def main():
    with tempfile.TemporaryDirectory() as room:
        os.chdir(room)
        for name, test in list(globals().items()):
            if name.startswith("test_"):
                test()
    print(f"{counts[True]} passed, {counts[False]} failed")
    return counts[False] > 0


if __name__ == "__main__":
    sys.exit(main())
