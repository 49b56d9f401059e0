"""What an audit of a bundle has to give, read from the rules of docs/FORMATS.md: an oracle for the program tile_audit, of
which it has nothing, and which can be run in its place.

    audit_reading.py PATH audit N [all] [strict]

As the program it gives lines on standard output, one line on standard error where it stops, and the status. It needs no
more than Python 3, reads the files and writes none. A tile's values are not made: no rule of an audit asks for them.

`audit` is the same over bytes, where it can be said which tiles the machine does not read. Each function is one rule; a
place counts from the first byte of the tile.
"""

import collections
import os
import struct
import sys

USAGE = "usage: PATH audit N [all] [strict]"
SLOTS, RECORDS = 16384, 131136
KEY = b"Lerc2 "
MOST_BANDS, MOST_VALUES, MOST_SIZE, MOST_SIDE = 16, 1 << 24, 1 << 27, 32
TYPES = ("i8", "u8", "i16", "u16", "i32", "u32")
BYTES_OF = {"i8": 1, "u8": 1, "i16": 2, "u16": 2, "i32": 4, "u32": 4}
# The types of a block's offset, by the code in its tag.
OFFSETS = {
    "i8": ("i8", "i8", "i8", "i8"),
    "u8": ("u8", "u8", "u8", "u8"),
    "i16": ("i16", "u8", "i8"),
    "u16": ("u16", "u8"),
    "i32": ("i32", "u16", "i16", "u8"),
    "u32": ("u32", "u16", "u8"),
}
RANGES = {"i8": (-128, 127), "u8": (0, 255), "i16": (-32768, 32767), "u16": (0, 65535), "i32": (-(1 << 31), (1 << 31) - 1), "u32": (0, (1 << 32) - 1)}


class Fault(Exception):
    """What is wrong first: a reason, and its place in the tile."""

    def __init__(self, reason, place):
        super().__init__(reason, place)
        self.reason, self.place = reason, place


class Stop(Exception):
    """A run that ends before the index is read: its status, and the line that tells of it."""

    def __init__(self, status, line):
        super().__init__(status, line)
        self.status, self.line = status, line


def need(holds, reason, place):
    if not holds:
        raise Fault(reason, place)


# ---- Numbers


def unsigned(data, at, size):
    """Bytes that are missing count as 0."""
    return int.from_bytes(data[at : at + size], "little")


def signed(data, at, size=4):
    return int.from_bytes(data[at : at + size], "little", signed=True)


def halves_at(data, at):
    """Twice the number that a double is, where that is whole and below 2^34 in absolute value; else None."""
    number = struct.unpack_from("<d", data, at)[0]
    bits = unsigned(data, at, 8)
    exponent = bits >> 52 & 2047
    if exponent == 2047 or (exponent == 0 and bits << 1 & (1 << 64) - 1):
        return None
    twice = 2 * number
    return int(twice) if abs(twice) < 1 << 34 and twice == int(twice) else None


def checksum(data):
    """That of these bytes, which stand from place 14 on."""
    fold = lambda total: total % 65536 + total // 65536
    first = second = 65535
    words = struct.unpack(f">{len(data) // 2}H", data[: len(data) // 2 * 2])
    for group in range(0, len(words), 359):
        for word in words[group : group + 359]:
            first += word
            second += first
        first, second = fold(first), fold(second)
    if len(data) % 2:
        first += 256 * data[-1]
        second += first
    return fold(second) * 65536 % (1 << 32) | fold(first)


# ---- The header of a blob

Header = collections.namedtuple("Header", "version rows cols depth valid side size kind step least greatest end")


def header_at(data, at):
    """The header that begins there, or what is wrong with it first."""
    need(len(data) - at >= 10, "Truncated", len(data))
    need(data[at : at + 6] == KEY, "BadKey", at)
    version = signed(data, at + 6)
    need(version in (3, 4), "BadVersion", at + 6)
    more = at + 4 * (version - 3)
    need(len(data) >= more + 62, "Truncated", len(data))
    rows, cols = signed(data, at + 14), signed(data, at + 18)
    need(rows >= 1, "BadRows", at + 14)
    need(cols >= 1, "BadCols", at + 18)
    depth = signed(data, at + 22) if version == 4 else 1
    need(1 <= depth <= 65536, "BadDepth", at + 22)
    need(rows * cols * depth <= MOST_VALUES, "TooLarge", more + 18)
    valid, side, size = (signed(data, more + place) for place in (22, 26, 30))
    need(0 <= valid <= rows * cols, "BadCount", more + 22)
    need(side >= 1, "BadBlockSize", more + 26)
    need(66 + more - at <= size <= MOST_SIZE, "BadBlobSize", more + 30)
    code = signed(data, more + 34)
    need(code not in (6, 7), "FloatPixels", more + 34)
    need(0 <= code <= 5, "BadType", more + 34)
    kind = TYPES[code]
    step = halves_at(data, more + 38)
    need(step is not None and (step == 1 or (step % 2 == 0 and 1 <= step // 2 < 1 << 32)), "BadError", more + 38)
    least, greatest = (value_at(data, more + place, kind) for place in (46, 54)) if valid else (0, 0)
    need(least is not None, "BadRange", more + 46)
    need(greatest is not None and greatest >= least, "BadRange", more + 54)
    return Header(version, rows, cols, depth, valid, side, size, kind, step, least, greatest, 62 + more - at)


def value_at(data, at, kind):
    """The whole number of this type that a double is, or None."""
    twice = halves_at(data, at)
    low, high = RANGES[kind]
    return twice // 2 if twice is not None and twice % 2 == 0 and low <= twice // 2 <= high else None


# ---- The mask


def mask_of_runs(data, at, end, size):
    mask = bytearray()
    while True:
        need(at + 2 <= end, "BadRun", at)
        count = signed(data, at, 2)
        if count == -32768:
            break
        body = max(count, 1)
        need(count != 0 and at + 2 + body <= end and len(mask) + abs(count) <= size, "BadRun", at)
        mask += data[at + 2 : at + 2 + count] if count > 0 else data[at + 2 : at + 3] * -count
        at += 2 + body
    need(len(mask) == size, "BadRun", at)
    need(at + 2 == end, "BadRun", at + 2)
    return mask


def marks_at(data, at, end, header, before):
    """Which pixels are valid, row by row, and the place behind the mask."""
    pixels = header.rows * header.cols
    need(at + 4 <= end, "PastEnd", at)
    size = signed(data, at)
    alike = header.valid in (0, pixels)
    need(size >= 0 and not (alike and size), "BadMaskLength", at)
    if alike:
        return bytes([header.valid > 0]) * pixels, at + 4
    if size == 0:
        need(before is not None and before[:2] == (header.rows, header.cols), "MaskMissing", at)
        need(sum(before[2]) == header.valid, "BadMaskCount", at)
        return before[2], at + 4
    need(at + 4 + size <= end, "PastEnd", at + 4)
    mask = mask_of_runs(data, at + 4, at + 4 + size, (pixels + 7) // 8)
    marks = bytes(mask[pixel // 8] >> 7 - pixel % 8 & 1 for pixel in range(pixels))
    need(sum(marks) == header.valid, "BadMaskCount", at + 4)
    return marks, at + 4 + size


# ---- Lists


def numbers_of(data, at, width, count):
    """Numbers of so many bits each, stuffed."""
    whole = unsigned(data, at, bytes_of_numbers(width, count))
    return [whole >> width * number & (1 << width) - 1 for number in range(count)]


def bytes_of_numbers(width, count):
    return (width * count + 7) // 8


def behind_list(data, at, end, count):
    """The place behind a list of so many numbers, and a function that gives them."""
    need(at < end, "PastEnd", at)
    width, table, code = data[at] & 31, data[at] & 32, data[at] >> 6
    need(code != 3, "BadListHead", at)
    need(not (table and width == 0), "BadTable", at)
    place = at + 1 + (4, 2, 1)[code]
    need(place <= end, "PastEnd", at + 1)
    need(unsigned(data, at + 1, place - at - 1) == count, "BadListCount", at + 1)
    if not table:
        need(place + bytes_of_numbers(width, count) <= end, "PastEnd", place)
        return place + bytes_of_numbers(width, count), (lambda: numbers_of(data, place, width, count))
    need(place < end, "PastEnd", place)
    most = data[place] - 1
    need(most >= 1, "BadTable", place)
    entries = place + 1
    indexes = entries + bytes_of_numbers(width, most)
    need(indexes <= end, "PastEnd", entries)
    bits = most.bit_length()
    behind = indexes + bytes_of_numbers(bits, count)
    need(behind <= end, "PastEnd", indexes)
    ranks = numbers_of(data, indexes, bits, count)
    need(all(rank <= most for rank in ranks), "BadIndex", indexes)
    return behind, (lambda: [([0] + numbers_of(data, entries, width, most))[rank] for rank in ranks])


# ---- Blocks


def behind_block(data, at, end, kind, col, count):
    need(at < end, "PastEnd", at)
    tag = data[at]
    need(tag >> 2 & 15 == col // 8 % 16, "BadBlockTag", at)
    form, code = tag & 3, tag >> 6
    if form == 2:
        return at + 1
    if form == 0:
        need(at + 1 + count * BYTES_OF[kind] <= end, "PastEnd", at + 1)
        return at + 1 + count * BYTES_OF[kind]
    need(code < len(OFFSETS[kind]), "BadOffsetCode", at)
    behind = at + 1 + BYTES_OF[OFFSETS[kind][code]]
    need(behind <= end, "PastEnd", at + 1)
    return behind if form == 3 else behind_list(data, behind, end, count)[0]


def behind_blocks(data, at, end, header, marks):
    need(header.side <= MOST_SIDE, "BadBlockSize", at)
    for row in range(0, header.rows, header.side):
        for col in range(0, header.cols, header.side):
            rows = range(row, min(row + header.side, header.rows))
            width = min(header.side, header.cols - col)
            count = sum(sum(marks[r * header.cols + col : r * header.cols + col + width]) for r in rows)
            for _ in range(header.depth):
                at = behind_block(data, at, end, header.kind, col, count)
    return at


# ---- Codes


def bits_at(data, at, end):
    """The bits of whole words, the highest of each first, each with its word's place."""
    for place in range(at, end - 3, 4):
        word = unsigned(data, place, 4)
        for bit in range(31, -1, -1):
            yield word >> bit & 1, place


def codes_at(data, at, end):
    """The codes of a table, as a tree in which each bit leads on and a symbol ends, and the place behind the table."""
    fields = (lambda n: n >= 2), (lambda n: n == 256), (lambda n: 0 <= n <= 255)
    for number, test in enumerate(fields):
        need(at + 4 * number + 4 <= end, "PastEnd", at + 4 * number)
        need(test(signed(data, at + 4 * number)), "BadCodeTable", at + 4 * number)
    need(at + 16 <= end, "PastEnd", at + 12)
    count = signed(data, at + 12) - signed(data, at + 8)
    need(1 <= count <= 256, "BadCodeTable", at + 12)
    words, lengths = behind_list(data, at + 16, end, count)
    lengths = lengths()
    need(max(lengths) <= 32 and max(lengths) > 0, "BadCodeTable", at + 16)
    behind = words + (sum(lengths) + 31) // 32 * 4
    need(behind <= end, "PastEnd", words)
    bits = bits_at(data, words, behind)
    tree = {}
    for length in filter(None, lengths):
        node = tree
        for left in range(length, 0, -1):
            bit = next(bits)[0]
            need(left > 1 or bit not in node, "BadCodeTable", words)
            node = node.setdefault(bit, {} if left > 1 else None)
            need(left == 1 or node is not None, "BadCodeTable", words)
    return tree, behind


def behind_words(data, at, end, tree, count):
    """The place behind the codes of so many symbols, and the further word."""
    whole = at + (end - at) // 4 * 4
    bits = bits_at(data, at, end)
    place = at - 4
    for _ in range(count):
        node, begun = tree, None
        while node is not None:
            bit, place = next(bits, (None, whole))
            need(bit is not None, "PastEnd", place)
            begun = place if begun is None else begun
            need(bit in node, "NoCode", begun)
            node = node[bit]
    need(place + 8 <= end, "PastEnd", place + 4)
    return place + 8


# ---- Blobs and bands


def behind_image(data, at, end, header, marks):
    """The place behind the image, of which what follows is not looked at."""
    if header.valid == 0 or header.least == header.greatest:
        return at
    size = header.depth * BYTES_OF[header.kind]
    if header.version == 4:
        need(at + size <= end, "PastEnd", at)
        need(at + 2 * size <= end, "PastEnd", at + size)
        at += 2 * size
        if data[at - 2 * size : at - size] == data[at - size : at]:
            return at
    need(at < end, "PastEnd", at)
    need(data[at] <= 1, "BadSweep", at)
    at += 1
    if data[at - 1] == 1:
        need(at + header.valid * size <= end, "PastEnd", at)
        return at + header.valid * size
    mode = 0
    if BYTES_OF[header.kind] == 1 and header.step == 1:
        need(at < end, "PastEnd", at)
        mode = data[at]
        need(mode <= header.version - 2, "BadMode", at)
        at += 1
    if mode == 0:
        return behind_blocks(data, at, end, header, marks)
    tree, at = codes_at(data, at, end)
    return behind_words(data, at, end, tree, header.valid * header.depth)


def needs_sum(data, at, size):
    """So many bytes are there, and their checksum is the one that they say."""
    need(at + size <= len(data), "Truncated", len(data))
    need(checksum(data[at + 14 : at + size]) == unsigned(data, at + 10, 4), "BadChecksum", at + 10)


def needs_key(data, at, count):
    """Behind so many blobs another one begins here."""
    need(count < MOST_BANDS and data[at : at + 6] == KEY, "Leftover", at)


Shape = collections.namedtuple("Shape", "kind rows cols depth bands valid")


def bands_of(data):
    """The shape of the bands whose blobs the bytes are, or what is wrong first."""
    at, count, valid, first, before = 0, 0, 0, None, None
    while at < len(data) or count == 0:
        if count > 0:
            needs_key(data, at, count)
        header = header_at(data, at)
        first = first or header
        more = header.end - 62
        for field, place in (("rows", 14), ("cols", 18), ("depth", 18 + more), ("kind", 34 + more)):
            need(getattr(header, field) == getattr(first, field), "BadBand", at + place)
        need((count + 1) * header.rows * header.cols * header.depth <= MOST_VALUES, "TooLarge", at + 18 + more)
        needs_sum(data, at, header.size)
        end = at + header.size
        marks, image = marks_at(data, at + header.end, end, header, before)
        behind = behind_image(data, image, end, header, marks)
        need(behind == end, "Leftover", behind)
        before = header.rows, header.cols, marks
        at, count, valid = end, count + 1, valid + header.valid
    return Shape(first.kind, first.rows, first.cols, first.depth, count, valid)


def test_sums(data):
    """Tests the checksums of the blobs of floating-point numbers that the bytes are, the first of which begins so."""
    at, count = 0, 0
    while at < len(data):
        if count > 0:
            needs_key(data, at, count)
        try:
            header = header_at(data, at)
        except Fault as fault:
            if fault.reason != "FloatPixels":
                raise
        else:
            raise Fault("BadBand", at + header.end - 62 + 34)
        size = signed(data, at + 30 + 4 * (data[at + 6] - 3))
        needs_sum(data, at, size)
        at, count = at + size, count + 1


# ---- Verdicts

Judged = collections.namedtuple("Judged", "verdict reason place shape", defaults=(None, None, None))


def judge(data):
    """The verdict on the bytes of a tile: whole, summed, foreign, unread or damaged."""
    if data[:6] != KEY[: len(data)]:
        return Judged("foreign")
    try:
        return Judged("whole", shape=bands_of(data))
    except Fault as fault:
        if (fault.reason, fault.place) == ("BadVersion", 6):
            return Judged("unread", fault.reason, fault.place)
        if fault.reason != "FloatPixels" or fault.place >= 66:
            return Judged("damaged", fault.reason, fault.place)
    try:
        test_sums(data)
        return Judged("summed")
    except Fault as fault:
        return Judged("damaged", fault.reason, fault.place)


Entry = collections.namedtuple("Entry", "slot offset size")


def audited(bundle):
    """The entries of the slots that have a tile, by slot."""
    for slot, word in enumerate(struct.unpack_from(f"<{SLOTS}Q", bundle, 64)):
        if word >= 1 << 40:
            yield Entry(slot, word % (1 << 40), word >> 40)


Told = collections.namedtuple("Told", "entry sum judged")


def tell(bundle, entry, failed):
    """What is told of a tile: its checksum, where it was read, and the verdict."""
    if entry.slot in failed:
        return Told(entry, None, Judged("damaged", "Failed"))
    tile = bundle[entry.offset : entry.offset + entry.size]
    if len(tile) < entry.size:
        return Told(entry, None, Judged("damaged", "Beyond", len(tile)))
    judged = judge(tile)
    bad = entry.offset < RECORDS + 4 or unsigned(bundle, entry.offset - 4, 4) != entry.size
    if bad and judged.verdict != "damaged":
        judged = Judged("damaged", "BadRecord")
    return Told(entry, checksum(tile[14:]), judged)


def is_damaged(strict, told):
    return told.judged.verdict in (("damaged", "foreign", "unread") if strict else ("damaged",))


# ---- Lines


def line(told):
    entry, judged = told.entry, told.judged
    total = None if told.sum is None else told.sum.to_bytes(4, "little").hex()
    shape = judged.shape or (None,) * 6
    fields = [entry.slot // 128, entry.slot % 128, entry.offset, entry.size, total, *judged[:3], *shape]
    return "\t".join("-" if field is None else str(field) for field in fields) + "\n"


def lines(all_told, with_all):
    return "".join(line(told) for told in all_told if with_all or told.judged.verdict not in ("whole", "summed"))


def totals(all_told):
    counts = collections.Counter(told.judged.verdict for told in all_told)
    shapes = [told.judged.shape for told in all_told if told.judged.shape]
    numbers = {"tiles": len(all_told), "bytes": sum(told.entry.size for told in all_told)}
    numbers.update((verdict, counts[verdict]) for verdict in ("whole", "summed", "foreign", "unread", "damaged"))
    numbers["pixels"] = sum(shape.rows * shape.cols * shape.bands for shape in shapes)
    return "".join(f"{name} {number}\n" for name, number in numbers.items())


# ---- What is refused


def journal_fault(journal):
    """The place and the number of the first test that an open journal fails, or None."""
    first = len(journal) == 96
    if journal[1:8] != (b"LBJRNL1" if first else b"LBJRNL2"):
        return 1, unsigned(journal, 1, 7)
    kind = journal[8]
    if kind == 2:
        return None
    if kind != 1:
        return 8, kind
    if not first and not 1 <= journal[9] <= 64:
        return 9, journal[9]
    for place in [10] if first else range(88, 88 + 16 * journal[9], 16):
        if unsigned(journal, place, 2) >= SLOTS:
            return place, unsigned(journal, place, 2)
    place = 24 if first else 16
    length = unsigned(journal, place, 8)
    return None if length >= RECORDS else (place, length)


def bundle_fault(bundle):
    if len(bundle) < RECORDS:
        return len(bundle), len(bundle)
    for place, wanted in ((0, 3), (4, SLOTS), (12, 5)):
        if unsigned(bundle, place, 4) != wanted:
            return place, unsigned(bundle, place, 4)
    return None


def refuse(bundle, journal):
    """Stops where the files are not audited."""
    if len(journal) in (96, 1112) and journal[0] != 0:
        fault = journal_fault(journal)
        raise Stop(7, "store: JournalOpen" if fault is None else "store: BadJournal at %d found %d" % fault)
    if not bundle:
        raise Stop(7, "store: NoBundle")
    fault = bundle_fault(bundle)
    if fault:
        raise Stop(7, "store: BadBundle at %d found %d" % fault)


# ---- The program

Command = collections.namedtuple("Command", "workers with_all strict")


def command_of(words):
    """The command that the words spell, or None."""
    numbers = [str(number) for number in range(1, 65)]
    if len(words) < 2 or words[0] != "audit" or words[1] not in numbers:
        return None
    options = words[2:]
    if options not in ([], ["all"], ["strict"], ["all", "strict"]):
        return None
    return Command(int(words[1]), "all" in options, "strict" in options)


def audit(bundle, journal, command, failed=()):
    """The status, the output and the line of an audit of these two files, of which the machine does not read the tiles in
    the slots `failed`."""
    try:
        refuse(bundle, journal)
    except Stop as stop:
        return stop.status, "", stop.line + "\n"
    all_told = [tell(bundle, entry, failed) for entry in audited(bundle)]
    output = lines(all_told, command.with_all) + totals(all_told)
    damaged = sum(is_damaged(command.strict, told) for told in all_told)
    if damaged == 0:
        return 0, output, ""
    return 9, output, f"damaged: {damaged} of {len(all_told)} tiles\n"


def file_of(path):
    try:
        with open(path, "rb") as file:
            return file.read()
    except FileNotFoundError:
        return b""


def run(arguments):
    """What the program ends with: the words behind its name are the path, and those of the command."""
    command = command_of(arguments[1:])
    if command is None:
        return 1, "", USAGE + "\n"
    try:
        path = os.fsencode(arguments[0])
        path.decode()
        if path == b"-":
            raise OSError
        return audit(file_of(path), file_of(path + b".jnl"), command)
    except (OSError, UnicodeDecodeError):
        return 5, "", "volume failed\n"


def main():
    status, output, told = run(sys.argv[1:])
    sys.stdout.write(output)
    sys.stderr.write(told)
    return status


if __name__ == "__main__":
    sys.exit(main())
