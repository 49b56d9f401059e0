"""The cases of tests/python.sh."""

import copy
import ctypes
import ctypes.util
import errno
import importlib.util
import io
import multiprocessing
import os
import pickle
import struct
import subprocess
import sys
import tempfile
import textwrap
import threading
import time
from unittest import mock

import audit_cases as made
import audit_reading as reading
import numpy
import pip_cases

import futskheri

HERE = os.path.join(os.path.dirname(os.path.abspath(__file__)), "..")

counts = {True: 0, False: 0}


def case(name, holds):
    counts[bool(holds)] += 1
    print(("ok: " if holds else "FAILED: ") + name)


def refused(work):
    """What work() is refused with, as (reason, place)."""
    try:
        work()
    except futskheri.Refused as stop:
        return stop.reason, stop.place
    return None


def raises(kind, work):
    try:
        work()
    except kind:
        return True
    return False


def says(kind, work, *words):
    """Whether work() raises this, and its message has each of the words."""
    try:
        work()
    except kind as stop:
        return all(word in str(stop) for word in words)
    return False


# The u8 raster of one pixel with the value 7, as a blob of version 3 worked by hand.
SEVEN = bytes.fromhex(
    "4c6572633220 03000000 c0664559 01000000 01000000 01000000 08000000 42000000 01000000"
    "000000000000e03f 0000000000001c40 0000000000001c40 00000000"
)
LIMITS = {"int8": 2**7, "uint8": 2**8, "int16": 2**15, "uint16": 2**16, "int32": 2**31, "uint32": 2**32}


def hills(dtype, rows, columns, depth, seed):
    """Smooth values with noise that use the width of their type, and a mask."""
    make = numpy.random.default_rng(seed)
    signed = dtype.startswith("int")
    top = LIMITS[dtype] - 1
    shape = (rows, columns) if depth == 1 else (rows, columns, depth)
    wave = numpy.add.outer(numpy.sin(numpy.arange(rows) / 9), numpy.cos(numpy.arange(columns) / 7))
    wave = (wave + 2) / 5 * min(top, 20000)
    values = (wave if depth == 1 else wave[:, :, None]) + make.integers(0, 3, shape)
    values = values.astype("int64") - (top // 3 if signed else 0)
    return values.clip(-top - 1 if signed else 0, top).astype(dtype), make.random((rows, columns)) < 0.8


def round_trips():
    for seed, dtype in enumerate(LIMITS):
        for rows, columns, depth in ((1, 1, 1), (17, 23, 1), (64, 64, 1), (9, 8, 3)):
            values, mask = hills(dtype, rows, columns, depth, seed)
            for given in (None, mask, numpy.zeros_like(mask)):
                for error in (0, 1, 2):
                    blob = futskheri.encode(values, given, error)
                    back, valid = futskheri.decode(blob)
                    wanted = numpy.ones_like(mask) if given is None else given
                    apart = numpy.abs(back.astype("int64") - values.astype("int64"))[wanted]
                    head = futskheri.header(blob)
                    yield (
                        back.dtype == values.dtype
                        and back.shape == values.shape
                        and (valid == wanted).all()
                        and (apart <= error).all()
                        and not back[~wanted].any()
                        and head.error == error
                        and head.size == len(blob)
                        and head.valid == wanted.sum()
                        and (head.rows, head.columns, head.depth) == (rows, columns, depth)
                    )


def bands_trip():
    """Bands of all types, each with its own mask, with one for all, and with none."""
    for seed, dtype in enumerate(LIMITS):
        for depth in (1, 3):
            pairs = [hills(dtype, 12, 17, depth, seed + 10 * band) for band in range(3)]
            values, masks = (numpy.stack(lists) for lists in zip(*pairs))
            for given in (masks, masks[:1], numpy.stack([masks[0], masks[0], masks[2]]), None):
                back, valid = futskheri.decode_bands(futskheri.encode_bands(values, given))
                wanted = numpy.broadcast_to(True if given is None else given, valid.shape)
                yield back.shape == values.shape and (valid == wanted).all() and (back[valid] == values[valid]).all()


def esri():
    """Esri's library, where it is installed."""
    path = ctypes.util.find_library("Lerc")
    return ctypes.CDLL(path) if path else None


# Esri's numbers of the types are those of the blob's header.
def by_esri(library, blob, values, mask):
    """Whether Esri's library decodes the blob to these values and this mask."""
    depth = values.shape[2] if values.ndim == 3 else 1
    rows, columns = values.shape[:2]
    back, valid = numpy.zeros_like(values), numpy.zeros((rows, columns), numpy.uint8)
    given = numpy.frombuffer(blob, numpy.uint8)
    kind = list(LIMITS).index(values.dtype.name)
    answer = library.lerc_decode(
        ctypes.c_void_p(given.ctypes.data), ctypes.c_uint(len(blob)), 1, ctypes.c_void_p(valid.ctypes.data),
        depth, columns, rows, 1, ctypes.c_uint(kind), ctypes.c_void_p(back.ctypes.data),
    )
    return answer == 0 and (valid.astype(bool) == mask).all() and (back[mask] == values[mask]).all()


def esris_blob(library, values, mask, version, error):
    """The blob of this version that Esri's library makes of an array and a mask."""
    depth = values.shape[2] if values.ndim == 3 else 1
    rows, columns = values.shape[:2]
    marks, room = mask.astype(numpy.uint8), numpy.zeros(values.nbytes + 65536, numpy.uint8)
    kind, size = list(LIMITS).index(values.dtype.name), ctypes.c_uint(0)
    answer = library.lerc_encodeForVersion(
        ctypes.c_void_p(values.ctypes.data), version, ctypes.c_uint(kind), depth, columns, rows, 1, 1,
        ctypes.c_void_p(marks.ctypes.data), ctypes.c_double(error), ctypes.c_void_p(room.ctypes.data),
        ctypes.c_uint(room.size), ctypes.byref(size),
    )
    return room[: size.value].tobytes() if answer == 0 else b""


def of_esri(library, values, mask, version, error):
    """Whether the blob that Esri's library makes is decoded to these values, within the error, and this mask."""
    blob = esris_blob(library, values, mask, version, error)
    back, valid = futskheri.decode(blob)
    head = futskheri.header(blob)
    apart = numpy.abs(back.astype("int64") - values.astype("int64"))[mask]
    return (
        (head.version, head.size) == (version, len(blob))
        and (back.dtype, back.shape) == (values.dtype, values.shape)
        and (valid == mask).all()
        and (apart <= error).all()
    )


def bands_by_esri(library, tile, values, masks):
    """The same of the bands of a tile."""
    bands, rows, columns = values.shape
    back, valid = numpy.zeros_like(values), numpy.zeros(masks.shape, numpy.uint8)
    given = numpy.frombuffer(tile, numpy.uint8)
    kind = list(LIMITS).index(values.dtype.name)
    answer = library.lerc_decode(
        ctypes.c_void_p(given.ctypes.data), ctypes.c_uint(len(tile)), bands, ctypes.c_void_p(valid.ctypes.data),
        1, columns, rows, bands, ctypes.c_uint(kind), ctypes.c_void_p(back.ctypes.data),
    )
    return answer == 0 and (valid.astype(bool) == masks).all() and (back[masks] == values[masks]).all()


def bundles(room):
    program = os.environ["FUTSKHERI_PROGRAM"]
    path = os.path.join(room, "tiles")
    first, mask = hills("int16", 16, 16, 1, 5)
    second = first + 1
    stream = b"".join(
        b"T" + bytes(slot) + b"LGR1\2" + struct.pack("<3I", 16, 16, 1) + mask.tobytes() + values[mask].tobytes()
        for slot, values in (((0, 0), first), ((3, 127), second), ((3, 127), first))
    )
    subprocess.run([program, path, "put", "4", "0", "2"], input=stream, stdout=subprocess.PIPE, check=True)
    with futskheri.Bundle(path) as bundle:
        case("a bundle has its tiles, by slot", bundle.slots() == [(0, 0), (3, 127)] and len(bundle) == 2)
        tiles = dict(bundle)
        whole = all((futskheri.decode(tile)[0][mask] == first[mask]).all() for tile in tiles.values())
        case("each tile is its slot's last", len(tiles) == 2 and whole)
        raw = subprocess.run([program, path, "get", "3", "127", "raw"], stdout=subprocess.PIPE, check=True).stdout
        case("a tile's bytes are those that the program gets", bundle[3, 127] == raw)


TILES = {(0, 0): b"first", (0, 1): b"next", (3, 127): b"third " * 1000, (127, 127): b"l"}


def bundle_by_hand(tiles):
    """The bytes of a bundle of these tiles: header, index, and each tile behind its length."""
    index, records = [0] * 128 * 128, b""
    for (row, column), tile in tiles.items():
        index[128 * row + column] = (64 + 8 * 128 * 128 + len(records) + 4) | len(tile) << 40
        records += struct.pack("<I", len(tile)) + tile
    length = 64 + 8 * 128 * 128 + len(records)
    head = struct.pack("<4I3Q6I", 3, 16384, max(map(len, tiles.values())), 5, 0, length, 40, 131092, 3, 16, 16384, 5, 131072)
    return head + struct.pack("<16384Q", *index) + records


def written(path, data):
    with open(path, "wb") as file:
        file.write(data)
    return path


def bundle_as_mapping(room):
    """Bundles that no library has to be there for."""
    path = written(os.path.join(room, "by_hand"), bundle_by_hand(TILES))
    with futskheri.Bundle(path) as bundle:
        case("a bundle is a mapping", dict(bundle) == TILES and list(bundle) == list(TILES) and len(bundle) == len(TILES))
        case("with keys, items and values", list(bundle.items()) == list(TILES.items()) and list(bundle.values()) == list(TILES.values()))
        case("the keys are a set", bundle.keys() & {(0, 1), (5, 5)} == {(0, 1)} and bundle.slots() == list(bundle.keys()))
        case("a tile is in it", (0, 1) in bundle and (numpy.uint8(3), numpy.int64(127)) in bundle)
        case("another place is not", not any(place in bundle for place in ((5, 5), (128, 0), (-1, 0), 0, "01", (0, 1, 2), (0.0, 1.0), None)))
        case("a tile by its place", bundle[3, 127] == TILES[3, 127] == bundle.get(3, 127) == bundle.get((3, 127), b""))
        case("no tile is a KeyError", all(raises(KeyError, lambda: bundle[place]) for place in ((5, 5), (128, 0), (0, -1), 7, "x")))
        case("get gives none, or the default", bundle.get(5, 5) is None and bundle.get((5, 5), 9) == 9 == bundle.get((200, 0), 9))
        case("get outside of the bundle is refused", all(raises(IndexError, lambda: bundle.get(*place)) for place in ((128, 0), (0, -1))))
        case("two are the same where they are one", bundle == bundle and bundle != futskheri.Bundle(path) and len({bundle}) == 1)
        case("its text has path and number", repr(bundle) == f"<Bundle {path!r}, 4 tiles>")
        case("threads read at once", all(read_at_once(bundle)))
        with mock.patch("os.pread", side_effect=OSError(errno.EIO, "a bad sector")):
            case("a bad sector is an OSError", raises(OSError, lambda: bundle[0, 0]) and (0, 0) in bundle)
        os.truncate(path, os.path.getsize(path) - 1)
        case("a tile that is cut off meanwhile is refused", refused(lambda: bundle[127, 127]) == ("Beyond", os.path.getsize(path)))
        case("and the others are there", bundle[3, 127] == TILES[3, 127])
    case("a closed bundle is told", raises(ValueError, lambda: bundle[0, 0]))
    case("a path may be bytes", len(futskheri.Bundle(os.fsencode(path))) == 4)
    with futskheri.Bundle(written(path, b"")) as bundle:
        case("an empty file is a bundle without tiles", not list(bundle) and not bundle and (0, 0) not in bundle)
    case("another file is no bundle", raises(ValueError, lambda: futskheri.Bundle(written(path, b"no bundle"))))
    case("nor is a longer one", says(ValueError, lambda: futskheri.Bundle(written(path, bytes(200000))), "at byte 0 is 0"))
    case("a missing file is an OSError", raises(FileNotFoundError, lambda: futskheri.Bundle(path + " is not there")))


def audits(room):
    """Audits, beside the reading of the formats in audit_reading.py."""
    blob = futskheri.encode(*hills("int16", 16, 16, 1, 5))
    bands = futskheri.encode_bands([hills("uint8", 4, 4, 1, 6)[0]] * 2)
    cut = made.changed(blob, 30, len(blob) - 1)
    tiles = {0: blob, 1: bands, 5: made.FLOATS, 7: b"no blob", 9: blob[:-1], 12: cut, 15: made.turned(blob, 300), 130: made.turned(made.FLOATS, 300)}
    tiles[140] = made.changed(blob, 6, 5)
    data = made.bundle_of(tiles)
    for name, given in (("an audit", data), ("one of a bundle that is cut", data[:-20]), ("one beside a bad record", made.turned(data, 8 * 131136))):
        with futskheri.Bundle(written(os.path.join(room, "audited"), given)) as bundle:
            wanted = [reading.line(reading.tell(given, entry, ())) for entry in reading.audited(given)]
            case(name + " is that of the reading", list(map(audit_line, bundle.audit())) == wanted)
    with futskheri.Bundle(written(os.path.join(room, "audited"), data)) as bundle, mock.patch("os.pread", side_effect=OSError(errno.EIO, "a bad sector")):
        case("an audit goes on past bad sectors", [told[4:7] for told in bundle.audit()] == [(None, "damaged", "Failed")] * len(tiles))


def audit_line(told):
    """The line of the program tile_audit."""
    total = None if told.sum is None else told.sum.to_bytes(4, "little").hex()
    kind = None if told.dtype is None else f"{told.dtype.kind}{8 * told.dtype.itemsize}"
    fields = [*told[:4], total, *told[5:8], kind, *told[9:]]
    return "\t".join("-" if field is None else str(field) for field in fields) + "\n"


def read_at_once(bundle):
    """Whether each of four threads reads the tiles that there are."""
    found = []

    def read():
        found.append(all(dict(bundle) == TILES for _ in range(200)))

    threads = [threading.Thread(target=read) for _ in range(4)]
    for thread in threads:
        thread.start()
    for thread in threads:
        thread.join()
    return found if len(found) == 4 else [False]


def blobs():
    """What one blob is, and what is refused of it."""
    values, mask = futskheri.decode(SEVEN)
    case("a blob worked by hand is its raster", values.tolist() == [[7]] and values.dtype == "uint8" and mask.tolist() == [[True]])
    case("and the raster is encoded as that blob", futskheri.encode(values, version=3) == SEVEN)
    case("what follows a blob is not looked at", (futskheri.decode(SEVEN + b"more")[0] == values).all())
    case("a blob is read from any bytes", (futskheri.decode(memoryview(bytearray(SEVEN)))[0] == values).all())
    case("a cut blob is refused at its end", refused(lambda: futskheri.decode(SEVEN[:-1])) == ("Truncated", 65))
    case("no bytes are refused", refused(lambda: futskheri.decode(b"")) == ("Truncated", 0))
    case("a changed byte is refused by its checksum", refused(lambda: futskheri.decode(SEVEN[:-1] + b"\1")) == ("BadChecksum", 10))
    case("another number of axes is refused", raises(ValueError, lambda: futskheri.encode(numpy.zeros(4, "u1"))))
    case("no rows are refused", raises(ValueError, lambda: futskheri.encode(numpy.zeros((0, 4), "u1"))))
    case("version 3 has one value a pixel", raises(ValueError, lambda: futskheri.encode(numpy.zeros((2, 2, 2), "u1"), version=3)))
    case("an error below 0 is refused", says(ValueError, lambda: futskheri.encode(values, error=-1), "-1"))
    case("an error that is no whole number is refused", says(ValueError, lambda: futskheri.encode(values, error=0.5), "0.5"))
    case("another version is refused", says(ValueError, lambda: futskheri.encode(values, version=6), "6", "3 nor 4"))
    turned, _ = hills("int32", 12, 20, 1, 9)
    case("an array that lies column by column is taken", (futskheri.decode(futskheri.encode(turned.T))[0] == turned.T).all())
    swapped = turned.astype(">i4")
    case("one of the other byte order is taken by its values", (futskheri.decode(futskheri.encode(swapped))[0] == turned).all())


def tiles_of_bands():
    """What the blobs of a tile are, and what is refused of them."""
    seven = numpy.array([[7]], "u1")
    two = futskheri.encode_bands(numpy.stack([seven, seven + 1]))
    case("blobs one behind the other are bands", futskheri.decode_bands(two)[0].tolist() == [[[7]], [[8]]])
    case("a list of arrays is bands", futskheri.encode_bands([seven, seven + 1]) == two)
    case("one blob is one band", futskheri.decode_bands(SEVEN)[0].shape == (1, 1, 1))
    case("the first of them is a blob of its own", futskheri.decode(two)[0].tolist() == [[7]])
    case("a byte behind them is refused", refused(lambda: futskheri.decode_bands(two + b"x")) == ("Leftover", len(two)))
    other = futskheri.encode(seven) + futskheri.encode(numpy.zeros((2, 1), "u1"))
    case("a band of another shape is refused", refused(lambda: futskheri.decode_bands(other)) == ("BadBand", len(two) // 2 + 14))
    case("seventeen blobs are refused", refused(lambda: futskheri.decode_bands(SEVEN * 17)) == ("Leftover", 16 * len(SEVEN)))
    case("seventeen bands are refused", raises(ValueError, lambda: futskheri.encode_bands(numpy.zeros((17, 1, 1), "u1"))))
    case("no bands are refused", raises(ValueError, lambda: futskheri.encode_bands(numpy.zeros((0, 1, 1), "u1"))))


def types_and_shapes():
    """What is said of types and shapes that are not taken."""
    taken = ("int8", "uint8", "int16", "uint16", "int32", "uint32")
    for dtype in ("int64", "uint64", "float32", "float64", "bool", "complex128"):
        array = numpy.zeros((2, 2), dtype)
        case(f"{dtype} is told what to use", says(TypeError, lambda: futskheri.encode(array), f"values are {dtype};", *taken))
    case("a float is told how", says(TypeError, lambda: futskheri.encode(numpy.zeros((2, 2))), "rint"))
    for given in ([[1, 2], [3, 4]], ((1, 2), (3, 4)), []):
        name = type(given).__name__
        case(f"a {name} is told what to use", says(TypeError, lambda: futskheri.encode(given), f"are a {name}", "numpy.array(", *taken))
        case("and in bands", says(TypeError, lambda: futskheri.encode_bands([given, given]), "numpy.array(", *taken))
    values = numpy.zeros((3, 5), "u1")
    wrong = numpy.ones((5, 3), bool)
    case("a mask of another shape is told both", says(ValueError, lambda: futskheri.encode(values, wrong), "of (5, 3)", "of (3, 5)"))
    deep = numpy.zeros((3, 5, 2), "u1")
    case("so it is beside several values of a pixel", says(ValueError, lambda: futskheri.encode(deep, deep), "of (3, 5, 2)", "it is of (3, 5)"))
    case("no mask has no shape", says(ValueError, lambda: futskheri.encode(values, numpy.ma.nomask), "of ()", "of (3, 5)"))
    bands = numpy.zeros((4, 3, 5), "u1")
    masks = numpy.ones((2, 3, 5), bool)
    case("masks of another number are told", says(ValueError, lambda: futskheri.encode_bands(bands, masks), "of (2, 3, 5)", "of (4, 3, 5)", "of (1, 3, 5)"))
    case("values of another number of axes are told", says(ValueError, lambda: futskheri.encode(bands[None]), "of (1, 4, 3, 5)", "(rows, columns)"))
    case("and in bands", says(ValueError, lambda: futskheri.encode_bands(values), "of (3, 5)", "(bands, rows, columns)"))


def is_decoded(blob, values, wanted):
    """Whether a blob has these pixels valid, and their values."""
    back, valid = futskheri.decode(blob)
    return (valid == wanted).all() and (back[wanted] == numpy.ma.getdata(values)[wanted]).all() and not back[~wanted].any()


def masked_arrays():
    """What numpy.ma masks is not valid."""
    for seed, dtype in enumerate(LIMITS):
        for depth in (1, 3):
            values, mask = hills(dtype, 14, 19, depth, seed)
            hidden = ~mask if depth == 1 else numpy.repeat(~mask[:, :, None], depth, 2)
            masked = numpy.ma.array(values, mask=hidden)
            case(f"masked {dtype}, {depth} a pixel", is_decoded(futskheri.encode(masked), values, mask))
    values, _ = hills("int16", 14, 19, 1, 3)
    masked = numpy.ma.array(values, mask=values % 3 == 0)
    other = values % 5 != 0
    case("beside a mask, pixels are valid where both say so", is_decoded(futskheri.encode(masked, other), values, ~masked.mask & other))
    case("a masked array without a mask is valid", is_decoded(futskheri.encode(numpy.ma.array(values)), values, numpy.ones(values.shape, bool)))
    case("one of which all is masked is not", is_decoded(futskheri.encode(numpy.ma.masked_all_like(values)), values, numpy.zeros(values.shape, bool)))
    case("masked_equal is", is_decoded(futskheri.encode(numpy.ma.masked_equal(values, 5)), values, values != 5))
    case("a part of it, turned, is", is_decoded(futskheri.encode(masked[2:9, ::2].T), values[2:9, ::2].T, ~masked.mask[2:9, ::2].T))
    marks = numpy.ma.array(other, mask=values % 7 == 0)
    case("what is masked of a mask is not valid", is_decoded(futskheri.encode(values, marks), values, other & (values % 7 != 0)))
    deep = numpy.ma.array(numpy.zeros((2, 2, 2), "u1"), mask=[[[0, 1], [0, 0]], [[0, 0], [0, 0]]])
    case("a pixel that is masked in part is refused", says(ValueError, lambda: futskheri.encode(deep), "some values are masked"))
    bands = numpy.ma.stack([masked, numpy.ma.array(values), numpy.ma.masked_all_like(values)])
    wanted = ~numpy.ma.getmaskarray(bands)
    for given in (bands, list(bands), [masked, values, bands[2]]):
        back, valid = futskheri.decode_bands(futskheri.encode_bands(given))
        case(f"bands in a {type(given).__name__}", (valid == wanted).all() and (back[wanted] == bands.data[wanted]).all())
    _, valid = futskheri.decode_bands(futskheri.encode_bands(bands, other[None]))
    case("bands with one mask for all", (valid == (wanted & other)).all())
    back, valid = futskheri.decode(futskheri.encode(masked))
    again = numpy.ma.array(back, mask=~valid)
    case("and it comes back as one", (again.mask == masked.mask).all() and (again == masked).all())


def streams():
    """Tiles as bin/bundle_tiles takes and gives them; the bytes are those of docs/FORMATS.md."""
    stream = io.BytesIO()
    futskheri.write_tile(stream, 1, 2, b"hello")
    futskheri.write_tile(stream, 127, 0, bytearray(b"x"))
    whole = b"R\x01\x02\x05\x00\x00\x00hello" + b"R\x7f\x00\x01\x00\x00\x00x"
    case("a stream of tiles is written as its format has it", stream.getvalue() == whole)
    tiles = [((1, 2), b"hello"), ((127, 0), b"x")]
    case("and read", list(futskheri.read_tiles(io.BytesIO(whole))) == tiles)
    wrong = [(128, 0, b"x"), (0, 128, b"x"), (-1, 0, b"x"), (0, 0, b""), (0, 0, bytes(16777216))]
    case("a slot or a size that no bundle has is refused", all(raises(ValueError, lambda t=t: futskheri.write_tile(io.BytesIO(), *t)) for t in wrong))
    cut = [n for n in range(1, len(whole)) if n != 12]
    case("a stream that is cut is refused", all(raises(ValueError, lambda n=n: list(futskheri.read_tiles(io.BytesIO(whole[:n])))) for n in cut))


def pickles():
    """What is pickled is what it was, and comes through processes."""
    stop = futskheri.Refused("BadChecksum", 10, 5, 7)
    stop.tile = (3, 4)
    for how in [copy.copy, *(lambda it, number=number: pickle.loads(pickle.dumps(it, number)) for number in range(6))]:
        back = how(stop)
        case(
            "a Refused is what it was",
            (type(back), str(back), vars(back)) == (futskheri.Refused, "BadChecksum at 10", vars(stop)) and back.args == stop.args,
        )
    head = futskheri.header(SEVEN)
    case("so is a Header", pickle.loads(pickle.dumps(head)) == head and type(pickle.loads(pickle.dumps(head))) is futskheri.Header)
    blobs = [SEVEN, SEVEN[:-1], SEVEN[:-1] + b"\1", SEVEN]
    for way in ("spawn", "forkserver"):
        with multiprocessing.get_context(way).Pool(2) as pool:
            answers = [pool.apply_async(futskheri.decode, (blob,)) for blob in blobs]
            wanted = [None, ("Truncated", 65), ("BadChecksum", 10), None]
            case(f"a refused blob comes through a pool ({way})", [refused(lambda: answer.get(60)) for answer in answers] == wanted)
            case("which works on", pool.apply(futskheri.decode, (SEVEN,))[0].tolist() == [[7]])


def lock_is_free():
    """Whether another thread works while the library does: no pause of it is nearly as long as the call."""
    values, mask = hills("int32", 4096, 4096, 1, 1)
    stamps, ended = [], threading.Event()

    def work():
        while not ended.is_set():
            stamps.append(time.perf_counter())
            time.sleep(0.0005)

    thread = threading.Thread(target=work)
    thread.start()
    shares = []
    for _ in range(3):
        begun = time.perf_counter()
        blob = futskheri.encode(values, mask)
        middle = time.perf_counter()
        futskheri.decode(blob)
        done = time.perf_counter()
        for first, last in ((begun, middle), (middle, done)):
            inside = [first, *(stamp for stamp in list(stamps) if first < stamp < last), last]
            shares.append(max(numpy.diff(inside)) / (last - first))
    ended.set()
    thread.join()
    return min(shares[::2]) < 0.5 and min(shares[1::2]) < 0.5


def guide_block(first, word=""):
    """The lines of GUIDE.md, as they are printed, that begin with this one, have this word, and end with a line that is not
    indented."""
    with open(os.path.join(HERE, "docs", "GUIDE.md")) as file:
        lines = file.read().split("\n")
    for begin in (at for at, line in enumerate(lines) if line == "    " + first):
        end = next(at for at in range(begin, len(lines)) if lines[at] and not lines[at].startswith("    "))
        block = textwrap.dedent("\n".join(lines[begin:end]))
        if word in block:
            return block
    raise LookupError(first)


def guide(room):
    """The recipes of GUIDE.md, as they stand there."""
    recipe = {}
    exec(guide_block("import numpy, futskheri"), recipe)
    make = numpy.random.default_rng(1)
    heights = make.uniform(-400, 9000, (40, 50)).astype("f4")
    heights[3:5], heights[10, 20] = numpy.nan, -9999
    back = recipe["to_heights"](recipe["to_blob"](heights, -9999))
    valid = numpy.isfinite(heights) & (heights != -9999)
    case("GUIDE: float heights are there to half a centimetre", (numpy.abs(back - heights)[valid] <= 0.0051).all())
    case("GUIDE: what has none is NaN", (numpy.isnan(back) == ~valid).all())
    within = numpy.abs(recipe["to_heights"](recipe["to_blob"](heights, -9999, 10)) - heights)[valid]
    case("GUIDE: with an error of ten centimetres", 0.01 < within.max() <= 0.1055)
    case("GUIDE: heights that have no centimetres are refused", raises(ValueError, lambda: recipe["to_blob"](numpy.float32([[3e7]]))))
    for name, work in (("rasterio", guide_with_rasterio), ("xarray", guide_with_xarray)):
        if importlib.util.find_spec(name) is None:
            print(f"python: {name} is not there, its lines of GUIDE.md are skipped")
        else:
            work(room)


def guide_with_program(room):
    """The first lines of Python, over files that the program makes as GUIDE.md says, give what stands there."""
    program = os.environ["FUTSKHERI_PROGRAM"]
    with open(os.path.join(HERE, "docs", "hill.lgr1"), "rb") as grid, open(os.path.join(room, "hill.lerc2"), "wb") as blob:
        subprocess.run([program, "-", "encode", "3", "1"], stdin=grid, stdout=blob, check=True)
    low = b"LGR1\2" + struct.pack("<3I4B4h", 1, 4, 1, 1, 1, 1, 1, 10, 11, 12, 13)
    words = [program, os.path.join(room, "tiles.bundle"), "put", "4", "0", "2"]
    subprocess.run(words, input=b"T\0\0" + low + b"T\0\1" + low, stdout=subprocess.DEVNULL, check=True)
    os.symlink(os.path.join(HERE, "python"), os.path.join(room, "python"))
    # `python3` is this one, with its numpy.
    os.mkdir(os.path.join(room, "path"))
    with open(os.path.join(room, "path", "python3"), "w") as file:
        packages = os.path.dirname(os.path.dirname(numpy.__file__))
        file.write(f'#!/bin/sh\nPYTHONPATH=$PYTHONPATH:{packages} exec "{sys.executable}" "$@"\n')
    os.chmod(os.path.join(room, "path", "python3"), 0o755)
    path = os.path.join(room, "path") + os.pathsep + os.environ["PATH"]
    lines = guide_block("PYTHONPATH=python python3 <<'END'")
    done = subprocess.run(["sh", "-c", lines], cwd=room, env={**os.environ, "PATH": path}, stdout=subprocess.PIPE, text=True)
    case("GUIDE: the lines of Python, as they are printed", done.stdout.strip() == guide_block("(8, 8) int16 60").strip())


def guide_with_rasterio(room):
    """A window of a raster to a blob and back."""
    import rasterio

    heights, mask = hills("int16", 300, 600, 1, 4)
    heights[~mask] = -32768
    place = rasterio.transform.from_origin(7.5, 46.25, 1 / 1200, 1 / 1200)
    about = dict(height=300, width=600, count=1, dtype="int16", nodata=-32768, crs="EPSG:4326", transform=place)
    before = os.getcwd()
    os.chdir(room)
    try:
        with rasterio.open("heights.tif", "w", driver="GTiff", **about) as raster:
            raster.write(heights, 1)
        recipe = {}
        exec(guide_block("import numpy, rasterio, futskheri"), recipe)
        wanted = mask[:256, 256:512]
        case("GUIDE: a window of rasterio's is a blob", is_decoded(recipe["blob"], heights[:256, 256:512], wanted))
        with rasterio.open("window.tif") as raster:
            case("GUIDE: and comes back with its place", raster.transform.c == 7.5 + 256 / 1200 and (raster.read(1) == heights[:256, 256:512]).all())
    finally:
        os.chdir(before)


def guide_with_xarray(room):
    """The same with NaN where there is no height."""
    import xarray

    heights, mask = hills("int16", 60, 50, 1, 6)
    window = xarray.DataArray(numpy.where(mask, heights, numpy.nan), dims=("y", "x"), coords={"x": numpy.arange(50) * 10.0})
    recipe = {}
    exec(guide_block("import futskheri", "def to_blob"), recipe)
    blob = recipe["to_blob"](window)
    case("GUIDE: a window of xarray's is a blob", is_decoded(blob, heights, mask))
    case("GUIDE: and comes back with its coordinates", recipe["of_blob"](blob, window).identical(window))


def esris(library):
    """The cases beside Esri's library."""
    same = []
    for seed, dtype in enumerate(LIMITS):
        for depth in (1, 3):
            values, mask = hills(dtype, 33, 40, depth, seed + 50)
            same.append(by_esri(library, futskheri.encode(values, mask), values, mask))
    case(f"Esri's library decodes {len(same)} blobs to the same arrays", all(same))
    same = []
    for seed, dtype in enumerate(LIMITS):
        for depth, version in ((1, 3), (1, 4), (3, 4)):
            values, mask = hills(dtype, 33, 40, depth, seed + 70)
            for given in (mask, numpy.ones_like(mask), numpy.zeros_like(mask)):
                same += [of_esri(library, values, given, version, error) for error in (0, 2)]
    case(f"{len(same)} blobs that Esri's library made are decoded to their arrays, within their error", all(same))
    same = []
    for seed, dtype in enumerate(LIMITS):
        pairs = [hills(dtype, 33, 40, 1, seed + 10 * band) for band in range(3)]
        values, masks = (numpy.stack(lists) for lists in zip(*pairs))
        masks[1] = masks[0]
        same.append(bands_by_esri(library, futskheri.encode_bands(values, masks), values, masks))
    case(f"Esri's library decodes {len(same)} tiles of three bands to the same arrays", all(same))


def main():
    blobs()
    types_and_shapes()
    masked_arrays()
    tiles_of_bands()
    pickles()
    streams()
    case("the version is the repository's", futskheri.__version__ == open(os.path.join(HERE, "VERSION")).read().strip())
    trips = list(bands_trip())
    case(f"{len(trips)} lists of bands of all types come back", all(trips))
    trips = list(round_trips())
    case(f"{len(trips)} rasters of all types come back within their error", all(trips))
    case("Python's own lock is free while the library works", lock_is_free())
    library = esri()
    if library is None:
        print("python: Esri's library is not there, its cases are skipped")
    else:
        esris(library)
    with tempfile.TemporaryDirectory() as room:
        bundle_as_mapping(room)
        audits(room)
        guide(room)
        bundles(room)
        guide_with_program(room)
        pip_cases.run_all(case, room)
    print(f"{counts[True]} passed, {counts[False]} failed")
    return counts[False] > 0


if __name__ == "__main__":
    sys.exit(main())
