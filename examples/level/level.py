#!/usr/bin/env python3
"""An integer GeoTIFF as levels of Compact Cache V2 bundles, and back.

    level.py prepare GEOTIFF FOLDER [ERROR]
                                        reads what the GeoTIFF is; writes FOLDER/conf.xml and FOLDER/level.json
    level.py levels FOLDER              prints the levels, the finest first
    level.py bundles FOLDER LEVEL       prints 'LEVEL ROW COLUMN' of each bundle of a level
    level.py bundle FOLDER LEVEL ROW COLUMN
                                        makes a bundle, or what is missing in it: of the finest level from the GeoTIFF,
                                        of another from the four bundles of the next finer one; prints 'LEVEL ROW COLUMN
                                        TILES', the tiles that it has then
    level.py count LEVEL BUNDLES        reads such lines, and ends with 1 where fewer came than so many
    level.py back FOLDER GEOTIFF        writes the finest level as a GeoTIFF

ERROR is how far a height may be changed, a whole number, 0 where none is said. A task is one line of `bundles`. Those of
one level are independent of each other, on one machine or many that see the same folder; a level comes after the next
finer one. A task that was killed is run again: what its bundle has by then stays. How far `bundle` and `count` are is told
on standard error where that is a terminal, or FUTSKHERI_PROGRESS is 1. The programs are those of $FUTSKHERI_BIN, else of
bin/ beside this folder; the heights go back by python/futskheri. GDAL's gdalinfo, gdalsrsinfo and gdal_translate read and
write the GeoTIFF.
"""

import contextlib
import fcntl
import itertools
import json
import math
import os
import re
import subprocess
import sys
import tempfile
from collections import namedtuple
from xml.sax.saxutils import escape

import numpy

ROOT = os.path.join(os.path.dirname(os.path.abspath(__file__)), "..", "..")
sys.path.append(os.path.join(ROOT, "python"))
import futskheri

# Pixels along a side of a tile, and tiles along a side of a bundle.
TILE = 256
SPAN = 128
# The words of a put behind its version and its error: how many workers encode.
WORKERS = 2
# Bands that a tile may have, and bytes of heights that are put at once: the blobs of a put have to be fewer than 2^30 bytes.
BANDS = 16
PUT = 2**28
# Of a type its name for numpy, its number in a grid, and that in the header of a raw file; by GDAL's name.
Kind = namedtuple("Kind", "dtype grid raw")
KINDS = {
    "Byte": Kind("<u1", 1, 1),
    "Int16": Kind("<i2", 2, 2),
    "UInt16": Kind("<u2", 3, 12),
    "Int32": Kind("<i4", 4, 3),
    "UInt32": Kind("<u4", 5, 13),
}


# How far the work is, is told here, and not by the programs.
QUIET = {**os.environ, "FUTSKHERI_PROGRESS": "0"}


def run(*words, **more):
    """What a program gives. Its faults are told by itself; here they end the work."""
    return subprocess.run(list(map(str, words)), check=True, stdout=subprocess.PIPE, env=QUIET, **more).stdout


def program(name):
    return os.path.join(os.environ.get("FUTSKHERI_BIN", os.path.join(ROOT, "bin")), name)


def up(number, by):
    """How many parts of that length a length takes."""
    return -(-number // by)


def kind_of(source):
    return KINDS[source["type"]]


def tell(line):
    """Tells how far the work is, where someone looks."""
    if os.environ.get("FUTSKHERI_PROGRESS", "1" if sys.stderr.isatty() else "0") == "1":
        print(line, file=sys.stderr, flush=True)


# ---- what the GeoTIFF is, and what the folder says of it


def read_source(geotiff):
    """What the folder has to say of a GeoTIFF, by its gdalinfo."""
    info = json.loads(run("gdalinfo", "-json", geotiff))
    columns, rows = info["size"]
    bands = info["bands"]
    x, width, skew, y, turn, height = info.get("geoTransform", [0, 1, 0, 0, 0, -1])
    types = {band["type"] for band in bands}
    if len(bands) > BANDS or len(types) > 1:
        sys.exit(f"level.py: it has {len(bands)} bands of {', '.join(sorted(types))}, and not 1 to {BANDS} of one type")
    (kind,) = types
    if kind not in KINDS:
        sys.exit(f"level.py: the values are {kind}, and not of one of {', '.join(KINDS)}")
    nodata = {whole_number(band.get("noDataValue"), KINDS[kind].dtype) for band in bands}
    if len(nodata) > 1:
        sys.exit("level.py: its bands have not one nodata value")
    if skew or turn or abs(width + height) > 1e-9 * abs(width):
        sys.exit("level.py: its pixels are no squares with north above")
    levels = 1
    while max(rows, columns) > TILE << (levels - 1):
        levels += 1
    # GDAL takes a cache to reach as far beyond zero as its origin lies before it. So the origin is some tiles of level 0
    # to the left of the raster, and some above.
    whole = width * (TILE << (levels - 1))
    return {
        "geotiff": os.path.abspath(geotiff),
        "changed": os.stat(geotiff).st_mtime_ns,
        "rows": rows,
        "columns": columns,
        "bands": len(bands),
        "type": kind,
        "nodata": nodata.pop(),
        "error": 0,
        "x": x,
        "y": y,
        "cell": width,
        "down": -height,
        "left": max(0, math.ceil((2 * x + width * columns) / whole)),
        "above": max(0, math.ceil((width * rows - 2 * y) / whole)),
        "wkt": info.get("coordinateSystem", {}).get("wkt", ""),
        "wkt_of_esri": esri_wkt(geotiff),
        "levels": levels,
    }


def whole_number(nodata, dtype):
    """The nodata value as a number of the type; None where no pixel can have it."""
    limits = numpy.iinfo(dtype)
    can_be = isinstance(nodata, (int, float)) and nodata == nodata // 1 and limits.min <= nodata <= limits.max
    return int(nodata) if can_be else None


def esri_wkt(geotiff):
    """The system of its coordinates in Esri's writing; nothing where it has none."""
    words = ("gdalsrsinfo", "-o", "wkt_esri", "--single-line", geotiff)
    return subprocess.run(words, stdout=subprocess.PIPE, stderr=subprocess.DEVNULL).stdout.decode().strip()


def reference(source):
    """The system of the coordinates, by its text, which GDAL reads, and by its number where it has one."""
    number = re.search(r'ID\["EPSG",(\d+)\]\]\s*$', source["wkt"])
    return f"<WKT>{escape(source['wkt_of_esri'])}</WKT>" + (f"<WKID>{number[1]}</WKID>" if number else "")


def metres(source):
    """How many metres a unit of the coordinates is, a degree on the equator; 1 where there is no system."""
    words = source["wkt_of_esri"].partition("VERTCS[")[0]
    units = re.findall(r'\bUNIT\["[^"]*",([^],]+)', words)
    radius = re.search(r'SPHEROID\["[^"]*",([^],]+)', words)
    if not units:
        return 1.0
    # An angle's unit is that many radians.
    return float(units[-1]) * (float(radius[1]) if words.startswith("GEOGCS[") and radius else 1)


def configuration(source):
    """The cache's conf.xml: where it lies, and how large a pixel is on each level."""
    whole = source["cell"] * (TILE << (source["levels"] - 1))
    x, y = source["x"] - source["left"] * whole, source["y"] + source["above"] * whole
    infos = ""
    for level in range(source["levels"]):
        cell = source["cell"] * 2 ** (source["levels"] - 1 - level)
        # A scale is that of a screen of 96 dots an inch, on which a dot is a pixel.
        scale = cell * metres(source) * 96 / 0.0254
        infos += f"      <LODInfo><LevelID>{level}</LevelID><Scale>{scale:.6f}</Scale><Resolution>{cell!r}</Resolution></LODInfo>\n"
    return f"""<CacheInfo>
  <TileCacheInfo>
    <SpatialReference>{reference(source)}</SpatialReference>
    <TileOrigin><X>{x!r}</X><Y>{y!r}</Y></TileOrigin>
    <TileCols>{TILE}</TileCols>
    <TileRows>{TILE}</TileRows>
    <LODInfos>
{infos}    </LODInfos>
  </TileCacheInfo>
  <TileImageInfo><CacheTileFormat>LERC</CacheTileFormat></TileImageInfo>
  <CacheStorageInfo>
    <StorageFormat>esriMapCacheStorageModeCompactV2</StorageFormat>
    <PacketSize>{SPAN}</PacketSize>
  </CacheStorageInfo>
</CacheInfo>
"""


def prepare(geotiff, folder, error=None):
    """Makes the folder, or finds that it is of this GeoTIFF and this error, where one is said."""
    build_programs()
    source = read_source(geotiff)
    if os.path.exists(os.path.join(folder, "level.json")):
        kept = source_of(folder)
        if kept != {**source, "error": kept["error"]}:
            sys.exit(f"level.py: {folder} is of another GeoTIFF, or of what this one was before it changed")
        if error not in (None, kept["error"]):
            sys.exit(f"level.py: the heights in {folder} may be {kept['error']} away, and not {error}")
        return
    source["error"] = error or 0
    for level in range(source["levels"]):
        os.makedirs(level_folder(folder, level), exist_ok=True)
    with open(os.path.join(folder, "conf.xml"), "w") as file:
        file.write(configuration(source))
    with open(os.path.join(folder, "level.json"), "w") as file:
        json.dump(source, file, indent=1)


def build_programs():
    """Has the programs built where they are missing, so that no two tasks build them. Without words they tell what they
    take, which is not handed on, and end with 1."""
    nothing = subprocess.DEVNULL
    for name in ("lerc_cli", "overview_tiles"):
        with subprocess.Popen([program(name)], stdin=nothing, stdout=nothing, stderr=subprocess.PIPE, text=True) as called:
            for line in itertools.takewhile(lambda line: not line.startswith("usage: "), called.stderr):
                print(line, end="", file=sys.stderr, flush=True)
            called.stderr.read()
        if called.returncode != 1:
            raise subprocess.CalledProcessError(called.returncode, [program(name)])


def source_of(folder):
    """What the folder says of its GeoTIFF. Before there were bands and errors it said nothing of them."""
    with open(os.path.join(folder, "level.json")) as file:
        kept = json.load(file)
    return {"bands": 1, "error": 0, "down": kept["cell"], **kept}


def level_folder(folder, level):
    return os.path.join(folder, "_alllayers", f"L{level:02d}")


def bundle_path(folder, level, row, column):
    """A bundle's file, named by its first row and column, which are multiples of 128."""
    return os.path.join(level_folder(folder, level), f"R{row:04x}C{column:04x}.bundle")


# ---- tasks


def levels(folder):
    return range(source_of(folder)["levels"] - 1, -1, -1)


def first_tile(source, level):
    """The row and the column of the tile in which the raster begins."""
    return source["above"] << level, source["left"] << level


def shape_at(source, level):
    """The rows and columns of pixels that a level has."""
    shrunk = 1 << (source["levels"] - 1 - level)
    return up(source["rows"], shrunk), up(source["columns"], shrunk)


def bundles(folder, level):
    """The first row and column of each bundle of a level."""
    source = source_of(folder)
    rows, columns = shape_at(source, level)
    top, left = first_tile(source, level)
    return [
        (row, column)
        for row in range(top // SPAN * SPAN, top + up(rows, TILE), SPAN)
        for column in range(left // SPAN * SPAN, left + up(columns, TILE), SPAN)
    ]


def bundle(folder, level, row, column):
    """Makes a bundle, or what is missing in it, and gives the number of its tiles."""
    source = source_of(folder)
    path = bundle_path(folder, level, row, column)
    with alone_at(path) as lock:
        if level == source["levels"] - 1:
            cut(source, path, row, column, lock)
        else:
            overview(folder, level, path, row, column, lock)
        if not os.path.exists(path):
            return 0
        with futskheri.Bundle(path) as tiles:
            return len(tiles)


def count(level, wanted):
    """Reads the lines of the tasks of a level, and tells how far they are. Whether all have come."""
    bundles_made, tiles = 0, 0
    for line in sys.stdin:
        bundles_made, tiles = bundles_made + 1, tiles + int(line.split()[3])
        tell(f"level {level}: {bundles_made} of {wanted} bundles, {tiles} tiles")
    return bundles_made == wanted


@contextlib.contextmanager
def alone_at(path):
    """Waits until no other task is at work on the bundle. The programs that write it hold the lock as well, so that one
    that outlives its task is waited for."""
    with open(path + ".lock", "w") as file:
        fcntl.flock(file, fcntl.LOCK_EX)
        yield [file.fileno()]


def slots_in(path, lock):
    """The slots of which the bundle has a tile, whatever stopped the one who wrote it."""
    run(program("lerc_cli"), path, "recover", pass_fds=lock)
    lines = run(program("lerc_cli"), path, "list", pass_fds=lock).decode().splitlines()
    return {tuple(map(int, line.split()[:2])) for line in lines}


def cut(source, path, row, column, lock):
    """A bundle of the finest level: the tiles that it lacks are put from the GeoTIFF, some rows of them at once."""
    has = slots_in(path, lock)
    top, left = first_tile(source, source["levels"] - 1)
    windows = [window_of(source, (row + at - top) * TILE, (column - left) * TILE) for at in range(SPAN)]
    lacking = []
    for at, window in enumerate(windows):
        tiles = [tile for tile in range(tiles_along(window)) if (at, max(0, left - column) + tile) not in has]
        if tiles:
            lacking.append((at, window, tiles))
    at_once = max(1, PUT // (SPAN * TILE * TILE * source["bands"] * numpy.dtype(kind_of(source).dtype).itemsize))
    for first in range(0, len(lacking), at_once):
        put_rows(source, path, max(0, left - column), lacking[first : first + at_once], lock)
        done = min(first + at_once, len(lacking))
        tell(f"level {source['levels'] - 1}: bundle {row} {column}, {done} of {len(lacking)} rows of tiles")


def put_rows(source, path, first, rows, lock):
    """Puts rows of tiles: of each its number, what it spans, and the tiles that are put, counted from the first one."""
    with put_to(source, path, lock) as stream:
        for at, window, tiles in rows:
            heights = read_window(source, window)
            for tile in tiles:
                write_tile(stream, source, at, first + tile, heights[:, :, tile * TILE : (tile + 1) * TILE])


@contextlib.contextmanager
def put_to(source, path, lock):
    """A stream of tiles, which are put into the bundle."""
    words = [program("lerc_cli"), path, "put", "4", str(source["error"]), str(WORKERS)]
    streams = {"stdin": subprocess.PIPE, "stdout": subprocess.DEVNULL}
    with subprocess.Popen(words, **streams, env=QUIET, pass_fds=lock) as put:
        yield put.stdin
    if put.returncode != 0:
        raise subprocess.CalledProcessError(put.returncode, words)


def window_of(source, first_row, first_column):
    """What a row of a bundle's tiles spans of the raster: its first column and row, and its columns and rows."""
    x, y = max(0, first_column), max(0, first_row)
    columns = min(source["columns"], first_column + SPAN * TILE) - x
    rows = min(source["rows"], first_row + TILE) - y
    return x, y, max(0, columns), max(0, rows)


def tiles_along(window):
    """How many tiles a window has a part of."""
    _, _, columns, rows = window
    return up(columns, TILE) if rows > 0 else 0


def read_window(source, window):
    """The heights of a part of the GeoTIFF, band by band."""
    _, _, columns, rows = window
    with tempfile.TemporaryDirectory() as work:
        raw = os.path.join(work, "heights")
        words = ("-of", "ENVI", "-co", "INTERLEAVE=BSQ", "-srcwin", *window)
        run("gdal_translate", "-q", *words, source["geotiff"], raw)
        return numpy.fromfile(raw, kind_of(source).dtype).reshape(source["bands"], rows, columns)


def write_tile(stream, source, row, column, part):
    """One tile of a stream, if any of its pixels is valid in a band; pixels beyond the raster's edge are not."""
    kind = kind_of(source)
    bands, rows, columns = part.shape
    valid = numpy.ones(part.shape, bool) if source["nodata"] is None else part != source["nodata"]
    if valid.any():
        marks = numpy.zeros((bands, TILE, TILE), "u1")
        marks[:, :rows, :columns] = valid
        head = bytes([kind.grid]) + TILE.to_bytes(4, "little") * 2 + (1).to_bytes(4, "little")
        stream.write(bytes([ord("T"), row, column]))
        stream.write(b"LGR1" + head if bands == 1 else b"LGR2" + head + bands.to_bytes(4, "little"))
        for band in range(bands):
            stream.write(marks[band].tobytes())
            stream.write(part[band][valid[band]].astype(kind.dtype).tobytes())


def overview(folder, level, path, row, column, lock):
    """A bundle of a coarser level: a quarter of it from each of the four below. Its means are kept as they are, so its
    heights are no further away than those below."""
    for quarter in range(4):
        below = bundle_path(folder, level + 1, 2 * row + SPAN * (quarter // 2), 2 * column + SPAN * (quarter % 2))
        if os.path.exists(below):
            run(program("overview_tiles"), below, path, "overview", quarter, 4, 0, WORKERS, pass_fds=lock)


# ---- and back


def back(folder, geotiff):
    """The finest level as a GeoTIFF, which lies where the first one lay."""
    source = source_of(folder)
    with tempfile.TemporaryDirectory() as work:
        raw = os.path.join(work, "heights")
        finest = source["levels"] - 1
        shape = (source["bands"], *shape_at(source, finest))
        heights = numpy.memmap(raw, kind_of(source).dtype, "w+", shape=shape)
        lay_level(source, folder, finest, heights)
        heights.flush()
        write_raw_header(raw, *shape, kind_of(source))
        x, y, right, below = source["x"], source["y"], source["cell"] * source["columns"], source["down"] * source["rows"]
        where = ["-a_ullr", *map(repr, (x, y, x + right, y - below)), *(["-a_srs", source["wkt"]] if source["wkt"] else [])]
        empty = [] if source["nodata"] is None else ["-a_nodata", source["nodata"]]
        run("gdal_translate", "-q", "-of", "GTiff", *where, *empty, raw, geotiff)


def lay_level(source, folder, level, heights):
    """The tiles of a level into an array of its bands, rows and columns; the nodata value, or 0, where no pixel is
    valid."""
    heights[:] = source["nodata"] or 0
    top, left = first_tile(source, level)
    for row, column in bundles(folder, level):
        path = bundle_path(folder, level, row, column)
        run(program("lerc_cli"), path, "recover")
        if os.path.exists(path):
            with futskheri.Bundle(path) as tiles:
                for (y, x), tile in tiles.items():
                    values, masks = futskheri.decode_bands(tile)
                    lay(heights, (row + y - top) * TILE, (column + x - left) * TILE, beside_nodata(source, values), masks)


def beside_nodata(source, values):
    """The heights, with another one in the place of a height that has come to the nodata value, by an error above 0."""
    if source["nodata"] is not None:
        values[values == source["nodata"]] += -1 if source["nodata"] == numpy.iinfo(values.dtype).max else 1
    return values


def lay(heights, top, left, values, masks):
    """A tile into the raster, as far as it lies in it."""
    part = heights[:, top : top + TILE, left : left + TILE]
    _, rows, columns = part.shape
    numpy.copyto(part, values[:, :rows, :columns], where=masks[:, :rows, :columns])


def write_raw_header(raw, bands, rows, columns, kind):
    """What GDAL has to know of a file of heights alone."""
    with open(raw + ".hdr", "w") as file:
        file.write(f"ENVI\nsamples = {columns}\nlines = {rows}\nbands = {bands}\nheader offset = 0\n")
        file.write(f"data type = {kind.raw}\ninterleave = bsq\nbyte order = 0\n")


def whole_error(word):
    """The error that a word says."""
    if not word.isdecimal() or int(word) >= 2**32:
        sys.exit(f"level.py: the error is {word}, and not a whole number from 0 to 4,294,967,295")
    return int(word)


def do(words):
    match words:
        case ["prepare", geotiff, folder]:
            prepare(geotiff, folder)
        case ["prepare", geotiff, folder, error]:
            prepare(geotiff, folder, whole_error(error))
        case ["levels", folder]:
            print(*levels(folder), sep="\n")
        case ["bundles", folder, level]:
            for row, column in bundles(folder, int(level)):
                print(level, row, column)
        case ["bundle", folder, level, row, column]:
            print(level, row, column, bundle(folder, int(level), int(row), int(column)), flush=True)
        case ["count", level, wanted]:
            sys.exit(not count(level, int(wanted)))
        case ["back", folder, geotiff]:
            back(folder, geotiff)
        case _:
            sys.exit(__doc__)


def main(words):
    try:
        do(words)
    except subprocess.CalledProcessError as stop:
        sys.exit(f"level.py: {stop.cmd[0]} ended with {stop.returncode}")
    except OSError as stop:
        sys.exit(f"level.py: {stop}")


if __name__ == "__main__":
    main(sys.argv[1:])
