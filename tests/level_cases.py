"""The cases of level.sh, in a folder of its own."""

import importlib.util
import math
import os
import re
import signal
import subprocess
import sys
import textwrap
import threading
import time

import level
import numpy

import futskheri

NODATA, CELL, EAST, NORTH = -32768, 10, 400000, 5600000
HERE = os.path.dirname(level.__file__)
counts = {True: 0, False: 0}


def case(name, holds):
    counts[bool(holds)] += 1
    print(("ok: " if holds else "FAILED: ") + name)


# ---- what is given


def hill():
    """Heights with two parts that have none, of which one goes over an edge."""
    y, x = numpy.mgrid[0:600, 0:700]
    made = (100 + 120 * numpy.sin(x / 70) * numpy.cos(y / 90) + (7 * x + 13 * y) % 5).astype("<i2")
    made[(x - 300) ** 2 + (y - 200) ** 2 < 2500] = NODATA
    made[:40, 500:] = NODATA
    return made


def strip():
    """A raster of two bundles, which has heights where these meet, and far to the left."""
    made = numpy.full((300, 33000), NODATA, "<i2")
    y, x = numpy.mgrid[0:300, 0:400]
    made[:, 32600:] = (x * y) % 1000 - 300
    made[:20, :30] = 5
    return made


def write_geotiff(path, raster, system="EPSG:32632", east=EAST, north=NORTH, cell=CELL, nodata=NODATA):
    """A raster of (rows, columns), or of (bands, rows, columns), as a GeoTIFF."""
    *_, rows, columns = raster.shape
    raster.tofile("raw")
    kind = level.KINDS["Byte" if raster.dtype == "u1" else "Int16"]
    level.write_raw_header("raw", raster.size // (rows * columns), rows, columns, kind)
    where = ["-a_srs", system, "-a_ullr", east, north, repr(east + cell * columns), repr(north - cell * rows)]
    level.run("gdal_translate", "-q", "-of", "GTiff", "-a_nodata", nodata, *where, "raw", path)


# ---- what is wanted


def halved(raster):
    """The next coarser level: of the valid ones of four pixels the mean, of two equally near numbers the greater."""
    rows, columns = (2 * level.up(side, 2) for side in raster.shape)
    padded = numpy.full((rows, columns), NODATA, "i4")
    padded[: raster.shape[0], : raster.shape[1]] = raster
    four = numpy.stack([padded[y::2, x::2] for y in (0, 1) for x in (0, 1)])
    valid = four != NODATA
    n = valid.sum(0)
    sums = numpy.where(valid, four, 0).sum(0)
    return numpy.where(n > 0, (2 * sums + n) // numpy.maximum(2 * n, 1), NODATA)


def has_levels(folder, *rasters, error=0):
    """Whether each level has the heights that it has to have in each band, at most so far away."""
    source = level.source_of(folder)
    for at in level.levels(folder):
        heights = numpy.empty((source["bands"], *level.shape_at(source, at)), "i4")
        level.lay_level(source, folder, at, heights)
        wanted = numpy.stack(rasters)
        if not numpy.array_equal(heights == NODATA, wanted == NODATA) or abs(heights - wanted).max() > error:
            return False
        rasters = list(map(halved, rasters))
    return True


def tiles_of(path):
    with futskheri.Bundle(path) as bundle:
        return dict(bundle)


# ---- cases


def pixels(path, dtype, *words):
    """What GDAL reads of a raster."""
    level.run("gdal_translate", "-q", "-b", "1", "-of", "ENVI", *words, path, "read")
    return numpy.fromfile("read", dtype)


def shown(raster):
    """What GDAL's driver shows of heights: bytes, cut to 0 to 255, and 0 where there is none."""
    return numpy.where(raster == NODATA, 0, numpy.clip(raster, 0, 255)).astype("u1").ravel()


def make_levels(*words, **more):
    """What make_levels tells on standard error, and its status."""
    words = [os.path.join(HERE, "make_levels"), *map(str, words)]
    done = subprocess.run(words, stdout=subprocess.PIPE, stderr=subprocess.PIPE, env={**os.environ, **more}, timeout=1200)
    return done.stderr.decode(), done.returncode


def test_make():
    said = make_levels("hill.tif", "cache", 2)
    case("the heights of each level", has_levels("cache", hill()))
    case("where nobody looks nothing is told", said == ("", 0))
    said = make_levels("hill.tif", "locked", 2, FUTSKHERI_LOCK="1")
    case("a task's own lock is the programs', too", said == ("", 0) and has_levels("locked", hill()))


def test_progress():
    """How far it is: bundles of each level, and tiles; and in the finest one rows of tiles."""
    said, status = make_levels("hill.tif", "told", 2, FUTSKHERI_PROGRESS="1")
    wanted = [
        "level 2: bundle 0 256, 3 of 3 rows of tiles",
        "level 2: 1 of 1 bundles, 9 tiles",
        "level 1: 1 of 1 bundles, 4 tiles",
        "level 0: 1 of 1 bundles, 1 tiles",
    ]
    case("it is told how far it is", status == 0 and [line for line in said.splitlines() if line.startswith("level ")] == wanted)
    said, status = make_levels("hill.tif", "failing", 2, FUTSKHERI_BIN="/nowhere")
    case("a missing program is told", status == 1 and "/nowhere/lerc_cli" in said)


def programs_of(folder, lines):
    """A folder of programs that are these lines."""
    os.makedirs(folder)
    for name in ("lerc_cli", "overview_tiles"):
        with open(os.path.join(folder, name), "w") as file:
            file.write("#!/bin/sh\n" + lines)
        os.chmod(os.path.join(folder, name), 0o755)
    return os.path.abspath(folder)


def test_failing():
    """A task that fails is told, and ends the work; what building tells is handed on, and the usage is not."""
    unbuilt = programs_of("unbuilt_bin", "echo no kit >&2\nexit 69\n")
    said, status = make_levels("hill.tif", "failing", 2, FUTSKHERI_BIN=unbuilt)
    wanted = f"no kit\nlevel.py: {unbuilt}/lerc_cli ended with 69\n"
    case("a program that cannot be built ends the work", (said, status) == (wanted, 1) and not os.path.exists("failing"))
    failing = programs_of("failing_bin", "[ $# -gt 0 ] || { echo building; echo 'usage: ..'; echo more; exit 1; } >&2\nexit 5\n")
    said, status = make_levels("hill.tif", "failing", 2, FUTSKHERI_BIN=failing)
    case("a task that fails ends with 1", status == 1)
    case("and is told", said.splitlines()[:2] == ["building"] * 2 and "ended with 5" in said and "usage" not in said and "more" not in said)


def test_error():
    """With an error the heights of each level are at most that far away, and the bundle is smaller."""
    _, status = make_levels("hill.tif", "near", 2, 3)
    case("an error of 3", status == 0 and has_levels("near", hill(), error=3) and not has_levels("near", hill(), error=1))
    exact, near = (os.stat(first_task(folder)[1]).st_size for folder in ("cache", "near"))
    case("makes it smaller", near < exact)
    case("it goes on without the word", make_levels("hill.tif", "near", 2) == ("", 0))
    said, status = make_levels("hill.tif", "near", 2, 4)
    case("but not with another", status == 1 and "3 away, and not 4" in said)
    case("an error that is no whole number is refused", make_levels("hill.tif", "other", 2, "0.5")[1] == 1 and not os.path.exists("other"))
    low = numpy.tile(numpy.arange(NODATA + 1, NODATA + 31, dtype="<i2"), (40, 2))
    low[:20, :15] = NODATA
    write_geotiff("low.tif", low)
    make_levels("low.tif", "low", 1, 5)
    case("no height comes to the number of none", has_levels("low", low, error=5))
    level.run(sys.executable, level.__file__, "back", "low", "low_back.tif")
    back = pixels("low_back.tif", "<i2").reshape(low.shape)
    case("nor in the GeoTIFF", numpy.array_equal(back == NODATA, low == NODATA) and abs(back.astype("i4") - low).max() <= 5)


def test_bands():
    """Three bands, each with pixels of its own that have none."""
    bands = numpy.stack([hill(), hill()[::-1] + (hill()[::-1] != NODATA).astype("<i2"), numpy.full_like(hill(), NODATA)])
    bands[2, 300:, :20] = 77
    write_geotiff("bands.tif", bands)
    make_levels("bands.tif", "bands")
    case("three bands: the heights of each level", has_levels("bands", *bands))
    level.run(sys.executable, level.__file__, "back", "bands", "bands_back.tif")
    level.run("gdal_translate", "-q", "-of", "ENVI", "bands_back.tif", "read")
    case("three bands: back", numpy.array_equal(numpy.fromfile("read", "<i2"), bands.ravel()))
    write_geotiff("many.tif", numpy.zeros((17, 4, 4), "u1"), nodata=0)
    said, status = make_levels("many.tif", "many")
    case("seventeen bands are refused", status == 1 and "17 bands" in said)


def test_degrees():
    """Degrees and feet: where a level lies, and its scale, which is of metres."""
    radius, dots, cell = 6378137, 96 / 0.0254, 1 / 1200
    for name, east, north in (("alps", 7.5, 46.25), ("andes", -70.125, -12.5)):
        write_geotiff(f"{name}.tif", hill(), "EPSG:4326", east, north, cell)
        make_levels(f"{name}.tif", name)
        case(f"{name}: the heights of each level", has_levels(name, hill()))
        scales, cells = configured(name)
        wanted = [cell * 4, cell * 2, cell]
        case(f"{name}: cells in degrees", numpy.allclose(cells, wanted, rtol=1e-9))
        case(f"{name}: scales in metres on the equator", numpy.allclose(scales, numpy.array(wanted) * math.radians(1) * radius * dots, rtol=1e-9))
        info = level.run("gdalinfo", f"{name}/conf.xml").decode()
        case(f"{name}: GDAL's system and cell", '"WGS 84"' in info and "Pixel Size = (0.000833333333333,-0.000833333333333)" in info)
        rows, columns = hill().shape
        where = ("-projwin", repr(east), repr(north), repr(east + cell * columns), repr(north - cell * rows))
        case(f"{name}: GDAL shows the finest level there", numpy.array_equal(pixels(f"{name}/conf.xml", "u1", *where), shown(hill())))
        level.run(sys.executable, level.__file__, "back", name, f"{name}_back.tif")
        one, other = (level.read_source(f"{name}{end}.tif") for end in ("", "_back"))
        case(f"{name}: back, where it lies", numpy.allclose([one[word] for word in ("x", "y", "cell")], [other[word] for word in ("x", "y", "cell")], rtol=1e-12))
        case(f"{name}: back, the heights", one["wkt"] == other["wkt"] and numpy.array_equal(pixels(f"{name}_back.tif", "<i2"), hill().ravel()))
    write_geotiff("feet.tif", hill(), "EPSG:2225", 6000000, 2000000, 30)
    make_levels("feet.tif", "feet")
    scales, cells = configured("feet")
    case("feet: cells in feet", cells == [120, 60, 30])
    case("feet: scales in metres", numpy.allclose(scales, numpy.array(cells) * 1200 / 3937 * dots, rtol=1e-9))
    scales, cells = configured("cache")
    case("metres: both in metres", cells == [40, 20, 10] and numpy.allclose(scales, numpy.array(cells) * dots, rtol=1e-9))


def guide_block(first):
    """The lines of GUIDE.md, as they are printed, that begin with this word and end with a line that is not indented."""
    with open(os.path.join(HERE, "..", "..", "docs", "GUIDE.md")) as file:
        lines = file.read().split("\n")
    begin = next(at for at, line in enumerate(lines) if line.startswith("    " + first))
    end = next(at for at in range(begin, len(lines)) if not lines[at].startswith("    "))
    return textwrap.dedent("\n".join(lines[begin:end]))


def test_float():
    """GUIDE's way for heights of floats, with each sign of no height."""
    os.symlink(os.path.join(HERE, ".."), "examples")
    there, again = guide_block("gdalwarp -q -overwrite -ot Float64"), guide_block("examples/level/level back float_levels")
    heights = numpy.random.default_rng(3).uniform(-430, 8848, (300, 280)).astype("<f4")
    heights[5:9, 3:50] = numpy.nan
    for none in (-9999, -3.4028234663852886e38, numpy.nan):
        numpy.where(numpy.isnan(heights), numpy.float32(none), heights).tofile("raw")
        level.write_raw_header("raw", 1, 300, 280, level.Kind("<f4", None, 4))
        where = ["-a_srs", "EPSG:32632", "-a_ullr", EAST, NORTH, EAST + 280 * CELL, NORTH - 300 * CELL]
        level.run("gdal_translate", "-q", "-of", "GTiff", "-a_nodata", repr(none), *where, "raw", "heights.tif")
        subprocess.run(["rm", "-rf", "float_levels", "heights.tif.aux.xml"], check=True)
        done = subprocess.run(["sh", "-e", "-c", there + "\n" + again])
        back = pixels("back.tif", "<f4").reshape(heights.shape)
        valid = ~numpy.isnan(heights)
        case(f"GUIDE: floats with {none:g} come back as they were without a height", done.returncode == 0 and numpy.array_equal(valid, ~numpy.isnan(back)))
        worst = abs(back.astype("f8") - heights)[valid].max()
        case("and the others within five centimetres and the half of one", 0.01 < worst < 0.0555)


def configured(folder):
    """The scales and the cells of a folder's conf.xml, the coarsest first."""
    with open(os.path.join(folder, "conf.xml")) as file:
        text = file.read()
    return tuple([float(word) for word in re.findall(f"<{name}>([^<]*)<", text)] for name in ("Scale", "Resolution"))


def test_gdal():
    """GDAL opens the levels by their conf.xml, and shows the heights of each."""
    info = level.run("gdalinfo", "cache/conf.xml").decode()
    case("GDAL: the driver", "Driver: ESRIC/Esri Compact Cache" in info)
    case("GDAL: the system of coordinates", "UTM zone 32N" in info)
    case("GDAL: two overviews", info.partition("Overviews: ")[2].partition("\n")[0].count("x") == 2)
    raster, source = hill(), level.source_of("cache")
    rows, columns = raster.shape
    where = ("-projwin", EAST, NORTH, EAST + CELL * columns, NORTH - CELL * rows)
    case("GDAL: the finest level", numpy.array_equal(pixels("cache/conf.xml", "u1", *where), shown(raster)))
    for number, at in enumerate(list(level.levels("cache"))[1:]):
        raster = halved(raster)
        rows, columns = raster.shape
        top, left = (level.TILE * tile for tile in level.first_tile(source, at))
        window = ("-oo", f"OVERVIEW_LEVEL={number}", "-srcwin", left, top, columns, rows)
        case(f"GDAL: overview {number}", numpy.array_equal(pixels("cache/conf.xml", "u1", *window), shown(raster)))


def test_back():
    """The finest level as a GeoTIFF has the heights, and lies where the first one lay."""
    level.run(os.path.join(HERE, "level"), "back", "cache", "back.tif")
    case("back: the heights", numpy.array_equal(pixels("back.tif", "<i2"), hill().ravel()))
    one, other = (level.read_source(path) for path in ("hill.tif", "back.tif"))
    names = ("rows", "columns", "type", "nodata", "x", "y", "cell", "wkt")
    case("back: where it lies", all(one[name] == other[name] for name in names))


def test_bundles():
    """Two bundles of a level, beside each other and below each other, made one by one and at once."""
    for name, raster, tasks in (("wide", strip(), [1]), ("tall", strip().T, [])):
        write_geotiff(f"{name}.tif", raster)
        level.run(os.path.join(HERE, "make_levels"), f"{name}.tif", name, *tasks)
        finest = max(level.levels(name))
        case(f"{name}: two bundles", len(level.bundles(name, finest)) == 2)
        case(f"{name}: the heights of each level", has_levels(name, raster))


def first_task(folder):
    """The words of the first task of the finest level, and its bundle."""
    finest = max(level.levels(folder))
    row, column = level.bundles(folder, finest)[0]
    words = [sys.executable, level.__file__, "bundle", folder, str(finest), str(row), str(column)]
    return words, level.bundle_path(folder, finest, row, column)


def test_kills():
    """A task that is killed, with its programs or without them, is run again, and the bundle has its tiles."""
    level.prepare("hill.tif", "killed")
    task, path = first_task("killed")
    wanted = tiles_of(first_task("cache")[1])
    for hundredths in range(15, 75, 10):
        alone = subprocess.Popen(task, start_new_session=True, stdout=subprocess.DEVNULL, stderr=subprocess.DEVNULL)
        time.sleep(hundredths / 100)
        if hundredths % 20 == 5:
            alone.kill()
        else:
            os.killpg(alone.pid, signal.SIGKILL)
        alone.wait()
    level.run(*task)
    case("a killed task, run again", tiles_of(path) == wanted)
    length = os.stat(path).st_size
    level.run(*task)
    case("a task that is run once more puts nothing", tiles_of(path) == wanted and os.stat(path).st_size == length)


def test_another_geotiff():
    """A folder that is of one GeoTIFF takes no other."""
    done = subprocess.run([sys.executable, level.__file__, "prepare", "wide.tif", "cache"], stderr=subprocess.PIPE)
    case("a folder of another GeoTIFF", done.returncode == 1 and b"is of another GeoTIFF" in done.stderr)


def test_dask():
    if importlib.util.find_spec("distributed") is None:
        print("level: Dask is not here, its cluster is skipped")
        return
    done = subprocess.run(
        [sys.executable, os.path.join(HERE, "with_dask.py"), "wide.tif", "by_dask", "local", "2"], stdout=subprocess.PIPE, stderr=subprocess.STDOUT
    )
    case("Dask: two workers", done.returncode == 0 and has_levels("by_dask", strip(), error=2))
    if done.returncode != 0:
        print(done.stdout.decode())
    test_killed_worker()


def test_killed_worker():
    """A worker is killed in the midst of its task, which is run again."""
    import with_dask
    from distributed import Client, LocalCluster

    with LocalCluster(n_workers=2, threads_per_worker=1, dashboard_address=None, silence_logs=60) as cluster:
        with Client(cluster) as client:
            level.prepare("wide.tif", "by_killed")
            killer = threading.Thread(target=kill_one, args=(cluster, first_task("by_killed")[1]), daemon=True)
            killer.start()
            with_dask.make_levels(client, "by_killed")
            killer.join()
    case("Dask: a killed worker", has_levels("by_killed", strip()))


def kill_one(cluster, path):
    """Kills a worker once a task has begun."""
    while not os.path.exists(path + ".lock"):
        time.sleep(0.01)
    time.sleep(0.1)
    os.kill(cluster.workers[0].pid, signal.SIGKILL)


def main():
    write_geotiff("hill.tif", hill())
    test_make()
    test_progress()
    test_failing()
    test_gdal()
    test_back()
    test_error()
    test_bands()
    test_degrees()
    test_float()
    test_bundles()
    test_kills()
    test_another_geotiff()
    test_dask()
    print(f"{counts[True]} passed, {counts[False]} failed")
    return counts[False] > 0


if __name__ == "__main__":
    sys.exit(main())
