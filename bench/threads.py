"""What bench/threads runs."""

import os
import sys
import time
from concurrent.futures import ThreadPoolExecutor

import numpy

import futskheri

SIDE, TILES = 512, 64


def terrain():
    """Tiles of smooth hills with noise, of i16, each with its own."""
    make = numpy.random.default_rng(7)
    y, x = numpy.mgrid[0:SIDE, 0:SIDE]
    for number in range(TILES):
        hills = 900 + 400 * numpy.sin((x + 40 * number) / 97) * numpy.cos(y / 71)
        yield (hills + make.integers(0, 4, hills.shape)).astype("i2")


def best(rounds, threads, work, tiles):
    """The least seconds of a round in which so many threads do the work for all tiles."""
    seconds = []
    with ThreadPoolExecutor(threads) as pool:
        for _ in range(rounds):
            begun = time.perf_counter()
            for _ in pool.map(work, tiles):
                pass
            seconds.append(time.perf_counter() - begun)
    return min(seconds)


def main(words):
    rounds = int(words[0]) if words else 5
    tiles = list(terrain())
    blobs = list(map(futskheri.encode, tiles))
    megabytes = sum(tile.nbytes for tile in tiles) / 1e6
    most = len(os.sched_getaffinity(0))
    print(f"{TILES} tiles of {SIDE} by {SIDE} pixels of i16, lossless, {rounds} rounds, {most} processors, numpy {numpy.__version__}\n")
    print("| threads | encode MB/s | times | decode MB/s | times |\n|---|---|---|---|---|")
    one, threads = None, 1
    while threads <= most:
        seconds = [best(rounds, threads, work, given) for work, given in ((futskheri.encode, tiles), (futskheri.decode, blobs))]
        one = one or seconds
        cells = (f"{megabytes / now:.0f} | {first / now:.2f}" for first, now in zip(one, seconds))
        print(f"| {threads} | {' | '.join(cells)} |", flush=True)
        threads *= 2


if __name__ == "__main__":
    main(sys.argv[1:])
