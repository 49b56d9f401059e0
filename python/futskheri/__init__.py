"""LERC2 raster blobs of whole numbers, and the tiles of Compact Cache V2 bundles, with numpy.

    values, mask = futskheri.decode(blob)
    blob = futskheri.encode(values, mask, error=1)
    with futskheri.Bundle("R0000C0000.bundle") as bundle:
        for (row, column), tile in bundle.items():
            values, mask = futskheri.decode(tile)

Arrays are row by row: (rows, columns), or (rows, columns, depth) where a pixel has several values. A mask is an
array of bool of (rows, columns), True where the pixel is valid; numpy.ma has it the other way round, and what a masked
array masks is not valid. Bands are a leading axis of both, in `decode_bands` and `encode_bands`. Types are int8, uint8,
int16, uint16, int32 and uint32. Values are whole numbers of any unit, and an error is in the same one.

Blobs go through the shared library libfutskheri.so, by ctypes, at the first call: the file that the environment's
FUTSKHERI_LIBRARY names; else the one in this package, as a wheel of bin/build_wheel has it; else the one beside this
repository, which bin/build_c shared builds; else the one that bin/install put into this Python's own environment, or
where the loader or pkg-config finds it. Bundles are read by their published layout, without the library, and never
written: the programs `lerc_cli` and `bundle_tiles` do that, so that a crash leaves whole tiles. `write_tile` makes the stream
that `bundle_tiles PATH import` reads, and `read_tiles` reads what its `export` gives.

Calls have no state and release Python's lock (GIL) while the library works, so several threads encode and decode at once.
Of a process with threads start others by 'spawn' or 'forkserver', and not by 'fork': the library takes memory by malloc.
"""

from ._audit import Audited
from ._bundle import Bundle
from ._codec import Header, decode, decode_bands, encode, encode_bands, header
from ._library import Refused, __version__
from ._stream import read_tiles, write_tile

__all__ = [
    "Audited",
    "Bundle",
    "Header",
    "Refused",
    "__version__",
    "decode",
    "decode_bands",
    "encode",
    "encode_bands",
    "header",
    "read_tiles",
    "write_tile",
]
