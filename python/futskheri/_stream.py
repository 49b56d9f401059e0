"""Streams of tiles as they are: what `bundle_tiles` gives and takes."""

import struct
from typing import BinaryIO, Iterator, Tuple, Union

Tile = Union[bytes, bytearray, memoryview]

_HEAD = struct.Struct("<cBBI")
_MOST = 16777215


def write_tile(stream: BinaryIO, row: int, column: int, tile: Tile) -> None:
    """Writes a tile for this slot to the stream, whatever its bytes are: blobs, or a JPEG.

    ValueError where the row or the column is not from 0 to 127, or the tile has no byte or more than 16,777,215.
    """
    view = memoryview(tile).cast("B")
    if not 0 <= row <= 127 or not 0 <= column <= 127:
        raise ValueError(f"row {row} and column {column} of a bundle are from 0 to 127")
    if not 1 <= len(view) <= _MOST:
        raise ValueError(f"a tile has 1 to {_MOST} bytes, and not {len(view)}")
    stream.write(_HEAD.pack(b"R", row, column, len(view)))
    stream.write(view)


def read_tiles(stream: BinaryIO) -> Iterator[Tuple[Tuple[int, int], bytes]]:
    """The tiles of a stream, one after the other: ((row, column), bytes).

    ValueError where the bytes are no stream; the tiles before were given then.
    """
    while head := stream.read(_HEAD.size):
        if len(head) < _HEAD.size:
            raise ValueError("the stream ends within a tile")
        mark, row, column, size = _HEAD.unpack(head)
        if mark != b"R" or row > 127 or column > 127 or not 1 <= size <= _MOST:
            raise ValueError("the stream has something else than a tile")
        tile = stream.read(size)
        if len(tile) < size:
            raise ValueError("the stream ends within a tile")
        yield (row, column), tile
