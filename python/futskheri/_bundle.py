"""The tiles of a Compact Cache V2 bundle."""

from __future__ import annotations

import operator
import os
from typing import Any, Iterator, List, Mapping, Tuple, Union

import numpy

from ._audit import Audited, checksum, judge
from ._library import Refused

Place = Tuple[int, int]


class Bundle(Mapping[Place, bytes]):
    """The tiles of a Compact Cache V2 bundle, for reading: a mapping of (row, column) to a tile's bytes.

        with Bundle(path) as bundle:
            tile = bundle[0, 1]
            for (row, column), tile in bundle.items(): ...

    path: of the file, a text or what os.PathLike is. Rows and columns are 0 to 127 and count from the bundle's own first
    tile. Iteration, `keys`, `values` and `items` go by rows, and in a row by columns; a tile is read when it is asked
    for, `len` and `in` read nothing. What a tile is, `decode` or `decode_bands` tells.

    It reads the file as it stands, and its index once, at the beginning: run `lerc_cli PATH recover` first where a put
    may have been cut off, and open no bundle that is being put to. It never writes. Threads may read from one Bundle at
    once.

    Raises ValueError where the file is no bundle, or the Bundle is closed; OSError where reading fails, as it does at a
    disk's bad sector; Refused, with the reason 'Beyond' and the tile's place, where the file has not all of a tile.
    """

    _FIRST, _SLOTS = 64, 128 * 128
    _END = _FIRST + 8 * _SLOTS

    def __init__(self, path: Union[str, bytes, "os.PathLike[Any]"]) -> None:
        self._file = open(path, "rb", buffering=0)
        try:
            index = self._read(0, self._END)
            self._check(index)
        except BaseException:
            self.close()
            raise
        entries = numpy.zeros(self._SLOTS, "<u8")
        if index:
            entries = numpy.frombuffer(index, "<u8", self._SLOTS, self._FIRST)
        self._offsets = entries & ((1 << 40) - 1)
        self._sizes = entries >> 40

    def _check(self, index: bytes) -> None:
        """An empty file is a bundle without tiles."""
        if not index:
            return
        if len(index) < self._END:
            raise ValueError(f"a file of {len(index)} bytes is no bundle")
        fields = numpy.frombuffer(index, "<u4", 4)
        for at, wanted in ((0, 3), (1, self._SLOTS), (3, 5)):
            if fields[at] != wanted:
                raise ValueError(f"no bundle: the number at byte {4 * at} is {fields[at]}, and not {wanted}")

    def _read(self, offset: int, size: int) -> bytes:
        """So many bytes of the file, fewer where it ends before. The file's own place stays, so calls do not meet."""
        pieces = []
        while size > 0:
            piece = os.pread(self._file.fileno(), size, offset)
            if not piece:
                break
            pieces.append(piece)
            offset, size = offset + len(piece), size - len(piece)
        return b"".join(pieces)

    def _slot(self, place: Any) -> int:
        """The slot of a (row, column). Raises KeyError where that is none of a bundle."""
        try:
            row, column = map(operator.index, place)
        except (TypeError, ValueError):
            raise KeyError(place) from None
        if not (0 <= row < 128 and 0 <= column < 128):
            raise KeyError(place)
        return 128 * row + column

    def _tile(self, slot: int) -> bytes:
        offset, size = int(self._offsets[slot]), int(self._sizes[slot])
        tile = self._read(offset, size)
        if len(tile) < size:
            raise Refused("Beyond", offset, size, len(tile))
        return tile

    def __getitem__(self, place: Place) -> bytes:
        """The tile's bytes. Raises KeyError where there is none, and for what is no row and column of a bundle."""
        slot = self._slot(place)
        if self._sizes[slot] == 0:
            raise KeyError(place)
        return self._tile(slot)

    def __contains__(self, place: object) -> bool:
        """Whether there is a tile."""
        try:
            return bool(self._sizes[self._slot(place)])
        except KeyError:
            return False

    def get(self, row: Any, column: Any = None) -> Any:
        """get(row, column): the tile's bytes; None where the slot has no tile. Raises IndexError outside of the bundle.

        get((row, column), default) is that of every mapping, and gives the default there, too.
        """
        if isinstance(row, tuple):
            return super().get(row, column)  # type: ignore[arg-type]
        try:
            slot = self._slot((row, column))
        except KeyError:
            raise IndexError(f"({row}, {column}): rows and columns of a bundle are 0 to 127") from None
        return self._tile(slot) if self._sizes[slot] else None

    def slots(self) -> List[Place]:
        """The (row, column) of each tile that is there, by rows: a list of what `keys` gives."""
        return [(int(slot) // 128, int(slot) % 128) for slot in numpy.flatnonzero(self._sizes)]

    def __iter__(self) -> Iterator[Place]:
        return iter(self.slots())

    def __len__(self) -> int:
        return int(numpy.count_nonzero(self._sizes))

    def audit(self) -> Iterator[Audited]:
        """What is found of each tile, by rows: it is read and decoded, and the record in front of it looked at.

        A tile that cannot be read is told as 'damaged', 'Failed', and the audit goes on. It is what the program
        `tile_audit` tells, without its workers and its proofs. Raises MemoryError where there is no memory.
        """
        for row, column in self.slots():
            slot = 128 * row + column
            offset, size = int(self._offsets[slot]), int(self._sizes[slot])
            yield Audited(row, column, offset, size, *self._found(offset, size))

    def _found(self, offset: int, size: int) -> Tuple[Any, ...]:
        """The checksum of a tile's bytes, the verdict, and what is told of that."""
        try:
            before, tile = self._read(max(offset - 4, 0), min(offset, 4)), self._read(offset, size)
        except OSError:
            return (None, "damaged", "Failed")
        if len(tile) < size:
            return (None, "damaged", "Beyond", len(tile))
        judged = judge(tile)
        is_bad = offset < self._END + 4 or int.from_bytes(before, "little") != size
        if is_bad and judged[0] != "damaged":
            judged = ("damaged", "BadRecord")
        return (checksum(tile[14:]), *judged)

    def __repr__(self) -> str:
        return f"<Bundle {self._file.name!r}, {len(self)} tiles>"

    # Two are the same where they are one: what they hold is not read for that.
    __eq__ = object.__eq__
    __hash__ = object.__hash__

    def close(self) -> None:
        """Closes the file."""
        self._file.close()

    def __enter__(self) -> Bundle:
        return self

    def __exit__(self, *_: object) -> None:
        self.close()


Bundle.__module__ = "futskheri"
