"""What is found of each tile of a bundle."""

from __future__ import annotations

from typing import Any, NamedTuple, Optional, Tuple

import numpy

from ._codec import decode_bands, header
from ._library import Refused

_KEY = b"Lerc2 "
_MOST_BLOBS = 16


class Audited(NamedTuple):
    """What `Bundle.audit` tells of a tile: the fields of a line of the program `tile_audit`, None where that has '-'.

    row, column: its place. offset, size: its entry. sum: the checksum of its bytes from 14 on, as a blob states its own.
    verdict: 'whole', 'summed' (blobs of floating-point numbers, by their checksums alone), 'foreign' (of another format),
    'unread' (of another version of LERC) or 'damaged'. reason, place: of what is not whole the first fault, as 'BadChecksum',
    'BadRecord', 'Beyond' (with the number of bytes that are there) or 'Failed' (the machine did not read it).
    dtype to valid: of a whole tile the type of its bands, their shape, their number, and how many pixels are valid in all.
    """

    row: int
    column: int
    offset: int
    size: int
    sum: Optional[int]
    verdict: str
    reason: Optional[str] = None
    place: Optional[int] = None
    dtype: Optional[numpy.dtype[Any]] = None
    rows: Optional[int] = None
    columns: Optional[int] = None
    depth: Optional[int] = None
    bands: Optional[int] = None
    valid: Optional[int] = None


# Of Audited the fields behind the sum.
Judged = Tuple[Any, ...]


def _fold(total: int) -> int:
    return total % 65536 + total // 65536


def checksum(data: bytes) -> int:
    """The checksum of a blob's bytes behind it: of words, the higher byte first, in groups of 359."""
    words = numpy.frombuffer(data, ">u2", len(data) // 2).astype(numpy.uint64)
    first = second = 65535
    for at in range(0, len(words), 359):
        group = words[at : at + 359]
        second += len(group) * first + int(group @ numpy.arange(len(group), 0, -1, dtype=numpy.uint64))
        first += int(group.sum())
        first, second = _fold(first), _fold(second)
    if len(data) % 2:
        first += 256 * data[-1]
        second += first
    return _fold(second) * 65536 % 2**32 | _fold(first)


def _float_size(rest: bytes) -> int:
    """How many bytes the blob of floating-point numbers has that begins here. Raises Refused where none does."""
    try:
        head = header(rest)
    except Refused as fault:
        if fault.reason != "FloatPixels":
            raise
        size = int.from_bytes(rest[fault.place - 4 : fault.place], "little")
    else:
        raise Refused("BadBand", 34 + 4 * (head.version - 3))
    if len(rest) < size:
        raise Refused("Truncated", len(rest))
    stated, found = int.from_bytes(rest[10:14], "little"), checksum(rest[14:size])
    if stated != found:
        raise Refused("BadChecksum", 10, stated, found)
    return size


def _test_sums(tile: bytes) -> None:
    """Raises Refused where the bytes are not one to 16 blobs of floating-point numbers, each with its checksum."""
    at = count = 0
    while at < len(tile):
        if count > 0 and (count == _MOST_BLOBS or tile[at : at + 6] != _KEY):
            raise Refused("Leftover", at)
        try:
            at += _float_size(tile[at:])
        except Refused as fault:
            raise Refused(fault.reason, at + fault.place, fault.stated, fault.found) from None
        count += 1


def judge(tile: bytes) -> Judged:
    """The verdict on a tile's bytes, with its reason and its place, or the shape of its bands."""
    if tile[:6] != _KEY[: len(tile)]:
        return ("foreign",)
    try:
        header(tile)
    except Refused as fault:
        if fault.reason == "FloatPixels":
            return _judge_sums(tile)
    try:
        values, masks = decode_bands(tile)
    except Refused as fault:
        verdict = "unread" if (fault.reason, fault.place) == ("BadVersion", 6) else "damaged"
        return (verdict, fault.reason, fault.place)
    bands, rows, columns = masks.shape
    depth = values.size // masks.size
    return ("whole", None, None, values.dtype, rows, columns, depth, bands, int(numpy.count_nonzero(masks)))


def _judge_sums(tile: bytes) -> Judged:
    try:
        _test_sums(tile)
    except Refused as fault:
        return ("damaged", fault.reason, fault.place)
    return ("summed",)


Audited.__module__ = "futskheri"
