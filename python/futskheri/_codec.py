"""Blobs and the tiles of bands that they make: read, decoded and encoded."""

from __future__ import annotations

import ctypes
from typing import TYPE_CHECKING, Any, List, NamedTuple, Optional, Sequence, Tuple, Union

import numpy

from ._library import WRONG, Fault, Head, Refused, answered, call

if TYPE_CHECKING:
    import mmap

    from numpy.typing import ArrayLike, NDArray

    # Bytes, or anything that lends them.
    Blob = Union[bytes, bytearray, memoryview, mmap.mmap, NDArray[Any]]
    Arrays = Tuple[NDArray[Any], NDArray[numpy.bool_]]

_TYPES = [numpy.dtype(name) for name in ("int8", "uint8", "int16", "uint16", "int32", "uint32")]
_TAKEN = "int8, uint8, int16, uint16, int32 or uint32"
# It says nothing of its types.
_ma: Any = numpy.ma


class Header(NamedTuple):
    """What the header of a blob says.

    version: 3 or 4. dtype: the numpy type of its values. rows, columns, depth: its shape. valid: how many pixels are
    valid. side: of its blocks, in pixels. size: its length in bytes. error: how far a value may be from the one that was
    encoded, a whole number in the unit of the values, 0 where each is exact. least, greatest: of the valid values, both
    0 where there are none. checksum: as it stands there; it is not tested here.
    """

    version: int
    dtype: "numpy.dtype[Any]"
    rows: int
    columns: int
    depth: int
    valid: int
    side: int
    size: int
    error: int
    least: int
    greatest: int
    checksum: int


Header.__module__ = "futskheri"


def _bytes(blob: Blob) -> NDArray[numpy.uint8]:
    """The bytes as an array that shares them."""
    return numpy.frombuffer(blob, dtype=numpy.uint8)


def _where(array: NDArray[Any]) -> int:
    """The address of an array's first byte. An empty one has one, too."""
    return array.ctypes.data or ctypes.addressof(_nothing)


_nothing = ctypes.c_uint64()


def header(blob: Blob) -> Header:
    """What the header says with which the bytes begin.

    blob: bytes, or anything that lends them. The rest of the bytes is not looked at, so `decode` may still refuse
    them. Raises Refused with the header's first fault.
    """
    given = _bytes(blob)
    head, fault = Head(), Fault()
    answered(call("header", _where(given), given.size, ctypes.byref(head), ctypes.byref(fault)), fault)
    return Header(
        head.version, _TYPES[head.kind], head.rows, head.cols, head.depth, head.valid, head.side, head.size,
        head.step // 2, head.least, head.greatest, head.checksum,
    )


def _shape(head: Header) -> Tuple[int, ...]:
    return (head.rows, head.columns) if head.depth == 1 else (head.rows, head.columns, head.depth)


def _bits(bands: int, rows: int, columns: int) -> NDArray[numpy.uint8]:
    """Room for the bits of as many masks, the last byte of each padded."""
    return numpy.empty((bands, (rows * columns + 7) // 8), numpy.uint8)


def _masks(bits: NDArray[numpy.uint8], rows: int, columns: int) -> NDArray[numpy.bool_]:
    """The bits of masks as an array of bool."""
    return numpy.unpackbits(bits, axis=1, count=rows * columns).view(bool).reshape(-1, rows, columns)


def decode(blob: Blob) -> Arrays:
    """The values and the mask of the blob with which the bytes begin: a pair of arrays.

    blob: bytes, or anything that lends them; what follows the blob is not looked at.
    values: of (rows, columns), or of (rows, columns, depth) where a pixel has several, of the blob's type, those of
    invalid pixels 0. Each is at most `header(blob).error` away from the one that was encoded.
    mask: bool of (rows, columns), True where the pixel is valid. `numpy.ma.array(values, mask=~mask)` is the masked
    array of both, where depth is 1.
    Raises Refused with the blob's first fault, MemoryError where there is no memory.
    """
    given = _bytes(blob)
    head = header(given)
    values = numpy.empty(_shape(head), head.dtype)
    bits = _bits(1, head.rows, head.columns)
    fault = Fault()
    answer = call(
        "decode_over", _where(given), given.size, _where(values), values.nbytes, _where(bits), bits.nbytes,
        ctypes.byref(fault),
    )
    answered(answer, fault)
    return values, _masks(bits, head.rows, head.columns)[0]


def _count(given: NDArray[numpy.uint8]) -> int:
    """How many blobs the headers say that the bytes are, at least 1, at most 17. Whether they are is for the library."""
    at, count = 0, 0
    while count == 0 or (at < given.size and count < 17):
        try:
            at += header(given[at:]).size
        except Refused:
            if count == 0:
                raise
            return count
        count += 1
    return count


def decode_bands(tile: Blob) -> Arrays:
    """The values and the masks of the one to 16 blobs that all the bytes are: arrays with a leading axis of bands.

    tile: bytes, or anything that lends them.
    values: of (bands, rows, columns) or of (bands, rows, columns, depth), those of invalid pixels 0.
    masks: bool of (bands, rows, columns), True where the pixel is valid.
    Raises Refused with the first fault, 'BadBand' where a blob has another shape or type than the first, 'Leftover'
    where something follows that is no further blob; MemoryError where there is no memory.
    """
    given = _bytes(tile)
    head, bands = header(given), min(_count(given), 16)
    if bands * head.rows * head.columns * head.depth > 2**24:
        bands = 1
    values = numpy.empty((bands, *_shape(head)), head.dtype)
    bits = _bits(bands, head.rows, head.columns)
    fault = Fault()
    answer = call(
        "decode_bands", _where(given), given.size, bands, _where(values), values.nbytes, _where(bits), bits.nbytes,
        ctypes.byref(fault),
    )
    answered(answer, fault)
    return values, _masks(bits, head.rows, head.columns)


def _array(values: ArrayLike) -> Tuple[NDArray[Any], Optional[NDArray[numpy.bool_]]]:
    """The values, and where they are masked; None where they have no mask. Raises TypeError for lists of numbers."""
    given: Any = values
    if isinstance(given, (list, tuple)):
        if not given or not all(isinstance(part, numpy.ndarray) for part in given):
            raise TypeError(
                f"values are a {type(given).__name__}, whose numbers have no type of their own; make an array of it, of "
                f"{_TAKEN}, as by numpy.array(values, 'int16')"
            )
        given = (_ma.stack if any(map(_ma.isMaskedArray, given)) else numpy.stack)(given)
    hidden = _ma.getmask(given) if _ma.isMaskedArray(given) else _ma.nomask
    array = numpy.asarray(_ma.getdata(given) if _ma.isMaskedArray(given) else given)
    return array, None if hidden is _ma.nomask else hidden


def _kind(values: NDArray[Any]) -> int:
    """The number of the values' type. Raises TypeError for another one than the six."""
    kinds = [kind for kind, dtype in enumerate(_TYPES) if values.dtype.newbyteorder("=") == dtype]
    if not kinds:
        advice = "values.astype('int32') is one, where they fit"
        if values.dtype.kind == "f":
            advice = "numpy.rint(values * 100).astype('int32') has hundredths of them"
        raise TypeError(f"values are {values.dtype}; taken are arrays of {_TAKEN}; {advice}")
    return kinds[0]


def _check_words(error: int, version: int) -> None:
    if not isinstance(error, (int, numpy.integer)) or not 0 <= error < 2**32:
        raise ValueError(f"error is {error!r}, and not a whole number from 0 to 4,294,967,295")
    if version not in (3, 4):
        raise ValueError(f"version is {version!r}: {WRONG[5]}")


def _valid(values: NDArray[Any], hidden: Optional[NDArray[numpy.bool_]]) -> Optional[NDArray[numpy.bool_]]:
    """The masks of bands of which these values are hidden. A pixel is valid with all its values or with none."""
    if hidden is None:
        return None
    if values.ndim == 4:
        if (hidden != hidden[..., :1]).any():
            raise ValueError("of one pixel some values are masked and some are not")
        hidden = hidden[..., 0]
    return ~hidden


def _marks(masks: ArrayLike) -> NDArray[numpy.bool_]:
    """A mask that a caller gives, as bool. What a masked array of marks hides is not valid."""
    return numpy.asarray(_ma.filled(masks, 0) if _ma.isMaskedArray(masks) else masks).astype(bool, copy=False)


def encode(values: ArrayLike, mask: Optional[ArrayLike] = None, error: int = 0, version: int = 4) -> bytes:
    """The blob of an array: bytes.

    values: an array of (rows, columns) or (rows, columns, depth), of int8, uint8, int16, uint16, int32 or uint32; it
    has at most 2^24 values. What is masked of a masked array of numpy.ma is not valid.
    mask: of (rows, columns), true where a pixel is valid; None: each is that values do not mask. With both, a pixel is
    valid where both say so. Values of pixels that are not valid may be anything, and are not kept.
    error: how far a value may be changed, a whole number up to 4,294,967,295 in the unit of the values; 0: not at all.
    version: 3, which has one value a pixel, or 4.
    Raises TypeError for another type or a list of numbers, ValueError for another shape, version or error, MemoryError.
    """
    array, hidden = _array(values)
    if array.ndim not in (2, 3):
        raise ValueError(f"values are of {array.shape}, and not of (rows, columns) or (rows, columns, depth)")
    marks = None
    if mask is not None:
        marks = _marks(mask)
        if marks.shape != array.shape[:2]:
            raise ValueError(f"the mask is of {marks.shape}, and of values of {array.shape} it is of {array.shape[:2]}")
    return _encoded(
        array[numpy.newaxis],
        None if hidden is None else hidden[numpy.newaxis],
        None if marks is None else marks[numpy.newaxis],
        error,
        version,
    )


def encode_bands(
    values: Union[ArrayLike, Sequence[NDArray[Any]]],
    masks: Optional[ArrayLike] = None,
    error: int = 0,
    version: int = 4,
) -> bytes:
    """The blobs of arrays that are the bands of one tile, one behind the other: bytes.

    values: an array of (bands, rows, columns) or (bands, rows, columns, depth), or a list of the bands' arrays: 1 to 16
    bands, with at most 2^24 values together. What is masked of a masked array is not valid in its band.
    masks: of (bands, rows, columns), of (1, rows, columns) where all bands have one, or None.
    error, version, types and what is raised: as in `encode`.
    """
    array, hidden = _array(values)
    if array.ndim not in (3, 4):
        raise ValueError(f"values are of {array.shape}, and not of (bands, rows, columns) or (bands, rows, columns, depth)")
    marks = None
    if masks is not None:
        marks = _marks(masks)
        one, each = (1, *array.shape[1:3]), array.shape[:3]
        if marks.shape not in (one, each):
            raise ValueError(f"the masks are of {marks.shape}, and of values of {array.shape} they are of {each} or of {one}")
    return _encoded(array, hidden, marks, error, version)


def _encoded(
    values: NDArray[Any],
    hidden: Optional[NDArray[numpy.bool_]],
    marks: Optional[NDArray[numpy.bool_]],
    error: int,
    version: int,
) -> bytes:
    """The blobs of bands, of which values are hidden, and marks say which pixels are valid."""
    kind = _kind(values)
    _check_words(error, version)
    if max(values.shape) >= 2**32:
        raise ValueError(WRONG[7])
    bands, rows, columns = values.shape[:3]
    depth = values.shape[3] if values.ndim == 4 else 1
    lying = numpy.ascontiguousarray(values, _TYPES[kind])
    masks: List[NDArray[numpy.bool_]] = [each for each in (_valid(values, hidden), marks) if each is not None]
    bits = numpy.empty(0, numpy.uint8)
    if masks:
        both = masks[0] if len(masks) == 1 else masks[0] & masks[1]
        bits = numpy.packbits(both.reshape(len(both), -1), axis=1)
    room = numpy.empty(bands * call("greatest_size", kind, rows, columns, depth), numpy.uint8)
    size = ctypes.c_uint64()
    answer = call(
        "encode_bands", kind, rows, columns, depth, bands, version, error, _where(lying), lying.nbytes, _where(bits),
        bits.nbytes, _where(room), room.nbytes, ctypes.byref(size),
    )
    answered(answer, Fault())
    return room[: size.value].tobytes()
