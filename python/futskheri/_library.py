"""The shared library libfutskheri.so: where it is, its calls, and what they answer."""

from __future__ import annotations

import ctypes
import os
import subprocess
import sys
from typing import Any, Iterator, Optional

__version__ = "0.1.0"

# The name by which programs ask for the library: with the first number of the version.
_SONAME = "libfutskheri.so." + __version__.partition(".")[0]
_OK, _REFUSED, _NO_MEMORY = 0, 1, 2
WRONG = {
    3: "an array is not as long as the raster asks for",
    4: "no pixel type has the number",
    5: "the version is neither 3 nor 4",
    6: "there are no rows, columns, values of a pixel or bands",
    7: "there are more than 65,536 values of a pixel, 16 bands or 2^24 values",
    8: "version 3 has no place for several values of a pixel",
    9: "the blob is longer than the room for it",
}


class Refused(ValueError):
    """Bytes that are no blob, or a tile that the bundle has not whole.

    reason: the name of the first fault, as 'BadChecksum'. place: where the field begins that fails, in bytes.
    stated, found: of BadChecksum and BadMaskCount what the blob says and what was found, of Beyond how many bytes the
    tile has and how many are there; else 0. It can be pickled, so it comes through a pool of processes as it is.
    """

    reason: str
    place: int
    stated: int
    found: int

    def __init__(self, reason: str, place: int, stated: int = 0, found: int = 0) -> None:
        super().__init__(f"{reason} at {place}")
        self.reason, self.place, self.stated, self.found = reason, place, stated, found

    def __reduce__(self) -> Any:
        return type(self), (self.reason, self.place, self.stated, self.found), self.__dict__


Refused.__module__ = "futskheri"


class Fault(ctypes.Structure):
    """The header's struct futskheri_fault."""

    _fields_ = [
        ("place", ctypes.c_uint64),
        ("reason", ctypes.c_uint32),
        ("stated", ctypes.c_uint32),
        ("found", ctypes.c_uint32),
    ]


class Head(ctypes.Structure):
    """The header's struct futskheri_head."""

    _fields_ = [
        ("step", ctypes.c_uint64),
        ("least", ctypes.c_int64),
        ("greatest", ctypes.c_int64),
    ] + [
        (name, ctypes.c_uint32)
        for name in ("version", "kind", "rows", "cols", "depth", "valid", "side", "size", "checksum")
    ]


def _installed_by_pkg_config() -> Optional[str]:
    """The library in the folder that pkg-config knows, where there is one."""
    words = ["pkg-config", "--variable=libdir", "futskheri"]
    try:
        said = subprocess.run(words, stdout=subprocess.PIPE, stderr=subprocess.DEVNULL, check=True).stdout
    except (OSError, subprocess.CalledProcessError):
        return None
    path = os.path.join(os.fsdecode(said).strip(), _SONAME)
    return path if os.path.exists(path) else None


def _places() -> Iterator[Optional[str]]:
    """Where the library may be, the first one first. A name without a folder is for the loader to find."""
    here = os.path.dirname(os.path.abspath(__file__))
    above = os.path.dirname(here)
    yield os.environ.get("FUTSKHERI_LIBRARY")
    beside = [os.path.join(here, "libfutskheri.so")]
    if os.path.exists(os.path.join(above, "pyproject.toml")):
        beside.append(os.path.join(os.path.dirname(above), "out", "libfutskheri.so"))
    beside.append(os.path.join(sys.prefix, "lib", _SONAME))
    yield from filter(os.path.exists, beside)
    yield _SONAME
    yield _installed_by_pkg_config()


def _open() -> ctypes.CDLL:
    """The shared library. Where a file is there and cannot be loaded, no other one is looked for."""
    said = ""
    for path in _places():
        if path:
            try:
                return ctypes.CDLL(path)
            except OSError as stop:
                if path != _SONAME:
                    raise
                said = str(stop)
    raise OSError(
        f"{said}; set FUTSKHERI_LIBRARY to its path, build it by bin/build_c shared, install it by bin/install, "
        "or install the wheel that bin/build_wheel makes"
    )


def _load() -> ctypes.CDLL:
    """The shared library, with the types of its calls."""
    library = _open()
    number, size, address = ctypes.c_uint32, ctypes.c_size_t, ctypes.c_void_p
    calls: dict[str, tuple[Any, list[Any]]] = {
        "header": (number, [address, size, address, address]),
        "decode_over": (number, [address, size, address, size, address, size, address]),
        "greatest_size": (ctypes.c_uint64, [number] * 4),
        "encode": (number, [number] * 6 + [address, size, address, size, address, size, address]),
        "decode_bands": (number, [address, size, number, address, size, address, size, address]),
        "encode_bands": (number, [number] * 7 + [address, size, address, size, address, size, address]),
        "reason_name": (size, [number, address, size]),
    }
    for name, (answer, words) in calls.items():
        try:
            call = getattr(library, "futskheri_" + name)
        except AttributeError as stop:
            raise OSError(f"{library._name} is of another version than {__version__}: {stop}") from None
        call.restype, call.argtypes = answer, words
    return library


_library: Optional[ctypes.CDLL] = None


def call(name: str, *words: Any) -> int:
    """What a call answers. Python's own lock is free while it works."""
    global _library
    if _library is None:
        _library = _load()
    answer: int = getattr(_library, "futskheri_" + name)(*words)
    return answer


def _refused(fault: Fault) -> Refused:
    name = ctypes.create_string_buffer(30)
    length = call("reason_name", fault.reason, name, 30)
    return Refused(name.raw[:length].decode("ascii"), fault.place, fault.stated, fault.found)


def answered(answer: int, fault: Fault) -> None:
    """Raises what an answer other than OK stands for."""
    if answer == _REFUSED:
        raise _refused(fault)
    if answer == _NO_MEMORY:
        raise MemoryError("libfutskheri found no memory")
    if answer != _OK:
        raise ValueError(WRONG[answer])
