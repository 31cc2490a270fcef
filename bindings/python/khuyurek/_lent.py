"""Buffers and tables as they are lent to the library."""

from __future__ import annotations

import operator
from array import array
from ctypes import POINTER, Structure, byref, c_char_p, c_int, c_ssize_t, c_void_p, py_object
from ctypes import pythonapi
from types import SimpleNamespace
from typing import Any, Iterable, Tuple, Union

from . import raw

#: What a file may be: ``bytes``, ``bytearray``, ``memoryview``, ``mmap`` or any other object
#: with a contiguous buffer. (Python has no narrower name for it before 3.12.)
Buffer = Union[bytes, bytearray, memoryview, Any]


class _View(Structure):
    """``Py_buffer`` of Python's own interface for C."""

    _fields_ = [
        ("buf", c_void_p),
        ("obj", c_void_p),
        ("len", c_ssize_t),
        ("itemsize", c_ssize_t),
        ("readonly", c_int),
        ("ndim", c_int),
        ("format", c_char_p),
        ("shape", POINTER(c_ssize_t)),
        ("strides", POINTER(c_ssize_t)),
        ("suboffsets", POINTER(c_ssize_t)),
        ("internal", c_void_p),
    ]


_get_buffer = pythonapi.PyObject_GetBuffer
_get_buffer.argtypes = (py_object, POINTER(_View), c_int)
_get_buffer.restype = c_int
_release = pythonapi.PyBuffer_Release
_release.argtypes = (POINTER(_View),)
_release.restype = None
_SIMPLE = 0


class Lent:
    """A buffer that is lent for the length of a ``with``, and not copied.

    Until its end the buffer can neither be freed nor change its length. ``at`` is its first
    byte as ctypes takes it, ``calls`` the calls to make with it: those during which other
    threads go on where nobody can change the bytes, and else those that keep them waiting.
    """

    __slots__ = ("at", "length", "calls", "_data", "_view", "_bytes")

    def __init__(self, data: Buffer) -> None:
        # Not a class made from it, which may say another length.
        if type(data) is bytes:
            self.at, self.length, self.calls = data, len(data), raw.calls
            self._data = self._bytes = data
            self._view = None
            return
        view = _View()
        # TypeError where it has no buffer, BufferError where that is not contiguous.
        _get_buffer(data, byref(view), _SIMPLE)
        self._view = view
        self._data = data
        self._bytes = None
        self.length = view.len
        # An empty buffer may have no address.
        self.at = view.buf if view.len else b""
        self.calls = raw.held

    def __enter__(self) -> "Lent":
        return self

    def __exit__(self, *_: object) -> None:
        if self._view is not None:
            if self._bytes is not None:
                self._bytes.release()
            _release(byref(self._view))
        # An address is good no longer.
        self.at = b""
        self.length = 0

    def part(self, place: int, length: int) -> bytes:
        """A copy of some bytes."""
        if self._bytes is None:
            view = memoryview(self._data)
            self._bytes = view if view.format == "B" and view.ndim == 1 else view.cast("B")
        return bytes(self._bytes[place : place + length])

    def units(self, place: int, units: int) -> str:
        """A name or string."""
        return decoded(self.part(place, 2 * units))


def calls_with(*lent: Lent) -> SimpleNamespace:
    """The calls to make with several buffers."""
    return raw.held if any(one.calls is raw.held for one in lent) else raw.calls


def decoded(units: bytes) -> str:
    """The text of UTF-16 units, big-endian. A surrogate that is not one of a pair stays one."""
    return units.decode("utf-16-be", "surrogatepass")


def encoded(name: str) -> bytes:
    """The UTF-16 units of a text, big-endian: of every text that ``decoded`` gives its own."""
    if not isinstance(name, str):
        raise TypeError(f"a name is a str, not {type(name).__name__}")
    # Not the method of a class made from it, which may give anything.
    return str.encode(name, "utf-16-be", "surrogatepass")


def run(count: int) -> array:
    """So many numbers of 32 bits, all 0."""
    return array("I", bytes(4 * count))


def room(length: int) -> array:
    """So many bytes, all 0."""
    return array("B", bytes(length))


def lend(table: array) -> Tuple[int, int]:
    """A run as the library takes it: its address and the number of its elements. An empty one
    has an address too."""
    at, count = table.buffer_info()
    return at or _SOMEWHERE, count


_NOWHERE = array("Q", [0])
_SOMEWHERE = _NOWHERE.buffer_info()[0]


def whole(number: int, bits: int, what: str) -> int:
    """A whole number that so many bits can hold, or Python's own error."""
    number = operator.index(number)
    if number < 0 or number >> bits:
        raise OverflowError(f"{what} is no number of {bits} bits: {number}")
    return number


def place(number: int, what: str) -> int:
    """A place, a position or a record's number."""
    return whole(number, 64, what)


def reals(numbers: Iterable[float]) -> array:
    """Floats of 64 bits, or Python's own error."""
    return array("d", iter(numbers))


class Text:
    """The bytes that names and strings lie in, for a writer."""

    __slots__ = ("_parts", "_length")

    def __init__(self) -> None:
        self._parts: list = []
        self._length = 0

    def add(self, part: bytes) -> int:
        """Adds bytes and gives their place."""
        at = self._length
        self._parts.append(part)
        self._length += len(part)
        return at

    def name(self, name: str) -> Tuple[int, int]:
        """Adds a name and gives its place and its number of units."""
        units = encoded(name)
        return self.add(units), len(units) // 2

    def joined(self) -> bytes:
        """All of them."""
        return b"".join(self._parts)
