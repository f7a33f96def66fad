"""The calls of libfitsed, by ctypes. Private: what stays is `fitsed`."""
from __future__ import annotations

import contextlib
import ctypes
import os
import sys
from typing import Any, Iterator

_u8, _size, _at = ctypes.c_uint8, ctypes.c_size_t, ctypes.c_void_p
_out = ctypes.POINTER


class Bytes(ctypes.Structure):
    """Bytes, or numbers, of the library's."""

    _fields_ = [("at", _at), ("len", _size)]


class Outcome(ctypes.Structure):
    _fields_ = [("held", _at), ("answers", Bytes), ("saved", Bytes), ("message", Bytes)]


class Session(ctypes.Structure):
    _fields_ = [("live", _at)]


class Place(ctypes.Structure):
    _fields_ = [("hdu", _size), ("card", _size)]


class Value(ctypes.Structure):
    _fields_ = [("text", Bytes), ("imaginary", Bytes), ("comment", Bytes), ("commented", _u8), ("kind", _u8)]


class Shape(ctypes.Structure):
    _fields_ = [("axes", Bytes), ("bitpix", ctypes.c_int64), ("hdu_class", _u8), ("pixels", _u8)]


class Sums(ctypes.Structure):
    _fields_ = [("datasum", ctypes.c_uint32), ("datasum_verdict", ctypes.c_int8), ("checksum_verdict", ctypes.c_int8)]


class Wide(ctypes.Structure):
    """A number of 128 bits, in two parts."""

    _fields_ = [("low", ctypes.c_uint64), ("high", ctypes.c_int64)]

    def __int__(self) -> int:
        return (self.high << 64) + self.low


class Stats(ctypes.Structure):
    _fields_ = [("defined", ctypes.c_uint64), ("blank", ctypes.c_uint64), ("least", Wide), ("greatest", Wide), ("sum", Wide)]


_NAME = "libfitsed.so.0"


def _load() -> ctypes.CDLL:
    """The library: where FITSED_LIBRARY says, else beside this file, else where the system looks."""
    beside = os.path.join(os.path.dirname(os.path.abspath(__file__)), _NAME)
    named = os.environ.get("FITSED_LIBRARY")
    for path in filter(None, (named, beside if os.path.exists(beside) else None)):
        return ctypes.CDLL(path)
    try:
        return ctypes.CDLL(_NAME)
    except OSError:
        raise ImportError(f"fitsed: {_NAME} isn't found: install it, or name its path in FITSED_LIBRARY") from None


if sys.byteorder != "little":
    raise ImportError("fitsed: the library is for x86-64")

library = _load()
_lent, _session, _corner = [_at, _size], _out(Session), [_at, _size]
for _name, _words in {
    "fitsed_edit": [*_lent, *_lent, _u8, _out(Outcome)],
    "fitsed_ask": [*_lent, *_lent, _out(Outcome)],
    "fitsed_list": [*_lent, _out(Outcome)],
    "fitsed_sum": [*_lent, _out(Outcome)],
    "fitsed_stat": [*_lent, _out(Outcome)],
    "fitsed_verify": [*_lent, _u8, _out(Outcome)],
    "fitsed_cards": [*_lent, ctypes.c_uint64, _out(Outcome)],
    "fitsed_open": [*_lent, _session, _out(Place)],
    "fitsed_line": [_session, *_lent, _out(Bytes)],
    "fitsed_save": [_session, _out(Bytes)],
    "fitsed_value": [_session, _size, ctypes.c_char_p, _out(Value)],
    "fitsed_shape": [_session, _size, _out(Shape)],
    "fitsed_sums": [_session, _size, _out(Sums)],
    "fitsed_stats": [_session, _size, _out(Stats)],
    "fitsed_offsets": [_session, _out(Bytes)],
    "fitsed_problems": [_session, _out(Bytes)],
    "fitsed_rect": [_session, _size, *_corner, *_corner, _at, _size],
    "fitsed_rect_u64": [_session, _size, *_corner, *_corner, _at, _size],
    "fitsed_write": [_session, _size, *_corner, *_corner, _at, _size],
    "fitsed_write_u64": [_session, _size, *_corner, *_corner, _at, _size],
}.items():
    getattr(library, _name).argtypes = _words
    getattr(library, _name).restype = _u8
for _name, _words in {"fitsed_free": [_out(Outcome)], "fitsed_close": [_session]}.items():
    getattr(library, _name).argtypes = _words
    getattr(library, _name).restype = None


class _Buffer(ctypes.Structure):
    """CPython's Py_buffer, of which the first fields are read."""

    _fields_ = [("buf", _at), ("obj", ctypes.py_object), ("len", ctypes.c_ssize_t), ("rest", ctypes.c_byte * 128)]


_get, _release = ctypes.pythonapi.PyObject_GetBuffer, ctypes.pythonapi.PyBuffer_Release
_get.argtypes = [ctypes.py_object, _out(_Buffer), ctypes.c_int]
_release.argtypes, _release.restype = [_out(_Buffer)], None

# No pointer may be NULL: of no bytes this is the address.
_NOTHING = ctypes.create_string_buffer(8)


@contextlib.contextmanager
def lent(source: Any) -> Iterator[tuple[int, int]]:
    """The address of what has a buffer in one piece (bytes, a mapped file, an array), and how many bytes it has."""
    buffer = _Buffer()
    _get(source, ctypes.byref(buffer), 0)
    try:
        yield buffer.buf if buffer.len else ctypes.addressof(_NOTHING), buffer.len
    finally:
        _release(ctypes.byref(buffer))


def text(bytes_: Bytes) -> bytes:
    """Bytes of the library's, copied."""
    return ctypes.string_at(bytes_.at, bytes_.len) if bytes_.len else b""


def numbers(of: Bytes) -> list[int]:
    """Numbers of the library's, copied."""
    return list(memoryview(ctypes.string_at(of.at, 8 * of.len)).cast("Q")) if of.len else []


def run(call: Any, source: Any, *words: Any) -> tuple[int, bytes, bytes, bytes]:
    """The status of a run, the answers, the file that it saves, and its message."""
    outcome = Outcome()
    with lent(source) as (at, size):
        status = call(at, size, *words, ctypes.byref(outcome))
    if status == 3:
        raise MemoryError("fitsed: no memory")
    try:
        return status, text(outcome.answers), text(outcome.saved), text(outcome.message)
    finally:
        library.fitsed_free(ctypes.byref(outcome))
