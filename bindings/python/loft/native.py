"""The functions of include/loft.h. Lists are ctypes buffers made here, so that no two overlap and no bytes of a caller change."""

import ctypes
import os
from array import array
from collections.abc import Iterable
from pathlib import Path
from typing import Any

BOOK = 24_332
FIGURES = 7
AMOUNTS = 6
ANSWER = 5
TOLD = 4
RECORD = 14
NUMBERS = 11
LONGEST = 70
NO_RECORD = 255

_BYTE, _SHORT, _LONG, _SIGNED = ctypes.c_uint8, ctypes.c_uint16, ctypes.c_uint64, ctypes.c_int64
_CODES = {_BYTE: "B", _SHORT: "H", _LONG: "Q", _SIGNED: "q"}
_LIST = "list"
_NUMBER = "number"

# What each function takes behind one another; a list is a pointer and a length.
_PAGE: dict[str, list[Any]] = {
    "loft_fresh": [_LIST],
    "loft_is_sound": [_LIST],
    "loft_standing": [_LIST, _SHORT, _LIST],
    "loft_carry_out": [_LIST, _SHORT, _BYTE, _BYTE, _SHORT, _LIST, _LIST],
    "loft_day": [_LIST, _LIST, _LONG, _LIST, _LIST],
    "loft_most": [_LIST, _BYTE, _BYTE, _SHORT, _NUMBER],
    "loft_needs": [_LIST, _LIST],
    "loft_close_out": [_LIST, _LIST, _LIST, _NUMBER],
    "loft_margin": [_SHORT, _SHORT, _LONG, _LIST, _LIST, _LIST, _LIST, _LIST],
    "loft_statement": [_LIST, _SHORT, _LIST],
    "loft_archive": [_LIST, _LIST, _NUMBER],
    "loft_take_over": [_LIST],
    "loft_write_record": [_SHORT, _BYTE, _BYTE, _SHORT, _LIST, _LIST, _NUMBER],
    "loft_read_record": [_LIST, _LONG, _LIST],
}


def _library() -> ctypes.CDLL:
    own = Path(__file__).resolve().parents[3] / "target" / "bindings"
    folder = Path(os.environ.get("LOFT_LIB", own))
    library = folder / "libloft.so"
    if not library.is_file():
        raise ImportError(f"there is no {library}: run bindings/make, or name its folder in LOFT_LIB")
    return ctypes.CDLL(str(library))


def _declared(library: ctypes.CDLL) -> ctypes.CDLL:
    kinds = {_LIST: [ctypes.c_void_p, ctypes.c_size_t], _NUMBER: [ctypes.c_void_p]}
    for name, words in _PAGE.items():
        function = getattr(library, name)
        function.argtypes = [kind for word in words for kind in kinds.get(word, [word])]
        function.restype = ctypes.c_bool if name == "loft_is_sound" else _BYTE
    return library


_loft = _declared(_library())


def byte_list(data: bytes | bytearray | memoryview) -> ctypes.Array[Any]:
    """A copy of bytes."""
    return (_BYTE * len(data)).from_buffer_copy(data) if len(data) else (_BYTE * 0)()


def _list(kind: Any, numbers: Iterable[int]) -> ctypes.Array[Any]:
    # ctypes would cut a number that doesn't fit; an array raises OverflowError
    packed = array(_CODES[kind], numbers)
    return (kind * len(packed)).from_buffer_copy(packed) if packed else (kind * 0)()


def small_list(numbers: Iterable[int]) -> ctypes.Array[Any]:
    """Numbers of a byte."""
    return _list(_BYTE, numbers)


def long_list(numbers: Iterable[int]) -> ctypes.Array[Any]:
    """Numbers of eight bytes."""
    return _list(_LONG, numbers)


def signed_list(numbers: Iterable[int]) -> ctypes.Array[Any]:
    """Numbers of eight bytes, below 0 too."""
    return _list(_SIGNED, numbers)


def byte_room(length: int) -> ctypes.Array[Any]:
    """Room for bytes, all 0."""
    return (_BYTE * length)()


def short_room(length: int) -> ctypes.Array[Any]:
    """Room for numbers of two bytes, all 0."""
    return (_SHORT * length)()


def long_room(length: int) -> ctypes.Array[Any]:
    """Room for numbers of eight bytes, all 0."""
    return (_LONG * length)()


def short_number() -> Any:
    """A number of two bytes, 0."""
    return _SHORT()


def long_number() -> Any:
    """A number of eight bytes, 0."""
    return _LONG()


def _words(kind: Any, value: Any) -> list[Any]:
    if kind == _LIST:
        return [ctypes.byref(value), len(value)]
    if kind == _NUMBER:
        return [ctypes.byref(value)]
    return list(array(_CODES[kind], [value]))


def call(name: str, *values: Any) -> int:
    """Calls a function of the page, with each list in one piece; gives what it returns."""
    words = [word for kind, value in zip(_PAGE[name], values, strict=True) for word in _words(kind, value)]
    return int(getattr(_loft, name)(*words))
