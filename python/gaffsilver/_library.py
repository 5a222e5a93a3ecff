"""The library `libsre_c.so` by ctypes: the structs of `sre.h`, and a call for each kind of text."""
from __future__ import annotations

import ctypes
import os
from ctypes import POINTER, Structure, byref, c_bool, c_size_t, c_ssize_t, c_uint32, c_uint64, c_void_p

from gaffsilver._unicode import lists

TYPE_CHECKING = False
if TYPE_CHECKING:
    from typing import Any

ABI = 849984695  # SRE_ABI of the `sre.h` whose structs are below
NO, YES, STEP_LIMIT, MEMORY, NO_CODE, NO_ROOM = range(6)
UNSET = FOREVER = 2**64 - 1


class Pair(Structure):
    _fields_ = [("low", c_uint32), ("high", c_uint32)]


class Table(Structure):
    _fields_ = [
        *((name, kind) for it in ("lower", "upper", "alnum", "digits") for name, kind in
          ((it, POINTER(Pair)), (f"{it}_count", c_size_t))),
        ("error", c_uint32),
        ("checked", c_bool),
    ]


class Hints(Structure):
    _fields_ = [
        *((name, c_uint32) for name in ("width", "prefix", "prefix_skip", "longest_lookbehind", "asked_from")),
        *((name, c_bool) for name in ("has_width", "has_prefix", "literal", "first_set", "refers")),
    ]


class Code(Structure):
    _fields_ = [
        ("words", c_void_p),
        ("words_count", c_size_t),
        ("table", POINTER(Table)),
        ("place", c_size_t),
        ("error", c_uint32),
        ("hints", Hints),
        ("checked", c_bool),
    ]


class Pattern(Structure):
    _fields_ = [("code", Code), ("kept", c_void_p), ("is_kept", c_bool), ("reads_utf8", c_bool)]


class Asked(Structure):
    _fields_ = [
        ("start", c_size_t),
        ("end", c_size_t),
        ("steps", c_uint64),
        *((name, c_bool) for name in ("search", "match_all", "must_advance", "non_boundary")),
    ]


class Found(Structure):
    _fields_ = [
        ("start", c_size_t),
        ("end", c_size_t),
        ("last_index", c_ssize_t),
        ("marks", c_size_t),
        ("steps", c_uint64),
    ]


class Walked(Structure):
    _fields_ = [
        ("count", c_size_t),
        ("start", c_size_t),
        ("steps", c_uint64),
        ("steps_before", c_uint64),
        ("must_advance", c_bool),
    ]


def _check_abi(library: Any, path: str) -> None:
    """Refuses a library that has other structs or functions, or does not say which."""
    has = library.sre_abi() if hasattr(library, "sre_abi") else None
    if has != ABI:
        raise ImportError(f"{path} has {'no ABI' if has is None else f'the ABI {has}'}, and this package needs {ABI}")


_path = os.path.join(os.path.dirname(os.path.abspath(__file__)), "libsre_c.so")
if not os.path.isfile(_path):
    raise ImportError(f"{_path} is missing: `python/build.py package DIR` makes the package with its library")
_library = ctypes.CDLL(_path)
_check_abi(_library, _path)


def _function(name: str, *arguments: Any) -> Any:
    function = getattr(_library, name)
    function.argtypes, function.restype = arguments, c_uint32
    return function


def _of_text(what: str, *arguments: Any) -> tuple[Any, Any]:
    """The functions for texts of one byte and of four bytes a character."""
    before = POINTER(Code), c_void_p, c_size_t, POINTER(Asked)
    return tuple(_function(f"sre_{what}_{text}", *before, *arguments) for text in ("bytes", "points"))  # type: ignore


check_table = _function("sre_check_table", POINTER(Table))
check_code = _function("sre_check_code", POINTER(Code))
step_bound = _function("sre_step_bound", POINTER(Code), c_size_t, POINTER(c_uint64))
answers = _of_text("answer", POINTER(Found), c_void_p, c_size_t)
walks = _of_text("walk", c_size_t, c_void_p, c_size_t, POINTER(Walked))

def _table(lists: list[bytes]) -> Table:
    """The checked table of these lists. It owns the arrays that it points to."""
    table = Table()
    for name, pairs in zip(("lower", "upper", "alnum", "digits"), lists):
        count = len(pairs) // ctypes.sizeof(Pair)
        setattr(table, name, (Pair * count).from_buffer_copy(pairs) if count else (Pair * 1)())
        setattr(table, f"{name}_count", count)
    status = check_table(byref(table))
    if status != YES:
        raise MemoryError if status == MEMORY else SystemError(f"the engine answered {status}")
    return table


_tables: list[Table | None] = [None, None]


def table(is_unicode: bool) -> Table:
    """The table of this Python's Unicode data, or that of ASCII. It is made once."""
    made = _tables[is_unicode] = _tables[is_unicode] or _table(lists() if is_unicode else 4 * [b""])
    return made


def bytes_of(text: bytes) -> Any:
    """The address of bytes, which is valid as long as they are referenced."""
    return ctypes.cast(text, c_void_p)


# A second interpreter clears the cache in which `ctypes.pointer` looks for this type.
pointer_to = POINTER(Table)
