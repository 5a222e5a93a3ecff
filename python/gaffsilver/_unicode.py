"""The Unicode data of this Python as the engine's lists. `build.py` stores them, since computing them takes long."""
from __future__ import annotations

import os
import struct
import sys
import unicodedata

import _sre

TYPE_CHECKING = False
if TYPE_CHECKING:
    from typing import Any

_PATH = os.path.join(os.path.dirname(os.path.abspath(__file__)), "unicode.bin")

# The Python and the Unicode version that stored lists belong to, and then the size of each list in bytes.
_HEAD = "gaffsilver {}.{} Unicode {}\n".format(*sys.version_info[:2], unicodedata.unidata_version).encode()
_SIZES = struct.Struct("=4I")


def _extend(ranges: list[Any], character: int) -> None:
    if ranges and ranges[-1][1] == character - 1:
        ranges[-1][1] = character
    else:
        ranges.append([character, character])


def computed() -> list[bytes]:
    """Lower and upper cases, letters and digits past ASCII: each a list of pairs of 32 bits, as `sre_table` has it."""
    import ctypes

    to_upper = ctypes.pythonapi._PyUnicode_ToUppercase
    to_upper.argtypes, to_upper.restype = [ctypes.c_uint32], ctypes.c_uint32
    lower: list[Any] = []
    upper: list[Any] = []
    alnum: list[Any] = []
    digits: list[Any] = []
    for number in range(128, 0x110000):
        letter = chr(number)
        if 0xD800 <= number < 0xE000:
            continue
        if _sre.unicode_tolower(number) != number:
            lower.append((number, _sre.unicode_tolower(number)))
        if letter.upper() != letter and to_upper(number) != number:
            upper.append((number, to_upper(number)))
        if letter.isalnum():
            _extend(alnum, number)
        if letter.isdecimal():
            _extend(digits, number)
    return [b"".join(struct.pack("=2I", *pair) for pair in pairs) for pairs in (lower, upper, alnum, digits)]


def stored(path: str = _PATH) -> list[bytes] | None:
    """The lists that are stored for this Python and its Unicode version, or None."""
    try:
        with open(path, "rb") as file:
            data = file.read()
    except OSError:
        return None
    at = len(_HEAD) + _SIZES.size
    if not data.startswith(_HEAD) or len(data) < at:
        return None
    lists = []
    for size in _SIZES.unpack_from(data, len(_HEAD)):
        lists.append(data[at : at + size])
        at += size
    return lists if at == len(data) else None


def lists() -> list[bytes]:
    """The lists of this Python's own data."""
    return stored() or computed()


if __name__ == "__main__":
    made = computed()
    with open(sys.argv[1], "wb") as file:
        file.write(_HEAD + _SIZES.pack(*map(len, made)) + b"".join(made))
