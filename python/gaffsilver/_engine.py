"""The engine that patterns run on: the extension in C, or if that is missing, the library by ctypes.

`GAFFSILVER_ENGINE=ctypes` in the environment selects the library even if there is the extension.
"""
from __future__ import annotations

import importlib
import importlib.util
import os

import _sre

TYPE_CHECKING = False
if TYPE_CHECKING:
    from typing import Any


# The bytecode that the engine knows: that of CPython 3.11, 3.12 and 3.13.
_MAGICS = 20220615, 20221023, 20230612

# What x86-64-v2 adds, by the names that Linux has for it.
_FLAGS = {"cx16", "lahf_lm", "popcnt", "pni", "sse4_1", "sse4_2", "ssse3"}


def check_bytecode(magic: int) -> None:
    """Refuses a Python whose compiler makes other bytecode."""
    if magic not in _MAGICS:
        raise ImportError(
            f"gaffsilver knows the regex bytecode of CPython 3.11 to 3.13 (_sre.MAGIC {', '.join(map(str, _MAGICS))}), "
            f"and this Python's is another one ({magic})"
        )


def check_processor(path: str = "/proc/cpuinfo") -> None:
    """Refuses a processor on which the library would be killed by a signal. One of which Linux says nothing passes."""
    try:
        with open(path, encoding="ascii", errors="replace") as file:
            flags = next((line.split() for line in file if line.startswith("flags")), None)
    except OSError:
        return
    lacking = _FLAGS.difference(flags or _FLAGS)
    if lacking:
        names = ", ".join(sorted(lacking))
        raise ImportError(f"gaffsilver wants a processor with x86-64-v2, and this one lacks {names}")


def _engine() -> Any:
    check_bytecode(_sre.MAGIC)
    check_processor()
    has_extension = importlib.util.find_spec("gaffsilver._native") is not None
    if has_extension and os.environ.get("GAFFSILVER_ENGINE") != "ctypes":
        return importlib.import_module("gaffsilver._native")
    return importlib.import_module("gaffsilver._foreign")


engine: Any = _engine()

Pattern, Match = engine.Pattern, engine.Match
