"""Bytecode from patterns: CPython's own compiler, which makes patterns of the engine."""
from __future__ import annotations

import importlib.util
import re
import types

import _sre

from gaffsilver._engine import engine

TYPE_CHECKING = False
if TYPE_CHECKING:
    from typing import Any

# `_sre` as a compiler sees it, but for the function that makes a pattern from bytecode.
sre = types.SimpleNamespace(**{name: getattr(_sre, name) for name in dir(_sre) if not name.startswith("__")})
sre.compile = engine.compile


def _own_compiler() -> Any:
    """A separate `re._compiler`, so that of `re` does not change. It shares the parser and all constants."""
    spec = importlib.util.find_spec("re._compiler")
    if spec is None or spec.loader is None:
        raise ImportError("this Python has no re._compiler")
    module = importlib.util.module_from_spec(spec)
    spec.loader.exec_module(module)
    module._sre = sre  # type: ignore[attr-defined]
    return module


compiler = _own_compiler()

# The caches of patterns: CPython 3.11 has the first alone.
caches: tuple[dict[Any, Any], ...] = {}, {}

# The names of `re`, but with this compiler, its patterns, and caches of its own.
_names = {**vars(re), "_compiler": compiler, "Pattern": engine.Pattern, "_cache": caches[0], "_cache2": caches[1]}


def over_the_engine(function: Any) -> Any:
    """A function of `re` that makes patterns of the engine."""
    return types.FunctionType(function.__code__, _names, function.__name__, function.__defaults__)


# The pattern of a call, from a cache that is safe under threads.
cached = _names["_compile"] = over_the_engine(re._compile)  # type: ignore[attr-defined]
