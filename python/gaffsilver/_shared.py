"""For both engines: the error of a call that exceeds its step limit, templates, and the repr of a pattern."""
from __future__ import annotations

import functools
import re

TYPE_CHECKING = False
if TYPE_CHECKING:
    from typing import Any

_parser = re._parser  # type: ignore[attr-defined]
_constants = re._constants  # type: ignore[attr-defined]

Part = str | bytes | int

# Flags in the order of the repr of a pattern.
_FLAGS = ("TEMPLATE", "IGNORECASE", "LOCALE", "MULTILINE", "DOTALL", "UNICODE", "VERBOSE", "DEBUG", "ASCII")


class StepLimitExceeded(RuntimeError, TimeoutError):
    """A call exceeded its step limit before its result was known."""

    __module__ = "gaffsilver"

    pattern: str | bytes | None = None  # the pattern string
    pos: int | None = None  # where the search began that did not end: the end of the match before it, if there is one
    max_steps: int | None = None  # the limit of the call


def exceeded(pattern: str | bytes | None, pos: int, max_steps: int) -> StepLimitExceeded:
    """The error of a call."""
    error = StepLimitExceeded(f"step limit exceeded: {max_steps} steps by {repr(pattern)[:200]} from position {pos}")
    error.pattern, error.pos, error.max_steps = pattern, pos, max_steps
    return error


def _alternating(parsed: Any) -> list[Part]:
    """The literals and group numbers of a template in order, from the result of this Python's parser."""
    if isinstance(parsed, list):
        return parsed
    groups, parts = parsed  # CPython 3.11: the indices and numbers of the groups, and the literals
    for place, group in groups:
        parts[place] = group
    return parts


def _parts(parsed: Any, template: str | bytes) -> str | bytes | list[Part]:
    parts = [it for it in _alternating(parsed) if isinstance(it, int) or it]
    return parts if any(isinstance(it, int) for it in parts) else template[:0].join(parts)


def _parsed(pattern: Any, template: str | bytes) -> Any:
    return _parser.parse_template(template, pattern)


# The parser's warnings count two calls between the parser and that of the module: `sub` is one if it is in Python.


@functools.lru_cache(512)
def parts_of_text(pattern: Any, template: str | bytes) -> str | bytes | list[Part]:
    """A template as a literal, or as a list of literals and the numbers of groups.

    Raises `re.error` if it is no valid template of the pattern, and IndexError if it names an unknown group.
    """
    return _parts(_parsed(pattern, template), template)


@functools.lru_cache(512)
def parts_in_sub(pattern: Any, template: str | bytes) -> str | bytes | list[Part]:
    """The same, for a `sub` in Python that calls it."""
    return _parts(_parser.parse_template(template, pattern), template)


def plain(pattern: Any, template: Any) -> Any:
    """A template as bytes, if it is bytes-like and one of a bytes pattern; else as it is."""
    is_like = not isinstance(template, (str, bytes)) and not callable(template) and isinstance(pattern.pattern, bytes)
    return bytes(memoryview(template)) if is_like else template


def is_whole(repl: Any) -> bool:
    """Whether a replacement is no template: a function, or a literal."""
    return callable(repl) or (isinstance(repl, (str, bytes)) and ("\\" if isinstance(repl, str) else b"\\") not in repl)


def parts_of(pattern: Any, template: Any) -> str | bytes | list[Part]:
    """The same as `parts_of_text`, also for a bytes-like template of a bytes pattern."""
    return parts_of_text(pattern, plain(pattern, template))


def purge() -> None:
    """Clears the caches of templates."""
    parts_of_text.cache_clear()
    parts_in_sub.cache_clear()


def repr_of(pattern: Any) -> str:
    """The repr of a pattern, which is that of `re`."""
    flag = lambda name: getattr(_constants, f"SRE_FLAG_{name}", 0)
    flags, names = pattern.flags, []
    kinds = flag("LOCALE") | flag("UNICODE") | flag("ASCII")
    if not isinstance(pattern.pattern, bytes) and flags & kinds == flag("UNICODE"):
        flags &= ~flag("UNICODE")
    for name in _FLAGS:
        if flags & flag(name):
            names.append(f"re.{name}")
            flags &= ~flag(name)
    if flags:
        names.append(hex(flags))
    return f"re.compile({repr(pattern.pattern)[:200]}{', ' * bool(names)}{'|'.join(names)})"
