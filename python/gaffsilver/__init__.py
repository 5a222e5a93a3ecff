"""Python's `re` over a regex engine whose answers are proved.

The functions, patterns and matches are those of `re`: `compile`, `search`, `match`, `fullmatch`, `findall`, `finditer`,
`split`, `sub`, `subn`, `escape`, `purge`. CPython's own compiler compiles the patterns, and letters, digits and cases
are those of this Python. Each call also takes `max_steps`, a limit of steps of the engine: a call that exceeds it
raises `StepLimitExceeded` instead of hanging. `install()` puts the engine below the module `re` itself.

    >>> import gaffsilver
    >>> gaffsilver.search(r"(\\w+)=", "let size=12")[1]
    'size'
"""
import functools as _functools
import re as _re
import sys as _sys
from re import (
    A, ASCII, DEBUG, DOTALL, I, IGNORECASE, L, LOCALE, M, MULTILINE, NOFLAG, RegexFlag, S, U, UNICODE, VERBOSE, X,
    error, escape,
)

from gaffsilver import _shared
from gaffsilver._engine import Match, Pattern
from gaffsilver._install import get_default_max_steps, install, is_installed, set_default_max_steps, uninstall
from gaffsilver._shared import StepLimitExceeded
from gaffsilver._version import __version__
from gaffsilver._words import cached as _cached, caches as _caches, over_the_engine as _over_the_engine

__all__ = [
    "A", "ASCII", "DEBUG", "DOTALL", "I", "IGNORECASE", "L", "LOCALE", "M", "MULTILINE", "Match", "NOFLAG", "Pattern",
    "RegexFlag", "S", "Scanner", "StepLimitExceeded", "U", "UNICODE", "VERBOSE", "X", "compile", "error", "escape",
    "findall", "finditer", "fullmatch", "get_default_max_steps", "install", "is_installed", "match", "purge", "search",
    "set_default_max_steps", "split", "sub", "subn", "uninstall",
]

if hasattr(_re, "template"):  # CPython 3.11 and 3.12
    from re import T, TEMPLATE

    template = _over_the_engine(_re.template)
    __all__ += ["T", "TEMPLATE", "template"]

if hasattr(_re, "PatternError"):  # CPython 3.13
    from re import PatternError

    __all__ += ["PatternError"]

_CPythons_pattern = _re.Pattern


def _compiled(pattern, flags):
    if type(pattern) is _CPythons_pattern:
        pattern = _cached(pattern.pattern, pattern.flags)
    return _cached(pattern, flags)


def _named_from(number, name):
    """From CPython 3.13 on, as in `re`: a call warns that gives more than `number` arguments by position."""

    def decorated(function):
        @_functools.wraps(function)
        def warning(*args, **named):
            if len(args) > number:
                import warnings

                warnings.warn(f"{name!r} is passed as positional argument", DeprecationWarning, stacklevel=2)
            return function(*args, **named)

        return warning if _sys.version_info >= (3, 13) else function

    return decorated


def compile(pattern, flags=0, *, max_steps=None):
    """The pattern, compiled. `max_steps` is the step limit of each of its calls without one.

    Raises `error` if it is no valid pattern.
    """
    made = _compiled(pattern, flags)
    return made if max_steps is None else made.within(max_steps)


def search(pattern, string, flags=0, *, max_steps=None):
    """The match that starts first in the string, or None."""
    return _compiled(pattern, flags).search(string, max_steps=max_steps)


def match(pattern, string, flags=0, *, max_steps=None):
    """The match at the beginning of the string, or None."""
    return _compiled(pattern, flags).match(string, max_steps=max_steps)


def fullmatch(pattern, string, flags=0, *, max_steps=None):
    """The match that is all of the string, or None."""
    return _compiled(pattern, flags).fullmatch(string, max_steps=max_steps)


def findall(pattern, string, flags=0, *, max_steps=None):
    """The texts of all matches, or of the group if there is one, or tuples of all groups if there are more."""
    return _compiled(pattern, flags).findall(string, max_steps=max_steps)


def finditer(pattern, string, flags=0, *, max_steps=None):
    """An iterator over all matches. The step limit covers all of them together."""
    return _compiled(pattern, flags).finditer(string, max_steps=max_steps)


@_named_from(2, "maxsplit")
def split(pattern, string, maxsplit=0, flags=0, *, max_steps=None):
    """The pieces between matches, each followed by the groups of the match. At most `maxsplit` splits, if not 0."""
    return _compiled(pattern, flags).split(string, maxsplit, max_steps=max_steps)


@_named_from(3, "count")
def sub(pattern, repl, string, count=0, flags=0, *, max_steps=None):
    """The string with each match, or the first `count`, replaced by a template or by the result of a function."""
    return _compiled(pattern, flags).sub(repl, string, count, max_steps=max_steps)


@_named_from(3, "count")
def subn(pattern, repl, string, count=0, flags=0, *, max_steps=None):
    """The result of `sub`, and how many matches were replaced."""
    return _compiled(pattern, flags).subn(repl, string, count, max_steps=max_steps)


def purge():
    """Clears the caches of patterns and templates."""
    for cache in _caches:
        cache.clear()
    _shared.purge()


class Scanner(_re.Scanner):
    """A lexicon of phrases and actions, like `re.Scanner`: `scan` splits a string into tokens."""

    __init__ = _over_the_engine(_re.Scanner.__init__)
