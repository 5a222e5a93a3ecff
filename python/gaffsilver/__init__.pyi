"""The functions for a type checker: those of `re`, each with a step limit."""
import re
import sys
from _typeshed import ReadableBuffer
from re import (
    A as A, ASCII as ASCII, DEBUG as DEBUG, DOTALL as DOTALL, I as I, IGNORECASE as IGNORECASE, L as L,
    LOCALE as LOCALE, M as M, MULTILINE as MULTILINE, NOFLAG as NOFLAG, RegexFlag as RegexFlag, S as S, U as U,
    UNICODE as UNICODE, VERBOSE as VERBOSE, X as X, error as error, escape as escape,
)
from typing import Any, AnyStr, Callable, Iterator, TypeAlias, overload

from gaffsilver._engine import Match as Match, Pattern as Pattern
from gaffsilver._install import (
    get_default_max_steps as get_default_max_steps, install as install, is_installed as is_installed,
    set_default_max_steps as set_default_max_steps, uninstall as uninstall,
)
from gaffsilver._shared import StepLimitExceeded as StepLimitExceeded

if sys.version_info < (3, 13):
    from re import T as T, TEMPLATE as TEMPLATE, template as template
else:
    from re import PatternError as PatternError

__version__: str

_Source: TypeAlias = AnyStr | Pattern[AnyStr] | re.Pattern[AnyStr]
_Flags: TypeAlias = int | RegexFlag
_Steps: TypeAlias = int | None

def compile(pattern: _Source[AnyStr], flags: _Flags = 0, *, max_steps: _Steps = None) -> Pattern[AnyStr]: ...
@overload
def search(
    pattern: _Source[bytes], string: ReadableBuffer, flags: _Flags = 0, *, max_steps: _Steps = None
) -> Match[bytes] | None: ...
@overload
def search(
    pattern: _Source[AnyStr], string: AnyStr, flags: _Flags = 0, *, max_steps: _Steps = None
) -> Match[AnyStr] | None: ...
@overload
def match(
    pattern: _Source[bytes], string: ReadableBuffer, flags: _Flags = 0, *, max_steps: _Steps = None
) -> Match[bytes] | None: ...
@overload
def match(
    pattern: _Source[AnyStr], string: AnyStr, flags: _Flags = 0, *, max_steps: _Steps = None
) -> Match[AnyStr] | None: ...
@overload
def fullmatch(
    pattern: _Source[bytes], string: ReadableBuffer, flags: _Flags = 0, *, max_steps: _Steps = None
) -> Match[bytes] | None: ...
@overload
def fullmatch(
    pattern: _Source[AnyStr], string: AnyStr, flags: _Flags = 0, *, max_steps: _Steps = None
) -> Match[AnyStr] | None: ...
@overload
def findall(
    pattern: _Source[bytes], string: ReadableBuffer, flags: _Flags = 0, *, max_steps: _Steps = None
) -> list[Any]: ...
@overload
def findall(pattern: _Source[AnyStr], string: AnyStr, flags: _Flags = 0, *, max_steps: _Steps = None) -> list[Any]: ...
@overload
def finditer(
    pattern: _Source[bytes], string: ReadableBuffer, flags: _Flags = 0, *, max_steps: _Steps = None
) -> Iterator[Match[bytes]]: ...
@overload
def finditer(
    pattern: _Source[AnyStr], string: AnyStr, flags: _Flags = 0, *, max_steps: _Steps = None
) -> Iterator[Match[AnyStr]]: ...
@overload
def split(
    pattern: _Source[bytes], string: ReadableBuffer, maxsplit: int = 0, flags: _Flags = 0, *, max_steps: _Steps = None
) -> list[Any]: ...
@overload
def split(
    pattern: _Source[AnyStr], string: AnyStr, maxsplit: int = 0, flags: _Flags = 0, *, max_steps: _Steps = None
) -> list[Any]: ...
@overload
def sub(
    pattern: _Source[bytes],
    repl: ReadableBuffer | Callable[[Match[bytes]], ReadableBuffer],
    string: ReadableBuffer,
    count: int = 0,
    flags: _Flags = 0,
    *,
    max_steps: _Steps = None,
) -> bytes: ...
@overload
def sub(
    pattern: _Source[AnyStr],
    repl: AnyStr | Callable[[Match[AnyStr]], AnyStr],
    string: AnyStr,
    count: int = 0,
    flags: _Flags = 0,
    *,
    max_steps: _Steps = None,
) -> AnyStr: ...
@overload
def subn(
    pattern: _Source[bytes],
    repl: ReadableBuffer | Callable[[Match[bytes]], ReadableBuffer],
    string: ReadableBuffer,
    count: int = 0,
    flags: _Flags = 0,
    *,
    max_steps: _Steps = None,
) -> tuple[bytes, int]: ...
@overload
def subn(
    pattern: _Source[AnyStr],
    repl: AnyStr | Callable[[Match[AnyStr]], AnyStr],
    string: AnyStr,
    count: int = 0,
    flags: _Flags = 0,
    *,
    max_steps: _Steps = None,
) -> tuple[AnyStr, int]: ...
def purge() -> None: ...

class Scanner(re.Scanner): ...  # type: ignore[name-defined,misc]
