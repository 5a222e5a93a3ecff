"""The engine instead of `_sre`, for a whole process."""
from __future__ import annotations

import copyreg
import operator
import re
import sys

from gaffsilver._engine import engine
from gaffsilver._words import sre

TYPE_CHECKING = False
if TYPE_CHECKING:
    from typing import Any

_theirs = (re._compiler._sre, re.Pattern, re.Match)  # type: ignore[attr-defined]


def _put(of_compiler: Any, pattern: Any, match: Any) -> None:
    re._compiler._sre = of_compiler  # type: ignore[attr-defined]
    re.Pattern, re.Match = pattern, match  # type: ignore[misc]
    re.purge()


def is_installed() -> bool:
    """Whether the module `re` compiles for this engine."""
    return re._compiler._sre is sre  # type: ignore[attr-defined]


def set_default_max_steps(max_steps: int | None) -> None:
    """Sets the step limit of each call that has none, from its arguments or its pattern. None means no limit."""
    engine.set_default_max_steps(max_steps)


def get_default_max_steps() -> int | None:
    """The step limit of each call that has none, or None."""
    return engine.get_default_max_steps()  # type: ignore[no-any-return]


def install(*, max_steps: int | None = None) -> None:
    """From now on the module `re` itself compiles for this engine, in the whole process.

    Patterns that were compiled before remain those of CPython's `_sre`, and `re` still accepts them. A given
    `max_steps` is set as the default limit.
    """
    if max_steps is not None:
        set_default_max_steps(max_steps)
    _put(sre, engine.Pattern, engine.Match)
    engine.set_twins(*_theirs[1:])


def uninstall() -> None:
    """From now on `re` compiles for CPython's `_sre` again. Patterns that were compiled meanwhile do not change."""
    _put(*_theirs)
    engine.set_twins(None, None)


def _reduced(pattern: Any) -> tuple[Any, tuple[Any, ...]]:
    """How to unpickle a pattern: as one of `re` if the engine is installed, else as one of this package."""
    if pattern.max_steps is not None:
        return operator.methodcaller("within", pattern.max_steps), (pattern.within(None),)
    if is_installed():
        return re._compile, (pattern.pattern, pattern.flags)  # type: ignore[attr-defined]
    return sys.modules["gaffsilver"].compile, (pattern.pattern, pattern.flags)


def _reduced_class(kind: Any) -> Any:
    """How to unpickle a class: each names the module `re`, but is found there only if the engine is installed."""
    if is_installed():
        return kind.__name__
    import pkgutil

    return pkgutil.resolve_name, (f"gaffsilver:{kind.__name__}",)


copyreg.pickle(engine.Pattern, _reduced)
copyreg.pickle(type(engine.Pattern), _reduced_class)  # type: ignore[arg-type]
