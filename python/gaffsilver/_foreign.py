"""Pattern and Match over the library by ctypes, for a Python without the extension in C: the same, but slower."""
from __future__ import annotations

import operator
import sys
import types
from ctypes import byref, c_size_t, c_uint32, c_uint64

from gaffsilver import _library as library
from gaffsilver._shared import exceeded, is_whole, parts_in_sub, parts_of, plain, repr_of

TYPE_CHECKING = False
if TYPE_CHECKING:
    from typing import Any, Iterator

Row = list[int]

_twins: list[Any] = [None, None]


def set_twins(pattern: Any, match: Any) -> None:
    """The types whose instances count as Pattern and Match, or None."""
    _twins[:] = pattern, match


class _Fixed(type):
    """A class that cannot be changed, called or subclassed, like those of `_sre`."""

    def __new__(cls, name: str, bases: tuple[Any, ...], body: Any) -> Any:
        if bases:
            raise TypeError(f"type 're.{bases[0].__name__}' is not an acceptable base type")
        return super().__new__(cls, name, bases, body)

    def __instancecheck__(cls, instance: Any) -> bool:
        twin = {"Pattern": _twins[0], "Match": _twins[1]}.get(cls.__name__)
        return type(instance) is cls or (twin is not None and type(instance) is twin)

    def __setattr__(cls, name: str, value: Any) -> None:
        raise TypeError(f"cannot set {name!r} attribute of immutable type 're.{cls.__name__}'")

    def __call__(cls, *args: Any, **kwargs: Any) -> Any:
        raise TypeError(f"cannot create '{cls.__module__}.{cls.__name__}' instances")


def _size(number: Any) -> int:
    """A number of characters or matches."""
    number = operator.index(number)
    if not -sys.maxsize - 1 <= number <= sys.maxsize:
        raise OverflowError("Python int too large to convert to C ssize_t")
    return number


def _steps(given: Any, otherwise: int) -> int:
    if given is None:
        return otherwise
    number = operator.index(given)
    if not 0 <= number <= library.FOREVER:
        raise OverflowError("can't convert this number of steps to 64 bits")
    return number


# The step limit of a call that has none.
_default = [library.FOREVER]


def set_default_max_steps(max_steps: Any, /) -> None:
    """Sets the step limit of a call that has none. None means no limit."""
    _default[0] = _steps(max_steps, library.FOREVER)


def _number_or_none(steps: int) -> int | None:
    return None if steps == library.FOREVER else steps


def get_default_max_steps() -> int | None:
    """The step limit of a call that has none, or None."""
    return _number_or_none(_default[0])


def _fail(status: int) -> None:
    if status == library.MEMORY:
        raise MemoryError
    if status == library.NO_CODE:
        raise RuntimeError("invalid SRE code")
    raise SystemError(f"the engine answered {status}")


class _Text:
    """A str or bytes-like object as the library reads it."""

    def __init__(self, pattern: Any, string: Any) -> None:
        self.string = string
        if isinstance(string, str):
            if isinstance(pattern, bytes):
                raise TypeError("cannot use a bytes pattern on a string-like object")
            self.plain: Any = string if type(string) is str else str.__str__(string)[:]
            try:
                self.data, self.which = self.plain.encode("latin-1"), 0
            except UnicodeEncodeError:
                self.data, self.which = self.plain.encode("utf-32-le", "surrogatepass"), 1
        else:
            self.view, self.plain = _buffer(string)  # the view fixes the buffer's size
            if isinstance(pattern, str):
                raise TypeError("cannot use a string pattern on a bytes-like object")
            self.data, self.which = self.plain, 0
        self.length = len(self.plain)
        self.is_fixed = isinstance(string, str) or type(string) is bytes

    def look_again(self) -> None:
        """Reads the current contents of a buffer."""
        if not self.is_fixed:
            self.data = self.plain = _buffer(self.string)[1]


def _buffer(string: Any) -> tuple[Any, bytes]:
    """A view of a bytes-like object, and its current bytes."""
    if type(string) is bytes:
        return None, string
    try:
        view = memoryview(string)
        return view, bytes(view.cast("B")) if view.nbytes else b""
    except (TypeError, BufferError):
        raise TypeError(f"expected string or bytes-like object, got '{type(string).__name__}'") from None


def _span(row: Row, group: int) -> tuple[int, int]:
    """The span of a group, (-1, -1) if it took no part."""
    at = 1 + 2 * group if group else 0
    start, end = row[at : at + 2]
    return (start, end) if start <= end != library.UNSET else (-1, -1)


def _slice(plain: Any, row: Row, group: int, otherwise: Any) -> Any:
    """The text of a group; `otherwise` if it took no part."""
    start, end = _span(row, group)
    return otherwise if start < 0 else plain[start:end]


def _fill(pieces: list[Any], parts: Any, plain: Any, row: Row) -> None:
    """Appends the parts of a template, with the groups of a row."""
    for part in parts if isinstance(parts, list) else [parts]:
        if isinstance(part, int):
            part = _slice(plain, row, part, None)
        if part is not None:
            pieces.append(part)


def _made(kind: Any, **fields: Any) -> Any:
    """An object, which cannot be changed any more."""
    made = object.__new__(kind)
    for name, value in fields.items():
        object.__setattr__(made, name, value)
    return made


def _read_only(self: Any, name: str, *value: Any) -> None:
    raise AttributeError("readonly attribute")


class Pattern(metaclass=_Fixed):
    """Compiled regular expression object."""

    __module__, __qualname__ = "re", "Pattern"
    __slots__ = ("pattern", "flags", "groups", "_words", "_code", "_names", "_indexgroup", "_max_steps", "__weakref__")
    __class_getitem__ = classmethod(types.GenericAlias)
    __setattr__ = __delattr__ = _read_only

    @property
    def groupindex(self) -> Any:
        return types.MappingProxyType(self._names)

    @property
    def max_steps(self) -> int | None:
        return _number_or_none(self._max_steps)

    def _asked(self, text: _Text, pos: Any, endpos: Any, max_steps: Any) -> Any:
        start, end = (min(max(it, 0), text.length) for it in (pos, endpos))
        steps = _steps(max_steps, _default[0] if self._max_steps == library.FOREVER else self._max_steps)
        return library.Asked(start, end, steps, True, False, False, sys.version_info >= (3, 14))

    def _over(self, text: _Text) -> tuple[Any, ...]:
        """The code and the text, as the library takes them."""
        return byref(self._code), text.data, text.length

    def _row(self, text: _Text, asked: Any) -> Row | None:
        """The match as a row: start, end, the group that was closed last, and the capture slots."""
        if asked.start > asked.end:
            return None
        found, room = library.Found(), 2 * self.groups
        marks = (c_size_t * (room or 1))()
        status = library.answers[text.which](*self._over(text), byref(asked), byref(found), marks, room)
        if status == library.NO:
            return None
        if status == library.STEP_LIMIT:
            raise exceeded(self.pattern, asked.start, asked.steps)
        if status != library.YES:
            _fail(status)
        unset = [library.UNSET] * (room - found.marks)
        return [found.start, found.end, found.last_index % 2**64, *marks[: found.marks], *unset]

    def _rows(self, text: _Text, asked: Any) -> Iterator[Row]:
        """The rows of an iteration, read in batches, or one at a time if the text may change."""
        width, walked, status = 3 + 2 * self.groups, library.Walked(), library.NO_ROOM
        room, max_steps = 8 if text.is_fixed else 1, asked.steps
        while status == library.NO_ROOM and asked.start <= asked.end:
            text.look_again()
            rows = (c_size_t * (width * room))()
            into = byref(asked), width, rows, width * room, byref(walked)
            status = library.walks[text.which](*self._over(text), *into)
            numbers = rows[: walked.count * width]
            for at in range(0, len(numbers), width):
                yield numbers[at : at + width]
            asked.start, asked.must_advance, asked.steps = walked.start, walked.must_advance, walked.steps
            room = min(4 * room, 2048) if text.is_fixed else 1
        if status == library.STEP_LIMIT:
            raise exceeded(self.pattern, asked.start, max_steps)
        if status not in (library.NO, library.NO_ROOM):
            _fail(status)

    def _one(self, string: Any, pos: Any, endpos: Any, max_steps: Any, search: bool, match_all: bool) -> Any:
        pos, endpos = _size(pos), _size(endpos)
        text = _Text(self.pattern, string)
        asked = self._asked(text, pos, endpos, max_steps)
        asked.search, asked.match_all = search, match_all
        row = self._row(text, asked)
        return row and _match(self, text, (asked.start, asked.end), row)

    def match(self, string: Any, pos: int = 0, endpos: int = sys.maxsize, *, max_steps: int | None = None) -> Any:
        """The match at the beginning of the range, or None."""
        return self._one(string, pos, endpos, max_steps, False, False)

    def fullmatch(self, string: Any, pos: int = 0, endpos: int = sys.maxsize, *, max_steps: int | None = None) -> Any:
        """The match that is all of the range, or None."""
        return self._one(string, pos, endpos, max_steps, False, True)

    def search(self, string: Any, pos: int = 0, endpos: int = sys.maxsize, *, max_steps: int | None = None) -> Any:
        """The match that starts first in the range, or None."""
        return self._one(string, pos, endpos, max_steps, True, False)

    def scanner(self, string: Any, pos: int = 0, endpos: int = sys.maxsize, *, max_steps: int | None = None) -> Any:
        """A scanner, whose calls return one match after the other."""
        pos, endpos = _size(pos), _size(endpos)
        text = _Text(self.pattern, string)
        asked = self._asked(text, pos, endpos, max_steps)
        made: Any = object.__new__(Scanner)
        made.pattern, made._text, made._asked, made._has_ended = self, text, asked, False
        made._window = asked.start, asked.end
        return made

    def finditer(self, string: Any, pos: int = 0, endpos: int = sys.maxsize, *, max_steps: int | None = None) -> Any:
        """An iterator over all matches."""
        pos, endpos = _size(pos), _size(endpos)
        text = _Text(self.pattern, string)
        asked = self._asked(text, pos, endpos, max_steps)
        window = asked.start, asked.end
        return (_match(self, text, window, row) for row in self._rows(text, asked))

    def findall(
        self, string: Any, pos: int = 0, endpos: int = sys.maxsize, *, max_steps: int | None = None
    ) -> list[Any]:
        """The texts of all matches, or of their groups."""
        pos, endpos = _size(pos), _size(endpos)
        text = _Text(self.pattern, string)
        rows, empty = self._rows(text, self._asked(text, pos, endpos, max_steps)), text.plain[:0]
        if self.groups < 2:
            return [_slice(text.plain, row, self.groups, empty) for row in rows]
        numbers = range(1, self.groups + 1)
        return [tuple(_slice(text.plain, row, it, empty) for it in numbers) for row in rows]

    def split(self, string: Any, maxsplit: int = 0, *, max_steps: int | None = None) -> list[Any]:
        """The pieces between matches, each followed by the groups of the match."""
        maxsplit = _size(maxsplit)
        text = _Text(self.pattern, string)
        pieces: list[Any] = []
        last = 0
        for row in self._first(text, maxsplit, max_steps):
            pieces.append(text.plain[last : row[0]])
            pieces += [_slice(text.plain, row, it, None) for it in range(1, self.groups + 1)]
            last = row[1]
        return [*pieces, text.plain[last:]]

    def _first(self, text: _Text, most: int, max_steps: Any) -> Iterator[Row]:
        """The rows of the first `most` matches, or of all if `most` is 0."""
        if most < 0:
            return
        for number, row in enumerate(self._rows(text, self._asked(text, 0, sys.maxsize, max_steps)), 1):
            yield row
            if number == most:
                return

    def _replaced(self, parts: Any, string: Any, count: int, max_steps: int | None) -> tuple[Any, int]:
        """The new string, and how many matches were replaced by the result of a function or by parts."""
        text = _Text(self.pattern, string)
        pieces: list[Any] = []
        last = made = 0
        for row in self._first(text, count, max_steps):
            if last < row[0]:
                pieces.append(text.plain[last : row[0]])
            if callable(parts):
                given = parts(_match(self, text, (0, text.length), row))
                pieces += [] if given is None else [given]
            else:
                _fill(pieces, parts, text.plain, row)
            last, made = row[1], made + 1
        if not made:
            return text.plain, 0
        if last < text.length:
            pieces.append(text.plain[last:])
        return text.plain[:0].join(pieces), made

    def subn(self, repl: Any, string: Any, count: int = 0, *, max_steps: int | None = None) -> tuple[Any, int]:
        """The tuple (new_string, number_of_subs_made)."""
        count, repl = _size(count), plain(self, repl)
        parts = repl if is_whole(repl) else parts_in_sub(self, repl)
        return self._replaced(parts, string, count, max_steps)

    def sub(self, repl: Any, string: Any, count: int = 0, *, max_steps: int | None = None) -> Any:
        """The string with each match replaced by repl."""
        count, repl = _size(count), plain(self, repl)
        parts = repl if is_whole(repl) else parts_in_sub(self, repl)
        return self._replaced(parts, string, count, max_steps)[0]

    def within(self, max_steps: Any, /) -> Any:
        """The same pattern with another step limit, for each call without one."""
        fields = {name: getattr(self, name) for name in Pattern.__slots__[:-1]}
        return _made(Pattern, **{**fields, "_max_steps": _steps(max_steps, library.FOREVER)})

    def step_bound(self, characters: Any, /) -> int | None:
        """The step bound: a number of the engine's steps, as max_steps counts them, that is proved to suffice for one
        match, search or step of an iteration over a text of at most so many characters (bytes of a bytes-like object),
        unless an allocation fails. None if the pattern has no bound (docs/MEMOIZATION.md lists the cases, as a
        back-reference), or none for so many characters."""
        characters, steps = operator.index(characters), c_uint64()
        if characters < 0:
            raise ValueError("negative number of characters")
        # a greater number is clipped, since no text is longer
        status = library.step_bound(byref(self._code), min(characters, sys.maxsize), byref(steps))
        if status not in (library.YES, library.NO):
            _fail(status)
        return steps.value if status == library.YES else None

    @property
    def is_bounded(self) -> bool:
        """Whether the pattern has a step bound for the empty text. A pattern without one has none for any text;
        step_bound(n) can still be None for a great n."""
        return self.step_bound(0) is not None

    def __copy__(self) -> Any:
        return self

    def __deepcopy__(self, memo: Any, /) -> Any:
        return self

    def _key(self) -> tuple[Any, ...]:
        return self.flags, self.groups, self._max_steps, type(self.pattern), self._words, self.pattern

    def __eq__(self, other: object) -> Any:
        return self._key() == other._key() if type(other) is Pattern else NotImplemented

    def __hash__(self) -> int:
        return hash(self._key())

    def __repr__(self) -> str:
        return repr_of(self)


class Match(metaclass=_Fixed):
    """The result of re.match() and re.search().
    Match objects always have a boolean value of True."""

    __module__, __qualname__ = "re", "Match"
    __slots__ = ("re", "string", "pos", "endpos", "_row", "_str")
    __class_getitem__ = classmethod(types.GenericAlias)
    __setattr__ = __delattr__ = _read_only
    __iter__ = None  # else `__getitem__` would make it iterable

    @property
    def regs(self) -> tuple[tuple[int, int], ...]:
        return tuple(_span(self._row, group) for group in range(self.re.groups + 1))

    @property
    def lastindex(self) -> int | None:
        return self._row[2] if 0 < self._row[2] != library.UNSET else None

    @property
    def lastgroup(self) -> str | None:
        last, names = self.lastindex, self.re._indexgroup
        return names[last] if last is not None and last < len(names) else None

    def _number(self, group: Any) -> int:
        if hasattr(group, "__index__"):
            number = operator.index(group)
        else:  # without names any key is an unknown group
            number = self.re._names.get(group, -1) if self.re._names else -1
        if not 0 <= number <= self.re.groups:
            raise IndexError("no such group")
        return number

    @property
    def _plain(self) -> Any:
        """The text, or the current contents of a buffer."""
        return _buffer(self.string)[1] if self._str is None else self._str

    def _of(self, group: int, otherwise: Any) -> Any:
        return _slice(self._plain, self._row, group, otherwise)

    def __getitem__(self, group: Any, /) -> Any:
        return self._of(self._number(group), None)

    def group(self, *groups: Any) -> Any:
        """The texts of groups by number or name; without arguments, that of the match."""
        return self[groups[0] if groups else 0] if len(groups) < 2 else tuple(self[it] for it in groups)

    def groups(self, default: Any = None) -> tuple[Any, ...]:
        """The texts of all groups; `default` for those that took no part."""
        return tuple(self._of(group, default) for group in range(1, self.re.groups + 1))

    def groupdict(self, default: Any = None) -> Any:
        """The texts of all named groups by name."""
        return {name: self._of(group, default) for name, group in self.re._names.items()}

    def span(self, group: Any = 0, /) -> tuple[int, int]:
        """Where a group starts and ends; (-1, -1) if it took no part."""
        return _span(self._row, self._number(group))

    def start(self, group: Any = 0, /) -> int:
        """Where a group starts; -1 if it took no part."""
        return self.span(group)[0]

    def end(self, group: Any = 0, /) -> int:
        """Where a group ends; -1 if it took no part."""
        return self.span(group)[1]

    def expand(self, template: Any) -> Any:
        """A template filled in with the texts of groups, as by sub()."""
        parts, pieces = parts_of(self.re, template), []
        if sys.version_info >= (3, 12) and not isinstance(parts, list):
            return parts
        _fill(pieces, parts, self._plain, self._row)
        return (template if sys.version_info >= (3, 12) else self._plain)[:0].join(pieces)

    def __copy__(self) -> Any:
        return self

    def __deepcopy__(self, memo: Any, /) -> Any:
        return self

    def __reduce__(self) -> Any:
        raise TypeError("cannot pickle 're.Match' object")

    def __repr__(self) -> str:
        return f"<re.Match object; span={self.span()!r}, match={repr(self.group())[:50]}>"


class Scanner(metaclass=_Fixed):
    """A scanner: each call returns the next match."""

    __module__, __qualname__ = "_sre", "SRE_Scanner"
    __slots__ = ("pattern", "_text", "_asked", "_window", "_has_ended")

    def _step(self, search: bool) -> Any:
        self._asked.search = search
        self._text.look_again()
        row = None if self._has_ended else self.pattern._row(self._text, self._asked)
        if row is None:
            self._has_ended = True
            return None
        self._asked.start, self._asked.must_advance = row[1], row[0] == row[1]
        return _match(self.pattern, self._text, self._window, row)

    def match(self) -> Any:
        """The match at the end of the last one, or None."""
        return self._step(False)

    def search(self) -> Any:
        """The next match, or None."""
        return self._step(True)


def _match(pattern: Any, text: _Text, window: tuple[int, int], row: Row) -> Any:
    plain = text.plain if isinstance(text.string, str) else None
    return _made(Match, re=pattern, string=text.string, pos=window[0], endpos=window[1], _row=row, _str=plain)


def compile(pattern: Any, flags: int, code: list[int], groups: int, groupindex: Any, indexgroup: Any) -> Any:
    """A pattern from bytecode, with the arguments of `_sre.compile`."""
    if not -(2**31) <= flags < 2**31:
        raise OverflowError("Python int too large to convert to C int")
    source = pattern if pattern is None or isinstance(pattern, (str, bytes)) else bytes(memoryview(pattern))
    words, table = bytes((c_uint32 * len(code))(*code)), library.table(not isinstance(source, bytes))
    checked = library.Code(library.bytes_of(words), len(code), library.pointer_to(table))
    status = library.check_code(byref(checked))
    if status != library.YES:
        _fail(status)
    return _made(
        Pattern, pattern=source, flags=int(flags), groups=groups, _words=words, _code=checked, _names=groupindex,
        _indexgroup=indexgroup, _max_steps=library.FOREVER,
    )
