"""`python3 -m gaffsilver audit`: the patterns in Python sources, and which of them have a step bound.

It finds calls of functions of `re` by names that the file imports, and reads a pattern and flags that are constant:
literals, their concatenation, f-strings without holes, names of `re`, and module-level names that the file binds once.
"""
from __future__ import annotations

import argparse
import ast
import collections
import json
import os
import re
import sys
import warnings
from dataclasses import dataclass
from typing import Any, Iterator

import gaffsilver
from gaffsilver._shared import _parser
from gaffsilver._words import compiler

# The functions, and by which position each takes its flags.
FUNCTIONS = dict(compile=1, search=2, match=2, fullmatch=2, findall=2, finditer=2, split=3, sub=4, subn=4)
FLAGS = {name: int(flag) for name, flag in re.RegexFlag.__members__.items()}
SIZES = 1_000, 10_000
BOUNDED, UNBOUNDED, FAULTY, UNKNOWN = "bounded", "no step bound", "does not compile", "not constant"
SCOPES = "ASSERT", "ASSERT_NOT", "ATOMIC_GROUP", "POSSESSIVE_REPEAT"  # names of parsed items
BRANCHING = "MAX_REPEAT", "MIN_REPEAT", "POSSESSIVE_REPEAT", "BRANCH"


@dataclass
class Found:
    """A call, its pattern, and what is known of its steps."""

    file: str
    line: int
    function: str
    verdict: str
    pattern: str | bytes | None = None
    flags: int = 0
    steps: tuple[int | None, ...] = ()
    reason: str | None = None

    def __str__(self) -> str:
        what = f"re.{self.function}" if self.pattern is None else repr(self.pattern)
        units = zip(self.steps, ("steps at 1,000 characters", "at 10,000"))
        steps = "".join(f", {number:,} {unit}" for number, unit in units if number is not None)
        return f"{self.file}:{self.line}: {what}: {self.verdict}{steps}{f': {self.reason}' if self.reason else ''}"

    def as_json(self) -> dict[str, Any]:
        """The fields, with bytes as characters, and with the steps by the numbers of characters."""
        more = {"is_bytes": isinstance(self.pattern, bytes), "steps": dict(zip(SIZES, self.steps))}
        return {**vars(self), **more, "pattern": str(self.pattern, "latin-1") if more["is_bytes"] else self.pattern}


class Source:
    """A file's calls of `re`."""

    def __init__(self, file: str, tree: ast.Module) -> None:
        self.file, self.nodes = file, list(ast.walk(tree))
        self.modules: set[str] = set()
        self.names: dict[str, str] = {}  # the file's names for those of `re`
        self.constants: dict[str, Any] = {}
        for node in self.nodes:
            if isinstance(node, ast.Import):
                self.modules |= {it.asname or it.name for it in node.names if it.name == "re"}
            elif isinstance(node, ast.ImportFrom) and node.module == "re" and not node.level:
                named = {it.asname or it.name: it.name for it in node.names}
                self.names |= {it: it for it in re.__all__} if "*" in named else named
        bound = collections.Counter(it for node in self.nodes for it in _bound(node))
        for node in tree.body:  # in order, so the value of a constant names earlier ones alone
            for target in getattr(node, "targets", [getattr(node, "target", None)]):
                if isinstance(node, (ast.Assign, ast.AnnAssign)) and [bound[it] for it in _bound(target)] == [1]:
                    self.constants[target.id] = self.constant(node.value)

    def name_in_re(self, node: ast.AST | None) -> str | None:
        """The name in `re` of what an expression denotes."""
        if isinstance(node, ast.Attribute) and isinstance(node.value, ast.Name) and node.value.id in self.modules:
            return node.attr
        return self.names.get(node.id) if isinstance(node, ast.Name) else None

    def constant(self, node: ast.AST | None) -> Any:
        """The str, bytes or int that an expression always is, or a call of `re.compile`; else None."""
        if isinstance(node, ast.Constant):
            return node.value if type(node.value) in (str, bytes, int) else None
        if isinstance(node, ast.JoinedStr) and all(isinstance(it, ast.Constant) for it in node.values):
            return "".join(it.value for it in node.values)
        if isinstance(node, ast.BinOp):
            left, right = self.constant(node.left), self.constant(node.right)
            kinds = type(node.op), type(left), type(right)
            if kinds in ((ast.Add, str, str), (ast.Add, bytes, bytes)):
                return left + right
            return left | right if kinds == (ast.BitOr, int, int) else None
        if self.name_in_re(node):
            return FLAGS.get(self.name_in_re(node) or "")
        if isinstance(node, ast.Call):
            return node if self.name_in_re(node.func) == "compile" else None
        return self.constants.get(node.id) if isinstance(node, ast.Name) else None

    def found(self) -> Iterator[Found]:
        calls = [it for it in self.nodes if isinstance(it, ast.Call) and self.name_in_re(it.func) in FUNCTIONS]
        for call in sorted(calls, key=lambda it: (it.lineno, it.col_offset)):
            function = self.name_in_re(call.func) or ""
            source, flags = self.constant(_argument(call, 0, "pattern")), _argument(call, FUNCTIONS[function], "flags")
            number = self.constant(flags) if flags else 0
            if isinstance(source, (str, bytes)) and isinstance(number, int):
                yield Found(self.file, call.lineno, function, *judged(source, number))
            elif not isinstance(source, ast.Call):  # the pattern of such a call is found there
                yield Found(self.file, call.lineno, function, UNKNOWN)


def _bound(node: ast.AST) -> list[str]:
    """The names that a node binds, deletes or declares, in any scope."""
    if isinstance(node, ast.Name):
        return [] if isinstance(node.ctx, ast.Load) else [node.id]
    if isinstance(node, ast.alias):
        return [node.asname or node.name.partition(".")[0]]
    names = [] if isinstance(node, ast.keyword) else [getattr(node, it, None) for it in ("name", "arg", "rest")]
    return [it for it in names if isinstance(it, str)]


def _argument(call: ast.Call, position: int, name: str) -> ast.AST | None:
    """The expression of an argument, or the `*` or `**` expression that may contain it."""
    starred = [it for it in call.args[: position + 1] if isinstance(it, ast.Starred)]
    named = [it.value for wanted in (name, None) for it in call.keywords if it.arg == wanted]
    return next(iter([*starred, *call.args[position : position + 1], *named]), None)


def _items(operand: Any) -> Iterator[tuple[str, Any]]:
    """The name and operand of each item in the operand of a parsed item."""
    if isinstance(operand, _parser.SubPattern):
        for name, inner in operand:
            yield str(name), inner
            yield from _items(inner)
    elif isinstance(operand, (tuple, list)):
        for it in operand:
            yield from _items(it)


def reason_of(pattern: str | bytes, flags: int) -> str:
    """Why a pattern has no step bound, as far as its parsed form shows that."""
    items = list(_items(_parser.parse(pattern, flags)))
    for name, reason in ("GROUPREF", "a back-reference"), ("GROUPREF_EXISTS", "a conditional"):
        if name in dict(items):
            return reason
    scopes = [(name, list(_items(it))) for name, it in items  # a possessive repeat of a single character is none
              if name in SCOPES and not (name == SCOPES[3] and compiler._simple(it[2]))]
    has_group = any(name == "SUBPATTERN" and it[0] for _, inside in scopes for name, it in inside)
    if has_group and any(scope == SCOPES[3] or {*BRANCHING} & {*dict(inside)} for scope, inside in scopes):
        return "a capture group inside an atomic scope, and an atomic scope that may branch"
    return "too many counter states or nested too deep"


def judged(pattern: str | bytes, flags: int) -> tuple[Any, ...]:
    """The verdict on a pattern, and the fields of `Found` after it."""
    flags &= ~FLAGS["DEBUG"]  # which prints
    try:
        steps = tuple(map(gaffsilver.compile(pattern, flags).step_bound, SIZES))
    except (re.error, ArithmeticError, RuntimeError, ValueError) as error:
        return FAULTY, pattern, flags, (), str(error)
    reason = reason_of(pattern, flags) if None in steps else None
    return UNBOUNDED if reason else BOUNDED, pattern, flags, steps, reason


def audited(path: str, faults: list[str]) -> Iterator[Found]:
    """The calls in a file, or in all files `*.py` of a folder. What cannot be read is appended to the faults."""
    files = [path]
    if os.path.isdir(path):
        walk = os.walk(path, onerror=lambda error: faults.append(f"{error.filename}: {error.strerror}"))
        files = sorted(os.path.join(folder, it) for folder, _, names in walk for it in names if it.endswith(".py"))
    for file in files:
        try:
            with open(file, "rb") as source:
                yield from Source(file, ast.parse(source.read(), file)).found()
        except OSError as error:
            faults.append(f"{file}: {error.strerror}")
        except (SyntaxError, ValueError, MemoryError, RecursionError) as error:
            faults.append(f"{file}: cannot be parsed: {str(error) or type(error).__name__}")


def main(words: list[str]) -> int:
    parser = argparse.ArgumentParser(prog="python3 -m gaffsilver")
    commands = parser.add_subparsers(required=True, metavar="COMMAND")
    about = "The patterns in Python sources, and whether each has a step bound. The status is 0 if all have one."
    audit = commands.add_parser("audit", help=about, description=about)
    audit.add_argument("paths", nargs="+", metavar="PATH", help="a file, or a folder with all *.py below it")
    audit.add_argument("--json", action="store_true", help="print a list of objects")
    given, faults = parser.parse_args(words), []
    with warnings.catch_warnings():
        warnings.simplefilter("ignore")
        found = [it for path in given.paths for it in audited(path, faults)]
    count = collections.Counter(it.verdict for it in found)
    patterns = len(found) - count[UNKNOWN]
    total = f"{patterns} patterns: {count[BOUNDED]} bounded, {count[UNBOUNDED]} without a bound, "
    total += f"{count[FAULTY]} that do not compile; {count[UNKNOWN]} not constant"
    print(*[json.dumps([it.as_json() for it in found], indent=2)] if given.json else [*found, total], sep="\n")
    for fault in faults:
        print(f"audit: {fault}", file=sys.stderr)
    return 2 if faults else int(patterns > count[BOUNDED])
