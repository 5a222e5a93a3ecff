#!/usr/bin/env python3
"""Writes the letters, cases and digits of this Python's `re` past ASCII, as a table for the library or the program.

    unicode.py > src/unicode.rt        for `mod unicode;`: the function `table` makes the table
    unicode.py --lines > FILE          for `sre_cases --table FILE CASES` (docs/PROGRAM.md)
    unicode.py --digits                the digits of all characters, as rows of a test (crates/sre_tests)

`\\w` over a `str` is what this Python's own `str.isalnum` says of each character, besides `_`, and `\\d` is its
`str.isdecimal`. A case is the one that its `_sre` compares with: the first character of a longer one. It runs under
CPython 3.11 to 3.13. Each has its own Unicode: 14.0, 15.0 and 15.1.
"""
import _sre
import re
import sys
import unicodedata

from ending import ended

if not hasattr(_sre, "unicode_tolower"):
    sys.exit(f"unicode.py: this is Python {sys.version.split()[0]}: run it with CPython 3.11, 3.12 or 3.13")

COLUMNS, INDENT = 100, " " * 4
PAST_ASCII = [it for it in range(128, sys.maxunicode + 1) if not 0xD800 <= it <= 0xDFFF]

HEAD = """\
//! The letters, cases and digits of CPython {python} past ASCII, which are those of Unicode {unicode}. `LOWER`
//! and `UPPER` pair a character with its other case; `ALNUM` and `DIGITS` have the first and last of runs.
//!
//! `tools/unicode.py` has written it.

use sre_engine::{{UniError, UniTable}};
use std::alloc::Global;

/// The table of these lists: by it `\\w`, `\\d` and the cases are those of CPython {python}.
///
/// # Errors
///
/// [`UniError::Memory`], if an allocation fails.
pub fn table(alloc: Global) -> Result<UniTable, UniError> {{
    let mut uni = UniTable::new(alloc, &LOWER, &UPPER, &ALNUM)?;
    uni.set_digits(&DIGITS)?;
    Ok(uni)
}}
"""


def ranges(has, codes=PAST_ASCII):
    """The runs of characters that a test takes, each with its first and its last, rising."""
    found = []
    for code in (it for it in codes if has(chr(it))):
        if found and found[-1][1] == code - 1:
            found[-1] = found[-1][0], code
        else:
            found.append((code, code))
    return found


def lists():
    """The four lists of a table: the characters that a case changes, with what they are then, and runs."""
    cases = {"LOWER": _sre.unicode_tolower, "UPPER": lambda code: ord(chr(code).upper()[0])}
    found = {name: [(it, case(it)) for it in PAST_ASCII if case(it) != it] for name, case in cases.items()}
    return {**found, "ALNUM": ranges(str.isalnum), "DIGITS": ranges(str.isdecimal)}


def rows_of(pairs):
    """Pairs as Rust has them, in as few lines as fit."""
    rows = [INDENT]
    for low, high in pairs:
        text = f"(0x{low:x}, 0x{high:x}),"
        if len(rows[-1]) + len(text) > COLUMNS:
            rows.append(INDENT)
        rows[-1] += text + " "
    return [it.rstrip() for it in rows]


def shown(name, pairs):
    """A list as a static of Rust."""
    head = f"#[rattlefmt::skip]\nstatic {name}: [(u32, u32); {len(pairs)}] = ["
    return "\n".join([head, *rows_of(pairs), "];"])


def lines_of(held):
    """The lists as the program reads them, a line each."""
    return [f"{name.lower()} {','.join(f'{low},{high}' for low, high in pairs) or '-'}" for name, pairs in held.items()]


def file_of(held):
    version = ".".join(map(str, sys.version_info[:2]))
    head = HEAD.format(python=version, unicode=re.sub(r"\.0$", "", unicodedata.unidata_version))
    return "\n".join([head, "\n\n".join(shown(name, pairs) for name, pairs in held.items())])


def main(words):
    if words == ["--digits"]:
        print(*rows_of(ranges(str.isdecimal, range(sys.maxunicode + 1))), sep="\n")
    elif words in ([], ["--lines"]):
        print(*(lines_of(lists()) if words else [file_of(lists())]), sep="\n")
    else:
        return None
    return 0


if __name__ == "__main__":
    ended(main)
