#!/usr/bin/env python3
"""Processor times of calls, as ratios to those of `re`: below 1 the engine is faster.

    speed.py            all tables
    speed.py TABLE ..   some of them

The tables: `short` and `long` have 15 patterns by 7 calls, on 18 characters and on 400,000; `ascii`, `latin-1`,
`cyrillic` and `emoji` have the 4 calls that iterate over matches, on 400,000 characters of that kind; `matches` has
methods of a match; `captures` has captures in atomic scopes; `service` asks each pattern over 2,000 texts of 200
characters, so that DFAs serve which earlier calls have built. A ratio is the least time of several rounds by the engine
over that by `re`. The rounds of both take turns.
"""
import math
import re
import sys
import time

import gaffsilver

SHORT = "let size=12, depth"
LINES = (
    'The quick size=12 brown fox "jumped over" on the lazy-dog; see https://example.org/a/{0}?b=c at 2024-05-1{1}.\n'
    "mail user{0}@example.com or  call  555-01{1}, key{0}=value{1}; on and on it goes: book{0} was good.\n"
)
# What stands in these lines instead, so that a text has characters of that kind.
KINDS = {
    "ascii": {},
    "latin-1": {"quick": "größte", "brown fox": "façade à São", "jumped over": "señor é", "good": "très français"},
    "cyrillic": {"quick": "быстрая", "brown fox": "бурая лиса", "jumped over": "перепрыгнула через", "lazy": "ленивую",
                 "mail": "почта", "call": "звони по", "on and on it goes": "и так on далее", "good": "очень хорошая"},
    "emoji": {"brown": "🦊🐕", "jumped over": "🚀 над 🌍", "good": "👍🏽 😀"},
}
PATTERNS = (
    r"\w+", r"\s+", r"(\w+)=(\w+)", r"depth", r"\bon\b", r"\w+(?==)", r"[\w.]+@[\w.]+\.\w+", r"<.*?>|t.*?=",
    r"(\d{4})-(\d\d)-(\d\d)", r"https?://[^\s/]+/\S*", r"let|size|quick|book", r"(?m)^(\w+).*$", r'"[^"\n]*"',
    r"(?i)QUICK|SIZE", r"(\w)\1",
)
WALKS = ("findall", "finditer", "sub", "split")
CALLS = ("match", "search", "fullmatch", *WALKS)
ROUNDS = 7

# Captures inside atomic groups, lookarounds and possessive loops, over 8,000 letters.
CAPTURES = (r"(a+)*+a", r"(a+)*+b", r"(?>(a+))b", r"(?=(a+))b", r"(?=(a+))\1b")

# What a service searches in many short texts, with and without matches, and for which there are DFAs.
SERVED = (
    r"[\w.]+@[\w.]+\.\w+", r"(\d{4})-(\d\d)-(\d\d)", r"(?:25[0-5]|\d?\d)(?:\.\d{1,3}){3}", r"\w+ing\b",
    r"(?i)warning|failed|timeout", r"(\w+)=(\w+)", r"let|size|quick|book",
)


def call_of(compiled, name, text):
    """A call without arguments."""
    method = getattr(compiled, name)
    if name == "finditer":
        return lambda: sum(1 for _ in method(text))
    return (lambda: method("#", text)) if name == "sub" else (lambda: method(text))


def seconds(call, times):
    began = time.process_time()
    for _ in range(times):
        call()
    return time.process_time() - began


def ratio(theirs, ours, seconds_each=0.004, rounds=ROUNDS):
    """The time of our call over that of theirs."""
    times = max(1, int(seconds_each / max(1e-7, seconds(theirs, 3) / 3)))
    pairs = [(seconds(theirs, times), seconds(ours, times)) for _ in range(rounds)]
    return min(it[1] for it in pairs) / min(it[0] for it in pairs)


def mean(ratios):
    """The geometric mean."""
    return math.exp(sum(map(math.log, ratios)) / len(ratios))


def told(name, ratios):
    print(f"{name:22} {mean(ratios):5.2f}   {min(ratios):5.2f} .. {max(ratios):5.2f}", flush=True)


def long_text(kind):
    """400,000 characters of a kind."""
    lines = LINES
    for old, new in KINDS[kind].items():
        lines = lines.replace(old, new)
    return "".join(lines.format(number, number % 10) for number in range(2200))[:400_000]


def table(name, text, calls, most):
    """The ratios of each call over a text, by pattern, and the cells above a ratio."""
    cells, compiled = {}, [(re.compile(it), gaffsilver.compile(it)) for it in PATTERNS]
    for call in calls:
        for pattern, both in zip(PATTERNS, compiled):
            cells[call, pattern] = ratio(*(call_of(it, call, text) for it in both))
        told(f"{name}, {call}", [cells[call, it] for it in PATTERNS])
    told(f"{name}, all", list(cells.values()))
    high = sorted(((it, *cell) for cell, it in cells.items() if it > most), reverse=True)
    print(f"{name}: {sum(it > 1.2 for it in cells.values())} of {len(cells)} above 1.2, {len(high)} above {most}")
    for it, call, pattern in high:
        print(f"    {it:5.2f} {call} {pattern}", flush=True)


def matches():
    """Methods of a match, and a pattern that is compiled anew."""
    both = [it.search(r"(?P<name>\w+)=(\d+)", SHORT) for it in (re, gaffsilver)]
    for name, *arguments in (["group", 1], ["group", "name"], ["groups"], ["span"], ["expand", r"\2=\1"]):
        calls = [lambda method=getattr(it, name): method(*arguments) for it in both]
        told(f"{name}({', '.join(map(repr, arguments))})", [ratio(*calls)])
    anew = [lambda module=it: (module.purge(), module.compile(r"(\w+)=(\d+)")) for it in (re, gaffsilver)]
    told("compile anew", [ratio(*anew)])


def captures():
    for pattern in CAPTURES:
        both = [call_of(it.compile(pattern), "search", 8000 * "a") for it in (re, gaffsilver)]
        told(f"search {pattern}", [ratio(*both, rounds=2)])


def service():
    """A pattern over many short texts, half of which have only words."""
    text = long_text("ascii")
    pieces = [text[at : at + 200] for at in range(0, len(text), 200)]
    pieces[::2] = [re.sub("[^a-z]", " ", it) for it in pieces[::2]]
    for name in ("search", "match", "findall"):
        ratios = []
        for pattern in SERVED:
            methods = [getattr(it.compile(pattern), name) for it in (re, gaffsilver)]
            ratios.append(ratio(*(lambda method=it: [method(piece) for piece in pieces] for it in methods)))
            print(f"    {ratios[-1]:5.2f} {name} {pattern}", flush=True)
        told(f"service, {name}", ratios)


TABLES = {
    "short": lambda: table("short", SHORT, CALLS, 1.2),
    "long": lambda: table("long", long_text("ascii"), CALLS, 1.2),
    **{it: lambda kind=it: table(kind, long_text(kind), WALKS, 1) for it in KINDS},
    "matches": matches,
    "captures": captures,
    "service": service,
}


def main(words):
    if not TABLES.keys() >= set(words):
        print(__doc__.strip())
        return 2
    print("                        mean   least .. most, of gaffsilver / re")
    for name in words or TABLES:
        TABLES[name]()
    return 0


if __name__ == "__main__":
    sys.exit(main(sys.argv[1:]))
