#!/usr/bin/env python3
"""Draws docs/redos.svg: processor time against length of text, by `re` and gaffsilver, for published ReDoS patterns.

    PYTHONPATH=SITE redos.py FILE     SITE has the package (`python/build.py package SITE`); FILE is the picture

Each pattern and engine has a process of its own, which ends once a search takes over two seconds. Of each length the
best of three searches counts.
"""
import contextlib
import html
import importlib.util
import math
import multiprocessing
import re
import sys
import time

from ending import Fault, ended
from repository import write

# Where a pattern was published, the pattern, its flags, a text of so many characters, and how far right of and below
# the end of each engine's curve the name is.
CASES = {
    "OWASP, Java class name": (r"^(([a-z])+.)+[A-Z]([a-z])+$", 0, lambda n: "a" * n, (6, 18), (6, 14)),
    "CVE-2020-8492, urllib": (
        r"""(?:.*,)*[ \t]*([^ \t]+)[ \t]+realm=(["']?)([^"']*)\2""", re.I, lambda n: "," * n, (6, -1), (6, 2)),
    "Stack Overflow, 2016": (
        r"^[\s\u200c]+|[\s\u200c]+$", 0, lambda n: "-" + " " * (n - 2) + "-", (-8, 4), (6, 14)),
    "Cloudflare, 2019": (
        r"""(?:(?:"|'|\]|\}|\\|\d|(?:nan|infinity|true|false|null|undefined|symbol|math)|`|-|\+)+[)]*;?"""
        r"""((?:\s|-|~|!|{}|\|\||\+)*.*(?:.*=.*)))""", re.I, lambda n: '"' + "x" * (n - 1), (6, 4), (6, 0)),
}
ENGINES = {"re": "#b3261e", "gaffsilver": "#3b6ea5"}
LENGTHS = (10, 12, 14, 16, 18, 20, 22, 24, 26, 28, 30, 35, 40, 50, 100, 200, 500, 1000, 2000, 5000, 10000, 20000, 50000,
           100000)
MOST_SECONDS, TRIES = 2, 3

PAPER, INK, EDGE = "#fcfcfa", "#1f2933", "#c9d1d9"
LEFT, TOP, WIDTH, HEIGHT = 76, 84, 560, 336
X, Y = (1, 5), (-6, 1)  # powers of ten: characters, seconds


def element(kind, inside="", **values):
    shown = " ".join(f'{key.replace("_", "-")}="{value}"' for key, value in values.items())
    return f"<{kind} {shown}>{html.escape(inside)}</{kind}>"


def text(x, y, inside, **more):
    return element("text", inside, x=f"{x:.0f}", y=f"{y:.0f}", **{"fill": INK, **more})


def searched(engine, name, length):
    """The least processor time of a few searches in a text of so many characters."""
    source, flags, text, *_ = CASES[name]
    pattern, text, found = __import__(engine).compile(source, flags), text(length), []
    for _ in range(TRIES):
        began = time.process_time()
        pattern.search(text)
        found.append(time.process_time() - began)
        if found[-1] > MOST_SECONDS / TRIES:
            break
    return min(found)


def measured(engine, name):
    """The lengths and times of a pattern, from a process that is ended where one search takes too long."""
    found = []
    with multiprocessing.Pool(1) as pool, contextlib.suppress(multiprocessing.TimeoutError):
        for length in LENGTHS:
            found.append((length, pool.apply_async(searched, (engine, name, length)).get(60)))
            if found[-1][1] > MOST_SECONDS:
                break
    return found


def place(length, seconds):
    """Where a measurement is in the picture."""
    x, y = math.log10(length), max(math.log10(seconds), Y[0])
    return LEFT + WIDTH * (x - X[0]) / (X[1] - X[0]), TOP + HEIGHT * (Y[1] - y) / (Y[1] - Y[0])


def axes():
    names = {-6: "1 µs", -3: "1 ms", 0: "1 s"}
    for power in range(X[0], X[1] + 1):
        x, y = place(10 ** power, 10 ** Y[0])
        yield element("path", d=f"M {x:.0f} {TOP} V {y:.0f}", stroke=EDGE)
        yield text(x, y + 20, f"{10 ** power:,}", text_anchor="middle", font_size=12)
    for power in range(Y[0], Y[1] + 1):
        x, y = place(10, 10 ** power)
        yield element("path", d=f"M {x:.0f} {y:.0f} H {LEFT + WIDTH}", stroke=EDGE)
        if power in names:
            yield text(x - 8, y + 4, names[power], text_anchor="end", font_size=12)
    yield text(LEFT + WIDTH / 2, TOP + HEIGHT + 42, "characters", text_anchor="middle", font_size=12)


def picture(rows):
    """The picture of rows: engine, name, measurements."""
    version = ".".join(map(str, sys.version_info[:3]))
    lines = [element("rect", x=0, y=0, width=800, height=476, rx=4, fill=PAPER, stroke=EDGE), *axes()]
    lines.append(text(24, 30, f"Time of a search that finds nothing, by CPython {version} and by this engine"))
    for x, (engine, color) in zip((24, 110), ENGINES.items()):
        lines.append(element("path", d=f"M {x} 52 h 24", stroke=color, stroke_width=3))
        lines.append(text(x + 30, 56, engine, font_size=12))
    for engine, name, found in rows:
        points = " L ".join(f"{x:.1f} {y:.1f}" for x, y in (place(*it) for it in found))
        lines.append(element("path", d=f"M {points}", fill="none", stroke=ENGINES[engine], stroke_width=2))
        (x, y), (right, down) = place(*found[-1]), dict(zip(ENGINES, CASES[name][3:]))[engine]
        anchor = "start" if right > 0 else "end"
        lines.append(text(x + right, y + down, name, font_size=12, fill=ENGINES[engine], text_anchor=anchor))
    head = element("svg", xmlns="http://www.w3.org/2000/svg", viewBox="0 0 800 476", width=800, height=476,
                   font_family="sans-serif", font_size=14, role="img").removesuffix("</svg>")
    return "\n".join([head, element("title", "Time against length of text"), *lines, "</svg>", ""])


def main(words):
    if len(words) != 1 or words[0].startswith("-"):
        return None
    if not importlib.util.find_spec("gaffsilver"):
        raise Fault("PYTHONPATH has to name the package")
    rows = [(engine, name, measured(engine, name)) for name in CASES for engine in ENGINES]
    for engine, name, found in rows:
        print(f"{engine}, {name}: {', '.join(f'{length} {seconds:.7f}' for length, seconds in found)}")
    write(words[0], picture(rows))
    return 0


if __name__ == "__main__":
    ended(main)
