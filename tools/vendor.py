#!/usr/bin/env python3
"""Copies crates of this repository into another one, with all that they need, and writes their lines there.

    vendor.py [--force] TARGET [CRATE ..]
    vendor.py --crates

TARGET is the top folder of a repository that lists its crates in crates.txt, or of a new one. CRATE is a library of
crates.txt, by default sre_engine; --crates lists them, each with the crates that it needs (docs/CALLING.md, "Another
repository"). The code, the specs and the proofs are copied, beside the licence, and no tests, no mutants and no results
of checks. A later run renews all crates of its part of TARGET/crates.txt.

If a crate of TARGET differs from the one here, or another line for it is in TARGET/crates.txt, nothing is written, and
the status is 1; --force overwrites both.
"""
import os
import re
import shutil
import subprocess

from ending import Fault, ended
from repository import PARTS, ROOT, crates, read, row_of, run, texts_of, write

DEFAULT = "sre_engine"
PART = re.compile(r"^# Gaffsilver begins.*?(?:^# Gaffsilver ends\n|\Z)", re.M | re.S)
BEGIN = "# Gaffsilver begins: commit {}; no crate but sre_growth may list sre_refusal_seal (docs/GUARANTEES.md there)"
END = "# Gaffsilver ends"
# What writes bytecode and tables, with the modules that it imports.
TOOLS = ("words.py", "unicode.py", "constants.py", "ending.py", "grammar.py", "listing.py", "repository.py", "trees.py")


def line_of(crate):
    """A crate's line, which lists all but std."""
    return f"{crate.name}: {' '.join([*(it.name for it in crate.own), *crate.of_kit[1:]])}".rstrip()


def libraries(known):
    """The crates that a caller can list."""
    return {name: it for name, it in known.items() if not it.is_program and not it.is_static}


def table(known):
    """A line for each library: how many crates come with it, and which."""
    for name, crate in libraries(known).items():
        below = [it.name for it in crate.below()]
        yield f"{name}: {len(below) + 1} crates, with {' '.join(below)}" if below else f"{name}: 1 crate"


def copy(crate, folder):
    """Copies a crate over what is there of it, and reports that."""
    if texts_of(folder) == texts_of(crate.folder):
        return f"{crate.name}: is the same already"
    for part in PARTS:
        shutil.rmtree(f"{folder}/{part}", ignore_errors=True)
    for path, text in texts_of(crate.folder).items():
        os.makedirs(os.path.dirname(f"{folder}/{path}"), exist_ok=True)
        write(f"{folder}/{path}", text)
    shutil.copy(f"{ROOT}/LICENSE", folder)
    return f"{crate.name}: {len(texts_of(folder))} files copied"


def differing(taken, top, own):
    """What would be overwritten by something else: crates, and lines of the target's own."""
    rows = {row_of(it)[0]: row_of(it) for it in own}
    for crate in taken:
        if texts_of(f"{top}/{crate.name}") not in ({}, texts_of(crate.folder)):
            yield f"crates/{crate.name} differs"
        row = row_of(line_of(crate))
        if rows.get(crate.name, row) != row:
            yield f"crates.txt has another line for {crate.name}"


def commit(taken):
    """The commit here, and whether the crates that are taken differ from it."""
    git, how = ("git", "-C", ROOT), {"stderr": subprocess.DEVNULL}
    try:
        name = run(*git, "rev-parse", "--short", "HEAD", **how).stdout.strip()
        parts = [f"{it.folder}/{part}" for it in taken for part in PARTS]
        changed = run(*git, "status", "--porcelain", "--", *parts, **how)
    except OSError:
        return "unknown"
    return f"{name}-dirty" if name and changed.stdout else name or "unknown"


def vendor(target, names, is_forced):
    """Copies crates into a repository, and reports each; the status."""
    top, listed, known = f"{target}/crates", f"{target}/crates.txt", crates()
    unknown = [it for it in names if it not in libraries(known)]
    if unknown:
        raise Fault(f"{', '.join(unknown)}: no library of this repository; --crates lists them")
    if not os.path.isdir(target):
        raise Fault(f"{target}: no folder")
    if os.path.realpath(target) == ROOT:
        raise Fault(f"{target}: this repository itself")
    text = read(listed) if os.path.isfile(listed) else ""
    own, part = PART.sub("", text).splitlines(), "".join(PART.findall(text)).splitlines()
    if any(row_of(it)[0] for it in own) and not os.path.isdir(top):
        raise Fault(f"{listed} lists crates, and there is no folder {top}: move the crates there first")
    named = [known[it] for it in {*(names or [DEFAULT]), *(row_of(it)[0] for it in part)} if it in known]
    wanted = {it.name for crate in named for it in [*crate.below(), crate]}
    taken = [crate for name, crate in known.items() if name in wanted]
    lost = list(differing(taken, top, own))
    if lost and not is_forced:
        raise Fault(*lost, "nothing is written; --force overwrites these")
    said = [copy(crate, f"{top}/{crate.name}") for crate in taken]
    os.makedirs(f"{target}/tools/gaffsilver", exist_ok=True)
    for path in ("LICENSE", *(f"tools/{it}" for it in TOOLS)):
        shutil.copy(f"{ROOT}/{path}", f"{target}/tools/gaffsilver")
    said.append(f"tools/gaffsilver: {len(TOOLS)} files copied")
    lines = [it for it in own if row_of(it)[0] not in wanted]
    write(listed, "\n".join([*lines, BEGIN.format(commit(taken)), *map(line_of, taken), END]) + "\n")
    print(*said, f"crates.txt: {len(taken)} lines", sep="\n")
    return 0


def main(words):
    if words == ["--crates"]:
        print(*table(crates()), sep="\n")
        return 0
    named = [it for it in words if it != "--force"]
    if not named or any(it.startswith("-") for it in named):
        return None
    return vendor(named[0], named[1:], "--force" in words)


if __name__ == "__main__":
    ended(main, after_fault=1)
