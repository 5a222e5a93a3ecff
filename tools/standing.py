#!/usr/bin/env python3
"""What the repository has to keep whatever else changes (docs/GATE.md, "What may not vanish").

    standing.py            names what is missing or stale
    standing.py --write    writes today's numbers to .ci/counts

`map.py` and `header.py` compare the pages and the header for C. The status is 1 if something is missing or stale.
"""
import collections
import glob
import os
import re
import subprocess

import header
import map as code_map
import mutants
from ending import ended
from repository import ROOT, crates, files, kit, of_kit, read, rows, told, write

COUNTS = f"{ROOT}/.ci/counts"
# What is counted, how many there are, and where that fell: the greatest number before, and why.
ROW = re.compile(r"(\w+ [\w. -]*[\w-]) (\d+)(?: # was (\d+): (\S.*))?")

HANDLES = "Handles allowed: none.\n"

# What the tools read of these folders of a crate.
READ = {
    "wrong": r"[^/]*\.edit",
    "cases": r"[^/]*\.(txt|expected|fault|flags|table)|(files|no_cases|tables|calls)\.jsonl",
}

GROWTHS = ("from_slice", "push", "resize")
# Each line of the repository's code and proofs that names the crate of the seal.
NAMED = {
    "sre_growth/specs/Refusal.antt": ["pub use Rattle.sre_refusal_seal.specs.Seal.{Refused, one_refused}"],
    **{f"sre_growth/proofs/{it}/Answers.antt": ["use Rattle.sre_refusal_seal.specs.Seal.{refused}"] for it in GROWTHS},
}

# What gives a type the functions of an allocator, or their trait another name.
ALLOCATOR = re.compile(r"\bAllocator\s+(?:for|as)\b")


def folders():
    """The folders of the crates, and of the tests' crates."""
    return [it for top in ("crates", "tests") for it in sorted(glob.glob(f"{ROOT}/{top}/*")) if os.path.isdir(it)]


def counts_in(paths, text="\n"):
    """How often a text is in files; by default, how many lines they have."""
    return sum(read(it).count(text) for it in glob.glob(paths))


def tests_in(folder):
    """The number of tests of a crate."""
    return sum(it.strip() == "#[test]" for path in files(f"{folder}/src", ".rt") for it in read(path).split("\n"))


def counted():
    """The number of each kind of thing that nothing else would miss."""
    found = {}
    for folder in folders():
        name = os.path.basename(folder)
        found[f"{name} tests"] = tests_in(folder)
        found[f"{name} answers"] = counts_in(f"{folder}/cases/*.expected")
        found[f"{name} faults"] = len(glob.glob(f"{folder}/cases/*.fault"))
        found[f"{name} rows"] = counts_in(f"{folder}/cases/*.jsonl")
    found["examples answers"] = counts_in(f"{ROOT}/examples/*.expected")
    found["examples patterns"] = counts_in(f"{ROOT}/examples/patterns.txt", "\npattern:")
    found["python test methods"] = counts_in(f"{ROOT}/python/tests/*.py", "\n    def test_")
    found["embedding checks"] = counts_in(f"{ROOT}/embedding/*.c", " CHECK(")
    of_all = (mutants.mutants_of(it) for it in crates().values())
    found.update(collections.Counter(f"mutants of {it.call}" for own in of_all for it in own))
    return {what: number for what, number in found.items() if number}


def rows_now():
    """The rows of .ci/counts: of each thing its number, the number that it was, and why it is less."""
    found = filter(None, map(ROW.fullmatch, read(COUNTS).split("\n")))
    return {it[1]: (int(it[2]), int(it[3] or 0), it[4]) for it in found}


def missed():
    """What there is less of than .ci/counts says."""
    now = counted()
    for what, (number, _, _) in rows_now().items():
        if now.get(what, 0) < number:
            yield f"{what}: there are {now.get(what, 0)} of {number}"


def git(*words, given=""):
    how = {"input": given, "stdout": subprocess.PIPE, "text": True, "check": True}
    return subprocess.run(["git", "-C", ROOT, *words], **how).stdout


def greatest():
    """The greatest number of each thing that .ci/counts has had in the commits that are here, which in a shallow clone
    are not all of them. Beside no repository there are none."""
    if not os.path.exists(f"{ROOT}/.git"):
        return {}
    commits = git("rev-list", "--full-history", "HEAD", "--", ".ci/counts").split()
    said = git("cat-file", "--batch=%(objecttype)", given="".join(f"{it}:.ci/counts\n" for it in commits))
    found = {}
    for it in filter(None, map(ROW.fullmatch, said.split("\n"))):
        found[it[1]] = max(found.get(it[1], 0), int(it[2]))
    return found


# Kinds of rows of .ci/counts that nothing counts any more.
GONE = (" wrong bodies", " named goals", " right bodies", " programs", " must-fail edits")


def lowered():
    """The rows of .ci/counts that have less than in a commit and do not say why. A crate that is gone has no rows."""
    now, names = rows_now(), [os.path.basename(it) for it in folders()]
    for what, number in greatest().items():
        has, was, _ = now.get(what, (0, 0, None))
        is_gone = what.startswith("sre_") and what.split()[0] not in names
        if has < number > was and not is_gone and not what.endswith(GONE):
            yield f".ci/counts: {what} {has}, but it was {number}: write '{what} {has} # was {number}: REASON' there"


def unread():
    """Files beside those that a tool reads, which nothing reads."""
    for folder in folders():
        for part, form in READ.items():
            for path in files(f"{folder}/{part}"):
                begun, end = os.path.splitext(path)
                is_alone = end in (".txt", ".fault", ".flags") and not os.path.isfile(f"{begun}.expected")
                if is_alone or not re.fullmatch(form, os.path.relpath(path, f"{folder}/{part}")):
                    yield f"{os.path.relpath(path, ROOT)}: nothing reads it"


def unsealed():
    """What lets a crate state that an allocation failed where none did."""
    for name, _, below in rows():
        if "sre_refusal_seal" in below and name != "sre_growth":
            yield f"crates.txt: {name} lists sre_refusal_seal"
    named, top = {}, f"{ROOT}/crates/"
    for path in files(top, (".rt", ".antt"), but="out"):
        short = path[len(top):]
        lines = [it for it in read(path).split("\n") if "sre_refusal_seal" in it and it.strip()[:2] not in ("//", "--")]
        if lines and not short.startswith("sre_refusal_seal/"):
            named[short] = lines
    if named != NAMED:
        yield f"other lines than the seal's name sre_refusal_seal: {[it for it in named if named[it] != NAMED.get(it)]}"
    own = {path[len(top):] for path in files(f"{top}sre_growth", ".antt", but="out")}
    if own != {*NAMED, "sre_growth/specs/Lib.antt", "sre_growth/proofs/Lib.antt"}:
        yield f"sre_growth has other files of specs and proofs: {sorted(own)}"
    for name in GROWTHS:
        for line in read(f"{top}sre_growth/proofs/{name}/Answers.antt").split("\n"):
            if line.startswith("pub ") and not re.fullmatch(r"pub (\S+) : goal\.\1", line):
                yield f"the answers of sre_growth::{name} hand on more than goals: {line}"


def refusing():
    """What lets a body grow a list on an allocator that refuses at will, and blame memory."""
    of_the_kit = {it for _, _, below in rows() for it in below} - {*crates()}
    # what is below std is no crate's own, unless it is listed: std hands none of its allocators on but Global
    for it in sorted(of_the_kit | {*of_kit(of_the_kit)} - {*of_kit(["std"])}):
        if any(ALLOCATOR.search(read(path)) for path in files(f"{kit()}/rattle/{it}/src", ".rt")):
            yield f"crates.txt lists {it}, or what lists it, which has an allocator of its own"
    for path in files(f"{ROOT}/crates", ".rt", but="out"):
        if ALLOCATOR.search(read(path)):
            yield f"{os.path.relpath(path, ROOT)} has an allocator of its own"


def fallen():
    """All that is missing or stale."""
    kept = [*missed(), *lowered(), *unread(), *unsealed(), *refusing()]
    kept += [] if read(f"{ROOT}/HANDLES") == HANDLES else [f"HANDLES is not the line '{HANDLES.strip()}'"]
    return [*kept, *header.unlike(), *code_map.stale()]


def renew():
    """Writes today's numbers. A row that says why its number fell keeps that while it is less."""
    numbers, before = counted(), rows_now()
    reasons = {what: f" # was {was}: {why}" for what, (_, was, why) in before.items() if numbers.get(what, 0) < was}
    lines = [f"{it} {numbers.get(it, 0)}{reasons.get(it, '')}\n" for it in dict.fromkeys([*numbers, *reasons])]
    write(COUNTS, "".join(lines))


def main(words):
    if words == ["--write"]:
        renew()
    elif words:
        return None
    return told(fallen())


if __name__ == "__main__":
    ended(main)
