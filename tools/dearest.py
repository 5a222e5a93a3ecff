#!/usr/bin/env python3
"""What each function of a crate takes by the clock while the crate is proved from nothing.

    dearest.py CRATE [--test] [--only PATH]..

The crates below have to be built, as `rt check` in the crate's folder does. A check with `--incremental` keeps each
module once it is checked, so the times of these files tell what each took. Of a function these are its steps, with what
is alive at each (`Lts`), its goals that are searched for (`Proof`), and its answers (`Answers`). What is read for the
first time is in modules of its own, or in the first one that needs it. The status is that of the check.
"""
import collections
import glob
import os
import re
import tempfile

from ending import ended
from repository import crates, kit, run

# What the check makes of a function.
KINDS = {"steps": "Lts", "goals": "Proof", "answers": "Answers"}


def figures(crate, folder):
    """The seconds of each function, all and by kind: those of a module begin where the module before was kept."""
    found, own = collections.defaultdict(collections.Counter), f"Rattle-{crate}-proofs."
    kept = sorted((os.stat(it).st_mtime_ns, it) for it in glob.glob(f"{folder}/**/*.oantt", recursive=True))
    for (before, _), (now, path) in zip(kept, kept[1:]):
        module = os.path.basename(path).removesuffix(".oantt")
        words = re.sub(r"\.The[A-Z].*", "", module.removeprefix(own)).removesuffix(".decls")
        name, kinds = re.fullmatch(r"(.*?)((?:\.[^a-z.][^.]*)*)", f".{words}").groups()
        name = name[1:].replace(".", "::") if module.startswith(own) else "contracts and specs"
        found[name].update({kind: (now - before) / 1e9 for kind in {"all", *kinds.split(".")}})
    return found


def main(words):
    crate = crates().get("".join(words[:1]))
    if not crate:
        return None
    with tempfile.TemporaryDirectory(prefix="dearest-") as folder:
        command = [f"{kit()}/bin/rattle", "check", *crate.words(lambda it: f"{it.folder}/out/rlib"),
                   "--incremental", folder, *words[1:]]
        check = run(*command, cwd=crate.folder)
        found = figures(crate.name, folder)
    print(*re.findall(r"(?m)^.*(?:error|: (?:not proved|no proof)).*$|^(?:logic|only)=.*$", check.stdout), sep="\n")
    for name, it in sorted(found.items(), key=lambda it: -it[1]["all"])[:20]:
        parts = ", ".join(f"{said} {it[kind]:5.1f}" for said, kind in KINDS.items())
        print(f"{it['all']:6.1f} s, {parts}  {name}")
    return check.returncode


if __name__ == "__main__":
    ended(main)
