#!/usr/bin/env python3
"""Runs the callers and commands that the pages for callers and those of examples show, as a reader who copies them
would, in a copy of the repository.

    callers.py [--prove] [NAME ..]     those of these names, or all; `commands` are the commands

A caller is a whole program: a block of Rust that begins with its head comment. Above it the page has its name and what
it lists in `crates.txt`; below it is its output, and its input where the page gives one. The other blocks of Rust of a
section are one caller, too, by the section's name, as `Recipes`: they are put into a function that has an allocator, a
code for `(\\w+)=(\\d+)` and a text. `rt try` builds and runs each, and proves nothing; with --prove `rt run` proves it
first. If the page shows output, the caller has to print the same.

A command is a line of a block of the shell, or begins with `python3` in a sentence. All run as they are on the page,
in its order, but with a new folder instead of /tmp, a virtual environment as `python3`, and an `rt lib` that takes the
unproved archive of docs/PYTHON.md instead of proving one. A command has to print what the page shows, or else to end
with status 0. The status is 1 if something fails.
"""
import collections
import os
import re
import shutil
import subprocess
import sys
import tempfile

from embedding import BLOCK, found_pythons
from ending import Fault, ended
from repository import ROOT, read, row_of, run, write

PAGES = ("README.md", "docs/CALLING.md",
         *sorted(f"examples/{it}" for it in os.listdir(f"{ROOT}/examples") if it.endswith(".md")))
COMMAND_PAGES = ("README.md", *(f"docs/{it}.md" for it in ("CALLING", "PYTHON", "EMBEDDING", "PROGRAM")))

# A line of crates.txt as a page gives it, by itself or in a sentence.
LISTED = re.compile(r"(?:^|(?<=`))(\w+):\s+(sre_\w+(?:\s+\w+)*)(?=$|`)", re.M)
COMMANDS = re.compile(r"(?ms)^```sh\n(.*?)^```$|`(python3 [^`]*)`")
SHOWN = re.compile(r"^\$ (.*)\n((?:(?!\$ ).*\n)*)", re.M)
# What is run elsewhere: by hand, as callers, or by the full verification; and what answers a file that a reader has.
RUN_ELSEWHERE = ("bash .ci/run", "cd crates/", "python3 tools/ca", "(cd crates/sre_cases")
RT = """#!/bin/sh
[ "$1" = lib ] || exec {rt} "$@"
mkdir -p out && cp {room}/libsre_c.a out
"""

# What surrounds the parts of a section.
FRAME = """\
//! Parts of a page, one after the other.
#![tactic(auto)]

use sre_engine::{{Code, Request, SearchIter, SreError, State, UniTable}};
use std::alloc::Global;

fn shown(rt: &HostRuntime, alloc: Global, code: Code<'_>, text: &str) -> anyhow::Result<()> {{
{parts}
    Ok(())
}}

fn main(rt: HostRuntime) -> anyhow::Result<()> {{
    let uni = UniTable::ascii(rt.alloc());
    let words = [
        14, 4, 0, 3, 4294967295, 17, 0, 24, 9, 1, 4294967295, 13, 4, 8, 14, 0, 1, 17, 1, 16, 61, 17, 2, 24, 9, 1,
        4294967295, 13, 4, 8, 10, 0, 1, 17, 3, 1,
    ];
    let code = Code::check(rt.alloc(), &words, &uni)?;
    shown(&rt, rt.alloc(), code, "size=12, top=7")
}}
"""

# A program of a page: its name, what it lists, its source, the output that the page shows, and the input.
Caller = collections.namedtuple("Caller", "name listed source written read")


def callers_of(page):
    """The callers of a page."""
    text = read(f"{ROOT}/{page}")
    blocks = [(it.start(), it[1], it[2]) for it in BLOCK.finditer(text)]
    for start, language, source in blocks:
        if language == "rust" and source.startswith("//!"):
            name, listed = LISTED.findall(text[:start])[-1]
            command = re.compile(rf"\$ cd crates/{name} && rt try(?: <<'END'\n(.*?)^END)?\n(.*)", re.S | re.M)
            shown = filter(None, (command.fullmatch(it[2]) for it in blocks))
            given, written = next((it.groups() for it in shown), (None, None))
            yield Caller(name, listed, source, written, given or "")
    for section in re.split(r"(?m)^## ", text)[1:]:
        inside = BLOCK.findall(section)
        parts = [it for language, it in inside if language == "rust" and not it.startswith("//!")]
        if parts:
            listed = f"{LISTED.findall(section)[-1][1]} anyhow"
            written = "".join(it for language, it in inside if not language)
            source = FRAME.format(parts="".join(parts))
            yield Caller(section.partition("\n")[0], listed, source, written or None, "")


def put(caller, folder):
    """Writes a caller's crate into a copy of the repository, and returns its folder. It replaces a crate of that name,
    such as one that a reader made of the page."""
    name = re.sub(r"\W+", "_", caller.name).lower()
    shutil.rmtree(f"{folder}/crates/{name}", ignore_errors=True)
    os.makedirs(f"{folder}/crates/{name}/src")
    write(f"{folder}/crates/{name}/src/main.rt", caller.source)
    if "mod unicode;" in caller.source:
        with open(f"{folder}/crates/{name}/src/unicode.rt", "wb") as file:
            subprocess.run([sys.executable, f"{ROOT}/tools/unicode.py"], stdout=file, check=True)
    rows = [it for it in read(f"{folder}/crates.txt").splitlines() if row_of(it)[0] != name]
    write(f"{folder}/crates.txt", "\n".join([*rows, " ".join([f"{name}:", *caller.listed.split()])]) + "\n")
    return f"{folder}/crates/{name}"


def answers(caller, folder, command):
    """Runs a caller in a copy of the repository, and returns whether it prints what the page shows."""
    how = {"capture_output": True, "encoding": "utf-8"}
    ran = subprocess.run(["rt", command], cwd=put(caller, folder), input=caller.read, **how)
    if ran.returncode:
        print(f"{caller.name}: status {ran.returncode}\n{ran.stdout}{ran.stderr}", end="")
        return False
    if caller.written not in (None, ran.stdout):
        print(f"{caller.name}: the page shows\n{caller.written}and it prints\n{ran.stdout}", end="")
        return False
    print(f"{caller.name}: {'runs' if caller.written is None else 'prints what the page shows'}\n{ran.stdout}", end="")
    return True


def commands():
    """The commands of the pages, each with the output that the page shows, if it does."""
    for page in COMMAND_PAGES:
        for block, inside in COMMANDS.findall(read(f"{ROOT}/{page}")):
            lines = [(it, None) for it in (block or inside.replace("\n", " ")).splitlines()]
            yield from (it for it in SHOWN.findall(block) or lines if not it[0].startswith(RUN_ELSEWHERE))


def prepare(room):
    """Puts into a room what the commands find on a reader's machine: the environment in which they run."""
    os.makedirs(f"{room}/bin")
    os.makedirs(f"{room}/yours")
    write(f"{room}/bin/rt", RT.format(rt=shutil.which("rt"), room=room))
    os.chmod(f"{room}/bin/rt", 0o755)
    python = next(iter(found_pythons()[0].values()), sys.executable)
    subprocess.run([python, "-m", "venv", f"{room}/python"], check=True)
    program = f"{room}/repository/crates/sre_cases/out/sre_cases"
    os.makedirs(os.path.dirname(program))
    subprocess.run([python, f"{ROOT}/tools/unproved.py", "sre_cases", program], check=True)
    return {**os.environ, "PATH": f"{room}/bin:{room}/python/bin:{os.environ['PATH']}"}


def commands_answer(room):
    """Runs all commands, and returns whether each prints what its page shows."""
    env, held = prepare(room), []
    for command, written in commands():
        words = command.replace("/tmp/", f"{room}/").replace("/path/to", room)
        ran = run("bash", "-c", words, cwd=f"{room}/repository", env=env, encoding="utf-8")
        held.append(not ran.returncode if written is None else ran.stdout == written)
        came_to = "runs" if written is None else "prints what the page shows"
        print(f"{command}: {came_to if held[-1] else f'FAILED, status {ran.returncode}'}", flush=True)
        print("" if held[-1] else ran.stdout, end="")
    return all(held)


def main(names):
    command, names = ("run", names[1:]) if names[:1] == ["--prove"] else ("try", names)
    found = {it.name: it for page in PAGES for it in callers_of(page)}
    known = [*found, "commands"]
    if names == ["--help"]:
        return None
    if not {*names} <= {*known}:
        raise Fault(f"the callers are {', '.join(known)}")
    if not shutil.which("rt"):
        raise Fault("there is no rt on the path: the Rattle kit has it")
    with tempfile.TemporaryDirectory() as room:
        folder, left_out = f"{room}/repository", shutil.ignore_patterns("out", ".git", "__pycache__")
        shutil.copytree(ROOT, folder, ignore=left_out)
        put(found["settings"], folder)
        held = [answers(found[it], folder, command) for it in names or found if it in found]
        held += [commands_answer(room)] if "commands" in (names or known) else []
    return 0 if all(held) else 1


if __name__ == "__main__":
    ended(main)
