#!/usr/bin/env python3
"""Case files, held to programs that were built: `sre_cases`, whose answers are proved, and `sre_probes`, which is not.

    cases.py NAME=PATH..        tries all that the program NAME has to answer over each PATH where it was built

Below crates/NAME/cases, tests/NAME/cases and, for `sre_cases`, in examples/ are files for the program NAME. `{TEXT*N}`
in a file of lines or answers is TEXT N times, and each text of a .jsonl file has a character for a byte.

    X.txt           lines, with X.expected, X.fault and X.flags (docs/PROGRAM.md); X.table is where the program runs
    files.jsonl     whole files, with the answers, the fault and the flags
    no_cases.jsonl  lines that are no cases, each with its cause: the fourth line of a file
    tables.jsonl    files that are no tables, each with its cause; these two with and without --explain
    calls.jsonl     arguments, with the answers and the fault; `to` and `faults_to` name files for the two outputs
"""
import contextlib
import glob
import json
import os
import re
import shutil
import subprocess
import tempfile

import bounds
import finders
import hostile
import large
import refused
from ending import ended
from repository import ROOT, read, tallied

BEFORE, BEHIND = b"# all lines count\n\ncheck -\n", b"\ncheck -\n"
ANSWER, EXPLAINED = b"refused\n", b"refused Truncated 0\n"


def expanded(text):
    """The text with each {TEXT*N} written out."""
    return re.sub(r"\{([^{}*]*)\*(\d+)\}", lambda it: it[1] * int(it[2]), text).encode()


def folders():
    """The folders with case files, and the crate whose program answers them."""
    for part in ("crates", "tests"):
        for path in sorted(glob.glob(f"{ROOT}/{part}/*/cases")):
            yield path, path.split("/")[-2]
    yield f"{ROOT}/examples", "sre_cases"


class Call:
    """A call of a program in a folder, and what it has to write."""

    def __init__(self, arguments, answers, fault=b"", to=None, faults_to=None):
        self.arguments, self.to, self.faults_to = arguments, to, faults_to
        self.wanted = (int(bool(fault or faults_to)), b"" if to else answers, b"" if faults_to else fault)

    def is_met(self, program, folder):
        """Whether the program writes what it has to. Its status is 1 where it ends at a fault, and else 0."""
        with contextlib.ExitStack() as opened:
            paths = {"stdout": self.to, "stderr": self.faults_to}
            how = {it: opened.enter_context(open(to, "wb")) if to else subprocess.PIPE for it, to in paths.items()}
            ran = subprocess.run([program, *self.arguments], cwd=folder, stdin=subprocess.DEVNULL, **how)
        return (ran.returncode, ran.stdout or b"", ran.stderr or b"") == self.wanted


def put(room, content):
    """The name of a new file in a folder."""
    with tempfile.NamedTemporaryFile(dir=room, delete=False) as file:
        file.write(content)
    return os.path.basename(file.name)


def call_of_lines(folder, name, room):
    """The call for NAME.txt. Where there is no such file, the program is to say that it cannot read it."""
    paths = {end: f"{folder}/{name}.{end}" for end in ("txt", "expected", "fault", "flags")}
    texts = {end: read(path) for end, path in paths.items() if os.path.isfile(path)}
    file = put(room, expanded(texts["txt"])) if "txt" in texts else f"{name}.txt"
    answers, fault = expanded(texts["expected"]), texts.get("fault", "").encode()
    # lines without an answer would be compared with nothing
    return Call([*texts.get("flags", "").split(), file], answers, fault) if answers or fault else None


def lines_of(folder):
    """The lines of a folder's files of lines."""
    for path in sorted(glob.glob(f"{folder}/*.txt")):
        if os.path.isfile(f"{path[:-4]}.expected"):
            yield from (it.decode() for it in expanded(read(path)).splitlines())


def rows(folder, name):
    """The rows of NAME.jsonl with their numbers, if there is such a file."""
    path = f"{folder}/{name}.jsonl"
    if os.path.isfile(path):
        for number, row in enumerate(filter(None, read(path).split("\n")), 1):
            yield f"{name}, row {number}", json.loads(row)


def octets(row, key):
    return row.get(key, "").encode("latin-1")


def calls_of(folder, room):
    """The calls that a folder's files ask for, each with what it is told by."""
    for name in sorted(it[: -len(".expected")] for it in os.listdir(folder) if it.endswith(".expected")):
        yield f"case file {name}", call_of_lines(folder, name, room)
    for label, row in rows(folder, "files"):
        arguments = [*row.get("flags", []), put(room, octets(row, "file"))]
        yield label, Call(arguments, octets(row, "answers"), octets(row, "fault"))
    for label, (line, cause) in rows(folder, "no_cases"):
        file = put(room, BEFORE + line.encode("latin-1") + BEHIND)
        yield label, Call([file], ANSWER, b"line 4: not a case\n")
        explained = f"line 4: not a case: {cause}\n".encode()
        yield f"{label}, explained", Call(["--explain", file], EXPLAINED, explained)
    for label, (table, cause) in rows(folder, "tables"):
        file, cases = put(room, table.encode("latin-1")), put(room, BEHIND)
        yield label, Call(["--table", file, cases], b"", f"{file}: not a table\n".encode())
        explained = f"{file}: not a table: {cause}\n".encode()
        yield f"{label}, explained", Call(["--table", file, "--explain", cases], b"", explained)
    for label, row in rows(folder, "calls"):
        ends = [row.get(it) for it in ("to", "faults_to")]
        arguments = [it.encode("latin-1") for it in row["arguments"]]
        yield label, Call(arguments, octets(row, "answers"), octets(row, "fault"), *ends)


class Cases:
    """All files and made lines for programs: of each name the paths of its builds."""

    def __init__(self, tell, programs):
        self.passed, self.failed, self.tell, self.programs = 0, 0, tell, programs

    def count(self, is_well, label, program):
        self.passed += is_well
        self.failed += not is_well
        if not is_well:
            self.tell(f"{label}: FAILED by {os.path.basename(program)}")

    def files(self, folder, name):
        with tempfile.TemporaryDirectory(prefix="cases-") as at:
            for path in (f"{ROOT}/crates/sre_cases/data/case.txt", *glob.glob(f"{folder}/*.table")):
                shutil.copy(path, at)
            for program in self.programs[name]:
                for label, call in calls_of(folder, at):
                    self.count(bool(call) and os.path.isfile(program) and call.is_met(program, at), label, program)

    def made(self, name, label, is_met, *given):
        for program in self.programs[name]:
            self.count(os.path.isfile(program) and is_met(program, self.tell, *given), label, program)

    def run(self):
        """Tries all, and gives how many passed and failed."""
        for folder, name in folders():
            if name in self.programs:
                self.files(folder, name)
        if "sre_cases" in self.programs:
            self.made("sre_cases", "random words", hostile.are_judged, hostile.random_lists(), "random")
            self.made("sre_cases", "changed words", hostile.are_judged, hostile.changed_lists(), "changed")
            if shutil.which("cc"):
                self.made("sre_cases", "requests refused to finders", refused.are_plain)
            else:
                self.tell("requests refused to finders not tried: there is no cc")
            self.made("sre_cases", "large lines", large.are_answered, large.cases)
        if "sre_probes" in self.programs:
            self.made("sre_probes", "runs of changed words", hostile.agree)
            lines = [it for folder in ("crates/sre_cases/cases", "examples") for it in lines_of(f"{ROOT}/{folder}")]
            self.made("sre_probes", "cases by finders", finders.agree, lines)
            self.made("sre_probes", "step bounds of random patterns", bounds.held)
            self.made("sre_probes", "large lines", large.are_answered, large.probes)
        return self.passed, self.failed


def main(words):
    programs, named = {}, {name for _, name in folders()}
    for name, _, path in (it.partition("=") for it in words):
        programs.setdefault(name, []).append(os.path.realpath(path))
    if not programs or set(programs) - named:
        return None
    return tallied(*Cases(print, programs).run())


if __name__ == "__main__":
    ended(main)
