#!/usr/bin/env python3
"""The engine inside C, Rust and Python, built and called as users do.

    embedding.py LIBRARY     over a folder that `python/build.py library` has made

docs/GATE.md has what is tried. With one Python the package's tests run by ctypes, too. The status is 1 if something
fails.
"""
import glob
import os
import re
import shutil
import subprocess
import sys
import tempfile

import kept
from ending import Fault, ended
from repository import PARTS, ROOT, crates, kit, read, run, tallied, write

PAGE = "docs/EMBEDDING.md"
EXAMPLES = ("docs/PYTHON.md", "README.md")
# The lines of README.md, by the language that the page names, in whole programs.
LINES = {
    "c": ("c", '#include <stdio.h>\n#include "sre.h"\nint main(void) {\n', "}\n"),
    "rs": ("rust", "mod sre;\nuse sre::{ASCII, Pattern};\nfn main() -> Result<(), u32> {\n", "Ok(())\n}\n"),
}
BLOCK = re.compile(r"(?ms)^```(\w*)\n(.*?)^```$")
# How the page compiles its program in C, and the one in Rust.
COMPILED = re.compile(r"(?m)^With `(.*)` it prints$")
PYTHONS = ("3.11", "3.12", "3.13")
CRATE = "sre_c"

# Which tests of its library a Python has, and which version it is.
ASKED = "import importlib.util as u, sys; print('%d.%d' % sys.version_info[:2], bool(u.find_spec('test.test_re')))"


def built(room, rlibs, checked):
    """The crate's archive, built over proved crates, apart from the work tree, and whether an earlier run built it of
    the very same files (kept.py); or none, and what the build said. Where a check has written that folder, the build
    takes its verdict, and else it proves the crate."""
    crate = crates()[CRATE]
    store = kept.Store(crate, PARTS, [os.path.realpath(__file__)])
    if store.path():
        return store.path(), True
    made = f"{room}/lib{CRATE}.a"
    for part in PARTS:
        if os.path.isdir(f"{crate.folder}/{part}"):
            shutil.copytree(f"{crate.folder}/{part}", f"{room}/{CRATE}/{part}")
    words = [*crate.words(rlibs), "--backend", "llvm", "--toolchain", f"{kit()}/toolchain", "-o", made]
    if os.path.isdir(checked):
        for word in ("--logic-built", "--jobs"):
            del words[words.index(word) : words.index(word) + 2]
        words += ["--crate-checked", checked]
    ran = run(f"{kit()}/bin/rattle", "build", *words, cwd=f"{room}/{CRATE}")
    if ran.returncode:
        return None, ran.stdout
    store.keep(made)
    return made, False


def told(python):
    """The version of a Python, and whether it has its library's tests; nothing where it does not run."""
    return subprocess.run([python, "-c", ASKED], capture_output=True, text=True).stdout.split()


def found_pythons():
    """For each version a Python that has its library's tests, or else any; and the versions that there are not."""
    found = {}
    for version in PYTHONS:
        of_pyenv = glob.glob(os.path.expanduser(f"~/.pyenv/versions/{version}.*/bin/python"))
        paths = filter(None, [shutil.which(f"python{version}"), *sorted(of_pyenv)])
        fitting = [it for it in paths if told(it)[:1] == [version]]
        if fitting:
            found[version] = min(fitting, key=lambda it: told(it)[1] != "True")
    return found, [it for it in PYTHONS if it not in found]


def programs():
    """The programs of the pages: the page, the language, the source, and what each has to print."""
    blocks = BLOCK.findall(read(f"{ROOT}/{PAGE}"))
    for (language, source), (_, written) in zip(blocks, blocks[1:]):
        if language in ("c", "rust") and "main(" in source:
            yield PAGE, language, source, written
    for language, source in BLOCK.findall(read(f"{ROOT}/README.md")):
        if language in LINES:
            kind, above, below = LINES[language]
            # what they print is in the comment of the last line
            yield "README.md", kind, above + source + below, source.rstrip().rpartition("// ")[2] + "\n"


class Embedding:
    """The trials of a library, with a count of those that passed and failed."""

    def __init__(self, tell):
        self.tell, self.passed, self.failed, self.room = tell, 0, 0, None

    def count(self, is_well, line):
        self.tell(f"embedding: {line}{'' if is_well else ': FAILED'}")
        self.passed += is_well
        self.failed += not is_well
        return is_well

    def ran(self, what, *words, writes=None, **named):
        """Runs a command, and counts it: it has to end well, and to write what is given."""
        done = run(*words, cwd=self.room, env={**os.environ, **named})
        is_well = done.returncode == 0 and writes in (None, done.stdout)
        last = done.stdout.strip().rpartition("\n")[2][:120] if writes is None else ""
        if not self.count(is_well, f"{what}{f': {last}' if last and is_well else ''}"):
            self.tell(done.stdout.rstrip("\n")[-3000:])
        return is_well

    def lacks(self, program, what):
        """Whether a program is not there, which is told."""
        if shutil.which(program):
            return False
        self.tell(f"embedding: {what} not tried: there is no {program}")
        return True

    def try_programs(self, library):
        commands = [it.replace("/tmp/sre", library).split() for it in COMPILED.findall(read(f"{ROOT}/{PAGE}"))]
        compilers = dict(zip(("c", "rust"), zip(("settings.c", "settings.rs"), commands)))
        found = list(programs())
        self.count(sorted(it[1] for it in found) == sorted([*compilers] * 2), "two pages have C and Rust")
        shutil.copy(f"{ROOT}/embedding/sre.rs", self.room)
        for page, language, source, written in found:
            name, words = compilers[language]
            what = f"the program in {language} of {page}"
            if self.lacks(words[0], what):
                continue
            write(f"{self.room}/{name}", source)
            # a warning is no example
            if self.ran(f"{what} is compiled", *words, writes=""):
                # Rust's own runtime leaves memory that is still reachable
                leaks = "all" if language == "c" else "definite,indirect,possible"
                self.watched(what, written, f"{self.room}/settings", leaks=leaks)

    def watched(self, what, written, *words, leaks="all"):
        """Runs a program, also under valgrind: it may touch its own memory alone, and has to free it."""
        self.ran(what, *words, writes=written)
        if not self.lacks("valgrind", f"{what} under valgrind"):
            watch = ["valgrind", "-q", "--error-exitcode=9", "--leak-check=full", f"--errors-for-leak-kinds={leaks}"]
            self.ran(f"{what} under valgrind", *watch, *words, writes=written)

    def try_callers(self, library):
        """Bad callers in C, and one that answers a file of cases as the program does."""
        if self.lacks("cc", "callers in C"):
            return
        cases, answers = f"{ROOT}/examples/cases.txt", read(f"{ROOT}/examples/cases.expected")
        kept = [cases, "3", "4"]  # rows in a call, and passes: by codes, and by patterns that are kept
        for name, given, written in (("bad_callers", [], "bad callers: 0 failures\n"), ("cases", kept, 4 * answers)):
            words = ["cc", "-std=c11", "-g", "-Wall", f"-I{library}", f"{ROOT}/embedding/{name}.c"]
            words += [f"{library}/libsre_c.a", "-o", f"{self.room}/{name}"]
            if self.ran(f"{name}.c is compiled", *words, *["-Wl,--wrap=malloc,--wrap=realloc"] * (not given)):
                self.watched(f"{name}.c", written, f"{self.room}/{name}", *given)

    def try_python(self, library, version, python, is_first):
        """Builds the package for a Python, and runs its tests and CPython's."""
        site = f"{self.room}/site-{version}"
        build = [sys.executable, f"{ROOT}/python/build.py", "package", site, "--library", library, python]
        if not self.ran(f"the package for Python {version} is built", *build):
            return
        path = {"PYTHONPATH": site, "PYTHONDONTWRITEBYTECODE": "1"}
        examples = f"{self.room}/examples.txt"
        for page in EXAMPLES:
            write(examples, "\n".join(it[1] for it in BLOCK.findall(read(f"{ROOT}/{page}")) if it[0] == "python"))
            self.ran(f"the examples of {page}, Python {version}", python, "-m", "doctest", examples, **path, writes="")
        tests = [python, "-W", "error", "-m", "unittest", "discover", "-s", f"{ROOT}/python/tests"]
        has_extension = bool(glob.glob(f"{site}/gaffsilver/_native*"))
        if has_extension:
            self.ran(f"the package's tests, Python {version}", *tests, **path)
        if is_first or not has_extension:
            self.ran(f"the package's tests by ctypes, Python {version}", *tests, **path, GAFFSILVER_ENGINE="ctypes")
        if told(python) == [version, "True"]:
            judge = f"{ROOT}/python/judges/test_modules.py"
            self.ran(f"CPython's own tests, Python {version}", python, judge, "test_re", **path)
        else:
            self.tell(f"embedding: CPython's own tests not tried: {python} has none")

    def over(self, library):
        """Tries all over a folder that has the library, and gives how many passed and failed."""
        pythons, lacking = found_pythons()
        for version in lacking:
            self.tell(f"embedding: not tried: there is no Python {version}")
        with tempfile.TemporaryDirectory(prefix="embedding-") as self.room:
            self.try_programs(library)
            self.try_callers(library)
            for version, python in pythons.items():
                self.try_python(library, version, python, version == [*pythons][-1])
        return self.passed, self.failed

    def over_archive(self, archive, room):
        """Puts the library together from its archive, and tries all."""
        self.room = room
        if not self.lacks("cc", "the library in C, Rust and Python"):
            words = [sys.executable, f"{ROOT}/python/build.py", "library", f"{room}/library", "--archive", archive]
            if self.ran("the library is put together", *words):
                self.over(f"{room}/library")
        return self.passed, self.failed

    def run(self, rlibs, checked):
        """Builds the library over proved crates, and tries all. `rlibs` gives the folder of a crate's rlib, and
        `checked` is what a check of the library may have written."""
        with tempfile.TemporaryDirectory(prefix="library-") as room:
            made, said = built(room, rlibs, checked)
            taken_over = " (by an earlier run)" if said is True else ""
            if self.count(made is not None, f"lib{CRATE}.a is built{taken_over}"):
                return self.over_archive(made, room)
        self.tell(said.rstrip("\n")[-3000:])
        return self.passed, self.failed


def main(words):
    if len(words) != 1 or words == ["--help"]:
        return None
    if not os.path.isfile(f"{words[0]}/libsre_c.a"):
        raise Fault(f"{words[0]}/libsre_c.a: no such file; `python/build.py library {words[0]}` makes it")
    return tallied(*Embedding(lambda line: print(line, flush=True)).over(os.path.realpath(words[0])))


if __name__ == "__main__":
    ended(main)
