#!/usr/bin/env python3
"""The full verification: proofs, mutants, tests, the library in C, Rust and Python, and the case files (docs/GATE.md).

    gate.py [quick]

With `quick` nothing is proved. The last line is `N passed, M failed`.
"""
import concurrent.futures
import os
import re
import shlex
import shutil
import subprocess
import tempfile
import threading
import time

import cases
import embedding
import mutants
import quick
import standing
from ending import ended
from quick import tell
from repository import ROOT, crates, heard, kit, read, tallied, write

BEGAN = time.monotonic()

# How `rt ci` says that a program has run as one of the compilers built it.
PROGRAM_RAN = re.compile(r"rt: (\w+) ran(?: \(built by Rattle's[^)]*\))?, and wrote what its file stdout has")


def minutes(seconds):
    return f"{int(seconds) // 60}:{int(seconds) % 60:02}"


class Count:
    """What passed and failed in a phase, until when it went on, and the processor seconds that it took."""

    def __init__(self, name):
        self.name, self.passed, self.failed, self.seconds, self.until, self.lock = name, 0, 0, 0, 0, threading.Lock()

    def add(self, passed, failed, seconds=0):
        with self.lock:
            self.passed, self.failed, self.seconds = self.passed + passed, self.failed + failed, self.seconds + seconds
            self.until = time.monotonic() - BEGAN

    def check(self, is_well, line):
        tell(line)
        self.add(is_well, not is_well)

    def told(self):
        took = f", {minutes(self.seconds)} of processors" if self.seconds else ""
        return f"minutes: {self.name} until {minutes(self.until)}{took}: {self.passed} passed, {self.failed} failed"


# The kit's compiler, but that a check of the library for C also writes what it has proved.
RECORDING = """#!/bin/sh
case " $* " in
*" --batches "*) ;;
" check "*"--crate-name {crate} "*) set -- "$@" -o {checked};;
esac
exec {rattle} "$@"
"""


def recording(folder, checked):
    """A folder with the kit's commands over that compiler. It is not for a kit that keeps what it has proved, since
    another compiler may be another kit to it."""
    own = f"{kit()}/bin"
    if any("is kept" in read(f"{own}/{it}") for it in ("rt", "rtlib.py")):
        return own
    for part in os.listdir(kit()):
        if part != "bin":
            os.symlink(f"{kit()}/{part}", f"{folder}/{part}")
    # rt takes the kit to be where its own file is
    shutil.copytree(own, f"{folder}/bin", ignore=shutil.ignore_patterns("rattle"))
    paths = {"checked": shlex.quote(checked), "rattle": shlex.quote(f"{own}/rattle")}
    write(f"{folder}/bin/rattle", RECORDING.format(crate=embedding.CRATE, **paths))
    os.chmod(f"{folder}/bin/rattle", 0o755)
    return f"{folder}/bin"


class Prover:
    """`rt ci` over a copy, with its lines passed on. That crates are proved can be waited for."""

    def __init__(self, count, folder):
        self.count, self.folder, self.taken_over = count, f"{folder}/repository", 0
        self.rlibs, self.programs, self.last = f"{folder}/rlibs", [], ""
        self.checked = f"{folder}/checked"
        os.mkdir(f"{folder}/kit")
        self.tools = recording(f"{folder}/kit", self.checked)
        self.proved = {it: concurrent.futures.Future() for it in crates()}
        # rt ci refuses sources that are not in a crate of crates.txt, as those of the tests
        shutil.copytree(f"{ROOT}/crates", f"{self.folder}/crates", ignore=shutil.ignore_patterns("out"))
        for name in ("crates.txt", "HANDLES"):
            shutil.copy2(f"{ROOT}/{name}", self.folder)

    def run(self):
        try:
            self.prove()
        finally:
            for it in self.proved:
                self.end(it, False)

    def prove(self):
        status, seconds = heard(self.hear, f"{self.tools}/rt", "ci", cwd=self.folder)
        found = re.fullmatch(r"(\d+) passed, (\d+) failed", self.last)
        passed, failed = map(int, found.groups()) if found else (0, 1)
        lacking = [it.name for it in crates().values() if it.is_program and self.programs.count(it.name) != 2]
        for name in lacking:
            tell(f"{name}: it was not run as both compilers build it")
        self.count.add(passed, failed + len(lacking) + bool(status), seconds)

    def hear(self, line):
        tell(line)
        self.last = line
        ran, ended = PROGRAM_RAN.match(line), re.match(r"rt: (\w+) (proved|is kept|NOT PROVED)(?:$|:)", line)
        self.programs += [ran[1]] if ran else []
        if ended:
            self.taken_over += ended[2] == "is kept"
            self.end(ended[1], ended[2] != "NOT PROVED")

    def end(self, name, is_proved):
        made = f"{self.folder}/crates/{name}/out/rlib/{name}.rlib"
        if is_proved and os.path.isdir(made):
            # rt ci takes it away at its end
            shutil.copytree(made, f"{self.rlibs}/{name}/{name}.rlib", copy_function=os.link)
        if name in self.proved and not self.proved[name].done():
            self.proved[name].set_result(is_proved)

    def are_proved(self, names):
        """Waits until these crates are proved, or one of them can't be any more: whether they are."""
        return all(self.proved[it].result() for it in names)

    def rlibs_of(self, crate):
        return f"{self.rlibs}/{crate.name}"


def try_mutants(crate, prover, count):
    """Tries the mutants of a crate once those below it are proved. Gives how many were taken over."""
    if not prover.are_proved([it.name for it in crate.below()]):
        count.check(False, f"mutants of {crate.name}: not tried, since a crate below it is not proved")
        return 0
    found, seconds, is_kept = mutants.tried(crate, prover.rlibs_of)
    for is_well, line in found:
        count.check(is_well, f"{line}{' (by an earlier run)' if is_kept else ''}")
    count.add(0, 0, seconds)
    return len(found) if is_kept else 0


def try_library(prover, count):
    """Builds the library once it is proved, and tries it in C, Rust and Python."""
    crate = crates()[embedding.CRATE]
    if prover.are_proved([it.name for it in [*crate.below(), crate]]):
        count.add(*embedding.Embedding(tell).run(prover.rlibs_of, prover.checked))
    else:
        count.check(False, f"embedding: not tried, since {crate.name} is not proved, or a crate below it")


def verified():
    """All phases, with what passed in each; and how many crates and mutants were taken over."""
    phases = [Count(it) for it in ("files", "proofs", "mutants", "tests", "library", "cases")]
    files, proofs, of_mutants, tests, library, of_cases = phases
    lost = standing.fallen()
    for line in lost:
        files.check(False, line)
    files.add(not lost, 0)
    with tempfile.TemporaryDirectory(prefix="gate-") as folder:
        prover = Prover(proofs, folder)
        # most of them wait: how many checks run at once rt and mutants.py know
        with concurrent.futures.ThreadPoolExecutor(len(crates()) + 3) as pool:
            proving = pool.submit(prover.run)
            testing = pool.submit(lambda: tests.add(*quick.run(2, quick.OF_TESTS)))
            with_mutants = filter(mutants.mutants_of, crates().values())
            tried = [pool.submit(try_mutants, it, prover, of_mutants) for it in with_mutants]
            building = pool.submit(try_library, prover, library)
            mutants_kept = sum(it.result() for it in tried)
            proving.result(), building.result(), testing.result()
        built = f"{prover.folder}/crates/sre_cases/out/sre_cases"
        of_cases.add(*cases.Cases(tell, {"sre_cases": [built, f"{built}.by-rattle"]}).run())
    return phases, prover.taken_over, mutants_kept


def kit_at_hand():
    """The kit, and how it differs from that of .ci/kit. What is proved in a logic is proved there by any kit."""
    said = subprocess.run(["rt", "version"], capture_output=True, text=True, check=True).stdout.strip()
    (name, logic), (own, own_logic) = (it.strip().partition(" logic ")[::2] for it in (said, read(f"{ROOT}/.ci/kit")))
    if logic != own_logic:
        return f"{name} has another logic than {own}, with which all was verified, so proofs may fail"
    return said if name == own else f"{name} has the logic of {own}, with which all was verified, so it serves"


def main(words):
    if words not in ([], ["quick"]):
        return None
    tell(f"kit: {kit_at_hand()}, cores: {os.cpu_count()}")
    if words:
        phases = [Count("all without proofs")]
        phases[0].add(*quick.run(os.cpu_count()))
    else:
        phases, crates_kept, mutants_kept = verified()
        tell(f"taken over from earlier runs: {crates_kept} of {len(crates())} crates, {mutants_kept} mutants")
    for phase in phases:
        tell(phase.told())
    used = os.times()
    whole = used.children_user + used.children_system
    tell(f"minutes: all until {minutes(time.monotonic() - BEGAN)}, {minutes(whole)} of processors")
    return tallied(sum(it.passed for it in phases), sum(it.failed for it in phases))


if __name__ == "__main__":
    ended(main)
