"""Programs, tests and the library for C, built without their proofs, and all that they have to answer."""
import tempfile
import threading
import time
from concurrent.futures import ThreadPoolExecutor

import cases
import embedding
import standing
import unproved
from ending import Fault
from repository import ROOT

PRINTING = threading.Lock()


def tell(line):
    with PRINTING:
        print(line, flush=True)


class Quick:
    """The steps, each of which gives how many things passed and failed."""

    def __init__(self, folder):
        self.repository, self.folder = unproved.Repository(folder), folder

    def program(self, name):
        """A program's answers."""
        self.repository.build(name, f"{self.folder}/{name}")
        tell(f"{name} is built")
        return cases.Cases(tell, {name: [f"{self.folder}/{name}"]}).run()

    def tests(self, name):
        """A crate's tests: as many as its sources count."""
        passed, failed, lines = self.repository.test(name)
        counted = standing.tests_in(f"{ROOT}/tests/{name}")
        if failed or passed != counted:
            tell("\n".join([*lines, f"{name}: its sources count {counted} tests, and {passed} ran and passed"]))
        return passed, max(failed, counted - passed)

    def library(self, name):
        """The library, as its users call it."""
        self.repository.build(name, f"{self.folder}/lib{name}.a")
        return embedding.Embedding(tell).over_archive(f"{self.folder}/lib{name}.a", self.folder)

    def step(self, how, name):
        """What a step came to: nothing but a failure where something cannot be built."""
        began = time.monotonic()
        try:
            passed, failed = how(self, name)
        except Fault as fault:
            tell("\n".join(fault.args))
            passed, failed = 0, 1
        tell(f"{name}: {passed} passed, {failed} failed, {time.monotonic() - began:.0f} seconds")
        return passed, failed


# What the crates of tests have to answer; and with it what the gate proves. The longest first.
OF_TESTS = [(Quick.program, "sre_probes"), (Quick.tests, "sre_tests"), (Quick.tests, "sre_unit_tests")]
STEPS = [OF_TESTS[0], (Quick.library, unproved.LIBRARY), (Quick.program, "sre_cases"), *OF_TESTS[1:]]


def run(jobs, steps=STEPS):
    """How many things passed and failed in the steps."""
    with tempfile.TemporaryDirectory(prefix="quick-") as folder, ThreadPoolExecutor(jobs) as pool:
        quick = Quick(folder)
        ended = list(pool.map(lambda it: quick.step(*it), steps))
    return tuple(map(sum, zip(*ended)))
