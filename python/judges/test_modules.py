#!/usr/bin/env python3
"""Runs test modules of this CPython's library with the engine in place of `_sre`, and counts.

    test_modules.py [--plain] MODULE ..     as test_re; with --plain over `re` as it is

The package has to be on the path. For each module a line tells how many tests ran, passed, failed and were skipped,
with a line for each that failed. The status is 1 where one failed, or where there is no such module.
"""
import importlib.util
import io
import re
import sys
import time
import unittest


def told(name):
    """Runs a module's tests, tells of them, and gives how many failed."""
    began, stream = time.monotonic(), io.StringIO()
    suite = unittest.defaultTestLoader.loadTestsFromName(f"test.{name}")
    result = unittest.TextTestRunner(stream=stream, verbosity=0).run(suite)
    bad = [*result.failures, *result.errors, *((it, "unexpected success") for it in result.unexpectedSuccesses)]
    passed = result.testsRun - len(bad) - len(result.skipped)
    print(
        f"{name}: {result.testsRun} ran, {passed} passed, {len(bad)} failed, {len(result.skipped)} skipped,"
        f" {time.monotonic() - began:.1f} s",
        flush=True,
    )
    for test, why in bad:
        print(f"    {test.id()}: {why.strip().splitlines()[-1][:200]}", flush=True)
    return len(bad) + (result.testsRun == 0)


def main(words):
    is_plain = "--plain" in words
    names = [it for it in words if it != "--plain"]
    if not names:
        print(__doc__.strip())
        return 2
    if not is_plain:
        import gaffsilver

        gaffsilver.install()
        if type(re.compile("x")) is not gaffsilver.Pattern:
            print("re does not compile for the engine")
            return 1
    if importlib.util.find_spec("test.support") is None:
        print("this Python has no tests of its library")
        return 1
    import test.support

    test.support.verbose = False
    return min(1, sum(map(told, names)))


if __name__ == "__main__":
    sys.exit(main(sys.argv[1:]))
