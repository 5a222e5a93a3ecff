#!/usr/bin/env python3
"""All judges of the package, built over a library for a Python.

    all.py LIBRARY [PYTHON]     for the Python that runs this, or another; `build.py library` makes such a folder

CPython's `test_re`, the package's tests and random calls beside `re`, by the extension and by ctypes; 8 threads for 30
seconds; subinterpreters, which are among the tests; and the same over an extension that AddressSanitizer and UBSan
watch, if `cc` has them. A line tells how each ended. The status is 1 if one failed.
"""
import os
import subprocess
import sys
import tempfile

HERE = os.path.dirname(os.path.realpath(__file__))
WATCHED = "-fsanitize=address,undefined -fno-sanitize-recover=undefined"
TESTS = ["-W", "error", "-m", "unittest", "discover", "-s", f"{os.path.dirname(HERE)}/tests"]
NATIVE, FOREIGN = {"GAFFSILVER_ENGINE": "native"}, {"GAFFSILVER_ENGINE": "ctypes"}


def ran(what, words, **named):
    """Runs a command, tells how it ended, and returns whether it ended well."""
    how = {"stdout": subprocess.PIPE, "stderr": subprocess.STDOUT, "text": True, "errors": "replace"}
    done = subprocess.run(words, env={**os.environ, **named}, **how)
    lines = done.stdout.strip().splitlines() or [""]
    print(f"{what}: {lines[-1][:120]}{f': FAILED, {done.returncode}' if done.returncode else ''}", flush=True)
    if done.returncode:
        print("\n".join(lines[-40:]), flush=True)
    return done.returncode == 0


def build(library, python, folder, **named):
    """Whether the package is built into a folder."""
    words = [sys.executable, f"{os.path.dirname(HERE)}/build.py", "package", folder, "--library", library, python]
    return ran("the package is built", words, **named)


def judged(python, what, engine, calls, **named):
    """How many of the judges passed and failed with an engine."""
    asked = {
        "test_re": [f"{HERE}/test_modules.py", "test_re"],
        "tests": TESTS,
        "beside re": [f"{HERE}/beside_re.py", str(calls)],
    }
    return [ran(f"{what}, {name}", [python, *words], **engine, **named) for name, words in asked.items()]


def sanitizers():
    """The libraries of the sanitizers, which have to be loaded first; none if `cc` has none."""
    try:
        asked = [["cc", f"-print-file-name=lib{it}.so"] for it in ("asan", "ubsan")]
        found = [subprocess.run(it, stdout=subprocess.PIPE, text=True, check=True).stdout.strip() for it in asked]
    except (OSError, subprocess.CalledProcessError):
        return []
    return found if all(map(os.path.isfile, found)) else []


def watched(library, python, room):
    """The judges over an extension that the sanitizers watch."""
    libraries = sanitizers()
    if not libraries:
        print("sanitizers: not tried, since cc has none")
        return []
    if not build(library, python, f"{room}/watched", CFLAGS=WATCHED, LDFLAGS=WATCHED):
        return [False]
    # what Python itself keeps to its end is no leak
    named = {"LD_PRELOAD": " ".join(libraries), "ASAN_OPTIONS": "detect_leaks=0", "PYTHONMALLOC": "malloc"}
    return judged(python, "sanitizers", NATIVE, 5000, PYTHONPATH=f"{room}/watched", **named)


def main(words):
    if len(words) not in (1, 2) or words[0].startswith("-"):
        print(__doc__.strip())
        return 2
    library, python = os.path.realpath(words[0]), (words[1] if len(words) > 1 else sys.executable)
    os.environ["PYTHONDONTWRITEBYTECODE"] = "1"
    with tempfile.TemporaryDirectory(prefix="judges-") as room:
        if not build(library, python, f"{room}/plain"):
            return 1
        path = {"PYTHONPATH": f"{room}/plain"}
        ended = judged(python, "extension", NATIVE, 50000, **path) + judged(python, "ctypes", FOREIGN, 3000, **path)
        ended.append(ran("8 threads", [python, f"{HERE}/beside_re.py", "--threads", "30"], **NATIVE, **path))
        ended += watched(library, python, room)
    print(f"{sum(ended)} passed, {len(ended) - sum(ended)} failed")
    return 0 if all(ended) else 1


if __name__ == "__main__":
    sys.exit(main(sys.argv[1:]))
