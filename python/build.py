#!/usr/bin/env python3
"""Builds the library that C and Rust link, and the Python package over it.

    build.py library DIR [--archive FILE]            DIR/libsre_c.a, DIR/libsre_c.so and DIR/sre.h
    build.py package DIR [--library DIR] [PYTHON]    DIR/gaffsilver, to be put on a path
    build.py wheel DIR [--library DIR] [PYTHON ..]   a wheel in DIR for each Python, for `pip install`
    build.py release DIR [--library DIR] [PYTHON ..] all that is published in DIR, with SHA256SUMS

`library` proves and builds the crate `sre_c` by `rt lib`, or takes the archive that is named, and joins the kit's heap
file to it: whoever has DIR needs no kit any more. The others take such a DIR, or make one. They are for the Python that
runs this, or for those that are named: CPython 3.11 to 3.13, or a later one with the same bytecode. The extension in C
wants a C compiler (`cc`, or what CC names) and the Python's headers. Where one of them is missing, a line says so, and
the package asks the library by ctypes: the same answers, but slower. CFLAGS and LDFLAGS follow the flags that are set
here.

`release` has the library, its module in Rust, and a wheel for each Python that is found, always with the extension.
A wheel's files have the time of SOURCE_DATE_EPOCH, or else of the commit: a tree makes the same wheel each time.
"""
import argparse
import base64
import calendar
import contextlib
import hashlib
import json
import os
import re
import shlex
import shutil
import subprocess
import sys
import tempfile
import time
import zipfile

HERE = os.path.dirname(os.path.realpath(__file__))
ROOT = os.path.dirname(HERE)
CRATE = f"{ROOT}/crates/sre_c"


def words_of(name, otherwise=""):
    """The words of a variable of the environment."""
    return shlex.split(os.environ.get(name) or otherwise)


COMPILER = words_of("CC", "cc")
FLAGS = ["-std=c11", "-O3", "-fPIC", "-fno-plt", "-fvisibility=hidden", "-Wall", "-Wextra"]
# What Python's own tables of methods do by design.
FLAGS += ["-Wno-unused-parameter", "-Wno-missing-field-initializers", "-Wno-cast-function-type"]
# Some compilers define the level themselves.
FLAGS += ["-fstack-protector-strong", "-U_FORTIFY_SOURCE", "-D_FORTIFY_SOURCE=2", *words_of("CFLAGS")]
LINKED = ["-shared", "-Wl,-z,relro,-z,now", *words_of("LDFLAGS")]
# The extension's own functions stand before these.
WRAPPED = "-Wl,--wrap=malloc,--wrap=realloc"

# What the folder of a library has.
LIBRARY = ("libsre_c.a", "libsre_c.so", "sre.h")

# Which libraries a shared object may need by manylinux2014.
MANYLINUX = {"libc.so.6", "libm.so.6", "libdl.so.2", "libpthread.so.0", "librt.so.1", "ld-linux-x86-64.so.2"}

# Where a program comes from that is not found.
WANTED = {
    "rt": "the Rattle kit has it; without a kit, name a library by --library or GAFFSILVER_LIBRARY",
    COMPILER[0]: "a C compiler is needed, and CC names another",
}

# The bytecode of CPython 3.11, 3.12 and 3.13, as in gaffsilver/_engine.py.
MAGICS = 20220615, 20221023, 20230612

# What a Python tells of itself.
ASKED = """
import json, sys, sysconfig
try:
    from _sre import MAGIC
except ImportError:
    MAGIC = None
print(json.dumps({
    "version": sys.version_info[:2], "implementation": sys.implementation.name,
    "include": sysconfig.get_paths()["include"], "suffix": sysconfig.get_config_var("EXT_SUFFIX"),
    "platform": sysconfig.get_platform(), "has_lock": not sysconfig.get_config_var("Py_GIL_DISABLED"), "magic": MAGIC,
}))
"""

METADATA = """Metadata-Version: 2.1
Name: gaffsilver
Version: {version}
Summary: Python's re over a regex engine whose answers are proved
License: MIT
Requires-Python: >=3.11
Classifier: License :: OSI Approved :: MIT License
Classifier: Operating System :: POSIX :: Linux
Classifier: Programming Language :: Python :: 3.11
Classifier: Programming Language :: Python :: 3.12
Classifier: Programming Language :: Python :: 3.13
Classifier: Programming Language :: Python :: Implementation :: CPython
Classifier: Topic :: Text Processing
Classifier: Typing :: Typed
Description-Content-Type: text/markdown

{description}"""


class Fault(Exception):
    """What keeps the build from its end, in a line."""


FAULTS = (Fault, OSError, subprocess.CalledProcessError, KeyboardInterrupt)


def read(path):
    with open(path, encoding="utf-8") as file:
        return file.read()


def run(*words, **how):
    """Runs a program, which has to end well, and returns how it ended."""
    if not shutil.which(words[0]):
        raise Fault(f"there is no {words[0]}: {WANTED.get(words[0], 'it is not found on the path')}")
    return subprocess.run(words, check=True, text=True, **how)


# ---- the library ----


def heap_file():
    """The kit's archive of the functions by which Rattle calls malloc."""
    said = run("rt", "doc", stdout=subprocess.PIPE).stdout
    return f"{os.path.dirname(said)}/c/liblibc_c.a"


def proved_archive():
    """The crate's archive, proved and built."""
    if not os.path.isdir(CRATE):
        raise Fault(f"there is no {CRATE}: name a library by --library or GAFFSILVER_LIBRARY")
    run("rt", "lib", cwd=CRATE, stdout=sys.stderr)
    return f"{CRATE}/out/libsre_c.a"


def joined(archives, into):
    """One archive of several."""
    with tempfile.TemporaryDirectory(prefix="join-") as room:
        # the script of ar takes plain names alone
        for number, it in enumerate(archives):
            shutil.copyfile(it, f"{room}/{number}.a")
        script = "".join(f"addlib {number}.a\n" for number in range(len(archives)))
        run("ar", "-M", input=f"create all.a\n{script}save\nend\n", cwd=room)
        shutil.copyfile(f"{room}/all.a", into)


def build_library(folder, archive=None):
    """Puts the library into a folder, as an archive and as what ctypes loads, with its header."""
    os.makedirs(folder, exist_ok=True)
    made = f"{folder}/libsre_c.a"
    joined([archive or proved_archive(), heap_file()], made)
    shutil.copyfile(f"{CRATE}/include/sre.h", f"{folder}/sre.h")
    run(
        *COMPILER, *LINKED, "-o", f"{folder}/libsre_c.so", f"-Wl,--version-script={ROOT}/embedding/exports.map",
        "-Wl,--whole-archive", made, "-Wl,--no-whole-archive",
    )


@contextlib.contextmanager
def library_at(named, archive=None):
    """The folder of a library: the one that is named, or else one that is made for now."""
    with tempfile.TemporaryDirectory(prefix="library-") as room:
        if not named:
            build_library(room, archive)
        library = os.path.realpath(named or room)
        lacking = [it for it in LIBRARY if not os.path.isfile(f"{library}/{it}")]
        if lacking:
            raise Fault(f"{library} has no {' and no '.join(lacking)}: `build.py library` makes such a folder")
        yield library


# ---- the package ----


def facts_of(python):
    """What a Python tells of itself."""
    said = run(python, "-c", ASKED, stdout=subprocess.PIPE).stdout
    if not said.startswith("{"):
        raise Fault(f"{python}: this is no Python")
    facts = json.loads(said)
    check_facts(python, facts)
    return facts


def check_facts(python, facts):
    """Refuses a Python that the package is not for."""
    if facts["implementation"] != "cpython" or facts["version"] < [3, 11]:
        raise Fault(f"{python}: the package is for CPython 3.11 to 3.13")
    if facts["magic"] not in MAGICS:
        raise Fault(f"{python}: its regex bytecode (magic {facts['magic']}) is not that of CPython 3.11 to 3.13")
    if not facts["has_lock"]:
        raise Fault(f"{python}: the package is for a Python with the global lock, and this is a free-threaded build")


def lack_of_extension(facts):
    """Why the extension cannot be built for a Python, if so."""
    if not shutil.which(COMPILER[0]):
        return f"there is no {COMPILER[0]}"
    header = f"{facts['include']}/Python.h"
    return None if os.path.isfile(header) else f"there is no {header}"


def across_files():
    """The flag by which the compiler optimises across files, if its linker has the plugin for that."""
    words = [*COMPILER, "-flto", "-shared", "-fPIC", "-x", "c", os.devnull, "-o", os.devnull]
    return [] if subprocess.run(words, capture_output=True).returncode else ["-flto"]


def build_extension(facts, library, into):
    sources = sorted(f"{HERE}/native/{it}" for it in os.listdir(f"{HERE}/native") if it.endswith(".c"))
    made = f"{into}/_native{facts['suffix']}"
    # asserts name files, wherever these are
    named = [f"-ffile-prefix-map={it}=." for it in (HERE, facts["include"])]
    run(
        *COMPILER, *named, *across_files(), *FLAGS, f"-I{library}", f"-I{facts['include']}", *sources,
        f"{library}/libsre_c.a", "-o", made, *LINKED, WRAPPED, f"-Wl,--version-script={HERE}/native/exports.map",
        "-Wl,--gc-sections",
    )


def build_package(folder, library, python):
    """Puts the package for a Python into a folder: what that told of itself, and whether there is the extension."""
    facts, into = facts_of(python), f"{folder}/gaffsilver"
    shutil.copytree(f"{HERE}/gaffsilver", into, ignore=shutil.ignore_patterns("__pycache__"), dirs_exist_ok=True)
    with open(f"{into}/_version.py", "w", encoding="utf-8") as file:
        file.write(f'__version__ = "{version()}"\n')
    shutil.copyfile(f"{library}/libsre_c.so", f"{into}/libsre_c.so")
    run(python, f"{into}/_unicode.py", f"{into}/unicode.bin")
    lack = lack_of_extension(facts)
    if lack:
        print(f"{python}: no extension, since {lack}; the package asks the library by ctypes")
    else:
        build_extension(facts, library, into)
    return facts, not lack


# ---- the wheel ----


def newest_change():
    """The year, month and day of the newest change."""
    return tuple(map(int, re.search(r"(?m)^## (\d+)-(\d+)-(\d+)", read(f"{ROOT}/CHANGELOG.md")).groups()))


def version():
    return "{}.{}.{}".format(*newest_change())


def metadata():
    """The text of METADATA; what describes the package is the head of its page."""
    return METADATA.format(version=version(), description=read(f"{ROOT}/docs/PYTHON.md").partition("\n## ")[0])


def seconds_of_tree():
    """The time of a wheel's files, in seconds since 1970: that of the environment, the commit or the newest change."""
    named = os.environ.get("SOURCE_DATE_EPOCH")
    if not named and os.path.exists(f"{ROOT}/.git") and shutil.which("git"):
        words = ["git", "-C", ROOT, "log", "-1", "--format=%ct"]
        named = subprocess.run(words, capture_output=True, text=True).stdout.strip()
    if named and not named.isdecimal():
        raise Fault(f"SOURCE_DATE_EPOCH: {named} is no number of seconds")
    # a zip file knows no time before 1980
    return max(int(named or calendar.timegm((*newest_change(), 0, 0, 0))), calendar.timegm((1980, 1, 1, 0, 0, 0)))


def is_manylinux(headers):
    """Whether a shared object with these headers, as objdump writes them, runs wherever manylinux2014 says."""
    versions = re.findall(r"0x\w+ 0x\w+ \d+ (\S+)", headers)
    known = [re.fullmatch(r"GLIBC_(\d+)\.(\d+)(\.\d+)?", it) for it in versions]
    is_old = all(it and (int(it[1]), int(it[2])) <= (2, 17) for it in known)
    return is_old and {"libc.so.6"} <= set(re.findall(r"NEEDED +(\S+)", headers)) <= MANYLINUX


def headers_of(path):
    """The headers of a shared object; none without objdump."""
    if not shutil.which("objdump"):
        return ""
    return subprocess.run(["objdump", "-p", path], stdout=subprocess.PIPE, stderr=subprocess.DEVNULL, text=True).stdout


def tag_of(facts, has_extension, folder):
    """The tag of a wheel that has a package in a folder."""
    platform = re.sub(r"[-.]", "_", facts["platform"])
    shared = [f"{folder}/{it}" for it in os.listdir(folder) if it.endswith(".so")]
    if platform == "linux_x86_64" and all(is_manylinux(headers_of(it)) for it in shared):
        platform = "manylinux2014_x86_64"
    name = "cp{}{}".format(*facts["version"])
    return f"{name}-{name}-{platform}" if has_extension else f"py3-none-{platform}"


def row(name, data):
    """A line of RECORD."""
    digest = base64.urlsafe_b64encode(hashlib.sha256(data).digest()).rstrip(b"=").decode()
    return f"{name},sha256={digest},{len(data)}\n"


def files_in(folder, part):
    """The bytes of a file in a folder, or of each file below a part of it, by its path there."""
    paths = [f"{folder}/{part}"] if os.path.isfile(f"{folder}/{part}") else []
    for at, _, names in os.walk(f"{folder}/{part}"):
        paths += [f"{at}/{name}" for name in names if not at.endswith("__pycache__")]
    files = {}
    for path in paths:
        with open(path, "rb") as file:
            files[os.path.relpath(path, folder)] = file.read()
    return files


def write_wheel(path, files, tag):
    """Writes a wheel of these files, and of what tells of it: in one order, with one time, and modes that are fixed."""
    info, when = f"gaffsilver-{version()}.dist-info", time.gmtime(seconds_of_tree())[:6]
    files = {**dict(sorted(files.items())), f"{info}/METADATA": metadata().encode()}
    files[f"{info}/LICENSE"] = read(f"{ROOT}/LICENSE").encode()
    files[f"{info}/WHEEL"] = f"Wheel-Version: 1.0\nGenerator: build\nRoot-Is-Purelib: false\nTag: {tag}\n".encode()
    rows = "".join(row(*it) for it in files.items())
    files[f"{info}/RECORD"] = f"{rows}{info}/RECORD,,\n".encode()
    with zipfile.ZipFile(path, "w") as wheel:
        for name, data in files.items():
            entry = zipfile.ZipInfo(name, when)
            entry.external_attr = (0o100755 if name.endswith(".so") else 0o100644) << 16
            wheel.writestr(entry, data, zipfile.ZIP_DEFLATED)


def build_wheel(folder, library, python):
    """Puts a wheel for a Python into a folder, and returns its path."""
    os.makedirs(folder, exist_ok=True)
    with tempfile.TemporaryDirectory(prefix="wheel-") as room:
        tag = tag_of(*build_package(room, library, python), f"{room}/gaffsilver")
        path = f"{folder}/gaffsilver-{version()}-{tag}.whl"
        write_wheel(path, files_in(room, "gaffsilver"), tag)
    return path


# ---- the release ----


def pythons_of_release():
    """A Python of each version that the package is for, where it is found."""
    sys.path.append(f"{ROOT}/tools")
    from embedding import found_pythons

    pythons, lacking = found_pythons()
    for version in lacking:
        print(f"no wheel for Python {version}, which is not found")
    return list(pythons.values())


def build_release(folder, library, pythons):
    """Puts what is published into a folder: the library, its modules, its licence, wheels, and the sums of all."""
    for path in (*(f"{library}/{it}" for it in LIBRARY), f"{ROOT}/embedding/sre.rs", f"{ROOT}/LICENSE"):
        shutil.copy(path, folder)
    for it in pythons:
        if "-py3-none-" in build_wheel(folder, library, it):
            raise Fault(f"{it}: a wheel of a release has the extension")
    files = sorted(files_in(folder, ".").items())
    sums = "".join(f"{hashlib.sha256(data).hexdigest()}  {name}\n" for name, data in files)
    with open(f"{folder}/SHA256SUMS", "w", encoding="utf-8") as file:
        file.write(sums)
    print(sums, end="")


def build(given, library):
    """Makes over a library what is asked."""
    pythons = given.python or [sys.executable]
    if given.what == "package":
        build_package(given.folder, library, pythons[0])
    elif given.what == "wheel":
        for it in pythons:
            print(build_wheel(given.folder, library, it))
    else:
        build_release(given.folder, library, given.python or pythons_of_release())


def main(words):
    parser = argparse.ArgumentParser(description=__doc__, formatter_class=argparse.RawDescriptionHelpFormatter)
    parser.add_argument("what", choices=["library", "package", "wheel", "release"])
    parser.add_argument("folder")
    parser.add_argument("python", nargs="*", default=[])
    named = os.environ.get("GAFFSILVER_LIBRARY")
    parser.add_argument("--library", default=named, help="a folder that `library` has made; or GAFFSILVER_LIBRARY")
    parser.add_argument("--archive", help="the archive of sre_c that was built before")
    given = parser.parse_intermixed_args(words)
    if given.what == "library":
        build_library(given.folder, given.archive)
        return 0
    os.makedirs(given.folder, exist_ok=True)
    if given.what == "release" and os.listdir(given.folder):
        raise Fault(f"{given.folder} is not empty: a release takes a folder of its own")
    with library_at(given.library, given.archive) as library:
        build(given, library)
    return 0


def line_of(error):
    """A fault in a line."""
    if isinstance(error, subprocess.CalledProcessError):
        return f"{error.cmd[0]} ended with status {error.returncode}"
    if isinstance(error, OSError) and error.filename:
        return f"{error.filename}: {error.strerror}"
    return str(error) or "interrupted"


def guarded(words):
    """The status of `main`; after a fault one line, and 1."""
    try:
        return main(words)
    except FAULTS as error:
        print(f"build.py: {line_of(error)}", file=sys.stderr)
        return 1


if __name__ == "__main__":
    sys.exit(guarded(sys.argv[1:]))
