"""What `build.py` makes of a library that was built before, without a compiler and without a kit."""
import glob
import importlib.util
import os
import stat
import subprocess
import sys
import tarfile
import tempfile
import unittest
import zipfile

HERE = os.path.dirname(os.path.dirname(os.path.realpath(__file__)))
spec = importlib.util.spec_from_file_location("build", f"{HERE}/build.py")
build = importlib.util.module_from_spec(spec)
spec.loader.exec_module(build)

FACTS = {"version": [3, 13], "implementation": "cpython", "has_lock": True, "magic": 20230612}


# What objdump writes of a shared object.
HEADERS = """
Dynamic Section:
  NEEDED               libc.so.6
  SONAME               libit.so

Version definitions:
1 0x01 0x0865f4e6 libit.so
Version References:
  required from libc.so.6:
    0x09691a75 0x00 03 GLIBC_2.2.5
    0x06969194 0x00 02 GLIBC_2.14
"""


class Building(unittest.TestCase):
    def setUp(self):
        room = tempfile.TemporaryDirectory(prefix="build-")
        self.addCleanup(room.cleanup)
        self.room = room.name

    def build(self, *words, **named):
        """How build.py ended that finds no program, and what it said."""
        how = {"capture_output": True, "text": True, "env": {"PATH": self.room, **named}}
        ran = subprocess.run([sys.executable, f"{HERE}/build.py", *words], **how)
        return ran.returncode, ran.stdout + ran.stderr

    def library(self):
        """A folder that has what a library's has, in name."""
        folder = f"{self.room}/library"
        os.makedirs(folder, exist_ok=True)
        for name in ("libsre_c.a", "libsre_c.so", "sre.h"):
            with open(f"{folder}/{name}", "w", encoding="utf-8") as file:
                file.write(name)
        return folder

    def wheel(self, folder, **named):
        """The path of a wheel without an extension."""
        status, said = self.build("wheel", f"{self.room}/{folder}", "--library", f"{self.room}/library", **named)
        self.assertEqual(status, 0, said)
        return said.splitlines()[-1]

    def test_two_wheels_are_the_same(self):
        self.library()
        made = []
        for folder in ("one", "two"):
            with open(self.wheel(folder), "rb") as file:
                made.append(file.read())
        self.assertEqual(*made)

    def test_the_entries_of_a_wheel(self):
        self.library()
        with zipfile.ZipFile(self.wheel("one", SOURCE_DATE_EPOCH="1000000000")) as wheel:
            entries = wheel.infolist()
            info = f"gaffsilver-{build.version()}.dist-info"
            told = wheel.read(f"{info}/METADATA").decode()
            self.assertIn("MIT License", wheel.read(f"{info}/LICENSE").decode())
        for it in entries:
            self.assertEqual(it.date_time, (2001, 9, 9, 1, 46, 40))
            self.assertEqual(stat.S_IMODE(it.external_attr >> 16), 0o755 if it.filename.endswith(".so") else 0o644)
        names = [it.filename for it in entries if not it.filename.startswith(info)]
        self.assertEqual(names, sorted(names))
        for line in ("Requires-Python: >=3.11", "License: MIT", "Classifier: Typing :: Typed", "# In Python"):
            self.assertIn(f"\n{line}\n", told)

    def test_an_odd_time_is_refused(self):
        self.library()
        ended = self.build("wheel", self.room, "--library", f"{self.room}/library", SOURCE_DATE_EPOCH="today")
        self.assertEqual(ended[0], 1)
        self.assertIn("SOURCE_DATE_EPOCH: today is no number of seconds", ended[1])

    def test_faults_are_a_line(self):
        library, one = self.library(), f"{self.room}/one"
        given = ("--library", library)
        for words, line in (
            (("library", one), "there is no rt: the Rattle kit has it; without a kit, name a library by --library or"),
            (("library", one, "--archive", f"{library}/libsre_c.a"), "there is no rt: "),
            (("wheel", one), "there is no rt: "),
            (("wheel", one, "--library", self.room), f"{self.room} has no libsre_c.a and no libsre_c.so and no sre.h"),
            (("wheel", f"{library}/sre.h", *given), f"{library}/sre.h: File exists"),
            (("release", self.room, *given), f"{self.room} is not empty"),
            (("package", one, *given, "python0"), "there is no python0: it is not found on the path"),
            (("package", one, *given, "/bin/true"), "/bin/true: this is no Python"),
        ):
            status, said = self.build(*words)
            self.assertEqual((status, said.count("\n")), (1, 1), said)
            self.assertIn(f"build.py: {line}", said)

    def asked(self, call, **named):
        """How a call of the backend ended in its folder, as pip calls it, and what it said."""
        words = [sys.executable, "-B", "-c", f"import backend; print(backend.{call})"]
        ran = subprocess.run(words, cwd=HERE, capture_output=True, text=True, env={"PATH": self.room, **named})
        return ran.returncode, ran.stdout.rpartition("\n")[0].rpartition("\n")[2], ran.stderr

    def test_the_backend(self):
        status, name, _ = self.asked(f"build_wheel({self.room!r})", GAFFSILVER_LIBRARY=self.library())
        self.assertEqual(status, 0)
        with zipfile.ZipFile(f"{self.room}/{name}") as wheel:
            self.assertIsNone(wheel.testzip())
        status, _, said = self.asked(f"build_wheel({self.room!r})")
        self.assertEqual((status, said.count("\n")), (1, 1), said)
        self.assertIn("there is no rt", said)

    def test_the_sources_make_the_same_wheel(self):
        """The archive of the sources has all that a wheel needs besides the library."""
        _, name, _ = self.asked(f"build_sdist({self.room!r})", SOURCE_DATE_EPOCH="1000000000")
        with tarfile.open(f"{self.room}/{name}") as archive:
            archive.extractall(self.room, **({"filter": "data"} if hasattr(tarfile, "data_filter") else {}))
        top = f"{self.room}/{name.removesuffix('.tar.gz')}"
        for name in ("PKG-INFO", "LICENSE", "pyproject.toml", "python/native/module.c"):
            self.assertTrue(os.path.isfile(f"{top}/{name}"), name)
        words = ["wheel", f"{self.room}/two", "--library", self.library()]
        how = {"env": {"PATH": self.room, "SOURCE_DATE_EPOCH": "1000000000"}, "check": True}
        subprocess.run([sys.executable, f"{top}/python/build.py", *words], stdout=subprocess.DEVNULL, **how)
        with open(self.wheel("one", SOURCE_DATE_EPOCH="1000000000"), "rb") as one:
            with open(glob.glob(f"{self.room}/two/*.whl")[0], "rb") as two:
                self.assertEqual(one.read(), two.read())

    def test_a_package_over_a_package(self):
        for _ in range(2):
            status, said = self.build("package", f"{self.room}/one", "--library", self.library(), CC="no-compiler")
            self.assertEqual(status, 0, said)
            self.assertIn("no extension, since there is no no-compiler", said)

    def test_a_release_has_the_extension(self):
        ended = self.build("release", f"{self.room}/one", sys.executable, "--library", self.library())
        self.assertEqual(ended[0], 1)
        self.assertIn("a wheel of a release has the extension", ended[1])

    def test_what_manylinux_allows(self):
        self.assertTrue(build.is_manylinux(HEADERS))
        for old, new in (
            ("GLIBC_2.14", "GLIBC_2.18"),
            ("GLIBC_2.14", "GLIBC_PRIVATE"),
            ("GLIBC_2.14", "GLIBC_ABI_DT_RELR"),
            ("libc.so.6\n", "libc.so.6\n  NEEDED               libz.so.1\n"),
            (" libc.so.6\n", " libc.musl-x86_64.so.1\n"),
            (HEADERS, ""),
        ):
            self.assertFalse(build.is_manylinux(HEADERS.replace(old, new)), new)

    def test_flags_of_the_environment_come_last(self):
        how = {"capture_output": True, "text": True, "env": {"CFLAGS": "-O3 '-DA=b c'", "LDFLAGS": "-Wl,-z,lazy"}}
        words = [sys.executable, "-B", "-c", "from build import *; print(FLAGS[-2:], LINKED[-1])"]
        ran = subprocess.run(words, cwd=HERE, **how)
        self.assertEqual(ran.stdout, "['-O3', '-DA=b c'] -Wl,-z,lazy\n")

    def test_pythons_that_are_refused(self):
        build.check_facts("it", FACTS)
        build.check_facts("it", {**FACTS, "version": [3, 14]})
        for fact, words in (
            ({"has_lock": False}, "free-threaded"),
            ({"version": [3, 10]}, "CPython 3.11 to 3.13"),
            ({"version": [3, 14], "magic": 20990101}, "magic 20990101. is not that of CPython 3.11 to 3.13"),
            ({"implementation": "pypy"}, "CPython 3.11 to 3.13"),
        ):
            with self.assertRaisesRegex(build.Fault, words):
                build.check_facts("it", {**FACTS, **fact})


if __name__ == "__main__":
    unittest.main()
