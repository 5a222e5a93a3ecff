"""A library with another ABI than the package, which an import refuses; and the structs by ctypes beside `sre.h`."""
import ctypes
import importlib.util
import os
import re
import shutil
import subprocess
import sys
import tempfile
import unittest

import gaffsilver

HERE = os.path.dirname(os.path.dirname(os.path.realpath(__file__)))
HEADER = f"{os.path.dirname(HERE)}/crates/sre_c/include/sre.h"
spec = importlib.util.spec_from_file_location("build", f"{HERE}/build.py")
build = importlib.util.module_from_spec(spec)
spec.loader.exec_module(build)

IMPORTING = """
import gaffsilver
gaffsilver.compile("a")
"""


def header():
    with open(HEADER, encoding="utf-8") as file:
        return file.read()


def number():
    return int(re.search(r"#define SRE_ABI (\d+)", header())[1])


@unittest.skipUnless(os.path.isfile(HEADER), f"there is no {HEADER}")
class OtherLibrary(unittest.TestCase):
    """Libraries whose functions do nothing, but for `sre_abi`."""

    def setUp(self):
        if not shutil.which("cc"):
            self.skipTest("there is no cc")
        room = tempfile.TemporaryDirectory(prefix="library-")
        self.addCleanup(room.cleanup)
        self.room = room.name
        package = os.path.dirname(gaffsilver.__file__)
        left_out = shutil.ignore_patterns("_native*", "libsre_c.so", "__pycache__")
        shutil.copytree(package, f"{self.room}/gaffsilver", ignore=left_out)

    def stub(self, abi):
        """Compiles a library that returns a number; or without `sre_abi`, if there is none."""
        names = set(re.findall(r"\b(sre_\w+)\(", header())) - {"sre_abi"}
        lines = [f"void {it}(void) {{}}" for it in names]
        lines += [] if abi is None else [f"unsigned sre_abi(void) {{ return {abi}u; }}"]
        with open(f"{self.room}/stub.c", "w", encoding="utf-8") as file:
            file.write("\n".join(lines))
        subprocess.run(["cc", "-fPIC", "-c", "stub.c", "-o", "stub.o"], cwd=self.room, check=True)
        return f"{self.room}/stub.o"

    def imported(self, **named):
        """The status of a program that imports the package, and the last line that it prints."""
        paths = {"PYTHONPATH": self.room, "PYTHONDONTWRITEBYTECODE": "1", "PATH": os.environ.get("PATH", "")}
        ran = subprocess.run([sys.executable, "-c", IMPORTING], capture_output=True, text=True, env={**paths, **named})
        return ran.returncode, ran.stderr.strip().rpartition("\n")[2]

    def by_ctypes(self, abi):
        made = f"{self.room}/gaffsilver/libsre_c.so"
        subprocess.run(["cc", "-shared", self.stub(abi), "-o", made], check=True)
        return self.imported(GAFFSILVER_ENGINE="ctypes")

    def by_extension(self, abi):
        facts = build.facts_of(sys.executable)
        lack = build.lack_of_extension(facts)
        if lack:
            self.skipTest(lack)
        subprocess.run(["ar", "rcs", f"{self.room}/libsre_c.a", self.stub(abi)], check=True)
        shutil.copy(HEADER, self.room)
        build.build_extension(facts, self.room, f"{self.room}/gaffsilver")
        return self.imported()

    def test_another_number(self):
        line = f"has the ABI {number() + 1}, and this package needs {number()}"
        for call in (self.by_ctypes, self.by_extension):
            with self.subTest(call.__name__):
                status, said = call(number() + 1)
                self.assertEqual((status, said.split(":")[0]), (1, "ImportError"), said)
                self.assertTrue(said.endswith(line), said)

    def test_no_number(self):
        for call, line in ((self.by_ctypes, "has no ABI"), (self.by_extension, "undefined symbol: sre_abi")):
            with self.subTest(call.__name__):
                status, said = call(None)
                self.assertEqual((status, said.split(":")[0]), (1, "ImportError"), said)
                self.assertIn(line, said)


# The types of C by those of ctypes; a pointer is any.
TYPES = {"uint32_t": "c_uint", "uint64_t": "c_ulong", "size_t": "c_ulong", "ptrdiff_t": "c_long", "bool": "c_bool"}


def declared(kind):
    """The type of a field as the header names it; `*` for a pointer."""
    if kind is ctypes.c_void_p or hasattr(kind, "contents"):
        return "*"
    return f"sre_{kind.__name__.lower()}" if issubclass(kind, ctypes.Structure) else kind.__name__


@unittest.skipUnless(os.path.isfile(HEADER), f"there is no {HEADER}")
class Structs(unittest.TestCase):
    """The structs of gaffsilver._library beside those of the header."""

    def setUp(self):
        from gaffsilver import _library

        self.library, text = _library, re.sub(r"/\*.*?\*/", "", header(), flags=re.S)
        self.structs = dict(re.findall(r"typedef struct sre_(\w+) \{(.*?)\}", text, re.S))
        self.sizes = dict(re.findall(r"sizeof\(sre_(\w+)\) == (\d+)", text))

    def fields(self, body):
        """The names and types of a struct's fields, in order."""
        for kind, pointer, name in re.findall(r"(\w+) (\*?)(\w+);", body):
            yield name, pointer or TYPES.get(kind, kind)

    def test_fields_and_sizes(self):
        self.assertEqual({*self.structs}, {*self.sizes})
        for name, body in self.structs.items():
            struct = getattr(self.library, name.title())
            with self.subTest(name):
                self.assertEqual([(it, declared(kind)) for it, kind in struct._fields_], [*self.fields(body)])
                self.assertEqual(ctypes.sizeof(struct), int(self.sizes[name]))

    def test_the_number(self):
        self.assertEqual(self.library.ABI, number())


if __name__ == "__main__":
    unittest.main()
