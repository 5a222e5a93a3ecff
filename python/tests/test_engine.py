"""What keeps the package from being imported, which a line has to say."""
import tempfile
import unittest

import _sre

from gaffsilver import _engine

FLAGS = "fpu sse sse2 pni ssse3 cx16 sse4_1 sse4_2 popcnt lahf_lm"


def cpuinfo(flags):
    """A file as Linux writes it; its first processor counts."""
    file = tempfile.NamedTemporaryFile("w", prefix="cpuinfo-")
    file.write(f"processor\t: 0\nmodel name\t: flags\nflags\t\t: {flags}\n\nprocessor\t: 1\nflags\t\t: fpu\n")
    file.flush()
    return file


class Refused(unittest.TestCase):
    def test_a_processor_without_the_instructions(self):
        for lacking in ("pni", "ssse3", "cx16", "sse4_1", "sse4_2", "popcnt", "lahf_lm"):
            with cpuinfo(FLAGS.replace(f" {lacking}", "")) as file:
                with self.assertRaisesRegex(ImportError, f"x86-64-v2, and this one lacks {lacking}$"):
                    _engine.check_processor(file.name)

    def test_a_processor_that_has_them_or_says_nothing(self):
        with cpuinfo(FLAGS) as file, tempfile.NamedTemporaryFile() as empty:
            for path in (file.name, empty.name, "/nothing/cpuinfo"):
                self.assertIsNone(_engine.check_processor(path))

    def test_other_bytecode(self):
        self.assertIsNone(_engine.check_bytecode(_sre.MAGIC))
        with self.assertRaisesRegex(ImportError, r"_sre.MAGIC .*, and this Python's is another one \(7\)"):
            _engine.check_bytecode(7)


if __name__ == "__main__":
    unittest.main()
