"""The stored lists of Unicode data: they are those that this Python gives, and only they are taken."""
import tempfile
import unittest

from gaffsilver import _unicode


class Stored(unittest.TestCase):
    def test_they_are_the_computed_lists(self):
        lower, upper, alnum, digits = stored = _unicode.stored()
        self.assertEqual(stored, _unicode.computed())
        self.assertTrue(lower and upper and alnum and digits)

    def test_other_lists_are_not_taken(self):
        with open(_unicode._PATH, "rb") as file:
            data = file.read()
        head = data.partition(b"\n")[0]
        with tempfile.TemporaryDirectory() as room:
            path = f"{room}/unicode.bin"
            self.assertIsNone(_unicode.stored(path))
            for written, is_taken in (
                (data, True),
                (data.replace(head, b"gaffsilver 3.10 Unicode 13.0.0"), False),
                (data.replace(b"Unicode 1", b"Unicode 2", 1), False),
                (data[:-1], False),
                (data + b"\0", False),
                (data[: len(head) + 9], False),
                (b"", False),
            ):
                with open(path, "wb") as file:
                    file.write(written)
                self.assertEqual(_unicode.stored(path) is not None, is_taken)


if __name__ == "__main__":
    unittest.main()
