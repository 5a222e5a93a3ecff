"""What `python3 -m gaffsilver audit` finds in sources, prints, and returns as its status."""
import json
import os
import subprocess
import sys
import tempfile
import unittest

GROUPS = "a capture group inside an atomic scope, and an atomic scope that may branch"
STATES = "too many counter states or nested too deep"

# A source, and for each call that is found its line, pattern, flags, verdict and reason.
SOURCES = (
    ('import re\nre.compile("a+")', (2, "a+", 0, "bounded", None)),
    ('import re as r, os\nr.search(r"\\d", x, r.I | r.X)', (2, r"\d", 66, "bounded", None)),
    ('from re import sub as s, M\ns("a", "", x, 0, M)', (2, "a", 8, "bounded", None)),
    ('from re import *\nsplit(",", x, 1, ASCII)', (2, ",", 256, "bounded", None)),
    ('def f():\n    import re\n    re.findall(b"\\xff", x)', (3, "\xff", 0, "bounded", None)),
    ('import re\nre.match(pattern="a", flags=re.S, string=x)', (2, "a", 16, "bounded", None)),
    ('import re\nre.compile("a" f"b"\n + "c", re.DEBUG)', (2, "abc", 0, "bounded", None)),
    ('import re\nA = "a"\nB: str = A + r"\\b"\nF = re.I\nre.finditer(B, x, F)', (5, r"a\b", 2, "bounded", None)),
    ('import re\nA = re.compile("a")\nre.sub(A, "", x)', (2, "a", 0, "bounded", None)),
    (r'import re; re.subn(r"(a)\1", "", x)', (1, r"(a)\1", 0, "no step bound", "a back-reference")),
    ('import re; re.compile("(a)?(?(1)b)")', (1, "(a)?(?(1)b)", 0, "no step bound", "a conditional")),
    ('import re; re.fullmatch("(?>(a)|bc)", x)', (1, "(?>(a)|bc)", 0, "no step bound", GROUPS)),
    ('import re; re.compile("(?:a(b))*+")', (1, "(?:a(b))*+", 0, "no step bound", GROUPS)),
    ('import re; re.compile("(?=(a))(?:b)*+")', (1, "(?=(a))(?:b)*+", 0, "bounded", None)),
    ('import re; re.compile("(?:(?:aa+){9999})*")', (1, "(?:(?:aa+){9999})*", 0, "bounded", None)),
    ('import re; re.compile("(?:(?:aa+){9999}b){9999}")', (1, "(?:(?:aa+){9999}b){9999}", 0, "no step bound", STATES)),
    ('import re; re.compile("(a")',
     (1, "(a", 0, "does not compile", "missing ), unterminated subpattern at position 0")),
    ('import re; re.compile(b"a", re.U)',
     (1, "a", 32, "does not compile", "cannot use UNICODE flag with a bytes pattern")),
    ('import re; re.compile(x)', (1, None, 0, "not constant", None)),
    ('import re\nA = "a"\nA += "b"\nre.compile(A)', (4, None, 0, "not constant", None)),
    ('import re\nA = "a"\ndef f(A): re.compile(A)', (3, None, 0, "not constant", None)),
    ('import re; re.compile(f"{x}")', (1, None, 0, "not constant", None)),
    ('import re; re.compile("a", x)', (1, None, 0, "not constant", None)),
    ('import re; re.compile("a", *x)', (1, None, 0, "not constant", None)),
    ('import re; re.compile("a", **x)', (1, None, 0, "not constant", None)),
    ('import re; re.compile()', (1, None, 0, "not constant", None)),
    ('import os\nre.compile("a")\nos.search("a")\n"a".split("b")',),
    ('from .re import compile\ncompile("a")',),
    ("",),
)


def audit(*words):
    """The status, output and errors of a call."""
    ran = subprocess.run([sys.executable, "-m", "gaffsilver", *words], capture_output=True, text=True, encoding="utf-8")
    return ran.returncode, ran.stdout, ran.stderr


class Audit(unittest.TestCase):
    def setUp(self):
        self.room = self.enterContext(tempfile.TemporaryDirectory())

    def write(self, name, source):
        path = f"{self.room}/{name}"
        os.makedirs(os.path.dirname(path), exist_ok=True)
        with open(path, "w", encoding="utf-8") as file:
            file.write(source)
        return path

    def test_each_source(self):
        for number, (source, *_) in enumerate(SOURCES):
            self.write(f"{number:02}.py", source)
        status, printed, errors = audit("audit", "--json", self.room)
        self.assertEqual((status, errors), (1, ""))
        found = {}
        for it in json.loads(printed):
            fields = tuple(it[name] for name in ("line", "pattern", "flags", "verdict", "reason"))
            found.setdefault(os.path.basename(it["file"]), []).append(fields)
        for number, (source, *expected) in enumerate(SOURCES):
            with self.subTest(source):
                self.assertEqual(found.get(f"{number:02}.py", []), expected)

    def test_objects_of_json(self):
        path = self.write("a.py", "import re\nre.compile(rb'\\w+=')\nre.match(x, y)")
        constant, other = json.loads(audit("audit", "--json", path)[1])
        # the bound of docs/MEMOIZATION.md: 41 steps for each of n + 1 positions, and one
        self.assertEqual(constant, {
            "file": path, "line": 2, "function": "compile", "verdict": "bounded", "pattern": r"\w+=", "is_bytes": True,
            "flags": 0, "steps": {"1000": 41_042, "10000": 410_042}, "reason": None,
        })
        self.assertEqual(other, {
            "file": path, "line": 3, "function": "match", "verdict": "not constant", "pattern": None, "is_bytes": False,
            "flags": 0, "steps": {}, "reason": None,
        })

    def test_lines_and_status(self):
        path = self.write("b/b.py", "import re\nre.compile('\\\\w+=')\nre.compile(x)")
        line = f"{path}:2: '\\\\w+=': bounded, 41,042 steps at 1,000 characters, 410,042 at 10,000\n"
        line += f"{path}:3: re.compile: not constant\n"
        total = "1 patterns: 1 bounded, 0 without a bound, 0 that do not compile; 1 not constant\n"
        self.assertEqual(audit("audit", path), (0, line + total, ""))
        source = "import re\nre.compile('(a)\\\\1'); re.compile('(?:ab){1,99999}')\nre.compile('(')"
        other = self.write("a/a.py", source)
        status, printed, errors = audit("audit", self.room)
        self.assertEqual((status, errors), (1, ""))
        unbounded, long, faulty, *rest = printed.splitlines(True)
        self.assertEqual(unbounded, f"{other}:2: '(a)\\\\1': no step bound: a back-reference\n")
        self.assertRegex(long, rf"2: '.*': no step bound, [\d,]+ steps at 1,000 characters: {STATES}\n")
        self.assertTrue(faulty.startswith(f"{other}:3: '(': does not compile: missing )"))
        total = "4 patterns: 1 bounded, 2 without a bound, 1 that do not compile; 1 not constant\n"
        self.assertEqual("".join(rest), line + total)

    def test_wrong_usage_and_paths(self):
        broken, nothing = self.write("broken.py", "import re\nre.compile('a'"), f"{self.room}/nothing.py"
        for words in ((), ("audit",), ("other", self.room), ("audit", "--other", self.room)):
            status, printed, errors = audit(*words)
            self.assertEqual((status, printed, errors[:7]), (2, "", "usage: "))
        for path, said in ((broken, "cannot be parsed: '(' was never closed (broken.py, line 2)"),
                           (nothing, "No such file or directory")):
            status, printed, errors = audit("audit", path)
            self.assertEqual((status, errors), (2, f"audit: {path}: {said}\n"))


if __name__ == "__main__":
    unittest.main()
