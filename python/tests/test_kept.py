"""One pattern asked many times over short texts: it keeps its DFAs, and the results are those of `re` throughout."""
import copy
import ctypes
import gc
import itertools
import pickle
import re
import sys
import threading
import unittest

import gaffsilver

BY_CTYPES = gaffsilver.Pattern.__class__.__module__ == "gaffsilver._foreign"

# Most have DFAs; with groups, empty matches, cases, lookarounds, a line start, a back-reference and a literal.
PATTERNS = (
    r"[\w.]+@[\w.]+\.\w+", r"(?i)größe|SIZE|failed", r"(\d{1,3})(?:\.\d{1,3}){3}", r"(?P<name>\w+)=(\w*)", r"\w*ing\b",
    r"[a-f]*", r"(a)|b|(?=(é))", r"\w+(?==)", r"(?m)^\w+|\w+$", r"(\w)\1", r"size",
)
LINES = (
    "let size={0} größe={1} at 10.0.0.{0}, mail user{0}@example.com\nwhile going on",
    "nothing to find in here but façade and abba, failed {0}%",
    "ÿ 192.168.{0}.{1} (Größe), ende: x@y.z é",
    "key{0}=value{1}; thing{0} bee {1}.5.",
)
KINDS = {
    "ASCII": lambda line: re.sub(r"[^\0-\x7f]", "e", line),
    "Latin-1": str,
    "wide": lambda line: line.replace("e", "ж"),
    "bytes": lambda line: line.encode("latin-1"),
}


def texts(kind, count, length=200):
    """So many texts of a kind of up to that many characters."""
    for number in range(count):
        line = LINES[number % len(LINES)].format(number, number % 7)
        yield KINDS[kind]((line + " " + LINES[0].format(1, 2) + number % 40 * " _")[: length - number % 9])


def compiled(kind, source):
    """A pattern of each module, whose engine has built nothing."""
    gaffsilver.purge()
    source = source.encode("latin-1") if kind == "bytes" else source
    return gaffsilver.compile(source), re.compile(source)


def shown(match):
    return match and (match.regs, match.lastindex, match[0])


def answers(pattern, text, **limit):
    """What the calls of a pattern return."""
    repl = b"<\\g<0>>" if isinstance(text, bytes) else r"<\g<0>>"
    return (
        [shown(getattr(pattern, call)(text, **limit)) for call in ("search", "match", "fullmatch")],
        shown(pattern.search(text, 30, 150, **limit)),
        [shown(it) for it in pattern.finditer(text, **limit)],
        pattern.findall(text, 5, **limit),
        pattern.subn(repl, text, **limit),
        pattern.split(text, 3, **limit),
    )


def steps_of(pattern, text):
    """The least step limit by which a new search returns."""
    for limit in itertools.count():
        try:
            pattern.search(text, max_steps=limit)
            return limit
        except gaffsilver.StepLimitExceeded:
            pass


class Mallinfo(ctypes.Structure):
    """What glibc reports of its heap."""

    _fields_ = [(it, ctypes.c_size_t) for it in (
        "arena", "ordblks", "smblks", "hblks", "hblkhd", "usmblks", "fsmblks", "uordblks", "fordblks", "keepcost")]


def bytes_in_use():
    """How many bytes malloc has given out; 0 if the C library does not tell."""
    gc.collect()
    report = getattr(ctypes.CDLL(None), "mallinfo2", None)
    if report is None:
        return 0
    report.restype = Mallinfo
    heap = report()
    return heap.uordblks + heap.hblkhd


class Kept(unittest.TestCase):
    def test_short_texts(self):
        for kind, source in itertools.product(KINDS, PATTERNS):
            ours, theirs = compiled(kind, source)
            for number, text in enumerate(texts(kind, 100)):
                limit = {"max_steps": 10**7} if number % 3 == 0 else {}
                with self.subTest(kind, pattern=source, number=number):
                    self.assertEqual(answers(ours, text, **limit), answers(theirs, text))

    def test_short_beside_long_ones(self):
        long = "".join(texts("wide", 60))
        for source in PATTERNS:
            ours, theirs = compiled("Latin-1", source)
            for number, text in enumerate(texts("Latin-1", 100)):
                self.assertEqual(ours.findall(text), theirs.findall(text), (source, number))
                if number % 20 == 0:
                    self.assertEqual(answers(ours, long), answers(theirs, long), (source, number))

    @unittest.skipIf(BY_CTYPES, "by ctypes each call builds its own")
    def test_it_keeps_them(self):
        ours, _ = compiled("ASCII", r"[\w.]+@[\w.]+\.\w+")
        other, text = ours.within(10**9), 40 * "word "
        before = steps_of(ours, text)
        self.assertGreater(before, 20)
        for _ in range(300):
            self.assertEqual(ours.findall(text), [])
        self.assertLess(steps_of(ours, text), 10)
        self.assertIs(copy.deepcopy(ours), ours)
        for fresh in (other, pickle.loads(pickle.dumps(ours)).within(5), ours.within(6)):
            self.assertEqual(steps_of(fresh, text), before)

    def test_threads(self):
        ours, theirs = compiled("Latin-1", r"(\w+)=(\w*)|[\w.]+@[\w.]+\.\w+")
        kinds = ("Latin-1", "ASCII", "wide", "Latin-1")
        long = ["".join(texts(kind, 100 + 9 * number)) for number, kind in enumerate(kinds)]
        wanted, failed = [answers(theirs, it) for it in long], []

        def ask(number):
            for _ in range(15):
                if answers(ours, long[number]) != wanted[number]:
                    failed.append(number)

        def ask_all():
            threads = [threading.Thread(target=ask, args=(it,)) for it in range(len(long))]
            for it in threads:
                it.start()
            for it in threads:
                it.join()

        self.addCleanup(sys.setswitchinterval, sys.getswitchinterval())
        sys.setswitchinterval(1e-5)
        self.assert_nothing_is_left(ask_all)
        self.assertEqual(failed, [])

    def test_a_pattern_frees_them(self):
        short, long = [*texts("Latin-1", 40)], "".join(texts("wide", 60))

        def ask():
            ours, _ = compiled("Latin-1", r"\w{1,30}\W\w{1,30}q")
            rest = ours.finditer(long)
            for text in short:
                ours.findall(text)
            ours.findall(long)
            del ours  # the iterator holds it
            next(rest, None)

        self.assert_nothing_is_left(lambda: [ask() for _ in range(40)])

    def assert_nothing_is_left(self, call):
        """A call that was made before takes little more memory: some DFAs may be built late."""
        call()
        before = bytes_in_use()
        call()
        self.assertLess(bytes_in_use() - before, 300_000)


if __name__ == "__main__":
    unittest.main()
