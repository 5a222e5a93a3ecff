"""Calls over long texts beside another thread: when that runs, and that the calls return and charge the same."""
import sys
import threading
import time
import unittest

import gaffsilver

BY_CTYPES = gaffsilver.Pattern.__class__.__module__ == "gaffsilver._foreign"

# Patterns with a text that is all of a match: of some steps, and of more than are taken before other threads run.
CALLS = (
    (r"\w+ ", "word "),
    (r"(\w)(?:[ab]|\1)*c", 9 * "ab" + "c"),
    (r"(?:(x)|x+x+)+z|x+", 14 * "x"),
    (r"(?:\w\w?)*c", 400 * "ab" + "c"),
    (r"(?:(a)|b)*c", 400 * "ab" + "c"),
)


def least(call):
    """The least step limit by which a call returns a match."""
    low, high = 0, 1 << 20
    while low < high:
        middle = (low + high) // 2
        try:
            assert call(max_steps=middle)
            high = middle
        except gaffsilver.StepLimitExceeded:
            low = middle + 1
    return low


class Beside(unittest.TestCase):
    """Another thread counts whenever it runs. Only a call that lets the lock go gives it the time to."""

    def setUp(self):
        self.count, self.is_over = 0, False
        thread = threading.Thread(target=self.count_on)
        self.addCleanup(thread.join)
        self.addCleanup(setattr, self, "is_over", True)
        self.addCleanup(sys.setswitchinterval, sys.getswitchinterval())
        sys.setswitchinterval(1000)
        thread.start()

    def count_on(self):
        while not self.is_over:
            self.count += 1
            time.sleep(0.0005)

    def counted(self, call):
        """How often the other thread ran during a call."""
        before = self.count
        call()
        return self.count - before

    def test_the_same_steps_are_charged(self):
        charged = []
        for pattern, text in CALLS:
            compiled, long = gaffsilver.compile(pattern), text + 5000 * " "
            for call in (compiled.match, compiled.fullmatch, compiled.search):
                with self.subTest(pattern, call=call.__name__):
                    charged.append(least(lambda max_steps: call(text, max_steps=max_steps)))
                    steps = least(lambda max_steps: call(long, 0, len(text), max_steps=max_steps))
                    self.assertEqual(steps, charged[-1])
                    self.assertEqual(call(long, 0, len(text)).span(), (0, len(text)))
        self.assertLess(min(charged), 1000)
        self.assertGreater(max(charged), 1000)

    def test_it_runs_during_a_long_call(self):
        text = 2500 * "xy" + 20 * "x"
        compiled = gaffsilver.compile(r"(?:(x)|x+x+)+y\1", max_steps=6_000_000)

        def call():
            with self.assertRaises(gaffsilver.StepLimitExceeded) as caught:
                compiled.match(text, 5000)
            self.assertEqual((caught.exception.pos, caught.exception.max_steps), (5000, 6_000_000))

        self.assertGreater(self.counted(call), 3)
        self.assertGreater(self.counted(lambda: gaffsilver.findall("x|y", 500 * text)), 3)

    @unittest.skipIf(BY_CTYPES, "each call by ctypes lets the lock go")
    def test_a_call_of_few_steps_keeps_the_lock(self):
        text, match = 2000 * "word ", gaffsilver.compile(r"(\w+)(?: |$)").match

        def lex():
            at = 0
            while at < len(text):
                at = match(text, at).end()

        self.assertEqual(self.counted(lambda: [lex() for _ in range(20)]), 0)


if __name__ == "__main__":
    unittest.main()
