"""Subinterpreters: each has its own classes, limits and errors, and answers as the main one; and the module's end."""
import contextlib
import gc
import importlib.util
import os
import sys
import threading
import unittest
import weakref

import gaffsilver

BY_CTYPES = gaffsilver.Pattern.__class__.__module__ == "gaffsilver._foreign"
IS_NEW = sys.version_info >= (3, 13)
if IS_NEW:
    import _interpreters
else:
    import _xxsubinterpreters as _interpreters


def create(has_lock):
    """A new interpreter: with a lock of its own, or with that of this one, as under mod_wsgi."""
    if IS_NEW:
        return _interpreters.create("isolated" if has_lock else "legacy")
    return _interpreters.create(isolated=has_lock)


def run(interpreter, text):
    """Runs a text in an interpreter. What it raises is raised here, in words."""
    text = f"import sys; sys.path[:] = {sys.path!r}\n{text}"
    if not IS_NEW:
        _interpreters.run_string(interpreter, text)
        return
    failed = _interpreters.exec(interpreter, text)
    if failed is not None:
        raise AssertionError(failed.formatted)


@contextlib.contextmanager
def interpreters(number, has_lock):
    """A list of so many new interpreters, which are destroyed at the end if they are still in it."""
    made = [create(has_lock) for _ in range(number)]
    try:
        yield made
    finally:
        for it in made:
            _interpreters.destroy(it)


# Which locks an interpreter may have. CPython 3.11 has one for all, and by ctypes, 3.12 has no others.
LOCKS = [False] if sys.version_info < (3, 12) or (BY_CTYPES and not IS_NEW) else [False, True]

ASKED = r"""
import gaffsilver, re

def answers():
    text, long = "let größe=12, depth=7", 3000 * "a=1 bc=22 "
    match = gaffsilver.search(r"(?P<name>\w+)=(\d+)", text)
    yield match.span(), match.groups(), match.groupdict(), match.expand(r"\2<\g<name>>"), repr(match)
    yield repr(gaffsilver.compile(b"(?i)a\xff", re.M))
    yield gaffsilver.split(rb"\W+", b"a b-c"), gaffsilver.sub(".", "<>", "abc")
    yield gaffsilver.findall(r"(\w+)=(\d+)", long) == 3000 * [("a", "1"), ("bc", "22")]
    yield [it.span() for it in gaffsilver.finditer(r"\w+", text)]
    yield gaffsilver.compile("a|b").scanner("cb").search().span()
    for asked in (lambda: gaffsilver.search(r"(?:(x)|x+x+)+y\1", 60 * "x", max_steps=1000), lambda: re.compile("(a")):
        try:
            yield asked()
        except (gaffsilver.StepLimitExceeded, gaffsilver.error) as error:
            yield repr(error)
"""

# The same in an interpreter, which also has a limit and installs the engine.
JUDGED = ASKED + r"""
expected = {expected}
gaffsilver.set_default_max_steps(10**7)
gaffsilver.install()
assert type(re.compile("a")) is gaffsilver.Pattern and isinstance(re.search("a", "a"), gaffsilver.Match)
gaffsilver.uninstall()
for _ in range({times}):
    for one, other in zip(answers(), expected, strict=True):
        assert one == other, (one, other)
"""


def judged(times=1):
    own = {}
    exec(ASKED, own)
    return JUDGED.replace("{expected}", repr([*own["answers"]()])).replace("{times}", str(times))


class Subinterpreters(unittest.TestCase):
    def tearDown(self):
        gaffsilver.set_default_max_steps(None)

    def test_each_answers_as_the_main_one(self):
        for has_lock in LOCKS:
            with self.subTest(has_lock=has_lock), interpreters(2, has_lock) as made:
                for it in made + made:
                    run(it, judged())
        self.assertIsNone(gaffsilver.get_default_max_steps())
        self.assertFalse(gaffsilver.is_installed())
        with self.assertRaises(gaffsilver.StepLimitExceeded):
            gaffsilver.search(r"(?:(x)|x+x+)+y\1", 60 * "x", max_steps=1000)

    def test_in_parallel_threads(self):
        for has_lock in LOCKS:
            with self.subTest(has_lock=has_lock), interpreters(3, has_lock) as made:
                failed, text = [], judged(2 if BY_CTYPES else 30)

                def work(interpreter):
                    try:
                        run(interpreter, text)
                    except BaseException as error:
                        failed.append(error)

                threads = [threading.Thread(target=work, args=(it,)) for it in made]
                for it in threads:
                    it.start()
                exec(text, {})
                for it in threads:
                    it.join()
                self.assertEqual(failed, [])

    def test_after_one_is_destroyed(self):
        for has_lock in LOCKS:
            with self.subTest(has_lock=has_lock), interpreters(2, has_lock) as made:
                for it in made:
                    run(it, judged())
                _interpreters.destroy(made.pop(0))
                run(made[0], judged())
            exec(judged(), {})

    @unittest.skipUnless(BY_CTYPES and sys.version_info[:2] == (3, 12), "the engine runs with any lock")
    def test_ctypes_refuses_another_lock(self):
        with interpreters(1, True) as made:
            with self.assertRaisesRegex(_interpreters.RunFailedError, "ImportError.*subinterpreters"):
                run(made[0], "import gaffsilver")

    @unittest.skipIf(BY_CTYPES, "it is about the extension")
    def test_nothing_is_left_of_them(self):
        text = """
import os

class Sentinel:
    def __del__(self, write=os.write):
        write({}, b"x")

import gaffsilver
from gaffsilver import _native

kept = [gaffsilver.sub("(a)", r"<\\1>", "a"), gaffsilver.search("é", "é"), gaffsilver.finditer("a", "aa")]
kept.append(_native.compile("a", 0, [1], 0, {"a": Sentinel()}, ()))
_native.set_twins(Sentinel(), None)
"""
        read, write = os.pipe()
        self.addCleanup(os.close, read)
        with open(write, "wb"):
            for has_lock in LOCKS:
                for _ in range(50):
                    with interpreters(1, has_lock) as made:
                        run(made[0], text.replace("{}", str(write), 1))
        self.assertEqual(len(os.read(read, 4096)), 2 * 50 * len(LOCKS))


def types():
    """The names of the extension's types, once all is freed that can be."""
    gaffsilver.purge()  # templates hold patterns
    gc.collect()
    names = "Type", "Pattern", "Match", "Matches", "SRE_Scanner"
    return sorted(it.__name__ for it in gc.get_objects() if isinstance(it, type) and it.__name__ in names)


@unittest.skipIf(BY_CTYPES, "it is about the extension")
class Modules(unittest.TestCase):
    """Further modules of the extension in this interpreter."""

    def module(self):
        return importlib.util.module_from_spec(importlib.util.find_spec("gaffsilver._native"))

    def filled(self):
        made = self.module()
        made.__spec__.loader.exec_module(made)
        return made

    def compiled(self, module):
        return module.compile("a", 32, [14, 4, 0, 1, 1, 16, 97, 1], 0, {}, ())

    def test_two_have_nothing_in_common(self):
        one, other = self.filled(), self.filled()
        self.assertIsNot(one.Pattern, other.Pattern)
        one.set_default_max_steps(5)
        self.assertIsNone(other.get_default_max_steps())
        pattern = self.compiled(one)
        self.assertIsInstance(pattern, one.Pattern)
        self.assertNotIsInstance(pattern, other.Pattern)
        self.assertNotEqual(pattern, self.compiled(other))
        self.assertEqual(pattern, self.compiled(one))
        one.set_twins(int, str)
        self.assertIsInstance(1, one.Pattern)
        self.assertNotIsInstance(1, other.Pattern)

    def test_a_pattern_outlives_the_name_of_its_module(self):
        pattern = self.compiled(self.filled())
        gc.collect()
        self.assertEqual(pattern.search("ba").span(), (1, 2))
        self.assertEqual(repr(pattern), "re.compile('a')")
        self.assertEqual(pattern.sub(r"<\g<0>>", "ba"), "b<a>")

    def test_it_is_freed(self):
        before, module = types(), self.filled()
        pattern = self.compiled(module)
        match, iterator, scanner = pattern.search("a"), pattern.finditer("aa"), pattern.scanner("a")
        self.assertTrue(next(iterator) and scanner.search() and pattern.sub(r"<\g<0>>", "a"))
        module.itself = module, match, iterator, scanner, pattern
        seen = weakref.ref(module), weakref.ref(pattern)
        self.assertEqual(len(types()), len(before) + 5)
        del module, pattern, match, iterator, scanner
        self.assertEqual(types(), before)
        self.assertEqual([it() for it in seen], [None, None])

    def test_calls_keep_the_references(self):
        module = self.filled()
        pattern = self.compiled(module)
        match, iterator, scanner = pattern.search("a"), pattern.finditer("a"), pattern.scanner("a")
        kinds = [type(it) for it in (pattern, match, iterator, scanner)] + [type(module.Pattern), module]
        before = [sys.getrefcount(it) for it in kinds]
        for _ in range(100):
            self.compiled(module).within(5).search("ba")
            [*pattern.finditer("aa")], pattern.scanner("a").match(), pattern.sub(lambda it: it[0], "a")
            isinstance(1, module.Pattern), isinstance(match, module.Match)
            for wrong in (pattern.scanner, pattern.finditer, pattern.search):
                with self.assertRaises(TypeError):
                    wrong(b"a")
            with self.assertRaises(RuntimeError):
                module.compile("a", 0, [99], 0, {}, ())
        self.assertEqual([sys.getrefcount(it) for it in kinds], before)

    def test_one_that_is_not_initialized(self):
        module = self.module()
        for call in (
            lambda: self.compiled(module), lambda: module.set_default_max_steps(1), module.get_default_max_steps,
            lambda: module.set_twins(None, None),
        ):
            with self.assertRaisesRegex(SystemError, "not initialized"):
                call()


if __name__ == "__main__":
    unittest.main()
