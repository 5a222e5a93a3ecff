"""Long texts past Latin-1, which the extension reads as UTF-8: the results of `re`, with positions in characters."""
import re
import unittest

import gaffsilver

# A unit of each kind of text, and words that each text ends in.
UNITS = {
    "Cyrillic": "ключ=12 дом, ",
    "CJK": "鍵=12 家、\n",
    "emoji": "😀🦊=12 🚀 a1, ",
    "mixed": "let é=12 ключ=٣ 鍵 😀 x_1\n",
}
END = "ё@дом.рф é=7"
PATTERNS = (
    r"(\w+)=(\d+)", r"\w+", r"\s", r"[\w.]+@[\w.]+\.\w+", r"(?<=\d) ", r"(?m)^\W", r"дом|家|🚀|é", r"(?i)ДОМ", r"(\w)\1",
    r"\b", r"ё(?=@)", r"none", r"(?:x+x+)+y", r"[^=]*\Z", r"(?P<a>=)(?P<b>\d)?",
)
# Numbers of characters: below what is read as UTF-8, about that, and well over it.
LENGTHS = 4095, 4096, 9000


def texts():
    """A name and a text for each kind and length, and some with lone surrogates."""
    for name, unit in UNITS.items():
        for length in LENGTHS:
            yield f"{name}, {length}", (length * unit)[: length - len(END)] + END
        long = 400 * unit
        yield f"{name}, a surrogate inside", f"{long}\ud800 {long}{END}"
        yield f"{name}, a surrogate at the end", f"{long}{END}\udc00"


def shown(match):
    return match and (match.regs, match.lastindex, match.groups(), match[0])


def answers(compiled, text, pos, endpos):
    """What the calls of a pattern return: those of a range, and those of the whole text."""
    return (
        compiled.findall(text, pos, endpos),
        [shown(it) for it in compiled.finditer(text, pos, endpos)],
        shown(compiled.search(text, pos, endpos)),
        compiled.split(text),
        compiled.split(text, 3),
        compiled.subn(r"<\g<0>>", text),
        compiled.sub(lambda match: str(match.span()), text),
    )


class Wide(unittest.TestCase):
    def test_each_kind_and_length(self):
        for name, text in texts():
            for source in PATTERNS:
                ours, theirs = gaffsilver.compile(source), re.compile(source)
                for pos, endpos in ((0, len(text)), (17, len(text) - 3)):
                    with self.subTest(name, pattern=source, pos=pos):
                        self.assertEqual(answers(ours, text, pos, endpos), answers(theirs, text, pos, endpos))

    def test_positions_count_characters(self):
        for letter in "ж鍵😀":
            text = 50_000 * letter + "x12 " + 5000 * letter
            for source in ("x12", r"x\d+ ", r"(?:none)?x..", r"(x)\d+"):
                compiled = gaffsilver.compile(source)
                self.assertEqual([it.start() for it in compiled.finditer(text)], [50_000], (letter, source))
                for pos in (0, 1, 49_990, 50_000):
                    self.assertEqual(compiled.search(text, pos).start(), 50_000, (letter, source, pos))
                self.assertIsNone(compiled.search(text, 50_001))
                self.assertIsNone(compiled.search(text, 0, 50_001))

    def test_within_a_step_limit(self):
        for name, text in texts():
            for source in (r"(\w+)=(\d+)", r"[\w.]+@[\w.]+\.\w+", r"(?<=\d) "):
                ours, theirs = gaffsilver.compile(source, max_steps=10**8), re.compile(source)
                with self.subTest(name, pattern=source):
                    self.assertEqual(answers(ours, text, 0, len(text)), answers(theirs, text, 0, len(text)))
                    with self.assertRaises(gaffsilver.StepLimitExceeded):
                        ours.within(20).findall(text)  # without the DFAs of `ours`

    def test_the_matches_of_a_limit_come_first(self):
        text = 20_000 * "ключ=12 "
        for limit in (100, 1000, 10_000, 100_000):
            walk, found = gaffsilver.finditer(r"(\w+)=(\d+)", text, max_steps=limit), []
            with self.assertRaises(gaffsilver.StepLimitExceeded) as caught:
                found.extend(it.span() for it in walk)
            self.assertEqual(found, [(8 * at, 8 * at + 7) for at in range(len(found))])
            self.assertLessEqual(caught.exception.pos, 8 * len(found))

    def test_a_scanner(self):
        text = 3000 * "дом, " + "ключ=12 " + 3000 * "дом, " + "ключ=13"
        scanners = [it.compile(r"(\w+)=(\d+)").scanner(text, 3) for it in (gaffsilver, re)]
        for call in ("search", "match", "search", "search"):
            self.assertEqual(*(shown(getattr(it, call)()) for it in scanners))


if __name__ == "__main__":
    unittest.main()
