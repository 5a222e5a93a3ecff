#!/usr/bin/env python3
"""Random calls of the package and of `re`, which have to answer the same.

    beside_re.py [COUNT [SEED]]          COUNT calls, 20,000 by itself, made from a number
    beside_re.py --threads SECONDS       in 8 threads for so long, over parts of texts that let other threads run

The texts have letters past ASCII of all sizes, surrogates, and letters whose cases are odd: dotless i, long s, the
Kelvin sign, final sigma. The status is 1 where an answer differs, but for possessive loops over a group, where CPython
is wrong (docs/DIFFERENCES.md): these are counted. Left out are windows whose start is after their end.
"""
import random
import re
import sys
import threading
import time
import warnings

import gaffsilver

LETTERS = "aAbB sSſkKK ıİiIéÉßẞ\ud800\udc00𐐀𐐨٣²Ⅷ_\n0ΣσςµμÿŸ１ǅǆᾳᾼ"
FLAGS = (0, 0, re.I, re.I, re.A, re.I | re.A, re.M, re.S | re.I)
WINDOWED = ("search", "match", "fullmatch", "findall", "finditer", "scanner")
CALLS = (*WINDOWED, "split", "sub", "sub by function")
THREADS = 8


class Maker:
    """Makes patterns and texts by a generator of numbers."""

    def __init__(self, seed):
        self.random = random.Random(seed)
        self.pick = self.random.choice

    def letter(self):
        return re.escape(self.pick(LETTERS))

    def members(self):
        count = self.random.randrange(1, 4)
        more = self.pick(["", r"\w", r"\d", "a-z", "À-ſ", "Α-ω", "ᾼ-ᾼ"])
        return f"[{self.pick(['', '^'])}{''.join(self.letter() for _ in range(count))}{more}]"

    def nested(self, depth):
        kind = self.random.randrange(8)
        if kind == 0:
            return f"(?:{self.pattern(depth)}|{self.pattern(depth)})"
        if kind == 1:
            return self.pick(["(?<=", "(?<!"]) + self.letter() + ")"
        if kind == 2:
            return r"\1"
        return self.pick(["(", "(", "(?=", "(?!", "(?>", "(?i:", "(?s-i:"]) + self.pattern(depth) + ")"

    def atom(self, depth):
        kind = self.random.randrange(14)
        if kind < 4 or (kind > 6 and depth == 0):
            return self.letter()
        if kind == 4:
            return self.pick([".", r"\w", r"\W", r"\d", r"\D", r"\s", r"\S"])
        if kind == 5:
            return self.pick(["^", "$", r"\b", r"\B", r"\A", r"\Z"])
        return self.members() if kind == 6 else self.nested(depth - 1)

    def pattern(self, depth=2):
        repeats = ["", "", "", "*", "+", "?", "*?", "+?", "{1,3}", "*+", "++", "{2}"]
        return "".join(self.atom(depth) + self.pick(repeats) for _ in range(self.random.randrange(1, 4)))

    def possessive(self):
        """A pattern with a possessive loop over a group."""
        body = f"({self.pattern(1)})" + self.pick(["", "?", "|" + self.pattern(1), "|"])
        return self.pick(["", self.letter()]) + f"(?:{body}){self.pick(['*+', '++', '{1,2}+'])}" + self.pattern(1)

    def text(self):
        return "".join(self.pick(LETTERS) for _ in range(self.random.randrange(0, 9)))

    def call(self, padding=0):
        """The arguments of `answer`. With a padding the text is longer, and the call is over what is before it."""
        pattern = self.possessive() if self.random.randrange(12) == 0 else self.pattern()
        flags, text, how = self.pick(FLAGS), self.text(), self.pick(WINDOWED if padding else CALLS)
        window = self.window(len(text))
        if padding:
            text, window = text + padding * " ", (window[0], min(window[1], len(text)))
        elif self.random.randrange(6) == 0:
            pattern, text = (it.encode("utf-8", "surrogatepass") for it in (pattern, text))
            how = self.pick([*WINDOWED, "split"])
        return how, pattern, flags, text, window

    def window(self, length):
        pos, endpos = self.pick([0, 0, 0, self.random.randrange(0, 9)]), self.random.randrange(0, 9)
        endpos = self.pick([sys.maxsize, sys.maxsize, endpos])
        return (0 if pos > min(endpos, length) else pos), endpos


def shown(match):
    return match and (match.regs, match.lastindex, match.lastgroup, match.groups(), match.pos, match.endpos)


def operators(items):
    """Each operator of a parsed pattern with its operands, at any depth."""
    for it in items:
        if isinstance(it, (re._parser.SubPattern, list, tuple)):
            if len(it) == 2 and hasattr(it[0], "name"):
                yield it[0].name, it[1]
            yield from operators(it)


def is_known(pattern, flags):
    """Whether a pattern has a possessive loop over a group, where CPython is known to be wrong."""
    for name, operands in operators(re._parser.parse(pattern, flags)):
        inside = operators(operands) if name == "POSSESSIVE_REPEAT" else ()
        if any(it == "SUBPATTERN" and of[0] is not None for it, of in inside):
            return True
    return False


def answer(module, how, pattern, flags, text, window):
    """What a call answers, or the kind of its error."""
    try:
        compiled = module.compile(pattern, flags)
    except (re.error, OverflowError, RecursionError, ValueError) as error:
        return "no pattern", type(error).__name__
    try:
        return answer_of(compiled, how, text, window)
    except SystemError as error:
        return "fault", str(error)


def answer_of(compiled, how, text, window):
    if how == "split":
        return compiled.split(text)
    if how == "sub":
        return compiled.subn(r"<\g<0>>", text)
    if how == "sub by function":
        return compiled.subn(lambda match: f"<{shown(match)}>", text)
    if how == "findall":
        return compiled.findall(text, *window)
    if how == "finditer":
        return [shown(it) for it in compiled.finditer(text, *window)]
    if how == "scanner":
        scanner = compiled.scanner(text, *window)
        return [shown(scanner.match()), shown(scanner.search()), shown(scanner.match())]
    return shown(getattr(compiled, how)(text, *window))


class Counted:
    """How many calls there were, of no pattern, different, and different where that is known."""

    def __init__(self):
        self.calls = self.no_patterns = self.different = self.known = 0

    def add(self, asked):
        """Makes a call, and tells if the answers differ where they must not."""
        theirs, ours = answer(re, *asked), answer(gaffsilver, *asked)
        self.calls += 1
        self.no_patterns += isinstance(theirs, tuple) and theirs[:1] == ("no pattern",)
        if theirs == ours:
            return
        if is_known(*asked[1:3]):
            self.known += 1
        else:
            self.different += 1
            print(f"{ascii(asked)[:2000]}: re {ascii(theirs)}, gaffsilver {ascii(ours)}", flush=True)


def in_threads(seconds, counted):
    """Makes calls in threads."""
    end = time.monotonic() + seconds

    def run(number):
        maker = Maker(number)
        while time.monotonic() < end:
            counted.add(maker.call(5000))

    threads = [threading.Thread(target=run, args=[number]) for number in range(THREADS)]
    for it in threads:
        it.start()
    for it in threads:
        it.join()


def main(words):
    warnings.simplefilter("ignore")
    counted = Counted()
    if words[:1] == ["--threads"]:
        in_threads(float(words[1]), counted)
    else:
        maker = Maker(int(words[1]) if len(words) > 1 else 1)
        for _ in range(int(words[0]) if words else 20000):
            counted.add(maker.call())
    print(
        f"{counted.calls} calls, {counted.no_patterns} of them of no pattern: {counted.different} different, "
        f"{counted.known} more where CPython is known to be wrong"
    )
    return min(1, counted.different)


if __name__ == "__main__":
    sys.exit(main(sys.argv[1:]))
