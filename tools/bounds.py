#!/usr/bin/env python3
"""The step bound of patterns, computed from docs/MEMOIZATION.md and not from the engine.

    bounds.py PATTERN..            the bound at 100 and 10,000 characters, or why there is none
    bounds.py --of FILE            the same as a table, of the patterns of a file as examples/patterns.txt

`cases.py` holds random codes to `sre_probes`: its bound is the one computed here, and each search is within it.
"""
import random

import grammar
import repository
from ending import ended
from grammar import NUMBER, UNLIMITED, case_words
from hostile import Writer

REPEATS = ("REPEAT_ONE", "MIN_REPEAT_ONE", "POSSESSIVE_REPEAT_ONE")
LOOKAROUNDS = ("ASSERT", "ASSERT_NOT")
SCOPES = (*LOOKAROUNDS, "ATOMIC_GROUP", "POSSESSIVE_REPEAT")
BRANCHING = (*REPEATS, "BRANCH", "REPEAT", "POSSESSIVE_REPEAT")
MOST_STATES, FEW_STATES, MOST_NESTED = 2 ** 24, 4096, 100


class Unbounded(Exception):
    """Why a pattern has no bound, and the address where that is seen."""


def counted_to(low, high):
    return low if high == UNLIMITED else max(low, high)


def states(low, high):
    """The counter states of a loop."""
    return 2 * (counted_to(low, high) + 1)


def inside(item):
    """The items of an item's bodies."""
    return [] if item.name in REPEATS or item.name.startswith("IN") else [it for body in item.parts for it in body]


def within(item):
    """An item, and all items inside it."""
    yield item
    for it in inside(item):
        yield from within(it)


class Bound:
    """The bound of a code for a text of so many characters.

    Items are gone over from the last to the first, since the steps up to an item that may branch count with those of
    the items before it.
    """

    def __init__(self, code, characters):
        self.items, self.end, self.cost = grammar.Reader(code).tree, characters, 0
        block = code[1] + 1 if code[0] == NUMBER["INFO"] else 0
        places, every = len(code) - block, [it for item in self.items for it in within(item)]
        for item in every:
            if item.name.startswith("GROUPREF"):
                raise Unbounded(f"a back-reference or conditional at {item.place}")
        inner = {it: [*within(it)][1:] for it in every if it.name in SCOPES}
        forks = [it for it in inner if it.name == "POSSESSIVE_REPEAT" or any(x.name in BRANCHING for x in inner[it])]
        marked = [x for it in inner for x in inner[it] if x.name == "MARK"]
        if forks and marked:
            place = marked[0].place
            raise Unbounded(f"a capture at {place} in an atomic scope, and the one at {forks[0].place} branches")
        self.sides = 2 if forks else 1
        self.longest = max([0, *(it.words[1] for it in every if it.name in LOOKAROUNDS)])
        most = max([1, *map(self.most_states, self.items)])
        rows = most * 2 * (self.end + 1) // 64 + 1
        if most > MOST_STATES or most > FEW_STATES and rows > 2 ** 24 or places * rows > 2 ** 30:
            raise Unbounded(f"{most} counter states, for which there is no room")
        if max([0, *map(self.depth, self.items)]) > MOST_NESTED:
            raise Unbounded(f"items nested more than {MOST_NESTED} deep")

    def most_states(self, item):
        """The counter states of loops within each other, at most."""
        most = max([1, *map(self.most_states, inside(item))])
        if item.name == "REPEAT":
            return most * states(*item.words[1:3])
        return max(most, states(*item.words[1:3])) if item.name == "POSSESSIVE_REPEAT" else most

    def depth(self, item):
        return max([0, *map(self.depth, inside(item))]) + (item.name in (*SCOPES, "BRANCH", "REPEAT"))

    def pay(self, loops, cost):
        self.cost += loops * self.sides * cost

    def steps(self, items, follow, loops):
        """The steps up to the first item that may branch, where so many follow, under loops of so many states."""
        for item in reversed(items):
            follow = self.of(item, follow, loops)
        return follow

    def of(self, item, follow, loops):
        """The steps from an item on, where so many follow it. One that may branch is a step, and pays for the rest."""
        if item.name in REPEATS:
            low, high = item.words[1:3]
            ends = 0 if high == UNLIMITED or item.name == REPEATS[2] else max(0, min(high, self.end) - low)
            self.pay(loops, (1 + ends) * (follow + 2) + min(counted_to(low, high), self.end) // 8)
        elif item.name == "BRANCH":
            self.pay(loops, sum(self.steps(it, follow + 1, loops) + 2 for it in item.parts) + 1)
        elif item.name == "REPEAT":
            of_loop = loops * states(*item.words[1:3])
            body = self.steps(item.parts[0], 1, of_loop)
            self.pay(loops, body + follow + 2)
            self.pay(of_loop, body + follow + 1)
        elif item.name == "POSSESSIVE_REPEAT":
            body = self.steps(item.parts[0], 2, 1)
            self.pay(loops, 1)
            self.pay(loops * states(*item.words[1:3]), body + follow + 1)
        elif item.name in SCOPES:
            return 2 + self.steps(item.parts[0], 2, 1) + follow
        return 1 if item.name in (*BRANCHING, "FAILURE") else 1 + follow

    def number(self):
        follow = most = 2
        for item in reversed(self.items):
            follow = self.of(item, follow, 1)
            most = max(most, follow)
        each = 1 + min(self.longest, self.end) // 8
        number = (self.end + 1) * (32 + (1 + most + self.cost) * each) + 1
        if number >= 2 ** 64:
            raise Unbounded("more than 64 bits")
        return number


def bound(code, characters):
    """The bound and no reason, or none and the reason."""
    try:
        return Bound(code, characters).number(), None
    except Unbounded as reason:
        return None, str(reason)


def line(name, code):
    numbers = [bound(code, it) for it in (100, 10_000)]
    shown = [f"{number:,}" if number else f"none: {reason}" for number, reason in numbers]
    return f"| `{name}` | {' | '.join(shown if numbers[0][0] else shown[:1])} |"


class Looping(Writer):
    """Writes codes of nested loops, greedy, lazy and possessive, branches, scopes and counts, over few letters."""

    counts_of_items = range(1, 4)

    def number(self):
        """How far a look goes back."""
        return 0

    def counts(self):
        low = self.dice.choice([0, 0, 1, 1, 2])
        return [low, self.dice.choice([UNLIMITED, UNLIMITED, max(low, 1), low + 2])]

    def test(self):
        return ["LITERAL", ord(self.dice.choice("aaab"))]

    def kind(self, depth):
        inner = [*SCOPES, "BRANCH", "BRANCH", *4 * ["REPEAT"]] if depth else []
        return self.dice.choice([*inner, *2 * REPEATS, *4 * ["ANY"]])

    def code(self):
        end = ["LITERAL", ord("c")] if self.dice.random() < .7 else []
        return [NUMBER.get(it, it) for it in [*self.items(3), *end, "SUCCESS"]]


def held(program, tell, count=1000, seed=7):
    """Whether the engine has the bound of each of so many random codes, and answers a search within it."""
    draw, asked = random.Random(seed), []
    for _ in range(count):
        code, text = Looping(draw).code(), bytes(draw.choices(b"aaaab", k=draw.randint(0, 40)))
        asked.append((case_words(code), text, bound(code, len(text))[0]))
    probes = [f"within {number or 0} search {code} b:{text.hex()} all -" for code, text, number in asked]
    answers = repository.answers(program, probes + [f"enough {len(text)} check {code}" for code, text, _ in asked])
    if len(answers) != 2 * count:
        tell(f"{program} has no answer to each of {2 * count} lines")
        return False
    failed = 0
    for (code, text, number), found, ours in zip(asked, answers, answers[count:]):
        if ours != str(number or "none") or number and found == "step limit exceeded":
            tell(f"{code} over {text}: {number} computed, {ours} by the engine, whose search within it is: {found}")
            failed += 1
    return not failed


def main(given):
    if not given or given == ["--help"] or given[0] == "--of" and len(given) != 2:
        return None
    import words  # which ends an older Python

    if given[0] == "--of":
        blocks = words.blocks_of(given[1])
        named = [(it["name"][0], words.pattern_of("\n".join(it["pattern"]), it["flags"], it["bytes"])) for it in blocks]
    else:
        named = [(it, words.compiled(it, 0)) for it in given]
    print("| Pattern | 100 characters | 10,000 characters |\n|---|---|---|")
    print(*(line(name, it.words) for name, it in named), sep="\n")
    return 0


if __name__ == "__main__":
    ended(main)
