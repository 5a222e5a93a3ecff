"""Random and changed words, as `check` lines for the program `sre_cases`, and whether they are a code.

`cases.py` holds the program to the reader of `grammar.py`. Most random lists are codes in which a few words were
changed, since words that are drawn one by one are hardly ever a code. At least a fifth of them have to be codes, and a
fifth none. The same seed gives the same lists.

To these come the codes of the probes that are refused memory, which have items of most families: each cut short at each
place, and with each word changed. Where such a list is a code, `sre_probes` matches and searches short texts within
a step limit, and a search finds what a match at the window's start finds.
"""
import random
import re

from grammar import CATEGORIES, NUMBER, OPCODES, OPERANDS, POSITIONS, UNLIMITED, Reader, case_words, family_of
from repository import ROOT, answers, read

FOLDS = ("_IGNORE", "_LOC_IGNORE", "_UNI_IGNORE")
REFERENCES, SETS = ([name + it for it in ("", *FOLDS)] for name in ("GROUPREF", "IN"))
LITERALS = ["LITERAL", "NOT_LITERAL", *(name + it for name in ("LITERAL", "NOT_LITERAL") for it in FOLDS)]
RUNS = ["REPEAT_ONE", "MIN_REPEAT_ONE", "POSSESSIVE_REPEAT_ONE"]
PLAIN = ["FAILURE", "AT", "MARK", *REFERENCES, "ANY", "ANY", "ANY"]
KINDS = ["BRANCH", "REPEAT", "POSSESSIVE_REPEAT", "ATOMIC_GROUP", "ASSERT", "ASSERT_NOT", "GROUPREF_EXISTS", *RUNS]
MEMBERS = ["LITERAL", "LITERAL", "RANGE", "RANGE_UNI_IGNORE", "CATEGORY", "NEGATE", "CHARSET", "BIGCHARSET"]

# Short texts with windows in them, and more steps than a code of few words takes there, but for one that counts far.
TEXTS, STEPS = ("s: 0..9", "s:61 0..9", "s:6162 0..9", "s:6162 1..1"), 10_000


class Writer:
    """Writes random codes, with names of opcodes until one is whole."""

    counts_of_items = range(4)

    def __init__(self, dice):
        self.dice = dice

    def number(self):
        return self.dice.choice((0, 1, 2, 3, 15, 16, 97, 98, UNLIMITED, self.dice.randrange(len(OPCODES))))

    def counts(self):
        return sorted((self.number(), self.number()))

    def alone(self, opcode):
        """An item that is its opcode and operands."""
        if opcode in ("AT", "CATEGORY"):
            return [opcode, self.dice.randrange(len(POSITIONS if opcode == "AT" else CATEGORIES))]
        return [opcode, *(self.number() for _ in range(family_of(OPERANDS, opcode)))]

    def member(self):
        opcode = self.dice.choice(MEMBERS)
        if opcode == "BIGCHARSET":
            # no block stands but in few lists, since they are long
            return [opcode, 1, *[0] * 72] if self.dice.random() < 0.02 else []
        return self.alone(opcode)

    def test(self):
        opcode = self.dice.choice(("ANY", "ANY_ALL", "CATEGORY", "LITERAL", *LITERALS, "IN", *SETS))
        if opcode not in SETS:
            return self.alone(opcode)
        items = [word for _ in range(self.dice.randrange(4)) for word in self.member()]
        return [opcode, len(items) + 2, *items, "FAILURE"]

    def branch(self, depth):
        parts = [self.items(depth) for _ in range(self.dice.randrange(1, 4))]
        words = ["BRANCH"]
        for at, part in enumerate(parts):
            words += [len(part) + 3, *part, "JUMP", 2 + sum(len(it) + 3 for it in parts[at + 1:])]
        return [*words, 0]

    def condition(self, depth):
        yes = self.items(depth)
        if self.dice.random() < 0.5:
            return ["GROUPREF_EXISTS", self.number(), len(yes) + 2, *yes]
        no = self.items(depth)
        return ["GROUPREF_EXISTS", self.number(), len(yes) + 4, *yes, "JUMP", len(no) + 1, *no]

    def kind(self, depth):
        """An opcode, of which ANY stands for any test."""
        return self.dice.choice((*PLAIN, *(KINDS if depth else RUNS)))

    def item(self, depth):
        opcode = self.kind(depth)
        if opcode in PLAIN:
            return self.test() if opcode == "ANY" else self.alone(opcode)
        if opcode in RUNS:
            test = self.test()
            return [opcode, len(test) + 4, *self.counts(), *test, "SUCCESS"]
        if opcode in ("BRANCH", "GROUPREF_EXISTS"):
            return (self.branch if opcode == "BRANCH" else self.condition)(depth - 1)
        body = self.items(depth - 1)
        if opcode in ("REPEAT", "POSSESSIVE_REPEAT"):
            until = self.dice.choice(("MAX_UNTIL", "MIN_UNTIL")) if opcode == "REPEAT" else "SUCCESS"
            return [opcode, len(body) + 3, *self.counts(), *body, until]
        back = [] if opcode == "ATOMIC_GROUP" else [self.number()]
        return [opcode, len(back) + len(body) + 2, *back, *body, "SUCCESS"]

    def items(self, depth):
        return [word for _ in range(self.dice.choice(self.counts_of_items)) for word in self.item(depth)]

    def code(self):
        block = []
        if self.dice.random() < 0.2:
            claims = [self.number() for _ in range(self.dice.randrange(3, 9))]
            block = ["INFO", len(claims) + 1, *claims]
        return [NUMBER.get(it, it) for it in [*block, *self.items(3), "SUCCESS"]]

    def changed(self, words):
        """Words of which one was changed, taken out, put in or moved."""
        words, at = list(words), self.dice.randrange(len(words))
        how = self.dice.randrange(6)
        if how < 2:
            words[at] = min(max(words[at] + (1, -1)[how], 0), UNLIMITED)
        elif how == 2:
            words[at] = self.number()
        elif how == 3 and len(words) > 1:
            del words[at]
        elif how == 4:
            words.insert(at, self.number())
        else:
            words.insert(self.dice.randrange(len(words)), words.pop(at))
        return words

    def words(self):
        if self.dice.random() < 0.05:
            return [self.number() for _ in range(self.dice.randrange(12))]
        words = self.code()
        for _ in range(self.dice.choice((0, 1, 1, 1, 2, 3))):
            words = self.changed(words)
        return words


def random_lists(count=50_000, seed=1):
    writer = Writer(random.Random(seed))
    return [writer.words() for _ in range(count)]


def changed_lists():
    """The codes of the probes that are refused memory, each cut short at each place and with each word changed."""
    found = re.findall(r"(?:match|search|walk) ([0-9,]+) ", read(f"{ROOT}/tests/sre_probes/cases/refusals.txt"))
    lists = []
    for words in ([int(it) for it in words.split(",")] for words in dict.fromkeys(found)):
        lists += [words[:at] for at in range(len(words) + 1)]
        for at, word in enumerate(words):
            others = (word + 1, max(word - 1, 0), 0, 1, 15, UNLIMITED)
            lists += [[*words[:at], min(other, UNLIMITED), *words[at + 1:]] for other in others]
    return lists


def are_judged(program, tell, lists, of_kind):
    """Whether a program judges all lists as the reader does, and there are enough of both kinds."""
    lines, codes = [f"check {case_words(it)}" for it in lists], [Reader(it).is_code for it in lists]
    told = [it.partition(" ")[0] for it in answers(program, lines)]
    differing = [line for line, is_a_code, one in zip(lines, codes, told) if one != ("ok" if is_a_code else "refused")]
    for line in differing[:10]:
        tell(f"judged otherwise: {line}")
    tell(f"{len(told)} of {len(lists)} {of_kind} lists of words, {sum(codes)} of them codes:"
         f" {len(differing)} are judged otherwise")
    fifth = len(lists) / 5
    return len(told) == len(lists) and not differing and fifth <= sum(codes) <= 4 * fifth


def runs(lists):
    """Two lines for each code and text, but where a mark's number would have its list grow without end."""
    for words in lists:
        is_far = any(opcode == NUMBER["MARK"] and number > 10_000 for opcode, number in zip(words, words[1:]))
        if not is_far and Reader(words).is_code:
            for text in TEXTS:
                yield [f"within {STEPS} {verb} {case_words(words)} {text} -" for verb in ("match", "search")]


def agree(program, tell):
    """Whether a search of changed words finds what a match at the window's start finds, if that finds something."""
    asked = list(runs(changed_lists()))
    told = answers(program, [it for pair in asked for it in pair])
    pairs = list(zip(told[::2], told[1::2]))
    differing = [line for (line, _), (one, other) in zip(asked, pairs) if one.startswith("yes ") and one != other]
    known = re.compile("yes |no$|step limit exceeded$")
    other = [line for (line, _), it in zip(asked, pairs) for word in it if not known.match(word)]
    for line in [*differing, *other][:10]:
        tell(f"found otherwise: {line}")
    found = sum(one.startswith("yes ") for one, _ in pairs)
    tell(f"{len(pairs)} of {len(asked)} runs of changed words, {found} with a match: {len(differing)} differ")
    return len(pairs) == len(asked) and not differing and not other and found > 1000
